"""`lotos-test`: the scenarios and sessions of a project as its tests."""
import json
import os
import shutil
import signal
import subprocess
import time
import unittest

import pytest

from .helpers import COMPANIONS, EXAMPLES, HERE, PROGRAM, FolderTest, read

RING = """specification Ring [ring, halt] : noexit behaviour Bell[ring, halt] where
  process Bell[ring, halt] : noexit := ring; (i; Bell[ring, halt] [] halt; Bell[ring, halt]) endproc
endspec
"""

# A program that says with its number that it runs, and then is busy for ever, whatever happens to its input.
BUSY = '''#!/usr/bin/env python3
import os, signal, time
signal.signal(signal.SIGINT, signal.SIG_IGN)
open(os.path.join(os.environ["RUNNING"], str(os.getpid())), "w").close()
time.sleep(600)
'''


class Project(FolderTest):
    """A folder with a specification and tests of it."""

    with_examples = False

    def setUp(self):
        super().setUp()
        self.write("ring.lotos", RING)

    def scenario(self, name, *lines):
        return self.write(name, "\n".join(("lotos-scenario 1", *lines)) + "\n")

    def project(self):
        """A test of each ending."""
        self.scenario("ring.scenario", "ring", "i", "ring")
        self.scenario("ring.never.scenario", "possible: never", "halt")
        self.scenario("ring.fails.scenario", "ring", "ring")
        self.scenario("ring.open.scenario", "possible: may", "states: 1", "ring", "ring")
        self.scenario("ring.broken.scenario", "ring", "ring ring")
        os.mkdir("deep")
        self.scenario("deep/other.scenario", "run: ../ring.lotos", "ring")
        self.scenario("deep/lost.scenario", "ring")
        self.write("ring.session", "step 1\nstep 2\n")
        self.write("ring.report", "accepted Ring\ndata: 0 sorts, 0 operations, 0 equations\nevents 1\n1: ring\ndid ring\nevents 2\n"
                   "1: i\n2: halt\ndid halt\nevents 1\n1: ring\n")
        os.mkdir(".hidden")
        self.scenario(".hidden/x.scenario", "ring")

    def ran(self, *words, **more):
        """The status, what is written, and what is said."""
        return self.run_companion("lotos-test", *words, **more)

    def endings(self, output):
        """The ending of each test."""
        return {it.split()[1]: it.split()[0] for it in output.splitlines() if it[:1] not in ("", " ") and not it[0].isdigit()}

    def assert_none_runs(self, folder):
        """None of the programs that said so in a folder is there any more."""
        numbers = [int(it) for it in os.listdir(folder)]
        self.assertTrue(numbers)
        end = time.monotonic() + 10
        while any(map(is_there, numbers)) and time.monotonic() < end:
            time.sleep(0.05)
        self.assertEqual([it for it in numbers if is_there(it)], [])


ENDINGS = {"ring.scenario": "passed", "ring.never.scenario": "passed", "ring.fails.scenario": "failed",
           "ring.open.scenario": "inconclusive", "ring.broken.scenario": "broken", "deep/other.scenario": "passed",
           "deep/lost.scenario": "broken", "ring.session": "passed"}


class Runs(Project):
    """What is found and run."""

    def test_each_ending_and_the_status(self):
        self.project()
        status, output, said = self.ran()
        self.assertEqual((status, said), (1, ""))
        self.assertEqual(self.endings(output), ENDINGS)
        self.assertEqual([it.split()[1] for it in output.splitlines() if it[:1].isalpha()], sorted(ENDINGS))
        self.assertIn("4 passed, 1 failed, 1 inconclusive, 2 broken in ", output)
        self.assertIn("    ring.broken.scenario:3: ring ring is no gate", output)
        self.assertIn("    there is no deep/lost.lotos", output)
        self.assertIn("    parts at step 2 of 2", output)

    def test_statuses(self):
        self.assertEqual(self.ran()[0], 5)
        self.assertEqual(self.ran("--list")[0], 5)
        self.project()
        self.assertEqual(self.ran("ring.scenario", "ring.session")[0], 0)
        for only in ("ring.fails.scenario", "ring.open.scenario", "ring.broken.scenario"):
            self.assertEqual(self.ran(only)[0], 1)
        for words in (["--jobs", "0"], ["--none"], ["--shard", "2"], ["--shard", "3/2"], ["nothing.scenario"]):
            with self.subTest(words):
                status, output, said = self.ran(*words)
                self.assertEqual((status, output), (4, ""))
                self.assertNotEqual(said, "")
        self.assertEqual(self.ran("ring.scenario", program="/nowhere/lotos")[0], 3)
        self.assertEqual(self.ran("ring.scenario", "--junit", "no/folder.xml")[0], 3)

    @pytest.mark.slow
    def test_the_folder_of_the_examples(self):
        shutil.copy(os.path.join(EXAMPLES, "alternating_bit.lotos"), ".")
        for name in ("alternating_bit.session", "alternating_bit.report", "alternating_bit.trace", "countdown.lotos",
                     "countdown.order", "countdown.words", "countdown.session", "countdown.report", "countdown.trace",
                     "countdown.refused.words", "countdown.refused.session", "countdown.refused.report"):
            shutil.copy(os.path.join(EXAMPLES, name), ".")
        before = {it: read(it) for it in os.listdir(".")}
        status, output, _ = self.ran()
        self.assertEqual((status, len(self.endings(output))), (0, 3))
        self.assertEqual({it: read(it) for it in os.listdir(".")}, before)
        self.assertEqual(self.ran("alternating_bit.trace")[0], 0)
        # A trace that is saved differs from the one that is kept, and so does an answer.
        self.write("alternating_bit.trace", before["alternating_bit.trace"].replace("2 => i", "1 => i", 1))
        self.write("countdown.report", before["countdown.report"].replace("did ", "done ", 1))
        status, output, _ = self.ran()
        self.assertEqual((status, sorted(self.endings(output).values())), (1, ["failed", "failed", "passed"]))
        self.assertIn("    --- alternating_bit.trace\n    +++ saved\n", output)
        self.assertIn("    --- wanted\n    +++ answered\n", output)
        status, output, _ = self.ran("alternating_bit.trace")
        self.assertEqual(status, 1)
        self.assertIn("refused 81", output)

    def test_a_session_beside_other_folders(self):
        os.mkdir("tests")
        self.write("tests/a.session", "step 1\nsave kept/a.trace\nsave ../b.trace\n")
        self.write("tests/a.words", "../ring.lotos\n")
        self.write("tests/a.report", "accepted Ring\ndata: 0 sorts, 0 operations, 0 equations\nevents 1\n1: ring\ndid ring\n"
                   "events 2\n1: i\n2: halt\nsaved kept/a.trace\nsaved ../b.trace\n")
        status, output, _ = self.ran()
        self.assertEqual(status, 0, output)
        self.assertEqual((sorted(os.listdir(".")), sorted(os.listdir("tests"))),
                         (["ring.lotos", "tests"], ["a.report", "a.session", "a.words"]))

    def test_shards_share_all_tests(self):
        self.project()
        found = [self.ran("--list", "--shard", f"{it}/3")[1].split() for it in (1, 2, 3)]
        self.assertEqual(sorted(sum(found, [])), sorted(ENDINGS))
        self.assertEqual(sorted(map(len, found)), [2, 3, 3])
        self.assertEqual(self.ran("--list", "--shard", "9/9")[0], 5)
        self.assertEqual(list(self.endings(self.ran("--shard", "2/3")[1])), found[1])

    def test_time(self):
        os.mkdir("running")
        self.project()
        program = self.stand_in(BUSY)
        status, output, _ = self.ran("--time", "1", "ring.scenario", "ring.session", program=program,
                                     RUNNING=os.path.abspath("running"))
        self.assertEqual((status, set(self.endings(output).values())), (1, {"inconclusive"}))
        self.assertIn("not done after 1 seconds", output)
        self.assert_none_runs("running")


def is_there(number):
    """Whether a process runs."""
    try:
        with open(f"/proc/{number}/stat", encoding="utf-8") as file:
            return file.read().rpartition(")")[2].split()[0] != "Z"
    except OSError:
        return False


class Interrupted(Project):
    """Ctrl-C, and the signals that end."""

    def test_no_process_is_left(self):
        self.project()
        program = self.stand_in(BUSY)
        for number, wanted in ((signal.SIGINT, 2), (signal.SIGTERM, 128 + signal.SIGTERM)):
            folder = f"running{number}"
            os.mkdir(folder)
            environment = {**os.environ, "LOTOS": program, "RUNNING": os.path.abspath(folder)}
            # In a group of its own, as a terminal has it: the signal reaches all of them.
            running = subprocess.Popen([os.path.join(COMPANIONS, "lotos-test"), "--jobs", "2", "--junit", "out.xml",
                                        "deep/lost.scenario", "ring.session", "ring.scenario"],
                                       env=environment, stdout=subprocess.PIPE, start_new_session=True)
            self.wait_for(lambda: len(os.listdir(folder)) == 2)  # The first test needs no program.
            children = [int(it) for it in os.listdir(folder)]
            workers = self.below(running.pid)
            self.assertGreaterEqual(len(workers), 2)
            os.killpg(running.pid, number) if number == signal.SIGINT else os.kill(running.pid, number)
            said = running.communicate(timeout=60)[0].decode()
            self.assertEqual(running.returncode, wanted)
            self.assertEqual([it for it in (*children, *workers) if is_there(it)], [])
            if number == signal.SIGINT:
                self.assertRegex(said, r"interrupted: [23] of 3 tests were not done\n(1 broken|no tests) in ")
                self.assertRegex(read("out.xml"), r'tests="[01]"')

    def wait_for(self, holds):
        end = time.monotonic() + 60
        while not holds() and time.monotonic() < end:
            time.sleep(0.05)
        self.assertTrue(holds())

    def below(self, parent):
        """The processes that a process started."""
        found = []
        for number in filter(str.isdigit, os.listdir("/proc")):
            try:
                with open(f"/proc/{number}/stat", encoding="utf-8") as file:
                    if file.read().rpartition(")")[2].split()[1] == str(parent):
                        found.append(int(number))
            except OSError:
                pass
        return found


class Reports(Project):
    """What is written for scripts and build farms."""

    def test_json(self):
        self.project()
        status, output, said = self.ran("--json")
        report = json.loads(output)
        self.assertEqual((status, said), (1, ""))
        self.assertEqual({it["test"]: it["ending"] for it in report["tests"]}, ENDINGS)
        self.assertEqual([report[it] for it in ("passed", "failed", "inconclusive", "broken", "interrupted")],
                         [4, 1, 1, 2, False])

    def test_junit(self):
        self.project()
        self.write("a\x01<b>&\"\udcff.scenario", "")
        status, _, _ = self.ran("--junit", "out.xml")
        self.assertEqual(status, 1)
        counts = self.valid("out.xml")
        self.assertEqual(counts, {"tests": "9", "failures": "1", "errors": "4", "skipped": "0"})
        self.ran("--junit", "one.xml", "ring.scenario")
        self.assertEqual(self.valid("one.xml"), {"tests": "1", "failures": "0", "errors": "0", "skipped": "0"})
        os.mkdir("empty")
        self.assertEqual(self.ran("--junit", "none.xml", "empty")[0], 5)
        self.assertEqual(self.valid("none.xml")["tests"], "0")

    def valid(self, path):
        """The counts of a report, which is as the schema wants it."""
        try:
            from lxml import etree
        except ImportError:
            self.skipTest("the form of reports for build farms, since there is no python3-lxml")
        schema = etree.XMLSchema(etree.parse(f"{HERE}/junit.xsd"))
        document = etree.parse(path)
        schema.assertValid(document)
        suite = document.getroot()[0]
        tests = suite.findall("testcase")
        self.assertEqual(int(suite.get("tests")), len(tests))
        for name, count in (("failure", "failures"), ("error", "errors")):
            self.assertEqual(int(suite.get(count)), len(suite.findall(f"testcase/{name}")))
        return {it: suite.get(it) for it in ("tests", "failures", "errors", "skipped")}


if __name__ == "__main__":
    unittest.main()
