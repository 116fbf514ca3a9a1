"""The page of ten minutes, and the scenario that the page of scenarios shows: each of their lines is tried."""
import os
import re
import subprocess
import unittest

from .helpers import COMPANIONS, PROGRAM, TOP, FolderTest, read
from .test_transcripts import commands
from lotos_companion.language import has_grammar

PAGE = f"{TOP}/docs/TEN_MINUTES.md"


@unittest.skipUnless(has_grammar(), "the page of ten minutes, since there is no python3-lark")
class TenMinutes(FolderTest):
    """What is typed there, one after the other in one folder."""

    maxDiff = None

    def test_each_command_writes_what_the_page_shows(self):
        text = "".join(re.findall(r"^```shell\n(.*?)^```", read(PAGE), re.M | re.S))
        typed = list(commands(text))
        self.assertGreater(len(typed), 12)
        for command, lines, wanted in typed:
            environment = {**os.environ, "LOTOS": PROGRAM, "PATH": f"{COMPANIONS}:{os.environ['PATH']}"}
            done = subprocess.run(["bash", "-c", command], input=lines.encode(), stdout=subprocess.PIPE,
                                  stderr=subprocess.STDOUT, env=environment, timeout=120, check=False)
            self.assertEqual(done.stdout.decode("utf-8", "surrogateescape"), wanted, command)

    def test_the_scenario_of_the_page_of_scenarios_passes(self):
        text, = re.findall(r"^```scenario\n(.*?)^```", read(f"{TOP}/docs/SCENARIOS.md"), re.M | re.S)
        self.write("alternating_bit.scenario", text)
        self.assertEqual(self.run_companion("lotos-test", "alternating_bit.scenario")[0], 0)
        self.write("alternating_bit.scenario", text.replace("not get !0", "not get !Succ(0)\nget !0"))
        self.assertEqual(self.run_companion("lotos-test", "alternating_bit.scenario")[0], 1)


if __name__ == "__main__":
    unittest.main()
