"""Pictures and pages of scenarios: their parts are counted, on all traces of the examples."""
import html.parser
import json
import os
import re
import subprocess
import sys
import xml.etree.ElementTree as tree

from .helpers import COMPANIONS, EXAMPLES, PROGRAM, TOP, FolderTest, find_tool, read
from lotos_companion.answers import Entry, Menu
from lotos_companion.chart import Chart, gates_of, short
from lotos_companion.scenario import Moment, Scenario
from lotos_companion.traces import Step, read_trace_text

BROWSER = find_tool("chromium", "google-chrome", "chromium-browser")
SPACE = "{http://www.w3.org/2000/svg}"
# The traces of which pages are looked at too.
PAGES = ("alternating_bit.trace", "car_park.trace", "dispenser.before.trace", "lossy_line.trace")
ALONE = {"meta", "br", "link"}


class WellFormed(html.parser.HTMLParser):
    """Looks whether each element is closed, and gathers the text."""

    def __init__(self):
        super().__init__()
        self.open, self.text, self.ids = [], [], []

    def handle_starttag(self, tag, attributes):
        self.ids += [value for name, value in attributes if name == "id"]
        if tag not in ALONE:
            self.open.append(tag)

    def handle_endtag(self, tag):
        if self.open.pop() != tag:
            raise AssertionError(f"</{tag}> closes another element")

    def handle_data(self, data):
        self.text.append(data)


def traces():
    """Each trace of the examples with the words of its specification."""
    for name in sorted(os.listdir(EXAMPLES)):
        stem = name.partition(".")[0]
        if name.endswith(".trace") and os.path.exists(f"{EXAMPLES}/{stem}.lotos"):
            listed = f"{EXAMPLES}/{stem}.words"
            words = read(listed).split() if os.path.exists(listed) else [f"{stem}.lotos"]
            yield name, words, [it.label for it in read_trace_text(read(f"{EXAMPLES}/{name}")).steps]


def count(picture, kind, tag):
    """How many elements of a kind are in a picture outside of its legend."""
    legend = {part for group in picture.findall(f"{SPACE}g[@transform]") for part in group.iter()}
    return sum(1 for it in picture.iter(SPACE + tag) if it.get("class") == kind and it not in legend)


class Pictures(FolderTest):
    """SVG and HTML."""

    def test_all_traces(self):
        for name, words, labels in traces():
            with self.subTest(name):
                fits = 1 if name == "dispenser.before.trace" else 0
                status, output, said = self.run_companion("lotos-trace", "--no-names", "chart", name, *words)
                self.assertEqual((status, said), (fits, ""))
                picture = tree.fromstring(output)
                if not fits:
                    self._has_all(picture, labels)
                if name in PAGES:
                    status, output, said = self.run_companion("lotos-trace", "page", name, *words)
                    self.assertEqual((status, said), (fits, ""))
                    self._is_page(output, labels if not fits else labels[:1])

    def _has_all(self, picture, labels):
        """An arrow for each event, a circle for each hidden one, and the label of each."""
        hidden = labels.count("i")
        self.assertEqual(count(picture, "hidden", "circle"), hidden)
        self.assertEqual(count(picture, "event", "path"), len(labels) - hidden)
        texts = [it.text for it in picture.iter(SPACE + "text")]
        for label in labels:
            self.assertIn(short(label), texts)
        self.assertEqual(count(picture, "lane", "line"), len(picture.findall(f"{SPACE}text[@class='name']")) - 1)

    def _is_page(self, text, labels):
        """A whole page with a place for each step, which may ask for nothing."""
        page = WellFormed()
        page.feed(text)
        self.assertEqual(page.open, [])
        scenario = json.loads(re.search(r'<script type="application/json" id="scenario">(.*?)</script>', text)[1])
        self.assertEqual([it["label"] for it in scenario["places"]], ["", *labels])
        self.assertEqual(len(scenario["moments"]), len(labels) + 1)
        self.assertEqual([it.split(" ")[0] for it in scenario["replay"]], ["lotos", "replay"])
        self.assertEqual(set(re.findall(r'(?:src|href)="([^"]*)"', text)), {"data:,", "#menu-0"})
        self.assertRegex(text, r"content=\"default-src 'none'; script-src 'sha256-[^' ]*'; style-src 'sha256-[^' ]*';")
        self.assertNotIn("\ufffd", text.replace('"\\ufffd"', ""))
        self.assertNotIn("http://", text.replace("http://www.w3.org/2000/svg", ""))

    def test_charts_of_components(self):
        for name, words, labels in traces():
            if name in ("two_phase_commit.trace", "car_park.trace"):
                with self.subTest(name):
                    status, output, said = self.run_companion("lotos-trace", "chart", "--components", name, *words)
                    self.assertEqual((status, said), (0, ""))
                    picture = tree.fromstring(output)
                    self.assertEqual(len(picture.findall(f".//{SPACE}g[@class='event']")), len(labels))
                    hidden = [it for it in picture.iter(f"{SPACE}text") if it.get("class") == "step-label hidden"]
                    self.assertEqual(len(hidden), labels.count("i"))

    def test_a_chart_as_png(self):
        if not find_tool("rsvg-convert", "chromium"):
            self.skipTest("a chart as PNG, since there is no rsvg-convert")
        self.write("t.trace", "lotos-trace 1\n1 true => give !true\n")
        path = os.path.join(self.folder, "chart.png")
        with open(path, "wb") as file:
            subprocess.run([sys.executable, f"{COMPANIONS}/lotos-trace", "chart", "--png", "t.trace", "lossy_line.lotos"], stdout=file,
                           check=True, timeout=120, env={**os.environ, "LOTOS": PROGRAM})
        with open(path, "rb") as file:
            self.assertEqual(file.read(8), b"\x89PNG\r\n\x1a\n")
        done = subprocess.run([sys.executable, f"{COMPANIONS}/lotos-trace", "chart", "--png", "t.trace"], stderr=subprocess.PIPE,
                              env={"PATH": "/nowhere"}, check=False)
        self.assertEqual((done.returncode, done.stderr.decode()),
                         (70, "lotos-trace: a PNG needs rsvg-convert (of Debian's package librsvg2-bin) or chromium\n"))

    def test_grey_ends(self):
        menu = Menu("events 5", ("1: a", "2: b !x", "3: b !y", "4: i", "5: exit"))
        scenario = Scenario("S", [Moment(Step("4", "", "i"), menu, "stop")], Menu("events 0", ()), "stop")
        picture = tree.fromstring(Chart(scenario, "S", lambda text: text).svg())
        self.assertEqual(count(picture, "end", "circle"), 3)
        self.assertEqual([it.text for it in picture.iter(f"{SPACE}text") if it.get("class") == "count"], ["2"])
        self.assertEqual(gates_of(scenario), ["a", "b", "exit", "i"])

    def test_texts_that_xml_cannot_hold(self):
        scenario = Scenario("<S> & \x01", [Moment(Step("1", "", "g !\"\udcff\x1b<"))])
        self.assertIn("\ufffd", "".join(tree.fromstring(Chart(scenario, "<&>\x02", lambda text: text).svg()).itertext()))

    def test_many_entries(self):
        lines = tuple(f"{it + 1}: g{it % 50} !{'x' * 200}" for it in range(5000))
        scenario = Scenario("S", [Moment(Step("1", "", Entry.read(lines[0]).label.text), Menu("events 5000", lines))] * 3)
        text = Chart(scenario, "S", lambda text: text).svg()
        self.assertEqual(count(tree.fromstring(text), "end", "circle"), 150)
        self.assertLess(len(text), 2_000_000)

    def test_the_picture_of_the_page_is_as_it_would_be_drawn(self):
        _, output, _ = self.run_companion("lotos-trace", "chart", "alternating_bit.trace", "alternating_bit.lotos")
        self.assertEqual(output, read(f"{TOP}/docs/alternating_bit.svg"))

    def test_a_page_into_a_slow_pipe_and_into_a_closed_one(self):
        self.write("long.trace", "lotos-trace 1\n" + "1 0 => get !0\n" * 5000)
        for unbuffered in ("", "1"):
            self.assertGreater(int(self._piped("(sleep 1; wc -c)", unbuffered)), 1_000_000)
            self.assertEqual(self._piped('head -c 100 >/dev/null; echo "${PIPESTATUS[0]}"', unbuffered), "5\n")

    def _piped(self, reader, unbuffered):
        """What comes of a long page at the other end of a pipe."""
        environment = {**os.environ, "PYTHONUNBUFFERED": unbuffered}
        done = subprocess.run(["bash", "-c", f"{COMPANIONS}/lotos-trace page long.trace | {reader}"], check=True,
                              stdout=subprocess.PIPE, timeout=60, env=environment)
        return done.stdout.decode()

    def test_in_a_browser(self):
        if not BROWSER:
            self.skipTest("a page in a browser, since there is none")
        _, output, _ = self.run_companion("lotos-trace", "page", "alternating_bit.trace", "alternating_bit.lotos")
        path = self.write("page.html", output)
        try:
            done = subprocess.run([BROWSER, "--headless", "--no-sandbox", "--disable-gpu", "--dump-dom",
                                   f"--user-data-dir={self.folder}/browser", f"file://{path}#step-7"],
                                  stdout=subprocess.PIPE, stderr=subprocess.DEVNULL, timeout=120, check=True)
        except (OSError, subprocess.SubprocessError) as fault:
            print(f"left out: a page in a browser: {fault}", file=sys.stderr)
            self.skipTest("a page in a browser, since it does not run")
        self.assertIn(">7 of 14 steps<", done.stdout.decode())
