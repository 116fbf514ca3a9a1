"""The page, as a person uses it in a browser."""
import importlib.util
import json
import os
import re
import signal
import subprocess
import time

import pytest

from .helpers import PROGRAM, read
from .test_web_server import _children
from .web_helpers import BrowserTest, Keys


HAS_GRAMMAR = importlib.util.find_spec("lark") is not None
# Comments, names and terms that look like markup to whoever does not escape them.
HOSTILE = """specification Hostile [put, script, onload] : noexit
  (* </script ><script>document.title = 'stolen'</script> <!-- <img src=x onerror=alert(1)> ]]> &lt; *)
  type Markup is
    sorts Html
    opns
      script, img, svg, b, alert, javascript : -> Html
      </, <, {{, & : Html -> Html
      _</_, _>_, _<_, _/>_, _&_, _=\\_ : Html, Html -> Html
  endtype
behaviour
  put ?x:Html; (script !x; Open_[put, script, onload](x) [] onload !(b < script) ! </(script); stop)
where
  process Open_[put, script, onload](x : Html) : noexit :=
    onload !x; stop
  endproc
endspec
""".replace("Open_", "Script")
RING = ("specification Ring [a, b, c] : noexit behaviour P[a, b, c] where process P[a, b, c] : noexit := "
        "a; b; P[a, b, c] [] b; (b; P[a, b, c] [] b; c; P[a, b, c]) endproc endspec")
PAIR = """specification Pair [give, out] : noexit
behaviour
  hide mid in Left[give, mid] |[mid]| Right[mid, out]
where
  process Left[give, mid] : noexit := give; mid; Left[give, mid] endproc
  process Right[mid, out] : noexit := mid; out; Right[mid, out] [] mid; i; Right[mid, out] endproc
endspec
"""
TERMS = ("((b < script) > alert) </ script", "</(script)", "(img </ script) > b", "{{({{(b))", "(b & svg) & </(b)", "<(<(img) =\\ b)")


class Steps(BrowserTest):
    """Steps, branches, values, files."""

    def test_fourteen_steps_and_a_trace_that_the_program_replays(self):
        self.open("alternating_bit.lotos")
        self.fourteen()
        self.assertEqual(self.find("#menu-0 .row").text, "1 put !$1 for $1:Nat")
        self.assertEqual(len(self.all("#chart .step")), 14)
        self.assertEqual([it.text for it in self.all("#chart .lane-name")], ["Sender", "Receiver", "There", "Back"])
        if HAS_GRAMMAR:
            self.assertEqual([it.text for it in self.all(".source mark.taken")], ["done !bit", "done !bit"])
            self.assertEqual([it.text for it in self.all(".source mark.looked, .source mark.possible")], ["put ?m:Nat"])
            self.assertEqual(len(self.all("#chart .arrow")), 7)
            self.assertEqual([it.text for it in self.all("#chart .step-label")][1], "send !Succ(0) !false")
        self.name_file("#save", "mine.trace")
        self.until(lambda: self.said().startswith("written: "))
        self.assertEqual(read("mine.trace"), read("alternating_bit.trace"))
        done = subprocess.run([PROGRAM, "run", "alternating_bit.lotos"], input=b"replay mine.trace\n", stdout=subprocess.PIPE, check=True)
        self.assertIn(b"\nreplayed 14\n", done.stdout)
        self.name_file("#save", "mine.trace")
        self.until(lambda: self.all("dialog[open]") and "is there" in self.find("dialog[open]").text)
        self.find("dialog[open] button:not(.yes)").click()
        self.until(lambda: "not written" in self.said())

    def test_a_value_chosen_and_one_refused(self):
        self.open("lossy_line.lotos")
        self.find("#menu-0 .row").click()
        self.until(lambda: len(self.all(".choice .value")) == 2)
        self.assertEqual([it.text for it in self.all(".choice .value")], ["false", "true"])
        field = self.find(".choice .typed input")
        field.send_keys("nonsense", Keys.ENTER)
        self.until(lambda: self.find(".choice .said").text)
        self.assertRegex(self.find(".choice .said").text, "^refused 804 BadTerm ")
        self.assertEqual(self.steps(), 0)
        self.all(".choice .value")[1].click()
        self.until(lambda: self.steps() == 1)
        self.assertEqual(self.said(), "did give !true")

    def test_branches(self):
        self.open("alternating_bit.lotos")
        self.take_with(1, "0")
        self.take(1)
        self.take(2)
        self.find("#undo").click()
        self.until(lambda: self.steps() == 2)
        self.take(3)
        self.find("#undo").click()
        self.until(lambda: self.steps() == 2)
        self.assertIn("\u2442 2", self.find("#branches").text)
        rows = self.all("#branches .branch")
        self.assertEqual(len(rows), 5)
        self.assertIn("here", rows[2].get_attribute("class"))
        state = self.find(".state").text
        rows[4].click()
        self.until(lambda: self.steps() == 3)
        self.assertNotEqual(self.find(".state").text, state)
        self.find("#undo").click()
        self.until(lambda: self.steps() == 2)
        self.assertEqual(self.find(".state").text.split("\u25cf")[0], state.split("\u25cf")[0])
        self.find("#redo").click()
        self.until(lambda: self.steps() == 3)
        self.all("#chart .step")[0].click()
        self.until(lambda: self.steps() == 1)
        self.assertEqual(len(self.all("#chart .step.undone")), 2)

    def test_until_and_steps_by_chance(self):
        self.write("ring.lotos", RING)
        self.open("ring.lotos")
        self.find("#until").click()
        field = self.find("#ask-event")
        field.clear()
        field.send_keys("c", Keys.ENTER)
        self.until(lambda: self.steps() == 3)
        self.assertEqual(self.said(), "3 steps to c")
        self.find("#walk").click()
        self.find("#ask-count").clear()
        self.find("#ask-count").send_keys("6")
        self.find("#ask-seed").send_keys("7", Keys.ENTER)
        self.until(lambda: self.steps() == 9)
        self.assertEqual(self.said(), "6 steps with the seed 7")

    def test_data(self):
        self.open("--numbers", "alternating_bit.lotos")
        self.find("#terms").send_keys("2 * 3", Keys.ENTER)
        self.until(lambda: self.all(".answers li"))
        self.assertEqual(self.find(".answers li").text, "normal 2 * 3 6")
        self.find("#terms").clear()
        self.find("#terms").send_keys("2 + 2, 3")
        self.find("#equal").click()
        self.until(lambda: len(self.all(".answers li")) == 2)
        self.assertEqual(self.find(".answers li").text, "equal 2 + 2, 3 different")

    def test_a_trace_is_dropped(self):
        self.open("alternating_bit.lotos")
        self.drop("kept.trace", read("alternating_bit.trace"))
        self.until(lambda: self.steps() == 14)
        self.assertEqual(self.said(), "replayed 14")
        self.drop("bad.trace", "nonsense")
        self.until(lambda: "this is no scenario" in self.said())
        self.drop("other.trace", "lotos-trace 1\n1 0 => put !0\n2 => i\n")
        self.until(lambda: self.said().startswith("parts at step 2 of 2: "))
        self.find("#file").send_keys(os.path.abspath("alternating_bit.trace"))
        self.until(lambda: self.steps() == 14)

    def drop(self, name, text):
        """Drops a file on the page."""
        self.browser.execute_script("""
            const files = new DataTransfer();
            files.items.add(new File([arguments[1]], arguments[0]));
            document.body.dispatchEvent(new DragEvent("drop", { dataTransfer: files, bubbles: true, cancelable: true }));
        """, name, text)

    def test_a_scenario_is_dropped(self):
        self.write("pair.lotos", PAIR)
        self.open("pair.lotos")
        self.take(1)
        self.take(2)
        self.name_file("#save", "mine.scenario")
        self.until(lambda: self.said().endswith("mine.scenario"))
        self.all("#branches .branch")[0].click()
        self.until(lambda: self.steps() == 0)
        self.drop("mine.scenario", read("mine.scenario"))
        self.until(lambda: self.steps() == 2)
        self.assertTrue(self.said().startswith("scenario passed"))

    def test_a_long_answer_is_stopped(self):
        self.open("lossy_line.lotos", program=self.stand_in())
        self.find("#terms").send_keys("hang", Keys.ENTER)
        self.until(lambda: self.find("#stop").is_displayed())
        self.find("#stop").click()
        self.until(lambda: "begun again with its 0 steps" in self.find("#data").text)
        self.assertFalse(self.find("#stop").is_displayed())

    def test_a_killed_program(self):
        self.write("pair.lotos", PAIR)
        served = self.open("--no-names", "pair.lotos")
        self.take(1)
        self.take(1)
        os.kill(_children(served.process.pid)[0], signal.SIGKILL)
        self.all("#menu-0 .row")[0].click()
        self.until(lambda: "begun again with its 2 steps" in self.said())
        self.assertIn("fault", self.find("#status").get_attribute("class"))
        self.take(1)

    def test_a_server_that_has_gone(self):
        served = self.open("lossy_line.lotos")
        served.process.kill()
        served.process.wait()
        self.find("#menu-0 .row").click()
        self.until(lambda: "the session has ended" in self.said())
        self.browser.get_log("browser")


class ByKeys(BrowserTest):
    """The page without a mouse."""

    def test_keys_alone(self):
        self.open("alternating_bit.lotos")
        self.type_keys("1")
        self.until(lambda: self.all(".choice .typed input"))
        self.type_keys("Succ(0)", Keys.ENTER)
        self.until(lambda: self.steps() == 1)
        self.type_keys("1")
        self.until(lambda: self.steps() == 2)
        self.type_keys("m")
        self.type_keys(Keys.ARROW_DOWN, Keys.ENTER)
        self.until(lambda: self.steps() == 3)
        self.assertEqual(self.find("#menu-0").get_attribute("id"), self.active())
        self.type_keys("u")
        self.until(lambda: self.steps() == 2)
        self.type_keys("r")
        self.until(lambda: self.steps() == 3)
        self.type_keys("b")
        self.type_keys(Keys.HOME, Keys.ENTER)
        self.until(lambda: self.steps() == 0)
        self.type_keys("c")
        self.type_keys(Keys.END, Keys.ENTER)
        self.until(lambda: self.steps() == 3)
        self.type_keys("s")
        self.until(lambda: self.all("dialog[open]"))
        self.type_keys(Keys.CONTROL + "a")
        self.type_keys("keys.trace", Keys.ENTER)
        self.until(lambda: self.said().startswith("written: "))
        self.type_keys("n")
        self.type_keys("not(true)", Keys.ENTER)
        self.until(lambda: self.all(".answers li"))
        self.type_keys(Keys.TAB * 3)
        self.type_keys("?")
        self.until(lambda: self.all("dialog[open]"))
        self.type_keys(Keys.ESCAPE)
        self.until(lambda: not self.all("dialog[open]"))

    def active(self):
        """The name of the element that has the focus."""
        return self.browser.switch_to.active_element.get_attribute("id")

    @pytest.mark.slow
    def test_all_can_be_reached_by_tab_and_has_a_name(self):
        self.open("alternating_bit.lotos")
        self.type_keys("1")
        self.until(lambda: self.all(".choice .value"))
        nameless = self.browser.execute_script("""
            const named = (it) => it.getAttribute("aria-label") || it.textContent.trim() || it.labels?.length;
            return [...document.querySelectorAll("button, input:not([hidden]), [role=listbox], [role=tree], section")]
              .filter((it) => !named(it) && !it.getAttribute("aria-labelledby")).map((it) => it.outerHTML.slice(0, 99));""")
        self.assertEqual(nameless, [])
        self.assertEqual(self.find("#status").get_attribute("role"), "status")
        reached = set()
        self.browser.execute_script("document.activeElement.blur()")
        for _ in range(60):
            self.type_keys(Keys.TAB)
            reached.add(self.active())
        buttons = {it.get_attribute("id") for it in self.all("#tools button:not(:disabled)") if it.is_displayed()}
        self.assertLessEqual(buttons | {"menu-0", "terms", "normal", "equal"}, reached)


class Shape(BrowserTest):
    """What is seen: on a phone, in the dark; nothing is cut off."""

    def widths(self):
        """How wide the page is, and how wide what is seen of it."""
        return self.browser.execute_script("return [document.documentElement.scrollWidth, innerWidth]")

    def test_a_phone(self):
        self.open("alternating_bit.lotos")
        self.fourteen()
        self.browser.execute_cdp_cmd("Emulation.setDeviceMetricsOverride", {"width": 390, "height": 844, "deviceScaleFactor": 2,
                                                                             "mobile": True})
        self.addCleanup(self.browser.execute_cdp_cmd, "Emulation.clearDeviceMetricsOverride", {})
        width, seen = self.widths()
        self.assertEqual((width, seen), (390, 390))
        tops = [self.find(it).rect["y"] for it in (".menu", "#chart", ".state", ".source", "#branches")]
        self.assertEqual(tops, sorted(tops))
        small = [it.text for it in self.all("#tools button") if it.is_displayed() and it.rect["height"] < 32]
        self.assertEqual(small, [])

    def test_light_and_dark(self):
        self.open("lossy_line.lotos")
        for scheme in ("light", "dark"):
            self.browser.execute_cdp_cmd("Emulation.setEmulatedMedia", {"features": [{"name": "prefers-color-scheme", "value": scheme}]})
            self.assertGreater(self.contrast(), 4.5, scheme)
        self.browser.execute_cdp_cmd("Emulation.setEmulatedMedia", {"features": []})
        before = self.ground()
        self.find("#theme").click()
        self.assertNotEqual(self.ground(), before)
        self.assertGreater(self.contrast(), 4.5)
        self.browser.refresh()
        self.until(lambda: self.find("#title").text != "lotos")
        self.assertNotEqual(self.ground(), before)
        self.browser.execute_script("localStorage.clear()")

    def ground(self):
        """The colour behind all."""
        return self.browser.execute_script("return getComputedStyle(document.body).backgroundColor")

    def contrast(self):
        """The least contrast of a text of the page with what is behind it."""
        return self.browser.execute_script("""
            const light = (text) => { const [r, g, b] = text.match(/[\\d.]+/g).slice(0, 3).map((it) => {
              const part = it / 255; return part <= 0.03928 ? part / 12.92 : ((part + 0.055) / 1.055) ** 2.4; });
              return 0.2126 * r + 0.7152 * g + 0.0722 * b; };
            const ground = (it) => { for (; it; it = it.parentElement) {
              const colour = getComputedStyle(it).backgroundColor;
              if (!/, 0\\)$|transparent/.test(colour)) return colour; } return "rgb(255, 255, 255)"; };
            let least = 99;
            for (const it of document.querySelectorAll("h1, h2, .count, .row span, #status, button:not(:disabled), mark")) {
              if (!it.textContent.trim() || !it.offsetParent) continue;
              const [one, other] = [light(getComputedStyle(it).color), light(ground(it))];
              least = Math.min(least, (Math.max(one, other) + 0.05) / (Math.min(one, other) + 0.05));
            }
            return least;""")


class Hostile(BrowserTest):
    """A specification whose names and terms look like markup, on the page and in what it exports."""

    def test_texts_stay_texts(self):
        self.write("hostile.lotos", HOSTILE)
        self.open("hostile.lotos")
        count = len(self.all("script"))
        for term in TERMS:
            self.take_with(1, term)
            self.assertIn(term.replace("(b & svg)", "(b & svg)"), self.find("#menu-0").text)
            self.find("#undo").click()
            self.until(lambda: self.steps() == 0)
        self.take_with(1, TERMS[0])
        self.take(1)
        self.assertEqual(len(self.all("script")), count)
        self.assertEqual(self.all("img"), [])
        self.assertTrue(self.browser.title.startswith("Hostile"))
        self.assertIn("</script ><script>document.title", self.find(".source").text)
        self.name_file("#export", "hostile.html")
        self.until(lambda: self.said().startswith("written: "))
        self.name_file("#svg", "hostile.svg")
        self.until(lambda: self.said().endswith("hostile.svg"))
        for name in ("hostile.html", "hostile.svg"):
            self.browser.get(f"file://{os.path.abspath(name)}")
            self.assertNotIn("stolen", self.browser.title)
            self.assertEqual(self.all("img"), [])
        self.browser.get(f"file://{os.path.abspath('hostile.html')}")
        self.until(lambda: self.find("#title").text == "Hostile")
        self.find("#last").click()
        self.until(lambda: self.steps() == 2)
        self.assertIn(TERMS[0], self.find("#chart").get_attribute("textContent"))
        text = read("hostile.html")
        self.assertEqual(text.count("</script"), 2)
        self.assertNotIn("<script>document", text)


class Export(BrowserTest):
    """A scenario as one file."""

    def test_it_is_played_with_the_network_off(self):
        self.open("alternating_bit.lotos")
        self.fourteen()
        self.name_file("#export", "scenario.html")
        self.until(lambda: self.said().startswith("written: "))
        self.assertEqual(self.steps(), 14)
        self.browser.execute_cdp_cmd("Network.enable", {})
        self.browser.execute_cdp_cmd("Network.emulateNetworkConditions", {"offline": True, "latency": 0, "downloadThroughput": 0,
                                                                          "uploadThroughput": 0})
        self.addCleanup(self.browser.execute_cdp_cmd, "Network.emulateNetworkConditions", {
            "offline": False, "latency": 0, "downloadThroughput": -1, "uploadThroughput": -1})
        self.browser.get_log("performance")
        self.browser.get(f"file://{os.path.abspath('scenario.html')}")
        self.until(lambda: self.find("#title").text == "Alternating_Bit")
        self.assertEqual(self.steps(), 0)
        self.find("#redo").click()
        self.until(lambda: self.steps() == 1)
        self.assertIn("next", self.find("#menu-0 .row").get_attribute("class"))
        self.find("#menu-0 .row").click()
        self.until(lambda: self.steps() == 2)
        self.all("#menu-0 .row")[0].click()
        self.until(lambda: "one scenario" in self.said())
        self.find("#play").click()
        self.until(lambda: self.steps() == 4)
        self.find("#play").click()
        self.find("#last").click()
        self.until(lambda: self.steps() == 14)
        self.assertEqual(len(self.all("#chart .step")), 14)
        self.assertIn("process Sender", self.find(".source").text)
        requests = [it for it in self.requests() if not it.startswith(("file:", "data:"))]
        self.assertEqual(requests, [])

    def requests(self):
        """The addresses that the page asked for since the log was read last."""
        messages = [json.loads(it["message"])["message"] for it in self.browser.get_log("performance")]
        return [it["params"]["request"]["url"] for it in messages if it["method"] == "Network.requestWillBeSent"]

    def test_pictures(self):
        self.open("alternating_bit.lotos")
        self.take_with(1, "0")
        self.take(1)
        self.name_file("#png", "chart.png")
        self.until(lambda: self.said().startswith("written: "))
        with open("chart.png", "rb") as file:
            self.assertEqual(file.read(8), b"\x89PNG\r\n\x1a\n")
        self.name_file("#svg", "chart.svg")
        self.until(lambda: self.said().endswith("chart.svg"))
        picture = read("chart.svg")
        self.assertEqual(len(re.findall('<g class="event">', picture)), 2)
        self.assertIn("put !0", picture)


class Speed(BrowserTest):
    """A click after many steps, long menus and long charts."""

    def setUp(self):
        super().setUp()
        if os.getloadavg()[0] > 2 * (os.cpu_count() or 1):
            self.skipTest("how fast the page is, since the machine is busy")

    def test_a_click_after_500_steps(self):
        self.write("ring.lotos", RING)
        served = self.open("ring.lotos")
        served.call("load", text="lotos-trace 1\n" + "1 => a\n1 => b\n" * 250, known=0, epoch=0)
        self.browser.refresh()
        self.until(lambda: self.all("#chart-count") and self.find("#chart-count").text == "500 of 500 steps")
        times = [self.browser.execute_async_script("""
            const done = arguments[0];
            const count = document.getElementById("chart-count");
            const begin = performance.now();
            new MutationObserver((_, it) => { it.disconnect(); document.body.getBoundingClientRect();
              done(performance.now() - begin); }).observe(count, { childList: true });
            document.querySelector("#menu-0 .row").click();""") for _ in range(9)]
        self.assertEqual(self.steps(), 509)
        self.assertLess(min(times), 100, times)  # The least, since other tests run meanwhile.
        self.assertLess(len(self.all("#chart .step")), 120)

    @pytest.mark.slow
    def test_a_menu_of_5000_entries(self):
        body = " [] ".join(f"g !{it}; P[g]" for it in ("a", "b", "c", "d", "e"))
        for _ in range(3):
            body = " [] ".join([f"({body})"] * 10)
        self.write("wide.lotos", "specification Wide [g] : noexit type T is sorts S opns a, b, c, d, e : -> S endtype "
                   f"behaviour P[g] where process P[g] : noexit := {body} endproc endspec")
        self.open("--no-names", "wide.lotos")
        self.take(1)
        self.assertEqual(self.find(".menu .count").text, "events 5000")
        self.is_smooth("#menu-0", ".row", 5000)

    def test_a_chart_of_2000_events(self):
        gates = "abcdef"
        self.write("long.trace", "lotos-trace 1\n" + "".join(f"1 => {gates[it % 6]}\n" for it in range(2000)))
        _, output, _ = self.run_companion("lotos-trace", "page", "long.trace")
        self.browser.get(f"file://{self.write('long.html', output)}#step-1000")
        self.until(lambda: self.all("#chart-count") and self.find("#chart-count").text == "1000 of 2000 steps", 60)
        self.is_smooth("#chart .list", ".step", 2000)
        self.is_smooth("#branches .list", ".branch", 2001)

    def is_smooth(self, selector, kind, count):
        """A list has a window's rows alone; it goes on by 240 dots in less than a sixtieth of a second. (Of the frames a quarter
        counts, since other tests run meanwhile.)"""
        self.assertLess(len(self.all(f"{selector} {kind}")), 120)
        frames = self.scrolled(selector)
        self.assertLess(sorted(frames)[len(frames) // 4], 17, (selector, frames))
        last = self.all(f"{selector} {kind}")[-1]
        self.assertEqual(last.get_attribute("aria-posinset"), str(count))

    def scrolled(self, selector):
        """The milliseconds of each frame while a list is scrolled, and at last to its end."""
        return self.browser.execute_async_script("""
            const done = arguments[1];
            const list = document.querySelector(arguments[0]);
            const times = [];
            const end = list.scrollHeight;
            let count = 0;
            list.scrollTop = 0;
            function next() {
              const begin = performance.now();
              list.scrollTop = ++count < 60 ? list.scrollTop + 240 : end;
              list.dispatchEvent(new Event("scroll"));
              list.getBoundingClientRect();
              times.push(performance.now() - begin);
              if (count < 60) requestAnimationFrame(next); else setTimeout(() => done(times), 100);
            }
            next();""", selector)


class SideBySide(BrowserTest):
    """Two specifications, before and after an edit."""

    def test_the_first_difference_is_marked(self):
        self.write("old.lotos", PAIR)
        self.write("new.lotos", PAIR.replace(" [] mid; i; Right[mid, out]", ""))
        self.open("old.lotos", "--beside", "new.lotos")
        self.assertEqual([it.text for it in self.all(".file")], ["old.lotos", "new.lotos"])
        told = self.all(".difference")[1]
        self.assertEqual(told.text, "the same menus up to here")
        self.assertEqual(len(self.all(".code .changed")), 2)
        self.take(1)
        self.assertEqual(told.text, "the menus differ first in this state")
        self.assertEqual(len(self.all("#menu-0 .only")), 0)
        self.take(2)
        self.assertEqual(told.text, "the menus differ first before step 2")
        self.take(2)
        self.until(lambda: "parts at step 3: no entry is i of Right" in told.text)
        self.assertEqual([it.get_attribute("aria-posinset") for it in self.all("#chart .differs")], ["2", "3"])
        self.all("#menu-1 .row")[0].click()
        self.until(lambda: "taken in the first" in self.said())
        self.assertEqual(self.steps(), 3)


class Ends(BrowserTest):
    """The session ends with the page."""

    def test_a_closed_tab(self):
        served = self.open("--wait", "1", "lossy_line.lotos")
        children = _children(served.process.pid)
        time.sleep(2.5)
        self.assertIsNone(served.process.poll())
        self.browser.refresh()
        self.until(lambda: self.find("#title").text == "Lossy_Line")
        self.browser.get("about:blank")
        self.assertEqual(served.process.wait(10), 0)
        self.assertEqual([it for it in children if os.path.exists(f"/proc/{it}")], [])
