"""What the tests of the page share: a served session, requests to it, and a browser."""
import atexit
import http.client
import json
import os
import shutil
import subprocess
import sys
import tempfile
import unittest

from .helpers import COMPANIONS, PROGRAM, FolderTest, find_tool

CHROMIUM = find_tool("chromium", "chromium-browser", "google-chrome")
DRIVER = find_tool("chromedriver")
try:
    from selenium import webdriver
    from selenium.webdriver.chrome.service import Service
    from selenium.webdriver.common.by import By
    from selenium.webdriver.common.keys import Keys
    from selenium.webdriver.support.ui import WebDriverWait
except ImportError:
    webdriver = Keys = None
CAN_BROWSE = bool(webdriver and CHROMIUM and DRIVER)
WITHOUT = "the page in a browser, since there is no chromium with its driver, or no python3-selenium"


class Served:
    """A running `lotos-web`: its process and its address."""

    def __init__(self, *words, program=PROGRAM, opens=False, **more):
        options = [] if opens else ["--no-browser"]
        self.process = subprocess.Popen([sys.executable, f"{COMPANIONS}/lotos-web", *options, *words], stdout=subprocess.PIPE,
                                        stderr=subprocess.PIPE, env={**os.environ, "LOTOS": program, **more})
        self.address = self.process.stdout.readline().decode().strip()
        if self.address:
            self.port = int(self.address.split(":")[2].split("/")[0])
            self.token = self.address.split("/")[3]

    def request(self, method, path, body=None, headers=None):
        """The status, the headers and the body of an answer; headers of None are left out."""
        connection = http.client.HTTPConnection("127.0.0.1", self.port, timeout=30)
        own = {"Host": f"127.0.0.1:{self.port}", **(headers or {})}
        connection.putrequest(method, path, skip_host=True, skip_accept_encoding=True)
        for name, value in own.items():
            for one in value if isinstance(value, list) else [value]:
                if one is not None:
                    connection.putheader(name, one)
        connection.endheaders(body)
        answer = connection.getresponse()
        data = answer.read()
        connection.close()
        return answer.status, answer, data

    def post(self, name, body, /, **headers):
        """A request as the page makes it, but for what is given."""
        whole = {"Origin": f"http://127.0.0.1:{self.port}", "Content-Type": "application/json",
                 "Content-Length": str(len(body)), **{it.replace("_", "-"): value for it, value in headers.items()}}
        return self.request("POST", f"/{self.token}/call/{name}", body, whole)

    def call(self, word, /, **given):
        """What a call answers."""
        status, _, data = self.post(word, json.dumps(given).encode())
        if status != 200:
            raise AssertionError(f"{word}: {status} {data}")
        return json.loads(data)

    def end(self):
        """Ends it: its status."""
        self.process.terminate()
        status = self.process.wait(30)
        self.process.stdout.close()
        self.process.stderr.close()
        return status


class WebTest(FolderTest):
    """A test with sessions that are served."""

    def serve(self, *words, **more):
        """Serves a session until the test is over."""
        served = Served(*words, **more)
        self.addCleanup(served.end)
        return served


def begin_browser():
    """Begins a browser without a window, with a profile of its own. It ends with the tests."""
    profile = tempfile.mkdtemp()
    options = webdriver.ChromeOptions()
    options.binary_location = CHROMIUM
    for word in ("--headless=new", "--disable-gpu", "--hide-scrollbars", f"--user-data-dir={profile}", "--window-size=1280,900",
                 *(["--no-sandbox"] if os.getuid() == 0 else [])):
        options.add_argument(word)
    options.set_capability("goog:loggingPrefs", {"browser": "ALL", "performance": "ALL"})
    browser = webdriver.Chrome(options=options, service=Service(DRIVER))
    browser.set_script_timeout(60)
    atexit.register(shutil.rmtree, profile, True)
    atexit.register(browser.quit)
    return browser


@unittest.skipUnless(CAN_BROWSE, WITHOUT)
class BrowserTest(WebTest):
    """A test of the page in a browser, which all tests share."""

    browser = None

    @classmethod
    def setUpClass(cls):
        if BrowserTest.browser is None:
            BrowserTest.browser = begin_browser()

    def setUp(self):
        super().setUp()
        self.addCleanup(self._no_fault)

    def _no_fault(self):
        """No page said a fault, and no rule of its policy was broken."""
        said = [it["message"] for it in self.browser.get_log("browser") if it["level"] == "SEVERE"]
        self.browser.get("about:blank")
        self.assertEqual(said, [])

    def open(self, *words, **more):
        """Serves a session, and opens its page."""
        served = self.serve(*words, **more)
        self.browser.get(served.address)
        self.until(lambda: self.find("#title").text != "lotos")
        return served

    def find(self, selector):
        """The first element of a kind."""
        return self.browser.find_element(By.CSS_SELECTOR, selector)

    def all(self, selector):
        """All elements of a kind."""
        return self.browser.find_elements(By.CSS_SELECTOR, selector)

    def until(self, holds, seconds=20):
        """Waits until something holds."""
        WebDriverWait(self.browser, seconds, 0.02).until(lambda _: holds())

    def steps(self):
        """How many steps the page says that led to where it stands."""
        said = self.find("#chart-count").text
        return 0 if said == "no step yet" else int(said.split(" ")[0])

    def take(self, number):
        """Clicks an entry, and waits for its step."""
        before = self.steps()
        self.all("#menu-0 .row")[number - 1].click()
        self.until(lambda: self.steps() == before + 1)

    def take_with(self, number, value):
        """Clicks an entry that asks for a value, and types it."""
        before = self.steps()
        self.all("#menu-0 .row")[number - 1].click()
        self.find(".choice .typed input").send_keys(value, Keys.ENTER)
        self.until(lambda: self.steps() == before + 1)

    def fourteen(self):
        """Clicks the fourteen steps of the alternating bit."""
        self.take_with(1, "Succ(0)")
        for number in (1, 2, 1, 1, 3, 2, 2, 2, 1, 1, 3, 2, 3):
            self.take(number)

    def name_file(self, button, name):
        """Clicks a button that writes a file, and names it."""
        self.find(button).click()
        field = self.find("#ask-name")
        field.clear()
        field.send_keys(name, Keys.ENTER)

    def said(self):
        """What the page says in its line."""
        return self.find("#status").text

    def type_keys(self, *keys):
        """Types keys to whatever has the focus."""
        self.browser.switch_to.active_element.send_keys(*keys)
