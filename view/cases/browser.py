"""The browser, and how the cases speak of a page."""
import json
import os
import shutil
import subprocess
import sys
import time

INSTALL = ("apt-get update && "
           "apt-get install -y --no-install-recommends chromium chromium-driver python3-selenium graphviz")
SYSTEM = "/usr/bin/python3"
HERE = os.path.dirname(os.path.dirname(os.path.realpath(__file__)))
SHOP = os.path.join(HERE, "..", "examples", "shop")


def lacking(what):
    sys.stderr.write(f"check: there is no {what}, so nothing is checked; {INSTALL}\n")
    sys.exit(3)


try:
    from selenium import webdriver
    from selenium.common.exceptions import WebDriverException
    from selenium.webdriver.chrome.service import Service
    from selenium.webdriver.common.action_chains import ActionChains
    from selenium.webdriver.common.by import By
    from selenium.webdriver.common.keys import Keys
except ImportError:
    # Debian installs Selenium for its own Python, which need not be the first on the path.
    if os.path.exists(SYSTEM) and os.path.realpath(SYSTEM) != os.path.realpath(sys.executable):
        os.execv(SYSTEM, [SYSTEM, os.path.realpath(sys.argv[0])] + sys.argv[1:])
    lacking("python3-selenium")

cases = failed = 0


def same(name, got, want):
    """Counts a case, and shows both sides if they differ."""
    global cases, failed
    cases += 1
    if got == want:
        print("ok      " + name, flush=True)
        return
    failed += 1
    print("FAILED  " + name)
    print(f"        got:  {str(got)[:600]!a}\n        want: {str(want)[:600]!a}", flush=True)


class Page:
    """A page in the browser, by the words in which the cases speak of it."""

    def __init__(self, browser):
        self.browser = browser

    def open(self, file):
        self.browser.get(file if ":" in file else "file://" + file)

    def js(self, text, *given):
        return self.browser.execute_script(text, *given)

    def find(self, wanted):
        return self.browser.find_element(By.CSS_SELECTOR, wanted)

    def click(self, wanted):
        self.find(wanted).click()

    def click_drawn(self, wanted):
        """A click at a part of the drawing, by the mouse, in its upper left corner or its middle."""
        part = self.find(wanted)
        self.js("arguments[0].scrollIntoView({block: 'nearest'})", part)
        ActionChains(self.browser).move_to_element(part).click().perform()

    def text(self, wanted):
        return self.js("return document.querySelector(arguments[0]).textContent", wanted)

    def texts(self, wanted):
        return self.js("return [...document.querySelectorAll(arguments[0])].map(x => x.textContent)", wanted)

    def count(self, wanted):
        return self.js("return document.querySelectorAll(arguments[0]).length", wanted)

    def names(self, wanted):
        """The ids of the elements, in order."""
        return self.js("return [...document.querySelectorAll(arguments[0])].map(x => x.id)", wanted)

    def after_walk(self):
        """Waits until a path has been run through the graph."""
        end = time.time() + 300
        while self.count(".walking") and time.time() < end:
            time.sleep(0.05)

    def choose(self, name, value):
        """Sets a control and tells the page."""
        self.js(
            "const x = document.getElementById(arguments[0]);"
            "if (x.type === 'checkbox') x.checked = arguments[1]; else x.value = arguments[1];"
            "x.dispatchEvent(new Event('input')); x.dispatchEvent(new Event('change'))", name, value,
        )


def start():
    """The browser, or the end of this script if there is none."""
    browser, driver = shutil.which("chromium"), shutil.which("chromedriver")
    for found, what in ((browser, "chromium"), (driver, "chromium-driver"), (shutil.which("dot"), "graphviz")):
        if not found:
            lacking(what)
    options = webdriver.ChromeOptions()
    options.binary_location = browser
    for word in ("--headless=new", "--disable-gpu", "--disable-dev-shm-usage", "--window-size=1280,900"):
        options.add_argument(word)
    if os.geteuid() == 0:
        options.add_argument("--no-sandbox")
    options.set_capability("goog:loggingPrefs", {"browser": "ALL"})
    try:
        return webdriver.Chrome(service=Service(driver), options=options)
    except WebDriverException as reason:
        sys.stderr.write(f"check: the browser does not start, so nothing is checked: {reason}\n")
        sys.exit(3)


def make(room, name, *words):
    """A page in the room, and its file."""
    file = os.path.join(room, name)
    with open(file, "wb") as page:
        done = subprocess.run([sys.executable, os.path.join(HERE, "model-page"), *words], stdout=page)
    same(f"{name} is made", done.returncode, 0)
    return file


def store(room, name, root):
    file = os.path.join(room, name)
    with open(file, "w", encoding="utf-8") as model:
        json.dump(root, model, ensure_ascii=False)
    return file


def check_closed(page, name):
    """Nothing is loaded, nothing foreign runs, and the browser has nothing to complain of."""
    complaints = [entry["message"] for entry in page.browser.get_log("browser")]
    same(f"{name}: the browser has no complaint", complaints, [])
    same(f"{name}: nothing else is loaded", page.js("return performance.getEntriesByType('resource').length"), 0)
