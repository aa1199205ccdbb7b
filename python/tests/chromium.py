"""A headless Chromium to look at pages with, by selenium."""

import base64
import json
import shutil
import time
from pathlib import Path

try:
    from selenium import webdriver
    from selenium.webdriver.chrome.service import Service
    from selenium.webdriver.common.action_chains import ActionChains
    from selenium.webdriver.common.keys import Keys
except ImportError:
    webdriver = None

WAIT_S = 120
SOFTWARE_WEBGL = ("--use-angle=swiftshader", "--enable-unsafe-swiftshader")


def missing():
    """What isn't there that a browser needs, or None."""
    if webdriver is None:
        return "there is no selenium"
    tools = ("chromium", "chromedriver")
    gone = [tool for tool in tools if shutil.which(tool) is None]
    return f"there is no {' and no '.join(gone)}" if gone else None


class Browser:
    """A browser with one page. Use it with `with`, so that it ends, or call `close`."""

    def __init__(self, width, height, flags=SOFTWARE_WEBGL):
        options = webdriver.ChromeOptions()
        options.binary_location = shutil.which("chromium")
        for flag in ("--headless=new", "--no-sandbox", "--disable-dev-shm-usage", *flags):
            options.add_argument(flag)
        options.set_capability("goog:loggingPrefs", {"browser": "ALL", "performance": "ALL"})
        service = Service(shutil.which("chromedriver"))
        self.driver = webdriver.Chrome(options=options, service=service)
        self.driver.set_page_load_timeout(WAIT_S)
        self.driver.set_script_timeout(WAIT_S)
        self.faults, self.requests = [], []  # errors of the console, and addresses asked for
        self.resize(width, height)

    def __enter__(self):
        return self

    def __exit__(self, *_):
        self.close()

    def close(self):
        """Ends the browser."""
        self.driver.quit()

    def ask(self, command, **words):
        """What a command of the Chrome DevTools Protocol gives."""
        return self.driver.execute_cdp_cmd(command, words)

    def resize(self, width, height):
        """Gives the window a size, that of a phone where it is narrow."""
        size = {"width": width, "height": height, "deviceScaleFactor": 1, "mobile": width < 600}
        self.ask("Emulation.setDeviceMetricsOverride", **size)

    def note(self):
        """Keeps what the logs say of errors and of the network."""
        errors = [it["message"] for it in self.driver.get_log("browser") if it["level"] == "SEVERE"]
        self.faults += errors
        messages = [json.loads(it["message"])["message"] for it in self.driver.get_log("performance")]
        sent = [it["params"] for it in messages if it["method"] == "Network.requestWillBeSent"]
        self.requests += [it["request"]["url"] for it in sent]

    def open(self, path, part=""):
        """Opens a file, and waits until it is loaded and its script has run."""
        self.driver.get("about:blank")
        self.driver.get(Path(path).resolve().as_uri() + part)
        self.note()

    def run(self, script):
        """The value of a JavaScript expression on the page; a promise is waited for."""
        done = "const done = arguments[0]; Promise.resolve(eval(%s)).then((it) => done([it ?? null]))"
        (value,) = self.driver.execute_async_script(done % json.dumps(script))
        self.note()
        return value

    def press(self, key):
        """Presses and lets go a key by its name."""
        names = {"Enter": Keys.ENTER, "Tab": Keys.TAB, " ": Keys.SPACE}
        named = names | {"ArrowUp": Keys.ARROW_UP, "ArrowDown": Keys.ARROW_DOWN}
        ActionChains(self.driver).send_keys(named[key]).perform()

    def click(self, x, y):
        """Clicks at a point of the window."""
        for kind, button in (("mouseMoved", "none"), ("mousePressed", "left"), ("mouseReleased", "left")):
            at = {"type": kind, "x": x, "y": y, "button": button, "clickCount": 1}
            self.ask("Input.dispatchMouseEvent", **at)

    def draw(self, path, whole=True):
        """Writes a picture of the page, or of what the window shows, as PNG."""
        time.sleep(0.5)
        words = {"format": "png", "captureBeyondViewport": whole}
        if whole:
            size = self.ask("Page.getLayoutMetrics")["cssContentSize"]
            ends = {"x": 0, "y": 0, "width": size["width"], "height": size["height"]}
            words["clip"] = {**ends, "scale": 1}
        Path(path).write_bytes(base64.b64decode(self.ask("Page.captureScreenshot", **words)["data"]))
