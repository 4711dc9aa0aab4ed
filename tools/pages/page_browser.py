"""Chromium without a window, driven by Debian's selenium. For tools/check_page."""
import io
import os
import re
import shutil
import sys

try:
    from PIL import Image
    from selenium import webdriver
    from selenium.webdriver.chrome.service import Service
    from selenium.webdriver.common.keys import Keys
    from selenium.webdriver.remote.remote_connection import RemoteConnection
    MISSING = []
except ImportError as error:
    MISSING = [error.name]

PACKAGES = "chromium chromium-driver python3-selenium python3-pil"
# The Python that has Debian's packages, where another one is first on the PATH.
DEBIAN = "/usr/bin/python3"
FLAGS = ("headless=new", "no-sandbox", "disable-gpu", "hide-scrollbars", "window-size=1500,1000", "force-prefers-reduced-motion")


def missing():
    """What isn't there of all that a browser needs."""
    return MISSING + [it for it in ("chromium", "chromedriver") if shutil.which(it) is None]


def run_by_debian():
    """Where this Python lacks a module, starts the tool again by Debian's."""
    if MISSING and os.path.exists(DEBIAN) and not os.path.samefile(sys.executable, DEBIAN):
        os.execv(DEBIAN, [DEBIAN, *sys.argv])


def is_varied(png):
    """Whether a picture has more than 16 colours."""
    return Image.open(io.BytesIO(png)).getcolors(16) is None


class Browser:
    def __init__(self):
        options = webdriver.ChromeOptions()
        for flag in FLAGS:
            options.add_argument(f"--{flag}")
        options.set_capability("goog:loggingPrefs", {"browser": "ALL"})
        RemoteConnection.set_timeout(60)
        self.driver = webdriver.Chrome(service=Service(shutil.which("chromedriver")), options=options)

    def open(self, path, event=None):
        """Opens a page, at an event where one is named. A page that is open already is left first, so that it is read again."""
        self.driver.get("about:blank")
        self.driver.get(path.as_uri() + (f"#{event}" if event is not None else ""))

    def run(self, script, *arguments):
        return self.driver.execute_script(script, *arguments)

    def press(self, key, shift=False):
        """Tells the page of a key, without the browser's own part in it."""
        self.run(
            "const told = { key: arguments[0], shiftKey: arguments[1], bubbles: true, cancelable: true };"
            " document.activeElement.dispatchEvent(new KeyboardEvent('keydown', told));",
            key, shift,
        )

    def strike(self, *keys):
        """Strikes keys one after another, as a person does: names of keys, or letters to be written."""
        actions = webdriver.ActionChains(self.driver, duration=0)
        for key in keys:
            # A key that the page calls ArrowUp is ARROW_UP here.
            name = re.sub("(?<=[a-z])(?=[A-Z])", "_", key).upper()
            actions.send_keys(getattr(Keys, name) if key[0].isupper() else key)
        actions.perform()

    def choose_file(self, query, path):
        """Chooses a file where the page asks for one."""
        self.driver.find_element("css selector", query).send_keys(str(path))

    def size(self, width, height):
        """Makes the window's inside so large, a telephone's where it is narrow."""
        told = {"width": width, "height": height, "deviceScaleFactor": 1, "mobile": width < 500}
        self.driver.execute_cdp_cmd("Emulation.setDeviceMetricsOverride", told)

    def before_pages(self, script):
        """Has a script run in each page that is opened from here on, before its own."""
        self.driver.execute_cdp_cmd("Page.addScriptToEvaluateOnNewDocument", {"source": script})

    def said(self):
        return [line["message"] for line in self.driver.get_log("browser")]

    def shot(self):
        return self.driver.get_screenshot_as_png()

    def close(self):
        self.driver.quit()
