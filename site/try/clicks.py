"""A browser for trials that click: Debian's chromium, led by python3-selenium and chromium-driver."""
import json
import os
import shutil
import subprocess
import time

from trial import PATIENCE, Wrong, judge

try:
    from selenium import webdriver
    from selenium.webdriver.chrome.options import Options
    from selenium.webdriver.chrome.service import Service
    from selenium.webdriver.common.by import By
    from selenium.webdriver.common.keys import Keys
    from selenium.common.exceptions import StaleElementReferenceException, WebDriverException
except ImportError:
    webdriver = None


def missing():
    """What isn't there that a browser needs."""
    programs = [name for name in ("chromium", "chromedriver") if not shutil.which(name)]
    return programs + ([] if webdriver else ["selenium (Debian's python3-selenium, for its python3)"])


class Browser:
    """A browser with a profile of its own, `light` or dark; `driver` leads it, chromedriver if not given."""

    def __init__(self, folder, width=1400, height=1000, light=False, profile=None, driver=None, env=None):
        options = Options()
        options.binary_location = shutil.which("chromium")
        for word in ("--headless=new", "--no-sandbox", "--disable-gpu", "--hide-scrollbars", f"--window-size={width},{height}",
                     f"--user-data-dir={profile or f'{folder}/profile-{time.monotonic_ns()}'}"):
            options.add_argument(word)
        options.set_capability("goog:loggingPrefs", {"browser": "ALL"})
        service = Service(driver or shutil.which("chromedriver"), log_output=os.devnull, env=env)
        self.driver = webdriver.Chrome(service=service, options=options)
        self.size(width, height)
        scheme = [{"name": "prefers-color-scheme", "value": "light" if light else "dark"}]
        self.driver.execute_cdp_cmd("Emulation.setEmulatedMedia", {"features": scheme})

    def size(self, width, height, is_phone=False, scale=1):
        self.driver.execute_cdp_cmd("Emulation.setDeviceMetricsOverride",
                                    {"width": width, "height": height, "deviceScaleFactor": scale, "mobile": is_phone})

    def js(self, script, *given):
        return self.driver.execute_script(script, *given)

    def open(self, address):
        self.driver.get(address)

    def until(self, script, what, seconds=PATIENCE):
        """What an expression of the page comes to, once it is true."""
        end = time.monotonic() + seconds
        while True:
            try:
                found = self.js(f"return {script}")
            except WebDriverException:
                found = None
            if found:
                return found
            if time.monotonic() > end:
                raise Wrong(f"not within {seconds:g} seconds: {what}: {self.text('body')[-600:]}")
            time.sleep(0.05)

    def text(self, selector):
        return self.js("return document.querySelector(arguments[0])?.innerText || ''", selector)

    def texts(self, selector):
        return self.js("return [...document.querySelectorAll(arguments[0])].map(one => one.textContent.trim())", selector)

    def click(self, text, within="body"):
        """Clicks the button of this text, as a mouse does."""
        end = time.monotonic() + PATIENCE
        while True:
            found = [one for one in self.driver.find_elements(By.CSS_SELECTOR, f"{within} button, {within} summary")
                     if self.is_so(one, text)]
            try:
                if found:
                    self.js("arguments[0].scrollIntoView({block: 'center', behavior: 'instant'})", found[0])
                    return found[0].click()
            except WebDriverException:
                pass                    # it was drawn anew, or something lies before it
            if time.monotonic() > end:
                raise Wrong(f"no button {text!r} in {within}: {self.texts(within + ' button')}")
            time.sleep(0.1)

    @staticmethod
    def is_so(element, text):
        try:
            return element.text.strip() == text and element.is_displayed() and element.is_enabled()
        except StaleElementReferenceException:
            return False

    def press(self, *keys):
        """Presses keys by their names, SHIFT_ before one that is pressed with it, and types what isn't the name of one."""
        pressed = webdriver.ActionChains(self.driver)
        for key in keys:
            name = key.removeprefix("SHIFT_")
            code = getattr(Keys, name) if len(name) > 1 and name.isupper() else name
            if name == key:
                pressed = pressed.send_keys(code)
            else:
                pressed = pressed.key_down(Keys.SHIFT).send_keys(code).key_up(Keys.SHIFT)
        pressed.perform()

    def picture(self, path):
        """A picture, of as few colours as will do where Debian's pngquant is."""
        self.driver.save_screenshot(str(path))
        if shutil.which("pngquant"):
            subprocess.run(["pngquant", "--force", "--ext", ".png", "--speed", "1", "48", path], check=True)

    def faults(self):
        """What the browser's log has of scripts and of what a page may not do."""
        return [entry["message"] for entry in self.driver.get_log("browser")
                if entry["level"] == "SEVERE" and "Failed to load resource" not in entry["message"]]

    def end(self):
        self.driver.quit()


def read_exact(browser):
    """The body that a dialog shows."""
    lines = browser.text("#exact").split("\n", 1)
    judge(lines[0] == "POST /operator", "what is shown is a request", lines)
    return json.loads(lines[1]), lines[1]
