"""Debian's chromium, driven by Python's selenium, on one built page."""
import os
import time

from selenium import webdriver
from selenium.webdriver.chrome.options import Options
from selenium.webdriver.chrome.service import Service

FLAGS = ["--headless=new", "--no-sandbox", "--disable-gpu", "--hide-scrollbars", "--window-size=1280,900"]


class Page:
    def __init__(self, file, width=1280, height=900, is_dark=False, folder=None):
        options = Options()
        for it in FLAGS:
            options.add_argument(it)
        options.set_capability("goog:loggingPrefs", {"browser": "ALL"})
        if folder:
            many = "profile.default_content_setting_values.automatic_downloads"
            options.add_experimental_option("prefs", {"download.default_directory": folder, many: 1})
        self.driver = webdriver.Chrome(service=Service("/usr/bin/chromedriver"), options=options)
        scheme = {"name": "prefers-color-scheme", "value": "dark" if is_dark else "light"}
        self.driver.execute_cdp_cmd("Emulation.setEmulatedMedia", {"features": [scheme]})
        self.size(width, height)
        self.file, self.width = os.path.abspath(file), width
        self.driver.set_script_timeout(300)
        self.open("")

    def size(self, width, height):
        metrics = {"width": width, "height": height, "deviceScaleFactor": 1, "mobile": False}
        self.driver.execute_cdp_cmd("Emulation.setDeviceMetricsOverride", metrics)

    def open(self, fragment):
        self.driver.get("about:blank")
        begun = time.time()
        self.driver.get(f"file://{self.file}{fragment}")
        self.wait("document.body && document.body.dataset.opened", "the page opens")
        return time.time() - begun

    def get(self, expression, *given):
        return self.driver.execute_script(f"return {expression}", *given)

    def ask(self, script, *given):
        """What a script hands to its last argument, a function."""
        return self.driver.execute_async_script(script, *given)

    def wait(self, expression, what, seconds=60):
        end = time.time() + seconds
        while time.time() < end:
            found = self.get(expression)
            if found:
                return found
            time.sleep(0.05)
        told = f"{self.text('#mmsg')} {self.text('#say')}"
        raise AssertionError(f"{what}: still not so after {seconds} s; the page says: {told}")

    def settle(self):
        """Waits until nothing is being done."""
        self.wait("svcsim.page.session.busy === 0 && svcsim.page.session.wanted === null", "the page comes to rest")
        time.sleep(0.05)
        moves = "document.getElementById('units').getAttribute('aria-busy') !== 'true'"
        self.wait(f"svcsim.page.session.busy === 0 && {moves}", "the moves are told")

    def click(self, selector):
        found = self.get("document.querySelector(arguments[0])", selector)
        assert found, f"there is no {selector}"
        self.driver.execute_script("arguments[0].scrollIntoView({block: 'center'}); arguments[0].click()", found)
        self.settle()

    def text(self, selector):
        return self.get("(document.querySelector(arguments[0])?.innerText ?? '').replace(/\u00a0/g, ' ')", selector)

    def choose(self, selector, value):
        script = """const it = document.querySelector(arguments[0]);
            it.value = arguments[1];
            for (const kind of ['input', 'change']) it.dispatchEvent(new Event(kind, { bubbles: true }));"""
        self.driver.execute_script(script, selector, value)
        self.settle()

    def press(self, *keys):
        from selenium.webdriver.common.action_chains import ActionChains

        ActionChains(self.driver).send_keys(*keys).perform()
        self.settle()

    def picture(self, name):
        """The whole page as a PNG."""
        self.size(self.width, min(self.get("document.documentElement.scrollHeight"), 6000))
        time.sleep(0.5)
        self.driver.save_screenshot(name)
        self.size(self.width, 900)

    def faults(self):
        return [it["message"] for it in self.driver.get_log("browser") if it["level"] == "SEVERE"]

    def close(self):
        self.driver.quit()
