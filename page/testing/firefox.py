"""A headless Firefox by its own protocol, Marionette: Debian has no driver for it."""
import json
import os
import pathlib
import socket
import subprocess
import time

from browser import PATIENCE, Browser, Failed, program

BROWSERS = ("firefox-esr", "firefox")

SETTINGS = {
    "marionette.port": 0, "browser.shell.checkDefaultBrowser": False, "browser.download.folderList": 2, "browser.download.useDownloadDir": True,
    "browser.download.always_ask_before_handling_new_types": False, "browser.download.alwaysOpenPanel": False,
    "browser.helperApps.neverAsk.saveToDisk": "text/csv", "datareporting.policy.dataSubmissionEnabled": False, "app.update.enabled": False,
    "browser.startup.page": 0, "browser.startup.homepage": "about:blank", "browser.aboutwelcome.enabled": False, "dom.disable_beforeunload": True,
    "network.captive-portal-service.enabled": False, "network.connectivity-service.enabled": False, "toolkit.telemetry.enabled": False,
    "browser.safebrowsing.update.enabled": False, "extensions.update.enabled": False, "services.settings.server": "data:,", "remote.prefs.recommended": True,
}


class Firefox(Browser):
    name = "Firefox"

    @staticmethod
    def is_there():
        return program(*BROWSERS) is not None

    def __init__(self, width=1280, height=800):
        super().__init__()
        profile = pathlib.Path(self.folder.name, "profile")
        profile.mkdir()
        lines = [f"user_pref({json.dumps(name)}, {json.dumps(value)});" for name, value in {**SETTINGS, "browser.download.dir": str(self.downloads)}.items()]
        (profile / "user.js").write_text("\n".join(lines) + "\n", encoding="utf-8")
        words = [program(*BROWSERS), "--headless", "--marionette", "--no-remote", "--profile", str(profile), f"--width={width}", f"--height={height}", "about:blank"]
        self.process = subprocess.Popen(words, stdin=subprocess.DEVNULL, stdout=subprocess.DEVNULL, stderr=subprocess.DEVNULL, env=self.environment())
        self.socket = None
        self.number = 0
        try:
            self.connect(profile / "MarionetteActivePort")
            self.on("WebDriver:NewSession", {"pageLoadStrategy": "normal"})
            self.on("WebDriver:SetTimeouts", {"script": PATIENCE * 1000, "pageLoad": PATIENCE * 1000})
        except BaseException:
            self.close()
            raise

    def environment(self):
        """The surroundings of a Firefox that keeps all it writes in the folder of the test."""
        return {**os.environ, "HOME": self.folder.name, "MOZ_HEADLESS": "1", "MOZ_DISABLE_CONTENT_SANDBOX": "1"}

    def connect(self, port_file):
        """Waits for the port that Firefox writes down, and greets it."""
        end = time.monotonic() + PATIENCE
        while time.monotonic() < end and self.process.poll() is None:
            try:
                self.socket = socket.create_connection(("127.0.0.1", int(port_file.read_text())), timeout=PATIENCE + 60)
                self.stream = self.socket.makefile("rb")
                self.read()
                return
            except (OSError, ValueError):
                time.sleep(0.1)
        raise Failed("Firefox does not start")

    def read(self):
        """One message: its length, a colon, and JSON."""
        size = b""
        while (sign := self.stream.read(1)) != b":":
            if not sign:
                raise Failed("Firefox has gone")
            size += sign
        return json.loads(self.stream.read(int(size)))

    def on(self, command, parameters=None):
        self.number += 1
        data = json.dumps([0, self.number, command, parameters or {}]).encode()
        self.socket.sendall(b"%d:%s" % (len(data), data))
        while True:
            kind, number, error, result = self.read()
            if (kind, number) == (1, self.number):
                break
        if error:
            raise Failed(error["message"].splitlines()[0])
        return result.get("value", result) if isinstance(result, dict) else result

    def close(self):
        try:
            if self.socket:
                self.on("Marionette:Quit", {"flags": ["eForceQuit"]})
        except (OSError, Failed):
            pass
        finally:
            if self.socket:
                self.stream.close()
                self.socket.close()
            try:
                self.process.wait(20)
            except subprocess.TimeoutExpired:
                self.process.kill()
                self.process.wait()

    def open(self, url):
        self.on("WebDriver:Navigate", {"url": url})

    def script(self, script, args):
        return self.on("WebDriver:ExecuteAsyncScript", {"script": script, "args": args, "sandbox": None, "newSandbox": False})

    def act(self, actions):
        self.on("WebDriver:PerformActions", {"actions": actions})

    def element(self, selector):
        return next(iter(self.on("WebDriver:FindElement", {"using": "css selector", "value": selector}).values()))

    def click(self, selector):
        self.on("WebDriver:ElementClick", {"id": self.element(selector)})

    def put_file(self, selector, path):
        self.on("WebDriver:ElementSendKeys", {"id": self.element(selector), "text": str(path)})

    def screenshot(self):
        return self.on("WebDriver:TakeScreenshot", {"full": False, "hash": False})
