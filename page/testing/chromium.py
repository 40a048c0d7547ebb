"""A headless Chromium by its driver, over the WebDriver protocol."""
import json
import subprocess
import threading
import urllib.error
import urllib.request

from browser import PATIENCE, Browser, Failed, program

BROWSERS = ("chromium", "chromium-browser", "google-chrome")
DRIVERS = ("chromedriver",)


class Chromium(Browser):
    name = "Chromium"
    finds_errors = True

    @staticmethod
    def is_there():
        return program(*BROWSERS) is not None and program(*DRIVERS) is not None

    def __init__(self, width=1280, height=800, dark=False, scale=1):
        super().__init__()
        self.driver = subprocess.Popen([program(*DRIVERS), "--port=0"], stdin=subprocess.DEVNULL, stdout=subprocess.PIPE, stderr=subprocess.DEVNULL, text=True)
        self.session = None
        try:
            self.start(width, height, dark, scale)
        except BaseException:
            self.close()
            raise

    def start(self, width, height, dark, scale):
        for line in self.driver.stdout:
            words = line.rstrip().rstrip(".").split()
            if words[-2:-1] == ["port"] and words[-1] != "0":
                self.url = f"http://127.0.0.1:{words[-1]}"
                break
        else:
            raise Failed("the driver does not start")
        threading.Thread(target=self.driver.stdout.read, daemon=True).start()
        args = ["--headless=new", "--no-sandbox", "--disable-dev-shm-usage", "--disable-gpu", f"--window-size={width},{height}", "--hide-scrollbars",
                f"--force-device-scale-factor={scale}", f"--user-data-dir={self.folder.name}/profile", "--disable-background-networking", "--no-first-run"]
        if dark:
            args.append("--force-prefers-color-scheme=dark")
        options = {"binary": program(*BROWSERS), "args": args, "prefs": {"download.default_directory": str(self.downloads), "profile.default_content_setting_values.automatic_downloads": 1,
                                                                        "profile.default_content_setting_values.clipboard": 1}}
        wanted = {"browserName": "chrome", "goog:chromeOptions": options, "goog:loggingPrefs": {"browser": "ALL", "performance": "ALL"}}
        made = self.call("POST", "/session", {"capabilities": {"alwaysMatch": wanted}})
        self.session = f"/session/{made['sessionId']}"
        self.on("POST", "/timeouts", {"script": PATIENCE * 1000, "pageLoad": PATIENCE * 1000})
        self.devtools("Emulation.setDeviceMetricsOverride", {"width": width, "height": height, "deviceScaleFactor": scale, "mobile": min(width, height) < 600})
        if dark:
            self.emulate("prefers-color-scheme", "dark")

    def close(self):
        try:
            if self.session:
                self.call("DELETE", self.session)
        except OSError:
            pass
        finally:
            self.driver.terminate()
            self.driver.wait()
            self.driver.stdout.close()

    def call(self, method, path, body=None):
        """A call of the protocol; what it answers, or an error with the driver's message."""
        data = None if body is None else json.dumps(body).encode()
        request = urllib.request.Request(self.url + path, data, {"Content-Type": "application/json"}, method=method)
        try:
            with urllib.request.urlopen(request, timeout=PATIENCE + 60) as answer:
                return json.load(answer)["value"]
        except urllib.error.HTTPError as error:
            raise Failed(json.load(error)["value"]["message"].splitlines()[0]) from None

    def on(self, method, path, body=None):
        return self.call(method, self.session + path, body)

    def devtools(self, command, parameters):
        return self.on("POST", "/goog/cdp/execute", {"cmd": command, "params": parameters})

    def emulate(self, feature, value):
        """Lets the page believe in a wish of the person's, such as forced colours."""
        self.devtools("Emulation.setEmulatedMedia", {"features": [{"name": feature, "value": value}]})

    def resize(self, width, height):
        self.devtools("Emulation.setDeviceMetricsOverride", {"width": width, "height": height, "deviceScaleFactor": 1, "mobile": False})

    def open(self, url):
        self.on("POST", "/url", {"url": url})

    def script(self, script, args):
        return self.on("POST", "/execute/async", {"script": script, "args": args})

    def act(self, actions):
        self.on("POST", "/actions", {"actions": actions})

    def element(self, selector):
        return next(iter(self.on("POST", "/element", {"using": "css selector", "value": selector}).values()))

    def click(self, selector):
        self.on("POST", f"/element/{self.element(selector)}/click", {})

    def put_file(self, selector, path):
        self.on("POST", f"/element/{self.element(selector)}/value", {"text": str(path)})

    def screenshot(self):
        return self.on("GET", "/screenshot")

    def log(self, kind):
        return self.on("POST", "/se/log", {"type": kind})

    def errors(self):
        # a page that is left with work in it would ask, which the driver does not let it
        return [it["message"] for it in self.log("browser") if it["level"] in ("SEVERE", "WARNING") and "'beforeunload'" not in it["message"]]

    def requests(self):
        messages = (json.loads(it["message"])["message"] for it in self.log("performance"))
        return [it["params"]["request"]["url"] for it in messages if it["method"] == "Network.requestWillBeSent"]
