"""What all browsers of the test have in common: keys, scripts in the page, and waiting. Standard library alone."""
import base64
import pathlib
import shutil
import tempfile
import time

KEYS = {"Enter": "\ue007", "Escape": "\ue00c", "Tab": "\ue004", "Delete": "\ue017", "Down": "\ue015", "Up": "\ue013", "Left": "\ue012",
        "Right": "\ue014", "Home": "\ue011", "End": "\ue010", "PageDown": "\ue00f", "PageUp": "\ue00e", "F1": "\ue031", "F2": "\ue032",
        "F10": "\ue03a", "Control": "\ue009", "Alt": "\ue00a", "Shift": "\ue008"}

# A call may take so many seconds on a machine that has other work too
PATIENCE = 300

SCRIPT = """const done = arguments[arguments.length - 1]; const args = [...arguments].slice(0, -1);
(async () => { %s })().then((it) => done({it}), (e) => done({failed: String(e.stack ?? e)}));"""


def program(*names):
    """The path of the first of these programs that is there, or None."""
    return next(filter(None, map(shutil.which, names)), None)


class Failed(Exception):
    """The page or the browser does not do what is wanted."""


class Browser:
    """A session of a browser, to be used in a `with` statement. `on(command, parameters)` makes a call of the protocol."""

    name = "a browser"
    finds_errors = False

    def __init__(self):
        self.folder = tempfile.TemporaryDirectory(prefix="page-test-", ignore_cleanup_errors=True)
        self.downloads = pathlib.Path(self.folder.name, "downloads")
        self.downloads.mkdir()

    def __enter__(self):
        return self

    def __exit__(self, *_):
        try:
            self.close()
        finally:
            self.folder.cleanup()

    def run(self, script, *args):
        """What a script in the page returns; a promise is waited for."""
        answer = self.script(SCRIPT % script, list(args))
        if answer and "failed" in answer:
            raise Failed(answer["failed"])
        return answer.get("it") if answer else None

    def wait(self, condition, what, seconds=PATIENCE):
        """Waits until a condition in the page holds."""
        end = time.monotonic() + seconds
        while not self.run(f"return {condition};"):
            if time.monotonic() > end:
                raise Failed(f"waited {seconds} s in vain: {what}")
            time.sleep(0.02)

    def press(self, *keys):
        """Presses keys one after the other, as a person does; `Control+z` holds the first one."""
        actions = []
        for key in keys:
            chord = [KEYS.get(it, it) for it in (key.split("+") if len(key) > 1 and "+" in key[1:] else [key])]
            actions += [{"type": "keyDown", "value": it} for it in chord]
            actions += [{"type": "keyUp", "value": it} for it in reversed(chord)]
        self.act([{"type": "key", "id": "keys", "actions": actions}])

    def type(self, text):
        self.press(*text)

    def drag(self, start, end):
        """Presses the mouse at a place of the window, and lets it go at another."""
        moves = [{"type": "pointerMove", "x": x, "y": y, "duration": 50} for x, y in (start, end)]
        steps = [moves[0], {"type": "pointerDown", "button": 0}, moves[1], {"type": "pointerUp", "button": 0}]
        self.act([{"type": "pointer", "id": "mouse", "parameters": {"pointerType": "mouse"}, "actions": steps}])

    def picture(self, path):
        pathlib.Path(path).write_bytes(base64.b64decode(self.screenshot()))

    def errors(self):
        """Lines of the console that tell of errors or warnings, where the browser tells them."""
        return []

    def requests(self):
        """The addresses that were asked for since the last call, where the browser tells them."""
        return []
