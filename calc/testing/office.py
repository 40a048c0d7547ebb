"""Starts LibreOffice with the extension unpacked, in a profile of its own, and drives it over a pipe as the menu does."""
import os
import pathlib
import signal
import subprocess
import threading
import time

import uno
import unohelper
from com.sun.star.awt import XCallback
from com.sun.star.beans import PropertyValue
from com.sun.star.connection import NoConnectException

START, STEP, END = 300, 300, 60  # seconds: a loaded machine is slow
BAR = "org.flashfill"
ICON, MENU_BAR, BUTTON, TABLE, TOOL_BAR, LABEL = 28, 35, 44, 60, 63, 86  # com.sun.star.accessibility.AccessibleRole


def value(name, it):
    made = PropertyValue()
    made.Name, made.Value = name, it
    return made


class Step(unohelper.Base, XCallback):
    """A function that LibreOffice's main thread calls."""

    def __init__(self, function):
        self.function, self.result, self.error, self.is_done = function, None, None, threading.Event()

    def notify(self, _):
        try:
            self.result = self.function()
        except BaseException as why:
            self.error = why
        self.is_done.set()


class Office:
    def __init__(self, folder, *words):
        """`folder` has the extension below `extensions`, and gets the profile."""
        pipe = f"calc-{os.getpid()}-{time.monotonic_ns()}"
        run = [
            "soffice", f"-env:BUNDLED_EXTENSIONS=file://{folder}/extensions", f"-env:UserInstallation=file://{folder}/profile",
            "--norestore", "--nologo", "--nofirststartwizard", f"--accept=pipe,name={pipe};urp;", *words,
        ]
        self.said = open(f"{folder}/said", "w+")
        traced = {**os.environ, "PYTHONFAULTHANDLER": "1"}  # a signal makes Python tell where it is
        self.process = subprocess.Popen(run, start_new_session=True, stdin=subprocess.DEVNULL, stdout=self.said, stderr=self.said, env=traced)
        local = uno.getComponentContext()
        resolver = local.ServiceManager.createInstanceWithContext("com.sun.star.bridge.UnoUrlResolver", local)
        began = time.monotonic()
        while True:
            try:
                self.context = resolver.resolve(f"uno:pipe,name={pipe};urp;StarOffice.ComponentContext")
                break
            except NoConnectException:
                if time.monotonic() - began > START or self.process.poll() is not None:
                    self.kill()
                    raise RuntimeError(f"LibreOffice does not start: {pathlib.Path(folder, 'said').read_text()}") from None
                time.sleep(0.1)
        self.desktop = self.make("com.sun.star.frame.Desktop")
        self.dispatcher = self.make("com.sun.star.frame.DispatchHelper")
        self.run(lambda: None, START)  # its main loop runs
        self.started = time.monotonic() - began

    def run(self, function, limit=STEP):
        """What a function gives that LibreOffice's main thread calls; all that it does runs in that thread, as commands of the
        menu and keys do. In other threads LibreOffice opens documents and shows progress by waiting for the main thread, at
        times without an end (7.4)."""
        step = Step(function)
        self.make("com.sun.star.awt.AsyncCallback").addCallback(step, None)
        if not step.is_done.wait(limit):
            os.killpg(self.process.pid, signal.SIGABRT)
            self.process.wait()
            raise TimeoutError(f"LibreOffice does not answer for {limit} s")
        if step.error:
            raise step.error
        return step.result

    def make(self, name):
        return self.context.ServiceManager.createInstanceWithContext(name, self.context)

    def set_language(self, language):
        """What the extension takes for the language of the office."""
        provider = self.make("com.sun.star.configuration.ConfigurationProvider")
        path = (value("nodepath", "/org.openoffice.Setup/L10N"),)
        access = provider.createInstanceWithArguments("com.sun.star.configuration.ConfigurationUpdateAccess", path)
        access.ooLocale = language
        access.commitChanges()

    def open(self, path, *how):
        return self.desktop.loadComponentFromURL(uno.systemPathToFileUrl(str(path)), "_blank", 0, how)

    def open_csv(self, path, columns=20):
        """A CSV file as a sheet, all of it text."""
        kinds = "/".join(f"{it}/2" for it in range(1, columns))
        return self.open(path, value("FilterName", "Text - txt - csv (StarCalc)"), value("FilterOptions", f"44,34,76,1,{kinds}"))

    def new(self):
        return self.desktop.loadComponentFromURL("private:factory/scalc", "_blank", 0, ())

    def command(self, doc, name, **options):
        """Runs a command, and returns once it has run."""
        frame = doc.getCurrentController().getFrame()
        self.dispatcher.executeDispatch(frame, name if ":" in name else f"org.flashfill:{name}", "", 0, tuple(value(*it) for it in options.items()))

    def close(self):
        """Ends LibreOffice; by its group where a dialog or an open menu holds it."""
        try:
            self.run(self._end, END)
            self.process.wait(END)
        except Exception:  # the bridge is gone, or it does not end
            pass
        self.kill()

    def _end(self):
        each = self.desktop.getComponents().createEnumeration()
        while each.hasMoreElements():
            it = each.nextElement()
            if hasattr(it, "close"):  # the start centre is no document
                it.close(True)
        self.desktop.terminate()

    def kill(self):
        try:
            os.killpg(self.process.pid, signal.SIGKILL)
        except ProcessLookupError:
            pass
        self.process.wait()


def bar_of(doc):
    """The text and the buttons of the bar of a document, as a screen reader gets them; None where there is no bar."""
    if not doc.CurrentController.hasInfobar(BAR):
        return None
    labels, buttons = [], []
    for role, name in _walk(doc.CurrentController.Frame.ContainerWindow.getAccessibleContext()):
        if role == ICON:
            labels, buttons = [], []
        elif role == LABEL:
            labels.append(name)
        elif role == BUTTON:
            buttons.append(name)
        elif role == TOOL_BAR and len(labels) > 1:  # the bar's own, which closes it
            break
    return ": ".join(labels), buttons


def _walk(parent):
    """Roles and names below an object, but for menus, tool bars and the sheet."""
    for at in range(min(parent.getAccessibleChildCount(), 40)):
        child = parent.getAccessibleChild(at).getAccessibleContext()
        role = child.getAccessibleRole()
        yield role, child.getAccessibleName()
        if role not in (MENU_BAR, TOOL_BAR, TABLE):
            yield from _walk(child)
