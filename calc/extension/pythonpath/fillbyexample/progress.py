"""Waits for the engine: after a second with a bar of progress in the status line, and so that Esc ends it."""
import concurrent.futures
import time

import unohelper
from com.sun.star.awt import XKeyHandler, XMouseClickHandler
from com.sun.star.lang import DisposedException
from com.sun.star.util import XModifyListener

from .region import Refused

ESCAPE = 1281  # com.sun.star.awt.Key
PATIENCE = 1.0


class Keys(unohelper.Base, XKeyHandler, XMouseClickHandler):
    """Takes all keys and clicks in the sheet while one waits."""

    def __init__(self):
        self.is_ended = False

    def keyPressed(self, event):
        self.is_ended = self.is_ended or event.KeyCode == ESCAPE
        return True

    def keyReleased(self, _event):
        return True

    def mousePressed(self, _event):
        return True

    def mouseReleased(self, _event):
        return True

    def disposing(self, _event):
        self.is_ended = True


class Changes(unohelper.Base, XModifyListener):
    """Notices that the document changes."""

    def __init__(self):
        self.any = False

    def modified(self, _event):
        self.any = True

    def disposing(self, _event):
        self.any = True


class Waiting:
    """One run of a command that may take long. Use it by `with`: it leaves nothing behind."""

    def __init__(self, frame, doc, text):
        self.frame, self.controller, self.doc, self.text = frame, frame.getController(), doc, text
        self.began, self.indicator, self.keys, self.changes = time.monotonic(), None, None, None

    def __enter__(self):
        return self

    def __exit__(self, *_):
        if self.indicator:
            try:
                self.indicator.end()
                self.controller.removeKeyHandler(self.keys)
                self.controller.removeMouseClickHandler(self.keys)
                self.doc.removeModifyListener(self.changes)
            except DisposedException:  # the document was closed meanwhile
                pass

    def _show(self):
        self.keys, self.changes = Keys(), Changes()
        self.controller.addKeyHandler(self.keys)
        self.controller.addMouseClickHandler(self.keys)
        self.doc.addModifyListener(self.changes)
        self.indicator = self.frame.createStatusIndicator()
        self.indicator.start(self.text, 100)

    def tick(self, share=0.0):
        """Shows how far it is, once a second has gone by. This handles what the person does meanwhile."""
        if time.monotonic() - self.began < PATIENCE:
            return
        if not self.indicator:
            self._show()
        self.indicator.setValue(max(2, int(100 * share)))
        if self.keys.is_ended:
            raise Refused("ended")
        if self.changes.any:
            raise Refused("changed")

    def wait(self, futures):
        """Returns once all are done."""
        left = set(futures)
        while left:
            _, left = concurrent.futures.wait(left, timeout=0.05 if self.indicator else PATIENCE / 4)
            if left:
                self.tick(1 - len(left) / len(futures))
