"""Follows undo and redo of a document: the memory of what was filled goes with the cells, and the bar goes away."""
import unohelper
from com.sun.star.document import XUndoManagerListener

from . import memory, task, telling
from .bar import Bar

_followed = {}  # by document


class Follower(unohelper.Base, XUndoManagerListener):
    """`steps` are what the document remembered before and after each step of ours that can be undone."""

    def __init__(self, doc, titles):
        self.doc, self.uid, self.titles, self.steps, self.undone = doc, doc.RuntimeUID, titles, [], []
        self.is_empty = False

    def begin(self):
        """A step is about to be made."""
        self.before, self.is_empty = memory.read(self.doc), False

    def end(self):
        """It was made. One in which nothing changed is no step."""
        if not self.is_empty:
            self.steps.append((self.before, memory.read(self.doc)))
            self.undone.clear()

    def cancelledContext(self, _event):
        self.is_empty = True

    def actionUndone(self, event):
        self._moved(event, self.steps, self.undone, 0)

    def actionRedone(self, event):
        self._moved(event, self.undone, self.steps, 1)

    def _moved(self, event, source, target, which):
        if event.UndoActionTitle not in self.titles:
            return
        if source:
            target.append(source.pop())
            memory.write(self.doc, target[-1][which])
        controller = self.doc.getCurrentController()
        if controller:
            Bar(controller.getFrame()).hide()

    def disposing(self, _event):
        _followed.pop(self.uid, None)
        task.forget(self.uid)
        telling.forget(self.uid)

    def ignore(self, _event):
        pass

    undoActionAdded = allActionsCleared = redoActionsCleared = resetAll = ignore
    enteredContext = enteredHiddenContext = leftContext = leftHiddenContext = ignore


def follow(doc, titles):
    """The follower of a document."""
    uid = doc.RuntimeUID
    if uid not in _followed:
        _followed[uid] = follower = Follower(doc, titles)
        doc.getUndoManager().addUndoManagerListener(follower)
    return _followed[uid]
