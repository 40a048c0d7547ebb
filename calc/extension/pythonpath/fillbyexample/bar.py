"""The bar above the sheet, with buttons that are commands. Such a command has `#bar` behind it."""
from com.sun.star.beans import StringPair

PROTOCOL = "org.flashfill:"
BAR = "org.flashfill"
FROM_BAR = "#bar"
INFO, WARNING = 0, 2  # com.sun.star.frame.InfobarType
LONGEST_BUTTON, LONGEST_RULE = 30, 200


class Bar:
    def __init__(self, frame):
        self.controller = frame.getController()

    def show(self, title, text, buttons=(), is_warning=False):
        """`buttons` are labels with their commands."""
        self.hide()
        pairs = tuple(StringPair(label, f"{PROTOCOL}{command}{FROM_BAR}") for label, command in buttons)
        self.controller.appendInfobar(BAR, title, text, WARNING if is_warning else INFO, pairs, True)

    def is_shown(self):
        return self.controller.hasInfobar(BAR)

    def hide(self):
        if self.is_shown():
            self.controller.removeInfobar(BAR)


def cut(text, most):
    """A text in one line, which may be cut."""
    text = " ".join(text.split())
    return text if len(text) <= most else text[:most - 1] + "…"


def label_of(text):
    """A label of a text of a person's, in which ~ would say what key it has."""
    return cut(text, LONGEST_BUTTON).replace("~", "~~")
