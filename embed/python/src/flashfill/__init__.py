"""Columns of data frames filled by example, by a proved engine.

>>> import flashfill
>>> rows = [{"Name": "Ada Byron", "City": "London"}, {"Name": "Max Planck", "City": "Kiel"}]
>>> learned = flashfill.learn(rows, "Label", {0: "Byron (London)"}, sources=["Name", "City"])
>>> learned.frame[1]["Label"]
'Planck (Kiel)'
>>> learned.rule.apply([{"Name": "Marie Curie", "City": "Paris"}])[0]["Label"]
'Curie (Paris)'

Frames are data frames of pandas, or lists of dicts as here. Only tested: all of this package, which stands around the
engine. Proved: what the engine answers, see `flashfill.engine`.
"""
from .engine import Answer, FlashFillError, MissingFile, NoMemory, RefusedFile, WrongWords, report, run
from .learned import DoubtWarning, FlashFillWarning, Learned, NotLearnedWarning, fill, learn
from .rule import Rule

__all__ = [
    "Answer", "DoubtWarning", "FlashFillError", "FlashFillWarning", "Learned", "MissingFile", "NoMemory", "NotLearnedWarning",
    "RefusedFile", "Rule", "WrongWords", "fill", "learn", "report", "run",
]
__version__ = "0.1.0"
