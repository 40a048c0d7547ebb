"""Learning how a column comes from the others, and filling it."""
from __future__ import annotations

import functools
import html
import warnings
from typing import Any, Dict, Hashable, List, Mapping, Optional, Sequence, Tuple

from .cells import Shown, columns_of
from .frames import STATES, frame_of
from .rule import Rule
from .task import Settings, Task, tables_of
from .told import Doubt, told_by

MOST_DOUBTS = 100
"""How many cells in doubt `Learned.doubts` has."""

MOST_SHOWN = 20
MOST_COLUMNS = 8
COLORS = {"likely": "#fff8e1", "doubt": "#ffe8a3", "none": "#eeeeee", "none doubt": "#ffe8a3"}


class FlashFillWarning(UserWarning):
    """Something is to be looked at. `rows` are the labels of its rows."""

    def __init__(self, line: str, rows: Tuple[Any, ...] = ()) -> None:
        super().__init__(line)
        self.rows = rows


class DoubtWarning(FlashFillWarning):
    """Cells are filled with guesses."""


class NotLearnedWarning(FlashFillWarning):
    """Given cells are not learned from. They stay as they are."""


class Learned:
    """What was learned. In Jupyter it is shown as a table in which guesses are marked.

    Attributes
    ----------
    frame : data frame or list of dicts
        A copy of the frame with the column filled.
    states : series or list
        How sure each cell is: ``given``, ``sure``, ``doubt``, ``none`` or ``none doubt``.
    refused : dict
        The labels of given cells that are not learned from, with the reasons. The engine names the first ten.
    rule : Rule or None
        The rule; none if nothing was learned.
    warnings : list of FlashFillWarning
        What `learn` and `fill` warn of.
    """

    def __init__(self, task: Task) -> None:
        self._task = task
        only = ["--only=sure"] if task.settings.only_sure else []
        answer = task.ask(range(len(task.frame)), "--save-rule=rule", *only)
        self._told = told_by(answer.err)
        self._texts, self._states = columns_of(answer.out, task.at)
        self._others: Dict[int, Doubt] = {}
        self.rule = Rule(answer.saved, self._told.rule, task.tables.files) if answer.saved else None
        refused = task.frame.labels_at([row - 2 for row in self._told.refused])
        self.refused: Dict[Any, str] = dict(zip(refused, self._told.refused.values()))
        self.states = task.frame.states(f"{task.to} state", self._states)
        places = self._written()
        given = task.given or list(task.examples.values())
        self.frame = task.frame.filled(task.to, places, [self._texts[it] for it in places], given)
        self.warnings: List[FlashFillWarning] = [
            NotLearnedWarning(f"row {label!r}: not learned from: {why}", (label,)) for label, why in self.refused.items()
        ]
        self.warnings += [FlashFillWarning(it) for it in self._told.rest]

    def _written(self) -> List[int]:
        """Which cells are written: those that have an answer or an example, and hold another text."""
        task, wanted = self._task, self._task.places
        changed = [place for place, (text, old) in enumerate(zip(self._texts, task.old)) if text != old]
        return [it for it in changed if self._texts[it] != "" or it in wanted or task.settings.replace]

    @property
    def counts(self) -> Dict[str, int]:
        """How many cells have each state."""
        return {it: self._states.count(it) for it in dict.fromkeys((*STATES, *self._states)) if it in self._states}

    @functools.cached_property
    def doubts(self) -> Any:
        """The first hundred cells in doubt by label: ``answer``, ``other`` answer, and in words ``rule`` and ``other_rule``.

        ``rule`` has all kinds of rows: the engine does not tell of which kind a row is.
        """
        places = self._in_doubt()[:MOST_DOUBTS]
        told = self._about(places)
        columns = {
            "answer": [self._texts[place] or it.answer for place, it in zip(places, told)],
            "other": [it.other for it in told],
            "rule": [self.rule.explain() if self.rule else None] * len(places),
            "other_rule": [it.other_rule for it in told],
        }
        return self._task.frame.table(places, columns)

    @functools.cached_property
    def next(self) -> Any:
        """The label of the row to look at next, none if no row is in doubt. With many rows in doubt this takes a while."""
        doubtful, row = self._in_doubt(), self._told.next
        if len(doubtful) > 1 and row is None:
            row = told_by(self._task.ask(range(len(self._states)), "--explain").err).next
        place = row - 2 if row else doubtful[0] if doubtful else None
        return None if place is None else self._task.frame.labels_at([place])[0]

    def _in_doubt(self) -> List[int]:
        return [place for place, it in enumerate(self._states) if it in ("doubt", "none doubt")]

    def _about(self, places: Sequence[int]) -> List[Doubt]:
        """Both answers for cells in doubt. The engine tells of ten in one run.

        What it tells of a row hangs on that row and on the given ones, so no others are handed in.
        """
        given = [place for place, it in enumerate(self._states) if it == "given"]
        left = [it for it in places if it not in self._others]
        for at in range(0, len(left), 10):
            asked = left[at : at + 10]
            told = told_by(self._task.ask([*given, *asked], "--explain").err).doubts
            self._others.update((it, told.get(row, Doubt(None, None, None))) for row, it in enumerate(asked, len(given) + 2))
        return [self._others[it] for it in places]

    def correct(self, examples: Mapping[Hashable, Any]) -> Learned:
        """Returns what is learned with these examples more, by label. They win over earlier ones."""
        task = self._task
        learned = Learned(Task(task.frame, task.to, {**task.examples, **examples}, task.settings, task.tables))
        _warn(learned.warnings)
        return learned

    def __repr__(self) -> str:
        counts = ", ".join(f"{count} {it}" for it, count in self.counts.items())
        rule = "; ".join(self.rule.explain().splitlines()) if self.rule else "no rule"
        return f"<flashfill.Learned {self._task.to}: {counts}; {rule}>"

    def _repr_html_(self) -> str:
        """The rule, the counts, and twenty rows: those in doubt before others, in the frame's order."""
        task, states = self._task, self._states
        shown = sorted(sorted(range(len(states)), key=lambda it: ("doubt" not in states[it], it))[:MOST_SHOWN])
        doubts = [it for it in shown if "doubt" in states[it]]
        others = {it: told.other or "none" for it, told in zip(doubts, self._about(doubts))}
        read = self.rule.sources if self.rule else task.header
        columns = [at for at, it in enumerate(task.header) if at != task.at and it in read][:MOST_COLUMNS]
        lines = [_line("th", ["", *(task.header[it] for it in columns), str(task.to), "or", "state"])]
        for at in shown:
            cells = [str(task.frame.labels[at]), *(task.columns[it][at] for it in columns), self._texts[at], others.get(at, ""), states[at]]
            lines.append(_line("td", cells, len(cells) - 3, COLORS.get(states[at])))
        counts = ", ".join(f"{count} {it}" for it, count in self.counts.items())
        rule = self.rule._repr_html_() if self.rule else "no rule"
        more = f"<p>and {len(states) - len(shown)} rows more</p>" if len(shown) < len(states) else ""
        return f"<p>{rule}</p><p>{counts}</p><table>{''.join(lines)}</table>{more}"


def _line(kind: str, cells: Sequence[str], marked: int = -1, color: Optional[str] = None) -> str:
    """A line of an HTML table, one cell of it with a color."""
    style = f' style="background:{color};color:black"' if color else ""
    parts = (f"<{kind}{style if at == marked else ''}>{html.escape(it)}</{kind}>" for at, it in enumerate(cells))
    return f"<tr>{''.join(parts)}</tr>"


def _warn(told: Sequence[FlashFillWarning]) -> None:
    """Warns at the line that called the package's function."""
    for it in told:
        warnings.warn(it, stacklevel=3)


def learn(
    frame: Any, to: Any, examples: Optional[Mapping[Hashable, Any]] = None, sources: Optional[Sequence[Any]] = None, *,
    tables: Optional[Mapping[str, Any]] = None, keys: Optional[Mapping[str, Sequence[Any]]] = None, depth: int = 1,
    formats: Optional[Mapping[Any, Shown]] = None, replace: bool = False, only_sure: bool = False, profile: Optional[int] = None,
) -> Learned:
    """Learns how a column comes from the others, and fills it.

    Parameters
    ----------
    frame : data frame or list of dicts
        A data frame of pandas, or one that has ``__dataframe__``; of the latter what comes back is of pandas. It stays as
        it is.
    to : column
        The column to fill; its cells that hold something are examples. It is added if it is not there.
    examples : mapping of label to cell
        More examples, by labels of the index, or by numbers of rows from 0 in a list. They win over what the column
        holds. "" says that a cell stays empty.
    sources : sequence of columns
        The columns to read, eight at most; else the program chooses among the others.
    tables : mapping of str to frame
        Tables that rules may look up in.
    keys : mapping of str to sequence
        The keys of each table, four at most: a column, or a list of up to three, that tells its rows apart; else those
        that the engine finds.
    depth : int
        How many lookups may stand inside each other.
    formats : mapping of column to callable
        How cells of a column are shown as texts; else by the rule that `flashfill.cells` states.
    replace : bool
        Whether what the column holds is replaced and no example.
    only_sure : bool
        Whether cells that are not sure stay empty.
    profile : int
        The language of the rules, 1 to 3.

    Warns
    -----
    NotLearnedWarning
        If given cells are not learned from.

    Examples
    --------
    >>> rows = [{"Name": "Ada Byron"}, {"Name": "Max A Planck"}]
    >>> learned = learn(rows, "Last", {0: "Byron"})
    >>> learned.frame[1]["Last"], learned.states[1], learned.doubts[0]["other"], learned.next
    ('A Planck', 'doubt', 'Planck', 1)
    >>> learned.correct({1: "Planck"}).rule.explain()
    'Name from the last block without spaces on'
    """
    settings = Settings(sources, formats or {}, depth, replace, only_sure, profile)
    learned = Learned(Task(frame_of(frame), to, examples or {}, settings, tables_of(tables or {}, keys or {})))
    _warn(learned.warnings)
    return learned


def fill(
    frame: Any, to: Any, examples: Optional[Mapping[Hashable, Any]] = None, sources: Optional[Sequence[Any]] = None, *,
    tables: Optional[Mapping[str, Any]] = None, keys: Optional[Mapping[str, Sequence[Any]]] = None, depth: int = 1,
    formats: Optional[Mapping[Any, Shown]] = None, replace: bool = False, only_sure: bool = False, profile: Optional[int] = None,
) -> Any:
    """Returns a copy of a frame with a column filled. The parameters are those of `learn`.

    Warns
    -----
    DoubtWarning
        If cells are filled with guesses.
    NotLearnedWarning
        If given cells are not learned from.

    Examples
    --------
    >>> fill([{"Name": "Ada Byron"}, {"Name": "Max Planck"}], "Last", {0: "Byron"}, only_sure=True)[1]
    {'Name': 'Max Planck', 'Last': None}
    """
    settings = Settings(sources, formats or {}, depth, replace, only_sure, profile)
    learned = Learned(Task(frame_of(frame), to, examples or {}, settings, tables_of(tables or {}, keys or {})))
    rows = tuple(learned._task.frame.labels_at(learned._in_doubt()))
    line = f"{len(rows)} of {len(learned._states)} cells of {to!r} are in doubt: flashfill.learn(..).doubts has both answers"
    _warn([*learned.warnings, *([DoubtWarning(line, rows)] if rows and not only_sure else [])])
    return learned.frame
