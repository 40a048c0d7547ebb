"""What is asked of the engine: a frame as a sheet, and the words that say how to fill it."""
from __future__ import annotations

from typing import Any, Dict, Hashable, List, Mapping, NamedTuple, Optional, Sequence, Tuple

from . import engine
from .cells import Shown, is_empty, is_unicode, records_of, sheet_of, sheet_of_columns, texts_of
from .frames import Frame, frame_of
from .told import rows_in


class Settings(NamedTuple):
    """How a column is to be filled; `flashfill.learn` says what each one means."""

    sources: Optional[Sequence[Any]]
    formats: Mapping[Any, Shown]
    depth: int
    replace: bool
    only_sure: bool
    profile: Optional[int]


class Task:
    """A frame, the column to fill, and examples by labels.

    The sheet for the engine has the column to fill and those that are to be read, in the frame's order; a new column is
    the last one. A column is called by its number, and by its name if another column has that number for a name.
    """

    def __init__(self, frame: Frame, to: Any, examples: Mapping[Hashable, Any], settings: Settings, tables: Tables) -> None:
        self.frame, self.to, self.examples, self.settings, self.tables = frame, to, dict(examples), settings, tables
        frame.check()
        for name in settings.sources or ():
            if name not in frame.names:
                raise KeyError(f"no column {name!r}")
        is_read = [settings.sources is None or it == to or it in settings.sources for it in frame.names]
        self.names = [it for it, is_wanted in zip(frame.names, is_read) if is_wanted]
        self.names += [] if to in self.names else [to]
        self.at = self.names.index(to)
        self.header = [str(it) for it in self.names]
        for shown in self.header:
            if self.header.count(shown) > 1:
                raise ValueError(f"more than one column is called {shown!r}")
        self.given = frame.given(to) if to in frame.names else []
        self.old = frame.texts(to, settings.formats.get(to)) if to in frame.names else [""] * len(frame)
        self.columns = [self._texts(it) for it in self.names]
        self.places = {frame.position(label): label for label in self.examples}

    def _texts(self, name: Any) -> List[str]:
        if name != self.to:
            return self.frame.texts(name, self.settings.formats.get(name))
        return [""] * len(self.frame) if self.settings.replace else self.old

    def ask(self, places: Sequence[int], *more: str) -> engine.Answer:
        """Returns the engine's answer for some rows in their order, with these words more.

        Raises
        ------
        FlashFillError
            If the engine refuses something; its `rows` are labels if its line speaks of the frame's rows.
        """
        is_whole = places == range(len(self.frame))
        columns = self.columns if is_whole else [[it[place] for place in places] for it in self.columns]
        name = engine.free_name("sheet", self.tables.files)
        words = [name, *self._words(), *self._examples(places), *more]
        try:
            sheet = sheet_of_columns(self.header, columns)
        except UnicodeEncodeError as error:
            wrong = [place for place, row in zip(places, zip(*columns)) if not is_unicode("".join(row))]
            raise engine.RefusedFile(5, f"a text is no Unicode: {error}", tuple(self.frame.labels_at(wrong))) from None
        try:
            return engine.run("fillcsv", words, {**self.tables.files, name: sheet}).checked()
        except engine.FlashFillError as error:
            error.rows = rows_in(str(error))
            if str(error).startswith(f"fillcsv: {name}: "):
                error.rows = tuple(self.frame.labels_at([places[row - 2] for row in error.rows if 2 <= row < len(places) + 2]))
            raise

    def _words(self) -> List[str]:
        words = [f"--to={self._called(self.to)}", "--state", *self.tables.words]
        if self.settings.sources is not None:
            words.append(f"--from={','.join(map(self._called, self.settings.sources))}")
        if self.tables.files:
            words.append(f"--depth={self.settings.depth}")
        if self.settings.profile is not None:
            words.append(f"--profile={self.settings.profile}")
        return words

    def _called(self, name: Any) -> str:
        number = str(self.names.index(name) + 1)
        return str(name) if number in self.header else number

    def _examples(self, places: Sequence[int]) -> List[str]:
        """The words for the examples among these rows."""
        shown = self.settings.formats.get(self.to)
        labels = ((row, self.places[place]) for row, place in enumerate(places, 2) if place in self.places)
        cells = ((row, self.examples[label]) for row, label in labels)
        return [f"--example={row}={'' if is_empty(cell) else texts_of([cell], shown)[0]}" for row, cell in cells]


class Tables(NamedTuple):
    """The words and the files for the tables that rules may look up in."""

    words: Tuple[str, ...]
    files: Dict[str, bytes]


def tables_of(tables: Mapping[str, Any], keys: Mapping[str, Sequence[Any]]) -> Tables:
    """Returns what the engine is to know of tables. One without keys of its own has the first four that the engine finds."""
    words: List[str] = []
    files: Dict[str, bytes] = {}
    for name, table in tables.items():
        frame = frame_of(table)
        first, *rows = zip(*(frame.texts(it) for it in frame.names))
        sheet = sheet_of(first, rows)
        if name in keys:
            numbers = {it: str(number) for number, it in enumerate(frame.names, 1)}
            wanted = ([it] if it in frame.names else it for it in map(_hashed, keys[name]))
            found = [",".join(numbers[it] for it in key) for key in wanted]
        else:
            listed = engine.run("flashfill", ["keys", name], {name: sheet}).checked().out
            found = [",".join(it[1:]) for it in records_of(listed)][:4]
        files[f"{name}.csv"] = sheet
        words += [f"--table={name}={name}.csv", *(f"--key={name}:{it}" for it in found)]
    return Tables(tuple(words), files)


def _hashed(key: Any) -> Any:
    return tuple(key) if isinstance(key, list) else key
