"""A rule that was learned: it fills a column of any frame that has the columns that it reads."""
from __future__ import annotations

import collections
import concurrent.futures
import functools
import html
import itertools
import os
import pathlib
import sys
from typing import Any, Callable, Dict, Iterable, Iterator, List, Mapping, Optional, Sequence, Tuple, Union

from . import engine
from .cells import Shown, last_of, records_of, sheet_of, sheet_of_columns, texts_of
from .frames import Frame, Rows, frame_of

CHUNK = 20_000
"""How many rows go to the engine in one call. The rule is read anew in each call."""

BESIDE = 4
"""How many calls there are at once, at most."""

Progress = Union[bool, None, Callable[[int], Any]]


class Rule:
    """A rule, as `flashfill.learn` gives it and as a file of ``fillcsv --save-rule`` holds it.

    Parameters
    ----------
    text : bytes
        The rule's file.
    words : sequence of str
        The rule in words, a line for each kind of rows.
    tables : mapping of str to bytes
        The CSV files of the tables that the rule looks up in, by the names that it has for them.

    Attributes
    ----------
    to : str
        The column that it fills.
    sources : list of str
        The columns that it reads.

    Examples
    --------
    >>> import flashfill
    >>> rows = [{"Name": "Ada Byron", "Last": "Byron"}, {"Name": "Max Planck", "Last": ""}]
    >>> rule = flashfill.learn(rows, "Last").rule
    >>> rule.explain()
    'Name after the first space'
    >>> rule.apply([{"Name": "Marie Curie", "Id": 7}])
    [{'Name': 'Marie Curie', 'Id': 7, 'Last': 'Curie'}]
    """

    def __init__(self, text: bytes, words: Sequence[str] = (), tables: Optional[Mapping[str, bytes]] = None) -> None:
        self.text, self.words, self.tables = bytes(text), tuple(words), dict(tables or {})
        try:
            records = [it for it in records_of(self.text) if it]
        except UnicodeDecodeError:
            records = []
        named = {it[0]: it[1:] for it in records}
        if records[:1] != [["rule", "1"]] or not named.get("switch"):
            raise engine.RefusedFile(5, "this is no rule")
        if not named.get("names"):
            raise engine.RefusedFile(5, "this rule was learned without a header: only the command `fillcsv --rule` runs it")
        *self.sources, self.to = named["names"]
        self.switch = named["switch"][0]
        self.files = [it[2] for it in records if it[0] == "table"]

    def explain(self) -> str:
        """Returns the rule in words, a line for each kind of rows.

        The engine tells the words of a rule when it is learned. The rule's file has no room for them, so a rule that was
        loaded from one has the engine's own notation here. A pickle keeps the words.
        """
        return "\n".join(self.words) or self.switch

    def save(self, path: Union[str, "os.PathLike[str]"]) -> None:
        """Writes the rule's file, and beside it those of its tables. ``fillcsv --rule`` runs it in that folder.

        Raises
        ------
        FileExistsError
            If a table's file is there already and holds something else. Nothing is written then.
        """
        rule = pathlib.Path(path)
        for name, table in self.tables.items():
            place = rule.parent / name
            if place.exists() and place.read_bytes() != table:
                raise FileExistsError(f"{place} is there, and is not the rule's table")
        for name, table in self.tables.items():
            (rule.parent / name).write_bytes(table)
        rule.write_bytes(self.text)

    @classmethod
    def load(cls, path: Union[str, "os.PathLike[str]"], tables: Optional[Mapping[str, bytes]] = None) -> Rule:
        """Returns the rule of a file. Tables that are not handed in are read from the rule's folder."""
        place = pathlib.Path(path)
        rule = cls(place.read_bytes(), (), tables)
        for name in rule.files:
            if name not in rule.tables:
                rule.tables[name] = (place.parent / name).read_bytes()
        return rule

    def apply(self, data: Any, progress: Progress = None, formats: Optional[Mapping[Any, Shown]] = None) -> Any:
        """Fills the rule's column wherever it is empty. It is added if it is not there.

        Parameters
        ----------
        data : data frame, series, list of dicts, or iterator
            A frame gives a filled copy. A series gives a series; this takes a rule that reads one column. A `csv.DictReader`
            or another iterator of dicts gives an iterator of dicts, and a `csv.reader` one of lists, the header first: they
            are read and filled piece by piece.
        progress : bool or callable
            True shows a bar (of tqdm, if that is there). A function is called with the number of rows of each piece.
        formats : mapping of column to callable
            How the cells of a column are shown as texts, see `flashfill.learn`.

        Raises
        ------
        KeyError
            If a column that the rule reads is not there.
        """
        if type(data).__module__.startswith("pandas.") and type(data).__name__ == "Series":
            return self._series(data, progress, formats)
        if isinstance(data, Iterator) or (isinstance(data, Iterable) and hasattr(data, "fieldnames")):
            return self._stream(iter(data), _teller(progress, None))
        frame = frame_of(data)
        if isinstance(frame, Rows) and not len(frame):
            return []
        return self._frame(frame, _teller(progress, len(frame)), formats)

    __call__ = apply

    def texts(self, columns: Sequence[Sequence[str]], told: Callable[[int], Any] = lambda _: None) -> List[str]:
        """Returns the rule's texts for rows; "" if it gives none.

        Parameters
        ----------
        columns : sequence of sequences of str
            The texts of each of `sources`.
        """
        if len(columns[0]) <= CHUNK:
            made = self._texts(columns, 0)
            told(len(made))
            return made
        made = []
        places = range(0, len(columns[0]), CHUNK)
        beside = min(BESIDE, len(os.sched_getaffinity(0)))
        # the engine holds no lock of Python's, so other processors make the next texts while these are read
        with concurrent.futures.ThreadPoolExecutor(beside) as pool:
            calls = collections.deque(pool.submit(self._texts, columns, it) for it in places[: beside + 1])
            for at in places:
                texts = calls.popleft().result()
                calls.extend(pool.submit(self._texts, columns, it) for it in places[at // CHUNK + beside + 1 :][:1])
                made += texts
                told(len(texts))
        return made

    def _texts(self, columns: Sequence[Sequence[str]], at: int) -> List[str]:
        """The texts of one piece."""
        return last_of(self._run(sheet_of_columns(self.sources, [it[at : at + CHUNK] for it in columns])))

    def function(self, size: int = 1 << 16) -> Callable[..., Optional[str]]:
        """Returns the rule as a function of the texts of `sources`, none for no answer. It remembers its last answers.

        Examples
        --------
        >>> import flashfill, sqlite3
        >>> rows = [{"Name": "Ada Byron", "Last": "Byron"}, {"Name": "Max Planck", "Last": ""}]
        >>> base = sqlite3.connect(":memory:")
        >>> base.create_function("last", 1, flashfill.learn(rows, "Last").rule.function(), deterministic=True)
        >>> base.execute("select last('Marie Curie')").fetchone()
        ('Curie',)
        """

        @functools.lru_cache(size)
        def call(*cells: Any) -> Optional[str]:
            if len(cells) != len(self.sources):
                raise TypeError(f"the rule reads {', '.join(self.sources)}, and {len(cells)} cells are given")
            return self.texts([texts_of([it]) for it in cells])[0] or None

        return call

    def _run(self, sheet: bytes) -> bytes:
        """What the program makes of a sheet by this rule."""
        name = engine.free_name("rule", self.tables)
        files = {**self.tables, name: self.text, "-": sheet}
        return engine.run("fillcsv", [f"--rule={name}", "--quiet"], files).checked().out

    def _frame(self, frame: Frame, told: Callable[[int], Any], formats: Optional[Mapping[Any, Shown]]) -> Any:
        try:
            sources = [frame.find(it) for it in self.sources]
        except KeyError as error:
            raise KeyError(f"the rule reads {', '.join(map(repr, self.sources))}: {error.args[0]}") from None
        texts = self.texts([frame.texts(it, (formats or {}).get(it)) for it in sources], told) if len(frame) else []
        to = next((it for it in frame.names if str(it) == self.to), self.to)
        if to in frame.names:
            texts = [text if old == "" else "" for text, old in zip(texts, frame.texts(to))]
        places = list(itertools.compress(range(len(texts)), texts))
        return frame.filled(to, places, list(filter(None, texts)), frame.given(to))

    def _series(self, data: Any, progress: Progress, formats: Optional[Mapping[Any, Shown]]) -> Any:
        if len(self.sources) != 1:
            raise TypeError(f"the rule reads {', '.join(map(repr, self.sources))}: hand in a frame that has these columns")
        name, shown = self.sources[0], (formats or {}).get(data.name)
        frame = frame_of(data.rename(name).to_frame())
        return self._frame(frame, _teller(progress, len(data)), {name: shown} if shown else None)[self.to]

    def _stream(self, rows: Iterator[Any], told: Callable[[int], Any]) -> Iterator[Any]:
        chunk = list(itertools.islice(rows, CHUNK))
        header = None if not chunk or isinstance(chunk[0], Mapping) else chunk.pop(0)
        if header is not None and not chunk:
            yield records_of(self._run(sheet_of(header, [])))[0]
        is_first = True
        while chunk:
            if header is None:
                yield from self._frame(Rows(chunk), lambda _: None, None)
            else:
                yield from records_of(self._run(sheet_of(header, chunk)))[0 if is_first else 1 :]
            told(len(chunk))
            chunk, is_first = list(itertools.islice(rows, CHUNK)), False

    def __repr__(self) -> str:
        return f"<flashfill.Rule {self.to} by {', '.join(self.sources)}: {'; '.join(self.explain().splitlines())}>"

    def _repr_html_(self) -> str:
        return f"<b>{html.escape(self.to)}</b> = {'<br>'.join(map(html.escape, self.explain().splitlines()))}"

    def __eq__(self, other: object) -> bool:
        return isinstance(other, Rule) and (other.text, other.tables) == (self.text, self.tables)

    def __hash__(self) -> int:
        return hash(self.text)

    def __reduce__(self) -> Tuple[Any, ...]:
        return type(self), (self.text, self.words, self.tables)


def _teller(progress: Progress, count: Optional[int]) -> Callable[[int], Any]:
    """What is told of each piece that is done."""
    if callable(progress):
        return progress
    if not progress:
        return lambda _: None
    try:
        from tqdm.auto import tqdm
    except ImportError:
        done = [0]

        def tell(rows: int) -> None:
            done[0] += rows
            print(f"{done[0]}{'' if count is None else f' of {count}'} rows", file=sys.stderr)

        return tell
    bar = tqdm(total=count, unit=" rows")

    def show(rows: int) -> None:
        bar.update(rows)
        if bar.n == count:
            bar.close()

    return show
