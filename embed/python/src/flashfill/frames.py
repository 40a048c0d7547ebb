"""Frames as the package reads and fills them: data frames of pandas, lists of dicts, and whatever speaks `__dataframe__`.

Nothing here imports pandas unless a frame of it, or one that speaks `__dataframe__`, is handed in. What is handed in stays
as it is. Rows go by *labels*: those of a data frame's index, and the numbers from 0 of a list.
"""
from __future__ import annotations

import numbers
import sys
from typing import Any, Dict, Hashable, List, Mapping, Optional, Sequence

from .cells import Shown, cells_of, is_empty, texts_of

STATES = ("given", "sure", "likely", "doubt", "none", "none doubt")


class Frame:
    """What all frames have in common. A *place* is the number of a row from 0."""

    data: Any
    names: List[Any]
    labels: Any

    def __len__(self) -> int:
        return len(self.labels)

    def check(self) -> None:
        """Raises a ValueError if rows cannot be told apart, or if there are none."""
        if not len(self):
            raise ValueError("the frame has no rows")

    def labels_at(self, places: Sequence[int]) -> List[Any]:
        """Returns the labels of rows."""
        raise NotImplementedError

    def position(self, label: Hashable) -> int:
        """Returns the place of the row that has this label, or raises a KeyError."""
        raise NotImplementedError

    def given(self, name: Any) -> List[Any]:
        """Returns the cells of a column that are not empty; none if there is no such column."""
        raise NotImplementedError

    def texts(self, name: Any, shown: Optional[Shown] = None) -> List[str]:
        """Returns the texts of a column."""
        raise NotImplementedError

    def filled(self, to: Any, places: Sequence[int], texts: Sequence[str], given: Sequence[Any]) -> Any:
        """Returns a copy with texts in some rows of a column, as cells of the kind of the given ones if they can be such."""
        raise NotImplementedError

    def states(self, name: str, states: Sequence[str]) -> Any:
        """Returns the states of all rows, in the form that the frame's own columns have."""
        raise NotImplementedError

    def table(self, places: Sequence[int], columns: Mapping[str, Sequence[Any]]) -> Any:
        """Returns columns for some of the rows, in the frame's own form."""
        raise NotImplementedError

    def find(self, name: str) -> Any:
        """Returns the column that a rule calls so: the one of this name, else the only one whose name is shown so."""
        alike = [it for it in self.names if it == name] or [it for it in self.names if str(it) == name]
        if len(alike) != 1:
            raise KeyError(f"{'no' if not alike else 'more than one'} column {name!r}")
        return alike[0]


class Rows(Frame):
    """A list of mappings, as `csv.DictReader` gives them. A column that some row lacks is empty there."""

    def __init__(self, data: Sequence[Mapping[Any, Any]]) -> None:
        self.data, self.labels = data, range(len(data))
        self.names = list(dict.fromkeys(name for row in data for name in row))

    def labels_at(self, places: Sequence[int]) -> List[int]:
        return list(places)

    def position(self, label: Hashable) -> int:
        if not isinstance(label, int) or label not in self.labels:
            raise KeyError(f"no row {label!r}: rows of a list go by their numbers from 0")
        return label

    def given(self, name: Any) -> List[Any]:
        return [row[name] for row in self.data if name in row and not is_empty(row[name])]

    def texts(self, name: Any, shown: Optional[Shown] = None) -> List[str]:
        return texts_of([row.get(name) for row in self.data], shown)

    def filled(self, to: Any, places: Sequence[int], texts: Sequence[str], given: Sequence[Any]) -> List[Dict[Any, Any]]:
        made = cells_of(texts, given)
        new = [{**row, to: row.get(to)} for row in self.data]
        for place, cell in zip(places, texts if made is None else made):
            new[place][to] = cell
        return new

    def states(self, name: str, states: Sequence[str]) -> List[str]:
        return list(states)

    def table(self, places: Sequence[int], columns: Mapping[str, Sequence[Any]]) -> List[Dict[str, Any]]:
        return [{"row": row, **{name: it[at] for name, it in columns.items()}} for at, row in enumerate(places)]


class Pandas(Frame):
    """A data frame of pandas."""

    def __init__(self, data: Any) -> None:
        self.data, self.labels, self.names = data, data.index, list(data.columns)

    def check(self) -> None:
        super().check()
        if not self.labels.is_unique:
            label = self.labels[self.labels.duplicated()][0]
            raise ValueError(f"the index has {label!r} twice, so labels name no single row; frame.reset_index() gives each its own")

    def labels_at(self, places: Sequence[int]) -> List[Any]:
        labels: List[Any] = self.labels[list(places)].tolist()
        return labels

    def position(self, label: Hashable) -> int:
        place = self.labels.get_loc(label)
        if not isinstance(place, numbers.Integral):
            raise KeyError(f"more than one row {label!r}")
        return int(place)

    def _column(self, name: Any) -> Any:
        column = self.data[name]
        if column.ndim != 1:
            raise ValueError(f"more than one column {name!r}")
        return column

    def given(self, name: Any) -> List[Any]:
        if name not in self.names:
            return []
        column = self._column(name)
        return [it for it in column[column.notna()].tolist() if not is_empty(it)]

    def texts(self, name: Any, shown: Optional[Shown] = None) -> List[str]:
        from pandas.api.types import infer_dtype

        column = self._column(name)
        if shown is None and column.dtype == object:
            texts: List[str] = column.tolist()
            if set(map(type, texts)) <= {str}:  # which is what most columns are
                return texts
        is_there = column.notna()
        if shown is None and infer_dtype(column, skipna=True) == "string":
            texts = column.astype(object).where(is_there, "").tolist()
            return texts
        is_short = column.dtype.kind == "f" and column.dtype.itemsize < 8  # 0.1 as a short number is shown as 0.1
        cells = map(float, map(str, column[is_there].to_numpy())) if is_short else column[is_there].tolist()
        told = iter(texts_of(list(cells), shown))
        return [next(told) if it else "" for it in is_there.tolist()]

    def filled(self, to: Any, places: Sequence[int], texts: Sequence[str], given: Sequence[Any]) -> Any:
        import pandas

        made = cells_of(texts, given)
        if made is None:
            made = [it or None for it in texts] if "" in texts else list(texts)
        frame = self.data.copy()
        if to not in self.names:
            new = pandas.Series(float("nan"), index=self.labels, dtype=object)
            frame[to] = _joined(new, places, made).infer_objects() if made else new
        elif made:
            frame[to] = _joined(self._column(to), places, made)
        return frame

    def states(self, name: str, states: Sequence[str]) -> Any:
        import pandas

        known = [it for it in dict.fromkeys((*STATES, *states)) if it != "likely" or it in states]
        codes = {it: code for code, it in enumerate(known)}
        return pandas.Series(pandas.Categorical.from_codes([codes[it] for it in states], known), index=self.labels, name=name)

    def table(self, places: Sequence[int], columns: Mapping[str, Sequence[Any]]) -> Any:
        import pandas

        return pandas.DataFrame(dict(columns), index=self.labels[list(places)], columns=list(columns), dtype=object)


def _joined(old: Any, places: Sequence[int], cells: Sequence[Any]) -> Any:
    """A column of pandas with new cells at some places. It keeps its dtype if that can hold them."""
    import pandas

    kinds = set(map(type, cells))
    are_texts = kinds <= {str, type(None)}
    if isinstance(old.dtype, pandas.CategoricalDtype):
        more = [it for it in dict.fromkeys(cells) if it is not None and it not in old.cat.categories]
        old = old.astype(object) if more and old.cat.ordered else old.cat.add_categories(more)
    elif are_texts and old.dtype.kind in "biufcmM":
        old = old.astype(object)
    if old.dtype == object and are_texts and type(None) in kinds:  # what is missing among texts is NaN, as `read_csv` has it
        cells = [float("nan") if it is None else it for it in cells]
    values = pandas.array(cells, dtype=object) if old.dtype == object else cells
    if old.dtype == object and len(places) == len(old):
        return pandas.Series(values, index=old.index, name=old.name)
    try:
        new = old.array.copy()
        new[list(places)] = values
    except (TypeError, ValueError):
        new = old.astype(object).array.copy()
        new[list(places)] = pandas.array(cells, dtype=object)
    return pandas.Series(new, index=old.index, name=old.name)


def frame_of(data: Any) -> Frame:
    """Returns what is handed in as a frame."""
    pandas = sys.modules.get("pandas")
    if pandas is not None and isinstance(data, pandas.DataFrame):
        return Pandas(data)
    if hasattr(data, "__dataframe__"):
        from pandas.api.interchange import from_dataframe

        return Pandas(from_dataframe(data))
    if isinstance(data, Sequence) and all(isinstance(it, Mapping) for it in data):
        return Rows(data)
    raise TypeError(f"neither a data frame nor a list of dicts: {type(data).__name__}")
