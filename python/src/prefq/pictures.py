"""Pictures as JSON: the answer as a table, and all rows as points of a scatter plot."""
import datetime
import json
import re
import threading
from dataclasses import replace
from decimal import Decimal
from sys import getsizeof
from typing import Any, Callable, Dict, Iterable, List, NamedTuple, Optional, Sequence, Tuple, TypeVar, Union

from .answer import Answer
from .checks import LEAST
from .columns import Column, spelled
from .desk import Desk, Held, Numbers, moment_of_picture
from .kept import Kept
from .kinds import Booleans, Choices, Clock, Dates, Texts
from .loading import records_of
from .selection import Selection
from .why import explained, number_of

MOST_BEST = 500         # rows of an answer that are sent; a page is no place for more
MOST_OTHERS = 2000      # other rows that are drawn
MOST_AT_ONCE = 2        # pictures that are made at a time: more of them would hold up changes, and be made no sooner
NUMBER = re.compile(r"\d{1,18}")
ID = re.compile(r"-?\d{1,19}")
# Products with one are spread over the numbers below the other alike (the golden ratio; Knuth, The Art of Computer Programming 3, 6.4).
GOLDEN, SPREAD = 0x9E3779B97F4A7C15, 2**64
DAY = datetime.date(1970, 1, 1).toordinal()
Result = TypeVar("Result")


class Asked(NamedTuple):
    """What a page asks: a question, and beside it a condition and how many rows, as texts."""

    question: str
    where: Optional[str] = None
    top: Optional[str] = None

    def selection(self) -> Selection:
        """What is asked beside the question."""
        if self.top and not NUMBER.fullmatch(self.top):
            raise ValueError(f"top is {self.top!r}: no whole number")
        return Selection.of(where=self.where or None, top=int(self.top) if self.top else None)


def about(desk: Desk, title: str, questions: Sequence[str], editable: bool) -> Dict[str, Any]:
    """What a page has to know before the first picture."""
    columns = [{"name": column.name, "spelled": spelled(column.name), "kind": column.kind.name, "spelling": str(column.kind), "example": column.kind.example, "axis": is_axis(column),
                "ordered": column.kind.ordered, "measured": column.kind.measured, "iso": str(column.kind) == Dates.name, "truth": truth_of(column)} for column in desk.columns]
    return {"title": title, "columns": columns, "questions": list(questions), "editable": editable}


def picture(desk: Desk, asked: Asked, axes: Sequence[Optional[str]] = (None, None)) -> Dict[str, Any]:
    """The rows and the answer at one version. Axes are names of columns; those that are not given are the first two of the question that are no texts."""
    seen = desk.picture(asked.question, asked.selection())
    columns = seen.columns
    x, y = chosen(columns, seen.asked, axes)
    label = next((place for place, column in enumerate(columns) if isinstance(column.kind, (Texts, Choices))), None)
    groups = Groups.of(asked.question, columns, seen.best)
    shown = seen.best[:MOST_BEST]
    best = [{"id": sent(row.id), "level": row.level, "cells": texts(columns, row.numbers), "ranks": places, "group": groups.place(row), "x": at(columns, row, x), "y": at(columns, row, y)}
            for row, places in zip(shown, ranks(columns, [row.numbers for row in shown]))]
    among = {row.id for row in seen.best}
    others = sample([row for row in seen.rows if row.id not in among])
    points = [[sent(row.id), at(columns, row, x), at(columns, row, y), "" if label is None else texts(columns, row.numbers)[label], groups.place(row)] for row in others]
    return {"version": seen.version, **asked._asdict(), "count": len(seen.rows), "found": len(seen.best), "best": best, "others": points, "groups": groups.names,
            "notes": list(seen.notes), "asked": [column.name for column in seen.asked], "axes": [None if axis is None else columns[axis].name for axis in (x, y)]}


class Groups:
    """The groups of a question that rows of its answer are in, by the numbers of their columns; none where the question has none."""

    def __init__(self, columns: Sequence[Column], places: List[int], rows: Iterable[Any]) -> None:
        self._places = places
        keys = {self._key(row) for row in rows} if places else set()
        by = [columns[place] for place in places]
        ordered = sorted(keys, key=lambda key: [(number != LEAST, in_order(column)(number)) for column, number in zip(by, key)])
        self._numbers = {key: number for number, key in enumerate(ordered)}
        self.names = [", ".join(column.text(column.decode(number)) or "missing" for column, number in zip(by, key)) for key in ordered]

    @staticmethod
    def of(question: str, columns: Sequence[Column], rows: Iterable[Any]) -> "Groups":
        """Those of a question over these columns."""
        by = Selection().read(question, named(columns).get, list(named(columns))).by
        return Groups(columns, [columns.index(column) for column in by], rows)

    def _key(self, row: Any) -> Numbers:
        return tuple(row.numbers[place] for place in self._places)

    def place(self, row: Any) -> Optional[int]:
        """The place of a row's group among those of the answer."""
        return self._numbers.get(self._key(row))


def answer(desk: Desk, asked: Asked) -> Answer:
    """The whole answer at one version."""
    seen = desk.picture(asked.question, asked.selection())
    return Answer(asked.question, seen.columns, records_of(seen.columns, seen.best))


def why(desk: Desk, asked: Asked, id: int) -> Dict[str, Any]:
    """A row and the rows that are better than it, at one version."""
    seen = desk.picture(asked.question, asked.selection())
    number = number_of(seen.rows, id)
    found, _ = explained(asked.question, replace(asked.selection(), top=None), moment_of_picture(seen.columns, seen.rows), seen.rows, number, id)
    [own] = [row for row in seen.rows if row.id == id]
    rows = [{"id": sent(other), "level": level, "cells": texts(seen.columns, numbers)} for level, other, numbers in found[:MOST_BEST]]
    return {"version": seen.version, "row": {"id": sent(id), "cells": texts(seen.columns, own.numbers)}, "rows": rows, "count": len(found),
            "asked": [column.name for column in seen.asked]}


def named(columns: Iterable[Column]) -> Dict[str, Column]:
    """Columns by their names."""
    return {column.name: column for column in columns}


class Shown:
    """Pictures that several browsers ask for: each is made once for each version."""

    def __init__(self, desk: Desk) -> None:
        self._desk = desk
        self._making = threading.BoundedSemaphore(MOST_AT_ONCE)
        self._kept: Kept[str] = Kept(getsizeof)

    def get(self, asked: Asked, axes: Sequence[Optional[str]]) -> Tuple[int, str]:
        """The version of the picture as it is now, and the picture as JSON."""
        self._desk.check()

        def made() -> Tuple[int, str]:
            with self._making:
                found = picture(self._desk, asked, axes)
                return found["version"], json.dumps(found)

        return self._kept.get((asked, *(axis or "" for axis in axes)), self._desk.version, made)

    def made(self, make: Callable[..., Result], *words: Any) -> Result:
        """What is made of the desk and these beside pictures, and as seldom at a time."""
        self._desk.check()
        with self._making:
            return make(self._desk, *words)


def truth_of(column: Column) -> List[str]:
    """The texts for true and false of a column of truth values; none of another."""
    return [column.kind.text(value) for value in (True, False)] if isinstance(column.kind, Booleans) else []


def is_axis(column: Column) -> bool:
    return not isinstance(column.kind, (Texts, Choices, Clock))


def chosen(columns: Sequence[Column], asked: Sequence[Column], axes: Sequence[Optional[str]]) -> List[Optional[int]]:
    """The places of the columns of both axes. None, where there is no further column, stands for the number of the row."""
    places = {column.name: place for place, column in enumerate(columns) if is_axis(column)}
    rest = [places[column.name] for column in [*asked, *columns] if column.name in places]
    rest = [place for place in dict.fromkeys(rest) if columns[place].name not in axes]
    return [places[name] if name in places else rest.pop(0) if rest else None for name in axes]


def at(columns: Sequence[Column], row: Any, axis: Optional[int]) -> Any:
    """Where a row stands on an axis: a number; days or seconds since 1970 for dates and times; None where the value is missing."""
    if axis is None:
        return row.id
    value = columns[axis].decode(row.numbers[axis])
    if isinstance(value, datetime.datetime):
        return value.replace(tzinfo=value.tzinfo or datetime.timezone.utc).timestamp()
    if isinstance(value, datetime.date):
        return value.toordinal() - DAY
    if isinstance(value, float):
        return value if abs(value) < 1e300 else None        # what has no place on a scale
    return float(value) if isinstance(value, Decimal) else value


def sent(id: int) -> Union[int, str]:
    """The id of a row, as a text where the numbers of browsers do not have it."""
    return id if abs(id) < 2**53 else str(id)


def texts(columns: Sequence[Column], numbers: Sequence[int]) -> List[str]:
    """The values of a row as a file has them."""
    return [column.text(column.decode(number)) for column, number in zip(columns, numbers)]


def ranks(columns: Sequence[Column], rows: Sequence[Sequence[int]]) -> List[Tuple[Optional[int], ...]]:
    """At which place of the order of its column each value of some rows is, so that a page can sort by it; None where it is missing."""
    return list(zip(*(ranks_in(column, numbers) for column, numbers in zip(columns, zip(*rows)))))


def ranks_in(column: Column, numbers: Sequence[int]) -> List[Optional[int]]:
    """Those of a column."""
    ordered = sorted((number for number in set(numbers) if number != LEAST), key=in_order(column))
    places: Dict[int, Optional[int]] = {number: place for place, number in enumerate(ordered)}
    return [places.get(number) for number in numbers]


def in_order(column: Column) -> Callable[[int], Any]:
    """By what the numbers of a column are sorted. Texts are in the order of the alphabet, all else in that of their numbers."""
    if not isinstance(column.kind, Texts):
        return lambda number: number

    def alphabet(number: int) -> Tuple[str, str]:
        text = str(column.decode(number) or "")
        return text.casefold(), text

    return alphabet


def sample(rows: List[Held]) -> List[Held]:
    """Some of many rows, for the most part the same ones in each picture."""
    step = -(-len(rows) // MOST_OTHERS)
    some = rows if step <= 1 else [row for row in rows if row.id % step == 0]
    if step <= 1 or MOST_OTHERS // 4 <= len(some) <= MOST_OTHERS:
        return some
    # The ids of a database may all be odd, or end in zeros.
    return [row for row in rows if row.id * GOLDEN % SPREAD < SPREAD // step][:MOST_OTHERS]
