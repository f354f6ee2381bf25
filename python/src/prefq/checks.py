"""Tests of arguments, with the limits in what is said."""
import operator
import re
from collections.abc import Iterable, Mapping
from numbers import Real
from typing import Any, Tuple

from .errors import Refused

LEAST, MOST = -2**63, 2**63 - 1
MOST_IDS = 2**64 - 1
MOST_ROWS = 65_536
MOST_COLUMNS = 16
LONGEST_LINE = 1_000_000
# What is gone through by its letters or its bytes, and is no list of values.
NO_LISTS = (str, bytes, bytearray, memoryview)
UNSENDABLE = re.compile("[\r\n\ud800-\udfff]")
NAME = re.compile(r"[A-Za-z][A-Za-z0-9_.]{0,31}")


def whole(value: Any, what: str, least: int, most: int) -> int:
    """The value as a whole number within these limits. Numbers of numpy are whole if they are integers; True and False are none."""
    try:
        # The truth values of numpy have an index, as Python's own have.
        number = None if type(value).__name__ in ("bool", "bool_") else operator.index(value)
    except TypeError:
        number = None
    if number is None:
        raise TypeError(f"{what} is {value!r}, of type {type(value).__name__}: not a whole number")
    if not least <= number <= most:
        raise ValueError(f"{what} is {number}: not from {least} to {most}")
    return number


def check_rows(rows: Any, what: str = "rows") -> None:
    """Refuses what is gone through by its names or its columns and not by its rows, as a mapping and a DataFrame are."""
    is_frame = hasattr(rows, "itertuples") or hasattr(rows, "to_dicts")     # of pandas, of Polars
    if isinstance(rows, (*NO_LISTS, Mapping)) or is_frame or not isinstance(rows, Iterable):
        raise TypeError(f"{what} is of type {type(rows).__name__}: not a list of {what}")


def seconds(value: Any, what: str) -> float:
    """The value as a number of seconds, of which there may be infinitely many."""
    if isinstance(value, bool) or not isinstance(value, Real):
        raise TypeError(f"{what} is {value!r}, of type {type(value).__name__}: not a number of seconds")
    found = float(value)
    if not found >= 0:
        raise ValueError(f"{what} is {found:g}: not a number of seconds from 0")
    return found


def names(columns: Any) -> Tuple[str, ...]:
    """The names of the columns, each of which the program accepts."""
    if isinstance(columns, (str, bytes)) or not isinstance(columns, Iterable):
        raise TypeError(f"columns is {columns!r}: not a list of names")
    found = tuple(columns)
    if not 1 <= len(found) <= MOST_COLUMNS:
        raise ValueError(f"there are {len(found)} columns: not from 1 to {MOST_COLUMNS}")
    for place, name in enumerate(found, 1):
        if not isinstance(name, str):
            raise TypeError(f"the name of column {place} is {name!r}: not a text")
        if not NAME.fullmatch(name):
            raise ValueError(f"the name of column {place} is {name!r}: not a letter, then letters, digits, _ or ., 32 of them at most (prefq.Frame takes any name)")
        if name in found[:place - 1]:
            raise ValueError(f"the name of column {place} is {name!r}, as is that of column {found.index(name) + 1}")
    return found


def checked_text(value: Any, what: str) -> str:
    """The value, which is to be a text, and is called so in what is said."""
    if not isinstance(value, str):
        raise TypeError(f"{what} is a text, not {value!r}")
    return value


def text_of_question(given: Any) -> str:
    """The question, if it can be sent at all: whatever else is wrong, the program says."""
    question = checked_text(given, "a question")
    wrong = UNSENDABLE.search(question)
    if wrong:
        what = "a question is one line" if wrong[0] in "\r\n" else f"{wrong[0]!r} is no character"
        raise Refused(what, "term", 1, len(question[:wrong.start()].encode()), question)
    if not question.strip(" \t"):
        raise Refused("a question begins with best, top_level, at_least or skyline of", "term", 1, 0, question)
    if len(question) > LONGEST_LINE:
        raise Refused("too long", "term", 5)
    return question
