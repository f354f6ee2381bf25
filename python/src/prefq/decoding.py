"""What the lines of PostgreSQL's `test_decoding` say of one table: whole transactions, in the order of their commits.

>>> log = Log(Layout("public.offers", "id", ("price",), {"id": "integer", "price": "numeric"}))
>>> log.add("0/10", "BEGIN 7")
>>> log.add("0/10", "table public.offers: INSERT: id[integer]:1 price[numeric]:57.40")
>>> log.add("0/20", "COMMIT 7")
>>> log.rows, log.place
({1: ['57.40']}, 32)
"""
import re
from dataclasses import dataclass
from typing import Any, Dict, Iterator, List, Mapping, Optional, Sequence, Tuple

from .dealt import Key
from .follow_source import UNCHANGED

NAME = r'(?:"(?:[^"]|"")*"|[^"\s.,:\[\]]+)'
TABLE = re.compile(rf"{NAME}\.{NAME}")
HEAD = re.compile(rf"table (?P<tables>{NAME}\.{NAME}(?:, {NAME}\.{NAME})*): (?P<verb>INSERT|UPDATE|DELETE|TRUNCATE):")
CELL = re.compile(rf""" (?P<name>{NAME})\[(?P<type>(?:"(?:[^"]|"")*"|[^"])*?)\]:(?P<value>B?'(?:[^']|'')*'|[^\s']+)""", re.DOTALL)
OLD, NEW = " old-key:", " new-tuple:"
WHOLE = ("smallint", "integer", "bigint")
TRUTHS = {"t": "true", "f": "false"}        # which lines have as words


class NotUnderstood(ValueError):
    """A line that is not of this table as it is known."""


@dataclass(frozen=True)
class Layout:
    """A table as lines have it: its name with that of its schema, its key, its other columns that are followed, and the types of all these."""

    name: str
    key: str
    columns: Tuple[str, ...]
    types: Mapping[str, str]

    def key_of(self, text: Optional[str]) -> Key:
        """A key that stands there as a text."""
        if text is None:
            raise NotUnderstood("a row has no key")
        return int(text) if self.types[self.key] in WHOLE else text

    def cell(self, name: str, text: Optional[str]) -> Optional[str]:
        """A value that the output function of a column's type gives, as its kind reads it; None where it is missing. NaN is missing in every frame."""
        declared = self.types[name]
        if text is None or text == "NaN" and declared in ("numeric", "real", "double precision"):
            return None
        if declared == "character":
            return text.rstrip(" ")     # The type does not count them, and fills a value up with them.
        if declared == "boolean":
            return TRUTHS.get(text, text)
        return text[:-3] + "Z" if declared == "timestamp with time zone" and text.endswith("+00") else text


class Log:
    """The last state of each row that lines speak of, `None` where it was deleted; whether all rows were deleted before; and the place behind the last commit.

    Where a line is not of this table as it is known, or says too little, `is_clear` is false, and the table has to be read.
    """

    def __init__(self, layout: Layout) -> None:
        self.rows: Dict[Key, Optional[List[Any]]] = {}
        self.is_cleared = False
        self.is_clear = True
        self.place = 0
        self._layout = layout

    def add(self, place: str, line: str) -> None:
        """Adds a line, which stands at this place of the log."""
        head = HEAD.match(line)
        if line.startswith("COMMIT"):
            self.place = place_of(place)
        elif head and self._layout.name in TABLE.findall(head["tables"]):
            try:
                self._change(head["verb"], line[head.end():])
            except NotUnderstood:
                self.is_clear = False

    def _change(self, verb: str, rest: str) -> None:
        if verb == "TRUNCATE":
            self.rows.clear()
            self.is_cleared = True
            return
        old, new = rest.split(NEW, 1) if verb == "UPDATE" and rest.startswith(OLD) else ("", rest)
        cells = dict(_cells(new, self._layout.types))
        # A long key that stays as it is stands in what is said of the old row alone.
        before = self._key(dict(_cells(old[len(OLD):], self._layout.types))) if old else self._key(cells)
        key = before if cells.get(self._layout.key) is UNCHANGED else self._key(cells)
        if verb == "DELETE":
            self.rows[key] = None
            return
        if not set(self._layout.columns) <= set(cells):
            raise NotUnderstood("a column is not there")
        self._write(key, before, [cells[name] if cells[name] is UNCHANGED else self._layout.cell(name, cells[name]) for name in self._layout.columns])

    def _key(self, cells: Mapping[str, Any]) -> Key:
        key = cells.get(self._layout.key)
        if key is UNCHANGED:
            raise NotUnderstood("a key is unchanged, and nothing is said of the row that it was")
        return self._layout.key_of(key)

    def _write(self, key: Key, before: Key, values: List[Any]) -> None:
        """A row has these values, of which those that are unchanged stand in what was said of it before, or are those of the row that it was."""
        if UNCHANGED in values:
            known = self.rows.get(before)
            if known is not None:
                values = [old if value is UNCHANGED else value for value, old in zip(values, known)]
            is_of_this_row = before == key and (known is not None or not (before in self.rows or self.is_cleared))
            if UNCHANGED in values and not is_of_this_row:
                raise NotUnderstood("a value is unchanged, and was that of another row")
        if before != key:
            self.rows[before] = None
        self.rows[key] = values


def _cells(text: str, types: Mapping[str, str]) -> Iterator[Tuple[str, Any]]:
    """The columns and their values, of which those that are followed have these types."""
    place = 0
    while place < len(text):
        cell = CELL.match(text, place)
        if not cell:
            raise NotUnderstood(text[place:])
        name = cell["name"][1:-1].replace('""', '"') if cell["name"].startswith('"') else cell["name"]
        if types.get(name, cell["type"]) != cell["type"]:
            raise NotUnderstood(f"column {name!r} has another type")
        yield name, _value(cell["value"])
        place = cell.end()


def _value(text: str) -> Any:
    """What the output function of its type gives for a value, which a line has in quotes, but for numbers and truths, and behind a B where it is of bits."""
    if text == "unchanged-toast-datum":
        return UNCHANGED
    if text == "null":
        return None
    return text[text.index("'") + 1:-1].replace("''", "'") if text.endswith("'") else text


def place_of(text: str) -> int:
    """A place of PostgreSQL's log, such as 16/B374D848, as a number."""
    found = re.fullmatch(r"([0-9A-Fa-f]{1,8})/([0-9A-Fa-f]{1,8})", text)
    if not found:
        raise ValueError(f"{text!r} is no place of the log, such as 16/B374D848")
    return (int(found[1], 16) << 32) + int(found[2], 16)
