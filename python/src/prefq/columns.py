"""Columns of a frame: a name of any spelling, and a kind of values."""
import datetime
import re
from decimal import Decimal
from typing import Any, List

from .checks import LEAST
from .kinds import Kind, kind_named
from .kinds.forms import PLAIN
from .kinds.texts import plain_text

PLAIN_NAME = re.compile(r"[^\W\d][\w.]*")


class Column:
    """A column: its `name`, its `kind` (such as decimal(2)), and whether it `has_gaps`, that is, ever had a missing value.

    >>> from prefq import Column
    >>> price = Column("Price (EUR)", "decimal(2)")
    >>> price
    Column('Price (EUR)', 'decimal(2)')
    >>> price.encode("57.4"), price.decode(5740)
    (5740, Decimal('57.40'))
    >>> price.decode(price.encode(None)) is None
    True
    """

    def __init__(self, name: str, kind: Any) -> None:
        self.name = plain_text(name) if isinstance(name, str) else name
        self.kind: Kind = kind if isinstance(kind, Kind) else kind_named(kind)
        # Whether the kind was taken from the values, and takes further ones by becoming wider.
        self.grows = False
        self.has_gaps = False
        # The type of pandas that the column had, if it came from there; and how the file that it came from has numbers.
        self.dtype: Any = None
        self.form = PLAIN

    def __repr__(self) -> str:
        return f"Column({self.name!r}, {str(self.kind)!r})"

    def encode(self, value: Any) -> int:
        """The number of a value in the table. None, NaN, and pandas' NA and NaT are missing; a text never is."""
        if is_missing(value):
            self.has_gaps = True
            return LEAST
        try:
            return self.kind.encode(value)
        except (TypeError, ValueError) as why:
            raise type(why)(f"column {self.name!r} ({self.kind}): {why}") from None
        except OverflowError as why:
            # The numbers of Python have no limit, floats have one.
            raise ValueError(f"column {self.name!r} ({self.kind}): {why}") from None

    def decode(self, number: int) -> Any:
        """The value of a number, None where it is missing."""
        return None if number == LEAST else self.kind.decode(number)

    def text(self, value: Any) -> str:
        """A value as a file has it; nothing where it is missing."""
        return "" if value is None else self.kind.text(value)

    def of_kind(self, kind: Kind) -> "Column":
        """The same column with another kind."""
        column = Column(self.name, kind)
        column.grows, column.has_gaps, column.dtype, column.form = self.grows, self.has_gaps, self.dtype, self.form
        return column


def is_missing(value: Any) -> bool:
    """Whether a value of Python is missing: None, not a number, pandas' NA and NaT."""
    if value is None:
        return True
    if isinstance(value, (str, int, datetime.date)) and type(value).__name__ != "NaTType":
        return False
    if isinstance(value, Decimal):
        return value.is_nan()
    if type(value).__name__ in ("NAType", "NaTType"):
        return True
    try:
        return bool(value != value) and not getattr(value, "shape", ())     # An array of one NaN is an array.
    except (TypeError, ValueError):
        return False


def spelled(name: str) -> str:
    """A column's name as a question has it."""
    return name if PLAIN_NAME.fullmatch(name) else '"' + name.replace('"', '""') + '"'


def quoted(text: str) -> str:
    """A text as a question has it."""
    return "'" + text.replace("'", "''") + "'"


def listed(names: List[str], most: int = 8) -> str:
    """Names in a message, the first ones of many."""
    shown = ", ".join(map(spelled, names[:most]))
    return shown + (f" and {len(names) - most} more" if len(names) > most else "")
