"""Preferences as values: `low("Price") * high("Stars") & pos("City", "Lyon")`, printed as the text that is asked."""
import datetime
import math
import operator
from collections.abc import Iterable
from decimal import Decimal
from fractions import Fraction
from typing import Any, Tuple, Union

from .checks import NO_LISTS, checked_text
from .columns import is_missing, quoted, spelled
from .kinds.booleans import is_truth
from .kinds.forms import PLAIN
from .kinds.moments import checked_moment
from .kinds.numbers import MOST_DIGITS, decimals_needed

# How tightly what a preference is made of holds together; what holds less stands in parentheses.
INTERSECTION, PRIORITISATION, PARETO, TIGHTEST = range(4)
SIGNS = {INTERSECTION: "|", PRIORITISATION: "&", PARETO: "*"}


class Expression:
    """An expression over columns, in the place of a column: `low(expr("Price / Stars"))`. Its text is read where it is asked.

    >>> from prefq import expr, low
    >>> low(expr("Price / Stars"))
    low(Price / Stars)
    """

    def __init__(self, text: str) -> None:
        self.text = checked_text(text, "an expression")

    def __repr__(self) -> str:
        return f"expr({self.text!r})"


Operand = Union[str, Expression]


class Preference:
    """What is preferred: `*` where both count at once (Pareto), `&` where the first decides (prioritisation), `|` where a row has to be better in both, and `-` for
    the other way round. `by` adds groups. Its text, `str(p)`, is what is asked; two of the same text are equal. `len(p)` is how many base terms it has.

    >>> from prefq import high, low, pos
    >>> low("Price (EUR)") * high("Stars") & pos("City", "Lyon")
    low("Price (EUR)") * high(Stars) & pos(City, 'Lyon')
    >>> -(low("x") & high("y")).by("City")
    Traceback (most recent call last):
    ValueError: low(x) & high(y) by City has groups, and stands for itself: write by(..) last
    """

    # Whether it is a base term alone, and whether it prefers nothing.
    is_base = is_empty = False

    def __init__(self, text: str, tightness: int = TIGHTEST, groups: Tuple[str, ...] = (), length: int = 1) -> None:
        self._text, self._tightness, self._groups, self._length = text, tightness, groups, length

    @property
    def question(self) -> str:
        """The question for its best rows, as `best` asks it.

        >>> from prefq import high, low
        >>> (low("Price") * high("Stars")).question
        'best low(Price) * high(Stars)'
        """
        return f"best {self}"

    def __len__(self) -> int:
        """How many base terms it has."""
        return self._length

    def __bool__(self) -> bool:
        """Python's `and` asks it, and would drop one of two preferences."""
        raise TypeError("a preference is neither true nor false: in place of and write * where both count at once, & where the first decides")

    def __str__(self) -> str:
        return self._text + (f" by {', '.join(map(spelled, self._groups))}" if self._groups else "")

    def __repr__(self) -> str:
        return str(self)

    def __eq__(self, other: object) -> bool:
        if not isinstance(other, Preference):
            return NotImplemented
        return str(self) == str(other)

    def __hash__(self) -> int:
        return hash(str(self))

    def __mul__(self, other: "Preference") -> "Preference":
        return self._with(PARETO, other)

    def __and__(self, other: "Preference") -> "Preference":
        return self._with(PRIORITISATION, other)

    def __or__(self, other: "Preference") -> "Preference":
        return self._with(INTERSECTION, other)

    def __add__(self, other: "Preference") -> "Preference":
        raise TypeError("there is no +, rPref's disjoint union: of a union of two preferences it is not sure that it is an order, since a row may be better by the one "
                        "and worse by the other; write * where both count at once, & where the first decides")

    def __neg__(self) -> "Preference":
        return Preference(f"-{self._inside(TIGHTEST)}", length=len(self))

    def by(self, *columns: str) -> "Preference":
        """The same in each group of rows that are equal in these columns."""
        if not columns or not all(isinstance(name, str) for name in columns):
            raise TypeError(f"by(..) takes names of columns, not {', '.join(map(repr, columns)) or 'nothing'}")
        return Preference(self._ungrouped(), self._tightness, columns, len(self))

    def _with(self, sign: int, other: "Preference") -> "Preference":
        if not isinstance(other, Preference):
            raise TypeError(f"{SIGNS[sign]} stands between two preferences, and {other!r} is of type {type(other).__name__}")
        if isinstance(other, Empty):
            return self
        return Preference(f"{self._inside(sign)} {SIGNS[sign]} {other._inside(sign)}", sign, length=len(self) + len(other))

    def _inside(self, tightness: int) -> str:
        """The text as a part of something that holds this tightly."""
        text = self._ungrouped()
        return text if self._tightness >= tightness else f"({text})"

    def _ungrouped(self) -> str:
        if self._groups:
            raise ValueError(f"{self} has groups, and stands for itself: write by(..) last")
        return self._text


class Base(Preference):
    """A base term, such as low(x)."""

    is_base = True


class Empty(Preference):
    """The preference by which all rows are equally good: with another one it is that one."""

    is_empty = True

    def __init__(self) -> None:
        super().__init__("empty()", length=0)

    def __neg__(self) -> "Preference":
        return self

    def _with(self, sign: int, other: Preference) -> Preference:
        if not isinstance(other, Preference):
            return super()._with(sign, other)
        return other


def expr(text: str) -> Expression:
    """An expression over columns, such as "Price / Stars" or "abs(x - 5)", in the place of a column.

    >>> from prefq import expr, high
    >>> high(expr("Price + 2 * Km"))
    high(Price + 2 * Km)
    """
    return Expression(text)


def low(column: Operand) -> Preference:
    """The smallest values are preferred.

    >>> from prefq import low
    >>> low("Price (EUR)")
    low("Price (EUR)")
    """
    return _base("low", column)


def high(column: Operand) -> Preference:
    """The largest values are preferred.

    >>> from prefq import high
    >>> high("Stars")
    high(Stars)
    """
    return _base("high", column)


def around(column: Operand, value: Any) -> Preference:
    """The values nearest to this one are preferred.

    >>> from prefq import around
    >>> around("Price", 59.9)
    around(Price, 59.9)
    """
    return _base("around", column, spelled_value(value))


def between(column: Operand, first: Any, last: Any) -> Preference:
    """Values from the first to the last are preferred, then those nearest to them.

    >>> import datetime
    >>> from prefq import between
    >>> between("Opened", datetime.date(2026, 5, 1), datetime.date(2026, 5, 31))
    between(Opened, '2026-05-01', '2026-05-31')
    """
    return _base("between", column, spelled_value(first), spelled_value(last))


def pos(column: Operand, *values: Any) -> Preference:
    """These values are preferred to all others.

    >>> from prefq import pos
    >>> pos("City", "Lyon", "Bern")
    pos(City, 'Lyon', 'Bern')
    """
    return _base("pos", column, _listed(values, "pos"))


def layered(column: Operand, *layers: "Iterable[Any]") -> Preference:
    """The values of the first layer are preferred, then those of the second, and so on, and then all others.

    >>> from prefq import layered
    >>> layered("City", ["Lyon", "Bern"], ["Köln"])
    layered(City, {'Lyon', 'Bern'}, {'Köln'})
    """
    if not layers or any(isinstance(layer, NO_LISTS) or not isinstance(layer, Iterable) for layer in layers):
        raise TypeError("layered(..) takes a list of values for each layer, as layered('City', ['Lyon', 'Bern'], ['Köln'])")
    return _base("layered", column, *(f"{{{_listed(tuple(layer), 'a layer')}}}" for layer in layers))


def reverse(preference: Preference) -> Preference:
    """The preference the other way round, as `-` gives it.

    >>> from prefq import low, reverse
    >>> reverse(low("x") * low("y"))
    -(low(x) * low(y))
    """
    return -preference


def empty() -> Preference:
    """The preference by which all rows are equally good. With another one it is that one, so that a product can begin with it.

    >>> import functools, operator, prefq
    >>> functools.reduce(operator.mul, map(prefq.low, ["x", "y"]), prefq.empty())
    low(x) * low(y)
    """
    return Empty()


def spelled_value(value: Any) -> str:
    """A value as a question has it."""
    if isinstance(value, str):
        return quoted(value)
    if is_truth(value):
        return "true" if value else "false"
    if isinstance(value, (datetime.date, datetime.time)):
        return _moment(value)
    if isinstance(value, float):
        return _float(value)
    if isinstance(value, (Decimal, Fraction)):
        return _decimal(value)
    try:
        return str(int(operator.index(value)))      # Before Python 3.10 an enumeration has itself as its index.
    except TypeError:
        raise TypeError(f"{value!r}, of type {type(value).__name__}, is no value of a question: there are numbers, texts, dates, times, True and False") from None


def _moment(value: Union[datetime.date, datetime.time]) -> str:
    if is_missing(value):
        raise ValueError(f"{value} is no value: a missing value cannot be preferred")
    if isinstance(value, datetime.datetime):
        checked_moment(value)
    return quoted(str(value))


def _float(value: float) -> str:
    if math.isnan(value):
        raise ValueError("nan is no value: a missing value cannot be preferred")
    return repr(float(value)) if math.isfinite(value) else quoted(repr(float(value)))


def _decimal(value: Union[Decimal, Fraction]) -> str:
    if isinstance(value, Decimal):
        if not value.is_finite() or value and abs(value.adjusted()) > MOST_DIGITS:
            raise ValueError(f"{value} is no number of a question")
        return format(value, "f")
    decimals = decimals_needed(value, PLAIN)
    digits = Decimal(int(value * 10**decimals)).as_tuple()
    return format(Decimal((digits.sign, digits.digits, -decimals)), "f")


def _base(word: str, column: Operand, *values: str) -> Preference:
    if not isinstance(column, (str, Expression)):
        raise TypeError(f"{word}(..) takes the name of a column, or expr(..), and not {column!r}")
    operand = column.text if isinstance(column, Expression) else spelled(column)
    return Base(f"{word}({', '.join([operand, *values])})")


def _listed(values: Tuple[Any, ...], what: str) -> str:
    if not values:
        raise TypeError(f"{what}(..) takes at least one value" if what == "pos" else f"{what} has at least one value")
    return ", ".join(map(spelled_value, values))


def true(condition: Operand) -> Preference:
    """The rows that meet a condition, an expression that is true or false, are preferred to all others.

    >>> from prefq import true
    >>> true("Price < 100 and Stars >= 4")
    true(Price < 100 and Stars >= 4)
    """
    return _base("true", condition if isinstance(condition, Expression) else Expression(condition))


Asked = Union[str, Preference]


def text_of_condition(condition: Operand) -> str:
    """The text of a condition."""
    return checked_text(condition.text if isinstance(condition, Expression) else condition, "a condition")


def text_asked(question: Asked) -> str:
    """The text of a question, which may be a preference: then it asks for the best rows."""
    return checked_text(question.question if isinstance(question, Preference) else question, "a question")


def text_preferred(preference: Asked) -> str:
    """The text of a preference."""
    return checked_text(str(preference) if isinstance(preference, Preference) else preference, "a question")
