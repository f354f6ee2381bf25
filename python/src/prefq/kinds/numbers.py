"""Columns of numbers."""
import math
import operator
import re
import struct
from decimal import Context, Decimal, InvalidOperation
from fractions import Fraction
from typing import Any, List, Optional, Sequence

from ..checks import LEAST, MOST
from ..errors import NotRead
from .at_once import MOST_DECIMALS, PlainTexts
from .forms import NUMBER, PLAIN, Form
from .kind import Kind

# A program may have made the decimals of its own context fewer than a column's.
WIDE = Context(prec=40)
INFINITY = re.compile(r"[+-]?inf(?:inity)?", re.IGNORECASE)
FLOAT = re.compile(f"{NUMBER.pattern}|{INFINITY.pattern}", re.IGNORECASE)
# So many digits of a decimal number come back from a float. One that needs more of them is a result of floats, and not the number that somebody wrote.
FLOAT_DIGITS = 15
LONGEST_SHOWN = 60
# As exact fractions, numbers of more digits before or behind the point take seconds, and no column has them.
MOST_DIGITS = 10_000


class Number(Kind):
    """Numbers, which texts have in a form: in its own, where one is given, and else in the plain one, or that of a file."""

    def __init__(self, form: Optional[Form] = None) -> None:
        self.form = PLAIN if form is None else form
        self.has_own_form = form is not None

    def __repr__(self) -> str:
        options = self.options()
        return f"{self.name}({', '.join(options)})" if options else self.name

    def options(self) -> List[str]:
        """What stands in its parentheses."""
        return self.form.options() or (['decimal="."'] if self.has_own_form else [])

    def in_form(self, form: Form) -> "Number":
        """The kind with the same numbers, whose texts have this form."""
        return type(self)(form)

    def plain(self, text: str) -> str:
        """The plain form of the number that a text spells."""
        plain = self.form.plain(text)
        if plain is None:
            raise NotRead(f"{text!r} is no number" + ("" if self.form.is_plain else f" as {self} has it"))
        return plain


class Whole(Number):
    """Whole numbers of 64 bits, without the least. A text is a number of the form, whose value is whole."""

    name = "whole"
    example = "60"
    decimals = 0

    @property
    def scale(self) -> int:
        """By how much the numbers of the table are larger."""
        return int(10**self.decimals)

    def read(self, text: str) -> int:
        return self._scaled(fraction_of(self.plain(text)), text)

    def encode(self, value: Any) -> int:
        if isinstance(value, str):
            return self.read(value)
        if type(value) is int and LEAST < value * self.scale <= MOST:
            return value * self.scale       # exact arithmetic takes several times as long
        return self._scaled(exact(value), value)

    def _scaled(self, exactly: Fraction, value: Any) -> int:
        scaled = exactly * self.scale
        if scaled.denominator != 1:
            what = "is no whole number" if self.decimals == 0 else f"has more than {self.decimals} decimal{'s' * (self.decimals != 1)}"
            raise NotRead(f"{shown(value)} {what}")
        if not LEAST < scaled <= MOST:
            raise NotRead(f"{shown(value)} does not fit: {self.fits()}")
        return scaled.numerator

    def fits(self) -> str:
        """What fits a column of this kind."""
        return f"a column has whole numbers from {LEAST + 1} to {MOST}"

    def find(self, text: str) -> Optional[int]:
        position = self.position(text)
        return position.numerator if position.denominator == 1 and LEAST < position <= MOST else None

    def position(self, text: str) -> Fraction:
        return number_of(text) * self.scale

    def text(self, value: Any) -> str:
        return self.form.written(format(value, "f") if isinstance(value, Decimal) else str(value))

    def read_all(self, texts: Sequence[str]) -> Optional[List[int]]:
        plain = texts if self.form.is_plain else self.form.all_plain(texts)
        found = PlainTexts.of(plain) if plain else None
        numbers = None if found is None else found.scaled(self.decimals)
        return numbers if numbers is not None and are_in_range(numbers) else None

    def widened(self, value: Any) -> Optional[Kind]:
        if self._has(value):
            return None
        try:
            decimals = decimals_needed(value, self.form)
        except (ValueError, InvalidOperation):
            return None
        if isinstance(value, float) and len(Decimal(digits_of(value)).as_tuple().digits) > FLOAT_DIGITS:
            return None
        return Decimals(decimals, self.form if self.has_own_form else None) if self.decimals < decimals <= MOST_DECIMALS else None

    def _has(self, value: Any) -> bool:
        try:
            self.encode(value)
        except (TypeError, ValueError):
            return False
        return True


class Decimals(Whole):
    """Decimal numbers, exact to a number of decimals. A text is a number of the form with no more decimals than that."""

    name = "decimal"
    example = "59.90"

    def __init__(self, decimals: int, form: Optional[Form] = None) -> None:
        super().__init__(form)
        if not 0 <= decimals <= MOST_DECIMALS:
            raise ValueError(f"a decimal column has 0 to {MOST_DECIMALS} decimals, not {decimals}")
        self.decimals = decimals

    def options(self) -> List[str]:
        return [str(self.decimals), *super().options()]

    def in_form(self, form: Form) -> "Decimals":
        return Decimals(self.decimals, form)

    def fits(self) -> str:
        return f"with {self.decimals} decimal{'s' * (self.decimals != 1)} a column has numbers from {self.decode(LEAST + 1)} to {self.decode(MOST)}"

    def decode(self, number: int) -> Decimal:
        return Decimal(number).scaleb(-self.decimals, WIDE)


class Floats(Number):
    """Binary floating-point numbers of 64 bits, in their order. -0.0 is 0.0. A text is a number, or inf, and is rounded to the nearest."""

    name = "float"
    example = "59.9"
    measured = False

    def read(self, text: str) -> int:
        if INFINITY.fullmatch(text.strip()):
            return number_of_float(float(text))
        value = float(self.plain(text))
        if math.isinf(value):
            raise NotRead(f"{shown(text)} is too large for a 64-bit float")
        return number_of_float(value)

    def encode(self, value: Any) -> int:
        if isinstance(value, str):
            return self.read(value)
        exactly = value
        if type(value) is not float:
            if not is_number(value):
                raise TypeError(f"{value!r} is no number")
            if type(value).__module__ == "numpy":
                exactly = value.item()      # numpy itself compares its whole numbers with a float as floats.
        number = float(value)
        if not number == exactly:   # Of numpy's masked value, which is a float that is no number, neither is so.
            raise NotRead(f"{shown(value)} is no 64-bit float; give the column a kind such as 'whole' or 'decimal(2)'")
        return number_of_float(number)

    def decode(self, number: int) -> float:
        return float(struct.unpack("<d", struct.pack("<q", number if number >= 0 else LEAST - number))[0])

    def find(self, text: str) -> Optional[int]:
        """Numbers of a question are always plain. A float is found by the number that it is, or that Python shows for it, and by no other near to it."""
        number = self.in_form(PLAIN).read(text)
        value = self.decode(number)
        return number if Decimal(text.strip()) in (Decimal(digits_of(value)), Decimal.from_float(value)) else None

    def text(self, value: Any) -> str:
        return self.form.written(repr(value))

    def read_all(self, texts: Sequence[str]) -> Optional[List[int]]:
        plain = self.form.all_plain(texts)
        values = None if plain is None else list(map(float, plain))
        return None if values is None or math.inf in values or -math.inf in values else list(map(number_of_float, values))


def number_of_float(value: float) -> int:
    """The bits of a negative number are its amount and the sign bit; those of -0.0 are the sign bit alone, which gives 0 as 0.0 does."""
    bits: int = struct.unpack("<q", struct.pack("<d", value))[0]
    return bits if bits >= 0 else LEAST - bits


def is_number(value: Any) -> bool:
    """Whether a float can be a value of Python. It can be asked of truths, arrays and complex numbers of numpy as well, which are none."""
    if isinstance(value, bool) or not hasattr(value, "__float__"):
        return False
    return getattr(getattr(value, "dtype", None), "kind", "f") in "iuf" and not getattr(value, "shape", ())


def shown(value: Any) -> str:
    """A value in a message, cut where it is long. Python writes no whole number of thousands of digits."""
    try:
        text = str(value)
    except ValueError:
        return "a number of thousands of digits"
    return text if len(text) <= LONGEST_SHOWN else f"{text[:LONGEST_SHOWN]}.."


def exact(value: Any) -> Fraction:
    """The exact number that a value of Python is. A float is the decimal number that is shown for it."""
    if isinstance(value, (bool, str)) or type(value).__module__ == "numpy" and not is_number(value):
        raise TypeError(f"{value!r} is no number")
    if isinstance(value, Decimal) and value and has_too_many_digits(value):
        raise NotRead(f"{shown(value)} is no number that fits")
    try:
        if isinstance(value, float) or type(value).__module__ == "numpy":
            return Fraction(digits_of(value))
        return Fraction(value) if isinstance(value, (Decimal, Fraction)) else Fraction(operator.index(value))
    except (InvalidOperation, OverflowError, ValueError):
        raise NotRead(f"{shown(value)} is no number that fits") from None
    except TypeError:
        raise TypeError(f"{value!r} is no number") from None


def has_too_many_digits(value: Decimal) -> bool:
    """Whether a number that is not 0 has more digits before or behind the point than a column has by far."""
    exponent = value.as_tuple().exponent
    return abs(value.adjusted()) > MOST_DIGITS or isinstance(exponent, int) and exponent < -MOST_DIGITS


def digits_of(value: Any) -> str:
    """The decimal number that Python shows for a value: for a float the shortest one that is read as it, whatever a class of its own, or an option of numpy, shows."""
    if isinstance(value, float):
        return float.__repr__(value)
    if type(value).__module__ == "numpy" and value.dtype.kind == "f" and not value.shape:
        import numpy
        # Of a whole number of 16 or 32 bits numpy shows only as many digits as its type tells apart, and zeros for others.
        return str(int(value) if numpy.isfinite(value) and value % 1 == 0 else numpy.format_float_scientific(value))
    return str(value)


def fraction_of(plain: str) -> Fraction:
    """The exact number of a plain text."""
    try:
        return Fraction(plain)
    except ValueError:
        raise NotRead("a number of thousands of digits does not fit") from None     # Python reads no such whole number.


def number_of(text: str) -> Fraction:
    """The exact number of a text in a question, which is always a plain one."""
    if not NUMBER.fullmatch(text.strip()):
        raise NotRead(f"{text!r} is no number")
    return fraction_of(text.strip())


def decimals_needed(value: Any, form: Form) -> int:
    """How many decimals a column needs for a value, which may be a text of this form. No number of them is enough for 1/3."""
    if not isinstance(value, Fraction):
        return decimals_of(value, form) if isinstance(value, str) else decimals_of(digits_of(value))
    found = next((decimals for decimals in range(MOST_DECIMALS + 1) if 10**decimals % value.denominator == 0), None)
    if found is None:
        raise NotRead(f"{shown(value)} has more than {MOST_DECIMALS} decimals")
    return found


def decimals_of(text: str, form: Form = PLAIN) -> int:
    """How many decimals a number has, as it is written: two in 1.50, none in 1.5e3."""
    plain = form.plain(text)
    if plain is None:
        raise NotRead(f"{text!r} is no number")
    _, _, part = plain.partition(".")
    if part.isdigit():
        return len(part)
    return max(0, -int(Decimal(plain).as_tuple().exponent))


def are_in_range(numbers: Sequence[int]) -> bool:
    """Whether a column can have all of these numbers."""
    return not numbers or LEAST < min(numbers) and max(numbers) <= MOST
