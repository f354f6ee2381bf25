"""Numbers between the columns of a table and what is computed: those of floats and texts as they are compared, and computed ones as a column."""
import math
from array import array
from fractions import Fraction
from itertools import compress
from typing import Any, Callable, Iterable, List, Optional, Sequence, Tuple

from .checks import LEAST, MOST
from .columns import Column
from .computed_values import Numbers
from .kinds import Whole
from .kinds.at_once import MOST_DECIMALS, PlainTexts
from .kinds.exact import Exact, Number, Ranked
from .kinds.numbers import are_in_range
from .pauses import extended
from .ranges import float_position

# Of the numerator and the denominator of a float that Python shows with an exponent.
BITS_OF_A_FLOAT = 1_130


def position_in(column: Column, constant: Numbers) -> Fraction:
    """Where a number lies among those of a column of numbers, between two of them perhaps."""
    value = Fraction(constant.values[0]) / constant.scale
    return value * column.kind.scale if isinstance(column.kind, Whole) else float_position(value)


def decoded_texts(column: Column, numbers: Sequence[int]) -> Sequence[Any]:
    """The texts of a column that has these numbers; any one where it is missing."""
    return by_value(lambda some: ["" if number == LEAST else column.kind.decode(number) for number in some], numbers)


def numbers_of_floats(numbers: Sequence[int], known: Optional[bytes]) -> Numbers:
    """The decimal numbers that Python shows for the floats of a column; an infinite one is itself."""
    shown = by_value(lambda some: list(map(repr, floats_of(some))), numbers)
    plain = PlainTexts.of(shown) if shown else None
    if plain is not None and plain.decimals <= MOST_DECIMALS:
        scaled = plain.scaled(plain.decimals)
        if scaled is not None:
            return Numbers(scaled, 10**plain.decimals, known)
    return Numbers(by_value(fractions_of, numbers), known=known, are_whole=False, bits=BITS_OF_A_FLOAT)


def floats_of(numbers: Sequence[int]) -> List[float]:
    """The floats of numbers as `Floats` has them; 0.0 where one is missing."""
    bits = array("q", [number if number >= 0 else LEAST - number for number in numbers])
    return array("d", bits.tobytes()).tolist()


def fractions_of(numbers: Sequence[int]) -> List[Number]:
    """The same as fractions, and infinite ones as they are."""
    return [Fraction(repr(value)) if math.isfinite(value) else value for value in floats_of(numbers)]


def by_value(values_of: Callable[[List[int]], List[Any]], numbers: Sequence[int]) -> List[Any]:
    """What is made of numbers, each of them once."""
    different = list(dict.fromkeys(numbers))
    values = values_of(different)
    return values if len(different) == len(numbers) else extended([], map(dict(zip(different, values)).__getitem__, numbers))


def column_of_numbers(name: str, found: Numbers, count: int) -> Tuple[Column, Sequence[int]]:
    """A column of the numbers of so many rows: in units in which all of them are whole, where 64 bits have them, else by their ranks."""
    values = list(found.values) * count if found.is_constant else found.values
    there = values if found.known is None else list(compress(values, found.known))
    column, numbers = column_of_whole_numbers(name, there, found.scale) if found.are_whole else (None, there)
    if column is None:
        column, numbers = column_of_any_numbers(name, there, found.scale)
    if found.known is None:
        return column, numbers
    rest = iter(numbers)
    return column, [next(rest) if is_known else LEAST for is_known in found.known]


def column_of_whole_numbers(name: str, numbers: Sequence[Any], scale: int) -> Tuple[Optional[Column], Sequence[Any]]:
    """A column of numbers that are whole in units of 1/scale; none where 64 bits do not have them, in the largest unit in which they are."""
    if are_in_range(numbers):
        return Column(name, Exact(scale)), numbers
    by = math.gcd(scale, *numbers)
    smaller = [number // by for number in numbers]
    return (Column(name, Exact(scale // by)), smaller) if are_in_range(smaller) else (None, numbers)


def column_of_any_numbers(name: str, numbers: Sequence[Number], scale: int) -> Tuple[Column, Sequence[int]]:
    """A column of numbers in units of 1/scale."""
    different = dict.fromkeys(numbers)
    unit = common_unit(different)
    if unit is not None and are_in_range([int(value * unit) for value in different]):
        return Column(name, Exact(scale * unit)), [int(value * unit) for value in numbers]
    ordered = ascending(different)
    ranks = {value: rank for rank, value in enumerate(ordered)}
    return Column(name, Ranked(ordered, scale)), [ranks[value] for value in numbers]


def ascending(values: Iterable[Number]) -> List[Number]:
    """Numbers in their order. Rounding keeps it, so that most are told apart by their floats, which is quick, and the others exactly."""
    some = list(values)
    try:
        return [value for _, value in sorted((float(value), value) for value in some)]
    except OverflowError:
        return sorted(some)


def common_unit(values: Iterable[Number]) -> Optional[int]:
    """The least number by which all values become whole; None where it is too large for 64 bits, or a value is infinite."""
    unit = 1
    for value in values:
        if isinstance(value, float):
            return None
        unit = math.lcm(unit, value.denominator)
        if unit > MOST:
            return None
    return unit
