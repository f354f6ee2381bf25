"""What is computed over rows: a number or a truth value for each of them, column by column.

Rows are told apart by masks, which have a byte for each row, 1 or 0: Python joins two of them at once, as whole numbers.
"""
import operator
from dataclasses import dataclass
from itertools import repeat
from typing import Any, Callable, Iterable, List, Optional, Sequence, Tuple, Union

from .checks import LEAST
from .columns import Column
from .expressions import Literal
from .kinds.exact import Number
from .pauses import extended
from .ranges import MISSING, VALUES, Ranges, complement, intersection, union, within

INVERTED = bytes.maketrans(b"\0\1", b"\1\0")


@dataclass(frozen=True)
class Numbers:
    """A number for each row, in units of 1/scale; or one for all of them, where it `is_constant`. `known` is the mask of the rows that have one, where not all do: in
    others any number stands in its place. Where they `are_whole`, no number is a fraction or an infinite float. None has many more than so many `bits`."""

    values: Sequence[Number]
    scale: int = 1
    known: Optional[bytes] = None
    are_whole: bool = True
    is_constant: bool = False
    bits: int = 64

    def each(self, factor: int = 1) -> Iterable[Number]:
        """The numbers, multiplied by a factor, once for each row."""
        values = self.values if factor == 1 else [value if isinstance(value, float) else value * factor for value in self.values]
        return repeat(values[0]) if self.is_constant else values


@dataclass(frozen=True)
class Truths:
    """The masks of the rows for which something is true, and for which it is false. Of others that is not known."""

    true: bytes
    false: bytes

    @staticmethod
    def of(true: bytes, known: Optional[bytes]) -> "Truths":
        """Truth values of which some rows have none."""
        false = true.translate(INVERTED)
        return Truths(true, false) if known is None else Truths(joined(operator.and_, true, known), joined(operator.and_, false, known))

    def inverse(self) -> "Truths":
        """The truth values of `not`."""
        return Truths(self.false, self.true)

    def both(self, other: "Truths") -> "Truths":
        """The truth values of `and`."""
        return Truths(joined(operator.and_, self.true, other.true), joined(operator.or_, self.false, other.false))

    def either(self, other: "Truths") -> "Truths":
        """The truth values of `or`."""
        return self.inverse().both(other.inverse()).inverse()

    def alike(self, other: "Truths") -> "Truths":
        """Whether both are true or both are false."""
        different = self.both(other.inverse()).either(self.inverse().both(other))
        return different.inverse()

    def missing(self) -> "Truths":
        """Whether it is not known."""
        return Truths.of(joined(operator.or_, self.true, self.false), None).inverse()

    def numbers(self) -> List[int]:
        """The numbers of a column that has them."""
        return [is_true if is_true or is_false else LEAST for is_true, is_false in zip(self.true, self.false)]


@dataclass(frozen=True)
class Others:
    """The values of a column that are neither numbers nor truths, as they stand in the table."""

    column: Column
    numbers: Sequence[int]


@dataclass(frozen=True)
class NumberColumn:
    """The numbers of a column, as they stand in the table."""

    column: Column
    numbers: Sequence[int]


@dataclass(frozen=True)
class Within:
    """Truth values of a column: the ranges of its numbers for which something is true, and those for which it is false."""

    column: Column
    holds: Ranges
    fails: Ranges

    @staticmethod
    def of(column: Column, holds: Ranges) -> "Within":
        """What is true for the values in some ranges, and false for all others."""
        return Within(column, holds, complement(union(holds, MISSING)))

    def inverse(self) -> "Within":
        """The truth values of `not`."""
        return Within(self.column, self.fails, self.holds)

    @staticmethod
    def all_of(some: Sequence["Within"]) -> "Within":
        """The truth values of `and` of some of the same column."""
        return Within(some[0].column, intersection(*(each.holds for each in some)), union(*(each.fails for each in some)))

    @staticmethod
    def any_of(some: Sequence["Within"]) -> "Within":
        """The truth values of `or`."""
        return Within.all_of([each.inverse() for each in some]).inverse()

    @property
    def known(self) -> Ranges:
        """The ranges for which it is known."""
        return union(self.holds, self.fails)

    def masks(self, numbers: Sequence[int], known: Optional[bytes]) -> Truths:
        """The same over rows that have these numbers in the column, of which some have a value."""
        true = within(self.holds, numbers)
        if not complement(self.known):
            return Truths.of(true, None)
        return Truths.of(true, known) if self.known == VALUES else Truths(true, within(self.fails, numbers))


@dataclass(frozen=True)
class NoValues:
    """A column none of whose rows has a value here; elsewhere it may have values of any kind."""


Values = Union[Numbers, NumberColumn, Truths, Within, Others, NoValues, Literal]


def joined(function: Callable[[int, int], int], one: bytes, other: bytes) -> bytes:
    """Two masks, of which one is made byte by byte."""
    return function(int.from_bytes(one, "little"), int.from_bytes(other, "little")).to_bytes(len(one), "little")


def both_known(one: Optional[bytes], other: Optional[bytes]) -> Optional[bytes]:
    """The rows that have both values, by those that have each."""
    if one is None or other is None:
        return other if one is None else one
    return joined(operator.and_, one, other)


def combined(function: Callable[[Any, Any], Any], left: Numbers, right: Numbers, factors: Tuple[int, int], scale: int) -> Numbers:
    """What a function makes of two numbers of each row, which are multiplied by these factors before."""
    is_constant = left.is_constant and right.is_constant
    if is_constant:
        values = [function(left.values[0] * factors[0], right.values[0] * factors[1])]
    else:
        values = extended([], map(function, left.each(factors[0]), right.each(factors[1])))
    return Numbers(values, scale, both_known(left.known, right.known), left.are_whole and right.are_whole, is_constant)
