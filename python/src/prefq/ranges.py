"""Ranges of the numbers that a column of a table has: where those lie that a comparison with a value takes."""
import math
from bisect import bisect_right
from fractions import Fraction
from itertools import chain
from typing import Iterator, List, Sequence, Tuple

from .checks import LEAST, MOST
from .kinds.numbers import number_of_float

# Numbers from the first to the last; the ranges are in their order, and none meets another one.
Ranges = Sequence[Tuple[int, int]]
VALUES: Ranges = [(LEAST + 1, MOST)]        # all but the one of a missing value
MISSING: Ranges = [(LEAST, LEAST)]
MOST_IN_A_SET = 1000
MOST_ONE_BY_ONE = 4      # ranges with which all numbers are compared one after the other


def complement(ranges: Ranges) -> Ranges:
    """All other numbers."""
    begins = [LEAST, *(last + 1 for _, last in ranges)]
    ends = [*(first - 1 for first, _ in ranges), MOST]
    return [(begin, end) for begin, end in zip(begins, ends) if begin <= end]


def union(*some: Ranges) -> Ranges:
    """The numbers in any of them."""
    found: List[Tuple[int, int]] = []
    for first, last in sorted(chain.from_iterable(some)):
        if found and first <= found[-1][1] + 1:
            found[-1] = (found[-1][0], max(found[-1][1], last))
        else:
            found.append((first, last))
    return found


def intersection(*some: Ranges) -> Ranges:
    """The numbers in all of them."""
    return complement(union(*map(complement, some)))


def beside(sign: str, position: Fraction) -> Ranges:
    """The numbers of values of which this comparison with a position, perhaps between two numbers, is true."""
    low, high = math.floor(position), math.ceil(position)
    holds = {"=": [(high, low)], "<>": [(LEAST, high - 1), (low + 1, MOST)], "<": [(LEAST, high - 1)], "<=": [(LEAST, low)], ">": [(low + 1, MOST)], ">=": [(high, MOST)]}
    values = [(max(first, LEAST + 1), min(last, MOST)) for first, last in holds[sign]]
    return union([(first, last) for first, last in values if first <= last])


def float_position(value: Fraction) -> Fraction:
    """Where a number lies among those of floats, each of which is the decimal number that Python shows for it: these have the order of the floats."""
    try:
        nearest = float(value)
    except OverflowError:
        return number_of_float(math.inf if value > 0 else -math.inf) - Fraction(1 if value > 0 else -1, 2)
    shown = Fraction(repr(nearest))
    return number_of_float(nearest) + Fraction((value > shown) - (value < shown), 2)


def size(ranges: Ranges) -> int:
    """How many numbers the ranges have."""
    return sum(last - first + 1 for first, last in ranges)


def numbers_in(ranges: Ranges) -> Iterator[int]:
    """The numbers of the ranges one by one."""
    return chain.from_iterable(range(first, last + 1) for first, last in ranges)


def within(ranges: Ranges, numbers: Sequence[int]) -> bytes:
    """For each of the numbers 1 where it lies in one of the ranges, else 0."""
    if size(ranges) <= MOST_IN_A_SET:
        some = frozenset(numbers_in(ranges))
        return bytes([number in some for number in numbers])
    if len(ranges) > MOST_ONE_BY_ONE:
        begins, ends = [LEAST, *(first for first, _ in ranges)], [LEAST - 1, *(last for _, last in ranges)]
        return bytes([number <= ends[bisect_right(begins, number) - 1] for number in numbers])
    found = 0
    for first, last in ranges:
        mask = bytes([number >= first for number in numbers] if last == MOST else [first <= number <= last for number in numbers])
        found |= int.from_bytes(mask, "little")
    return found.to_bytes(len(numbers), "little")
