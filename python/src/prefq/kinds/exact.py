"""Kinds of columns that are computed: numbers that no decimal has, exactly."""
from bisect import bisect_left
from fractions import Fraction
from typing import Optional, Sequence, Union

from .kind import Kind
from .numbers import Whole, number_of

Number = Union[int, float, Fraction]        # a float is infinite


class Exact(Whole):
    """Numbers in units of a fraction of one, as thirds."""

    name = "number"

    def __init__(self, scale: int) -> None:
        super().__init__()
        self._scale = scale

    @property
    def scale(self) -> int:
        return self._scale

    def decode(self, number: int) -> Fraction:
        return Fraction(number, self._scale)


class Ranked(Kind):
    """Numbers that no 64 bits have in units of the same size: a row has the rank of its number among those that there are."""

    name = "numbers too fine for 64 bits"
    example = "59.9"
    measured = False

    def __init__(self, numbers: Sequence[Number], scale: int) -> None:
        self._numbers, self._scale = numbers, scale

    def decode(self, number: int) -> Number:
        found = self._numbers[number]
        return found if isinstance(found, float) else Fraction(found) / self._scale

    def find(self, text: str) -> Optional[int]:
        wanted = number_of(text) * self._scale
        place = bisect_left(self._numbers, wanted)
        return place if place < len(self._numbers) and self._numbers[place] == wanted else None
