"""Plain numbers of a file, looked at all at once: by a few calls for a thousand texts, and not by some for each."""
import re
from typing import List, Optional, Sequence

from ..checks import LEAST, MOST

SIGNS = b"0123456789+-.\n"
AS_ZEROS = bytes.maketrans(b"123456789", b"0" * 9)
MOST_DECIMALS = 18
# So many digits stand in no number that a column may have, and in the one that stands for a missing value.
TOO_LARGE = str(-LEAST)
# Numbers of less than this come exactly from floats that were multiplied by a power of ten: each of the two roundings is wrong by 2**-53 of them at most.
EXACT = 2**50
# Digits behind a zero in front are a code, not a number. A zero right behind the point is none in front.
ZERO_IN_FRONT = re.compile(r"0(?<=[^0-9.]0)[0-9]")


class PlainTexts:
    """Texts of nothing but digits, points and signs, of which each may be a number."""

    def __init__(self, texts: Sequence[str], joined: str) -> None:
        self._texts, self._joined = texts, joined
        # How many have a point, if each has one at most; and all of them with zeros for their digits.
        self._points = joined.count(".") if "." in joined else 0
        self._shape = joined.encode().translate(AS_ZEROS) + b"\n" if self._points else b""
        # How many decimals those have that have most; more than a column can have are not counted.
        self.decimals = 0
        while self.decimals <= MOST_DECIMALS and b"." + b"0" * (self.decimals + 1) in self._shape:
            self.decimals += 1

    @staticmethod
    def of(texts: Sequence[str]) -> "Optional[PlainTexts]":
        """These texts; None where one of them has another sign."""
        joined = "\n".join(texts)
        is_plain = joined.isascii() and not joined.encode().translate(None, SIGNS) and joined.count("\n") == len(texts) - 1
        return PlainTexts(texts, joined) if is_plain else None

    @property
    def are_whole(self) -> bool:
        """Whether none has a point."""
        return not self._points

    @property
    def have_codes(self) -> bool:
        """Whether one begins with a zero as numbers do not."""
        return ZERO_IN_FRONT.search(f"\n{self._joined}") is not None

    def scaled(self, decimals: int) -> Optional[List[int]]:
        """The numbers in units of the last of so many decimals; None where a text is no number, has more decimals, or may stand for a missing value. Those that are
        too large for a column are the caller's to refuse."""
        try:
            if self.are_whole and decimals == 0:
                return None if TOO_LARGE in self._joined else list(map(int, self._texts))
            if decimals and self._points == len(self._texts) == self._shape.count(b"." + b"0" * decimals + b"\n"):
                # Without their points they are what is asked for.
                digits = self._joined.replace(".", "")
                return None if TOO_LARGE in digits else list(map(int, digits.split("\n")))
            return self._filled_up(decimals) if self.decimals <= decimals else None
        except ValueError:
            return None

    def _filled_up(self, decimals: int) -> Optional[List[int]]:
        """The numbers where some have less decimals."""
        different = set(self._texts)
        if 2 * len(different) > len(self._texts):
            return filled_up(self._texts, decimals)
        numbers = filled_up(list(different), decimals)
        by_text = dict(zip(different, numbers or ()))
        return None if numbers is None else list(map(by_text.__getitem__, self._texts))


def filled_up(texts: Sequence[str], decimals: int) -> Optional[List[int]]:
    """The numbers of plain texts that have so many decimals or less."""
    values, scale = list(map(float, texts)), float(10**decimals)
    if max(max(values), -min(values)) * scale < EXACT:
        return [round(value * scale) for value in values]
    numbers = [int(whole + part.ljust(decimals, "0")) for whole, _, part in (text.partition(".") for text in texts)]
    return numbers if LEAST < min(numbers) and max(numbers) <= MOST else None


def are_days(texts: Sequence[str]) -> bool:
    """Whether each of the texts looks like 2026-05-01."""
    joined = "\n".join(texts)
    return joined.isascii() and joined.encode().translate(AS_ZEROS) == b"\n".join([b"0000-00-00"] * len(texts))
