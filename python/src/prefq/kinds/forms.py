"""How numbers are written: the sign before decimals, between thousands, a unit, and parentheses round what is negative."""
import re
from dataclasses import dataclass
from functools import lru_cache
from typing import List, Optional, Sequence

NUMBER = re.compile(r"[+-]?(?:\d+(?:\.\d*)?|\.\d+)(?:[eE][+-]?\d{1,4})?")
NUMBERS = re.compile(rf"(?:[ \t]*{NUMBER.pattern}[ \t]*\n)*")
SIGNS = frozenset(".,' \u00a0\u202f_")


@dataclass(frozen=True)
class Form:
    """The form of numbers, of which the plain one is `-1234.5`.

    - `decimal`: the sign before decimals; `thousands`: the sign between groups of three digits, which may be left out in a number but not stand elsewhere
    - `unit`: what may stand before or behind the number, as € or %; `parentheses`: whether (5.00) is -5.00

    >>> Form(decimal=",", thousands=".").plain("1.065,61")
    '1065.61'
    >>> Form(decimal=",").plain("1.200") is None
    True
    >>> Form(unit="%", parentheses=True).plain("(5 %)")
    '-5'
    """

    decimal: str = "."
    thousands: str = ""
    unit: str = ""
    parentheses: bool = False

    def __post_init__(self) -> None:
        if self.decimal not in (".", ","):
            raise ValueError(f"the sign before decimals is . or , and not {self.decimal!r}")
        if self.thousands and (self.thousands not in SIGNS or self.thousands == self.decimal):
            raise ValueError(f"the sign between thousands is one of . , ' _ or a blank, another than that before decimals, and not {self.thousands!r}")
        if self.unit and (NUMBER.search(self.unit) or set(self.unit) & set("()+-.,'\"\n")):
            raise ValueError(f"a unit is a sign such as € or %, and not {self.unit!r}")

    @property
    def is_plain(self) -> bool:
        return self == PLAIN

    def plain(self, text: str) -> Optional[str]:
        """The number in its plain form; None where the text is none of this form."""
        if self.is_plain:
            return text.strip() if NUMBER.fullmatch(text.strip()) else None
        found = self._pattern().fullmatch(text.strip())
        if not found or bool(found["open"]) != bool(found["close"]) or found["open"] and found["sign"] or found["before"] and found["behind"]:
            return None
        whole, part = found["whole"] or "", found["part"] or ""
        if self.thousands and self.thousands in whole:
            if int(whole[0]) == 0:
                return None     # 0,123 has a decimal comma: no thousands begin with a zero.
            whole = whole.replace(self.thousands, "")
        if not whole and not part:
            return None
        sign = "-" if found["open"] or found["sign"] == "-" else ""
        return f"{sign}{whole or '0'}{f'.{part}' if part else ''}{found['exponent'] or ''}"

    def all_plain(self, texts: Sequence[str]) -> Optional[List[str]]:
        """The numbers in their plain form; None where one of the texts is none."""
        if self.is_plain:
            return list(texts) if are_numbers(texts) else None
        found = []
        for text in texts:
            plain = self.plain(text)
            if plain is None:
                return None
            found.append(plain)
        return found

    def written(self, plain: str) -> str:
        """A plain number as this form has it, without a unit."""
        return plain.replace(".", self.decimal)

    def options(self) -> List[str]:
        """How a kind is spelled that reads this form."""
        return [*([f'thousands="{self.thousands}"'] if self.thousands else []), *([f'decimal="{self.decimal}"'] if self.decimal != "." else []),
                *([f'unit="{self.unit}"'] if self.unit else []), *(["parentheses"] if self.parentheses else [])]

    @lru_cache(maxsize=None)
    def _pattern(self) -> "re.Pattern[str]":
        unit, decimal, thousands = re.escape(self.unit), re.escape(self.decimal), re.escape(self.thousands)
        digits = rf"\d{{1,3}}(?:{thousands}\d{{3}})+|\d+" if self.thousands else r"\d+"
        # Blanks belong to the sign beside them, and a digit stands behind those in front: a text of many blanks would be read in as many ways as these can be told apart.
        before, behind = (rf"(?:(?P<before>{unit})\s*)?", rf"(?:\s*(?P<behind>{unit}))?") if self.unit else ("(?P<before>)", "(?P<behind>)")
        opened, closed = (r"(?:(?P<open>\()\s*)?", r"(?:\s*(?P<close>\)))?") if self.parentheses else ("(?P<open>)", "(?P<close>)")
        number = rf"(?=\d|{decimal})(?P<whole>{digits})?(?:{decimal}(?P<part>\d*))?(?P<exponent>[eE][+-]?\d{{1,4}})?"
        return re.compile(rf"{opened}(?:(?P<sign>[+-])\s*)?{before}{number}{behind}{closed}")


PLAIN = Form()


def are_numbers(texts: Sequence[str]) -> bool:
    """Whether each of the texts is a plain number."""
    joined = "\n".join(texts)
    # One look at all of them is some ten times faster than one at each; a text of several lines is no number.
    return joined.count("\n") == max(len(texts) - 1, 0) and NUMBERS.fullmatch(joined + "\n" if texts else "") is not None
