"""Columns of true and false."""
from typing import Any, Optional, Sequence

from ..errors import NotRead
from .kind import Kind, word

WORDS = {"true": True, "false": False, "yes": True, "no": False}


class Booleans(Kind):
    """True and false. False comes before true, so `high(x)` prefers true. A text is true, yes, false or no, or one of the words that are given, in any case."""

    name = "bool"
    example = "true"
    measured = False
    takes_words = True

    def __init__(self, true: Optional[str] = None, false: Optional[str] = None) -> None:
        self._own = None if true is None or false is None else (true.strip(), false.strip())
        if (true is None) != (false is None) or self._own and (not all(self._own) or len(set(map(str.lower, self._own))) == 1):
            raise ValueError("a bool column has no words of its own, or two: one for true and another one for false")
        if self._own and (self._own[0].lower() == "false" or self._own[1].lower() == "true"):
            raise ValueError("the word false is not true, and true is not false: a question has these words for True and False of Python")
        self._words = {**WORDS, **({} if self._own is None else {self._own[0].lower(): True, self._own[1].lower(): False})}

    def __repr__(self) -> str:
        return "bool" if self._own is None else f"bool({', '.join(map(word, self._own))})"

    @property
    def words(self) -> Sequence[str]:
        return self._own or ()

    def read(self, text: str) -> int:
        truth = self._words.get(text.strip().lower())
        if truth is None:
            raise NotRead(f"{text!r} is not {', '.join(list(self._words)[:-1])} or {list(self._words)[-1]}")
        return int(truth)

    def encode(self, value: Any) -> int:
        if isinstance(value, str):
            return self.read(value)
        if is_truth(value):
            return int(value)
        raise TypeError(f"{value!r} is neither True nor False")

    def decode(self, number: int) -> bool:
        return bool(number)

    def text(self, value: Any) -> str:
        true, false = self._own or ("true", "false")
        return true if value else false


def is_truth(value: Any) -> bool:
    """Whether a value is a truth: one of Python, or one of numpy, whose type is called bool_, and from numpy 2 on bool."""
    return type(value).__name__ in ("bool", "bool_")
