"""Columns of texts, and of values in an order that is given."""
import os
import threading
from contextlib import suppress
from itertools import filterfalse, islice
from typing import Any, Callable, Dict, FrozenSet, List, Optional, Sequence, Tuple

from ..errors import NotRead
from ..locks import TEXTS, holding
from .kind import Kind, word

# Held while new texts get their codes, in any code book; a signal handler or a finalizer of the same thread may take it once more.
ADDING = threading.RLock()
# The memory of a text in a code book, beside its letters.
BYTES_OF_A_TEXT = 150
CodeBookState = Tuple[int, FrozenSet[str]]


def _open_in_a_fork() -> None:
    """A fork may have copied the lock while another thread held it. Codes are given by one step, so a code book is whole there."""
    global ADDING
    ADDING = threading.RLock()


os.register_at_fork(after_in_child=_open_in_a_fork)


def plain_text(text: str) -> str:
    """The text itself: those of numpy and of enumerations are of types of their own, whose `str` may be another text, and which may equal others."""
    return text if type(text) is str else str.__str__(text)


class Texts(Kind):
    """Texts by a code book, which grows with each new text. They have no order. Any text is one."""

    name = "text"
    example = "'Lyon'"
    ordered = measured = False

    def __init__(self, texts: Sequence[str] = ()) -> None:
        # The codes are 1, 2, 3 and so on, in this order; and the texts in it, as far as these were looked up.
        self._codes: Dict[str, int] = {}
        self._texts: List[str] = []
        # Those of them that no row has had, since the change that brought them was refused. They keep their codes, which a question may have been read with.
        self._unused: FrozenSet[str] = frozenset()
        self._adding = object()         # another one for each call that adds texts
        # About how many bytes the code book takes.
        self.size = 0
        self.read_all(list(texts))

    def read(self, text: str) -> int:
        code = self.find(text)
        return self.read_all([text])[0] if code is None else code

    def encode(self, value: Any) -> int:
        if not isinstance(value, str):
            raise TypeError(f"{value!r} is no text")
        return self.read(value)

    def decode(self, number: int) -> str:
        if number > len(self._texts):
            self._texts = list(self._codes)
        return self._texts[number - 1]

    def find(self, text: str) -> Optional[int]:
        plain = plain_text(text)
        return None if plain in self._unused else self._codes.get(plain)

    def read_all(self, texts: Sequence[str]) -> List[int]:
        if not {str}.issuperset(map(type, texts)):
            texts = list(map(plain_text, texts))
        if self._unused:
            self._unused = self._unused.difference(texts)
        holding(TEXTS, ADDING, self._add, texts)
        return list(map(self._codes.__getitem__, texts))

    def _add(self, texts: Sequence[str]) -> None:
        """Gives the texts codes that have none."""
        codes, is_added = self._codes, False
        while not is_added:
            self._adding = adding = object()
            known = len(codes)
            new = list(filterfalse(codes.__contains__, dict.fromkeys(texts)))
            numbered = dict(zip(new, range(known + 1, known + len(new) + 1)))
            # Where a handler or a finalizer has added others meanwhile, these are counted anew.
            if self._adding is adding:
                codes.update(numbered)
                is_added = True
        if len(self._texts) == known:
            self._texts[known:] = new
        self.size += sum(map(len, new)) + BYTES_OF_A_TEXT * len(new)

    @property
    def texts(self) -> List[str]:
        """The texts of the column, in the order in which they came."""
        return [text for text in self._codes if text not in self._unused]

    @property
    def coded(self) -> List[str]:
        """The texts that have the codes 1, 2, 3 and so on."""
        return list(self._codes)

    def state(self) -> CodeBookState:
        """What `give_back` takes."""
        return len(self._codes), self._unused

    def give_back(self, state: CodeBookState) -> None:
        """No row has the texts that came since then."""
        known, unused = state
        self._unused = unused.union(islice(reversed(self._codes), len(self._codes) - known))


class Choices(Kind):
    """Values in an order that is given: `low` prefers the first. A text is one of them; so is a value, where they are values of another kind `of`."""

    name = "choice"
    measured = False

    def __init__(self, choices: Sequence[Any], of: Optional[Kind] = None) -> None:
        self.of = Texts() if of is None else of
        self._numbers = [self.of.encode(choice) for choice in choices]
        self._places: Dict[Optional[int], int] = {number: place for place, number in enumerate(self._numbers, 1)}
        if len(self._places) != len(self._numbers):
            raise ValueError(f"a choice stands twice among {', '.join(map(str, choices))}")

    def __repr__(self) -> str:
        return f"choice({', '.join(map(word, self.texts))})"

    @property
    def texts(self) -> List[str]:
        """The choices as a file has them, in their order."""
        return [self.of.text(self.of.decode(number)) for number in self._numbers]

    @property
    def words(self) -> Sequence[str]:
        return self.texts

    @property
    def example(self) -> str:  # type: ignore[override]
        return "'" + self.texts[0].replace("'", "''") + "'" if self._numbers else "'first'"

    def read(self, text: str) -> int:
        """By the choice that it spells, and of floats by none near to it."""
        return self._place(self.of.find, text)

    def encode(self, value: Any) -> int:
        return self.read(value) if isinstance(value, str) else self._place(self.of.encode, value)

    def decode(self, number: int) -> Any:
        return self.of.decode(self._numbers[number - 1])

    def text(self, value: Any) -> str:
        return self.of.text(value)

    def _place(self, number_of: Callable[[Any], Optional[int]], value: Any) -> int:
        """The place of the choice whose number this finds for a value, if it finds one."""
        place = None
        with suppress(TypeError, ValueError):
            place = self._places.get(number_of(value))
        if place is None:
            raise NotRead(f"{value!r} is none of {', '.join(map(repr, self.texts))}" if self.texts else f"{value!r} is no choice, and there is none")
        return place
