"""What every kind of column has."""
from fractions import Fraction
from typing import Any, List, Optional, Sequence


class Kind:
    """How the values of a column stand in a table. `name` is its word in `kinds=..`, and `example` is a value as a question has it."""

    name = ""
    example = ""
    ordered = True
    measured = True
    # Whether a question may have a value of it as a word without quotes.
    takes_words = False

    def __repr__(self) -> str:
        """The kind as `kind_named` reads it."""
        return self.name

    def read(self, text: str) -> int:
        """The number of the value that a text spells; `ValueError` says why it spells none."""
        raise NotImplementedError

    def encode(self, value: Any) -> int:
        """The number of a value, which may be a text that spells one. `ValueError` or `TypeError` says why there is none."""
        raise NotImplementedError

    def decode(self, number: int) -> Any:
        """The value of a number."""
        return number

    def find(self, text: str) -> Optional[int]:
        """The number of a value in a question; None where it is a value of this kind that no row of the column can have."""
        return self.read(text)

    def position(self, text: str) -> Fraction:
        """Where a value of a question lies on the scale of the numbers, between two of them perhaps."""
        return Fraction(self.read(text))

    def text(self, value: Any) -> str:
        """A value as a file has it: a text that `read` reads as this value."""
        return str(value)

    def read_all(self, texts: Sequence[str]) -> Optional[List[int]]:
        """The numbers of many texts, where they are found all at once; None where one has to look at each."""
        return None

    @property
    def words(self) -> Sequence[str]:
        """The words that a file has for its values, where these were given: they are never taken for missing."""
        return ()

    def widened(self, value: Any) -> Optional["Kind"]:
        """The kind that has the values of this one and also this value, where this one has not, and kinds of this sort grow; else None."""
        return None


def word(text: str) -> str:
    """A word in the spelling of a kind, in quotes where it needs them."""
    return text if text and text == text.strip() and not set(text) & set(",'\"()") else quoted(text)


def quoted(text: str) -> str:
    """A word in quotes."""
    return '"' + text.replace('"', '""') + '"'
