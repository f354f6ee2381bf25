"""What is missing in a file: an empty cell always; and words such as NA, where the rest of the column is no text, or where it is said that they are."""
from typing import FrozenSet, Iterable, List, Mapping, Optional, Tuple

from .columns import quoted
from .kinds import Choices, Kind, Texts

# A text or a choice may have these as values: nobody's name is taken for a gap.
WORDS = frozenset({"na", "n/a", "nan", "null", "none", "-"})


class Missing:
    """Which words of a file are missing: those that are given, as they stand in the file, in any case; where none are given, NA, n/a, nan, null, none and -,
    in columns of numbers, dates, times and bools."""

    def __init__(self, given: Optional[Iterable[str]]) -> None:
        self._is_given = given is not None
        self.words: FrozenSet[str] = WORDS if given is None else frozenset(map(folded, words_given(given)))
        self._longest = max(map(len, self.words), default=0)
        # Whether one of the words may be a number, such as 999.
        self.are_numbers = any(any(map(str.isdigit, word)) for word in self.words)

    def suspects(self, texts: Iterable[str]) -> List[str]:
        """Those of the texts that may be blank or one of the words: most texts are longer, which takes no look at their letters."""
        longest = self._longest
        return [text for text in texts if len(text.strip()) <= longest]

    def in_a_column_of(self, kind: Kind) -> FrozenSet[str]:
        """The words that are missing in a column of this kind, folded. What is a choice of the column, or its word for true or false, is a value."""
        if not self._is_given and isinstance(kind, (Texts, Choices)):
            return frozenset()
        return self.words - frozenset(map(folded, kind.words))


def words_given(given: Iterable[str]) -> Tuple[str, ...]:
    """The words that somebody has given, each of which stands in a file as a text does."""
    if isinstance(given, (str, bytes)):
        raise TypeError(f"missing is a list of words, not {given!r}")
    words = tuple(given)
    for word in words:
        if not isinstance(word, str):
            raise TypeError(f"missing has {word!r}, which is no text: write the word as it stands in the file, as '-999'")
    return words


def folded(text: str) -> str:
    """A word without its blanks and its case."""
    return text.strip().casefold()


def note_of(name: str, counts: Mapping[str, int]) -> str:
    """What is said of the words that were taken for missing in a column."""
    said = ", ".join(f"{quoted(word.strip())} ({count} row{'s' * (count != 1)})" for word, count in counts.items())
    return f"column {name!r}: {said} taken for missing; missing=[..] says otherwise"
