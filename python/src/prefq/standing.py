"""Rows of a file that go to the library as they stand: lines of nothing but plain whole numbers, and empty cells for what is missing.

No cell of such lines is looked at by itself; what that saves is in docs/PERFORMANCE.md.
"""
import re
from typing import Iterable, List, NamedTuple, Optional, Sequence, Tuple

from .checks import LEAST
from .engine import Engine
from .library import Setup
from .reading import Chunk
from .rows import WholeRows

# A number has 18 digits at most, so that each fits, and one spelling. (An empty cell takes another pattern, since most files have none.)
NUMBER = r"-?[1-9][0-9]{0,17}|0"
NUMBERS = re.compile(rf"(?:(?:{NUMBER})[,\n])*")
NUMBERS_AND_GAPS = re.compile(rf"(?:(?:{NUMBER}|)[,\n])*")
GAP = str(LEAST)


class Lines(NamedTuple):
    """The rows of a chunk as lines of numbers with commas between them, and the chunk itself where some are missing."""

    rows: int
    text: str
    with_gaps: Optional[Chunk]


def lines_of(chunk: Chunk) -> Optional[Lines]:
    """The rows of a chunk as they stand, None where they cannot."""
    if not chunk.text or chunk.delimiter != "," and "," in chunk.text:
        return None
    text = chunk.text if chunk.delimiter == "," else chunk.text.replace(chunk.delimiter, ",")
    if NUMBERS.fullmatch(text):
        return Lines(chunk.rows, text, None)
    return Lines(chunk.rows, filled(text), chunk) if NUMBERS_AND_GAPS.fullmatch(text) else None


def filled(text: str) -> str:
    """Lines with the number of a missing value in each empty cell."""
    between = f"\n{text}".replace(",,", f",{GAP},").replace(",,", f",{GAP},")
    return between.replace("\n,", f"\n{GAP},").replace(",\n", f",{GAP}\n")[1:]


class Standing(WholeRows):
    """The rows of chunks as they stand, which the library reads."""

    def __init__(self, chunks: Sequence[Lines]) -> None:
        self._chunks = chunks

    @staticmethod
    def take(chunks: Iterable[Chunk]) -> "Tuple[Standing, List[Chunk]]":
        """All of these chunks. Where one cannot stand: none, and those that were taken, of which it is the last."""
        taken: List[Chunk] = []
        found: List[Lines] = []
        for chunk in chunks:
            taken.append(chunk)
            lines = lines_of(chunk)
            if lines is None:
                return Standing([]), taken
            found.append(lines)
        return Standing(found), []

    def __len__(self) -> int:
        return sum(chunk.rows for chunk in self._chunks)

    def text(self) -> bytes:
        """The rows one to a line."""
        return "".join(chunk.text for chunk in self._chunks).encode()

    def opened(self, columns: Sequence[str], setup: Setup) -> Engine:
        return Engine.opened_text(columns, self.text(), len(self), setup)

    def has_gaps(self, place: int) -> bool:
        """Whether some cell of a column is empty."""
        return any("" in chunk.with_gaps.column(place) for chunk in self._chunks if chunk.with_gaps)

    def has_values(self, place: int) -> bool:
        """Whether some cell of a column is not empty."""
        return any(chunk.with_gaps is None or any(chunk.with_gaps.column(place)) for chunk in self._chunks)
