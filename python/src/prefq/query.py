"""A query: a question that is asked of the table as it was when the query began."""
import time
from ctypes import c_uint32
from typing import Callable, List, Optional, Sequence, Tuple, Type

from .answer import Answer
from .clients import Clients
from .engine import Asker, Engine
from .errors import Ended
from .rows import Made, Row, as_pairs, as_rows, rows_of

Progress = Callable[[int, int], None]
Answered = Callable[[str, bytes], Answer]       # what makes an answer of a question and of the numbers of its rows
# A piece of a scan: an interruption comes behind it, and so do other threads' calls.
SECONDS_OF_A_PIECE = 0.01
SECONDS_FOR_OTHERS = 0.000_05


class Query(Asker):
    """An open query, which `Table.query` begins. `left` is how many blocks are still to be scanned.

    It is abandoned where its `with` block ends without an answer, or where nobody has it any more. An interruption, as by Ctrl-C, comes between two of its
    scans; the query is as it is then, and may go on.

    >>> with Table(["price"], [[50], [80]]) as hotels:
    ...     with hotels.query("best low(price)") as query:
    ...         hotels.delete(1)            # after the begin, so the answer still has the row
    ...         query.answer()
    level  id  price
        1   1     50
    """

    def __init__(self, engine: Engine, clients: Clients, question: str, client: Optional[int], answered: Answered) -> None:
        self.question = question
        self._answered = answered
        self._left = c_uint32()
        self._together = 1
        self._engine = engine
        clients.give(self, client)
        engine.begin(self, question, self._left)
        self._blocks = self.left

    def __repr__(self) -> str:
        return f"<prefq.Query {self.question!r}, {f'{self.left} blocks left' if self._is_open else 'ended'}>"

    def __enter__(self) -> "Query":
        return self

    def __exit__(self, failed: Optional[Type[BaseException]], *_: object) -> None:
        try:
            self.abandon()
        except Ended:
            if failed is None:
                raise

    @property
    def left(self) -> int:
        """How many blocks are still to be scanned."""
        return self._left.value

    def scan(self) -> int:
        """Scans the next block, and returns how many are left."""
        self._engine.scan(self, 1, self._left)
        return self.left

    def answer(self, progress: Optional[Progress] = None) -> Answer:
        """The rows of the answer, by level and then by id; scans the blocks that are left first. The query has ended then. `progress` is called with the
        number of blocks that are scanned, and how many there are."""
        return self._answered(self.question, self._finished(progress))

    def rows(self, progress: Optional[Progress] = None) -> List[Row]:
        """The same without the names of the columns: rows of a level, an id and values, as `prefq.Frame` makes its answers of them."""
        return self._made(as_rows, progress)

    def pairs(self) -> List[Tuple[int, List[int]]]:
        """The answer as pairs of an id and its values."""
        return self._made(as_pairs, None)

    def columnar(self) -> bytes:
        """The answer as `ColumnarRows` takes it."""
        return self._finished(None)

    def abandon(self) -> None:
        """Ends the query without an answer; nothing is done where it has ended. Waits for nothing: the table does it before its next call."""
        if self._is_open:
            self.is_wanted = False
            self._engine.check()

    @property
    def _is_open(self) -> bool:
        return self._engine.is_open(self)

    def _made(self, make: Callable[[Sequence[int], int], List[Made]], progress: Optional[Progress]) -> List[Made]:
        return rows_of(self._finished(progress), self._engine.width, make)

    def scan_piece(self) -> None:
        """Scans as many blocks of those that are left as a piece has time for."""
        begun = time.monotonic()
        self._engine.scan(self, self._together, self._left)
        taken = time.monotonic() - begun
        if 4 * taken > SECONDS_OF_A_PIECE:
            # Whoever waits for the table gets it now.
            time.sleep(SECONDS_FOR_OTHERS)
        self._together = max(1, min(2 * self._together, int(self._together * SECONDS_OF_A_PIECE / max(taken, 1e-9))))

    def _finished(self, progress: Optional[Progress]) -> bytes:
        """The numbers of the answer; scans the blocks that are left first."""
        while self.left:
            self.scan_piece()
            if progress:
                progress(self._blocks - self.left, self._blocks)
        return self._engine.finish(self)
