"""A query of a frame, and what is to be done about what its question says."""
from typing import Any, Callable, List, Optional

from .answer import Answer
from .kept import Answered
from .query import Progress
from .rows import Row


class Over:
    """What is there in place of a query whose answer was kept."""

    left = 0

    def rows(self, progress: Optional[Progress]) -> List[Row]:
        """None of them is looked at."""
        return []

    def __exit__(self, *failed: Any) -> None:
        pass


class FrameQuery:
    """An open query of a frame, which `Frame.query` begins; see `prefq.Query`. Its answer is that of the frame as it was at the begin.

    >>> import prefq
    >>> with prefq.Frame.from_records([{"City": "Lyon", "Price": 60}]) as hotels, hotels.query("best low(Price)") as query:
    ...     query.scan(), query.answer().ids
    (0, [1])
    """

    def __init__(self, query: Any, found: Callable[[List[Row]], Answered], answer: Callable[[Answered], Answer]) -> None:
        """`found` finds the rows of the frame by those of the query, and `answer` makes the answer of them."""
        self._query, self._found, self._answer = query, found, answer

    def __repr__(self) -> str:
        return f"<prefq.FrameQuery {self._query!r}>"

    def __enter__(self) -> "FrameQuery":
        return self

    def __exit__(self, *failed: Any) -> None:
        self._query.__exit__(*failed)

    @property
    def left(self) -> int:
        """How many blocks are still to be scanned."""
        return int(self._query.left)

    def scan(self) -> int:
        """See `Query.scan`."""
        return int(self._query.scan())

    def scan_piece(self) -> None:
        """See `Query.scan_piece`."""
        self._query.scan_piece()

    def answer(self, progress: Optional[Progress] = None) -> Answer:
        """See `Query.answer`. A value that no row has is warned of (`UnknownValue`)."""
        return self._answer(self.answered(progress))

    def answered(self, progress: Optional[Progress] = None) -> Answered:
        """The same as it is kept."""
        return self._found(self._query.rows(progress))

    def keeping(self, keep: Callable[[Answered], Answered]) -> "FrameQuery":
        """The same query, whose answer is kept by this."""
        found = self._found
        self._found = lambda rows: keep(found(rows))
        return self

    def abandon(self) -> None:
        """See `Query.abandon`."""
        self._query.abandon()
