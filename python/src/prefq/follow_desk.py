"""The rows of a table of a database on a page: what `prefq.server` and `prefq.asgi` show, while other programs change the rows there."""
import threading
import time
import weakref
from typing import Callable, Iterable, List, Sequence

from .columns import Column
from .dealt import Found
from .desk import Desk, Held, Picture, Result, row_type
from .errors import Ended, Refused
from .follow import Followed
from .selection import Selection

PAUSE = 0.1             # seconds between two looks at the database
PAUSE_REFUSED = 1.0     # where its table was refused, of which each look reads everything
SECONDS_TO_WAIT = 5.0   # for others, as for transactions that keep the table from being read
QUESTIONS_OF_A_PICTURE = 2


class FollowedDesk(Desk):
    """The rows of a frame that follows a table, whose keys are whole numbers. They are changed in the database, and nowhere here: a page of it is not editable.

    >>> import os, prefq, sqlite3, tempfile
    >>> with tempfile.TemporaryDirectory() as folder:
    ...     db = sqlite3.connect(os.path.join(folder, "hotels.db"), isolation_level=None)
    ...     created = db.execute("create table hotels (id integer primary key, price int)")
    ...     with FollowedDesk(prefq.Frame.follow(db, "hotels")) as desk:
    ...         inserted = db.execute("insert into hotels values (7, 60), (8, 90)")
    ...         [row.id for row in desk.picture("best low(price)").best]
    ...     db.close()
    [7]
    """

    def __init__(self, frame: Followed) -> None:
        if frame.clients < QUESTIONS_OF_A_PICTURE:
            raise Refused(f"a picture asks {QUESTIONS_OF_A_PICTURE} questions at once: follow the table with clients={QUESTIONS_OF_A_PICTURE} or more", "arguments")
        self._frame = frame
        self._lock = threading.RLock()
        self._closed = False
        self._subscribed: List[Callable[[], None]] = []
        self._is_readable = True
        self._turns = 0         # how often the table could be read no more, or again
        self._show(frame.version, frame.columns)
        # The thread keeps no desk that nobody has any more.
        threading.Thread(target=follows, args=[weakref.ref(self)], daemon=True).start()

    def _is_ours(self) -> bool:
        return bool(self._frame._is_ours())

    def __len__(self) -> int:
        return len(self._frame)

    def _change(self, change: Callable[[], Result], values: Iterable[str] = ()) -> Result:
        raise Refused("the rows are those of a database: they are changed there", "follow")

    def picture(self, text: str, selection: Selection = Selection()) -> Picture:
        """The rows and the answer to a question, with what is asked beside it, at one version. Where the database itself refuses to be read, that is `Refused` too, and
        does not say what only those may know who run it."""
        turns, source = self._turns, self._frame._source        # turns of a version from before, where it changes meanwhile
        try:
            found = self._frame.snapshot(text, selection, time.monotonic() + SECONDS_TO_WAIT)
        except source.faults as why:
            raise Refused(f"{source.name} cannot be read: its database raises {type(why).__name__}", "follow") from why
        wrong = next((key for key in found.rows if not isinstance(key, int)), None)
        if wrong is not None:
            raise Refused(f"there is a row with the key {wrong!r}: a page shows rows whose keys are whole numbers", "follow")
        self._see(found.version, found.columns)
        made = row_type(found.columns)
        rows = [Held(int(key), made(numbers)) for key, numbers in found.rows.items()]
        best = [Found(row.level, int(row.id), made(row.numbers)) for row in found.best]
        return Picture(found.version + turns, list(found.columns), rows, best, list(found.asked), tuple(found.unknown))

    def _look(self) -> None:
        """Wakes those who watch where the rows have changed, cannot be read any more, or can be read again. Why they cannot is said to who asks for a picture."""
        try:
            self._frame._surviving(len, until=time.monotonic() + SECONDS_TO_WAIT)
        except Exception as why:
            if isinstance(why, Ended) and why.kind == "closed":
                return self.close()
            self._turn(False)
        else:
            self._turn(True)
            self._see(self._frame.version, self._frame.columns)

    def _turn(self, is_readable: bool) -> None:
        with self._lock:
            if is_readable != self._is_readable:
                self._is_readable = is_readable
                self._turns += 1
                self.version += 1
                self._wake()

    def _see(self, version: int, columns: Sequence[Column]) -> None:
        with self._lock:
            if version + self._turns > self.version:
                self._show(version, columns)
                self._wake()

    def _show(self, version: int, columns: Sequence[Column]) -> None:
        self.version = version + self._turns
        self._show_columns(columns)


def follows(held: "weakref.ref[FollowedDesk]") -> None:
    """Has a desk look at its table now and then, as long as it is there and not closed."""
    pause = PAUSE
    while True:
        time.sleep(pause)
        desk = held()
        if desk is None or desk.is_closed:
            return
        desk._look()
        pause = PAUSE if desk._is_readable else PAUSE_REFUSED
        del desk
