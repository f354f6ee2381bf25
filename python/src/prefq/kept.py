"""What is asked by many: each answer is made once for each version of the rows, kept while that version stands, and shared by all who ask meanwhile."""
import threading
from functools import partial
from typing import Callable, Dict, Generic, Hashable, NamedTuple, Optional, Sequence, Tuple, TypeVar

from .columns import Column
from .loading import Found

Value = TypeVar("Value")
Result = TypeVar("Result")
MOST_KEPT = 64
MOST_BYTES_KEPT = 16_000_000
MOST_ROWS_KEPT = 2000       # of one of the answers
# About what Python has for a row of an answer, and for each of its numbers.
BYTES_OF_A_ROW = 200
BYTES_OF_A_NUMBER = 40


class Answered(NamedTuple):
    """The answer to a question, whose rows have their level, their id and their numbers; `unknown` is what is said of the question's values, and `at` the place in a
    database at which it was begun."""

    columns: Sequence[Column]
    rows: Sequence[Found]
    unknown: Sequence[str]
    at: Optional[int] = None

    def size(self) -> Optional[int]:
        """About how many bytes it takes; None where it is not kept."""
        return None if len(self.rows) > MOST_ROWS_KEPT else len(self.rows) * (BYTES_OF_A_ROW + BYTES_OF_A_NUMBER * len(self.columns))


class Made(Generic[Value]):
    """An answer with the version of which it is, once it is made. Who makes it has the lock, for which those wait that ask the same. Where that has failed, each of them
    makes its own: one after the other, each would wait for all that fail before it."""

    def __init__(self) -> None:
        self.lock = threading.Lock()
        self.found: Optional[Tuple[int, Value]] = None
        self.size = 0
        self.has_failed = False


class _Thread(threading.local):
    """Whether this thread asks for something that is kept, and may wait for others that make it; and whether it has the lock of some."""

    is_asking = is_locking = False


_thread = _Thread()


class Kept(Generic[Value]):
    """Answers by what was asked: at most 64, of 16 MB together, those that were asked for last. `size_of` gives the bytes of one, and None for one that is not kept.
    Once a later version was asked for, those before it are dropped.

    >>> kept: Kept[str] = Kept(len)
    >>> kept.get("best low(x)", 1, lambda: (1, "the answer")), kept.get("best low(x)", 1, lambda: (1, "another one"))
    ((1, 'the answer'), (1, 'the answer'))
    >>> kept.get("best low(x)", 2, lambda: (2, "another one"))
    (2, 'another one')
    """

    def __init__(self, size_of: Callable[[Value], Optional[int]]) -> None:
        self._size_of = size_of
        self._lock = threading.Lock()
        self._version = 0
        self._made: Dict[Hashable, Made[Value]] = {}        # the last one is the newest

    def get(self, key: Hashable, version: int, make: Callable[[], Tuple[int, Value]]) -> Tuple[int, Value]:
        """An answer of this version or a later one, and its version. `make` makes one of those that stand by then."""
        if _thread.is_asking or _thread.is_locking:
            # As in a signal handler or a finalizer in the middle of a call of this thread: it waits for no other one, which might wait for this one.
            return make()
        try:
            _thread.is_asking = True
            return self._shared(key, version, make) or make()
        finally:
            _thread.is_asking = False

    def find(self, key: Hashable, version: int) -> Optional[Value]:
        """An answer of this version or a later one, where it is kept. Waits for nobody who makes one."""
        return self._locked(partial(self._find, key, version))

    def keep(self, key: Hashable, version: int, value: Value) -> Value:
        """Keeps an answer of this version, and returns it."""
        self._locked(partial(self._keep, key, version, value))
        return value

    def _shared(self, key: Hashable, version: int, make: Callable[[], Tuple[int, Value]]) -> Optional[Tuple[int, Value]]:
        """What one makes for all who ask; None where who made it has failed."""
        made = self._locked(partial(self._of, key, version)) or Made[Value]()
        with made.lock:
            if made.has_failed:
                return None
            if made.found is None or made.found[0] < version:
                try:
                    made.found = make()
                except BaseException:
                    made.has_failed = True
                    self._locked(partial(self._forget, key, made))
                    raise
                self._locked(partial(self._settle, key, made))
            return made.found

    def _locked(self, call: Callable[[], Result]) -> Optional[Result]:
        """A call with the lock; None in the middle of another such call of this thread, of whichever answers, as in a finalizer: two threads in each other's would wait for
        ever."""
        if _thread.is_locking:
            return None
        try:
            _thread.is_locking = True
            with self._lock:
                return call()
        finally:
            _thread.is_locking = False

    def _find(self, key: Hashable, version: int) -> Optional[Value]:
        made = self._made.get(key)
        if made is None or made.found is None or made.found[0] < version:
            return None
        self._made[key] = self._made.pop(key)
        return made.found[1]

    def _keep(self, key: Hashable, version: int, value: Value) -> None:
        made = self._of(key, version)
        if made.found is None or made.found[0] < version:
            made.found = version, value
            self._settle(key, made)

    def _of(self, wanted: Hashable, version: int) -> Made[Value]:
        if version > self._version:
            self._version = version
            self._made = {key: made for key, made in self._made.items() if made.found is None or made.found[0] >= version}
        made = self._made.pop(wanted, None)
        if made is None or made.has_failed:
            made = Made[Value]()
        self._made[wanted] = made
        return made

    def _forget(self, key: Hashable, made: Made[Value]) -> None:
        """Drops what is not kept, which somebody else may have replaced."""
        if self._made.get(key) is made:
            del self._made[key]

    def _settle(self, key: Hashable, made: Made[Value]) -> None:
        """Keeps an answer that was made, or does not; and drops the oldest where there are too many."""
        assert made.found is not None
        size = self._size_of(made.found[1])
        if size is None:
            self._forget(key, made)
            return
        made.size = size
        total = sum(other.size for other in self._made.values())
        # Those that somebody makes now are no answers yet.
        there = [key for key, other in self._made.items() if other.found is not None or not other.lock.locked()]
        for number, key in enumerate(there):
            if len(there) - number <= MOST_KEPT and total <= MOST_BYTES_KEPT:
                return
            total -= self._made.pop(key).size
