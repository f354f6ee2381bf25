"""Calls one after the other, and locks that a signal handler or a finalizer may want in the middle of a call that has another one. Threads that would wait for each other
for ever are told so."""
import os
import threading
import time
from typing import Any, Callable, Dict, Optional, Tuple, TypeVar

from .errors import Refused

Result = TypeVar("Result")
# What a lock is of. A thread that has locks takes one of a later sort, but in a signal handler or a finalizer, which takes any.
FRAME, TURNS, TABLE, TEXTS = range(4)
# The locks that each thread wants with what they are of, in their order: it has all of them but the last one, for which it may wait.
_wanted: Dict[int, Tuple[Tuple[int, Any], ...]] = {}
os.register_at_fork(after_in_child=_wanted.clear)
# Seconds between two looks whether another call has ended.
LOOK = 0.002


def holding(of: int, lock: Any, call: Callable[..., Result], *words: Any) -> Result:
    """A call that holds a lock. It is refused where it might wait for ever: in a handler or a finalizer where another thread has the lock, and elsewhere where that one
    waits, perhaps by way of others, for a lock that this thread has."""
    thread = threading.get_ident()
    before = _wanted.get(thread, ())
    try:
        _wanted[thread] = (*before, (of, lock))     # before the look at others: of two threads that wait for each other, the later one sees it
        if before and len(_wanted) > 1 and may_wait_for_ever(of, lock, thread, before):
            raise Refused("another thread has what this call wants in the middle of a call that is under way in this thread: they might wait for each other", "client")
        with lock:
            return call(*words)
    finally:
        if before:
            _wanted[thread] = before
        else:
            _wanted.pop(thread, None)


def may_wait_for_ever(of: int, lock: Any, thread: int, before: Tuple[Tuple[int, Any], ...]) -> bool:
    """Whether this thread, which has some locks, is not to wait for another one."""
    held = [one for _, one in before]
    if lock in held:
        return False
    others = [[one for _, one in wanted] for other, wanted in list(_wanted.items()) if other != thread]
    if any(sort >= of for sort, _ in before) and any(lock in wanted for wanted in others):
        return True
    reached = [lock]
    for one in reached:
        reached += [wanted[-1] for wanted in others if one in wanted[:-1] and wanted[-1] not in reached]
    return any(one in held for one in reached)


class Turns:
    """Calls one after the other. A signal handler in the middle of one makes none."""

    def __init__(self, of: int) -> None:
        self._of, self.lock = of, threading.RLock()
        self._thread: Optional[int] = None      # whose turn it is

    def taken(self, call: Callable[[], Result], until: Optional[float] = None) -> Result:
        """Makes a call in its turn, or refuses it where another one has not ended by then. The lock is taken by `with` itself: one that a context manager written in
        Python takes stays locked where a signal handler raises at its begin or its end."""
        while until is not None and self.is_of_another():
            if time.monotonic() >= until:
                raise Refused("another call, which reads the table, has not ended meanwhile", "follow")
            time.sleep(LOOK)
        return holding(self._of, self.lock, self._taken, call)

    def _taken(self, call: Callable[[], Result]) -> Result:
        if self._thread is not None:
            raise Refused("a call is under way in this thread", "client")
        try:
            self._thread = threading.get_ident()
            return call()
        finally:
            self._thread = None

    def is_of_another(self) -> bool:
        """Whether another thread has its turn."""
        return self._thread not in (None, threading.get_ident())
