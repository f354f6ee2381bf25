"""Room for other threads while one of them computes for long."""
import threading
import time
from array import array
from itertools import islice
from typing import Any, Iterator, List, TypeVar

Some = TypeVar("Some", List[Any], "array[int]", bytearray)
TOGETHER = 4096
LONGEST = 0.000_5
SHORTEST = 0.000_05


class _Computed(threading.local):
    """The processor time that this thread had taken at its last pause."""

    seconds = 0.0


_computed = _Computed()


def let_others_run() -> None:
    """Gives up the interpreter for a moment, where this thread has computed for half a millisecond since it last did.

    Without this, an event loop on the main thread waits until the interpreter is taken away, which takes 5 milliseconds, and longer while this thread
    reads and writes, since it then gives the interpreter up for too short a time each time.
    """
    if threading.current_thread() is threading.main_thread():
        return
    if time.thread_time() - _computed.seconds >= LONGEST:
        time.sleep(SHORTEST)
        _computed.seconds = time.thread_time()


def extended(some: Some, values: Iterator[Any]) -> Some:
    """A list or an array with further values, which iterators that are written in C make without a moment for others."""
    count = -1
    while count != len(some):
        count = len(some)
        some.extend(islice(values, TOGETHER))
        let_others_run()
    return some
