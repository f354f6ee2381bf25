"""The clients of a table, each of which may have one open query."""
import gc
import threading
import time
from typing import Any, Callable, Optional, TypeVar
from weakref import ref

from .engine import Asker, Engine
from .errors import Error, Refused
from .locks import FRAME, holding

Result = TypeVar("Result")
SECONDS_TO_WAIT = 60.0
SECONDS_TO_COLLECTION = 1.0
MOST_TIME_FOR_COLLECTIONS = 1 / 20
STEP = 0.005


class _Thread(threading.local):
    """Who has a client for the next query of this thread, and whether no client is waited for."""

    at_hand: Optional[Asker] = None
    is_hasty = False


_thread = _Thread()


class Clients:
    """Deals out clients for queries; one that is asked for without a number waits until another query ends, for a minute at most."""

    def __init__(self, count: int, engine: Engine) -> None:
        self._count = count
        self._engine = engine
        self._collects_from = 0.0

    def give(self, asker: Asker, client: Optional[int]) -> None:
        """Gives this client, or any that has no open query, to this asker."""
        if _thread.at_hand is not None and client is None and self._is_handed(asker):
            return
        begun, pause = time.monotonic(), STEP
        while not self._is_given(asker, client):
            self._engine.check()
            if client is not None:
                raise Refused(f"client {client} has an open query", "client", 3)
            if _thread.is_hasty:
                raise NoClient(self)
            waited, waits_for_itself = time.monotonic() - begun, self._engine.threads() == {threading.get_ident()}
            if waited > (SECONDS_TO_COLLECTION if waits_for_itself else SECONDS_TO_WAIT):
                raise Refused(f"each of the {self._count} clients has an open query", "client", 3)
            if waits_for_itself:
                # But for garbage, that is. A collection finds none while another thread is in the middle of one.
                gc.collect()
                pause *= 2
            elif waited > SECONDS_TO_COLLECTION:
                self.collect()
            # A sleep: an interruption within a Condition would leave its lock locked.
            time.sleep(pause)

    def check_at_hand(self) -> None:
        """Has a client at hand for the next query of this thread, or raises `NoClient`: without a wait."""
        asker = Asker()
        if _thread.at_hand is None or not self._engine.is_open(_thread.at_hand):
            if not self._is_given(asker, None):
                raise NoClient(self)
            _thread.at_hand = asker

    def wait_for_one(self) -> None:
        """Waits until there is a client at hand for the next query of this thread."""
        asker = Asker()
        self.give(asker, None)
        _thread.at_hand = asker

    def _is_handed(self, asker: Asker) -> bool:
        """Hands the client that this thread has at hand to this asker, where it is one of this table."""
        before = _thread.at_hand
        if before is None or not self._engine.is_open(before):
            return False
        asker.client, asker.thread = before.client, before.thread
        self._engine.queries[asker.client] = ref(asker)
        _thread.at_hand = None
        return True

    def collect(self) -> None:
        """Finds the queries that are garbage; once in a while only, since that takes long where a program has many objects."""
        begun = time.monotonic()
        if begun >= self._collects_from:
            self._collects_from = begun + SECONDS_TO_WAIT
            gc.collect()
            end = time.monotonic()
            self._collects_from = end + max(SECONDS_TO_COLLECTION, (end - begun) / MOST_TIME_FOR_COLLECTIONS)

    def _is_given(self, asker: Asker, client: Optional[int]) -> bool:
        """Gives a client that is free now, if there is one."""
        queries, held, asker.thread = self._engine.queries, ref(asker), threading.get_ident()
        if queries:
            self._engine.settle()
        for number in range(1, self._count + 1) if client is None else [client]:
            if number not in queries:
                asker.client = number
                # With this one step it is taken, and will be given back where nobody has the asker any more.
                if queries.setdefault(number, held) is held:
                    return True
        return False


class NoClient(Error):
    """A call that must not wait needs a client, of which none is free. It has changed nothing."""

    def __init__(self, clients: Clients) -> None:
        super().__init__("no client is free")
        self.clients = clients


def locked(lock: Any, call: Callable[[], Result]) -> Result:
    """A call that holds a lock. A client for its query is waited for without the lock, for which those may wait who have the clients."""
    before = _thread.at_hand
    try:
        while True:
            try:
                return holding(FRAME, lock, call)
            except NoClient as none:
                if _thread.is_hasty:
                    raise
                clients = none.clients
            clients.wait_for_one()
    finally:
        _thread.at_hand = before


def hastily(call: Callable[..., Result], *words: Any, is_hasty: bool = True) -> Result:
    """A call that waits for no client: where it needs one and none is free, it raises `NoClient`. One in the middle of it that is not hasty waits."""
    before = _thread.is_hasty
    try:
        _thread.is_hasty = is_hasty
        return call(*words)
    finally:
        _thread.is_hasty = before
