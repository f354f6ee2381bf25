"""What goes wrong, as exceptions with one base class."""
from typing import Any, Optional

from .visible import UNSEEN, visible, width

ROUND = 80
# How the blanks of a question are shown on a line.
BLANKS = {"\t": "\t", "\r": " ", "\n": " "}
# What to do about a refusal, by its kind and number.
ADVICE = {
    ("client", 2): "take another client",
    ("client", 3): "finish or abandon that query, or take another client",
    ("client", 4): "begin a query first",
    ("client", 5): "ask for the answer now",
    ("client", 6): "scan the blocks that are left, then finish",
    ("client", 8): "delete a row, end an open query, or open the table with a larger capacity",
    ("opening", 8): "open the table with a larger capacity, or give none, which makes it fit",
    ("commit", 12): "make one change for each row, the last one",
    ("term", 4): "leave out parentheses that change nothing",
    ("term", 5): "a question has at most 4096 bytes",
    ("term", 6): "a count is from 1 to 1000",
    ("term", 7): "add a column with min or max",
    ("term", 9): "write the smaller end of the range first",
}


class Error(Exception):
    """What every exception of this package is, so that `except prefq.Error` catches all of them.

    `kind` says what was wrong, `number` is the refusal's number in docs/GUIDE.md, and `place` the byte of a question, the column of a row (from 1) or
    the change of a commit (from 1), where there is one.

    >>> issubclass(Refused, Error) and issubclass(Ended, Error)
    True
    """

    def __init__(self, message: str, kind: str = "", number: Optional[int] = None, place: Optional[int] = None, question: Optional[str] = None) -> None:
        super().__init__(message)
        self.kind = kind
        self.number = number
        self.place = place
        self.question = question

    def __reduce__(self):  # type: ignore[no-untyped-def]
        return type(self), (self.args[0], self.kind, self.number, self.place, self.question)


class Refused(Error):
    """The table refuses a call, and is as it was before.

    `kind` is "term" (a question), "client" (what a client wants cannot be done now), "commit" (its changes), "table" (names or rows), "opening",
    "arguments", "saved" (a file of a frame) or "follow" (a table of a database). `question` is the question, where there is one.

    >>> why = Refused("unknown column at 9", "term", 2, 9, "best low(prise)")
    >>> print(why)
    unknown column at 9
        best low(prise)
                 ^
    >>> why.kind, why.number, why.place
    ('term', 2, 9)
    """

    def __str__(self) -> str:
        message = visible(str(self.args[0]))
        advice = ADVICE.get((self.kind, self.number or 0))
        if advice:
            message += f": {advice}"
        if self.question is not None:
            message += "\n" + pointed(self.question, self.place)
        return message


class NotRead(ValueError):
    """A text or a value that a kind does not take."""


def placed(where: str, why: Exception) -> Exception:
    """What is wrong, with its place in front."""
    message = f"{where}{why}"
    if isinstance(why, Refused):
        return Refused(message, why.kind, why.number, why.place)
    return next((kind for kind in (NotRead, TypeError) if isinstance(why, kind)), ValueError)(message)


def no_such_row(id: Any) -> Refused:
    """What is said of a row that is not there."""
    return Refused(f"no such row {called(id)}", "client", 7)


def called(id: Any) -> Any:
    """A row's id or key as a message has it."""
    return repr(id) if isinstance(id, str) else id


class Ended(Error):
    """The table has ended: it was closed, it was refused memory in the middle of a call, or this is another process.

    No call on it will succeed; open a new one.

    >>> raise Ended("the table was closed", "closed")
    Traceback (most recent call last):
    prefq.errors.Ended: the table was closed
    """


class LibraryNotFound(Error):
    """The library `libprefq.so` is not there, or another one; the message says how to build it.

    >>> raise LibraryNotFound("the library libprefq.so is not there")
    Traceback (most recent call last):
    prefq.errors.LibraryNotFound: the library libprefq.so is not there
    """


class ProgramNotFound(Error):
    """The program `prefq` is not there; the message says how to build it.

    >>> raise ProgramNotFound("the program prefq is not there")
    Traceback (most recent call last):
    prefq.errors.ProgramNotFound: the program prefq is not there
    """


def pointed(question: str, place: Optional[int]) -> str:
    """The question on a line, and a caret below its byte `place`, counted from 0. Of a long one only what stands round the place is shown. Wide signs have two
    places on a terminal."""
    shown = UNSEEN.sub(lambda found: BLANKS.get(found[0], "\N{REPLACEMENT CHARACTER}"), question)
    at = 0 if place is None else len(question.encode(errors="replace")[:place].decode(errors="ignore"))
    first, last = (0, len(shown)) if len(shown) <= 2 * ROUND else (max(0, at - ROUND), at + ROUND)
    before = "..." * (first > 0) + shown[first:at]
    line = f"    {before}{shown[at:last]}{'...' * (last < len(shown))}"
    blank = "\t".join(" " * width(part) for part in before.split("\t"))
    return line if place is None else f"{line}\n    {blank}^"
