"""The standard streams of the commands, which may be closed or full."""
import errno
import os
import sys
from typing import Any

from .errors import Refused

# Nobody can write what these say.
FULL = (errno.ENOSPC, errno.EDQUOT, errno.EFBIG, errno.EIO)


class NotWritten(Exception):
    """What was asked for could not be written."""


def standard_input() -> Any:
    """The bytes of standard input."""
    if sys.stdin is None:
        raise Refused("standard input is closed", "arguments")
    return getattr(sys.stdin, "buffer", sys.stdin)


def write(text: str) -> None:
    """Writes to standard output."""
    if sys.stdout is None:
        raise NotWritten("standard output is closed")
    try:
        sys.stdout.write(text)
        sys.stdout.flush()
    except BrokenPipeError:
        raise
    except OSError as why:
        give_up_output()
        raise NotWritten(f"standard output: {why.strerror}") from None
    except UnicodeEncodeError as why:
        raise Refused(f"standard output is {why.encoding}, which does not have {why.object[why.start:why.end]!r}", "arguments") from None


def give_up_output() -> None:
    """What is still to be written to standard output is lost, and nothing is said of that at the end."""
    os.dup2(os.open(os.devnull, os.O_WRONLY), sys.stdout.fileno())


def complain(text: str) -> None:
    """Says on standard error what is wrong, or to be known; where that is closed, nobody hears it."""
    if sys.stderr is not None:
        print(f"prefq: {text}", file=sys.stderr)
