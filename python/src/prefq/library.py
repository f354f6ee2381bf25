"""Finds the library `libprefq.so`, and has its calls."""
import ctypes
import os
from ctypes import POINTER, Structure, c_char, c_char_p, c_int, c_int32, c_int64, c_size_t, c_uint32, c_uint64, c_void_p
from functools import lru_cache
from pathlib import Path
from typing import Any, Dict, List, Union

from .errors import LibraryNotFound

VERSION = "0.6.7"           # of the header library/include/prefq.h that the calls below are written from
BUNDLED = Path(__file__).with_name("lib") / "libprefq.so"
BUILT = Path(__file__).resolve().parents[3] / "library/out/libprefq.so"
BUILD = ("Build it in the repository by `library/build.sh`, then install the package again (`pip install ./python`), "
         "or let the environment variable PREFQ_LIBRARY name it: library/out/libprefq.so")


class Refusal(Structure):
    """What `prefq_last_refusal` points to."""

    _fields_ = [("kind", c_int), ("number", c_int32), ("place", c_int64), ("row", c_int64), ("amount", c_uint64), ("text", c_char_p)]


class Setup(Structure):
    """The sizes of a table."""

    _fields_ = [("clients", c_uint32), ("capacity", c_uint32), ("block", c_uint32), ("window", c_uint32)]


class Change(Structure):
    """One change of a commit."""

    _fields_ = [("verb", c_int), ("id", c_uint64), ("values", c_void_p)]


# The numbers of an answer, of which a slice is a copy of their bytes.
Numbers = POINTER(c_char)
# The arguments of each call. Rows and changes are given by any pointer, and places for results as they are.
TABLE, ID, NUMBERS, COUNT, LEFT = POINTER(c_void_p), POINTER(c_uint64), POINTER(Numbers), POINTER(c_size_t), POINTER(c_uint32)
CALLS: Dict[str, List[Any]] = {
    "open": [c_char_p, c_size_t, c_void_p, c_size_t, c_size_t, POINTER(Setup), TABLE],
    "open_text": [c_char_p, c_size_t, POINTER(Setup), TABLE],
    "insert": [c_void_p, c_void_p, c_size_t, ID],
    "insert_many": [c_void_p, c_void_p, c_size_t, c_size_t, ID],
    "update": [c_void_p, c_uint64, c_void_p, c_size_t],
    "update_many": [c_void_p, c_void_p, c_void_p, c_size_t, c_size_t, COUNT],
    "delete": [c_void_p, c_uint64],
    "commit": [c_void_p, c_void_p, c_size_t, c_size_t, ID],
    "get": [c_void_p, c_uint64, c_void_p, c_size_t],
    "room": [c_void_p, LEFT],
    "ask": [c_void_p, c_uint32, c_char_p, c_size_t, NUMBERS, COUNT],
    "begin": [c_void_p, c_uint32, c_char_p, c_size_t, LEFT],
    "scan": [c_void_p, c_uint32, c_uint32, LEFT],
    "finish": [c_void_p, c_uint32, NUMBERS, COUNT],
    "abandon": [c_void_p, c_uint32],
    "end": [c_void_p],
    "close": [c_void_p],
}


def find_library(library: Union[str, "os.PathLike[str]", None] = None) -> str:
    """The path of the library: the given one, else the one in this package, else that of the environment variable PREFQ_LIBRARY, else the one that is built in
    the repository, if this package lies there.

    >>> find_library("no/such/libprefq.so")
    Traceback (most recent call last):
    prefq.errors.LibraryNotFound: no/such/libprefq.so is not there. Build it ...
    """
    named = library or (None if BUNDLED.is_file() else os.environ.get("PREFQ_LIBRARY"))
    path = Path(named) if named else BUNDLED if BUNDLED.is_file() else BUILT
    if not path.is_file():
        what = "is not there" if named else "is not there: not in this package, and not by PREFQ_LIBRARY"
        raise LibraryNotFound(f"{path if named else 'the library libprefq.so'} {'is a folder' if path.is_dir() else what}. {BUILD}", "library")
    return str(path)


@lru_cache(maxsize=None)
def calls() -> ctypes.CDLL:
    """The library with the types of its calls, each of which lets other threads run."""
    path = find_library()
    try:
        found = ctypes.CDLL(path)
        found.prefq_version.restype = c_char_p
        version = found.prefq_version().decode()
        if version != VERSION:
            raise LibraryNotFound(f"{path} is of version {version}, and this package needs {VERSION}. {BUILD}", "library")
        for name, arguments in CALLS.items():
            call = getattr(found, f"prefq_{name}")
            call.argtypes, call.restype = arguments, None if name in ("end", "close") else c_int
        found.prefq_last_refusal.restype = POINTER(Refusal)
    except (OSError, AttributeError) as why:
        raise LibraryNotFound(f"{path} cannot be used: {why}. {BUILD}", "library") from why
    return found
