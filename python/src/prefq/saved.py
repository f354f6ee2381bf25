"""A frame in one file of SQLite: its rows under their ids, its columns with their kinds and code books, and the last id that was given.

A file is written beside the one that it replaces, brought to the disk, and renamed, so that whoever opens it finds the old frame or the new one, whole.
"""
import json
import os
import sqlite3
import stat
import sys
from array import array
from contextlib import closing, suppress
from dataclasses import dataclass
from hashlib import sha256
from typing import Any, Iterator, List, NamedTuple, Sequence, Tuple, Union
from urllib.parse import quote
from uuid import uuid4

from .columns import Column
from .errors import Refused
from .kinds import Choices, Kind, Texts, Times, kind_named
from .kinds.forms import Form

Path = Union[str, "os.PathLike[str]"]
MAGIC = b"SQLite format 3\0"
# What stands in the header of the file: that it is a frame, "prfq", and of which version.
APPLICATION = 0x70726671
VERSION = 1
# Bytes of a file's name that stand in that of the file beside it too, which is no longer than the 255 that systems take.
LONGEST_BESIDE = 218
MICROSECONDS, NANOSECONDS = "microseconds", "nanoseconds"
TABLES = """
    create table frame (last integer not null, notes text not null, digest text not null);
    create table columns (place integer primary key, name not null, kind text not null, choices_of text, exact_to text not null, grows integer not null,
        has_gaps integer not null, form text not null);
    create table texts (place integer not null, code integer not null, text not null, primary key (place, code)) without rowid;
"""


class Description(NamedTuple):
    """A column as words and numbers: its kind as it is spelled, and that of the values of its choices, where they are no texts; what its times are exact to;
    whether it grows, and has gaps; the form that numbers had in its file; and the texts of its code book."""

    name: str
    kind: str
    choices_of: str
    exact_to: str
    grows: bool
    has_gaps: bool
    form: Tuple[str, str, str, bool]
    texts: Tuple[str, ...]

    @staticmethod
    def of(column: Column) -> "Description":
        """That of a column as it is now. A time zone that has no name of the system's cannot be saved."""
        kind, form = column.kind, column.form
        of = repr(kind.of) if isinstance(kind, Choices) and not isinstance(kind.of, Texts) else ""
        exact_to = NANOSECONDS if isinstance(kind, Times) and kind.nanoseconds == 1 else MICROSECONDS
        found = Description(column.name, repr(kind), of, exact_to, column.grows, column.has_gaps, (form.decimal, form.thousands, form.unit, form.parentheses),
                            tuple(kind.coded) if isinstance(kind, Texts) else ())
        try:
            found.kind_of_column()
        except Refused as why:
            raise Refused(f"column {column.name!r} cannot be saved: {why}", "saved") from None
        return found

    def column(self) -> Column:
        """The column."""
        column = Column(self.name, self.kind_of_column())
        column.grows, column.has_gaps, column.form = self.grows, self.has_gaps, Form(*self.form)
        return column

    def kind_of_column(self) -> Kind:
        """Its kind."""
        kind = kind_named(self.kind)
        if isinstance(kind, Texts):
            return Texts(self.texts)
        if isinstance(kind, Choices) and self.choices_of:
            return Choices(kind.texts, kind_named(self.choices_of))
        if isinstance(kind, Times) and self.exact_to == NANOSECONDS:
            from .pandas_frames import Timestamps
            return Timestamps(kind.zone)
        return kind


@dataclass(frozen=True)
class Contents:
    """What a file has: the columns, the ids of the rows, the numbers of the rows by columns, the last id that was given, and the notes of the frame."""

    columns: Tuple[Description, ...]
    ids: Sequence[int]
    numbers: Sequence[Sequence[int]]
    last: int
    notes: Tuple[str, ...]

    def digest(self) -> str:
        """A word that is another one where anything of this is."""
        found = sha256(ascii((self.columns, len(self.ids), self.last, self.notes)).encode())
        for numbers in (self.ids, *self.numbers):
            words = array("q", numbers)
            if sys.byteorder == "big":
                words.byteswap()
            found.update(words.tobytes())
        return found.hexdigest()


def write(path: Path, contents: Contents) -> None:
    """Has the file at this path hold these contents, and what is there now until then. Where that fails, what is there stays; a folder in which no file can be
    made is the system's own exception, with the path."""
    target = os.path.realpath(os.fsdecode(path))
    folder, name = os.path.split(target)
    beside = os.path.join(folder, f"{os.fsdecode(os.fsencode(name)[:LONGEST_BESIDE])}.{uuid4().hex}.new")
    try:
        _make(beside, path)
        with closing(sqlite3.connect(beside, isolation_level=None)) as file:
            _fill(file, contents)
        with suppress(FileNotFoundError):
            os.chmod(beside, stat.S_IMODE(os.stat(target).st_mode))
        _to_disk(beside)
        os.replace(beside, target)
        _to_disk(folder)
    finally:
        with suppress(FileNotFoundError, NotADirectoryError):
            os.remove(beside)


def _make(beside: str, path: Path) -> None:
    """Makes an empty file beside the one at this path."""
    try:
        open(beside, "xb").close()
    except OSError as why:
        raise OSError(why.errno, why.strerror, os.fspath(path)) from None


def _fill(file: sqlite3.Connection, contents: Contents) -> None:
    # Nobody reads this file before it is whole, so it needs no journal.
    file.execute("pragma journal_mode = off")
    file.execute("pragma synchronous = off")
    file.execute(f"pragma application_id = {APPLICATION}")
    file.execute(f"pragma user_version = {VERSION}")
    file.executescript(TABLES)
    names = [f"c{place}" for place in range(len(contents.columns))]
    file.execute(f"create table rows (id integer primary key, {', '.join(f'{name} integer not null' for name in names)})")
    file.execute("begin")
    file.execute("insert into frame values (?, ?, ?)", (contents.last, json.dumps(contents.notes), contents.digest()))
    for place, column in enumerate(contents.columns):
        words = [_stored(word) for word in (column.name, column.kind, column.choices_of, column.exact_to)]
        file.execute("insert into columns values (?, ?, ?, ?, ?, ?, ?, ?)", (place, *words, column.grows, column.has_gaps, json.dumps(column.form)))
        file.executemany("insert into texts values (?, ?, ?)", ((place, code, _stored(text)) for code, text in enumerate(column.texts, 1)))
    file.executemany(f"insert into rows values ({', '.join('?' * (1 + len(names)))})", zip(contents.ids, *contents.numbers))
    file.execute("commit")


def _to_disk(path: str) -> None:
    """Brings a file, or what a folder has for names, to the disk."""
    opened = os.open(path, os.O_RDONLY)
    try:
        os.fsync(opened)
    finally:
        os.close(opened)


def read(path: Path) -> Contents:
    """What the file at this path holds. One that is no frame, or of another version, or damaged is `Refused`, of the kind "saved"."""
    with open(path, "rb") as raw:
        if raw.read(len(MAGIC)) != MAGIC:
            raise Refused(f"{os.fspath(path)} is no saved frame", "saved")
    try:
        # No other program writes into it: it is replaced as a whole.
        with closing(sqlite3.connect(f"file:{quote(os.fsencode(os.path.realpath(path)))}?mode=ro&immutable=1", uri=True)) as file:
            _check_version(path, file)
            contents, digest = _read(file)
        is_whole = contents.digest() == digest
    except (sqlite3.Error, TypeError, ValueError, OverflowError) as why:
        raise Refused(f"{os.fspath(path)} is damaged: {why}", "saved") from None
    if not is_whole:
        raise Refused(f"{os.fspath(path)} is damaged: its contents are not those that were saved", "saved")
    return contents


def _check_version(path: Path, file: sqlite3.Connection) -> None:
    [application], [version] = (file.execute(f"pragma {name}").fetchone() for name in ("application_id", "user_version"))
    if application != APPLICATION:
        raise Refused(f"{os.fspath(path)} is no saved frame, but another file of SQLite", "saved")
    if version != VERSION:
        raise Refused(f"{os.fspath(path)} is a frame of version {version}, and this package reads version {VERSION}", "saved")


def _read(file: sqlite3.Connection) -> Tuple[Contents, str]:
    last, notes, digest = file.execute("select last, notes, digest from frame").fetchone() or (0, "[]", "")
    columns = tuple(_descriptions(file))
    rows = file.execute("select * from rows order by id").fetchall()
    ids, *numbers = [array("q", some) for some in zip(*rows)] if rows else [array("q")] * (1 + len(columns))
    return Contents(columns, ids, numbers, last, tuple(json.loads(notes))), digest


def _descriptions(file: sqlite3.Connection) -> Iterator[Description]:
    for place, name, kind, of, exact_to, grows, has_gaps, form in file.execute("select * from columns order by place").fetchall():
        texts = file.execute("select text from texts where place = ? order by code", (place,)).fetchall()
        decimal, thousands, unit, parentheses = json.loads(form)
        yield Description(_taken(name), _taken(kind), _taken(of), exact_to, bool(grows), bool(has_gaps), (decimal, thousands, unit, parentheses),
                          tuple(_taken(text) for text, in texts))


def _stored(text: str) -> Any:
    """A text as the file has it: one with half of a pair of surrogates, which UTF-8 has not, as bytes."""
    try:
        text.encode()
    except UnicodeEncodeError:
        return text.encode(errors="surrogatepass")
    return text


def _taken(stored: Any) -> str:
    """The text."""
    return stored.decode(errors="surrogatepass") if isinstance(stored, bytes) else str(stored)


def columns_of(contents: Contents) -> List[Column]:
    """The columns of what a file holds."""
    return [column.column() for column in contents.columns]
