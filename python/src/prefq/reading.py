"""Reads a file of comma-separated values as spreadsheets and databases write it."""
import csv
import gc
import gzip
import io
import os
import re
import stat
import zlib
from bisect import bisect_left
from collections import Counter, deque
from contextlib import contextmanager
from dataclasses import dataclass
from itertools import chain, islice
from typing import IO, Any, Callable, Dict, Iterable, Iterator, List, NamedTuple, NoReturn, Optional, Sequence, Tuple, Union

from .errors import Refused

DELIMITERS = ",;\t|"
# Letters that are read at a time, beside the rest of a line: as many as keep their cells near the processor.
CHUNK = 65_536
# How many letters are looked at to find the delimiter, and how many bytes to see whether a file is text at all.
SAMPLE = 65_536
SAMPLE_ROWS = 50
# A first line with the names of many columns is shorter.
LONGEST_HEAD = 2**24
END_OF_LINE = re.compile(rb"[\n\r]")
# Python's own limit for a cell, 131,072 letters, is too low for texts.
LONGEST_CELL = 2**31 - 1
MARKS = ((b"\xef\xbb\xbf", "utf-8-sig"), (b"\xff\xfe\x00\x00", "utf-32"), (b"\x00\x00\xfe\xff", "utf-32"), (b"\xff\xfe", "utf-16"), (b"\xfe\xff", "utf-16"))
MARK = "\ufeff"
ALL_BYTES = bytes(range(256))
SEPARATOR_LINE = re.compile(r'"?sep=(?P<sign>[^"\r\n])"?\r?\n?', re.IGNORECASE)
# What is done, how much of it, and of how much, which is 0 where nobody knows.
Progress = Callable[[str, int, int], None]
Source = Union[str, "os.PathLike[str]", IO[Any]]


@dataclass(frozen=True)
class Dialect:
    """How a file is written, as far as it is said.

    - `encoding`: that of its mark, or UTF-8, where none is given; `delimiter`: the one of , ; tab | that cuts its first rows alike into most cells
    - `skip`: so many lines stand before the one with the names; `null_padding`: whether a short row ends in missing values, or is refused
    """

    encoding: Optional[str] = None
    delimiter: Optional[str] = None
    skip: int = 0
    null_padding: bool = False

    def __post_init__(self) -> None:
        if self.delimiter is not None and (len(self.delimiter) != 1 or self.delimiter in '"\r\n'):
            raise ValueError(f"delimiter is {self.delimiter!r}: it is one sign, and no quote or end of a line")
        if isinstance(self.skip, bool) or not isinstance(self.skip, int) or self.skip < 0:
            raise ValueError(f"skip is {self.skip!r}: not a number of lines")
        if self.encoding:
            check_encoding(self.encoding)


class Content(NamedTuple):
    """What a file holds: its bytes, or the path where they are and the file's state, which stays while it is read; and how they are read as text."""

    data: bytes
    encoding: str
    errors: str = "strict"
    path: Union[str, "os.PathLike[str]", None] = None
    state: Tuple[int, ...] = ()

    def open(self) -> IO[bytes]:
        """The bytes from their begin."""
        if self.path is None:
            return io.BytesIO(self.data)
        file = open(self.path, "rb")
        try:
            self.check_unchanged(file)
        except Refused:
            file.close()
            raise
        return file

    def check_unchanged(self, file: IO[bytes]) -> None:
        """Refuses a file that was written to since its begin was read. One that another took the place of is as it was."""
        if self.path is not None and state_of(file) != self.state:
            raise Refused(f"{os.fspath(self.path)} was written to while it was read", "table")


class Chunk:
    """Some rows of a file: the number of the first one, counted from 0; how many they are, of how many cells; and their cells row by row, or their `text`, which has
    a row in each line and is cut into cells at the delimiters alone."""

    def __init__(self, first: int, rows: int, width: int, cells: Optional[List[str]] = None, *, text: str = "", delimiter: str = "") -> None:
        self.first, self.rows, self.width = first, rows, width
        self.text, self.delimiter = text, delimiter
        self._cells = cells

    def column(self, place: int) -> List[str]:
        """The cells of a column."""
        return self._all_cells()[place::self.width]

    def row(self, place: int) -> List[str]:
        """The cells of a row, of which the first has the number 0."""
        return self._all_cells()[place * self.width:(place + 1) * self.width]

    def _all_cells(self) -> List[str]:
        if self._cells is None:
            self._cells = self.text[:-1].replace("\n", self.delimiter).split(self.delimiter)
        return self._cells


class Span(NamedTuple):
    """Where the rows of a chunk stand: their numbers, and the lines of the file, which are counted behind those that are skipped."""

    rows: range
    lines: range


class Rows:
    """The rows of lines, by csv.reader. One that is a line of blanks has no cells, but in quotes these are a cell."""

    def __init__(self, lines: Iterable[str], **dialect: Any) -> None:
        self._reader = csv.reader(self._seen(lines), **dialect)
        self._has_quotes = False

    def _seen(self, lines: Iterable[str]) -> Iterator[str]:
        for line in lines:
            self._has_quotes = self._has_quotes or '"' in line
            yield line

    def __iter__(self) -> "Rows":
        return self

    def __next__(self) -> List[str]:
        self._has_quotes = False
        row = next(self._reader)
        return [] if len(row) == 1 and row[0].isspace() and not self._has_quotes else row

    @property
    def line_num(self) -> int:
        """How many lines were read."""
        return self._reader.line_num


class Cells:
    """The names and the rows of a file, which is read as often as its rows are asked for."""

    def __init__(self, content: Content, what: str, dialect: Dialect = Dialect(), progress: Optional[Progress] = None) -> None:
        self.what = what
        self._content, self._dialect, self._progress = content, dialect, progress
        self._before = dialect.skip
        self._delimiter = self._find_delimiter()
        if csv.field_size_limit() < LONGEST_CELL:
            csv.field_size_limit(LONGEST_CELL)
        # Where the chunks stand, once all of them have been read.
        self._spans: List[Span] = []
        self.names = self._read_names()

    def chunks(self) -> Iterator[Chunk]:
        """The rows, some at a time."""
        first = 0
        spans: List[Span] = []
        with self._stream() as stream:
            with self._reader(stream) as reader:
                self._names_in(reader)
            passed: int = reader.line_num
            while text := stream.read(CHUNK) + stream.readline():
                chunk, count = self._chunk(text, stream, first, passed)
                if chunk.rows:
                    yield chunk
                    spans.append(Span(range(first, first + chunk.rows), range(passed, passed + count)))
                first, passed = first + chunk.rows, passed + count
                if self._progress:
                    self._progress("reading", first, 0)
        self._spans = spans

    def rows_at(self, places: Iterable[int]) -> Dict[int, List[str]]:
        """The rows with these numbers, counted from 0. Lines of other chunks are passed over, which is some ten times faster than reading their cells."""
        wanted = sorted(set(places))
        if not self._spans:
            deque(self.chunks(), maxlen=0)
        found: Dict[int, List[str]] = {}
        passed = 0
        with self._stream() as stream:
            for span in self._spans:
                here = wanted[bisect_left(wanted, span.rows.start):bisect_left(wanted, span.rows.stop)]
                if here:
                    deque(islice(stream, span.lines.start - passed), maxlen=0)
                    chunk, _ = self._chunk("".join(islice(stream, len(span.lines))), (), span.rows.start, span.lines.start)
                    found.update((place, chunk.row(place - chunk.first)) for place in here)
                    passed = span.lines.stop
        return found

    def _chunk(self, text: str, further: Iterable[str], first: int, passed: int) -> Tuple[Chunk, int]:
        """The rows of these lines, before which others have `passed`, and further ones where a row does not end with them; and how many lines they take."""
        width = len(self.names)
        plain = plain_chunk(text, self._delimiter, first, width)
        if plain is not None:
            return plain, plain.rows
        lines = list(io.StringIO(text, newline=""))
        count = len(lines)
        with self._reader(taken(lines, further), passed, csv.reader) as reader:
            found = rows_of(reader, count)
        # In a file of one column a line of blanks has as many cells as names.
        if set(map(len, found)) != {width} or width == 1 and any(map(str.isspace, chain.from_iterable(found))):
            if any(len(row) == 1 and row[0].isspace() for row in found):
                found = list(Rows(lines, delimiter=self._delimiter))
            found = list(self._squared(found, first))
        return Chunk(first, len(found), width, list(chain.from_iterable(found))), reader.line_num

    def check_unchanged(self) -> None:
        """Refuses a file that was written to since it was opened."""
        self._content.open().close()

    def line(self, row: int) -> int:
        """The line in which a row ends, for what is said of it."""
        with self._stream() as stream, self._reader(stream) as reader:
            self._names_in(reader)
            places = (reader.line_num for cells in reader if cells)
            return self._before + next(islice(places, row, None), 0)

    def check_columns(self, names: Sequence[str]) -> None:
        """Refuses a name that stands twice in the file, if it is among these."""
        counts = Counter(self.names)
        for name in names:
            if counts[name] > 1:
                places = [str(place) for place, other in enumerate(self.names, 1) if other == name]
                raise Refused(f"{self.what}: two columns are called {name!r}, those at places {' and '.join(places)}", "table")

    @contextmanager
    def _stream(self) -> Iterator[IO[str]]:
        """The lines behind the mark of the encoding, if there is one, and those that are skipped. Where they are no text of the encoding, the file is refused, and so is
        one that was written to by the end."""
        file = self._content.open()
        with io.TextIOWrapper(file, self._content.encoding, self._content.errors, newline="") as stream:
            try:
                if stream.read(1) != MARK:      # which an encoding that is given, or the text of an open file, may have left
                    stream.seek(0)
                deque(islice(stream, self._before), maxlen=0)
                yield stream
            except UnicodeError:
                self.refuse_encoding()
            self._content.check_unchanged(file)

    @contextmanager
    def _reader(self, lines: Iterable[str], passed: int = 0, rows: Optional[Callable[..., Any]] = None) -> Iterator[Any]:
        """Reads the cells of lines, before which others have `passed`. Where that fails, the file is refused."""
        reader = (rows or Rows)(lines, delimiter=self._delimiter, strict=True)
        try:
            yield reader
        except csv.Error as why:
            raise Refused(f"{self.what}, line {self._before + passed + reader.line_num}: {why}", "table") from None

    def refuse_encoding(self) -> NoReturn:
        encoding = self._content.encoding
        try:
            with self._content.open() as file:
                file.read().decode(encoding)
            place = 0
        except UnicodeDecodeError as why:
            place = why.start
        raise Refused(f"{self.what} is not {encoding.replace('-sig', '')} (byte {place}): give its encoding, such as encoding='cp1252'", "table") from None

    def _squared(self, rows: List[List[str]], first: int) -> Iterator[List[str]]:
        """The rows with a cell for each name: empty lines are left out, as are empty cells beyond the names; a short row is filled up or refused."""
        width = len(self.names)
        taken = 0
        for row in rows:
            if not row:
                continue
            if len(row) > width and all(map(is_blank, row[width:])):
                row = row[:width]
            if len(row) < width and self._dialect.null_padding:
                row = row + [""] * (width - len(row))
            if len(row) != width:
                more = "null_padding=True fills short rows with missing values" if len(row) < width else f"skip={self._dialect.skip + 1} leaves out that line, where the names stand behind it"
                raise Refused(f"{self.what}, line {self.line(first + taken)}: it has {len(row)} cells, and the first line has {width} name{'s' * (width != 1)}; {more}", "table")
            taken += 1
            yield row

    def _find_delimiter(self) -> str:
        """Takes the line `sep=;` that Excel reads; the delimiter that is given, or that the first rows show behind the lines that are skipped."""
        with self._stream() as stream:
            text = stream.read(SAMPLE)
        lines = io.StringIO(text, newline="").readlines()
        said = SEPARATOR_LINE.fullmatch(lines[0]) if lines else None
        if said:
            self._before += 1
        return self._dialect.delimiter or (said["sign"] if said else delimiter_of(lines, is_cut=len(text) == SAMPLE))

    def _read_names(self) -> List[str]:
        with self._stream() as stream, self._reader(stream) as reader:
            cells = self._names_in(reader)
        if not cells:
            raise Refused(f"{self.what} is empty: its first line has the names of the columns", "table")
        while len(cells) > 1 and is_blank(cells[-1]) and self._is_surplus(len(cells) - 1):
            cells.pop()
        return [cell.strip() or f"column {place}" for place, cell in enumerate(cells, 1)]

    def _names_in(self, reader: Any) -> List[str]:
        """Reads as far as the line with the names, in front of which there may be empty ones; its cells."""
        return next(filter(None, reader), [])

    def _is_surplus(self, place: int) -> bool:
        """Whether the first rows have no text at this place either, as where each line ends in a delimiter."""
        with self._stream() as stream, self._reader(stream) as reader:
            self._names_in(reader)
            return all(len(row) <= place or is_blank(row[place]) for row in islice(reader, SAMPLE_ROWS))


def read_csv(source: Source, dialect: Dialect = Dialect(), progress: Optional[Progress] = None, what: str = "the file") -> Cells:
    """The cells of a file, or of an open one, which is called so in what is said of it; it may be packed by gzip."""
    if isinstance(source, (str, os.PathLike)):
        with open(source, "rb") as file:
            content = content_of(file, str(source), dialect, source if stat.S_ISREG(os.fstat(file.fileno()).st_mode) else None)
        return Cells(content, str(source), dialect, progress)
    if not hasattr(source, "read"):
        raise TypeError(f"a file is a path or an open file, not {source!r}")
    return Cells(content_of(source, what, dialect), what, dialect, progress)


def plain_chunk(text: str, delimiter: str, first: int, width: int) -> Optional[Chunk]:
    """The rows of lines that are cut at the delimiters and at their ends, each into so many cells; None where that takes a look at each sign."""
    if '"' in text or "\0" in text or width < 2 or not delimiter.isascii():
        return None
    if "\r" in text:
        text = text.replace("\r\n", "\n")
    if not text.endswith("\n"):
        text += "\n"
    cuts = text.encode("utf-8", "surrogatepass").translate(None, ALL_BYTES.replace(delimiter.encode(), b"").replace(b"\n", b""))
    rows = len(cuts) // width
    is_plain = "\r" not in text and cuts == (delimiter * (width - 1) + "\n").encode() * rows
    return Chunk(first, rows, width, text=text, delimiter=delimiter) if is_plain else None


def taken(lines: List[str], further: Iterable[str]) -> Iterator[str]:
    """These lines, and further ones, which are added to them where they are taken."""
    yield from lines
    for line in further:
        lines.append(line)
        yield line


def rows_of(reader: Any, most: int) -> List[List[str]]:
    """The next rows. They are no garbage: left to itself, Python's collector looks through all of them again and again."""
    collects = gc.isenabled()
    try:
        gc.disable()
        return list(islice(reader, most))
    finally:
        if collects:
            gc.enable()


def content_of(file: IO[Any], what: str, dialect: Dialect, path: Union[str, "os.PathLike[str]", None] = None) -> Content:
    """What an open file holds, which may be one of text. What is no text is refused before all of it is read. A file that has a path is not kept in memory."""
    try:
        first = file.read(SAMPLE)
        if isinstance(first, str):
            # A text of Python may have halves of characters, which UTF-8 does not write.
            return Content((first + file.read()).encode("utf-8", "surrogatepass"), "utf-8", "surrogatepass")
        is_packed = first[:2] == b"\x1f\x8b"
        if is_packed:
            first = unpacked(first + file.read(), what)
        encoding = dialect.encoding or encoding_of(first)
        if b"\0" in first[:SAMPLE] and "16" not in encoding and "32" not in encoding:
            raise Refused(f"{what} is no text: its byte {first.index(0)} is 0", "table")
        if len(first) == SAMPLE and not END_OF_LINE.search(first):
            first += file.read(LONGEST_HEAD)
            if not END_OF_LINE.search(first) and len(first) > LONGEST_HEAD:
                raise Refused(f"{what} is no table: its first line does not end within {len(first)} bytes", "table")
        if path is not None and not is_packed:
            return Content(b"", encoding, path=path, state=state_of(file))
        return Content(b"".join((first, file.read())), encoding)
    except MemoryError:
        raise Refused(f"{what} is larger than the memory that there is", "table") from None


def check_encoding(encoding: Any) -> None:
    """Refuses what is no encoding of text: Python has some of bytes too, such as hex."""
    if not isinstance(encoding, str):
        raise TypeError(f"encoding is {encoding!r}: not the name of one")
    try:
        with io.TextIOWrapper(io.BytesIO(), encoding) as stream:
            stream.read()
    except (LookupError, ValueError):
        raise ValueError(f"encoding is {encoding!r}: Python knows no encoding of text by this name") from None


def state_of(file: IO[bytes]) -> Tuple[int, ...]:
    """What of a file differs where it was written to."""
    found = os.fstat(file.fileno())
    return found.st_dev, found.st_ino, found.st_size, found.st_mtime_ns


def unpacked(data: bytes, what: str) -> bytes:
    try:
        return gzip.decompress(data)
    except (OSError, EOFError, zlib.error) as why:
        raise Refused(f"{what} begins as a file of gzip, and cannot be unpacked: {why}", "table") from None


def encoding_of(data: bytes) -> str:
    """The encoding that the mark at the begin of a file says, or UTF-8."""
    return next((encoding for mark, encoding in MARKS if data.startswith(mark)), "utf-8")


def delimiter_of(lines: Sequence[str], *, is_cut: bool = False) -> str:
    """The delimiter that cuts the first rows alike, into most cells; of several, the one behind which fewer cells begin with a blank."""
    def worth(sign: str) -> Tuple[bool, int, int]:
        rows = list(_sample(lines, sign))
        rows = [row for row in (rows[:-1] if is_cut and len(rows) > 1 else rows) if row]
        widths = {len(row) for row in rows if any(row)}
        first = rows[0] if rows else []
        return len(widths) == 1 and widths != {1}, len(first), -sum(cell.startswith(" ") for cell in first)

    return max(DELIMITERS, key=worth)


def _sample(lines: Sequence[str], delimiter: str) -> Iterator[List[str]]:
    """The first rows, as far as they can be read."""
    try:
        yield from islice(Rows(lines, delimiter=delimiter, strict=True), SAMPLE_ROWS)
    except csv.Error:
        return


def is_blank(cell: str) -> bool:
    """Whether a cell is empty."""
    return not cell or cell.isspace()


def check_names(names: Iterable[Any]) -> Tuple[str, ...]:
    """The names, if each is a text and no two are the same."""
    if isinstance(names, str):
        raise TypeError(f"columns is a list of names, not {names!r}")
    seen: Dict[str, None] = {}
    for name in names:
        if not isinstance(name, str):
            raise TypeError(f"{name!r} is no name of a column: a name is a text")
        if name in seen:
            raise Refused(f"two columns are called {name!r}", "table")
        seen[name] = None
    return tuple(seen)
