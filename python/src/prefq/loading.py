"""From the values of columns to the numbers of a table, and back."""
from array import array
from collections import Counter
from contextlib import suppress
from itertools import chain, filterfalse
from typing import Any, Dict, Iterable, Iterator, List, Mapping, NamedTuple, Optional, Sequence, Tuple

from .checks import LEAST, MOST, MOST_COLUMNS
from .columns import Column, listed
from .errors import Refused
from .hints import unknown_column
from .infer import kind_of_texts, kind_of_values, plain_column
from .kinds import Decimals, Kind, Texts, Whole, kind_named
from .kinds.forms import PLAIN, Form
from .kinds.numbers import Number, are_in_range
from .missing import Missing, folded, note_of
from .reading import Cells, Chunk, check_names, is_blank
from .records import Record
from .rows import WholeRows, Zipped
from .standing import Standing

Kinds = Optional[Mapping[str, str]]
Encoded = Tuple[Column, Sequence[int]]
# A row by its level, its id and its numbers.
Found = Tuple[Optional[int], Any, Sequence[int]]
# Where a column has more different texts, none is kept.
MOST_KNOWN = 65_536


class File:
    """The columns of a file, of which one is only understood once it is needed."""

    def __init__(self, cells: Cells, kinds: Kinds = None, missing: Missing = Missing(None), form: Form = PLAIN) -> None:
        self.cells = cells
        # The words that were taken for missing, each with the number of its rows, by column.
        self.words: Dict[str, Dict[str, int]] = {}
        # The columns that have been read.
        self.loaded: Dict[str, Encoded] = {}
        self.rows = 0
        self._kinds = dict(kinds or {})
        self._missing, self._form = missing, form
        check_kinds(self._kinds, cells.names)

    @property
    def notes(self) -> Dict[str, str]:
        """What is to be known of each column in which words were taken for missing."""
        return {name: note_of(name, counts) for name, counts in self.words.items()}

    def load(self, names: Iterable[str]) -> None:
        """Reads these columns, all in one pass through the file."""
        readers = self._readers(name for name in dict.fromkeys(names) if name not in self.loaded)
        if readers:
            self._read(readers, self._chunks())

    def opening(self, names: Sequence[str], most: int) -> Tuple[List[Column], WholeRows]:
        """These columns and their rows, of which there may be `most`, as a table is opened with them."""
        readers = self._readers(names)
        chunks = self._chunks(most)
        if list(names) == self.cells.names and all(reader.takes_plain_numbers for reader in readers):
            standing, taken = Standing.take(chunks)
            if len(standing):
                return [reader.column_of_numbers(standing, place) for place, reader in enumerate(readers)], standing
            chunks = chain(taken, chunks)
        self._read(readers, chunks)
        found = [self.loaded[name] for name in names]
        return [column for column, _ in found], Zipped([numbers for _, numbers in found])

    def column(self, name: str) -> Encoded:
        """A column, and its numbers."""
        if name not in self.loaded:
            self.load([name])
        return self.loaded[name]

    def _readers(self, names: Iterable[str]) -> List["ColumnReader"]:
        wanted = list(names)
        self.cells.check_columns(wanted)
        return [ColumnReader(name, self._kinds.get(name), self._missing, self._form) for name in wanted]

    def _chunks(self, most: Optional[int] = None) -> Iterator[Chunk]:
        """The rows, which are counted and of which there may be so many."""
        self.rows = 0
        for chunk in self.cells.chunks():
            self.rows += chunk.rows
            if most is not None and self.rows > most:
                raise Refused(f"{self.cells.what} has more than {most} rows, which no table holds: prefq.psel, `python -m prefq ask` and prefq.parts ask more", "table")
            yield chunk

    def _read(self, readers: Sequence["ColumnReader"], chunks: Iterable[Chunk]) -> None:
        """Reads these columns of these chunks, and again those whose kind is seen from all rows at once."""
        self._pass(readers, chunks)
        mixed = [reader for reader in readers if reader.is_mixed]
        if mixed:
            self._pass(mixed, self._chunks())
        for reader in readers:
            self.loaded[reader.name] = reader.encoded()
            counts = reader.words_taken()
            if counts:
                self.words[reader.name] = counts

    def _pass(self, readers: Sequence["ColumnReader"], chunks: Iterable[Chunk]) -> None:
        place_of = {name: place for place, name in enumerate(self.cells.names)}
        places = [place_of[reader.name] for reader in readers]
        for chunk in chunks:
            for reader, place in zip(readers, places):
                try:
                    reader.add(chunk.column(place))
                except CellRefused as why:
                    raise type(why.why)(f"line {self.cells.line(chunk.first + why.row)}, {why.why}") from None
        for reader in readers:
            reader.end()


class CellRefused(Exception):
    """A value that a column does not take: the number of its row, from 0, and why."""

    def __init__(self, row: int, why: Exception) -> None:
        super().__init__(str(why))
        self.row, self.why = row, why


class Part(NamedTuple):
    """Some rows of a column: their kind, None where there is nothing but what may be missing; their numbers; whether some are missing; and words that were taken
    for missing, with counts."""

    kind: Optional[Kind]
    numbers: "array[int]"
    has_gaps: bool
    words: Dict[str, int]

    @staticmethod
    def of_plain(texts: List[str]) -> "Optional[Part]":
        """Plain whole numbers, decimals or dates, and empty cells; None where there may be others."""
        gaps = [] if all(texts) else [place for place, text in enumerate(texts) if not text]
        some = next(filter(None, texts), "")
        found = plain_column([text or some for text in texts] if gaps else texts)
        if found is None:
            return None
        kind, numbers = found
        for place in gaps:
            numbers[place] = LEAST
        return Part(kind, numbers, bool(gaps), {})


NOTHING = Part(None, array("q"), False, {})


class Known:
    """The numbers of the texts of a column with one kind, so that each is understood once in the whole file: where there are few, or where that takes long."""

    def __init__(self) -> None:
        # None where they are not kept any more.
        self._numbers: Optional[Dict[str, int]] = {}
        # The kind of these texts, whether some are missing, and words that were taken for missing.
        self._like = NOTHING

    def part(self, texts: List[str]) -> Optional[Part]:
        """Some rows whose texts are all known, None where one is new."""
        if not self._numbers:
            return None
        try:
            numbers = array("q", list(map(self._numbers.__getitem__, texts)))
        except KeyError:
            return None
        return self._like._replace(numbers=numbers, words={word: texts.count(word) for word in self._like.words})

    def new(self, texts: Iterable[str]) -> List[str]:
        """The texts that are not known, each once; none where nothing is known."""
        return list(filterfalse(self._numbers.__contains__, dict.fromkeys(texts))) if self._numbers else []

    def takes(self, part: Part) -> bool:
        """Whether the texts of a part have the same kind."""
        return repr(part.kind) == repr(self._like.kind) or part.kind is None and not isinstance(self._like.kind, Texts)

    def learn(self, texts: List[str], part: Part) -> None:
        """Keeps the texts of a part, and forgets those of another kind."""
        if self._numbers is None or part.kind is None and not self._numbers:
            return
        if not self.takes(part):
            self._numbers, self._like = {}, NOTHING
        self._numbers.update(zip(texts, part.numbers))
        self._like = Part(self._like.kind or part.kind, part.numbers, self._like.has_gaps or part.has_gaps, {**self._like.words, **part.words})
        if len(self._numbers) > MOST_KNOWN:
            self._numbers = None

    def learn_few(self, texts: List[str], part: Part) -> None:
        """The same where the first texts come again and again."""
        if self._numbers == {} and 2 * len(set(texts)) > len(texts):
            self._numbers = None
        self.learn(texts, part)


class Distinct(NamedTuple):
    """The texts of some rows, each once: empty cells, words that may stand for a missing value, and values."""

    blanks: List[str]
    words: List[str]
    values: List[str]

    @staticmethod
    def of(texts: Iterable[str], missing: Missing) -> "Distinct":
        different = dict.fromkeys(texts)
        suspects = missing.suspects(different)
        blanks = [text for text in suspects if is_blank(text)]
        words = [text for text in suspects if not is_blank(text) and folded(text) in missing.words]
        for text in [*blanks, *words]:
            del different[text]
        return Distinct(blanks, words, list(different))


class ColumnReader:
    """Reads a column of a file, some rows at a time. Parts whose kinds do not go together are `is_mixed`: the column is then read once more, all at once."""

    def __init__(self, name: str, kind: Optional[str], missing: Missing, form: Form) -> None:
        self.name, self.is_mixed = name, False
        self._given = None if kind is None else kind_named(kind)
        self._missing, self._form = missing, form
        # The code book of a column of texts is that of all its parts.
        self._texts = Texts()
        self._parts: List[Part] = []
        self._known = Known()
        self._all: List[str] = []

    @property
    def takes_plain_numbers(self) -> bool:
        """Whether plain whole numbers are that in this column, and nothing but an empty cell is missing among them."""
        is_plain = self._given is None or type(self._given) is Whole and self._given.form.is_plain
        return is_plain and self._form.is_plain and not self._missing.are_numbers

    def add(self, texts: List[str]) -> None:
        """Adds the texts of some rows."""
        if self.is_mixed:
            self._all += texts
            return
        part = self._known.part(texts)
        if part is None and self._given is None and self.takes_plain_numbers:
            part = Part.of_plain(texts)
            if part is not None:
                self._known.learn_few(texts, part)
        self._parts.append(part or self._part_with_new(texts))

    def end(self) -> None:
        """The file has no more rows."""
        if self.is_mixed:
            self._parts = [self._part(self._all, is_whole_column=True)]
            self._all = []
        else:
            self.is_mixed = joined_kind(self._parts) is None

    def encoded(self) -> Encoded:
        """The column, and its numbers."""
        kind = joined_kind(self._parts) if self._parts else self._given or Texts()
        assert kind is not None
        numbers = array("q")
        for part in self._parts:
            numbers.extend(rescaled(part, kind))
        return self._column(kind, has_gaps=any(part.has_gaps for part in self._parts)), numbers

    def column_of_numbers(self, rows: Standing, place: int) -> Column:
        """The column where it is this one of rows that stand."""
        return self._column(self._given or (Whole() if rows.has_values(place) else Texts()), has_gaps=rows.has_gaps(place))

    def _column(self, kind: Kind, *, has_gaps: bool) -> Column:
        column = Column(self.name, kind)
        column.grows, column.has_gaps, column.form = self._given is None, has_gaps, self._form
        return column

    def words_taken(self) -> Dict[str, int]:
        """The words that were taken for missing, each with the number of its rows."""
        counts: "Counter[str]" = Counter()
        for part in self._parts:
            counts.update(part.words)
        return counts

    def _part_with_new(self, texts: List[str]) -> Part:
        """Some rows, of whose texts only those that are new are understood now."""
        new = self._known.new(texts)
        if new:
            with suppress(CellRefused):     # which is then said of its row
                part = self._part(new)
                if self._known.takes(part):
                    self._known.learn(new, part)
                    return self._known.part(texts) or self._part(texts)
        part = self._part(texts)
        (self._known.learn_few if isinstance(part.kind, Texts) else self._known.learn)(texts, part)
        return part

    def _part(self, texts: List[str], *, is_whole_column: bool = False) -> Part:
        """Some rows, or all of a column at once, whose kind is then that of all of its texts."""
        found = Distinct.of(texts, self._missing)
        kind = self._given or (kind_of_texts(found.values, self._form) if found.values else Texts() if is_whole_column else None)
        if isinstance(kind, Texts):
            kind = self._texts
        words = [word for word in found.words if kind is None or folded(word) in self._missing.in_a_column_of(kind)]
        gaps = [*found.blanks, *words]
        values = [text for text in found.words if text not in words] + found.values
        return Part(kind, array("q", self._numbers(kind, texts, values, gaps)), bool(gaps), {word: texts.count(word) for word in words})

    def _numbers(self, kind: Optional[Kind], texts: List[str], values: List[str], gaps: List[str]) -> Iterable[int]:
        """The numbers of texts, which are these values and gaps."""
        reading = kind if self._form.is_plain or not isinstance(kind, Number) or kind.has_own_form else kind.in_form(self._form)
        if not gaps and reading and 2 * len(values) > len(texts):
            at_once = reading.read_all(texts)
            if at_once is not None:
                return at_once
        numbers = dict.fromkeys(gaps, LEAST)
        if reading:
            numbers.update(zip(values, reading.read_all(values) or self._one_by_one(reading, values, texts)))
        return map(numbers.__getitem__, texts)

    def _one_by_one(self, kind: Kind, present: Sequence[str], texts: List[str]) -> Iterator[int]:
        column = Column(self.name, kind)
        for text in present:
            try:
                yield column.encode(text)
            except (TypeError, ValueError) as why:
                raise CellRefused(texts.index(text), why) from None


def column_of_texts(name: str, texts: List[str], kind: Optional[str], missing: Missing, form: Form) -> Encoded:
    """A column of the texts of a file, and its numbers."""
    reader = ColumnReader(name, kind, missing, form)
    reader.add(texts)
    reader.end()
    if reader.is_mixed:
        reader.add(texts)
        reader.end()
    return reader.encoded()


def joined_kind(parts: Sequence[Part]) -> Optional[Kind]:
    """The kind of a column of these parts: that of all of them, or the one with most decimals; None where they do not go together."""
    kinds = [part.kind for part in parts if part.kind is not None]
    words = any(part.words for part in parts if part.kind is None)
    if not kinds:
        return None if words else Texts()
    # Decimals without decimals, as of 1e3, are decimals beside whole numbers too.
    widest = max(kinds, key=lambda kind: (kind.decimals, isinstance(kind, Decimals)) if isinstance(kind, Whole) else (0, False))
    if isinstance(widest, Whole):
        if not all(isinstance(kind, Whole) and kind.form == widest.form for kind in kinds) or not all(map(fits, parts, [widest] * len(parts))):
            return None
    elif len(set(map(repr, kinds))) > 1 or isinstance(widest, Texts) and words:
        return None
    return widest


def factor(part: Part, kind: Kind) -> int:
    """By how much the numbers of a part are multiplied in a column of this kind."""
    return kind.scale // part.kind.scale if isinstance(part.kind, Whole) and isinstance(kind, Whole) else 1


def fits(part: Part, kind: Kind) -> bool:
    """Whether the numbers of a part fit a column of this kind."""
    present = [number for number in part.numbers if number != LEAST] if factor(part, kind) > 1 else []
    return not present or max(max(present), -min(present)) * factor(part, kind) <= MOST


def rescaled(part: Part, kind: Kind) -> Iterable[int]:
    """The numbers of a part in a column of this kind."""
    by = factor(part, kind)
    return part.numbers if by == 1 else (number if number == LEAST else number * by for number in part.numbers)


def column_of_values(name: str, values: Sequence[Any], kinds: Kinds, ids: Optional[Sequence[Any]] = None, what: str = "row") -> Encoded:
    """A column of Python's values, and its numbers; see `encoded`."""
    given = kinds[name] if kinds and name in kinds else None
    whole = plain_whole_numbers(values) if given is None else None
    column = Column(name, Whole() if whole is not None else kind_of_values(name, values, ids, what) if given is None else given)
    column.grows = given is None
    if whole is None:
        return column, encoded(column, values, ids, what)
    column.has_gaps = LEAST in whole
    return column, whole


def plain_whole_numbers(values: Sequence[Any]) -> Optional[List[int]]:
    """The numbers of values that are nothing but Python's own whole numbers, and None, found without a look at each; None where there are others, or no number."""
    types = set(map(type, values))
    if int not in types or not types <= {int, type(None)}:
        return None
    present = [value for value in values if value is not None] if len(types) == 2 else values
    if not are_in_range(present):
        return None
    return [LEAST if value is None else value for value in values]


def encoded(column: Column, values: Sequence[Any], ids: Optional[Sequence[Any]] = None, what: str = "row") -> List[int]:
    """The numbers of a column's values. What has none is named with its row, or `what` else has the ids; they are 1, 2, 3 and so on where none are given."""
    rows = range(1, len(values) + 1) if ids is None else ids

    def numbers_of(some: Sequence[Any]) -> Iterator[int]:
        for place, value in enumerate(some):
            try:
                yield column.encode(value)
            except (TypeError, ValueError) as why:
                raise type(why)(f"{what} {rows[place if some is values else values.index(value)]!r}, {why}") from None

    if {str}.issuperset(map(type, values)):
        # Texts mostly come again and again.
        different = list(dict.fromkeys(values))
        numbers: Dict[str, int] = dict(zip(different, column.kind.read_all(different) or numbers_of(different)))
        return list(map(numbers.__getitem__, values))
    return list(numbers_of(values))


def decoded(columns: Sequence[Column], rows: Sequence[Sequence[int]]) -> Iterator[Tuple[Any, ...]]:
    """The values of rows of numbers."""
    def values(column: Column, numbers: Sequence[int]) -> List[Any]:
        decode = column.kind.decode
        return [None if number == LEAST else decode(number) for number in numbers]

    return zip(*(values(column, numbers) for column, numbers in zip(columns, zip(*rows))))


def records_of(columns: Sequence[Column], rows: Sequence[Found]) -> List[Record]:
    """The records of rows, each with its level and its id."""
    names, new, records = [column.name for column in columns], Record.__new__, []
    for (level, id, _), values in zip(rows, decoded(columns, [numbers for _, _, numbers in rows])):
        record = new(Record)        # without its `__init__`, which is written in Python, and takes longer
        record.level, record.id = level, id
        record.update(zip(names, values))
        records.append(record)
    return records


def check_width(columns: Sequence[Column]) -> None:
    """Refuses more columns than a table has, with the names of those that are best left out."""
    if not columns:
        raise Refused("there are no columns", "table", 1)
    more = len(columns) - MOST_COLUMNS
    if more > 0:
        by_texts = sorted(columns, key=lambda column: -len(column.kind.texts) if isinstance(column.kind, Texts) else 1)
        leave = sorted(by_texts[:more], key=columns.index)
        raise Refused(f"there are {len(columns)} columns, and a table has at most {MOST_COLUMNS}: name those that questions use by columns=[..], "
                      f"and leave out, say, {listed([column.name for column in leave])}", "table", 2)


def check_known(names: Sequence[Any], known: Sequence[Any]) -> None:
    """Refuses a name that no column has."""
    there = set(known)
    for name in names:
        if name not in there:
            raise Refused(unknown_column(str(name), [str(other) for other in known]), "table")


def check_kinds(kinds: Kinds, known: Sequence[Any]) -> None:
    """Refuses a kind for a column that is not there, and what is no kind, also where nobody asks the column."""
    check_known(list(kinds or ()), known)
    for name, kind in (kinds or {}).items():
        Column(name, kind)


def chosen(names: List[Any], columns: Optional[Sequence[str]]) -> Tuple[str, ...]:
    """The names of the columns that are taken: all of them, or these."""
    if columns is None:
        return check_names(names)
    if isinstance(columns, str):
        raise TypeError(f"columns is a list of names, not {columns!r}")
    wanted = list(columns)
    check_known(wanted, names)
    return check_names(wanted)
