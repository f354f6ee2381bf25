"""A table as it is open below a frame, and how it is opened anew with wider columns under the same ids."""
from bisect import bisect_left
from dataclasses import dataclass
from typing import Any, Dict, Iterable, List, Mapping, Sequence, Tuple

from .checks import LEAST, MOST_IDS, whole
from .columns import Column
from .kept import Answered, Kept
from .kinds import Decimals, Kind, Texts, Whole
from .kinds.texts import CodeBookState
from .loading import CellRefused, check_width
from .moment import Moment, moment_of
from .reading import check_names
from .rows import ColumnarRows, WholeRows, Zipped
from .table import Table
from .translate import below

# A code book is worth a new one where it has grown to twice what it was, and by this and so much for each row, so that what this takes is spread over many texts.
BYTES_OF_GROWTH = 1_000_000
BYTES_A_ROW = 1_000


@dataclass(frozen=True)
class Ids:
    """The ids of a frame's rows, and those that they have in its table: the same, until the table is opened anew. Then the rows that it had, whose ids are `kept`,
    are counted from 1 there, and later ones follow; `last` is the last id that was given before."""

    kept: Sequence[int] = ()
    last: int = 0

    def outside(self, inside: int) -> int:
        """The id of a row that has this one in the table."""
        return self.kept[inside - 1] if inside <= len(self.kept) else inside - len(self.kept) + self.last

    def inside(self, id: int) -> int:
        """The id in the table of a row; 0, which no row has, where it was deleted before."""
        number = whole(id, "id", 0, MOST_IDS)
        if number > self.last:
            return number - self.last + len(self.kept)
        place = bisect_left(self.kept, number)
        return place + 1 if place < len(self.kept) and self.kept[place] == number else 0


class Columns:
    """The columns that the numbers of tables stand for: the names that these have there, and the order in which the values of a row are read."""

    def __init__(self, columns: Sequence[Column]) -> None:
        check_names(column.name for column in columns)
        check_width(columns)
        self.columns = tuple(columns)
        self.by_name = {column.name: column for column in columns}
        self.below = below(columns)
        # The places of columns, and those of texts.
        self.order = [[place for place, column in enumerate(columns) if isinstance(column.kind, Texts) == is_text] for is_text in (False, True)]
        self._books = [column.kind for column in columns if isinstance(column.kind, Texts)]
        self._code_books = size_of_code_books(columns)

    @property
    def names(self) -> List[str]:
        """The names of the columns."""
        return list(self.by_name)

    def code_books(self) -> List[Tuple[Texts, CodeBookState]]:
        """The code books as they are now."""
        return [(book, book.state()) for book in self._books]

    def have_outgrown(self, rows: int) -> bool:
        """Whether their code books may be mostly texts that none of so many rows has any more."""
        return size_of_code_books(self.columns) > 2 * self._code_books + BYTES_OF_GROWTH + BYTES_A_ROW * rows


class Opened(Columns):
    """A table, the columns that its numbers stand for, the ids of its rows, and answers that are kept while these stay as they are. Whoever has a query of it keeps
    it, when a frame has another one already."""

    def __init__(self, columns: Sequence[Column], rows: WholeRows, options: Dict[str, Any], ids: Ids = Ids()) -> None:
        super().__init__(columns)
        self.ids = ids
        self._options = options
        self.table = Table(list(self.below.values()), rows, **options)
        self.kept: Kept[Answered] = Kept(Answered.size)

    def moment(self, rows: ColumnarRows) -> Moment:
        """Rows of the table as they are at one moment, counted from 1."""
        return moment_of(self.columns, rows.column, lambda number: self.ids.outside(rows[number - 1][0]))

    def numbers(self, rows: Sequence[Sequence[Any]], kinds: Mapping[str, Kind] = {}) -> List[List[int]]:
        """The numbers of rows of values, where these columns have other kinds; `CellRefused` says which row has none. What is missing is not noted yet: a row may
        have a value there. Texts come last, so that rows which another column refuses add none to a code book."""
        columns = [column.of_kind(kinds[column.name]) if column.name in kinds else column for column in self.columns] if kinds else self.columns
        found = [[LEAST] * len(values) for values in rows]
        number = 0
        try:
            for places in self.order:
                for number, values in enumerate(rows):
                    for place in places:
                        if values[place] is not None:
                            found[number][place] = columns[place].encode(values[place])
        except (TypeError, ValueError) as why:
            raise CellRefused(number, why) from None
        return found

    def note_gaps(self, rows: Iterable[Sequence[int]]) -> None:
        """Notes which columns have gaps once these rows are there: before they are, so that whoever sees such a row reads its question with them."""
        for numbers in rows:
            if LEAST in numbers:
                for column, number in zip(self.columns, numbers):
                    column.has_gaps = column.has_gaps or number == LEAST

    def wider(self, rows: Sequence[Sequence[Any]]) -> Dict[str, Kind]:
        """The kinds of the columns that become wider so that they have the values of these rows."""
        found: Dict[str, Kind] = {}
        for values in rows:
            for column, value in zip(self.columns, values):
                kind = found.get(column.name, column.kind).widened(value) if column.grows and value is not None else None
                if kind is not None:
                    found[column.name] = kind
        return found

    def is_outgrown(self) -> bool:
        """Whether the code books may be mostly texts that no row has any more. Where rows have to be counted for it, as behind an interruption, a client is there or
        `NoClient` is raised."""
        if not self.have_outgrown(0):
            return False
        if self.table._engine.rows is None:
            self.table._free.check_at_hand()
        return self.have_outgrown(self.table.count)

    def anew(self, kinds: Mapping[str, Kind], last: int) -> "Opened":
        """The same rows under the same ids in a new table, whose columns have these kinds; `last` is the last id that was given. Takes the time of reading all
        rows and opening a table. No change may come meanwhile; open queries go on, and keep the table that they are of."""
        pairs = self.table.rows()
        columns, lists = moved_columns(self.columns, kinds, [list(numbers) for numbers in zip(*(numbers for _, numbers in pairs))])
        kept = [self.ids.outside(id) for id, _ in pairs]
        # An interruption may have come between an insert and the note of its id.
        return Opened(columns, Zipped(lists), {**self._options, "capacity": self.table.capacity}, Ids(kept, max([last, *kept[-1:]])))


def size_of_code_books(columns: Sequence[Column]) -> int:
    """About how many bytes the code books of columns take."""
    return sum(column.kind.size for column in columns if isinstance(column.kind, Texts))


def moved_columns(columns: Sequence[Column], kinds: Mapping[str, Kind], lists: List[List[int]]) -> Tuple[List[Column], List[List[int]]]:
    """Columns that have these kinds, where one is given, and their numbers; with code books of just the texts that there are."""
    moves = [moved(column, kinds.get(column.name, column.kind), numbers) for column, numbers in zip(columns, lists or [[] for _ in columns])]
    found = [column.of_kind(kind) for column, (kind, _) in zip(columns, moves)]
    for column, (_, numbers) in zip(found, moves):
        column.has_gaps = LEAST in numbers
    return found, [numbers for _, numbers in moves]


def moved(column: Column, kind: Kind, numbers: List[int]) -> Tuple[Kind, List[int]]:
    """The numbers of a column for another kind: one with more decimals, or the same with a code book of just the texts that the rows have."""
    if isinstance(column.kind, Texts):
        texts = Texts()
        codes = {number: number if number == LEAST else texts.read(column.kind.decode(number)) for number in dict.fromkeys(numbers)}
        return texts, [codes[number] for number in numbers]
    if not isinstance(column.kind, Whole) or not isinstance(kind, Decimals) or kind.decimals == column.kind.decimals:
        return column.kind, numbers
    by = kind.scale // column.kind.scale
    wrong = next((number for number in numbers if number != LEAST and not LEAST < number * by <= -LEAST - 1), None)
    if wrong is not None:
        raise ValueError(f"column {column.name!r} ({column.kind}): it has {column.kind.decode(wrong)}, and {kind.fits()}")
    return kind, [number if number == LEAST else number * by for number in numbers]
