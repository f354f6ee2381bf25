"""The answer to a question: a list of records, and how it is shown, written and drawn."""
import csv
import datetime
import html
import json
import math
import os
from decimal import Decimal
from typing import Any, Callable, Iterable, List, Optional, Sequence, SupportsIndex, TextIO, Union, cast, overload

from .columns import Column
from .errors import Ended, Refused
from .records import Record
from .visible import SURROGATE, in_xml, visible, width

File = Union[str, "os.PathLike[str]", TextIO]
Target = Optional[File]
ROWS_SHOWN = 20
UTF_8 = "UTF-8"
ROWS_IN_A_NOTEBOOK = 200
WIDEST = 40
LINE_END = "\r\n"
ALL_CLIENTS_ASK = ("client", 3)
ON_THE_RIGHT = ' style="text-align: right"'


class Answer(List[Record]):
    """The rows of an answer, by level and then by id: a list of records, each with its `level` and `id`. A slice of it is an answer too.

    `question` is what was asked, `columns` are the columns of the rows, and `at` is the place in the database as of which a frame that follows it answered. At a
    prompt and in a notebook it is shown as a table.

    >>> import prefq
    >>> with prefq.Frame.from_records([{"City": "Lyon", "Price": 60}, {"City": "Bern", "Price": 90}]) as hotels:
    ...     answer = hotels.best("best low(Price)")
    >>> answer
    level  id  City  Price
        1   1  Lyon     60
    >>> answer[0].City, answer.levels
    ('Lyon', [1])
    >>> print(answer.to_csv(), end="")
    level,id,City,Price
    1,1,Lyon,60
    >>> print(answer.to_json(), end="")
    [{"level": 1, "id": 1, "City": "Lyon", "Price": 60}]
    """

    def __init__(self, question: str, columns: Iterable[Column], records: Iterable[Record], *, others: Optional[Callable[[], Iterable[Record]]] = None,
                 index: Optional[Callable[[Sequence[Record]], Any]] = None, at: Optional[int] = None, notes: Iterable[str] = ()) -> None:
        super().__init__(records)
        self.question = question
        self.columns = tuple(columns)
        self.at = at
        # What is to be known of how the data were read, where they were read for this answer.
        self.notes = list(notes)
        self._others = others
        self._index = index

    def __reduce__(self) -> Any:
        """An answer is copied and pickled without the frame that it came from."""
        return Answer, (self.question, self.columns, list(self)), {"at": self.at, "notes": self.notes}

    @overload
    def __getitem__(self, place: SupportsIndex) -> Record: ...

    @overload
    def __getitem__(self, place: slice) -> "Answer": ...

    def __getitem__(self, place: Union[SupportsIndex, slice]) -> Union[Record, "Answer"]:
        if not isinstance(place, slice):
            return super().__getitem__(place)
        part = type(self).__new__(type(self))
        part.extend(super().__getitem__(place))
        part.__dict__.update(self.__dict__)
        return part

    @property
    def names(self) -> List[str]:
        """The names of the columns."""
        return [column.name for column in self.columns]

    @property
    def ids(self) -> List[int]:
        """The id of each row."""
        return cast(List[int], [record.id for record in self])      # Each row of an answer has one.

    @property
    def levels(self) -> List[Optional[int]]:
        """The level of each row."""
        return [record.level for record in self]

    @property
    def heading(self) -> List[str]:
        """The names with those of level and id in front; with a point where the file has such a name itself."""
        def free(name: str) -> str:
            return free(f".{name}") if name in self.names else name

        return [free("level"), free("id"), *self.names]

    def cells(self, record: Record) -> List[str]:
        """A row as texts."""
        return [*("" if number is None else str(number) for number in (record.level, record.id)),
                *(column.text(record.get(column.name)) for column in self.columns)]

    def __repr__(self) -> str:
        more = len(self) - ROWS_SHOWN
        return self._lines(self[:ROWS_SHOWN]) + (f"\n.. and {more} rows more" if more > 0 else "")

    def to_text(self) -> str:
        """All rows as a table of text, for a person: long cells are cut, and signs that steer a terminal are shown as \\x1b and so on."""
        return self._lines(self)

    def _lines(self, records: Sequence[Record]) -> str:
        shown = [[_short(cell) for cell in row] for row in [self.heading, *map(self.cells, records)]]
        widths = [max(map(width, cells)) for cells in zip(*shown)]
        return "\n".join("  ".join(map(_padded, row, widths, self._are_numbers())).rstrip() for row in shown)

    def _are_numbers(self) -> List[bool]:
        """Whether each column of a table, level and id among them, has numbers, which stand on the right."""
        return [True, True, *(column.kind.name in ("whole", "decimal", "float") for column in self.columns)]

    def _repr_html_(self) -> str:
        more = len(self) - ROWS_IN_A_NOTEBOOK
        return self._table(self[:ROWS_IN_A_NOTEBOOK]) + (f"<p>.. and {more} rows more</p>" if more > 0 else "")

    def to_html(self) -> str:
        """All rows as a table of HTML."""
        return self._table(self)

    def _table(self, records: Sequence[Record]) -> str:
        begins = [ON_THE_RIGHT if is_number else "" for is_number in self._are_numbers()]

        def row(cells: Iterable[str], tag: str) -> str:
            return "<tr>" + "".join(f"<{tag}{begin}>{html.escape(in_xml(cell))}</{tag}>" for begin, cell in zip(begins, cells)) + "</tr>\n"

        head, body = row(self.heading, "th"), "".join(row(self.cells(record), "td") for record in records)
        return f'<table class="prefq">\n<caption>{html.escape(in_xml(self.question))}</caption>\n<thead>\n{head}</thead>\n<tbody>\n{body}</tbody>\n</table>'

    @overload
    def to_csv(self, target: None = None) -> str: ...

    @overload
    def to_csv(self, target: File) -> None: ...

    def to_csv(self, target: Target = None) -> Optional[str]:
        """Comma-separated values, with the names in front: into a file, or as a text where none is given. A text that the file's encoding does not have, as UTF-8
        no lone surrogate, is a ValueError that names its row, and the file is as it was."""
        lines = Lines()
        # With these line ends, each cell with a part of one stands in quotes.
        writer = csv.writer(lines, lineterminator=LINE_END)
        writer.writerow(self.heading)
        writer.writerows(map(self.cells, self))
        text = "".join(lines)
        if target is not None:
            self._check_writable(text, getattr(target, "encoding", None) or UTF_8, getattr(target, "errors", None) or "strict")
        return given(text, target)

    def _check_writable(self, text: str, encoding: str, errors: str) -> None:
        """Refuses what a file of this encoding cannot have, by its place."""
        def is_lost(some: str) -> bool:
            try:
                some.encode(encoding, errors)
            except UnicodeEncodeError:
                return True
            except LookupError:
                pass        # a codec of the file's own
            return SURROGATE.search(some) is not None

        if not is_lost(text):
            return
        name = next(filter(is_lost, self.names), None)
        if name is not None:
            raise ValueError(f"the name of column {self.names.index(name) + 1} is {name!r}, which {encoding} does not have")
        lost = (f"row {record.id}, column {name!r} is {cell!r}" for record in self for name, cell in zip(self.heading, self.cells(record)) if is_lost(cell))
        raise ValueError(f"{next(lost, 'the answer has a sign')}, which {encoding} does not have")

    @overload
    def to_json(self, target: None = None, *, indent: Optional[int] = None) -> str: ...

    @overload
    def to_json(self, target: File, *, indent: Optional[int] = None) -> None: ...

    def to_json(self, target: Target = None, *, indent: Optional[int] = None) -> Optional[str]:
        """A list of objects: into a file, or as a text where none is given. Decimals keep all their digits, dates are texts, and what is missing is null.
        Lone surrogates, which UTF-8 does not have, are written as \\ud800 and so on, as JSON has them."""
        apart, begin, end = (", ", "", "") if indent is None else (",\n" + 2 * indent * " ", "\n" + 2 * indent * " ", "\n" + indent * " ")
        line = "" if indent is None else "\n" + indent * " "
        objects = []
        for record in self:
            values = [record.level, record.id, *(record.get(name) for name in self.names)]
            pairs = [f"{json.dumps(name, ensure_ascii=False)}: {_json(value, self._column(place))}" for place, (name, value) in enumerate(zip(self.heading, values))]
            objects.append("{" + begin + apart.join(pairs) + end + "}")
        between = ", " if indent is None else f",{line}"
        text = "[" + (line if objects else "") + between.join(objects) + ("\n" if indent is not None and objects else "") + "]\n"
        return given(SURROGATE.sub(lambda found: f"\\u{ord(found[0]):x}", text), target)

    def _column(self, place: int) -> Optional[Column]:
        return self.columns[place - 2] if place >= 2 else None

    def to_dataframe(self) -> Any:
        """A DataFrame of pandas: a column `.level`, in place of one of the rows that is called so, then the columns of the rows; its index is that of the frame it
        came from, else the ids."""
        from .pandas_frames import dataframe_of
        return dataframe_of(self, self._index)

    def plot(self, x: Optional[str] = None, y: Optional[str] = None, ax: Any = None) -> Any:
        """Draws the rows by two columns, first of all the two that the question orders: by matplotlib (the axes are returned), or where that is not
        installed as a picture with `save(path)`, which a notebook shows."""
        from .plot import plotted
        return plotted(self, x, y, ax)

    @overload
    def to_svg(self, target: None = None, *, x: Optional[str] = None, y: Optional[str] = None) -> str: ...

    @overload
    def to_svg(self, target: File, *, x: Optional[str] = None, y: Optional[str] = None) -> None: ...

    def to_svg(self, target: Target = None, *, x: Optional[str] = None, y: Optional[str] = None) -> Optional[str]:
        """The same picture as SVG, without matplotlib: into a file, or as a text where none is given."""
        from .plot import svg_of
        return given(svg_of(self, x, y), target)

    def all_records(self) -> List[Record]:
        """The rows behind the answer, as they are now, where they can be had: not once the table has ended, nor while each of its clients has an open query. Else those
        of the answer."""
        try:
            return list(self if self._others is None else self._others())
        except (Ended, Refused) as why:
            if isinstance(why, Refused) and (why.kind, why.number) != ALL_CLIENTS_ASK:
                raise
            return list(self)


class Lines(List[str]):
    """What a `csv.writer` writes, each record with a line feed behind it."""

    def write(self, line: str) -> None:
        self.append(line[:-len(LINE_END)] + "\n")


def _padded(cell: str, places: int, right: bool) -> str:
    blanks = " " * (places - width(cell))
    return blanks + cell if right else cell + blanks


def _short(cell: str) -> str:
    line = visible(" ".join(cell.split()))
    return line if len(line) <= WIDEST else line[:WIDEST - 1] + "…"


def given(text: str, target: Target) -> Optional[str]:
    """The text, or None once it is written."""
    if target is None:
        return text
    if isinstance(target, (str, os.PathLike)):
        with open(target, "w", encoding="utf-8", newline="") as file:
            file.write(text)
    else:
        target.write(text)
    return None


def _json(value: Any, column: Optional[Column]) -> str:
    if value is None or isinstance(value, (bool, str, int)):
        return json.dumps(value, ensure_ascii=False)
    if isinstance(value, Decimal):
        return format(value, "f")
    if isinstance(value, float) and math.isfinite(value):
        return repr(float(value))
    if isinstance(value, (datetime.date, datetime.time)):
        return json.dumps(str(value))       # as ISO 8601 has it, whatever form the column's texts have
    return json.dumps(column.text(value) if column else str(value), ensure_ascii=False)
