"""What is asked beside a question: exactly so many rows, which ones of those that are equally good, and groups; and the answer over the rows of a moment."""
from array import array
from collections import defaultdict
from contextlib import contextmanager
from dataclasses import dataclass, replace
from functools import partial
from typing import Any, Callable, Dict, Hashable, Iterable, Iterator, List, Mapping, NamedTuple, Optional, Sequence, Tuple, TypeVar, Union

from .checks import MOST_COLUMNS, MOST_ROWS, whole
from .columns import Column
from .computed import Computer
from .errors import Refused
from .expressions import Make, read_condition, read_frames_question, unmade
from .hints import MODES, unknown_column
from .intersection import Intersections, has_intersection
from .moment import Moment
from .preferences import Asked, Operand, text_of_condition, text_preferred
from .query import Query
from .questions import Mode, Question, names_asked_for, refuse, tokens_of
from .reading import Progress
from .rows import Row, Zipped
from .table import Table, ask_once
from .translate import Plan, bases_of, below, columns_in, plan, term_below, unknown_values
from .warned import warn_of

MOST_ROWS_ASKED = 1000
Names = Union[str, Iterable[str], None]
Levelled = TypeVar("Levelled", bound=Any)


@dataclass(frozen=True)
class Selection:
    """What is asked beside a question.

    `mode` is that of a text without one. Only rows that meet the condition `where` count. `top` is how many rows are wanted, in each group: the first ones by level,
    then by `ties`, a preference, and then in their order. `by` are the columns of the groups.
    """

    mode: Optional[Mode] = None
    where: Optional[str] = None
    top: Optional[int] = None
    ties: Optional[str] = None
    by: Tuple[str, ...] = ()

    @staticmethod
    def of(mode: Optional[Mode] = None, *, where: Optional[Operand] = None, top: Optional[int] = None, ties: Optional[Asked] = None, by: Names = None) -> "Selection":
        """The selection of these arguments of a call, which are refused where they are none."""
        if ties is not None and top is None:
            raise Refused("ties= says which rows of the last level are among the first ones: it needs top=", "arguments")
        rows = None if top is None else whole(top, "top", 1, MOST_ROWS_ASKED)
        return Selection(mode, None if where is None else text_of_condition(where), rows, None if ties is None else text_preferred(ties), names_of(by))

    def grouped(self, names: Sequence[str]) -> "Selection":
        """The same in groups of rows that are equal in these columns."""
        if self.by:
            raise Refused("the DataFrame has groups itself: leave out by= or the groupby", "arguments")
        return replace(self, by=tuple(names))

    def is_answered_by(self, question: Question, columns: Sequence[Column]) -> bool:
        """Whether a table of these columns answers a question that was read, so that nothing has to be computed over its rows."""
        there = set(map(id, columns))
        return self.where is None and self.ties is None and not has_intersection(question.term) and all(id(column) in there for column in columns_in(question))

    def read(self, text: str, column: Callable[[str], Optional[Column]], names: Sequence[str], make: Make = unmade) -> Question:
        """The tree of a question, with the groups and as many levels as are wanted; `make` makes the columns that are computed."""
        question = read_frames_question(text, column, names, self.mode, make)
        if self.by:
            if question.by:
                raise Refused("the question has groups itself: leave out by= or the groups of the question", "arguments")
            question = replace(question, by=tuple(known(name, column, names) for name in self.by))
        if self.top is not None and question.mode == "best" and not question.distinct:
            return replace(question, mode="at_least", count=self.top)
        return question

    def names(self, text: str, names: Sequence[str]) -> List[str]:
        """Those of these names that the question and what is asked beside it have."""
        return names_asked_for(names, partial(self.read, text, names=names), *self.reads_beside(names))

    def reads_beside(self, names: Sequence[str]) -> List[Callable[[Callable[[str], Optional[Column]]], object]]:
        """What reads the ties and the condition, where they are given, with what gives the column of a name."""
        found: List[Callable[[Callable[[str], Optional[Column]]], object]] = []
        if self.ties is not None:
            found.append(partial(read_ties, self.ties, names=names))
        if self.where is not None:
            found.append(partial(read_condition, self.where, names=names))
        return found


OF_TIES = Selection(("best", 1))


def names_of(by: Names) -> Tuple[str, ...]:
    """The names of columns, of which one may stand alone."""
    found = () if by is None else tuple(by) if isinstance(by, Iterable) and not isinstance(by, str) else (by,)
    for name in found:
        if not isinstance(name, str):
            raise TypeError(f"by is a name of a column or a list of them, not {name!r}")
    return found


def known(name: str, column: Callable[[str], Optional[Column]], names: Sequence[str]) -> Column:
    """The column of a name, which is refused where there is none."""
    found = column(name)
    if found is None:
        raise Refused(unknown_column(name, names), "arguments")
    return found


def without_twins(rows: List[Levelled], asked: Plan) -> List[Levelled]:
    """The rows of an answer; of those that are equal in the columns of a distinct clause, the first."""
    return rows if asked.twins is None else first_of_each(rows, values_in(asked.twins))


def first_of_each(rows: Iterable[Levelled], values_of: Callable[[Levelled], Hashable]) -> List[Levelled]:
    """Of rows that have the same values the first, in their order."""
    first: Dict[Hashable, Levelled] = {}
    for row in rows:
        first.setdefault(values_of(row), row)
    return list(first.values())


def values_in(names: Iterable[str]) -> Callable[[Row], Tuple[int, ...]]:
    """What gives the values of a row of an answer in columns of these names, as those of its group."""
    places = [int(name[1:]) for name in names]
    return lambda row: tuple(row.values[place] for place in places)


class Cut(NamedTuple):
    """The first rows of an answer, and the rows of each group that are equally good, of which only some more are wanted: so many."""

    first: List[Row]
    tied: List[Tuple[int, List[Row]]]

    @staticmethod
    def of(rows: Iterable[Row], top: int, group_of: Callable[[Row], Hashable]) -> "Cut":
        """Cuts an answer, which comes by level, behind the last whole level that has its place among the first `top` rows of each group."""
        groups: Dict[Hashable, List[Row]] = defaultdict(list)
        for row in rows:
            groups[group_of(row)].append(row)
        first: List[Row] = []
        tied: List[Tuple[int, List[Row]]] = []
        for group in groups.values():
            last = group[min(top, len(group)) - 1].level
            better = [row for row in group if row.level < last]
            first += better
            tied.append((top - len(better), [row for row in group if row.level == last]))
        return Cut(first, tied)

    def by_order(self) -> List[Row]:
        """The first rows, in their order, of those that are equally good."""
        return in_order([*self.first, *(row for wanted, rows in self.tied for row in rows[:wanted])])


def in_order(rows: Iterable[Row]) -> List[Row]:
    """Rows by level, then by id."""
    return sorted(rows, key=lambda row: (row.level, row.id))


def first_rows(rows: List[Row], asked: Plan, top: Optional[int]) -> List[Row]:
    """The first `top` rows of each group of an answer, those that are equally good in their order; all of them where it is None."""
    return rows if top is None else Cut.of(rows, top, values_in(asked.by)).by_order()


class Reading(NamedTuple):
    """A question as it is asked of the rows of a moment: its tree, its plan for a table of the columns c0, c1 and so on, and these."""

    text: str
    question: Question
    plan: Plan
    columns: List[Column]
    lists: List[Sequence[int]]
    absent: List[Tuple[Column, str]]        # each value in it that no row of a column has

    @staticmethod
    def of(text: str, question: Question, numbers: Callable[[Column], Sequence[int]], absent: Iterable[Tuple[Column, str]] = ()) -> "Reading":
        """A question over rows that have these numbers in a column."""
        columns = columns_in(question)
        asked = plan(text, question, below(columns))
        return Reading(text, question, asked, columns, [numbers(column) for column in columns], [*absent, *asked.absent])

    @staticmethod
    def over(moment: Moment, text: str, selection: Selection, levels: Optional[int] = None) -> "Reading":
        """A question over the rows of a moment that count, or in its place the one for so many levels."""
        computer, intersections = Computer(text, moment), Intersections(text, moment)
        question = intersections.replaced(selection.read(text, moment.column, moment.names, computer.column))
        if levels is not None:
            question = replace(question, mode="top_level", count=levels)
        return Reading.of(text, question, moment.numbers, [*computer.absent, *intersections.absent])

    @property
    def unknown(self) -> List[str]:
        """What is said of each value that no row has."""
        return unknown_values(self.absent)

    def at(self, places: Sequence[int]) -> "Reading":
        """The same of only the rows at these places, from 0."""
        if isinstance(places, range):
            return self._replace(lists=[numbers[places.start:places.stop:places.step] for numbers in self.lists])
        return self._replace(lists=[array("q", map(numbers.__getitem__, places)) for numbers in self.lists])

    @contextmanager
    def refusing(self) -> Iterator[None]:
        """Has what a table of these columns refuses refused at its place in the question; so are more columns than it has."""
        check_width(self.text, self.question, self.columns)
        with self.plan.refusing():
            yield

    @property
    def names(self) -> List[str]:
        """The names of the columns in the table."""
        return list(below(self.columns).values())

    @property
    def term(self) -> str:
        """The term as the table reads it."""
        return term_below(self.text, self.question.term, below(self.columns))

    def lists_of(self, names: Iterable[str]) -> List[Sequence[int]]:
        """The numbers of the columns of these names."""
        return [self.lists[int(name[1:])] for name in names]


def check_width(text: str, question: Question, columns: Sequence[Column]) -> None:
    """Refuses a question of more columns and expressions than a table has, at the first one that it would not have."""
    if len(columns) > MOST_COLUMNS:
        further = set(map(id, columns[MOST_COLUMNS:]))
        place = next((base.place for base in bases_of(question.term) if id(base.column) in further), len(text))
        refuse(text, place, f"{len(columns)} columns and expressions are asked, and a table has {MOST_COLUMNS}")


def reading(text: str, selection: Selection, moment: Moment) -> Reading:
    """Reads a question over the rows of a moment, of which those count from now on that meet the condition; what decides between equally good ones is read too."""
    absent = kept(selection, moment)
    read = Reading.over(moment, text, selection)
    if selection.ties is not None:
        plan_of_ties(selection.ties, moment.column, moment.names)
    return read._replace(absent=[*absent, *read.absent])


def selected(text: str, selection: Selection, moment: Moment, *, progress: Optional[Progress] = None, **options: Any) -> List[Row]:
    """The rows of an answer over the rows of a moment that count, with the numbers of the columns that the question names."""
    read = reading(text, selection, moment)
    answer = answered(read, progress, options)
    rows, absent_in_ties = picked(answer, read, selection, moment, options)
    warn_of([*read.unknown, *absent_in_ties])
    return rows


def answered(read: Reading, progress: Optional[Progress], options: Mapping[str, Any]) -> List[Row]:
    """The answer to a question that was read. More rows than one table holds are asked in parts, whose tables are as they need to be."""
    rows = Zipped(read.lists)
    if len(rows) > MOST_ROWS:
        check_width(read.text, read.question, read.columns)
        from .many import answered_in_parts
        return answered_in_parts(read, progress)
    with read.refusing():
        return ask_once(read.names, rows, read.plan.text, progress=progress, **options)


def query_of(read: Reading) -> Query:
    """Begins the query of a question over the rows of a moment, in a table of their own. There are no more of them than it holds."""
    with read.refusing():
        return Table(read.names, Zipped(read.lists), clients=1, capacity=max(1, len(read.lists[0]))).query(read.plan.text)


def picked(answer: List[Row], read: Reading, selection: Selection, moment: Moment, options: Mapping[str, Any] = {}) -> Tuple[List[Row], List[str]]:
    """The rows of the answer to a question over the rows of a moment, by their ids there: those that are selected; and what is said of the values of the ties."""
    rows = [row._replace(id=moment.id(row.id)) for row in without_twins(answer, read.plan)]
    if selection.top is None or selection.ties is None:
        return first_rows(rows, read.plan, selection.top), []
    return with_ties(Cut.of(rows, selection.top, values_in(read.plan.by)), selection.ties, [column.name for column in read.question.by], moment, options)


def kept(selection: Selection, moment: Moment) -> List[Tuple[Column, str]]:
    """Keeps the rows that meet the condition, and returns each value in it that no row of a column has."""
    if selection.where is None:
        return []
    computer = Computer(selection.where, moment)
    condition = read_condition(selection.where, moment.column, moment.names)
    moment.keep(computer.met(condition))
    return computer.absent


def read_ties(ties: str, column: Callable[[str], Optional[Column]], names: Sequence[str]) -> Question:
    """The tree of what decides between rows that are equally good. What is no preference is refused."""
    question = OF_TIES.read(ties, column, names)
    if has_mode(ties) or question.by:
        refuse(ties, tokens_of(ties)[0].place, "what decides between rows that are equally good is a preference, as low(x), without best, top_level and so on, and without groups")
    return question


def has_mode(text: str) -> bool:
    """Whether a text begins with a mode, as best, and so is a question and no preference."""
    first = tokens_of(text)[0]
    return first.kind == "word" and first.text.lower() in MODES


def plan_of_ties(ties: str, column: Callable[[str], Optional[Column]], names: Sequence[str]) -> Plan:
    """Refuses what is no preference over these columns, also where no rows are equally good, so that it is not asked."""
    question = read_ties(ties, column, names)
    columns = columns_in(question)
    check_width(ties, question, columns)
    return plan(ties, question, below(columns))


def with_ties(cut: Cut, ties: str, by: Sequence[str], moment: Moment, options: Mapping[str, Any]) -> Tuple[List[Row], List[str]]:
    """The first rows, of those that are equally good the ones that a preference likes best, and of these the first in their order; and what is said of its values."""
    crowded = [(wanted, rows) for wanted, rows in cut.tied if len(rows) > wanted]
    if not crowded:
        return cut.by_order(), []
    some = moment.only(sorted(row.id for _, rows in crowded for row in rows))
    selection = Selection(("at_least", max(wanted for wanted, _ in crowded)), by=tuple(by))
    read = reading(ties, selection, some)
    answer, _ = picked(answered(read, None, options), read, selection, some)
    places = {row.id: place for place, row in enumerate(answer)}

    def liked(row: Row) -> int:
        return places.get(row.id, len(places))

    rows = in_order([*cut.first, *(row for wanted, rows in cut.tied for row in sorted(rows, key=liked)[:wanted])])
    return rows, read.unknown if moment.has_all_values else []
