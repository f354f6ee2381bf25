"""Questions about rows that are dealt to tables: each begins on all tables at one moment, and is answered while the rows change.

What the tables answer is merged as parts are: the levels 1 to n of all rows are those of the rows that have the levels 1 to n in their tables (`prefq.parts` says
why). What no table answers by itself, as a condition, is computed over all rows as they were at the begin.
"""
from dataclasses import replace
from itertools import chain
from typing import List, Sequence, Tuple, Union

from .columns import Column
from .condition_terms import RangeCondition, ReadCondition, condition_of, planned
from .dealt import Begun, Dealt, Found, ordered
from .moment import Moment, moment_of
from .parts import fitting
from .questions import Question
from .rows import ColumnarRows, Row, Zipped
from .selection import Selection, answered, first_of_each, picked, reading
from .table import ask_once
from .translate import Plan, bases_of, clause_of, plan

# So many levels are asked of tables for as many rows, by the number of base terms: more take longer than to read the rows that meet a condition.
MOST_LEVELS_FOR_ROWS = {1: 1000, 2: 32, 3: 10}


class AskedOfTables:
    """A question that each table answers, and of whose answer the first rows may be wanted. Of rows that are equal in the columns of a distinct clause, the one with
    the smallest key is in the answer: a table would take the one that came first."""

    def __init__(self, dealt: Dealt, text: str, question: Question, plans: Tuple[Plan, RangeCondition], selection: Selection) -> None:
        """`plans` are those of the question as the tables are asked it, without a distinct clause, and of its condition."""
        self.columns = dealt.columns
        self._count = len(dealt)
        self._text, self._selection = text, replace(selection, where=None)
        self._twins = [dealt.columns.index(column) for column in [*(base.column for base in clause_of(question.term)), *question.by]] if question.distinct else None
        self._plan = plan(text, replace(question, distinct=False), dealt.below)
        of_tables, self._condition = plans
        self.unknown = [*self._condition.unknown, *of_tables.unknown]
        self._names = list(dealt.below.values())
        self._text_of_parts = of_tables.text
        with of_tables.refusing():
            self._begun = Begun(dealt, of_tables.text)

    def answer(self) -> List[Found]:
        """The answer, by level and then by key. What is said of its values is `unknown` then."""
        parts = self._begun.answers()
        if self._condition.ranges:
            parts = [[row for row in part if self._condition.is_met(row.numbers)] for part in parts]
        rows = parts[0] if len(parts) == 1 else self._merged(list(chain.from_iterable(parts)))
        rows.sort(key=lambda row: (row.level, ordered(row.id)))
        twins = self._twins
        if twins is not None:
            rows = first_of_each(rows, lambda row: tuple(row.numbers[place] for place in twins))
        return rows if self._selection.top is None else self._first(rows)

    def _first(self, found: List[Found]) -> List[Found]:
        """The first rows of the answer that are wanted."""
        moment = moment_of(self.columns, lambda place: [row.numbers[place] for row in found], lambda number: repr(found[number - 1].id))
        read = reading(self._text, self._selection, moment)
        rows = [Row(row.level, number, list(values)) for number, (row, values) in enumerate(zip(found, zip(*read.lists)), 1)]
        first, absent_in_ties = picked(rows, read, self._selection, moment)
        self.unknown = [*self.unknown, *absent_in_ties]
        return [found[row.id - 1] for row in first]

    def _merged(self, rows: List[Found]) -> List[Found]:
        """The answer over the rows that the tables' answers have together. Refused where too many are left, and another pass has no use."""
        def asked(text: str, at: Sequence[int]) -> List[Row]:
            with self._plan.refusing():
                return ask_once(self._names, Zipped(list(zip(*(rows[number].numbers for number in at)))), text) if at else []

        at = fitting(len(rows), self._count, lambda some: [some[row.id - 1] for row in asked(self._text_of_parts, some)])
        return [rows[at[row.id - 1]]._replace(level=row.level) for row in asked(self._plan.text, at)]


class AskedOfRows:
    """A question that is computed over all rows as they were at its begin."""

    unknown: Sequence[str] = ()

    def __init__(self, dealt: Dealt, text: str, selection: Selection, condition: ReadCondition) -> None:
        self.columns = dealt.columns
        self._text, self._selection = text, selection
        self._begun = dealt.begin_all(condition.narrowing)

    def answer(self) -> List[Found]:
        """See `AskedOfTables.answer`."""
        pairs = self._begun.rows()
        moment = moment_of_keyed(self.columns, pairs)
        read = reading(self._text, self._selection, moment)
        rows, absent_in_ties = picked(answered(read, None, {}), read, self._selection, moment)
        self.unknown = [*read.unknown, *absent_in_ties]
        return [Found(row.level, *pairs[row.id - 1]) for row in rows]


Asked = Union[AskedOfTables, AskedOfRows]


def asked_of(dealt: Dealt, text: str, selection: Selection) -> Asked:
    """Begins a question, with what is asked beside it. No row may change meanwhile. Where tables are asked with a condition, more rows may be left of them than one holds
    (`RowsLeft`), though it could be answered by `asked_of_rows`."""
    question = selection.read(text, dealt.by_name.get, dealt.names)
    condition, asked = condition_of(selection.where, dealt), of_tables(question, len(dealt.tables))
    # What decides between equally good rows is asked of the answer.
    if replace(selection, where=None, ties=None).is_answered_by(question, dealt.columns) and (selection.where is None or is_of_few_levels(question, asked)):
        of_table = planned(text, asked, condition, dealt)
        if of_table is not None and condition.whole is not None:
            return AskedOfTables(dealt, text, question, (of_table, condition.whole), selection)
    return AskedOfRows(dealt, text, selection, condition)


def asked_of_rows(dealt: Dealt, text: str, selection: Selection) -> Asked:
    """The same, computed over the rows whatever the tables could be asked."""
    selection.read(text, dealt.by_name.get, dealt.names)
    return AskedOfRows(dealt, text, selection, condition_of(selection.where, dealt))


def is_of_few_levels(question: Question, asked: Question) -> bool:
    """Whether the tables are asked for no more levels than the question has. Where they are, but for a few, the rows that meet a condition are asked sooner: for
    4 levels at first, then for 16 and so on."""
    return asked.mode == question.mode or asked.count <= MOST_LEVELS_FOR_ROWS.get(len(bases_of(question.term)), 0)


def of_tables(question: Question, tables: int) -> Question:
    """What so many tables are asked for a question. Each level has a row, so the first k levels hold what `at_least k` wants of all rows."""
    plain = replace(question, distinct=False)
    return replace(plain, mode="top_level") if question.mode == "at_least" and tables > 1 else plain


def moment_of_keyed(columns: Sequence[Column], rows: ColumnarRows) -> Moment:
    """Rows of these columns as they are at one moment, which messages call by their keys."""
    return moment_of(columns, rows.column, lambda number: repr(rows[number - 1][0]))
