"""More rows than one table holds: a question over many partitions, by any engine that maps a function over a list.

>>> from concurrent.futures import ThreadPoolExecutor
>>> from prefq import parts
>>> january = parts.Partition(["hotel", "price", "dist"], [["Ritz", 49.5, 8], ["Anna", 80, 2]])
>>> february = parts.Partition(["hotel", "price", "dist"], [["Post", 60, 5], ["Park", None, 2]])
>>> with ThreadPoolExecutor() as pool:
...     parts.best([january, february], "best low(price)", map=pool.map)
level  id  hotel  price  dist
    1   1  Ritz    49.5     8

Each partition is asked in a table of its own where the engine runs the function, and the question is asked again of what the partitions have left, eight of them
at a time, until one table holds it. A partition's result is its columns that the question names as whole numbers with their kinds, and its rows: parts may have a
column in different kinds, which are brought together in the one that has the values of all (`prefq.widening`). What is computed is computed anew of them each time.

Why that is exact: the level of a row is the length of the longest chain of rows, each of which dominates the next, that ends in it. In a part there are no
longer chains than in the whole, so a row of the levels 1 to n of the whole is in the levels 1 to n of each part that has it. And such a chain up to its n-th row
lies in the levels 1 to n, so it is among what the parts' levels 1 to n put together are: there each of these rows has its level of the whole, and every other
one a level behind n. So what parts have left may be a part in turn, to any depth (`pref_sky::laws::levels_of_parts`). Rows of different groups are never
compared, so a group may lie in many parts. Of equal rows, of which `skyline of distinct` keeps one, the one with the smallest id dominates the others here, and
ids follow the order of the partitions in every part and every merge.
"""
import builtins
import csv
import os
from collections import Counter
from dataclasses import dataclass, field, replace
from functools import partial
from itertools import chain
from typing import Any, Callable, Dict, Iterable, Iterator, List, Optional, Sequence, Tuple
from uuid import uuid4

from .answer import Answer
from .carried import CellRows, column_of
from .checks import MOST_IDS, MOST_ROWS, whole
from .columns import Column
from .conditions import absent_in, moments_in, names_in, not_refused, rows_that_meet, views_of, ways_of
from .errors import Refused, placed
from .expressions import Node, read_condition, unmade
from .loading import records_of
from .missing import Missing, folded, note_of
from .partial import Absent, Partial, together
from .partition import Numbered, Partition, Reading, Source, called, is_of_dask, mapped, numbered, partitions_in, partitions_of
from .preferences import Asked as AskedFor, Operand, text_asked
from .questions import Question
from .reading import Progress, check_names
from .records import Record
from .rows import Row, Zipped
from .selection import Names, Reading as QuestionRead, Selection, picked, plan_of_ties, without_twins
from .sources import Opened, opened
from .table import ask_once
from .warned import warn_of
from .widening import Nothing, Segment, Undecided, as_in_a_frame

MERGED = 8                 # partial results that one merge takes
SHRINKS = 15 / 16          # rows that may be left of all rows where asking piece by piece goes on
Map = Callable[..., Iterable[Any]]

__all__ = ["Found", "Job", "Partial", "Partition", "RowsLeft", "best", "why"]


class RowsLeft(Refused):
    """More rows are left than one table holds, after each part was asked: too few rows dominate others. `left` of `count` rows are left.

    >>> RowsLeft(70_000, 1_000_000).left
    70000
    """

    def __init__(self, left: int, count: int) -> None:
        super().__init__(f"{left} rows of {count} are left after each part was asked, and one table holds {MOST_ROWS}: too few rows dominate others. Put what "
                         "matters most before an &, leave out columns or groups, or ask for fewer levels", "parts")
        self.left, self.count = left, count

    def __reduce__(self):  # type: ignore[no-untyped-def]
        return type(self), (self.left, self.count)


@dataclass(frozen=True)
class Found:
    """The rows of an answer, in order of their ids, each with its level; and whether it is that of the question: where it is not, too few levels were asked for."""

    rows: Partial
    levels: Sequence[int]
    is_whole: bool


@dataclass(frozen=True)
class Job:
    """A question over partitions as three functions that an engine can run anywhere; a job can be pickled, and so can what its methods return.

    `levels` is how many levels the parts are asked for, where the question itself does not say it (`at_least`); `selection` is what is asked beside the question;
    `reading` is how the partitions are read. The library is found where the job runs, by `prefq.find_library`.

    No two jobs are the same to an engine that keeps results by what they were made of, as Dask does: each job reads its files anew.

    >>> job = Job("best low(price)")
    >>> found = job.answer([job.part(Partition(["price"], [[7], [5]])), job.part(Partition(["price"], [[6], ["5"]]))])
    Traceback (most recent call last):
    prefq.errors.Refused: row 2, column 'price' has values of int and str, as '5': ...
    >>> found = job.answer([job.part(Partition(["price"], [[7], [5]])), job.part(Partition(["price"], [[6], [5]]))])
    >>> list(found.rows.places), found.levels, found.is_whole
    ([1, 3], [1, 1], True)
    """

    question: str
    levels: Optional[int] = None
    selection: Selection = Selection()
    reading: Reading = Reading()
    call: str = field(default_factory=lambda: uuid4().hex, compare=False, repr=False)

    def of_levels(self, levels: int) -> "Job":
        """Another job, which asks the parts for so many levels."""
        return replace(self, levels=levels, call=uuid4().hex)

    def part(self, partition: Source) -> Partial:
        """What is left of one partition: the first function, to be mapped over all of them."""
        try:
            source = opened(partition, self.reading)
            left = self._narrowed(*self.loaded(source, called(partition)))
            return replace(left, asked=tuple(segment.alone() for segment in left.asked), rows=(source.rows_at(left.places),))
        except (Refused, TypeError, ValueError, csv.Error) as why:
            raise in_partition(why, partition) from None

    def merge(self, partials: Sequence[Partial]) -> Partial:
        """What is left of the partitions of these partial results, which follow each other: associative, but their order counts."""
        left = together(partials)
        return self._narrowed(left, self.views(left))

    def merge_two(self, first: Partial, second: Partial) -> Partial:
        """`merge` of two, as engines with a reduction of their own want it."""
        return self.merge([first, second])

    def answer(self, partials: Sequence[Partial]) -> Found:
        """The answer over all partitions."""
        left = together(partials)
        if len(left) > MOST_ROWS:
            left = left.kept(fitting(len(left), left.count, partial(_left, self.views(left))))
        left = replace(left, asked=tuple(map(as_in_a_frame, left.asked)))
        if not left.count:
            return Found(left, [], True)
        read = self.read(left)
        found = sorted((at, level) for level, at in _ask(read))
        places, levels = [at for at, _ in found], [level for _, level in found]
        read = read.at(places)
        whole = Found(left.kept(places), levels, self._is_whole(read, levels))
        return whole if self.selection.top is None or not whole.is_whole else self._first(whole, read)

    def _first(self, found: Found, read: QuestionRead) -> Found:
        """The first rows of an answer of whole levels: those of which so many are wanted."""
        moment = found.rows.moment()
        if self.selection.ties is not None:
            plan_of_ties(self.selection.ties, moment.column, moment.names)
        rows = sorted(Row(level, place, list(values)) for place, (level, *values) in enumerate(zip(found.levels, *read.lists), 1))
        levels = {row.id - 1: row.level for row in picked(rows, read, self.selection, moment)[0]}
        return Found(found.rows.kept(sorted(levels)), [levels[place] for place in sorted(levels)], True)

    def loaded(self, source: Opened, what: str) -> Tuple[Partial, List[QuestionRead]]:
        """The rows of a source that meet the condition, with the columns that the question and its ties name, and what is asked of them."""
        names = [name for name in source.names if isinstance(name, str)]
        source.load(self.selection.names(self.question, names))
        segments: Dict[str, Segment] = {}

        def column(name: str) -> Optional[Column]:
            if name in source.names and name not in segments:
                segments[name] = Segment.of(*source.column(name), what, is_given=name in self.reading.kinds, has_words=source.has_words)
            return segments[name].column if name in segments else None

        question, nodes = self._nodes_in(column, names)
        for read in self.selection.reads_beside(names):
            read(column)
        asked = tuple(segments[name] for name in replace(self.selection, where=None).names(self.question, names))
        words = {**source.words, **{segment.column.name: segment.words() for segment in asked if segment.words()}}
        left = Partial(source.names, asked, source.count, range(source.count), words=words, source=what)
        try:
            absent: Absent = {}
            if self.selection.where is not None:
                nodes.append(read_condition(self.selection.where, column, names))
                places, absent = rows_that_meet(self.selection.where, nodes[-1], segments, source.count)
                left = left.kept(places)
            views = self.views(left)
        except Refused as why:      # by the values of a column, so it says in which file
            raise Refused(f"{what}: {why.args[0]}", why.kind, why.number, why.place, why.question) from None
        absent = {**self._absent_in_ties(column, names), **absent_in(views[0].absent), **absent}
        computed = tuple(segments[name].without_rows() for name in names_in(nodes))
        return replace(left, absent=absent, computed=computed, moments=moments_in(nodes, question.term)), views

    def _nodes_in(self, column: Callable[[str], Optional[Column]], names: Sequence[str]) -> Tuple[Question, List[Node]]:
        """The tree of the question, and the expressions in it."""
        nodes: List[Node] = []

        def noted(node: Node, text: str, place: int) -> Column:
            nodes.append(node)
            return unmade(node, text, place)

        return self.selection.read(self.question, column, names, noted), nodes

    def _absent_in_ties(self, column: Callable[[str], Optional[Column]], names: Sequence[str]) -> Absent:
        """The values of the ties that no row here has in a column, which is none that is computed; none where these columns do not take the ties, of which all parts
        decide together."""
        try:
            absent = () if self.selection.ties is None else plan_of_ties(self.selection.ties, column, names).absent
        except Refused:
            return {}
        return absent_in((found, text) for found, text in absent if column(found.name) is found)

    def views(self, partial: Partial) -> List[QuestionRead]:
        """What the parts are asked of each way in which these rows may turn out, of which one at least has to take the question. `at_least` counts rows of the
        whole, so parts are asked for levels."""
        return not_refused(lambda asked: self.read(replace(partial, asked=tuple(asked)), levels=self.levels), views_of(partial, self.ways(partial)))

    def ways(self, partial: Partial) -> List[List[Segment]]:
        """The ways in which each column may turn out that are tried."""
        if not any(isinstance(segment.column.kind, Undecided) for segment in partial.asked):
            return [[segment] for segment in partial.asked]
        columns = {segment.column.name: Column(segment.column.name, Nothing()) if isinstance(segment.column.kind, Undecided) else segment.column for segment in partial.asked}
        question, nodes = self._nodes_in(columns.get, list(columns))
        return [ways_of(segment, question, names_in(nodes)) for segment in partial.asked]

    def read(self, partial: Partial, *, levels: Optional[int] = None) -> QuestionRead:
        """The question over these rows, or the one that asks for so many levels in its place. What it computes is computed anew, of the columns as they are here."""
        return QuestionRead.over(partial.moment(), self.question, self.selection, levels)

    def _narrowed(self, rows: Partial, views: List[QuestionRead]) -> Partial:
        """Asks for the levels. What may be left by any view stays: a row too many lies behind the levels that are asked for, there as in the whole, and changes none
        of them."""
        at = narrowed(len(rows), partial(_left, views))
        return rows.kept(_left(views, at) if len(at) <= MOST_ROWS else at)

    def _is_whole(self, read: QuestionRead, levels: Sequence[int]) -> bool:
        """Whether an answer of `at_least k` over the rows that are left is that over all rows.

        Let j be `levels`. What is left contains the levels 1 to j of each group of the whole, and these are its own levels 1 to j too. `at_least k` takes the
        levels 1 to m of a group: as few as have k rows together, or else all.

        - If m is less than j, it takes the same from the whole: a level m + 1 of the whole would be here as well.
        - If m is j and these levels have k rows, it takes the same from the whole, which has the same levels 1 to j.
        - Otherwise the whole may have further levels that count, and more have to be asked for.

        Each level has a row, so m is at most k, and k levels have k rows: where j is k, one of the first two cases holds.
        """
        if self.levels is None:
            return True
        counts: Dict[Tuple[int, ...], int] = {}
        deepest: Dict[Tuple[int, ...], int] = {}
        groups = list(zip(*read.lists_of(read.plan.by))) or [()] * len(levels)
        for group, level in zip(groups, levels):
            counts[group] = counts.get(group, 0) + 1
            deepest[group] = max(deepest.get(group, 0), level)
        return all(deepest[group] < self.levels or deepest[group] == self.levels and counts[group] >= read.question.count for group in counts)

    def tries(self) -> Iterator["Job"]:
        """The jobs to try, in turn: `at_least k` asks for 4, 16, 64 levels and so on, at most k, since k levels hold k rows and mostly a few do."""
        wanted = self.rows_wanted()
        if wanted is None:
            yield self
            return
        levels = 4
        while levels < wanted:
            yield self.of_levels(levels)
            levels *= 4
        yield self.of_levels(wanted)

    def rows_wanted(self) -> Optional[int]:
        """The count of `at_least`; None where the question is another one, or is refused."""
        try:
            question = self.selection.read(self.question, lambda name: Column(name, Nothing()), ["x"])
        except Refused:
            return None
        return question.count if question.mode == "at_least" else None


def best(partitions: Iterable[Source], question: AskedFor, *, where: Optional[Operand] = None, top: Optional[int] = None, ties: Optional[AskedFor] = None, by: Names = None,
         map: Callable[..., Any] = map, reduce: Optional[Callable[..., Partial]] = None, **options: Any) -> Answer:
    """The answer over the rows of all partitions, whose ids are their numbers in the order of the partitions, from 1.

    A partition is the path of a CSV file, read where it is asked, a `Partition` with rows or a DataFrame of pandas; each has the same columns. Only those that
    the question names are understood, each in the kind that this partition's values have, or the one of `kinds`; a DataFrame of Dask takes the place of the list,
    and is asked by Dask's own scheduler. `map(function, items)` returns the results in the order of the items, or Dask's futures of them: `map` of a
    `concurrent.futures` or `mpi4py.futures` executor and of a `dask.distributed` client are such functions. Partial results are merged by a tree of further maps,
    or by `reduce(function of two, results)`, if it is given. The question, `where`, `top`, `ties` and `by` are those of `Frame.best`: the condition is computed in
    each part, and rows that are equally good come in the order of the partitions. `kinds`, `missing`, `encoding`, `delimiter`, `decimal`, `thousands`, `skip` and
    `null_padding` are those of `Frame.from_csv`.

    What is wrong with a question, a value or a kind is `Refused`, or a `TypeError` or `ValueError` that names the file. `RowsLeft` says that the answer, or what
    has to be compared for it, is larger than one table. A file counts as it was at one moment of the call, each at its own: `at_least` may read all of them
    several times, and answers by the last reading alone. A file that is written to while it is read is refused.

    >>> january = Partition(["hotel", "price", "dist"], [["Ritz", 50, 8], ["Anna", 80, 2]])
    >>> february = Partition(["hotel", "price", "dist"], [["Post", 60.5, 5], ["Park", None, 2]])
    >>> best([january, february], "best low(price) * low(dist)")
    level  id  hotel  price  dist
        1   1  Ritz    50.0     8
        1   2  Anna    80.0     2
        1   3  Post    60.5     5
    """
    job = Job(text_asked(question), selection=Selection.of(where=where, top=top, ties=ties, by=by), reading=Reading.of(options, "prefq.parts.best"))
    sources, engine = _sources(partitions, map, reduce)
    return answer_of(found_in(job, sources, engine, reduce), job)


def why(partitions: Iterable[Source], id: int, question: AskedFor, *, where: Optional[Operand] = None, by: Names = None, map: Callable[..., Any] = map,
        **options: Any) -> Answer:
    """The rows that dominate the one with this id in a question, each with its own level (None behind level 1000), as `Frame.why` has them. What it takes is as
    with `best`, and so is what is refused; 65,536 rows at most may dominate it. The partitions are read three times: one that is another meanwhile is refused.

    >>> january = Partition(["hotel", "price", "dist"], [["Ritz", 50, 8], ["Anna", 80, 9]])
    >>> february = Partition(["hotel", "price", "dist"], [["Post", 60.5, 5], ["Park", None, 2]])
    >>> why([january, february], 2, "best low(price) * low(dist)")
    level  id  hotel  price  dist
        1   1  Ritz    50.0     8
        1   3  Post    60.5     5
    """
    from .why_parts import Rivalry, dominators
    job = Rivalry(text_asked(question), selection=Selection.of(where=where, by=by), reading=Reading.of(options, "prefq.parts.why"))
    return dominators(job, *_sources(partitions, map), whole(id, "id", 0, MOST_IDS))


def _sources(partitions: Any, map: Callable[..., Any], reduce: Any = None) -> Tuple[List[Any], Callable[..., Any]]:
    """The partitions, and the engine that asks them: of a DataFrame of Dask its own scheduler."""
    if is_of_dask(partitions):
        if map is not builtins.map or reduce is not None:
            raise TypeError("a DataFrame of Dask is asked by Dask's own scheduler: leave out map= and reduce=")
        return partitions_in(partitions), mapped
    sources = partitions_of(partitions)
    if not sources:
        raise ValueError("there is no partition")
    return sources, map


def found_in(job: Job, items: Sequence[Any], map: Callable[..., Any], reduce: Optional[Callable[..., Partial]] = None, *,
             first: Callable[[Job], Callable[[Any], Partial]] = lambda job: job.part) -> Found:
    """The rows of the answer over these partitions, or over other things of which the `first` function of a job makes partial results."""
    for tried in job.tries():
        found = merged(tried, list(map(first(tried), items)), map, reduce)
        if found.is_whole:
            break
    return found


def merged(job: Job, partials: List[Any], map: Callable[..., Any], reduce: Optional[Callable[..., Partial]] = None) -> Found:
    """The answer over what partitions have left, by a tree of maps or by a reduction of one's own."""
    if reduce is not None:
        partials = [reduce(job.merge_two, partials)]
    while len(partials) > MERGED:
        partials = list(map(job.merge, [partials[begin:begin + MERGED] for begin in range(0, len(partials), MERGED)]))
    [found] = map(job.answer, [partials])
    return waited_for(found)    # type: ignore[no-any-return]


def waited_for(found: Any) -> Any:
    """What an engine has computed: Dask gives something that is still to be done, or a future."""
    if hasattr(found, "compute"):
        return found.compute()
    return found.result() if hasattr(found, "result") else found


def answer_of(found: Found, job: Job) -> Answer:
    """The rows of an answer as records, by level and then by id."""
    warn_of(found.rows.absent.values())
    columns, rows = records_left(found.rows, found.levels, job.reading)
    return Answer(job.question, columns, sorted(rows, key=lambda row: (row.level, row.id)), notes=notes_of(found.rows, columns, job.reading).values())


def notes_of(left: Partial, columns: Sequence[Column], reading: Reading) -> Dict[str, str]:
    """What is to be known of how each column was read: which words are missing in all rows, or in these where the question does not name it."""
    missing, found = Missing(reading.missing), {}
    for column in columns:
        words = missing.in_a_column_of(column.kind) - {""}
        cells = chain.from_iterable(rows.values(column.name) for rows in left.rows if isinstance(rows, CellRows))
        counts = {word: count for word, count in (left.words.get(column.name) or Counter(cells)).items() if folded(word) in words}
        if counts:
            found[column.name] = note_of(column.name, counts)
    return found


def records_left(left: Partial, levels: Sequence[Optional[int]], reading: Reading) -> Tuple[List[Column], List[Record]]:
    """The columns and the records of these rows, which have these levels."""
    by_name = {segment.column.name: segment for segment in left.asked}
    _check_names(left)
    segments = [by_name.get(name) or column_of(left.rows, name, reading, [place + 1 for place in left.places]) for name in left.names]
    columns = [segment.column for segment in segments]
    numbers = zip(*(segment.numbers for segment in segments))
    return columns, records_of(columns, [(level, place + 1, row) for level, place, row in zip(levels, left.places, numbers)])


def _check_names(left: Partial) -> None:
    """Refuses names of columns that records cannot have, with the number of the partition that has them."""
    for number, rows in enumerate(left.rows, 1):
        try:
            check_names(rows.names)
        except (Refused, TypeError) as why:
            raise in_partition(why, numbered(None, number)) from None


def _ask(read: QuestionRead) -> List[Tuple[int, int]]:
    """The level and the number, from 0, of each row that answers a question."""
    rows = Zipped(read.lists)
    if not rows:
        return []
    with read.refusing():
        found = ask_once(read.names, rows, read.plan.text)
    return [(row.level, row.id - 1) for row in without_twins(found, read.plan)]


def _left(views: Sequence[QuestionRead], at: Sequence[int]) -> List[int]:
    """Which of these rows, as many as one table holds, are in the answer of some view, in their order."""
    return [at[place] for place in sorted({place for view in views for _, place in _ask(view.at(at))})]


def narrowed(count: int, left: Callable[[Sequence[int]], Iterable[int]]) -> Sequence[int]:
    """The numbers, from 0, of the rows that are left of so many where each table is asked which are `left` of its own, and again of what is left, while that is more
    than one table holds and clearly shrinks."""
    rows: Sequence[int] = range(count)
    while len(rows) > MOST_ROWS:
        tables = -(-len(rows) // MOST_ROWS)
        # They are dealt out in turn, so that rows of all partitions meet in each table.
        fewer = sorted(row for number in range(tables) for row in left(rows[number::tables]))
        if len(fewer) > SHRINKS * len(rows):
            return fewer
        rows = fewer
    return rows


def fitting(count: int, of: int, left: Callable[[Sequence[int]], Iterable[int]]) -> Sequence[int]:
    """The same, which is refused where more are left than one table holds; there are so many rows in all."""
    rows = narrowed(count, left)
    if len(rows) > MOST_ROWS:
        raise RowsLeft(len(rows), of)
    return rows


def in_partition(why: Exception, partition: Source) -> Exception:
    """What is wrong with the rows of a file, with its path, or with those of another partition, with its number."""
    if not isinstance(partition, (str, os.PathLike, Numbered)) or isinstance(why, Refused) and why.kind != "table" or called(partition) in str(why):
        return why
    return placed(f"{called(partition)}: ", why)


def watched(map: Map, progress: Optional[Progress]) -> Map:
    """The same map, which calls `progress` with "comparing", how many items are done, and how many there are."""
    def mapped(function: Callable[[Any], Any], items: Iterable[Any]) -> List[Any]:
        asked = list(items)
        found = []
        for result in map(function, asked):
            found.append(result)
            if progress:
                progress("comparing", len(found), len(asked))
        return found

    return mapped
