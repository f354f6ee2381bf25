"""Which rows of many partitions dominate a row of one of them."""
import csv
from dataclasses import dataclass, replace
from functools import partial as with_words
from typing import Any, Callable, List, NamedTuple, Optional, Sequence, Tuple

from .answer import Answer
from .errors import Refused, no_such_row
from .partial import Partial, together
from .parts import Job, in_partition, notes_of, records_left, waited_for
from .partition import Source, called
from .selection import Reading
from .sources import Opened, opened
from .warned import warn_of
from .widening import Segment
from .why import LEVELS, better, check_count
from .why import dominators as dominators_in

CHANGED = "a partition is another one than it was when the row was looked for: ask again"


class Rivals(NamedTuple):
    """Rows by their numbers, ascending, one of which, at the place of the target, may be dominated by others."""

    read: Reading
    numbers: List[int]
    target: int

    def ids(self) -> List[int]:
        """The numbers of the rows that dominate the target."""
        return [self.numbers[place] for place in better(self.read, self.target)]

    def dominators(self) -> List[Tuple[int, Optional[int]]]:
        """The same with their levels, None behind level 1000."""
        return [(self.numbers[place], level) for place, level in dominators_in(self.read, self.target)]


@dataclass(frozen=True)
class Rivalry(Job):
    """A job that looks for the rows that dominate one, the target."""

    def count(self, partition: Source) -> int:
        """How many rows a partition has."""
        return self._rows(partition)[1].count

    def target(self, partition: Source, place: int, id: int) -> Partial:
        """The row of a partition that has this number, from 0, and this id over all of them."""
        source, rows = self._rows(partition)
        if place >= rows.count:
            raise Refused(CHANGED, "table")
        if place not in rows.places:
            raise Refused(f"row {id} does not meet the condition", "arguments")
        return replace(rows.kept([rows.places.index(place)]), rows=(source.rows_at([place]),))

    def rivals(self, item: Tuple[Source, Partial, int]) -> Partial:
        """The rows of a partition that dominate the target, which has this number among its rows: less than 0, or more than there are, where it is in another."""
        partition, target, place = item
        source, rows = self._rows(partition)
        rivals = self.among(target, replace(rows, places=[place + 1 for place in rows.places]), place + 1)
        found = {id for some in rivals for id in some.ids()}
        left = rows.kept([at for at, place in enumerate(rows.places) if place + 1 in found])
        return replace(left, asked=tuple(segment.alone() for segment in left.asked), rows=(source.rows_at(left.places),))

    def among(self, target: Partial, rows: Partial, number: int) -> List[Rivals]:
        """The rivals of the target, which has this number, among rows whose numbers are their places; for each way in which they may turn out."""
        both = together([replace(target, rows=()), replace(rows, rows=())])
        if number in rows.places and any(segment.numbers[0] != segment.numbers[1 + rows.places.index(number)] for segment in both.asked):
            raise Refused(CHANGED, "table")
        return [_rivals(read, rows.places, number) for read in self.views(both)]

    def ways(self, partial: Partial) -> List[List[Segment]]:
        """All ways: what dominates a row in one of them may not in another, and none is to be missed."""
        return [segment.views() for segment in partial.asked]

    def _rows(self, partition: Source) -> Tuple[Opened, Partial]:
        try:
            source = opened(partition, self.reading)
            return source, self.loaded(source, called(partition))[0]
        except (Refused, TypeError, ValueError, csv.Error) as why:
            raise in_partition(why, partition) from None


def _rivals(read: Reading, places: Sequence[int], number: int) -> Rivals:
    """The rivals of the first row, which has this number, among the others, which have their places as numbers and may have the first one among them."""
    first, *others = zip(*read.lists)
    rows = sorted({**dict(zip(places, others)), number: first}.items())
    numbers = [other for other, _ in rows]
    return Rivals(read._replace(lists=list(zip(*(values for _, values in rows)))), numbers, numbers.index(number))


def dominators(job: Rivalry, sources: Sequence[Any], map: Callable[..., Any], id: int) -> Answer:
    """The rows that dominate the one with this id, by level and then by id."""
    [found] = map(list, [list(map(job.count, sources))])
    counts = waited_for(found)
    firsts = [sum(counts[:number]) for number in range(len(counts))]
    home = next((number for number, first in enumerate(firsts) if first < id <= first + counts[number]), None)
    if home is None:
        raise no_such_row(id)
    [found] = map(with_words(job.target, place=id - 1 - firsts[home], id=id), [sources[home]])
    target = waited_for(found)
    items: List[Any] = [(source, target, id - 1 - first) for source, first in zip(sources, firsts)]
    [found] = map(together, [list(map(job.rivals, items))])
    left = waited_for(found)
    check_count(len(left), f"row {id}")
    warn_of(left.absent.values())
    rivals, *_ = job.among(target, replace(left, places=[place + 1 for place in left.places]), id)
    levels = dict(rivals.dominators())
    left = left.kept([at for at, place in enumerate(left.places) if place + 1 in levels])
    columns, rows = records_left(left, [levels[place + 1] for place in left.places], job.reading)
    return Answer(job.question, columns, sorted(rows, key=lambda row: (row.level or LEVELS + 1, row.id)), notes=notes_of(left, columns, job.reading).values())
