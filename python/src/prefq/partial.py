"""What is left of the rows of some partitions: those that may be in the answer to a question, with the columns that it names."""
from array import array
from bisect import bisect_left
from dataclasses import dataclass, field, replace
from typing import Any, Dict, Iterable, Mapping, Sequence, Tuple

from .carried import Rows
from .errors import Refused
from .moment import Moment
from .widening import Segment, check_one_line_of_time, check_zones, joined

# The value of a question that no row of a column has, by the column's name and its text, and what is said of it.
Absent = Mapping[Tuple[str, str], str]
Words = Mapping[str, Mapping[str, int]]


@dataclass(frozen=True)
class Partial:
    """What is left of partitions that follow each other, in their order."""

    names: Tuple[Any, ...]          # of all columns of a row
    asked: Tuple[Segment, ...]      # the columns that the question and its ties name
    count: int                      # of all rows of these partitions
    places: Sequence[int]           # of the rows that are left among all these, from 0, ascending
    rows: Tuple[Rows, ...] = ()     # the rows that are left as they came, one source after the other; none where nobody wants them
    absent: Absent = field(default_factory=dict)
    words: Words = field(default_factory=dict)
    computed: Tuple[Segment, ...] = ()      # the columns of the condition and of expressions, without rows
    moments: Mapping[str, Tuple[str, ...]] = field(default_factory=dict)     # by column of times with a zone, the texts beside it that name none
    source: str = "the rows"        # what the first partition is called

    def __len__(self) -> int:
        return len(self.places)

    def part(self, piece: range) -> "Partial":
        """Rows that follow each other, where these are all of them and not yet fetched."""
        asked = tuple(segment._replace(numbers=segment.numbers[piece.start:piece.stop]) for segment in self.asked)
        return Partial(self.names, asked, len(piece), range(len(piece)))

    def kept(self, at: Sequence[int]) -> "Partial":
        """The same with only the rows that have these numbers among those left, ascending."""
        return replace(self, asked=tuple(segment.at(at) for segment in self.asked), places=array("q", [self.places[index] for index in at]),
                       rows=tuple(_rows_at(self.rows, at)))

    def moment(self) -> Moment:
        """The rows that are left, which messages call by their numbers, with the columns that are asked."""
        segments = {segment.column.name: segment for segment in self.asked}
        moment = Moment(list(segments), lambda name: (segments[name].column, segments[name].numbers), called=lambda number: self.places[number - 1] + 1)
        moment.has_all_values = False
        return moment


def together(partials: Sequence[Partial]) -> Partial:
    """The rows that are left of partitions that follow each other, before they are compared. Other columns are `Refused`."""
    first = partials[0]
    if len(partials) == 1:
        return first
    for other in partials[1:]:
        if set(first.names) != set(other.names):
            there = [f"{', '.join(map(str, some.names))} in {some.source}" for some in (first, other)]
            raise Refused(f"partitions have different columns: {' and '.join(there)}", "table")
    places, count = array("q"), 0
    for partial in partials:
        places.extend(count + place for place in partial.places)
        count += partial.count
    moments = {name: text for partial in partials for name, text in partial.moments.items()}

    def brought_together(segments: Sequence[Segment]) -> Segment:
        check_zones(segments, moments.get(segments[0].column.name, ()))
        return joined(segments)

    asked = tuple(map(brought_together, zip(*(partial.asked for partial in partials))))
    computed = []
    for segments in zip(*(partial.computed for partial in partials)):
        check_one_line_of_time(segments)
        computed.append(brought_together(segments))
    return Partial(first.names, asked, count, places, tuple(rows for partial in partials for rows in partial.rows), _absent_in_all(partials), _words_of(partials),
                   tuple(computed), moments, first.source)


def _rows_at(rows: Sequence[Rows], at: Sequence[int]) -> Iterable[Rows]:
    """Of rows of several sources those that have these numbers among all of them, ascending."""
    first = 0
    for some in rows:
        here = at[bisect_left(at, first):bisect_left(at, first + len(some))]
        yield some.at(place - first for place in here)
        first += len(some)


def _absent_in_all(partials: Sequence[Partial]) -> Absent:
    """The values that no row has: those that none of the parts has. What is said is longer where a value is meant that some row has."""
    keys = set.intersection(*(set(partial.absent) for partial in partials))
    return {key: max((partial.absent[key] for partial in partials), key=len) for key in partials[0].absent if key in keys}


def _words_of(partials: Sequence[Partial]) -> Words:
    found: Dict[str, Dict[str, int]] = {}
    for partial in partials:
        for name, counts in partial.words.items():
            of_name = found.setdefault(name, {})
            of_name.update((word, of_name.get(word, 0) + count) for word, count in counts.items())
    return found
