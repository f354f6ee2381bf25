"""A question that was read, over more rows than one table holds: they are asked in parts on threads."""
import os
from concurrent.futures import ThreadPoolExecutor
from dataclasses import dataclass, field, replace
from typing import Any, List, Optional

from .columns import Column
from .partial import Partial
from .parts import Job, found_in, watched
from .reading import Progress
from .rows import Row
from .selection import Reading
from .widening import Segment

# Several parts are asked at once: small tables take less memory together, and what is left of them to be merged is little more.
ROWS_OF_A_PART = 16_384


@dataclass(frozen=True)
class Numbers(Job):
    """A question that was read, over parts of its rows, whose columns are numbers as they stand in the table below."""

    asked: Any = field(default=None, compare=False, repr=False)

    def read(self, partial: Partial, *, levels: Optional[int] = None) -> Reading:
        question = self.asked.question if levels is None else replace(self.asked.question, mode="top_level", count=levels)
        numbers = {id(column): segment.numbers for column, segment in zip(self.asked.columns, partial.asked)}
        return Reading.of(self.question, question, lambda column: numbers[id(column)])

    def rows_wanted(self) -> Optional[int]:
        return self.asked.question.count if self.asked.question.mode == "at_least" else None


def answered_in_parts(read: Reading, progress: Optional[Progress]) -> List[Row]:
    """The answer to a question over all of its rows, by level, then by id; the first row has the id 1."""
    segments = tuple(Segment.of(Column(name, "whole"), numbers, "the rows", is_given=True) for name, numbers in zip(read.names, read.lists))
    count = len(read.lists[0])
    rows = Partial(tuple(read.names), segments, count, range(count))
    pieces = [range(count)[begin:begin + ROWS_OF_A_PART] for begin in range(0, count, ROWS_OF_A_PART)]
    with ThreadPoolExecutor(os.cpu_count()) as pool:
        found = found_in(Numbers(read.text, asked=read), pieces, watched(pool.map, progress), first=lambda job: lambda piece: job.merge([rows.part(piece)]))
    return sorted(Row(level, place + 1, [numbers[place] for numbers in read.lists]) for level, place in zip(found.levels, found.rows.places))
