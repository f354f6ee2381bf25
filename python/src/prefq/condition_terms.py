"""A condition as terms of a table, by which the rows that meet it are equally good, and better than all others.

Where they stand before an &, a question about all rows has the answer of one about the rows that meet the condition, and other rows behind it: none of those dominates
a row that meets it, and each of those is dominated by all that meet it in its group. So the rows that meet it have the levels that they have among themselves, and
the others are left out of the answer.

Each part of the condition is to be about one column and values that are written, so that it says in which ranges of numbers that column is. Another condition is
computed over all rows (`computed`).
"""
from collections import defaultdict
from dataclasses import dataclass, replace
from itertools import accumulate, chain, islice
from typing import Dict, Iterable, List, Mapping, Optional, Sequence, Tuple

from .checks import LEAST, MOST
from .columns import Column
from .computed import Computer
from .errors import Refused
from .expressions import FUNCTIONS, Comparison, Literal, Named, Node, Operation, columns_of, read_condition
from .kinds import Floats
from .moment import moment_of
from .opened import Columns
from .questions import Question
from .ranges import Ranges, complement, intersection, numbers_in, size
from .translate import Plan, plan, unknown_values

ARITHMETIC = ("+", "-", "*", *FUNCTIONS)       # without the /, behind which a row may have 0
MOST_VALUES_WRITTEN = 100
LONGEST_QUESTION = 4096     # bytes that a table reads


@dataclass(frozen=True)
class RangeCondition:
    """A condition that says of some columns in which ranges a row has their numbers, and the terms of it. `unknown` is what is said of each value of it that no row
    of a column has."""

    ranges: Mapping[int, Ranges]        # by the place of a column
    terms: Sequence[str] = ()
    unknown: Sequence[str] = ()

    def is_met(self, numbers: Sequence[int]) -> bool:
        """Whether a row with these numbers meets it."""
        return all(any(first <= numbers[place] <= last for first, last in ranges) for place, ranges in self.ranges.items())


@dataclass(frozen=True)
class ReadCondition:
    """A condition that was read for the columns of a table: as ranges, which is None where it has other parts; the terms by which the rows that meet some parts of it are
    better than all others, of which none meets it; and whether it has a value that no row of a column has, so that its terms are others once such a row came."""

    whole: Optional[RangeCondition] = None
    narrowing: Sequence[str] = ()
    may_change: bool = False


EVERY_ROW = ReadCondition(RangeCondition({}))


def planned(text: str, question: Question, condition: ReadCondition, columns: Columns) -> Optional[Plan]:
    """What a table of these columns is asked about the rows that meet a condition, which the rows of its answer are to meet; None where the table cannot be asked so."""
    if condition.whole is None:
        return None
    if not all(condition.whole.ranges.values()):
        question = replace(question, mode="best")       # No row meets it: further levels would be left out as well.
    asked = plan(text, question, columns.below, condition.whole.terms)
    return None if condition.whole.terms and len(asked.text) > LONGEST_QUESTION else asked


def condition_of(text: Optional[str], columns: Columns) -> ReadCondition:
    """The condition of this text, which is refused where it means nothing. What is longer than any question of a table is not tried: to read it twice takes long."""
    if text is None:
        return EVERY_ROW
    if len(text) > LONGEST_QUESTION:
        return ReadCondition()
    no_rows = moment_of(columns.columns, lambda place: [], lambda number: number)
    node = read_condition(text, no_rows.column, no_rows.names)
    computer = Computer(text, no_rows)
    nodes = node.parts if isinstance(node, Operation) and node.name == "and" else [node]
    try:
        parts = [computer.conjunction(part) if has_ranges(part) else None for part in nodes]
    except Refused:
        if has_ranges(node):
            raise
        return ReadCondition()      # It is said where all of it is computed.
    ranges = ranges_by_place(chain.from_iterable(part for part in parts if part is not None), columns)
    terms = terms_of_places(ranges, columns)
    whole = None
    if terms is not None and None not in parts:
        whole = RangeCondition(ranges, terms, unknown_values(computer.absent))
    return ReadCondition(whole, [] if terms is None or may_refuse_rows(node) else first_terms(terms), bool(computer.absent))


def first_terms(terms: Sequence[str]) -> List[str]:
    """As many of these terms as a table reads in one question for the rows that are best by them."""
    lengths = accumulate((len(f" & {term}") for term in terms), initial=len("best ") - len(" & "))
    return [term for term, length in zip(terms, islice(lengths, 1, None)) if length <= LONGEST_QUESTION]


def ranges_by_place(parts: Iterable[Tuple[Column, Ranges]], columns: Columns) -> Dict[int, Ranges]:
    """The ranges in all of which the numbers of columns are, by the places of these."""
    found: Dict[int, List[Ranges]] = defaultdict(list)
    places = {id(column): place for place, column in enumerate(columns.columns)}
    for column, ranges in parts:
        found[places[id(column)]].append(ranges)
    return {place: intersection(*some) for place, some in found.items()}


def terms_of_places(ranges: Mapping[int, Ranges], columns: Columns) -> Optional[List[str]]:
    """Terms by which rows with numbers in these ranges are equally good, and better than all others; None where there are none."""
    found = [terms_of(columns.below[id(columns.columns[place])], some) for place, some in ranges.items()]
    there = [terms for terms in found if terms is not None]
    return list(chain.from_iterable(there)) if len(there) == len(found) else None


def has_ranges(node: Node) -> bool:
    """Whether each part of a condition is about one column and values that are written. Nothing is divided in it, which may be refused for a row."""
    if isinstance(node, Comparison):
        sides = node.left, node.right
        return any(isinstance(side, Named) and is_written(other) for side, other in (sides, sides[::-1]))
    if isinstance(node, Operation) and node.name in ("and", "or", "not"):
        return all(map(has_ranges, node.parts))
    return isinstance(node.parts[0] if isinstance(node, Operation) and node.name == "missing" else node, Named)


def may_refuse_rows(node: Node) -> bool:
    """Whether a row may be refused in which something is divided by 0, or computed of an infinite float."""
    if isinstance(node, Comparison):
        return may_refuse_rows(node.left) or may_refuse_rows(node.right)
    if not isinstance(node, Operation):
        return False
    is_computed = node.name in ARITHMETIC and any(isinstance(column.kind, Floats) for column in columns_of(node))
    return node.name == "/" or is_computed or any(map(may_refuse_rows, node.parts))


def is_written(node: Node) -> bool:
    """Whether this is a value, or a number that is computed of some."""
    return isinstance(node, Literal) or isinstance(node, Operation) and node.name in ARITHMETIC and all(map(is_written, node.parts))


def terms_of(name: str, ranges: Ranges) -> Optional[List[str]]:
    """Terms by which the numbers of a column in these ranges are equally good, and better than all others; None where there are none. Where the ranges have all numbers
    or none, the rows need no order."""
    if not ranges or not complement(ranges):
        return []
    first, last = ranges[0][0], ranges[-1][1]
    holes = intersection(complement(ranges), [(first, last)])
    if written(holes) is not None:
        whole = [f"between({name}, {first}, {last})"] if (first, last) != (LEAST, MOST) else []
        return whole + ([f"-pos({name}, {written(holes)})"] if holes else [])
    return None if written(ranges) is None else [f"pos({name}, {written(ranges)})"]


def written(ranges: Ranges) -> Optional[str]:
    """The numbers in some ranges, one by one; None where they are too many."""
    return None if size(ranges) > MOST_VALUES_WRITTEN else ", ".join(map(str, numbers_in(ranges)))
