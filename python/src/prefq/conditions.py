"""Conditions and expressions over the rows of a part: which rows count, and over which columns that was computed.

A column of a file with nothing but words such as n/a is missing beside values of another kind, and one of texts beside texts: these are the ways in which it may turn out.
"""
from itertools import product
from typing import Callable, Collection, Dict, Iterable, Iterator, List, Mapping, Sequence, Tuple, TypeVar

from .columns import Column, listed
from .errors import Refused
from .expressions import Comparison, Literal, Named, Node, Operation, columns_of
from .kinds import Times
from .kinds.moments import offset_of
from .moment import Moment
from .partial import Absent, Partial
from .questions import Question, Term
from .selection import Selection, kept
from .translate import bases_of, unknown_values
from .widening import Segment, Undecided

# With so many columns of either way there are 64 ways.
MOST_OF_EITHER_WAY = 6
View = TypeVar("View")
Found = TypeVar("Found")


def rows_that_meet(condition: str, node: Node, segments: Mapping[str, Segment], count: int) -> Tuple[Sequence[int], Absent]:
    """The places, from 0, of the rows of a part that meet a condition, whose tree is this one; and each value of it that no row has.

    A column whose cells are all words such as n/a may turn out to be one of texts or without values: where that makes a difference, it is `Refused`.
    """
    named = [segments[name] for name in names_in([node])]
    found = not_refused(lambda view: _met(condition, view, count), product(*(segment.views() for segment in named)))
    if any(list(places) != list(found[0][0]) for places, _ in found):
        words = [segment.column.name for segment in named if segment.words()]
        raise Refused(f"all cells of {listed(words)} are words such as n/a: say by missing=[..] whether these are missing, or give a kind by kinds={{..}}", "table")
    return found[0]


def _met(condition: str, view: Iterable[Segment], count: int) -> Tuple[Sequence[int], Absent]:
    segments = {segment.column.name: segment for segment in view}
    moment = Moment(list(segments), lambda name: (segments[name].column, segments[name].numbers))
    absent = absent_in(kept(Selection(where=condition), moment))
    return range(count) if moment.places is None else moment.places, absent


def absent_in(found: Iterable[Tuple[Column, str]]) -> Absent:
    """What is said of values that no row of a column has, by column and text."""
    values = list(found)
    return dict(zip(((column.name, text) for column, text in values), unknown_values(values)))


def texts_beside_columns(node: Node) -> Iterator[Tuple[Column, str]]:
    """The columns of an expression, each with a text with which it is compared."""
    if isinstance(node, Operation):
        for part in node.parts:
            yield from texts_beside_columns(part)
    if isinstance(node, Comparison):
        for side, other in ((node.left, node.right), (node.right, node.left)):
            if isinstance(side, Named) and isinstance(other, Literal):
                yield side.column, other.text


def names_in(nodes: Iterable[Node]) -> List[str]:
    """The names of the columns of some expressions, each once, in their order."""
    return list(dict.fromkeys(column.name for node in nodes for column in columns_of(node)))


def moments_in(nodes: Iterable[Node], term: Term) -> Dict[str, Tuple[str, ...]]:
    """By column of times with a zone, the texts beside it in expressions, or in the term of a question, that name no zone: they are times of the column's."""
    pairs = [(base.column, value.text) for base in bases_of(term) for values in base.sets for value in values]
    pairs += [pair for node in nodes for pair in texts_beside_columns(node)]
    found: Dict[str, Tuple[str, ...]] = {}
    for column, text in pairs:
        if isinstance(column.kind, Times) and column.kind.zone is not None and offset_of(text) is None:
            found[column.name] = (*found.get(column.name, ()), text)
    return found


def views_of(partial: Partial, ways: Sequence[Sequence[Segment]]) -> "Iterator[List[Segment]]":
    """The columns that are asked, for each way in which all of them may turn out. More columns than can be tried are `Refused`."""
    either = [segment.column.name for segment, some in zip(partial.asked, ways) if len(some) > 1]
    if len(either) > MOST_OF_EITHER_WAY:
        raise Refused(f"all cells of {listed(either)} are words such as n/a: say by missing=[..] whether these are missing, or give kinds by kinds={{..}}", "table")
    return map(list, product(*ways))


def not_refused(ask: Callable[[View], Found], views: Iterable[View]) -> List[Found]:
    """What is found in each view that is not `Refused`, as one at least has to be."""
    found, refused = [], None
    for view in views:
        try:
            found.append(ask(view))
        except Refused as why:
            refused = why
    if refused is not None and not found:
        raise refused
    return found


def ways_of(segment: Segment, question: Question, computed: Collection[str]) -> List[Segment]:
    """The ways in which a column may turn out that are tried, so that no row is left out that may be in the answer of another way.

    By its order it is asked where it has no texts. Where it makes groups alone, groups of texts are the finer ones, in which fewer rows dominate others. What is
    `computed` of it may be another number or truth either way.
    """
    if not isinstance(segment.column.kind, Undecided):
        return [segment]
    texts, missing = segment.views()
    if segment.column.name in computed:
        return [texts, missing]
    words = {base.word for base in bases_of(question.term) if base.column.name == segment.column.name}
    if words - {"pos", "layered", "true"}:
        return [missing]
    return [texts, missing] if words else [texts]
