"""Which rows dominate a row: by one comparison with each row of its group."""
from typing import Any, Dict, List, Optional, Sequence, Tuple

from .better_than import Order, bits, places_in, ranks
from .checks import MOST_COLUMNS, MOST_ROWS
from .errors import Refused, called, no_such_row
from .loading import Found
from .moment import Moment
from .rows import Zipped
from .selection import Reading, Selection, check_width, reading
from .table import ask_once
from .translate import below, clause_of, term_below, terms_columns

LEVELS = 1000


def dominators(read: Reading, target: int) -> List[Tuple[int, Optional[int]]]:
    """The places, from 0, of the rows that dominate the one at this place, each with its level (None behind level 1000), in order of level, then place.

    What dominates a row that dominates the target is among them too, so their levels are those that they have among all rows. More of them than one table holds
    are `Refused`.
    """
    found = better(read, target)
    check_count(len(found), "the row")
    levels = levels_of(read, found)
    return sorted(((place, levels.get(place)) for place in found), key=lambda pair: (pair[1] or LEVELS + 1, pair[0]))


def explained(text: str, selection: Selection, moment: Moment, pairs: Sequence[Tuple[Any, Sequence[int]]], number: Optional[int],
              id: Any) -> Tuple[List[Found], List[str]]:
    """The rows that dominate the one with this number, each with its level; and what is said of the question's values. The rows of the moment are pairs of what they
    are known by, and their numbers. None is the number of a row that is not there: that one is refused, as is one that does not meet the condition."""
    read = reading(text, selection, moment)
    if number is None:
        raise no_such_row(id)
    place = moment.place(number)
    if place is None:
        raise Refused(f"row {called(id)} does not meet the condition", "arguments")
    return [(level, *pairs[moment.id(other + 1) - 1]) for other, level in dominators(read, place)], read.unknown


def number_of(pairs: Sequence[Tuple[Any, Sequence[int]]], known_by: Any) -> Optional[int]:
    """The number, from 1, of the row that is known by this; None where there is none."""
    return next((number for number, (other, _) in enumerate(pairs, 1) if other == known_by), None)


def check_count(count: int, called: str) -> None:
    """Refuses more rows that dominate one, which is called so, than one table holds."""
    if count > MOST_ROWS:
        raise Refused(f"{count} rows dominate {called}, and {MOST_ROWS} are compared at most", "parts")


def better(read: Reading, target: int) -> List[int]:
    """The places, ascending, of the rows that dominate the one at this place."""
    over = Order(read.term, *terms_lists(read)).better(target) & alike(read.lists_of(read.plan.by), target, len(read.lists[0]))
    if read.question.distinct:      # of rows that are equal in all of its columns the first dominates the others
        over |= alike(read.lists, target, len(read.lists[0])) & ((1 << target) - 1)
    return list(places_in(over))


def alike(lists: Sequence[Sequence[int]], target: int, count: int) -> int:
    """The rows that are equal to the one at this place in these columns, of so many rows."""
    own = tuple(numbers[target] for numbers in lists)
    return bits(row == own for row in zip(*lists)) if lists else (1 << count) - 1


def levels_of(read: Reading, found: List[int]) -> Dict[int, int]:
    """The levels of the rows at these places among themselves."""
    if not found:
        return {}
    names, lists = terms_lists(read.at(found))
    check_width(read.text, read.question, read.columns[:len(names)])
    term = read.term
    if read.question.distinct:
        lists = clause_in_turn(read, names, lists)
        if len(lists) > MOST_COLUMNS:       # of one column both min and max may be criteria
            raise Refused(f"a distinct clause of {len(lists)} criteria, and the rows that dominate one are compared by {MOST_COLUMNS} at most", "arguments")
        names = [f"c{place}" for place in range(len(lists))]
        term = " * ".join(f"low({name})" for name in names)
    return {found[row.id - 1]: row.level for row in ask_once(names, Zipped(lists), f"top_level {LEVELS} {term}")}


def terms_lists(read: Reading) -> Tuple[List[str], List[Sequence[int]]]:
    """The names and the numbers of the columns of the term."""
    count = len(terms_columns(read.question.term))
    return read.names[:count], read.lists[:count]


def clause_in_turn(read: Reading, names: Sequence[str], lists: Sequence[Sequence[int]]) -> List[Sequence[int]]:
    """The criteria of a distinct clause over rows of one group, all of which dominate one row, as columns of which less is better: there the first of equal rows
    dominates the second, and so on.

    Rows that are equal in a criterion are told apart by their turns, in which none dominates an earlier one. So a row that dominates another one is better than it in
    each of the columns, and one that neither dominates nor equals another is better in one of them and worse in another.
    """
    ranked = (tuple(Order(term_below(read.text, base, below(read.columns)), names, lists).extension()) for base in clause_of(read.question.term))
    # A column of which both min and max are asked is the same in all rows that dominate one that has a value there.
    criteria = [scores for scores in dict.fromkeys(ranked) if len(set(scores)) > 1]
    turns = ranks([(sum(scores), place) for place, scores in enumerate(zip(*criteria))]) if criteria else list(range(len(lists[0])))
    return [ranks(list(zip(scores, turns))) for scores in criteria] or [turns]
