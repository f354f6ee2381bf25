"""Which rows are better than which by a question, found by comparing rows of whole numbers: what `why` and the better-than graph show.

A question is read as the table below is asked it. Sets of rows are the bits of a number, so that what a product makes of its parts is made of all rows at once.
"""
from typing import Callable, Dict, Hashable, Iterable, Iterator, List, Sequence, Tuple

from .columns import Column
from .questions import Base, Converse, Term, read_question

Rows = Sequence[Sequence[int]]
# The rows on one side of a row, those that are worse or those that are better than it, and those that are the same, as the bits of a number.
Sides = Tuple[int, int]


class Order:
    """The term of a question, in the language of the program, over rows, which are given by columns."""

    def __init__(self, term: str, names: Sequence[str], columns: Rows) -> None:
        self._columns = dict(zip(names, columns))
        self.term = read_question(f"best {term}", {name: Column(name, "whole") for name in names}.get, names).term
        self.count = len(columns[0]) if columns else 0

    def scores(self, base: Base, turned: bool) -> List[int]:
        """How far each row is from what a base term likes best, or its converse."""
        score = score_of(base)
        numbers = self._columns[base.column.name]
        found = {number: -score(number) if turned else score(number) for number in dict.fromkeys(numbers)}
        return [found[number] for number in numbers]

    def better(self, row: int) -> int:
        """The rows that are better than this one."""
        def sides(base: Base, turned: bool) -> Sides:
            scores = self.scores(base, turned)
            own = scores[row]
            return bits(score < own for score in scores), bits(score == own for score in scores)
        return combined(self.term, sides)[0]

    def worse(self) -> Iterator[int]:
        """The rows that are worse than each one."""
        tables: Dict[Tuple[int, bool], Tuple[List[int], Dict[int, Sides]]] = {}

        def sides_of(row: int) -> Callable[[Base, bool], Sides]:
            def sides(base: Base, turned: bool) -> Sides:
                if (id(base), turned) not in tables:
                    scores = self.scores(base, turned)
                    tables[id(base), turned] = scores, worse_by_score(scores)
                scores, found = tables[id(base), turned]
                return found[scores[row]]
            return sides

        return (combined(self.term, sides_of(row))[0] for row in range(self.count))

    def extension(self) -> List[int]:
        """A number for each row by which a better one comes first."""
        def places(term: Term, turned: bool) -> List[int]:
            if isinstance(term, Base):
                return self.scores(term, turned)
            if isinstance(term, Converse):
                return places(term.part, not turned)
            parts = [ranks(places(part, turned)) for part in term.parts]
            return [sum(row) for row in zip(*parts)] if term.sign == "*" else ranks(list(zip(*parts)))

        return places(self.term, False)


def score_of(base: Base) -> Callable[[int], int]:
    """By what number a base term compares a cell; a smaller one is better."""
    if base.word in ("low", "high"):
        return (lambda number: number) if base.word == "low" else lambda number: -number
    if base.word in ("around", "between"):
        first, last = int(base.sets[0][0].text), int(base.sets[0][-1].text)
        return lambda number: max(first - number, 0, number - last)
    layers: Dict[int, int] = {}
    for layer, values in enumerate(base.sets):
        for value in values:
            layers.setdefault(int(value.text), layer)
    return lambda number: layers.get(number, len(base.sets))


def combined(term: Term, sides: Callable[[Base, bool], Sides], turned: bool = False) -> Sides:
    """What a term, or its converse, makes of the sides of its base terms."""
    if isinstance(term, Base):
        return sides(term, turned)
    if isinstance(term, Converse):
        return combined(term.part, sides, not turned)
    beside, same = combined(term.parts[0], sides, turned)
    for part in term.parts[1:]:
        further, alike = combined(part, sides, turned)
        beside = (beside | same) & (further | alike) & ~(same & alike) if term.sign == "*" else beside | same & further
        same &= alike
    return beside, same


def bits(flags: Iterable[bool]) -> int:
    """The rows of which something holds."""
    return int("".join(["1" if flag else "0" for flag in flags])[::-1] or "0", 2)


def places_in(rows: int) -> Iterator[int]:
    """The places of the rows that are bits of a number, ascending."""
    text = bin(rows)[:1:-1]
    place = text.find("1")
    while place >= 0:
        yield place
        place = text.find("1", place + 1)


def groups(keys: Iterable[Hashable]) -> Dict[Hashable, int]:
    """The rows that have each key."""
    found: Dict[Hashable, List[int]] = {}
    for row, key in enumerate(keys):
        found.setdefault(key, []).append(row)
    return {key: set_of(rows) for key, rows in found.items()}


def set_of(rows: Sequence[int]) -> int:
    """These rows as bits of a number."""
    flags = bytearray(b"0") * (max(rows, default=0) + 1)
    for row in rows:
        flags[-1 - row] = ord("1")
    return int(flags, 2)


def worse_by_score(scores: Sequence[int]) -> Dict[int, Sides]:
    """By a score, the rows that are worse and those that are the same."""
    same = groups(scores)
    found: Dict[int, Sides] = {}
    worse = 0
    for score in sorted(set(scores), reverse=True):
        found[score] = worse, same[score]
        worse |= same[score]
    return found


def ranks(keys: Sequence[Hashable]) -> List[int]:
    """The place of each key among those that there are."""
    places = {key: place for place, key in enumerate(sorted(set(keys)))}  # type: ignore[type-var]
    return [places[key] for key in keys]


def rows_alike(columns: Rows, count: int) -> List[int]:
    """For each of so many rows the rows that are equal to it in these columns."""
    keys: List[Hashable] = list(zip(*columns)) if columns else [()] * count
    found = groups(keys)
    return [found[key] for key in keys]


def is_weak(term: Term) -> bool:
    """Whether any two rows can be compared by a term: by a base term, and where the first of such terms decides."""
    if isinstance(term, Base):
        return True
    if isinstance(term, Converse):
        return is_weak(term.part)
    return term.sign == "&" and all(map(is_weak, term.parts))
