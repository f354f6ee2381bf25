"""`p | q`, by which a row is better where it is better by both: as a product (`*`) of columns that are computed, which the table below has.

Each part is to be one by which any two rows can be compared, so that it gives each row a rank. A product of the ranks would also prefer a row that is better in
one part and the same in another. So rows of the same rank in one part get further ranks there, by the other parts the other way round:

- A row that is better than another one in every part is better in every column.
- If it is the same in a part p, better in a part q, and nowhere worse, it comes behind the other in the column of p, and before it in that of q.
- If it is better in one part and worse in another one, it is so in their columns.
- If it is the same in all parts, it is the same in all columns.
"""
from dataclasses import replace
from typing import List, Sequence, Tuple

from .better_than import Order, is_weak, ranks
from .checks import MOST_COLUMNS
from .columns import Column
from .moment import Moment
from .questions import Base, Converse, Product, Question, Term, refuse
from .translate import bases_of, below, plan, terms_columns


def has_intersection(term: Term) -> bool:
    """Whether a term has `|` in it."""
    if isinstance(term, Base):
        return False
    parts = (term.part,) if isinstance(term, Converse) else term.parts
    return isinstance(term, Product) and term.sign == "|" or any(map(has_intersection, parts))


class Intersections:
    """Puts a product in the place of each `|` of a question over the rows of a moment."""

    def __init__(self, text: str, moment: Moment) -> None:
        self._text, self._moment = text, moment
        # Each value of a part that no row of a column has.
        self.absent: List[Tuple[Column, str]] = []

    def replaced(self, question: Question) -> Question:
        """The same question with each `|` as a product."""
        return replace(question, term=self._term(question.term, False)) if has_intersection(question.term) else question

    def _term(self, term: Term, turned: bool) -> Term:
        """The term, which stands under an odd number of converses where it is `turned`."""
        if isinstance(term, Base):
            return term
        if isinstance(term, Converse):
            return Converse(self._term(term.part, not turned))
        if term.sign == "|":
            return self._product(parts_of(term), turned)
        return Product(term.sign, tuple(self._term(part, turned) for part in term.parts))

    def _product(self, parts: Sequence[Term], turned: bool) -> Term:
        place = bases_of(parts[0])[0].place
        if not all(map(is_weak, parts)):
            refuse(self._text, place, "| stands between terms by which any two rows can be compared, that is base terms, and those with & between them: of others it is "
                   "no product of columns that the table could compare")
        if len(parts) > MOST_COLUMNS:       # of which each is a column: the ranks of many, each by all others, would take hours before the table refuses them
            refuse(self._text, place, f"{len(parts)} columns and expressions are asked, and a table has {MOST_COLUMNS}")
        by_part = [self._ranks(Converse(part) if turned else part) for part in parts]
        columns = [self._column(f"part {number + 1} of |", by_part, number) for number in range(len(parts))]
        product = Product("*", tuple(Base("low", column, (), place) for column in columns))
        # The converses around it are undone, since its parts are turned already: a missing value comes last in them, either way round.
        return Converse(product) if turned else product

    def _ranks(self, part: Term) -> List[int]:
        columns = terms_columns(part)
        names = below(columns)
        asked = plan(self._text, Question("best", 1, part, ()), names)
        self.absent += asked.absent
        return ranks(Order(asked.text[len("best "):], list(names.values()), [self._moment.numbers(column) for column in columns]).extension())

    def _column(self, name: str, by_part: Sequence[Sequence[int]], number: int) -> Column:
        """The ranks of a part, and of rows that are the same in it those of the other parts the other way round."""
        others = [[-rank for rank in ranked] for ranked in (*by_part[:number], *by_part[number + 1:])]
        column = Column(name, "whole")
        self._moment.add(column, ranks(list(zip(by_part[number], *others))))
        return column


def parts_of(term: Product) -> Tuple[Term, ...]:
    """The parts of an intersection, those of intersections among them too."""
    found: List[Term] = []
    for part in term.parts:
        found += parts_of(part) if isinstance(part, Product) and part.sign == "|" else [part]
    return tuple(found)
