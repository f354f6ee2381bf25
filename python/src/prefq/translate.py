"""A question over the columns of a frame, as the question that the table below is asked.

A value stands in the table as a whole number, and a missing one as `LEAST`. It never wins:

- `high(x)` puts the least number last as it is. `low(x)` becomes `(-pos(x, LEAST) & low(x))`, so that the rows that have a value come first, and so on for
  around and between. It is never compared as a number.
- By pos and layered it counts as a value in no set.
- The converse turns the order of the values round, and not what is said above: it is brought down to the base terms (that of a product is the product of
  the converses), and there it has a missing value last again; of pos and layered, with the values that it likes least.

Numbers of around and between may lie between two numbers of the table (`around(Stars, 3.5)`): the distances are then compared as they are.
"""
import math
from contextlib import contextmanager
from dataclasses import dataclass
from fractions import Fraction
from itertools import accumulate
from typing import Dict, Iterable, Iterator, List, NamedTuple, Optional, Sequence, Tuple

from .checks import LEAST, MOST
from .columns import Column, quoted
from .errors import Refused
from .hints import nearest
from .infer import oddity
from .kinds import Booleans, Floats, Texts
from .questions import EMPTY_RANGE, UNEXPECTED, Base, Converse, Product, Question, Term, Value, refuse
from .widening import Nothing


OF_CONDITIONS = "a condition is true or false: write a comparison, such as x > 5 or City = 'Lyon'"
# To compare a text with so many others takes some ten milliseconds. It is done for so many of the values that no row has.
TEXTS_COMPARED = 500
VALUES_COMPARED = 20


class Piece(NamedTuple):
    """A piece of the text below, and the character of the user's question to which it belongs."""

    text: str
    place: int


@dataclass(frozen=True)
class Plan:
    """What the table below is asked. Of rows that are equal in the columns `twins`, only the first is in the answer, where it is given."""

    question: str
    pieces: Tuple[Piece, ...]
    by: Tuple[str, ...]
    twins: Optional[Tuple[str, ...]]
    absent: Tuple[Tuple[Column, str], ...]

    @property
    def text(self) -> str:
        """The question for the table."""
        return "".join(piece.text for piece in self.pieces)

    @property
    def unknown(self) -> Tuple[str, ...]:
        """What is said of each value of the question that no row has."""
        return tuple(unknown_values(self.absent))

    @contextmanager
    def refusing(self) -> Iterator[None]:
        """Has what the table refuses refused at its place in the user's question."""
        try:
            yield
        except Refused as why:
            raise self.refusal(why) from None

    def refusal(self, why: Refused) -> Refused:
        """The table's refusal of the text below, at its place in the user's question."""
        if why.kind != "term":
            return why
        if why.place is None:       # It is too long, though the user's question may be short.
            message = f"too long, {len(self.text):,} bytes with the numbers that its values are in a table (many values are short as true(x in (..)))"
            piece = max(self.pieces, key=lambda piece: len(piece.text))
        else:
            message = str(why.args[0]).split(" at ")[0]
            ends = accumulate(len(piece.text) for piece in self.pieces)
            piece = next((piece for piece, end in zip(self.pieces, ends) if end > why.place), self.pieces[0])
        return Refused(message, "term", why.number, len(self.question[:piece.place].encode(errors="replace")), self.question)


def bases_of(term: Term) -> List[Base]:
    """The base terms of a term, in the order in which they stand there."""
    if isinstance(term, Base):
        return [term]
    parts = (term.part,) if isinstance(term, Converse) else term.parts
    return [base for part in parts for base in bases_of(part)]


def terms_columns(term: Term) -> List[Column]:
    """The columns of a term, each once, in the order in which they stand there."""
    return different(base.column for base in bases_of(term))


def columns_in(question: Question) -> List[Column]:
    """The columns of a question, each once, those of its groups last."""
    return different([*terms_columns(question.term), *question.by])


def different(columns: Iterable[Column]) -> List[Column]:
    """Each column once."""
    return list({id(column): column for column in columns}.values())


def below(columns: Sequence[Column]) -> Dict[int, str]:
    """The names c0, c1 and so on that columns have in the table below, by their identity."""
    return {id(column): f"c{place}" for place, column in enumerate(columns)}


def plan(text: str, question: Question, names: Dict[int, str], before: Sequence[str] = ()) -> Plan:
    """The plan of a question whose columns have these names in the table below, by their identity. Terms of that table that stand `before` decide first."""
    return Translator(text, names).plan(question, before)


def term_below(text: str, term: Term, names: Dict[int, str]) -> str:
    """A term of a question as the table below reads it."""
    return Translator(text, names).term(term)


class Translator:
    """Writes the text below."""

    def __init__(self, text: str, names: Dict[int, str]) -> None:
        self._text, self._names = text, names
        self._pieces: List[Piece] = []
        self._absent: List[Tuple[Column, str]] = []

    def term(self, term: Term) -> str:
        """A term alone."""
        self._write(term, False)
        return "".join(piece.text for piece in self._pieces)

    def plan(self, question: Question, before: Sequence[str]) -> Plan:
        by = tuple(self._name(column) for column in question.by)
        twins = tuple(self._name(base.column) for base in clause_of(question.term)) + by if question.distinct else None
        if question.distinct and not before and self._is_said_by_a_clause(question.term):
            self._clause(clause_of(question.term), by)
            twins = None
        else:
            self._put("best " if question.mode == "best" else f"{question.mode} {question.count} ", 0)
            self._put("".join(f"{term} & " for term in before), 0)
            self._write(question.term, False)
            if by:
                self._put(" by " + ", ".join(by), len(self._text))
        return Plan(self._text, tuple(self._pieces), by, twins, tuple(self._absent))

    def _is_said_by_a_clause(self, term: Term) -> bool:
        """Whether min and max put missing values last: min does not."""
        return not any(base.word == "low" and base.column.has_gaps for base in clause_of(term))

    def _clause(self, clause: Sequence[Base], by: Sequence[str]) -> None:
        for base in clause:
            self._orders(base)
        dims = [f"{self._name(base.column)} {'min' if base.word == 'low' else 'max'}" for base in clause] + [f"{name} diff" for name in by]
        self._put("skyline of distinct " + ", ".join(dims), 0)

    def _put(self, text: str, place: int) -> None:
        self._pieces.append(Piece(text, place))

    def _name(self, column: Column) -> str:
        return self._names[id(column)]

    def _write(self, term: Term, turned: bool, around: str = "") -> None:
        """Writes a term, or its converse where it is `turned`, as a part of a product with the sign `around`, or of none."""
        if isinstance(term, Converse):
            self._write(term.part, not turned, around)
            return
        start = len(self._pieces)
        if isinstance(term, Product):
            sign = term.sign
            for number, part in enumerate(term.parts):
                if number:
                    self._put(f" {sign} ", self._pieces[-1].place)
                self._write(part, turned, sign)
        else:
            sign = "&"
            texts = self._base(term, turned)
            self._put(f" {sign} ".join(texts), term.place)
            if len(texts) == 1:
                return
        if around == "*" or around == sign:
            self._pieces.insert(start, Piece("(", self._pieces[start].place))
            self._put(")", self._pieces[-1].place)

    def _base(self, base: Base, turned: bool) -> List[str]:
        """A base term, or its converse, as terms of which the first that sees a difference decides."""
        name = self._name(base.column)
        if base.word in ("low", "high"):
            self._orders(base)
            if (base.word == "low") == turned:
                return [f"high({name})"]
            return [*self._present(base.column), f"low({name})"]
        if base.word in ("around", "between"):
            parts = distances(name, *self._range(base))
            return [*self._present(base.column), *(f"-{part}" if turned else part for part in parts)]
        if base.word == "true":
            self._truths(base)
        return [self._sets(base, turned)]

    def _truths(self, base: Base) -> None:
        """Refuses `true(..)` of what is neither true nor false, as a column of texts of which some is "true"."""
        column = base.column
        if not isinstance(column.kind, (Booleans, Nothing)):
            check_kind_is_known(self._text, column, base.place)
            refuse(self._text, base.place, f"column {column.name!r} has the kind {column.kind}, and {OF_CONDITIONS}")

    def _present(self, column: Column) -> List[str]:
        """The term by which rows that have a value are better."""
        return [f"-pos({self._name(column)}, {LEAST})"] if column.has_gaps else []

    def _orders(self, base: Base) -> None:
        check_order(self._text, base.column, base.place, "prefer some of them by pos(..) or layered(..), or give it the kind 'choice(first, second, ..)'")

    def _range(self, base: Base) -> Tuple[Fraction, Fraction]:
        column = base.column
        if not column.kind.measured:
            if isinstance(column.kind, Floats):
                refuse(self._text, base.place, f"column {column.name!r} has floats, between which a distance is not exact: "
                       f"{base.word}(..) needs a scale, as kinds={{{column.name!r}: 'decimal(2)'}} gives it")
            check_kind_is_known(self._text, column, base.place)
            refuse(self._text, base.place, f"column {column.name!r} has the kind {column.kind}{why_texts(column)}, which has no distances for {base.word}(..)")
        ends = [self._position(column, value) for value in base.sets[0]]
        if ends[0] > ends[-1]:
            refuse(self._text, base.sets[0][-1].place, "empty range", EMPTY_RANGE)
        return ends[0], ends[-1]

    def _position(self, column: Column, value: Value) -> Fraction:
        try:
            return column.kind.position(value.text)
        except (TypeError, ValueError) as why:
            refuse(self._text, value.place, f"column {column.name!r} ({column.kind}): {why}", UNEXPECTED)

    def _sets(self, base: Base, turned: bool) -> str:
        """pos, layered, true, or the converse. Values that no row can have are left out."""
        name = self._name(base.column)
        sets = [[int(True)]] if base.word == "true" else [self._found(base.column, values) for values in base.sets]
        if turned and base.column.has_gaps:
            sets[0].append(LEAST)
        sets = [numbers for numbers in sets if numbers]
        if not sets:
            return f"between({name}, {LEAST}, {MOST})"
        lists = [", ".join(map(str, numbers)) for numbers in sets]
        term = f"pos({name}, {lists[0]})" if len(lists) == 1 else f"layered({name}, {', '.join(f'{{{numbers}}}' for numbers in lists)})"
        return f"-{term}" if turned else term

    def _found(self, column: Column, values: Sequence[Value]) -> List[int]:
        numbers: Dict[int, None] = {}
        for value in values:
            try:
                number = column.kind.find(value.text)
            except (TypeError, ValueError) as why:
                refuse(self._text, value.place, f"column {column.name!r} ({column.kind}): {why}")
            if number is not None:
                numbers[number] = None
            else:
                self._absent.append((column, value.text))
        return list(numbers)


def check_kind_is_known(text: str, column: Column, place: int) -> None:
    """Refuses a column that is one of texts since no row has had a value in it, from which another kind would have been seen."""
    if isinstance(column.kind, Texts) and column.grows and not column.kind.texts:
        refuse(text, place, f"column {column.name!r} has no value, from which its kind would be seen: give it a kind, as 'whole'")


def check_order(text: str, column: Column, place: int, instead: str) -> None:
    """Refuses a column without an order, where one is asked for; `instead` says what may be asked."""
    if column.kind.ordered:
        return
    check_kind_is_known(text, column, place)
    texts = getattr(column.kind, "texts", ())
    has = f"texts{why_texts(column)}, which have" if texts else f"the kind {column.kind}, which has"
    refuse(text, place, f"column {column.name!r} has {has} no order: {instead}")


def why_texts(column: Column) -> str:
    """Why a column of texts is none of numbers or dates, where it looks like one."""
    why = oddity(column.kind.texts, column.form) if isinstance(column.kind, Texts) else None
    return f" ({why})" if why else ""


def clause_of(term: Term) -> List[Base]:
    """The min and max columns of a skyline clause."""
    parts = term.parts if isinstance(term, Product) else (term,)
    return [part for part in parts if isinstance(part, Base)]


def distances(name: str, low: Fraction, high: Fraction) -> List[str]:
    """Terms that compare how far a whole number of this column lies from a range, whose ends may lie between two whole numbers."""
    first, last = math.ceil(low), math.floor(high)
    if first > last:
        # Nothing lies in the range, and one end of it is perhaps nearer to its neighbour.
        first, last = last, first
        below, above = low - first, last - high
        nearer = [] if below == above else [f"low({name})" if below < above else f"high({name})"]
    else:
        # What lies outside is nearer by these parts than by its distance to the whole numbers inside.
        below, above = first - low, high - last
        nearer = [] if below == above else [between(name, LEAST, last) if below > above else between(name, first, MOST)]
    return [between(name, first, last), *nearer]


def between(name: str, first: int, last: int) -> str:
    """The term for a range, of which only what a column can have matters."""
    ends = [min(max(end, LEAST), MOST) for end in (first, last)]
    return f"between({name}, {ends[0]}, {ends[1]})"


def unknown_values(absent: Iterable[Tuple[Column, str]]) -> List[str]:
    """What is said of each value that no row of its column has, and of the first ones also which text is most like them."""
    return [f"no row of {column.name!r} has {quoted(text)}" + (meant_text(column, text) if place < VALUES_COMPARED else "")
            for place, (column, text) in enumerate(absent)]


def meant_text(column: Column, text: str) -> str:
    """What is said of a text that no row has, where one of the column's texts is like it."""
    near = nearest(text, column.kind.texts[:TEXTS_COMPARED]) if isinstance(column.kind, Texts) else None
    return "" if near is None else f"; did you mean {quoted(near)}?"
