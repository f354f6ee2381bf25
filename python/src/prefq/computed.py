"""What an expression means: columns that are computed, exactly, over the rows of a moment.

Numbers are whole numbers and fractions in units of a decimal place, a float is the decimal number that Python shows for it, and nothing is rounded. What is made of
a missing value is missing; so is a comparison with one, and by `not`, `and` and `or` as SQL has them. A row meets a condition where it is true.

All of it goes column by column, by the numbers that stand in the table. What compares a column with a value that is written only says in which ranges its numbers are.
"""
import math
import operator
from collections import defaultdict
from dataclasses import replace
from fractions import Fraction
from functools import reduce
from itertools import chain
from typing import Any, Callable, Dict, List, Optional, Tuple, Union

from .checks import LEAST
from .columns import Column
from .computed_values import NoValues, NumberColumn, Numbers, Others, Truths, Values, Within, both_known, combined, joined
from .computed_numbers import column_of_numbers, decoded_texts, numbers_of_floats, position_in
from .expressions import Comparison, Literal, Named, Node, Operation
from .kinds import Booleans, Choices, Dates, Floats, Texts, Times, Whole
from .kinds.booleans import WORDS
from .kinds.exact import Number as Rational
from .kinds.numbers import Number
from .moment import Moment
from .questions import refuse
from .ranges import MISSING, VALUES, Ranges, beside, complement, within
from .translate import OF_CONDITIONS, check_kind_is_known, check_order
from .widening import Nothing

COMPARE: Dict[str, Callable[[Any, Any], bool]] = {"=": operator.eq, "<>": operator.ne, "<": operator.lt, "<=": operator.le, ">": operator.gt, ">=": operator.ge}
TURNED = {"<": ">", "<=": ">=", ">": "<", ">=": "<="}      # the comparisons with their sides exchanged, of which = and <> are the same
COMBINE: Dict[str, Callable[[Any, Any], Any]] = {"+": operator.add, "-": operator.sub, "*": operator.mul, "min": min, "max": max}
MOST_BITS = 2**15       # of a number that is computed


class Computer:
    """Computes the expressions of a text over the rows of a moment."""

    def __init__(self, text: str, moment: Moment) -> None:
        self._text, self._moment = text, moment
        # Each value of the text that no row of a column has.
        self.absent: List[Tuple[Column, str]] = []
        # The rows that have a value in a column, by its identity.
        self._known_in: Dict[int, Optional[bytes]] = {}

    def column(self, node: Node, text: str, place: int) -> Column:
        """The column of an expression, whose name is its text."""
        found = self._values(node)
        if isinstance(found, (Numbers, NumberColumn)):
            column, numbers = column_of_numbers(text, self._read(found), self._moment.count)
        elif isinstance(found, (Truths, Within)):
            column, numbers = Column(text, Booleans()), self._masks(found).numbers()
        else:
            refuse(self._text, place, "an expression computes a number or a truth value")
        column.has_gaps = LEAST in numbers
        self._moment.add(column, numbers)
        return column

    def met(self, node: Node) -> bytes:
        """The mask of the rows that meet a condition."""
        return self._masks(self._truths(node)).true

    def conjunction(self, node: Node, wanted: bool = True) -> Optional[List[Tuple[Column, Ranges]]]:
        """Columns with ranges: a condition is true where a row has its numbers in all of them, or is false where that is `wanted`. None where it is another condition."""
        if isinstance(node, Operation) and node.name == "not":
            return self.conjunction(node.parts[0], not wanted)
        if isinstance(node, Operation) and node.name == ("and" if wanted else "or"):
            parts = [self.conjunction(part, wanted) for part in node.parts]
            there = [part for part in parts if part is not None]
            return list(chain.from_iterable(there)) if len(there) == len(parts) else None
        found = self._truths(node)
        return [(found.column, found.holds if wanted else found.fails)] if isinstance(found, Within) else None

    def _values(self, node: Node) -> Values:
        if isinstance(node, Literal):
            return node
        if isinstance(node, Named):
            return self._named(node)
        if isinstance(node, Comparison):
            return self._compared(node)
        if node.name in ("and", "or", "not"):
            return self._logic(node)
        if node.name == "missing":
            return self._missing(node.parts[0])
        if node.name == "/":
            return self._quotient(node)
        return self._combined(node)

    def _named(self, node: Named) -> Values:
        column = node.column
        numbers = self._moment.numbers(column)
        if isinstance(column.kind, Number):
            return NumberColumn(column, numbers)
        if isinstance(column.kind, Booleans):
            return Within(column, [(1, 1)], [(0, 0)])
        return NoValues() if isinstance(column.kind, Nothing) else Others(column, numbers)

    def _known(self, column: Column) -> Optional[bytes]:
        """The rows that have a value in a column; None where all have one."""
        if id(column) not in self._known_in:
            numbers = self._moment.numbers(column)
            self._known_in[id(column)] = within(VALUES, numbers) if LEAST in numbers else None
        return self._known_in[id(column)]

    def _masks(self, found: Union[Truths, Within]) -> Truths:
        if isinstance(found, Truths):
            return found
        return found.masks(self._moment.numbers(found.column), self._known(found.column))

    def _numbers(self, node: Node, found: Values) -> Numbers:
        """What an expression has that stands for numbers."""
        if isinstance(found, Literal) and found.kind == "number":
            return self._constant(found)
        if isinstance(found, NoValues):
            return self._no_numbers()
        if not isinstance(found, (Numbers, NumberColumn)):
            refuse(self._text, node.place, f"{self._shown(node, found)}, and numbers are computed with")
        return self._read(found)

    def _read(self, found: Union[Numbers, NumberColumn]) -> Numbers:
        """The numbers of a column, with which something is computed."""
        if isinstance(found, Numbers):
            return found
        kind, known = found.column.kind, self._known(found.column)
        return Numbers(found.numbers, kind.scale, known) if isinstance(kind, Whole) else numbers_of_floats(found.numbers, known)

    def _as_they_stand(self, found: Union[NumberColumn, Others]) -> Numbers:
        """What the table has for the values of a column, to be compared with those of another one: texts themselves, and times in seconds."""
        kind = found.column.kind
        values = decoded_texts(found.column, found.numbers) if isinstance(kind, Texts) else found.numbers
        return Numbers(values, 10**9 // kind.nanoseconds if isinstance(kind, Times) else 1, self._known(found.column))

    def _constant(self, literal: Literal) -> Numbers:
        try:
            value = Whole().position(literal.text)
        except ValueError as why:
            refuse(self._text, literal.place, str(why))
        decimals = next((decimals for decimals in range(19) if 10**decimals % value.denominator == 0), None)
        scale = 1 if decimals is None else 10**decimals
        scaled = value * scale
        is_whole = scaled.denominator == 1
        bits = scaled.numerator.bit_length() + scaled.denominator.bit_length()
        return Numbers([scaled.numerator if is_whole else scaled], scale, are_whole=is_whole, is_constant=True, bits=bits)

    def _finite(self, node: Node, found: Values) -> Numbers:
        numbers = self._numbers(node, found)
        place = None if numbers.are_whole else next((place for place, value in enumerate(numbers.values) if isinstance(value, float)), None)
        if place is not None:
            refuse(self._text, node.place, f"row {self._moment.called(place)} has {numbers.values[place]}, with which nothing is computed")
        return numbers

    def _combined(self, node: Operation) -> Numbers:
        """What + - * min, max and abs make of numbers."""
        values = [self._values(part) for part in node.parts]
        moments = self._moments(*values) if node.name == "-" else None
        whole, *rest = moments or [self._finite(part, found) for part, found in zip(node.parts, values)]
        if node.name == "abs":
            return replace(whole, values=[abs(value) for value in whole.values])
        for part in rest:
            scale = whole.scale * part.scale if node.name == "*" else math.lcm(whole.scale, part.scale)
            factors = (1, 1) if node.name == "*" else (scale // whole.scale, scale // part.scale)
            bits = max(whole.bits, part.bits) if node.name in ("min", "max") else self._bits(node, whole, part)
            whole = replace(combined(COMBINE[node.name], whole, part, factors, scale), bits=bits)
        return whole

    def _bits(self, node: Operation, left: Numbers, right: Numbers) -> int:
        """How many bits a number may have that is made of two. Thousands of digits, as of x * 1e9000 * 1e9000, are refused: to compute with them for each of many rows
        takes hours."""
        bits = left.bits + right.bits + left.scale.bit_length() + right.scale.bit_length()
        if bits > MOST_BITS:
            refuse(self._text, node.place, f"behind this {node.name} a number may have more than {MOST_BITS // 4:,} digits, with which nothing is computed")
        return bits

    def _moments(self, left: Values, right: Values) -> Optional[List[Numbers]]:
        """Two dates in days, or two times in seconds; None where there are others."""
        if is_time(left) and isinstance(right, NoValues) or isinstance(left, NoValues) and is_time(right):
            return [self._no_numbers(), self._no_numbers()]
        if not isinstance(left, Others) or not isinstance(right, Others) or not self._are_alike(left, right) or not is_time(left):
            return None
        return [self._as_they_stand(left), self._as_they_stand(right)]

    def _quotient(self, node: Operation) -> Numbers:
        left, right = (self._finite(part, self._values(part)) for part in node.parts)
        bits = self._bits(node, left, right)
        if right.is_constant and right.known is None and right.are_whole and right.values[0]:
            # In units of one that many times smaller the numbers stay whole.
            divisor = int(right.values[0])
            found = combined(operator.mul, left, Numbers([1 if divisor > 0 else -1], is_constant=True), (right.scale, 1), left.scale * abs(divisor))
            return replace(found, bits=bits)
        known = both_known(left.known, right.known)
        zeros = bytes([value == 0 for value in right.values]) * (self._moment.count if right.is_constant else 1)
        place = (zeros if known is None else joined(operator.and_, zeros, known)).find(1)
        if place >= 0:
            refuse(self._text, node.place, f"row {self._moment.called(place)} has 0 behind the /, by which nothing is divided: leave such rows out by where=")

        def quotient(a: Any, b: Any) -> Rational:
            found = Fraction(a * right.scale, b * left.scale) if b else Fraction(0)     # where one of them is missing
            return found.numerator if found.denominator == 1 else found

        return replace(combined(quotient, left, right, (1, 1), 1), are_whole=False, bits=bits)

    def _truths(self, node: Node) -> Union[Truths, Within]:
        return self._as_truths(node, self._values(node))

    def _as_truths(self, node: Node, found: Values) -> Union[Truths, Within]:
        if isinstance(found, Literal) and found.kind == "truth":
            true = bytes([WORDS[found.text.lower()]]) * self._moment.count
            return Truths.of(true, None)
        if isinstance(found, NoValues):
            return self._gaps()
        if not isinstance(found, (Truths, Within)):
            refuse(self._text, node.place, f"{self._shown(node, found)}, and {OF_CONDITIONS}")
        return found

    def _logic(self, node: Operation) -> Union[Truths, Within]:
        parts = [self._truths(part) for part in node.parts]
        if node.name == "not":
            return parts[0].inverse()
        is_and = node.name == "and"
        said: Dict[int, List[Within]] = defaultdict(list)       # of one column, by its identity
        others: List[Truths] = []
        for part in parts:
            if isinstance(part, Truths):
                others.append(part)
            else:
                said[id(part.column)].append(part)
        ranges = list(map(Within.all_of if is_and else Within.any_of, said.values()))
        if not others and len(ranges) == 1:
            return ranges[0]
        return reduce(Truths.both if is_and else Truths.either, [*map(self._masks, ranges), *others])

    def _missing(self, node: Node) -> Union[Truths, Within]:
        found = self._values(node)
        if isinstance(found, Literal):
            refuse(self._text, node.place, "a value that is written is never missing")
        if isinstance(found, NoValues):
            return self._gaps().missing()
        if isinstance(found, (Others, NumberColumn)):
            return Within(found.column, MISSING, VALUES)
        if isinstance(found, Within):
            return Within(found.column, complement(found.known), found.known)
        if isinstance(found, Truths):
            return found.missing()
        known = bytes([1]) * self._moment.count if found.known is None else found.known
        return Truths.of(known, None).inverse()

    def _compared(self, node: Comparison) -> Union[Truths, Within]:
        left, right = self._values(node.left), self._values(node.right)
        if isinstance(left, Literal) and isinstance(right, Literal):
            refuse(self._text, node.place, "two values that are written are compared")
        if NoValues in (type(left), type(right)):
            return self._gaps()
        if isinstance(left, Others) and isinstance(right, Literal):
            return self._with_literal(node.sign, left, right)
        if isinstance(left, Literal) and isinstance(right, Others):
            return self._with_literal(TURNED.get(node.sign, node.sign), right, left)
        if isinstance(left, Others) and isinstance(right, Others):
            return self._two_columns(node, left, right)
        if any(isinstance(side, (Truths, Within)) for side in (left, right)):
            return self._two_truths(node, left, right)
        return self._two_numbers(node, left, right)

    def _two_numbers(self, node: Comparison, left: Values, right: Values) -> Union[Truths, Within]:
        if isinstance(left, NumberColumn) and isinstance(right, NumberColumn) and isinstance(left.column.kind, Floats) and isinstance(right.column.kind, Floats):
            # The numbers in the table have the order of the floats.
            return self._holds(node.sign, self._as_they_stand(left), self._as_they_stand(right))
        for sign, side, other, place in ((node.sign, left, right, node.right), (TURNED.get(node.sign, node.sign), right, left, node.left)):
            if isinstance(side, NumberColumn) and not isinstance(other, NumberColumn):
                constant = self._numbers(place, other)
                if constant.is_constant and constant.known is None:
                    return Within.of(side.column, beside(sign, position_in(side.column, constant)))
        return self._holds(node.sign, self._numbers(node.left, left), self._numbers(node.right, right))

    def _holds(self, sign: str, left: Numbers, right: Numbers) -> Truths:
        """Whether a comparison holds, row by row."""
        scale = math.lcm(left.scale, right.scale)
        found = combined(COMPARE[sign], left, right, (scale // left.scale, scale // right.scale), 1)
        return Truths.of(bytes(found.values) * (self._moment.count if found.is_constant else 1), found.known)

    def _two_truths(self, node: Comparison, left: Values, right: Values) -> Union[Truths, Within]:
        if node.sign not in ("=", "<>"):
            refuse(self._text, node.place, f"{node.sign} compares numbers, dates and so on: of true and false write = or <>")
        for found, beside, written in ((left, node.left, right), (right, node.right, left)):
            if isinstance(written, Literal):
                truths = self._as_truths(beside, found)
                return truths if self._truth_of(written, beside) == (node.sign == "=") else truths.inverse()
        alike = self._masks(self._as_truths(node.left, left)).alike(self._masks(self._as_truths(node.right, right)))
        return alike if node.sign == "=" else alike.inverse()

    def _truth_of(self, written: Literal, beside: Node) -> bool:
        """What a word says, true or false. Beside a column it says what the column's own words do, as in pos(..): of the kind bool(no, yes), `no` is true."""
        column = beside.column if isinstance(beside, Named) else None
        if column is None or not isinstance(column.kind, Booleans):
            self._as_truths(written, written)       # which refuses a text and a number
            return WORDS[written.text.lower()]
        try:
            return bool(column.kind.read(written.text))
        except ValueError as why:
            refuse(self._text, written.place, f"column {column.name!r} ({column.kind}): {why}")

    def _with_literal(self, sign: str, column: Others, literal: Literal) -> Within:
        """A column of texts, dates and so on beside a value that is written."""
        kind = column.column.kind
        self._check_order(sign, column, literal.place)
        if literal.kind != "text":
            refuse(self._text, literal.place, f"column {column.column.name!r} ({kind}) is compared with a value in quotes, such as {kind.example}")
        try:
            wanted = kind.find(literal.text) if isinstance(kind, (Texts, Choices)) else kind.position(literal.text)
        except (TypeError, ValueError) as why:
            refuse(self._text, literal.place, f"column {column.column.name!r} ({kind}): {why}")
        if wanted is None:
            self.absent.append((column.column, literal.text))
            return Within.of(column.column, VALUES if sign == "<>" else [])
        return Within.of(column.column, beside(sign, Fraction(wanted)))

    def _two_columns(self, node: Comparison, left: Others, right: Others) -> Truths:
        if not self._are_alike(left, right):
            refuse(self._text, node.place, f"columns {left.column.name!r} ({left.column.kind}) and {right.column.name!r} ({right.column.kind}) are not compared")
        self._check_order(node.sign, left, node.place)
        return self._holds(node.sign, self._as_they_stand(left), self._as_they_stand(right))

    def _check_order(self, sign: str, column: Others, place: int) -> None:
        if sign not in ("=", "<>"):
            check_order(self._text, column.column, place, "write =, <> or in (..)")

    def _are_alike(self, left: Others, right: Others) -> bool:
        """Whether the numbers of two columns stand for the same values."""
        kinds = left.column.kind, right.column.kind
        if isinstance(kinds[0], Times) and isinstance(kinds[1], Times):
            return (kinds[0].zone is None) == (kinds[1].zone is None)
        return type(kinds[0]) is type(kinds[1]) and (not isinstance(kinds[0], Choices) or repr(kinds[0]) == repr(kinds[1]))

    def _no_numbers(self) -> Numbers:
        """A number for each row, none of which is known."""
        return Numbers([0], known=bytes(self._moment.count), is_constant=True)

    def _gaps(self) -> Truths:
        """A truth value for each row, none of which is known."""
        return Truths(bytes(self._moment.count), bytes(self._moment.count))

    def _shown(self, node: Node, found: Values) -> str:
        """What an expression is, in a message."""
        if isinstance(found, Others):
            check_kind_is_known(self._text, found.column, node.place)
            return f"column {found.column.name!r} has the kind {found.column.kind}"
        if isinstance(found, Literal):
            return f"{found.text!r} is a {'truth value' if found.kind == 'truth' else found.kind}"
        what = "true or false" if isinstance(found, (Truths, Within)) else "a number"
        return f"column {node.column.name!r} is {what}" if isinstance(node, Named) else f"this is {what}"


def is_time(found: Values) -> bool:
    """Whether these are dates or times."""
    return isinstance(found, Others) and isinstance(found.column.kind, (Dates, Times))
