"""Questions of frames, in which an expression may stand in the place of a column: `low(Price / Stars)`, `true(Stars >= 4 and City = 'Lyon')`.

An expression is read by the reader of the question, so that what is wrong in it is refused at its place too. Beside it a question of a frame may have `|`, by which a
row is better where it is better in both, and `empty()`, by which all rows are equally good: with another term it is that one. What an expression means is said in
`computed`.

    or   and   not   = == <> != < <= > >= in is   + -   * /   -   abs(x) min(x, y) max(x, y)
"""
from contextlib import contextmanager
from dataclasses import dataclass, replace
from typing import Callable, Dict, Iterator, List, Optional, Sequence, Tuple, Union

from .checks import checked_text
from .columns import Column, quoted
from .hints import IN_EXPRESSIONS, OF_FRAMES, WORDS_OF_MISSING, nearest, unknown_column
from .kinds.booleans import WORDS
from .questions import BASE_TERMS, DEEPEST, SIGNS, TOO_DEEP, UNKNOWN_COLUMN, Base, Converse, Mode, Question, Reader, Term, Token, product, refuse

FUNCTIONS = {"abs": 1, "min": 2, "max": 2}      # with the fewest arguments
COMPARISONS = ("<=", ">=", "<>", "!=", "==", "<", ">", "=")
# What is read and computed by functions that call themselves stays far from the depth that Python has.
DEEPEST_IN_AN_EXPRESSION = 24
MOST_IN_A_ROW = 64
AN_OPERAND = "a column, a number, abs(..), min(..), max(..), - or ("
# What `empty()` is about, as long as it is not known whether anything else is asked.
NO_COLUMN = Column("", "whole")


@dataclass(frozen=True)
class Literal:
    """A value that is written in an expression: a "number", a "text" or a "truth"."""

    kind: str
    text: str
    place: int


@dataclass(frozen=True)
class Named:
    """A column."""

    column: Column
    place: int


@dataclass(frozen=True)
class Operation:
    """What is made of some parts: by + - * / of numbers, by a function, by "and", "or", "not", or by "missing" of one."""

    name: str
    parts: Tuple["Node", ...]
    place: int


@dataclass(frozen=True)
class Comparison:
    """Whether a part is =, <>, <, <=, > or >= another one."""

    sign: str
    left: "Node"
    right: "Node"
    place: int


Node = Union[Literal, Named, Operation, Comparison]
# What makes a column of an expression, of its text and of its place in the question.
Make = Callable[[Node, str, int], Column]


def unmade(node: Node, text: str, place: int) -> Column:
    """The column of an expression, of which nothing is computed yet."""
    is_truth = isinstance(node, Comparison) or isinstance(node, Operation) and node.name in ("and", "or", "not", "missing")
    return Column(text, "bool" if is_truth else "whole")


def read_frames_question(question: str, column: Callable[[str], Optional[Column]], names: Sequence[str], mode: Optional[Mode] = None, make: Make = unmade) -> Question:
    """The tree of a question of a frame. Where a mode is given, the question may do without one."""
    return FrameReader(checked_text(question, "a question"), column, names, make).question(mode)


def read_condition(text: str, column: Callable[[str], Optional[Column]], names: Sequence[str]) -> Node:
    """The tree of a condition that stands alone."""
    return FrameReader(text, column, names, unmade).condition()


def is_empty(term: Term) -> bool:
    """Whether a term is `empty()`."""
    return isinstance(term, Base) and term.word == "empty"


def without_empty(term: Term) -> Term:
    """A term without any `empty()`, which with another term is that one; where there is nothing else, it is one alone."""
    if isinstance(term, Converse):
        part = without_empty(term.part)
        return part if is_empty(part) else Converse(part)
    if isinstance(term, Base):
        return term
    parts = [without_empty(part) for part in term.parts]
    return product(term.sign, [part for part in parts if not is_empty(part)] or parts[:1])


def columns_of(node: Node) -> Iterator[Column]:
    """The columns that an expression names, in its order."""
    if isinstance(node, Named):
        yield node.column
    for part in node.parts if isinstance(node, Operation) else (node.left, node.right) if isinstance(node, Comparison) else ():
        yield from columns_of(part)


class FrameReader(Reader):
    """Reads a question of a frame from the left."""

    signs = ("|", *Reader.signs)
    hints = OF_FRAMES
    terms, said_of_signs = f"{BASE_TERMS}, true(..)", f"{SIGNS}, | (better in both)"

    def __init__(self, question: str, column: Callable[[str], Optional[Column]], names: Sequence[str], make: Make) -> None:
        super().__init__(question, column, names)
        self._make = make
        self._nested = 0
        # How many operations stand in one another, by the identity of the outermost.
        self._heights: Dict[int, int] = {}

    def question(self, mode: Optional[Mode]) -> Question:
        found = super().question(mode)
        term = without_empty(found.term)
        return replace(found, term=self._of_a_column(term, found.by) if isinstance(term, Base) and is_empty(term) else term)

    def condition(self) -> Node:
        """The text as a whole as one condition."""
        self.hints = IN_EXPRESSIONS
        node = self._or()
        if self._next.kind != "end":
            self._unexpected("and, or, a comparison or the end")
        self._check_named(node, 0)
        return node

    def _base(self) -> Base:
        token = self._next
        if token.kind == "word" and self._is_called() and token.text in ("true", "empty"):
            self._at += 1
            self._need("(")
            column = self._expression() if token.text == "true" else NO_COLUMN
            self._need(")")
            found = Base(token.text, column, (), token.place)
        else:
            found = super()._base()
        self.hints = OF_FRAMES
        return found

    def _of_a_column(self, empty: Base, by: Sequence[Column]) -> Base:
        """What is asked where there is nothing but `empty()`. By a set without values all rows are the same, whatever the column is: one of the groups, or the first by
        name, in whatever order a part has them."""
        column = by[0] if by else self._column(min(self._names)) if self._names else None
        if column is None:
            refuse(self._question, empty.place, "empty() needs a frame with a column")
        return Base("pos", column, ((),), empty.place)

    def _operand(self) -> Column:
        """The name of a column stands alone, whatever word it is; else this is an expression."""
        after = self._ahead(1)
        is_alone = self._next.is_name() and after.kind == "sign" and after.text in ",)"
        return self._name() if is_alone else self._expression()

    def _name(self) -> Column:
        token = self._next
        if token.kind == "name" and set(token.text) & set("+-*/<>=") and self._column(token.text) is None:
            refuse(self._question, token.place, f"an expression has no quotes, in Python expr(..) around it, and there is {unknown_column(token.text, self._names)}",
                   UNKNOWN_COLUMN)
        return super()._name()

    def _expression(self) -> Column:
        first = self._next
        self.hints = IN_EXPRESSIONS
        node = self._or()
        last = self._tokens[self._at - 1]
        self._check_named(node, first.place)
        return node.column if isinstance(node, Named) else self._make(node, self._question[first.place:last.place + last.length], first.place)

    def _check_named(self, node: Node, place: int) -> None:
        if next(columns_of(node), None) is None:
            refuse(self._question, place, "an expression names a column")

    def _or(self) -> Node:
        return self._joined("or", lambda: self._joined("and", self._not))

    def _joined(self, word: str, part: Callable[[], Node]) -> Node:
        place = self._next.place
        parts = self._several(part, lambda: self._takes_word(word) is not None)
        return parts[0] if len(parts) == 1 else self._operation(word, parts, place)

    def _not(self) -> Node:
        token = self._next
        if not self._takes_word("not"):
            return self._comparison()
        with self._inside_of(token):
            return self._operation("not", [self._not()], token.place)

    def _comparison(self) -> Node:
        """Comparisons in a chain, as 3 <= Stars < 5, hold where each of them does."""
        left = self._sum()
        found: List[Node] = []
        while True:
            token = self._next
            sign = next((sign for sign in COMPARISONS if self._takes_strange(sign)), None)
            if sign is None:
                break
            right = self._sum()
            found.append(self._compared(sign, left, right, token.place))
            left = right
        if found:
            return found[0] if len(found) == 1 else self._operation("and", found, found[0].place)
        return self._member(left)

    def _member(self, node: Node) -> Node:
        token = self._next
        if self._takes_word("is"):
            is_not = self._takes_word("not") is not None
            if not self._takes_word(*WORDS_OF_MISSING):
                self._unexpected("missing or not missing")
            found: Node = self._operation("missing", [node], token.place)
        else:
            is_not = (token.kind, token.text.lower()) == ("word", "not") and self._ahead(1).text.lower() == "in"
            self._at += is_not
            if not self._takes_word("in"):
                return node
            found = self._values_in(node, token.place)
        return self._operation("not", [found], token.place) if is_not else found

    def _values_in(self, node: Node, place: int) -> Node:
        self._need("(")
        values = self._listed(self._sum)
        self._need(")")
        return self._operation("or", [self._compared("=", node, value, place) for value in values], place)

    def _sum(self) -> Node:
        return self._operations(("+", "-"), lambda: self._operations(("*", "/"), self._signed))

    def _operations(self, signs: Tuple[str, ...], part: Callable[[], Node]) -> Node:
        node = part()
        while True:
            token = self._next
            sign = next((sign for sign in signs if self._takes(sign) or self._takes_strange(sign)), None)
            if sign is None:
                return node
            node = self._operation(sign, [node, part()], token.place)

    def _signed(self) -> Node:
        token = self._next
        if not self._takes("-"):
            return self._primary()
        with self._inside_of(token):
            return self._operation("-", [Literal("number", "0", token.place), self._signed()], token.place)

    def _primary(self) -> Node:
        token = self._next
        if self._takes("("):
            with self._inside_of(token):
                node = self._or()
            if not self._takes(")"):
                self._unexpected("an operator or a )")
            return node
        if token.kind == "number":
            return Literal("number", self._take().text, token.place)
        if token.kind in ("text", "date"):
            return Literal("text", self._take().text, token.place)
        if token.kind == "word" and self._is_called():
            return self._call()
        if token.kind == "word" and token.text.lower() in WORDS and self._column(token.text) is None:
            return Literal("truth", self._take().text, token.place)
        if not token.is_name():
            self._unexpected(AN_OPERAND)
        if self._column(token.text) is None and nearest(token.text, self._names) is None:
            instead = "Write is missing" if token.text.lower() in (*WORDS_OF_MISSING, "nan") else f"A text stands in single quotes, {quoted(token.text)}"
            refuse(self._question, token.place, f"{unknown_column(token.text, self._names)}. {instead}", UNKNOWN_COLUMN)
        return Named(self._name(), token.place)

    def _call(self) -> Node:
        token = self._next
        fewest = FUNCTIONS.get(token.text)
        if fewest is None:
            there = ", ".join(FUNCTIONS)
            refuse(self._question, token.place, f"there is no function {token.text!r}; there are {there}: add a column with {token.text}(..)", UNKNOWN_COLUMN)
        self._at += 1
        self._need("(")
        with self._inside_of(token):
            parts = [self._sum()] if fewest == 1 else list(self._listed(self._sum))
        if len(parts) < fewest:
            self._unexpected("a , and another number")
        self._need(")")
        return self._operation(token.text, parts, token.place)

    def _operation(self, name: str, parts: Sequence[Node], place: int) -> Operation:
        node = Operation(name, tuple(parts), place)
        self._measure(node, parts, place)
        return node

    def _compared(self, sign: str, left: Node, right: Node, place: int) -> Comparison:
        node = Comparison({"==": "=", "!=": "<>"}.get(sign, sign), left, right, place)
        self._measure(node, (left, right), place)
        return node

    def _measure(self, node: Node, parts: Sequence[Node], place: int) -> None:
        height = 1 + max(self._heights.get(id(part), 0) for part in parts)
        if height > MOST_IN_A_ROW:
            refuse(self._question, place, f"more than {MOST_IN_A_ROW} operations on one another", TOO_DEEP)
        self._heights[id(node)] = height

    @contextmanager
    def _inside_of(self, token: Token) -> Iterator[None]:
        """What stands behind a sign, or in the parentheses that a token opens."""
        self._nested += 1
        if self._nested > DEEPEST_IN_AN_EXPRESSION:
            refuse(self._question, token.place, f"more than {DEEPEST_IN_AN_EXPRESSION} nestings in an expression", TOO_DEEP)
        if self._depth + self._nested > DEEPEST:    # with those of the term around it
            refuse(self._question, token.place, f"more than {DEEPEST} nestings", TOO_DEEP)
        yield
        self._nested -= 1

    def _takes_strange(self, sign: str) -> bool:
        """Takes a sign that the program's language does not have, of one character or two, if it is next."""
        tokens = [self._ahead(step) for step in range(len(sign))]
        is_next = all((token.kind, token.text, token.place) == ("strange", letter, tokens[0].place + step) for step, (token, letter) in enumerate(zip(tokens, sign)))
        self._at += len(sign) * is_next
        return is_next
