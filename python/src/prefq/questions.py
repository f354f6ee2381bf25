"""Questions in a file's own names and values: their tokens, and the tree that they spell.

The grammar is that of docs/GUIDE.md. Beside it, a name may stand in double quotes or backticks, and a value may be a number with decimals, a date, true or
false, or a text in quotes. Whatever is wrong is refused at its place, with what could stand there.
"""
import re
from contextlib import suppress
from dataclasses import dataclass
from typing import Callable, Dict, List, Mapping, NamedTuple, NoReturn, Optional, Sequence, Tuple, TypeVar, Union

from .columns import Column, quoted
from .errors import Refused
from .hints import hint_for, hint_for_mode, hint_for_value, unknown_column
from .kinds import Choices, Texts
from .widening import Nothing

UNEXPECTED, UNKNOWN_COLUMN, NUMBER_RANGE, TOO_DEEP, TOO_LONG, BAD_COUNT, NO_MIN_OR_MAX, EMPTY_RANGE = 1, 2, 3, 4, 5, 6, 7, 9
DEEPEST = 64
MOST_LEVELS = 1000
LONGEST_EXAMPLE = 40
BASE_TERMS = "low(..), high(..), around(..), between(..), pos(..), layered(..)"
SIGNS = "* (both at once), & (the first decides)"
TOKEN = re.compile(r"""(?P<blank>[ \t\r\n]+)
    |(?P<name>"(?:[^"]|"")*"|`(?:[^`]|``)*`)
    |(?P<text>'(?:[^']|'')*')
    |(?P<date>\d{4}-\d\d-\d\d(?:T\d\d:\d\d(?::\d\d(?:\.\d+)?)?(?:Z|[+-]\d\d:?\d\d)?)?(?!\w))
    |(?P<number>\d+(?:\.\d+)?(?:[eE][+-]?\d+(?!\w))?)
    |(?P<word>[^\W\d][\w.]*)
    |(?P<sign>[(),*&{}-])
    |(?P<strange>.)""", re.VERBOSE | re.DOTALL)


class Token(NamedTuple):
    """A piece of a question: its kind, what it means, and where it stands, in characters."""

    kind: str
    text: str
    place: int
    length: int

    def is_name(self) -> bool:
        return self.kind in ("word", "name", "text")


class Value(NamedTuple):
    """A value of a question as it is written, without its quotes."""

    text: str
    place: int


@dataclass(frozen=True)
class Base:
    """A base term: its word, its column, and its values in sets (one for each but layered)."""

    word: str
    column: Column
    sets: Tuple[Tuple[Value, ...], ...]
    place: int


@dataclass(frozen=True)
class Product:
    """Terms of which all count (`*`), of which the first that sees a difference decides (`&`), or by all of which a row is to be better (`|`, in questions of frames)."""

    sign: str
    parts: Tuple["Term", ...]


@dataclass(frozen=True)
class Converse:
    """A term the other way round."""

    part: "Term"


Term = Union[Base, Product, Converse]
Part = TypeVar("Part")
# best, top_level or at_least, and its count, which is 1 for best.
Mode = Tuple[str, int]


@dataclass(frozen=True)
class Question:
    """A question: its mode with a count where it has one, its term, its groups; and whether of equal rows one is kept."""

    mode: str
    count: int
    term: Term
    by: Tuple[Column, ...]
    distinct: bool = False


def refuse(question: str, place: int, message: str, number: int = UNEXPECTED) -> NoReturn:
    """Refuses a question at a character of it."""
    raise Refused(message, "term", number, len(question[:place].encode(errors="replace")), question)


def product(sign: str, parts: Sequence[Term]) -> Term:
    """The product of some terms, of which one may stand alone."""
    return parts[0] if len(parts) == 1 else Product(sign, tuple(parts))


def tokens_of(question: str) -> List[Token]:
    """The tokens of a question, and one for its end."""
    tokens = []
    for found in TOKEN.finditer(question):
        kind, text = found.lastgroup or "", found[0]
        if kind in ("name", "text"):
            text = text[1:-1].replace(text[0] * 2, text[0])
        if kind != "blank":
            tokens.append(Token(kind, text, found.start(), len(found[0])))
    return [*tokens, Token("end", "", len(question), 0)]


def read_question(question: str, column: Callable[[str], Optional[Column]], names: Sequence[str]) -> Question:
    """The tree of a question."""
    return Reader(question, column, names).question(None)


def names_asked_for(names: Sequence[str], *reads: Callable[[Callable[[str], Optional[Column]]], object]) -> List[str]:
    """Those of these names for which each reading asks. What is wrong is refused where it is read with the kinds of their columns."""
    found: Dict[str, None] = {}

    def column(name: str) -> Optional[Column]:
        if name not in names:
            return None
        found[name] = None
        return Column(name, Nothing())

    for read in reads:
        with suppress(Refused):
            read(column)
    return list(found)


def explained(why: Refused, columns: Sequence[str]) -> Refused:
    """The program's refusal of a question about whole numbers, with what could stand at its place, or the name that is meant."""
    if why.kind == "term" and why.question is not None:
        try:
            read_question(why.question, {name: Column(name, "whole") for name in columns}.get, columns)
        except Refused as better:
            if (better.number, better.place) == (why.number, why.place):
                return better
    return why


def value_of(column: Column) -> str:
    """What could stand in the place of a value: one of the column's own, where these are texts, else how one is written."""
    texts = column.kind.texts if isinstance(column.kind, (Choices, Texts)) else []
    short = next((text for text in texts if text.strip() and len(text) <= LONGEST_EXAMPLE), None)
    return f"a value of {column.name!r}, " + (f"written like {column.kind.example}" if short is None else f"such as {quoted(short)}")


class Reader:
    """Reads a question from the left."""

    # The signs between terms, of which a later one holds more tightly.
    signs: Tuple[str, ...] = ("&", "*")
    # Hints beside those of the program's language, by what is written.
    hints: Mapping[str, str] = {}
    # What could stand at a place, as it is said.
    terms, said_of_signs = BASE_TERMS, SIGNS

    def __init__(self, question: str, column: Callable[[str], Optional[Column]], names: Sequence[str]) -> None:
        self._question, self._column, self._names = question, column, names
        self._tokens = tokens_of(question)
        self._at = 0
        self._depth = 0

    @property
    def _next(self) -> Token:
        return self._tokens[self._at]

    def _ahead(self, steps: int) -> Token:
        return self._tokens[min(self._at + steps, len(self._tokens) - 1)]

    def _take(self) -> Token:
        token = self._next
        self._at += token.kind != "end"
        return token

    def _takes(self, text: str, kind: str = "sign") -> bool:
        """Takes this sign, or another token, if it is next."""
        if (self._next.kind, self._next.text) != (kind, text):
            return False
        self._at += 1
        return True

    def _several(self, part: Callable[[], Part], goes_on: Callable[[], bool]) -> List[Part]:
        """One part, and further ones as long as it goes on."""
        found = [part()]
        while goes_on():
            found.append(part())
        return found

    def _listed(self, part: Callable[[], Part]) -> Tuple[Part, ...]:
        """Parts with commas between them."""
        return tuple(self._several(part, lambda: self._takes(",")))

    def _takes_word(self, *words: str) -> Optional[str]:
        """Takes one of these words, in any case, if it is next."""
        if self._next.kind != "word" or self._next.text.lower() not in words:
            return None
        return self._take().text.lower()

    def _is_called(self) -> bool:
        """Whether the next token is called as a function."""
        after = self._ahead(1)
        return (after.kind, after.text) == ("sign", "(")

    def _unexpected(self, could: str, hint: str = "") -> NoReturn:
        token = self._next
        if token.kind == "strange" and token.text in "\"'`":
            refuse(self._question, token.place, f"the quote {token.text} is not closed")
        written = self._question[token.place:token.place + token.length]
        # Of a sign that nobody sees, as a blank that takes no new line, the number is said.
        shown = ascii(written) if token.kind == "strange" and not written.isprintable() else written
        found = "the question breaks off" if token.kind == "end" else f"unexpected {shown}"
        hint = hint or hint_for(token.kind, token.text, could, self._names, self.hints)
        refuse(self._question, token.place, f"{found}{': ' * bool(hint)}{hint}{'.' * (hint[-1:] != '?')} Here could stand {could}")

    def _need(self, sign: str) -> None:
        if not self._takes(sign):
            self._unexpected({")": "a )", "(": "a (", ",": "a ,", "{": "a {", "}": "a , or a }"}[sign])

    def question(self, mode: Optional[Mode]) -> Question:
        if self._takes_word("skyline"):
            if not self._takes_word("of"):
                self._unexpected("of")
            return self._clause()
        name, count = self._mode(mode)
        term = self._prior()
        by = self._listed(self._name) if self._takes("by", "word") else ()
        if self._next.kind != "end":
            self._unexpected("a , or the end" if by else f"{self.said_of_signs}, by or the end")
        return Question(name, count, term, by)

    def _mode(self, mode: Optional[Mode]) -> Mode:
        word = self._next.text if self._next.kind == "word" else ""
        if word in ("best", "top_level", "at_least"):
            self._at += 1
            return word, 1 if word == "best" else self._count()
        if mode is None:
            hint = hint_for_mode(self._question, self._next.kind, self._next.text, self._names)
            refuse(self._question, self._next.place, f"a question begins with best, top_level K, at_least K or skyline of{hint}")
        return mode

    def _count(self) -> int:
        token = self._next
        if token.kind != "number" or not token.text.isdigit():
            self._unexpected("a count from 1 to 1000")
        digits = token.text.lstrip("0")
        count = int(digits) if 0 < len(digits) <= len(str(MOST_LEVELS)) else 0
        if not 1 <= count <= MOST_LEVELS:
            shown = token.text if len(token.text) <= LONGEST_EXAMPLE else f"{token.text[:LONGEST_EXAMPLE]}.. of {len(token.text)} digits"
            refuse(self._question, token.place, f"the count is {shown}", BAD_COUNT)
        self._at += 1
        return count

    def _name(self) -> Column:
        token = self._next
        if not token.is_name():
            self._unexpected("the name of a column")
        column = self._column(token.text)
        if column is None:
            said = f"a question has no functions: add a column with {token.text}(..)" if self._is_called() else unknown_column(token.text, self._names)
            refuse(self._question, token.place, said, UNKNOWN_COLUMN)
        self._at += 1
        return column

    def _prior(self) -> Term:
        """Terms with signs between them. Only what stands in parentheses is read by a further call: the caller may be near to the depth that Python has."""
        parts: Dict[str, List[Term]] = {sign: [] for sign in self.signs}       # those that were read of the product that has this sign
        while True:
            term, token = self._unary(), self._next
            goes_on = token.kind in ("sign", "strange") and token.text in self.signs
            self._at += goes_on
            for sign in reversed(self.signs):
                parts[sign].append(term)
                if goes_on and sign == token.text:
                    break
                term, parts[sign] = product(sign, parts[sign]), []
            else:
                return term

    def _unary(self) -> Term:
        token = self._next
        if self._takes("-"):
            self._deeper(token)
            term: Term = Converse(self._unary())
            self._depth -= 1
            return term
        if (token.kind, token.text) == ("sign", "("):
            return self._inside()
        if self._takes("reverse", "word"):
            return Converse(self._inside())
        return self._base()

    def _inside(self) -> Term:
        token = self._next
        self._need("(")
        self._deeper(token)
        term = self._prior()
        if not self._takes(")"):
            self._unexpected(f"{self.said_of_signs} or a )")
        self._depth -= 1
        return term

    def _deeper(self, token: Token) -> None:
        self._depth += 1
        if self._depth > DEEPEST:
            refuse(self._question, token.place, f"more than {DEEPEST} nestings", TOO_DEEP)

    def _base(self) -> Base:
        token = self._next
        if token.kind != "word" or token.text not in ("low", "high", "around", "between", "pos", "layered"):
            self._unexpected(f"{self.terms}, reverse(..), - or (")
        self._at += 1
        self._need("(")
        column = self._operand()
        sets: Tuple[Tuple[Value, ...], ...] = ()
        if token.text in ("around", "between"):
            values = []
            for _ in range(1 if token.text == "around" else 2):
                self._need(",")
                values.append(self._value(column))
            sets = (tuple(values),)
        elif token.text == "pos":
            self._need(",")
            sets = (self._values(column),)
        elif token.text == "layered":
            self._need(",")
            sets = self._listed(lambda: self._set(column))
        self._need(")")
        return Base(token.text, column, sets, token.place)

    def _operand(self) -> Column:
        """What a base term is about."""
        return self._name()

    def _set(self, column: Column) -> Tuple[Value, ...]:
        self._need("{")
        values = self._values(column)
        self._need("}")
        return values

    def _values(self, column: Column) -> Tuple[Value, ...]:
        return self._listed(lambda: self._value(column))

    def _value(self, column: Column) -> Value:
        place = self._next.place
        sign = "-" if self._takes("-") else ""
        token = self._next
        good = token.kind == "number" if sign else token.kind in ("number", "date", "text", "name")
        if not good and not (token.kind == "word" and column.kind.takes_words and not sign):
            self._unexpected(value_of(column), hint_for_value(token.kind, token.text, self._is_called()))
        self._at += 1
        return Value(sign + token.text, place)

    def _clause(self) -> Question:
        distinct = (self._next.kind, self._next.text.lower()) == ("word", "distinct") and self._ahead(1).is_name() and self._ahead(2).kind == "word"
        self._at += distinct
        parts: List[Term] = []
        by: List[Column] = []
        while True:
            place = self._next.place
            column = self._name()
            way = self._takes_word("min", "max", "diff")
            if way is None:
                self._unexpected("min, max or diff")
            if way == "diff":
                by.append(column)
            else:
                parts.append(Base("low" if way == "min" else "high", column, (), place))
            if not self._takes(","):
                break
        if self._next.kind != "end":
            self._unexpected("a , or the end")
        if not parts:
            refuse(self._question, 0, "the clause has no min or max", NO_MIN_OR_MAX)
        return Question("best", 1, product("*", parts), tuple(by), distinct)
