"""Questions: their texts by the grammar, or the first fault; and which row is better.

Written from docs/GUIDE.md alone, as plainly as Python allows, and sharing nothing with the program.
"""
import re
from dataclasses import dataclass

TOKEN = re.compile(rb"[ \t]*(?:(?P<word>[A-Za-z][A-Za-z0-9_.]*)|(?P<digits>[0-9]+)|(?P<sign>[(){},*&-])|(?P<end>\Z)|(?P<other>.))", re.S)
MOST_BYTES, MOST_OPEN, MOST_COUNT = 4096, 64, 1000


class Fault(Exception):
    """A question is refused with this number and text."""

    def __init__(self, number, text):
        super().__init__(text)
        self.number, self.text = number, text


@dataclass(frozen=True)
class Token:
    kind: str
    text: bytes
    at: int

    def unexpected(self):
        return Fault(1, f"unexpected at {self.at}")


def tokens_of(text):
    tokens, place = [], 0
    while not tokens or tokens[-1].kind != "end":
        found = TOKEN.match(text, place)
        tokens.append(Token(found.lastgroup, found[found.lastgroup], found.start(found.lastgroup)))
        place = found.end()
    return tokens


@dataclass(frozen=True)
class Base:
    """A base term: the score of a row, less is better."""

    column: int
    score: object

    def same(self, a, b):
        return self.score(a[self.column]) == self.score(b[self.column])

    def better(self, a, b):
        return self.score(a[self.column]) < self.score(b[self.column])


@dataclass(frozen=True)
class Pareto:
    p: object
    q: object

    def same(self, a, b):
        return self.p.same(a, b) and self.q.same(a, b)

    def better(self, a, b):
        p, q = self.p.better(a, b), self.q.better(a, b)
        return p and (q or self.q.same(a, b)) or q and self.p.same(a, b)


@dataclass(frozen=True)
class Prior(Pareto):
    def better(self, a, b):
        return self.p.better(a, b) or self.p.same(a, b) and self.q.better(a, b)


@dataclass(frozen=True)
class Converse:
    p: object

    def same(self, a, b):
        return self.p.same(a, b)

    def better(self, a, b):
        return self.p.better(b, a)


@dataclass(frozen=True)
class Question:
    term: object
    group: tuple
    mode: str
    count: int
    distinct: tuple = ()

    def in_one_group(self, a, b):
        return all(a[column] == b[column] for column in self.group)

    def dominates(self, x, y):
        """Whether one entry (id, row) dominates another; of twins the one with the smaller id does."""
        (i, a), (j, b) = x, y
        if self.distinct and i < j and all(a[column] == b[column] for column in self.distinct):
            return True
        return self.in_one_group(a, b) and self.term.better(a, b)

    def answer(self, entries):
        """The rows of the levels that are asked for, as (level, id, row), by taking each level away."""
        found, rest, level = [], list(entries), 0
        while rest and level < self.count:
            level += 1
            best = [y for y in rest if not any(self.dominates(x, y) for x in rest)]
            found += [(level, *entry) for entry in best if self.wants(found, level, entry)]
            rest = [entry for entry in rest if entry not in best]
        return sorted(found)

    def wants(self, found, level, entry):
        if self.mode != "at_least":
            return True
        return sum(f[0] < level and self.in_one_group(f[2], entry[1]) for f in found) < self.count


class Reader:
    def __init__(self, columns, text):
        if len(text) > MOST_BYTES:
            raise Fault(5, "too long")
        self.columns, self.tokens, self.place = columns, tokens_of(text), 0

    @property
    def next(self):
        return self.tokens[self.place]

    def take(self, kind, *texts):
        """The next token, which must be of this kind, and one of these texts where there are some."""
        token = self.next
        if token.kind != kind or texts and token.text not in texts:
            raise token.unexpected()
        self.place += 1
        return token

    def takes(self, kind, *texts):
        if self.next.kind != kind or self.next.text not in texts:
            return False
        self.place += 1
        return True

    def keyword(self, *words):
        """A word in any case."""
        token = self.next
        if token.kind != "word" or token.text.lower() not in words:
            raise token.unexpected()
        self.place += 1
        return token.text.lower()

    def column(self):
        token = self.take("word")
        if token.text not in self.columns:
            raise Fault(2, f"unknown column at {token.at}")
        return self.columns.index(token.text)

    def number(self):
        first = self.next
        sign = -1 if self.takes("sign", b"-") else 1
        value = sign * int(self.take("digits").text)
        if not -2**63 <= value < 2**63:
            raise Fault(3, f"number range at {first.at}")
        return value

    def listed(self, read):
        found = [read()]
        while self.takes("sign", b","):
            found.append(read())
        return found

    def question(self):
        if self.next.kind == "word" and self.next.text.lower() == b"skyline":
            return self.clause()
        mode, count = self.take("word", b"best", b"top_level", b"at_least").text.decode(), 1
        if mode != "best":
            digits = self.take("digits")
            count = int(digits.text)
            if not 1 <= count <= MOST_COUNT:
                raise Fault(6, f"bad count at {digits.at}")
        term = self.prior(0)
        group = self.listed(self.column) if self.takes("word", b"by") else []
        self.take("end")
        return Question(term, tuple(group), mode, count)

    def clause(self):
        self.keyword(b"skyline")
        self.keyword(b"of")
        is_distinct = self.next.text.lower() == b"distinct" and self.next.kind == "word" \
            and len(self.tokens) > self.place + 2 and self.tokens[self.place + 2].kind == "word"
        self.place += is_distinct
        dimensions = self.listed(lambda: (self.column(), self.keyword(b"min", b"max", b"diff")))
        self.take("end")
        terms = [base(word == b"max" and "high" or "low", column) for column, word in dimensions if word != b"diff"]
        if not terms:
            raise Fault(7, "no min or max")
        term = terms[0]
        for other in terms[1:]:
            term = Pareto(term, other)
        group = tuple(column for column, word in dimensions if word == b"diff")
        return Question(term, group, "best", 1, tuple(column for column, _ in dimensions) if is_distinct else ())

    def deeper(self, token, depth):
        if depth >= MOST_OPEN:
            raise Fault(4, f"too deep at {token.at}")
        return depth + 1

    def prior(self, depth):
        term = self.pareto(depth)
        while self.takes("sign", b"&"):
            term = Prior(term, self.pareto(depth))
        return term

    def pareto(self, depth):
        term = self.unary(depth)
        while self.takes("sign", b"*"):
            term = Pareto(term, self.unary(depth))
        return term

    def unary(self, depth):
        token = self.next
        if self.takes("sign", b"-"):
            return Converse(self.unary(self.deeper(token, depth)))
        return self.atom(depth)

    def in_parentheses(self, depth):
        token = self.take("sign", b"(")
        term = self.prior(self.deeper(token, depth))
        self.take("sign", b")")
        return term

    def atom(self, depth):
        if self.next.kind == "sign" and self.next.text == b"(":
            return self.in_parentheses(depth)
        word = self.take("word", b"reverse", b"low", b"high", b"around", b"pos", b"between", b"layered").text.decode()
        if word == "reverse":
            return Converse(self.in_parentheses(depth))
        self.take("sign", b"(")
        column = self.column()
        values = getattr(self, f"values_of_{word}")()
        self.take("sign", b")")
        return base(word, column, *values)

    def values_of_low(self):
        return ()

    values_of_high = values_of_low

    def values_of_around(self):
        self.take("sign", b",")
        return (self.number(),)

    def values_of_pos(self):
        self.take("sign", b",")
        return (self.listed(self.number),)

    def values_of_between(self):
        self.take("sign", b",")
        left = self.number()
        self.take("sign", b",")
        first = self.next
        right = self.number()
        if right < left:
            raise Fault(9, f"empty range at {first.at}")
        return left, right

    def values_of_layered(self):
        self.take("sign", b",")
        return (self.listed(self.number_set),)

    def number_set(self):
        self.take("sign", b"{")
        numbers = self.listed(self.number)
        self.take("sign", b"}")
        return numbers


def base(word, column, *values):
    scores = {
        "low": lambda v: v,
        "high": lambda v: -v,
        "around": lambda v: abs(v - values[0]),
        "pos": lambda v: v not in values[0],
        "between": lambda v: max(values[0] - v, v - values[1], 0),
        "layered": lambda v: next((n for n, numbers in enumerate(values[0]) if v in numbers), len(values[0])),
    }
    return Base(column, scores[word])


def read(columns, text):
    """The question that a text spells over these columns. Raises its first fault."""
    return Reader(columns, text).question()
