"""Random expressions and conditions over the columns of a frame, evaluated on Python's values row by row, as docs/PYTHON.md says what they mean.

Nothing of the package is used here. An expression has its text, and its value in a row: a Fraction or an infinite float, a truth value, or None where it is missing.
`Nothing` is raised where it has none.
"""
import math
from fractions import Fraction

import random_frames


class Nothing(Exception):
    """An expression has no value in a row."""


class Part:
    def __init__(self, text, of, is_column=False):
        self.text, self.of, self.is_column = text, of, is_column


def number(value):
    """The number of a value: of a float the one that is shown."""
    return value if value is None or isinstance(value, float) and math.isinf(value) else Fraction(repr(value) if isinstance(value, float) else value)


def finite(value):
    if isinstance(value, float):
        raise Nothing
    return value


def arithmetic(sign, a, b):
    a, b = finite(a), finite(b)
    if sign == "/" and b == 0 and a is not None:
        raise Nothing
    if a is None or b is None:
        return None
    return a + b if sign == "+" else a - b if sign == "-" else a * b if sign == "*" else a / b


def compare(sign, a, b):
    if a is None or b is None:
        return None
    return {"=": a == b, "==": a == b, "<>": a != b, "!=": a != b, "<": not a >= b, "<=": not a > b, ">": not a <= b, ">=": not a < b}[sign]


def both(a, b):
    return False if a is False or b is False else None if a is None or b is None else True


def inverse(a):
    return None if a is None else not a


class Expressions:
    """Random expressions about columns."""

    def __init__(self, random, columns):
        self.random, self.columns = random, columns
        self.names = random_frames.Questions(random, columns).quoted
        kinds = (random_frames.Whole, random_frames.Decimals, random_frames.Floats)
        self.numbers = [name for name, kind in columns.items() if isinstance(kind, kinds)]

    def column(self, name):
        return Part(self.names(name), lambda row: number(row[name]), is_column=True)

    def constant(self):
        text = self.random.choice(["0", "1", "2", "3", "7", "0.5", "1.25", "10", "100", "1e2", "2.50"])
        return Part(text, lambda row: Fraction(text))

    def number(self, depth):
        choice = self.random.random()
        if depth == 0 or choice < 0.3:
            return self.column(self.random.choice(self.numbers)) if self.random.random() < 0.7 else self.constant()
        if choice < 0.45:
            return self.called(depth)
        if choice < 0.55:
            part = self.number(depth - 1)
            return Part(f"-({part.text})", lambda row: arithmetic("-", Fraction(0), part.of(row)))
        sign = self.random.choice("+-*/")
        a, b = self.number(depth - 1), self.number(depth - 1)
        return Part(f"({a.text}) {sign} ({b.text})", lambda row: arithmetic(sign, a.of(row), b.of(row)))

    def called(self, depth):
        name = self.random.choice(["abs", "min", "max"])
        parts = [self.number(depth - 1) for _ in range(1 if name == "abs" else self.random.randrange(2, 4))]

        def of(row):
            values = [finite(part.of(row)) for part in parts]
            if None in values:
                return None
            return max(values[0], -values[0]) if name == "abs" else sorted(values)[0 if name == "min" else -1]

        return Part(f"{name}({', '.join(part.text for part in parts)})", of)

    def written(self):
        """A comparison of a column that has no numbers with a value."""
        name = self.random.choice([name for name in self.columns if name not in self.numbers])
        kind = self.columns[name]
        value = kind.draw(self.random)
        is_truth = isinstance(kind, random_frames.Booleans)
        signs = ["=", "==", "<>", "!="] if is_truth or not kind.ordered else ["=", "==", "<>", "!=", "<", "<=", ">", ">="]
        sign = self.random.choice(signs)
        order = kind.order or (lambda value: value)
        text = f"{self.names(name)} {sign} {'true' if value else 'false'}" if is_truth else f"{self.names(name)} {sign} {self.quoted(kind.word(value))}"
        return Part(text, lambda row: compare(sign, None if row[name] is None else order(row[name]), order(value)))

    def quoted(self, word):
        return word if word.startswith("'") else f"'{word}'"

    def member(self):
        name = self.random.choice([name for name, kind in self.columns.items() if not isinstance(kind, random_frames.Booleans) and name not in self.numbers])
        kind = self.columns[name]
        values = [kind.draw(self.random) for _ in range(self.random.randrange(1, 4))]
        is_not = self.random.random() < 0.5
        text = f"{self.names(name)} {'not ' * is_not}in ({', '.join(self.quoted(kind.word(value)) for value in values)})"
        return Part(text, lambda row: None if row[name] is None else (row[name] in values) != is_not)

    def missing(self):
        name = self.random.choice(list(self.columns))
        is_not = self.random.random() < 0.5
        return Part(f"{self.names(name)} is {'not ' * is_not}missing", lambda row: (row[name] is None) != is_not)

    def chain(self):
        a, b, c = (self.number(1) for _ in range(3))
        signs = [self.random.choice(["<", "<=", ">", ">=", "=", "<>"]) for _ in range(2)]

        def of(row):
            values = [part.of(row) for part in (a, b, c)]
            return both(compare(signs[0], values[0], values[1]), compare(signs[1], values[1], values[2]))

        return Part(f"{a.text} {signs[0]} {b.text} {signs[1]} {c.text}", of)

    def truth(self):
        """A column of true and false by itself."""
        name = self.random.choice([name for name, kind in self.columns.items() if isinstance(kind, random_frames.Booleans)])
        return Part(self.names(name), lambda row: row[name])

    def simple(self):
        others = [kind for name, kind in self.columns.items() if name not in self.numbers]
        made = [self.missing]
        made += [self.chain, self.comparison] if self.numbers else []
        made += [self.written] if others else []
        made += [self.member] if any(not isinstance(kind, random_frames.Booleans) for kind in others) else []
        made += [self.truth] if any(isinstance(kind, random_frames.Booleans) for kind in others) else []
        return self.random.choice(made)()

    def comparison(self):
        a, b = self.column(self.random.choice(self.numbers)), self.number(2)
        sign = self.random.choice(["=", "==", "<>", "!=", "<", "<=", ">", ">="])
        return Part(f"{a.text} {sign} {b.text}", lambda row: compare(sign, a.of(row), b.of(row)))

    def condition(self, depth=2):
        choice = self.random.random()
        if depth == 0 or choice < 0.4:
            return self.simple()
        a = self.condition(depth - 1)
        if choice < 0.6:
            return Part(f"{self.random.choice(['not', 'NOT'])} ({a.text})", lambda row: inverse(a.of(row)))
        b = self.condition(depth - 1)
        if choice < 0.8:
            return Part(f"({a.text}) and ({b.text})", lambda row: both(a.of(row), b.of(row)))
        return Part(f"({a.text}) or ({b.text})", lambda row: self.either(a.of(row), b.of(row)))

    def either(self, a, b):
        return inverse(both(inverse(a), inverse(b)))
