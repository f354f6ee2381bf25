"""Random questions in which expressions, conditions, `|` and `empty()` stand anywhere in a term, beside a plain evaluation of the same on Python's values.

Nothing of the package is used here. What an expression has in a row is a value of that row, under its text (`Nested.valued`).
"""
import datetime
from fractions import Fraction

import plain
import plain_expressions
import random_frames
from plain_expressions import Part, both, compare, inverse


class Conditions(plain_expressions.Expressions):
    """Conditions that also compare two columns with each other, truths with truths, and numbers with lists; and distances of dates and times."""

    def named(self, *kinds):
        return [name for name, kind in self.columns.items() if isinstance(kind, kinds)]

    def simple(self):
        further = [make for make in (self.two_columns, self.two_truths, self.distance, self.numbers_in, self.moments_in_a_chain) if self.random.random() < 0.3]
        found = self.random.choice(further)() if further else None
        return super().simple() if found is None else found

    def two_columns(self):
        """Two columns that have values of one kind and no numbers."""
        pairs = [(one, other) for one in self.columns for other in self.columns if self.are_alike(self.columns[one], self.columns[other])]
        if not pairs:
            return None
        one, other = self.random.choice(pairs)
        kind = self.columns[one]
        signs = ["=", "==", "<>", "!="] if not kind.ordered else ["=", "<>", "<", "<=", ">", ">="]
        order, sign = kind.order or (lambda value: value), self.random.choice(signs)
        return Part(f"{self.names(one)} {sign} {self.names(other)}", lambda row: compare(sign, *(None if row[name] is None else order(row[name]) for name in (one, other))))

    def are_alike(self, one, other):
        if type(one) is not type(other) or not isinstance(one, (random_frames.Dates, random_frames.Times, random_frames.Clock, random_frames.Texts)):
            return False
        if isinstance(one, random_frames.Choice):
            return one is other
        return not isinstance(one, random_frames.Times) or (one.zone is None) == (other.zone is None)

    def two_truths(self):
        """Whether two conditions are both true or both false, or a condition is what a word says."""
        one = super().simple()
        if self.random.random() < 0.5:
            word = self.random.choice(["true", "false"])
            return Part(f"({one.text}) = {word}", lambda row: compare("=", one.of(row), word == "true")) if "not" not in one.text[:3] else None
        other, sign = super().simple(), self.random.choice(["=", "<>"])
        return Part(f"({one.text}) {sign} ({other.text})", lambda row: compare(sign, one.of(row), other.of(row)))

    def distance(self):
        """The days between two dates, or the seconds between two times."""
        found = self.moments()
        if found is None:
            return None
        sign, other = self.random.choice(["<", ">", "=", "<>"]), self.constant()
        return Part(f"{found.text} {sign} {other.text}", lambda row: compare(sign, found.of(row), other.of(row)))

    def moments(self):
        """The distance of two dates or two times."""
        pairs = [(one, other) for one in self.columns for other in self.columns
                 if isinstance(self.columns[one], (random_frames.Dates, random_frames.Times)) and self.are_alike(self.columns[one], self.columns[other])]
        if not pairs:
            return None
        one, other = self.random.choice(pairs)

        def of(row):
            if row[one] is None or row[other] is None:
                return None
            found = row[one] - row[other]
            return Fraction(found.days) if isinstance(self.columns[one], random_frames.Dates) else Fraction(found // datetime.timedelta(microseconds=1), 10**6)

        return Part(f"{self.names(one)} - {self.names(other)}", of)

    def number(self, depth):
        found = self.moments() if depth and self.random.random() < 0.15 else None
        if found is None and not self.numbers:
            found = self.moments() or self.constant()
        if found is not None:
            return Part(f"({found.text})", found.of)
        return super().number(depth)

    def numbers_in(self):
        if not self.numbers:
            return None
        one, is_not = self.number(1), self.random.random() < 0.5
        others = [self.number(1) for _ in range(self.random.randrange(1, 3))]

        def of(row):
            found = False
            for other in others:
                found = inverse(both(inverse(found), inverse(compare("=", one.of(row), other.of(row)))))
            return inverse(found) if is_not else found

        return Part(f"{one.text} {'not ' * is_not}in ({', '.join(other.text for other in others)})", of)

    def moments_in_a_chain(self):
        """A column of dates, times, times of day or choices between two values."""
        names = [name for name in self.named(random_frames.Dates, random_frames.Times, random_frames.Clock, random_frames.Choice) if self.columns[name].ordered]
        if not names:
            return None
        name = self.random.choice(names)
        kind = self.columns[name]
        order = kind.order or (lambda value: value)
        ends = [kind.draw(self.random) for _ in range(2)]
        signs = [self.random.choice(["<", "<=", ">", ">=", "=", "<>"]) for _ in range(2)]

        def of(row):
            value = None if row[name] is None else order(row[name])
            return both(compare(signs[0], order(ends[0]), value), compare(signs[1], value, order(ends[1])))

        return Part(f"{self.quoted(kind.word(ends[0]))} {signs[0]} {self.names(name)} {signs[1]} {self.quoted(kind.word(ends[1]))}", of)


class Nested(random_frames.Questions):
    """Questions whose base terms may be about what is computed."""

    def __init__(self, random, columns):
        super().__init__(random, columns)
        self.conditions = Conditions(random, columns)
        self.parts = []

    def base(self):
        choice = self.random.random()
        if choice < 0.12:
            return self.truth()
        if choice < 0.3 and (self.conditions.numbers or self.conditions.moments()):
            return self.computed()
        return super().base()

    def truth(self):
        part = self.conditions.condition(2)
        return plain.Layered(self.noted(part), f"true({part.text})", [[True]])

    def noted(self, part):
        """The name under which a row has what an expression has in it."""
        name = f"{len(self.parts)}: {part.text}"
        self.parts.append((name, part))
        return name

    def computed(self):
        part = self.conditions.number(2)
        while part.is_column or not any(sign in part.text for sign in '"`'):
            part = self.conditions.number(2)
        name = self.noted(part)
        first, last = sorted(self.random.choice([Fraction(0), Fraction(7, 2), Fraction(-100), Fraction(10**6), Fraction(1, 4)]) for _ in range(2))
        low, high = (f"{float(value)!r}" for value in (first, last))
        return self.random.choice([plain.Low(name, f"low({part.text})"), plain.High(name, f"high({part.text})"), plain.Between(name, f"between({part.text}, {low}, {high})", first, last),
                                   plain.Between(name, f"around({part.text}, {low})", first, first), plain.Layered(name, f"pos({part.text}, {low}, 1)", [[first, 1]]),
                                   plain.Layered(name, f"layered({part.text}, {{{low}}}, {{1, {high}}})", [[first], [1, last]])])

    def weak(self):
        """A term by which any two rows can be compared."""
        parts = [self.base() for _ in range(self.random.randrange(1, 3))]
        term = parts[0] if len(parts) == 1 else plain.Prior(" & ".join(part.text for part in parts), parts)
        return plain.Converse(f"-({term.text})", term) if self.random.random() < 0.3 else term

    def term(self, depth):
        choice = self.random.random()
        if depth and choice < 0.08:
            parts = [self.weak() for _ in range(self.random.randrange(2, 4))]
            return plain.Both("(" + " | ".join(f"({part.text})" for part in parts) + ")", parts)
        term = super().term(depth)
        if depth and choice > 0.93:
            text = self.random.choice(["(empty() {sign} ({term}))", "(({term}) {sign} -empty())", "(({term}) {sign} (empty() {sign} empty()))"])
            term.text = text.format(sign=self.random.choice("*&|"), term=term.text)
        return term

    def valued(self, rows, text):
        """Rows with what each expression of a text has in them. `plain_expressions.Nothing` is raised where one has no value in a row."""
        parts = [(name, part) for name, part in self.parts if part.text in text]
        return {id: {**row, **{name: part.of(row) for name, part in parts}} for id, row in rows.items()}
