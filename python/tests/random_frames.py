"""Random frames of all kinds of columns, and random questions about them, by a seed."""
import datetime
from decimal import Decimal

from plain import Ask, Between, Converse, High, Layered, Low, Pareto, Prior

NAMES = ["Price (EUR)", "Größe", "c0", "c1", "by", "low", "best", "distinct", "min", 'the "best"', "it`s", "x y", "a,b", "Opened?", "level", "id", "_x", "2nd", "of", "-"]
TEXTS = ["Lyon", "Köln", "New York", "it's", 'say "x"', "a, b", "best", "ß", "NA", "none", "-", " x ", "two\nlines", "two\rlines", "a;b"]
UTC = datetime.timezone.utc
ZONES = [UTC, datetime.timezone(datetime.timedelta(hours=2)), datetime.timezone(datetime.timedelta(hours=-5, minutes=-30))]


class Values:
    """The values of a column of a kind: how one is drawn, how a file and how a question has it, and one that lies between two others.

    `spelling` is the kind as `kinds=..` has it, which has to be given for a file where it `is_given`; `order` is what low and high compare.
    """

    measured = ordered = True
    is_given = False
    order = None
    spelling = ""

    def cell(self, value):
        return str(value)

    def word(self, value):
        return f"'{value}'"

    def point(self, random):
        """A value for around and between, as it is and as a question has it."""
        value = self.draw(random)
        return value, self.word(value)


class Numbers(Values):
    """Numbers, of which a column may get finer ones than it had."""

    def __init__(self):
        self.finer = []

    def draw(self, random):
        return random.choice(self.finer) if self.finer and random.random() < 0.3 else self.plainly(random)

    def draw_finer(self, random):
        """A number with some more decimals."""
        return self.plainly(random) + Decimal(random.choice([1, 5, -3])).scaleb(-self.decimals - random.randrange(1, 3))


class Whole(Numbers):
    spelling = "whole"
    decimals = 0

    def __init__(self, random):
        super().__init__()
        self.base, self.step = random.choice([(0, 1), (-3, 1), (2**63 - 9, 1), (-2**63 + 1, 1), (0, 2**60), (-7, 10**15)])

    def plainly(self, random):
        return self.base + self.step * random.randrange(8 if self.step < 2**60 else 7)

    def word(self, value):
        return f"{Decimal(value):f}"

    def point(self, random):
        value = Decimal(self.draw(random)) + random.choice([Decimal(0), Decimal("0.5"), Decimal("0.25"), Decimal("-0.7"), Decimal("1e19"), Decimal("-1e19")])
        return value, f"{value:f}"


class Decimals(Numbers):
    def __init__(self, random):
        super().__init__()
        self.decimals = random.choice([1, 2, 2, 5])
        self.high = random.choice([8, 8, 10**11])
        self.spelling = f"decimal({self.decimals})"

    def plainly(self, random):
        return Decimal(random.randrange(-self.high, self.high)).scaleb(-self.decimals)

    def word(self, value):
        return f"{value:f}"

    def cell(self, value):
        return f"{value:f}"

    def point(self, random):
        value = self.draw(random) + Decimal(random.choice([0, 0, 1, 5, 7])).scaleb(-self.decimals - 1)
        return value, f"{value:f}"


class Written(Decimals):
    """Decimals as many a file has them."""

    is_given = True

    def __init__(self, random):
        super().__init__(random)
        self.thousands, self.sign = random.choice([(",", "."), (".", ","), (" ", "."), ("'", "."), ("", ",")])
        self.unit, self.has_parentheses = random.choice(["", "€", "$", "%", "kg"]), random.random() < 0.5
        options = [("thousands", self.thousands), ("decimal", self.sign), ("unit", self.unit)]
        words = [str(self.decimals), *(f'{name}="{sign}"' for name, sign in options if sign), *["parentheses"] * self.has_parentheses]
        self.spelling = f"decimal({', '.join(words)})"

    def cell(self, value):
        whole, _, part = f"{abs(value):f}".partition(".")
        text = f"{int(whole):,}".replace(",", self.thousands) + self.sign + part
        text = f"{self.unit}{text}" if value.as_tuple().digits[-1] % 2 else f"{text} {self.unit}"
        return text.strip() if value >= 0 else f"({text.strip()})" if self.has_parentheses else f"-{text.strip()}"


class Floats(Values):
    measured = False
    is_given = True
    spelling = "float"

    def __init__(self, random):
        self.some = [0.0, -0.0, 0.1, -1.5, 1e300, -1e-300, 5e-324, float("inf"), float("-inf"), 0.1 + 0.2, 3.0]

    def draw(self, random):
        return random.choice(self.some)

    def word(self, value):
        return repr(value) if abs(value) < float("inf") else f"'{value}'"


class Booleans(Values):
    measured = False

    def __init__(self, random):
        self.words, self.spelling = random.choice([(("yes", "no"), "bool"), (("True", "false"), "bool"), (("Y", "-"), "bool(y, -)"), (("on, all", "none"), 'bool("on, all", none)')])
        self.is_given = self.spelling != "bool"

    def draw(self, random):
        return random.random() < 0.5

    def word(self, value):
        return "true" if value else "no"

    def cell(self, value):
        return self.words[0] if value else self.words[1]


class Dates(Values):
    spelling = "date"

    def __init__(self, random):
        self.first = random.choice([datetime.date(2026, 2, 25), datetime.date(1, 1, 1), datetime.date(9999, 12, 24)])

    def draw(self, random):
        return self.first + datetime.timedelta(days=random.randrange(8))

    def word(self, value):
        return f"'{value}'" if value.day % 2 else str(value)


class WrittenDates(Dates):
    is_given = True

    def __init__(self, random):
        super().__init__(random)
        self.signs, self.spelling = random.choice([("{0.day:02}.{0.month:02}.{0.year:04}", 'date("%d.%m.%Y")'), ("{0.month}/{0.day}/{0.year:04}", 'date("%m/%d/%y")')])

    def cell(self, value):
        return self.signs.format(value) if value.day % 3 else str(value)


class Times(Values):
    def __init__(self, random, zone=None):
        self.zone = zone
        self.spelling = f"time({zone})" if zone else "time"

    def draw(self, random):
        moment = datetime.datetime(2026, 10, 25, 0, 30, tzinfo=self.zone) + datetime.timedelta(minutes=random.randrange(-4, 4))
        return moment + datetime.timedelta(microseconds=random.choice([0, 0, 1, 250000]))

    def cell(self, value):
        return value.isoformat(" ")


class Clock(Values):
    is_given = True
    spelling = "clock"

    def __init__(self, random):
        pass

    def draw(self, random):
        return datetime.time(random.choice([0, 12, 23]), random.randrange(3), random.choice([0, 0, 59]), random.choice([0, 0, 0, 1, 250000]))


class Texts(Values):
    measured = ordered = False
    spelling = "text"

    def __init__(self, random):
        self.some = random.sample(TEXTS, random.randrange(2, len(TEXTS)))

    def draw(self, random):
        return random.choice(self.some)

    def word(self, value):
        return "'" + value.replace("'", "''") + "'"


class Choice(Texts):
    ordered = is_given = True

    def __init__(self, random):
        super().__init__(random)
        self.order = self.some.index
        choices = ['"' + text.replace('"', '""') + '"' for text in self.some]
        self.spelling = f"choice({', '.join(choices)})"


class Categories(Values):
    """An ordered categorical of values that are no texts, in an order of its own."""

    measured = False

    def __init__(self, random):
        of = random.choice([Whole, Decimals, Dates])(random)
        self.some = list(dict.fromkeys(of.draw(random) for _ in range(4)))
        self.order, self.word = self.some.index, of.word

    def draw(self, random):
        return random.choice(self.some)


KINDS = [Whole, Decimals, Floats, Booleans, Dates, Times, Texts, lambda random: Times(random, random.choice(ZONES)), Clock, Choice]


def frame(random, further=()):
    """Names with their kinds, and records; the first one has no gaps, so that each kind is seen."""
    kinds = [kind(random) for kind in random.choices([*KINDS, *further], k=random.randrange(2, 7))]
    columns = dict(zip(random.sample(NAMES, len(NAMES)), kinds))
    gaps = {name: random.choice([0, 0, 0.1, 0.4]) for name in columns}
    records = [record(random, columns, {} if row == 0 else gaps) for row in range(random.randrange(1, 30))]
    return columns, records


def record(random, columns, gaps):
    return {name: None if random.random() < gaps.get(name, 0) else kind.draw(random) for name, kind in columns.items()}


def in_quotes(name):
    """A name in either kind of quotes."""
    return ['"' + name.replace('"', '""') + '"', "`" + name.replace("`", "``") + "`"]


class Questions:
    """Random questions about columns."""

    def __init__(self, random, columns):
        self.random, self.columns = random, columns

    def name(self, name):
        """A name as a question has it."""
        return self.random.choice(in_quotes(name) + [name] * 3 * name.isidentifier())

    def quoted(self, name):
        """A name in quotes, as it may stand anywhere."""
        return self.random.choice(in_quotes(name))

    def base(self):
        name = self.random.choice(list(self.columns))
        kind = self.columns[name]
        words = ["pos", "layered"] + ["low", "high"] * 2 * kind.ordered + ["around", "between"] * kind.measured
        word = self.random.choice(words)
        if word in ("low", "high"):
            return (Low if word == "low" else High)(name, f"{word}({self.name(name)})", kind.order)
        if word in ("around", "between"):
            ends = sorted((kind.point(self.random) for _ in range(1 if word == "around" else 2)), key=lambda end: end[0])
            return Between(name, f"{word}({self.name(name)}, {', '.join(text for _, text in ends)})", ends[0][0], ends[-1][0])
        sets = [[kind.draw(self.random) for _ in range(self.random.randrange(1, 3))] for _ in range(1 if word == "pos" else self.random.randrange(1, 4))]
        if type(kind) is Texts and self.random.random() < 0.2:
            sets[self.random.randrange(len(sets))] = ["nowhere"]
        lists = [",".join(map(kind.word, values)) for values in sets]
        return Layered(name, f"{word}({self.name(name)}, {', '.join(lists if word == 'pos' else [f'{{{some}}}' for some in lists])})", sets)

    def term(self, depth):
        choice = self.random.random()
        if depth == 0 or choice < 0.2:
            return self.base()
        if choice < 0.4:
            part = self.term(depth - 1)
            return Converse(self.random.choice(["-({})", "- ( {} )", "reverse({})"]).format(part.text), part)
        parts = [self.term(depth - 1) for _ in range(self.random.randrange(2, 4))]
        sign, product = self.random.choice([("*", Pareto), ("&", Prior)])
        return product(self.random.choice([sign, f" {sign} "]).join(f"({part.text})" if isinstance(part, (Pareto, Prior)) else part.text for part in parts), parts)

    def question(self):
        if self.random.random() < 0.2:
            return self.clause()
        term = self.term(self.random.randrange(4))
        by = self.random.sample(list(self.columns), self.random.choice([0, 0, 1, 2]))
        groups = " by " + ", ".join(map(self.name, by)) if by else ""
        count = self.random.randrange(1, 5)
        mode, levels, rows = self.random.choice([("best", 1, None), (f"top_level {count}", count, None), (f"at_least {count}", None, count)])
        return Ask(f"{mode} {term.text}{groups}", term, by, levels, rows)

    def clause(self):
        ordered = [name for name, kind in self.columns.items() if kind.ordered]
        if not ordered:
            return self.question()
        criteria = self.random.sample(ordered, self.random.randrange(1, min(3, len(ordered)) + 1))
        groups = [name for name in self.random.sample(list(self.columns), self.random.randrange(2)) if name not in criteria]
        parts = [self.random.choice([Low, High])(name, "", self.columns[name].order) for name in criteria]
        dims = [f"{self.name(part.name)} {self.random.choice(['MIN', 'min'] if type(part) is Low else ['max', 'Max'])}" for part in parts]
        dims += [f"{self.name(name)} diff" for name in groups]
        distinct = self.random.random() < 0.5
        return Ask(f"skyline of {'distinct ' if distinct else ''}{', '.join(dims)}", Pareto("", parts), groups, 1, None, criteria + groups if distinct else None)
