"""Questions evaluated on Python's values, as docs/PYTHON.md says what they mean: by comparing each two rows, one after the other.

Nothing of the package is used here. A term compares two rows and returns BETTER, WORSE, SAME or NEITHER; `turned` is the converse. A missing value is None.
"""
import datetime

BETTER, WORSE, SAME, NEITHER = "better", "worse", "same", "neither"


def by_score(a, b):
    """The row with the lower score is better."""
    return SAME if a == b else BETTER if a < b else WORSE


class Scored:
    """A base term by a score of the values; a missing value is worse than every value, of the converse too."""

    def __init__(self, name, text):
        self.name, self.text = name, text

    def compare(self, a, b, turned=False):
        a, b = a[self.name], b[self.name]
        if a is None or b is None:
            return by_score(a is None, b is None)
        return by_score(self.score(b), self.score(a)) if turned else by_score(self.score(a), self.score(b))


class Low(Scored):
    """By the order of the values, or that of what `order` makes of them."""

    def __init__(self, name, text, order=None):
        super().__init__(name, text)
        self.order = order

    def score(self, value):
        return self.order(value) if self.order else value


class High(Low):
    def compare(self, a, b, turned=False):
        return Scored.compare(self, a, b, not turned)


class Between(Scored):
    """Also around, where both ends are the same."""

    def __init__(self, name, text, low, high):
        super().__init__(name, text)
        self.first, self.last = low, high
        self.low, self.high = on_a_scale(low), on_a_scale(high)

    def score(self, value):
        value, zero = on_a_scale(value), self.low - self.low
        return max(self.low - value, zero, value - self.high)


def on_a_scale(value):
    """What has distances: of times of day, those from midnight."""
    if not isinstance(value, datetime.time):
        return value
    return datetime.timedelta(hours=value.hour, minutes=value.minute, seconds=value.second, microseconds=value.microsecond)


class Layered:
    """Also pos, with one set. A missing value is with the values that are least liked: those in no set, or of the converse those in the first."""

    def __init__(self, name, text, sets):
        self.name, self.text, self.sets = name, text, sets

    def compare(self, a, b, turned=False):
        a, b = (self.layer(row[self.name], turned) for row in (a, b))
        return by_score(b, a) if turned else by_score(a, b)

    def layer(self, value, turned):
        if value is None:
            return 0 if turned else len(self.sets)
        return next((layer for layer, values in enumerate(self.sets) if value in values), len(self.sets))


class Pareto:
    def __init__(self, text, parts):
        self.text, self.parts = text, parts

    def compare(self, a, b, turned=False):
        found = {part.compare(a, b, turned) for part in self.parts} - {SAME}
        return SAME if not found else found.pop() if len(found) == 1 else NEITHER


class Prior:
    def __init__(self, text, parts):
        self.text, self.parts = text, parts

    def compare(self, a, b, turned=False):
        return next((found for found in (part.compare(a, b, turned) for part in self.parts) if found != SAME), SAME)


class Both:
    """`|`: a row is better where it is better by each of the parts."""

    def __init__(self, text, parts):
        self.text, self.parts = text, parts

    def compare(self, a, b, turned=False):
        found = {part.compare(a, b, turned) for part in self.parts}
        return found.pop() if len(found) == 1 else NEITHER


class Converse:
    def __init__(self, text, part):
        self.text, self.part = text, part

    def compare(self, a, b, turned=False):
        return self.part.compare(a, b, not turned)


class Ask:
    """A question: how many levels, or rows at least; its term; its groups; and whether of rows that are equal in these columns only the first counts."""

    def __init__(self, text, term, by=(), levels=None, rows=None, equal_in=None):
        self.text, self.term, self.by, self.levels, self.rows, self.equal_in = text, term, by, levels, rows, equal_in

    def dominates(self, a, b):
        """Each is a pair of an id and a row."""
        (id_a, row_a), (id_b, row_b) = a, b
        if any(row_a[name] != row_b[name] for name in self.by):
            return False
        if self.equal_in and id_a < id_b and all(row_a[name] == row_b[name] for name in self.equal_in):
            return True
        return self.term.compare(row_a, row_b) == BETTER

    def levels_of(self, rows):
        """The level of each id."""
        left = dict(rows)
        found = {}
        level = 0
        while left:
            level += 1
            best = [id for id, row in left.items() if not any(self.dominates(other, (id, row)) for other in left.items())]
            for id in best:
                found[id] = level
                del left[id]
        return found

    def answer(self, rows):
        """Pairs of a level and an id, in order."""
        levels = self.levels_of(rows)
        groups = {}
        for id, row in rows.items():
            groups.setdefault(tuple(row[name] for name in self.by), []).append(id)
        taken = []
        for ids in groups.values():
            most = self.levels if self.rows is None else min([level for level in range(1, len(ids) + 1)
                                                             if sum(levels[id] <= level for id in ids) >= self.rows], default=len(ids))
            taken += [(levels[id], id) for id in ids if levels[id] <= most]
        return sorted(taken)

    def dominators(self, rows, id):
        return [other for other, row in rows.items() if other != id and self.dominates((other, row), (id, rows[id]))]


def first(ask, rows, top, ties=None):
    """Pairs of a level and an id, in order, of the first `top` rows of each group: by level, of the last one by the levels that the term `ties` makes of it, and by id."""
    goes_on = ask.text.startswith(("best", "skyline")) and not ask.equal_in
    levels = ask.levels_of(rows)
    answer = sorted((level, id) for id, level in levels.items()) if goes_on else ask.answer(rows)
    groups = {}
    for level, id in answer:
        groups.setdefault(tuple(rows[id][name] for name in ask.by), []).append((level, id))
    taken = []
    for group in groups.values():
        last = group[:top][-1][0]
        better = [pair for pair in group if pair[0] < last]
        tied = {id: rows[id] for level, id in group if level == last}
        liked = Ask("", ties).levels_of(tied) if ties else dict.fromkeys(tied, 1)
        taken += better + [(last, id) for id in sorted(tied, key=lambda id: (liked[id], id))[:top - len(better)]]
    return sorted(taken)
