"""Shapes of data: rows in order of their columns a, b, c, d, g and id, what is asked of them, and the orders in which they come."""
import random

# what a random value is below
SCALE = 1_000_000



def front(n):
    """The smaller one column the larger the other: each row is best. Five groups."""
    return [[i, n - i, 0, 0, i % 5, i] for i in range(n)]


def front_of_three(n):
    """Three random columns of one sum, up to rounding: each row is best, or nearly each."""
    r = random.Random("front of three")
    rows = []
    for i in range(n):
        cells = [r.random() for _ in range(3)]
        rows.append([int(c / sum(cells) * SCALE) for c in cells] + [0, r.randrange(5), i])
    return sorted(rows)


def distinct(n):
    """Each row has values of its own, and all columns say the same order. Five groups."""
    return [[i, i, i, i, i % 5, i] for i in range(n)]


def independent_rows(n, groups=100):
    """Random numbers in each column, in a hundred groups where not said."""
    r = random.Random("independent rows")
    return sorted([r.randrange(SCALE) for _ in range(4)] + [r.randrange(groups), i] for i in range(n))


def small_groups(n):
    """The same, in 256 groups."""
    return independent_rows(n, 256)


def few_values(n):
    """Four values a column: of two columns 16 rows differ, of four 256."""
    r = random.Random("few values")
    return sorted([r.randrange(4) for _ in range(4)] + [r.randrange(5), i] for i in range(n))


def curve(n):
    """The smaller one column the larger the other, and a random third one: each row is best."""
    r = random.Random("curve")
    return [[i, n - i, r.randrange(SCALE), 0, i % 5, i] for i in range(n)]


def front_of_four(n):
    """Three random columns, and a fourth one that makes their sum the same: each row is best."""
    r = random.Random("front of four")
    rows = []
    for i in range(n):
        cells = [r.randrange(SCALE) for _ in range(3)]
        rows.append([*cells, 3 * SCALE - sum(cells), r.randrange(5), i])
    return sorted(rows)


def front_and_one(n):
    """The same, and behind them a row that dominates all."""
    return front_of_four(n - 1) + [[-1, -1, -1, -1, 0, n]]


ARRIVALS = ["sorted", "reversed", "shuffled"]


def arrived(rows, arrival):
    """Sorted rows in the order in which they are to come."""
    if arrival == "reversed":
        return rows[::-1]
    if arrival == "shuffled":
        return random.Random("shuffled").sample(rows, len(rows))
    return rows


# shapes of data: rows in order of their columns, and what is asked of them
SHAPES = {
    "front": (front, "best low(a) * low(b)"),
    "front-tie": (front, "best (low(a) * low(b)) & low(c)"),
    "front-levels": (front, "top_level 5 low(a) * low(b)"),
    "front-groups": (front, "best low(a) * low(b) by g"),
    "front-constant": (front, "best low(a) * low(b) * low(c) * low(d)"),
    "front-d3": (front_of_three, "best low(a) * low(b) * low(c)"),
    "front-twice": (front, "best low(a) * low(b) * low(a)"),
    "front-between": (front, "best low(a) * low(c) * low(b)"),
    "front-then-product": (front, "best (low(a) * low(b)) & (low(c) * low(g))"),
    "curve-d3": (curve, "best low(a) * low(b) * low(c)"),
    "front-d4": (front_of_four, "best low(a) * low(b) * low(c) * low(d)"),
    "front-d4-last": (front_and_one, "best low(a) * low(b) * low(c) * low(d)"),
    "group-then-d3": (front_of_three, "top_level 5 low(g) & low(a) * low(b) * low(c)"),
    "group-then-d4": (front_of_four, "best low(g) & low(a) * low(b) * low(c) * low(d)"),
    "score": (distinct, "top_level 1000 low(a)"),
    "score-groups": (distinct, "top_level 1000 low(a) by g"),
    "priority": (independent_rows, "at_least 1000 low(a) & low(b)"),
    "levels": (independent_rows, "top_level 1000 low(a) * low(b)"),
    "levels-d3": (independent_rows, "top_level 1000 low(a) * low(b) * low(c)"),
    "levels-d4": (independent_rows, "top_level 1000 low(a) * low(b) * low(c) * low(d)"),
    "groups": (independent_rows, "best low(a) * low(b) by g"),
    "groups-d4": (independent_rows, "best low(a) * low(b) * low(c) * low(d) by g"),
    "at-least-groups-d2": (small_groups, "at_least 1000 low(a) * low(b) by g"),
    "at-least-groups": (small_groups, "at_least 1000 low(a) by g"),
    "own-groups": (independent_rows, "best low(a) by id"),
    "independent-d4": (independent_rows, "best low(a) * low(b) * low(c) * low(d)"),
    "ties": (few_values, "best pos(g, 9)"),
    "few-values": (few_values, "top_level 5 low(a) * low(b)"),
    "few-values-d4": (few_values, "best low(a) * low(b) * low(c) * low(d)"),
}
