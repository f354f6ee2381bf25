#!/usr/bin/env python3
"""Deterministic scripts for measuring a live preference table.

    workloads.py list                     the names
    workloads.py write FOLDER [NAME..]    writes NAME.txt, and NAME.options with the options of `play`

The data sets are those of the skyline operator (Börzsönyi, Kossmann, Stocker 2001): independent, correlated, anticorrelated,
as whole numbers from 0 to 999,999. Each script is below 16 MiB and each table has at most 65,536 rows."""
import os
import random
import sys

from data_shapes import ARRIVALS, SCALE, SHAPES, arrived

LIMIT = 16_777_216


def peak(r, low, high, count):
    return low + (high - low) * sum(r.random() for _ in range(count)) / count


def normal(r, middle, spread):
    return peak(r, middle - spread, middle + spread, 12)


def independent(r, d):
    return [r.random() for _ in range(d)]


def shifted(r, d, value, shift):
    while True:
        v = value()
        room = min(v, 1 - v)
        x = [v] * d
        for i in range(d):
            h = shift(room)
            x[i] += h
            x[(i + 1) % d] -= h
        if all(0 <= c < 1 for c in x):
            return x


def correlated(r, d):
    return shifted(r, d, lambda: peak(r, 0, 1, d), lambda room: normal(r, 0, room))


def anticorrelated(r, d):
    return shifted(r, d, lambda: normal(r, .5, .25), lambda room: (2 * r.random() - 1) * room)


KINDS = {"ind": independent, "cor": correlated, "anti": anticorrelated}


def points(kind, n, d, seed=1):
    r = random.Random(f"{kind} {d} {seed}")
    return [[int(c * SCALE) for c in KINDS[kind](r, d)] for _ in range(n)]


def names(d):
    return [f"c{i + 1}" for i in range(d)]


def table(columns, rows):
    return ["table", ",".join(columns)] + [",".join(map(str, row)) for row in rows] + ["end"]


def query(client, ask, blocks):
    return [f"as {client} begin {ask}"] + [f"as {client} scan"] * blocks + [f"as {client} finish"]


def options(cap, block=1024, window=64, clients=4):
    return ["--clients", str(clients), "--cap", str(cap), "--block", str(block), "--window", str(window)]


def skyline(kind, d, n, window, repeat):
    lines = table(names(d), points(kind, n, d))
    ask = "best " + " * ".join(f"low({c})" for c in names(d))
    for _ in range(repeat):
        lines += query(1, ask, -(-n // 1024))
    return lines, options(n, 1024, window)


def load(n):
    r = random.Random("load")
    rows = [[r.randrange(-10 ** r.randrange(1, 19), 10 ** r.randrange(1, 19)) if c % 2 else r.randrange(SCALE) for c in range(8)] for _ in range(n)]
    return table(names(8), rows) + ["as 1 room", "as 1 get 1"], options(n)


def levels(mode, kind, d, n, repeat):
    lines = table(names(d), points(kind, n, d))
    for _ in range(repeat):
        lines += query(1, f"{mode} " + " * ".join(f"low({c})" for c in names(d)), -(-n // 1024))
    return lines, options(n)


ASKS = ["best low(c1) * high(c2)", "best low(c1) * low(c2) * low(c3)", "top_level 3 low(c1) * around(c3, 500000)",
        "at_least 20 high(c2) * low(c4)", "best pos(g, 1, 2, 3) & low(c1) * low(c2)", "skyline of c1 min, c2 max, g diff"]


def live_row(r):
    """The cells of a row of the tables of live, changes and updates."""
    return ",".join(str(r.randrange(SCALE)) for _ in range(4)) + f",{r.randrange(20)}"


def live_table(r, rows):
    return ["table", "c1,c2,c3,c4,g"] + [live_row(r) for _ in range(rows)] + ["end"]


def live(rows, commands, cap):
    """60 of 100 commands are updates, 20 inserts and deletes, 10 gets and rooms, 10 steps of queries."""
    r = random.Random("live")
    lines = live_table(r, rows)
    ids = list(range(1, rows + 1))
    next_id, blocks, asked = rows + 1, -(-cap // 1024), 0
    left = [None] * 8
    for _ in range(commands):
        client, p = r.randrange(8), r.random()
        if p < .6:
            lines.append(f"as {client + 1} update {r.choice(ids)} {live_row(r)}")
        elif p < .7:
            lines.append(f"as {client + 1} insert {live_row(r)}")
            ids.append(next_id)
            next_id += 1
        elif p < .8:
            i = r.randrange(len(ids))
            ids[i], ids[-1] = ids[-1], ids[i]
            lines.append(f"as {client + 1} delete {ids.pop()}")
        elif p < .89:
            lines.append(f"as {client + 1} get {r.choice(ids)}")
        elif p < .9:
            lines.append(f"as {client + 1} room")
        elif left[client] is None:
            lines.append(f"as {client + 1} begin {ASKS[asked % len(ASKS)]}")
            asked += 1
            left[client] = blocks
        elif left[client]:
            lines.append(f"as {client + 1} scan")
            left[client] -= 1
        else:
            lines.append(f"as {client + 1} finish")
            left[client] = None
    return lines, options(cap, clients=8)


def changes(rows, commands, cap):
    """The live mix without queries: updates, inserts, deletes, gets, rooms."""
    lines, play = live(rows, commands, cap)
    return [l for l in lines if l.split()[2:3] not in (["begin"], ["scan"], ["finish"])], play


def updates(rows, count, cap, together):
    """Updates of random rows, the same ones whether each is a line of its own or eight of different rows are a commit."""
    r = random.Random("updates")
    lines = live_table(r, rows)
    for _ in range(count // 8):
        client = r.randrange(8) + 1
        eight = [f"update {i} {live_row(r)}" for i in r.sample(range(1, rows + 1), 8)]
        lines += [f"as {client} commit {'; '.join(eight)}"] if together else [f"as {client} {update}" for update in eight]
    return lines, options(cap, clients=8)


def grouped(n, d, groups, repeat):
    r = random.Random("grouped")
    rows = [p + [r.randrange(groups)] for p in points("ind", n, d)]
    ask = "skyline of " + ", ".join(f"{c} {'min' if i % 2 == 0 else 'max'}" for i, c in enumerate(names(d))) + ", g diff"
    lines = table(names(d) + ["g"], rows)
    for _ in range(repeat):
        lines += query(1, ask, -(-n // 1024))
    return lines, options(n)


def deep_term(depth, pareto_each):
    """Nested to the left: the part that decides first lies deepest."""
    text = "low(c1)"
    for i in range(1, depth):
        base = [f"low(c{i % 8 + 1})", f"high(c{(i * 3) % 8 + 1})", f"around(c{(i * 5) % 8 + 1}, 2)", f"pos(c{i % 8 + 1}, 0, 3)"][i % 4]
        sign = "*" if pareto_each and i % pareto_each == 0 else "&"
        text = f"({text} {sign} {base})" if i % 9 else f"-({text} {sign} {base})"
    return text


def deep(n, repeat):
    r = random.Random("deep")
    lines = table(names(8), [[r.randrange(5) for _ in range(8)] for _ in range(n)])
    for _ in range(repeat):
        lines += query(1, f"best {deep_term(55, 0)}", -(-n // 1024))
        lines += query(2, f"top_level 3 {deep_term(55, 11)}", -(-n // 1024))
        lines += query(3, "best " + " & ".join(f"low(c{i + 1}) * high(c{i + 2})" for i in range(0, 7)), -(-n // 1024))
    return lines, options(n)


def rated(n, ask):
    """Hotels: stars from 1 to 5, an id that is the row's own, a price. Many rows score alike, or each is its own group."""
    r = random.Random("rated")
    lines = table(["stars", "id", "price"], [[r.randrange(1, 6), i, r.randrange(SCALE)] for i in range(n)])
    return lines + query(1, ask, -(-n // 1024)), options(n)


def wide(n):
    """A product of all 16 columns: nearly each row is best."""
    return skyline("ind", 16, n, 64, 1)


def one_by_one(n):
    """Blocks of one row, and each row is best: what a block costs beside its rows."""
    lines = table(["x", "y"], [[i * 7919 % n, -(i * 7919 % n)] for i in range(n)])
    return lines + query(1, "best low(x) * low(y)", n), options(n, block=1)


def opposed(n):
    """Two columns, the smaller one the larger the other: each row is best."""
    rows = list(range(n))
    random.Random("opposed").shuffle(rows)
    return table(["x", "y"], [[x, -x] for x in rows]) + query(1, "best low(x) * low(y)", -(-n // 1024)), options(n)


def many_factors(n, factors):
    """The same behind so many factors that see no difference: each row is best, and each comparison looks at all factors."""
    rows = list(range(n))
    random.Random("opposed").shuffle(rows)
    ask = "best " + "".join(f"around(c, {i}) * " for i in range(factors)) + "low(x) * low(y)"
    return table(["x", "y", "c"], [[x, -x, 0] for x in rows]) + query(1, ask, -(-n // 1024)), options(n)


# blocks and windows that a shape is asked with
ALL_ROWS = 65_536
BLOCKS = [1, 16, 1024, ALL_ROWS]
WINDOWS = [1, 64, ALL_ROWS]

def table_of_shape(name, arrival, n):
    rows, _ = SHAPES[name]
    return table(["a", "b", "c", "d", "g", "id"], arrived(rows(n), arrival))


def shape(name, arrival, n, block=1024, window=64):
    _, ask = SHAPES[name]
    return table_of_shape(name, arrival, n) + query(1, ask, -(-n // block)), options(n, block, window)


def blocks_and_windows(blocks, windows):
    """The pairs that differ: a block of one row goes through each window alike."""
    return [(block, window) for block in blocks for window in (windows if block > 1 else windows[:1])]


def churn(commands, cap):
    """A table seven eighths full where rows come and go at random: ids run far past the capacity."""
    r = random.Random("churn")
    ids = list(range(1, cap * 7 // 8 + 1))
    next_id = len(ids) + 1
    lines = table(["x"], [[i % 1000] for i in ids])
    for _ in range(commands // 2):
        i = r.randrange(len(ids))
        lines += [f"as 1 delete {ids[i]}", f"as 1 insert {r.randrange(1000)}"]
        ids[i] = next_id
        next_id += 1
    return lines, options(cap)


def gets(kind, count, rows=20_000, cap=30_000):
    """Gets of random rows of one kind. Of the rows, every second one was updated under an open query, so it had to move to another
    slot; every fourth one was deleted; and ids above those of the rows were never given. All these ids have five digits."""
    r = random.Random("gets")
    at_home = [i for i in range(10_000, rows + 1) if i % 4 == 1]
    kinds = {"home": at_home, "moved": [i for i in range(10_000, rows + 1) if i % 2 == 0],
             "deleted": [i + 2 for i in at_home if i + 2 <= rows], "never": range(rows + 1, 2 * rows)}
    lines = table(["x"], [[i % 1000] for i in range(rows)]) + ["as 1 begin best low(x)"]
    lines += [f"as 1 update {i} {i % 1000}" for i in range(2, rows + 1, 2)] + ["as 1 abandon"]
    lines += [f"as 1 delete {i}" for i in range(3, rows + 1, 4)]
    return lines + [f"as 1 get {r.choice(kinds[kind])}" for _ in range(count)], options(cap)


def begins(rows, pairs, keeps):
    """Begins and abandons of one client, while an open query of another one keeps a version of each row, or after that one ended too."""
    lines = table(["x"], [[i] for i in range(rows)]) + ["as 1 begin best low(x)"]
    lines += [f"as 2 update {i} {i}" for i in range(1, rows + 1)] + ([] if keeps else ["as 1 abandon"])
    return lines + ["as 2 begin best low(x)", "as 2 abandon"] * pairs, options(2 * rows)


def few_rows(cap, questions=1_000):
    """Questions of a hundred rows in a table of this capacity."""
    r = random.Random("few rows")
    lines = table(["a", "b"], [[r.randrange(SCALE), r.randrange(SCALE)] for _ in range(100)])
    for _ in range(questions):
        lines += query(1, "best low(a) * low(b)", -(-cap // 1024))
    return lines, options(cap)


# what grows, by the number of rows; changes, live and churn have as many commands as slots
GROWING = {
    "load": load,
    "changes": lambda n: changes(n * 5 // 8, n, n),
    "live": lambda n: live(n * 5 // 8, n, n),
    "churn": lambda n: churn(n, n),
    "sky-ind-d2": lambda n: skyline("ind", 2, n, 64, 1),
    "sky-ind-d4": lambda n: skyline("ind", 4, n, 64, 1),
    "sky-ind-d6": lambda n: skyline("ind", 6, n, 64, 1),
    "sky-cor-d4": lambda n: skyline("cor", 4, n, 64, 1),
    "sky-anti-d2": lambda n: skyline("anti", 2, n, 64, 1),
    "sky-anti-d4": lambda n: skyline("anti", 4, n, 64, 1),
    "sky-anti-d6": lambda n: skyline("anti", 6, n, 64, 1),
    "top10": lambda n: levels("top_level 10", "ind", 3, n, 1),
    "atleast100": lambda n: levels("at_least 100", "ind", 3, n, 1),
    "alllevels-d2-ind": lambda n: levels("top_level 1000", "ind", 2, n, 1),
    "alllevels-d2-anti": lambda n: levels("top_level 1000", "anti", 2, n, 1),
    "grouped": lambda n: grouped(n, 3, 100, 1),
    "deep": lambda n: deep(n, 1),
    "alike": lambda n: rated(n, "best high(stars)"),
    "alike-all": lambda n: rated(n, "best pos(stars, 9)"),
    "own-groups": lambda n: rated(n, "best low(price) by id"),
    "wide": wide,
    "one-by-one": one_by_one,
    "front-sorted": lambda n: shape("front", "sorted", n),
    "front-reversed": lambda n: shape("front", "reversed", n),
    "front-shuffled": lambda n: shape("front", "shuffled", n),
    "front-d3-sorted": lambda n: shape("front-d3", "sorted", n),
    "score-reversed": lambda n: shape("score", "reversed", n),
    "priority-reversed": lambda n: shape("priority", "reversed", n),
    "levels-reversed": lambda n: shape("levels", "reversed", n),
    "few-values-reversed": lambda n: shape("few-values", "reversed", n),
}
SIZES = [1 << k for k in range(10, 17)]
AGES = [0, 100_000, 400_000, 800_000]
SAMPLE = 100_000
GETS = 20_000

# where the choice of --block and --window shows, each with its number of slots
CHOICES = {
    "two": (65_536, lambda: skyline("ind", 2, 65_536, 64, 1)),
    "six": (65_536, lambda: skyline("ind", 6, 65_536, 64, 1)),
    "opposed": (16_384, lambda: opposed(16_384)),
    "alike": (65_536, lambda: rated(65_536, "best pos(stars, 9)")),
    "factors": (4_096, lambda: many_factors(4_096, 240)),
}

FULL = {"load": lambda: load(65_536)}
for _kind, _d, _window, _repeat in [("ind", 2, 64, 24), ("ind", 2, 1024, 24), ("ind", 4, 64, 6), ("ind", 4, 1024, 6), ("ind", 6, 64, 1), ("ind", 6, 1024, 1),
                                    ("cor", 2, 64, 24), ("cor", 2, 1024, 24), ("cor", 4, 64, 24), ("cor", 4, 1024, 24), ("cor", 6, 64, 12), ("cor", 6, 1024, 12),
                                    ("anti", 2, 64, 12), ("anti", 2, 1024, 12), ("anti", 4, 64, 1), ("anti", 4, 1024, 1), ("anti", 6, 64, 1), ("anti", 6, 1024, 1)]:
    FULL[f"sky-{_kind}-d{_d}-w{_window}"] = lambda k=_kind, d=_d, w=_window, r=_repeat: skyline(k, d, 65_536, w, r)
FULL |= {
    "top10-ind-d3": lambda: levels("top_level 10", "ind", 3, 20_000, 1),
    "top10-anti-d3": lambda: levels("top_level 10", "anti", 3, 20_000, 1),
    "atleast100-ind-d3": lambda: levels("at_least 100", "ind", 3, 20_000, 1),
    "live": lambda: live(40_000, 100_000, 65_536),
    "changes": lambda: changes(40_000, 100_000, 65_536),
    "single-updates": lambda: updates(40_000, 160_000, 65_536, False),
    "grouped": lambda: grouped(65_536, 3, 100, 4),
    "deep": lambda: deep(20_000, 2),
    "alike": lambda: rated(65_536, "best high(stars)"),
    "alike-all": lambda: rated(65_536, "best pos(stars, 9)"),
    "alike-clause": lambda: rated(65_536, "skyline of stars max"),
    "own-groups": lambda: rated(65_536, "best low(price) by id"),
    "wide": lambda: wide(16_384),
    "one-by-one": lambda: one_by_one(16_384),
    "alllevels-d2-ind": lambda: levels("top_level 1000", "ind", 2, 10_000, 1),
    "alllevels-d2-anti": lambda: levels("top_level 1000", "anti", 2, 10_000, 1),
    "churn": lambda: churn(240_000, 30_000),
}

QUICK = {
    "quick-load": lambda: load(32_768),
    "quick-sky-ind-d2": lambda: skyline("ind", 2, 16_384, 64, 32),
    "quick-sky-ind-d4": lambda: skyline("ind", 4, 16_384, 64, 8),
    "quick-sky-cor-d4": lambda: skyline("cor", 4, 16_384, 64, 32),
    "quick-sky-anti-d4": lambda: skyline("anti", 4, 8_192, 64, 1),
    "quick-sky-anti-d4-w1024": lambda: skyline("anti", 4, 8_192, 1024, 1),
    "quick-top10": lambda: levels("top_level 10", "ind", 3, 4_096, 3),
    "quick-atleast100": lambda: levels("at_least 100", "ind", 3, 4_096, 1),
    "quick-live": lambda: live(10_000, 20_000, 16_384),
    "quick-changes": lambda: changes(10_000, 80_000, 16_384),
    "quick-single-updates": lambda: updates(10_000, 40_000, 16_384, False),
    "quick-grouped": lambda: grouped(8_192, 3, 100, 6),
    "quick-deep": lambda: deep(4_096, 3),
    "quick-alike": lambda: rated(8_192, "best high(stars)"),
    "quick-alike-all": lambda: rated(2_048, "best pos(stars, 9)"),
    "quick-alike-clause": lambda: rated(8_192, "skyline of stars max"),
    "quick-own-groups": lambda: rated(4_096, "best low(price) by id"),
    "quick-wide": lambda: wide(2_048),
    "quick-one-by-one": lambda: one_by_one(1_024),
    "quick-alllevels-d2-ind": lambda: levels("top_level 1000", "ind", 2, 2_048, 1),
    "quick-alllevels-d2-anti": lambda: levels("top_level 1000", "anti", 2, 2_048, 1),
    "quick-churn": lambda: churn(60_000, 7_500),
}

# what prefq_rs cannot read, since it has no `distinct` and no `commit`
ALONE = {
    "alike-distinct": lambda: rated(65_536, "skyline of distinct stars max"),
    "commits-of-eight": lambda: updates(40_000, 160_000, 65_536, True),
    "quick-alike-distinct": lambda: rated(8_192, "skyline of distinct stars max"),
    "quick-commits-of-eight": lambda: updates(10_000, 40_000, 16_384, True),
}
# each of these beside the workload that does the same without
WITHOUT = {name: name.replace("alike-distinct", "alike-clause").replace("commits-of-eight", "single-updates") for name in ALONE}

ALL = FULL | QUICK | ALONE
ALL |= {f"{name}-{n}": lambda make=make, n=n: make(n) for name, make in GROWING.items() for n in SIZES}
ALL |= {f"churn-after-{changes}": lambda c=changes: churn(c, 30_000) for age in AGES for changes in (age, age + SAMPLE)}
ALL |= {f"gets-{kind}": lambda k=kind: gets(k, GETS) for kind in ("home", "moved", "deleted", "never")}
ALL["gets-none"] = lambda: gets("home", 0)
ALL |= {f"begins-beside-{beside}": lambda k=beside == "kept": begins(32_768, 2_000, k) for beside in ("kept", "none")}
ALL |= {f"few-rows-in-{cap}": lambda cap=cap: few_rows(cap) for cap in (1_024, 65_536)}
ALL |= {f"choice-{name}": make for name, (_, make) in CHOICES.items()}
ALL |= {f"shape-{name}-{arrival}-b{block}-w{window}": lambda name=name, arrival=arrival, b=block, w=window: shape(name, arrival, ALL_ROWS, b, w)
        for name in SHAPES for arrival in ARRIVALS for block, window in blocks_and_windows(BLOCKS, WINDOWS)}


def write(folder, name):
    """Writes a workload where it isn't there yet; gives the path and the options."""
    path = os.path.join(folder, name + ".txt")
    if not os.path.exists(path):
        os.makedirs(folder, exist_ok=True)
        lines, play = ALL[name]()
        text = "\n".join(lines) + "\n"
        assert len(text) <= LIMIT, name
        with open(os.path.join(folder, name + ".options"), "w") as f:
            f.write(" ".join(play) + "\n")
        with open(path + ".part", "w") as f:
            f.write(text)
        os.rename(path + ".part", path)
    with open(os.path.join(folder, name + ".options")) as f:
        return path, f.read().split()


if __name__ == "__main__":
    if sys.argv[1:2] == ["list"]:
        print("\n".join(ALL))
    elif sys.argv[1:2] == ["write"] and len(sys.argv) > 2:
        for each in sys.argv[3:] or ALL:
            print(*write(sys.argv[2], each))
    else:
        sys.exit(__doc__)
