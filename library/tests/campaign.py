#!/usr/bin/env python3
"""Compares libprefq.so with `prefq play` on random scripts.

    campaign.py LIBRARY PROGRAM [--count N] [--seed N]

Half of the scripts are those of bench/random_scripts.py; the others have each command, with faults of each kind. Each script goes through the library twice: as
lines, by prefq_lines, and command by command, by the call that each is, whose result is written as the program writes it. The second table is opened by its rows as
numbers. Stops at the first script on which the three differ. Beside each script random updates and inserts are made by one call each, and by the commits
and the inserts that it stands for."""
import argparse
import random
import re
import subprocess
import sys
from pathlib import Path

import binding

TOP = Path(__file__).resolve().parent.parent.parent
sys.path.insert(0, str(TOP / "bench"))
import random_scripts  # noqa: E402

QUESTIONS = ["best low(a)", "best low(a) * high(b)", "top_level 3 low(a) & around(b, 4)", "at_least 5 low(b) by a", "skyline of a min, b max", "best  low(a) ",
             "best low(c)", "best low(a", "top_level 0 low(a)", "best between(a, 5, 4)", "", "best pos(b, 1, 2) * -(low(a))", "skyline of a diff", "worst low(a)",
             "best low(\u00e9)", "best " + "-" * 65 + "low(a)", "best around(a, 9223372036854775808)", "best low(a)" + " " * 4100]
CAPACITY = 23   # of a table into which rows are inserted
VALUES = [0, 1, 2, 3, 5, 9, -7, 2**63 - 1, -2**63]


def words_of(r):
    """A command's client and words."""
    row = lambda: ",".join(str(r.choice(VALUES)) for _ in range(r.choice([2, 2, 2, 2, 1, 3])))  # noqa: E731
    whole = lambda: ",".join(str(r.choice(VALUES)) for _ in range(2))  # noqa: E731
    id = lambda: r.choice([*range(12), 40, 2**64 - 1])  # noqa: E731
    change = lambda: r.choice([f"insert {whole()}", f"update {id()} {whole()}", f"delete {id()}"])  # noqa: E731
    return r.choice([
        lambda: (1, f"insert {row()}"), lambda: (1, f"update {id()} {row()}"), lambda: (1, f"delete {id()}"), lambda: (1, f"get {id()}"),
        lambda: (1, "room"), lambda: (1, f"commit {'; '.join(change() for _ in range(r.choice([1, 2, 3, 8, 9])))}"),
        lambda: (r.randrange(5), f"begin {r.choice(QUESTIONS)}"), lambda: (r.randrange(5), "scan"), lambda: (r.randrange(5), "scan"),
        lambda: (r.randrange(5), "finish"), lambda: (r.randrange(5), "abandon"),
    ])()


def script_of_commands(r):
    """A script with each command, and the options of `play`."""
    count = r.randrange(12)
    cap = max(1, count + r.choice([-1, 0, 1, 5, 30]))
    rows = [f"{r.choice(VALUES)},{r.choice(VALUES)}" for _ in range(count)]
    lines = ["table", "a,b", *rows, "end", *(f"as {client} {words}" for client, words in (words_of(r) for _ in range(60)))]
    return "\n".join(lines) + "\n", ["--cap", str(cap), "--block", str(r.choice([1, 3, 8])), "--window", str(r.choice([1, 64]))]


def reply_of(table, line, number):
    """What a call's result is as the program's line or lines. The number is that of the line."""
    _, who, verb, *rest = line.split(" ", 3)
    client, rest = int(who), rest[0] if rest else ""
    try:
        return f"{who} {done(table, client, verb, rest)}\n"
    except binding.Refused as why:
        text = f"{why.number}: {why}"
        return f"{who} refused {text}\n" if why.kind == "client" else f"line {number} refused {why.kind} {text}\n"


def done(table, client, verb, rest):
    if verb == "insert":
        return f"inserted {table.insert(list(map(int, rest.split(','))))}"
    if verb == "update":
        id, _, row = rest.partition(" ")
        table.update(int(id), list(map(int, row.split(","))))
        return f"updated {id}"
    if verb == "delete":
        table.delete(int(rest))
        return f"deleted {rest}"
    if verb == "get":
        return f"row {rest}: {','.join(map(str, table.get(int(rest))))}"
    if verb == "room":
        return f"room {table.room()}"
    if verb == "commit":
        pieces = [piece.split() for piece in rest.split("; ")]
        changes = [(words[0], int(words[1]) if words[0] != "insert" else 0, list(map(int, words[-1].split(","))) if words[0] != "delete" else [])
                   for words in pieces]
        return f"committed {len(changes)} first {table.commit(changes)}"
    if verb == "begin":
        return f"begun {table.begin(client, rest.encode())}"
    if verb == "scan":
        return f"left {table.scan(client)}"
    if verb == "abandon":
        table.abandon(client)
        return "abandoned"
    rows = table.finish(client)
    lines = [f"level {level} id {id}: {','.join(map(str, values))}" for level, id, *values in rows]
    return "\n".join([f"answer {len(rows)}", *lines])


def by_calls(library, text, commands, first, width, setup):
    names, *rows = text.splitlines()
    table = binding.Table(library, names, width, rows=[list(map(int, row.split(b","))) for row in rows], **setup)
    replies = "".join(reply_of(table, line, number) for number, line in enumerate(commands, first))
    table.close()
    return replies


def by_lines(library, text, commands, width, setup, r):
    """The lines in some pieces; the last one may have no end."""
    table = binding.Table(library, text, width, **setup)
    replies = b""
    while commands:
        count = r.randrange(1, len(commands) + 1)
        piece, commands = "\n".join(commands[:count]), commands[count:]
        replies += table.lines(piece.encode() + (b"\n" if commands or r.random() < .5 else b""))
    table.close()
    return replies.decode()


def numberless(replies):
    """A table counts the lines that it was given, and not those of the script."""
    return re.sub(r"^line \d+ ", "line ", replies, flags=re.MULTILINE)


def differs(library, program, script, options, r):
    """What `play` prints and what the library gives, where they differ."""
    played = subprocess.run([program, "play", *options], input=script.encode(), stdout=subprocess.PIPE, check=False).stdout.decode()
    lines = script.splitlines()
    end = lines.index("end")
    text, commands = "".join(f"{line}\n" for line in lines[1:end]).encode(), lines[end + 1:]
    numbers = dict(zip(options[::2], map(int, options[1::2])))
    setup = {"clients": 4, "capacity": numbers["--cap"], "block": numbers["--block"], "window": numbers["--window"]}
    width = lines[1].count(",") + 1
    try:
        called, given = by_calls(library, text, commands, end + 2, width, setup), by_lines(library, text, commands, width, setup, r)
    except binding.Refused as why:
        called = given = f"{why.kind} refused {why.number}: {why}\n"
    if called == played and numberless(given) == numberless(played):
        return None
    return played, called, given


def moments(ids):
    """Where the updates of rows with these ids that are made at one moment begin and end."""
    begin = 0
    for at, id in enumerate(ids):
        if at == begin + 8 or id in ids[begin:at]:
            yield begin, at
            begin = at
    yield begin, len(ids)


def by_commits(table, ids, rows):
    """How many updates are made, and why the next ones are not."""
    made = 0
    for begin, made in moments(ids):
        try:
            table.commit([("update", id, row) for id, row in zip(ids[begin:made], rows[begin:made])])
        except binding.Refused as why:
            return begin, str(why)
    return made, None


def by_one_call(table, ids, rows):
    """The same, by a call for all and one for those that are left."""
    made = 0
    try:
        while made < len(ids):
            made += table.update_many(ids[made:], rows[made:])
    except binding.Refused as why:
        return made, str(why)
    return made, None


def updates_differ(library, r):
    """What is made of random updates of nine rows, where the two ways differ. A query that is open keeps what ends."""
    ids = [r.choice([*range(1, 10), *([99] if r.random() < .1 else [])]) for _ in range(r.choice([1, 8, 9, 40]))]
    rows, capacity, found = [[r.choice(VALUES), r.choice(VALUES)] for _ in ids], r.choice([9, 12, 20]), []
    for way in (by_commits, by_one_call):
        table = binding.Table(library, b"a,b\n" + b"1,1\n" * 9, 2, capacity=capacity)
        table.begin(2, b"best low(a)")
        found.append((way(table, ids, rows), table.rows(), table.room()))
        table.close()
    return None if found[0] == found[1] else (ids, rows, capacity, *found)


def one_by_one(table, rows):
    """The id of the first of these rows, which are inserted where there is room for all."""
    left = table.room()
    if len(rows) > left:
        return f"full needed {CAPACITY - left + len(rows)}"
    return [table.insert(row) for row in rows][0] if rows else 0


def all_at_once(table, rows):
    """The same by one call."""
    try:
        return table.insert_many(rows)
    except binding.Refused as why:
        return str(why)


def inserts_differ(library, r):
    """What is made of random inserts, where the two ways differ."""
    rows, found = [[r.choice(VALUES), r.choice(VALUES)] for _ in range(r.choice([0, 1, 7, 8, 9, 20, 21]))], []
    for way in (one_by_one, all_at_once):
        table = binding.Table(library, b"a,b\n1,1\n1,2\n", 2, capacity=CAPACITY)
        table.begin(2, b"best low(a)")
        table.update(1, [2, 2])
        found.append((way(table, rows), way(table, rows), table.rows(), table.room()))
        table.close()
    return None if found[0] == found[1] else (rows, *found)


def main():
    parser = argparse.ArgumentParser(description=__doc__, formatter_class=argparse.RawDescriptionHelpFormatter)
    parser.add_argument("library")
    parser.add_argument("program")
    parser.add_argument("--count", type=int, default=400)
    parser.add_argument("--seed", type=int, default=1)
    given = parser.parse_args()
    library, r = binding.load(given.library), random.Random(given.seed)
    for number in range(given.count):
        script, options = (script_of_commands if number % 2 else random_scripts.script)(r)
        found = differs(library, given.program, script, options, r)
        if found:
            for name, replies in zip(("play", "by calls", "by lines"), found):
                print(f"== {name}\n{replies}")
            sys.exit(f"script {number} differs, with the options {' '.join(options)}:\n{script}")
        found = updates_differ(library, r)
        if found:
            sys.exit("updates differ: ids, rows, capacity, by commits, by one call:\n" + "\n".join(map(str, found)))
        found = inserts_differ(library, r)
        if found:
            sys.exit("inserts differ: rows, one by one, by one call:\n" + "\n".join(map(str, found)))
    print(f"{given.count} random scripts: the library gives what play gives, by its calls and by lines; and as many lists of updates and of inserts")


main()
