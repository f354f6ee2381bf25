#!/usr/bin/env python3
"""Compares `prefq threads` with the model on random small histories: what it prints must be the replies of one interleaving of the clients'
commands, by the model's sequential table (table.py).

    (cd crates/prefq && rt run prefq < stdin)         # builds crates/prefq/out/prefq
    python3 tests/model/threads.py [PROGRAM] [--histories N] [--first SEED] [--runs N]

A history has two or three clients, each with up to four commands. Each is run some times, several at once, so that its threads come in
different orders. Each is a seed: `--first SEED --histories 1`. At first it shows on one history that it accepts the output of each of its
interleavings and no other. Needs Python 3.9.
"""
import argparse
import itertools
import os
import random
import re
import subprocess
import sys
from concurrent.futures import ThreadPoolExecutor
from dataclasses import replace
from pathlib import Path

import table
from scripts import ODD_LINES, Scripts

PROGRAM = Path(__file__).resolve().parent.parent.parent / "crates/prefq/out/prefq"
MOST_COMMANDS = 4


class Histories(Scripts):
    """Random scripts of few commands, in which a whole query is three of them, or four where the table has two blocks."""

    def __init__(self, random):
        super().__init__(random)
        self.clients = random.randint(2, 3)
        self.capacity = random.randint(1, 6)
        self.blocks = random.randint(1, min(self.capacity, 2))
        self.block = -(-self.capacity // self.blocks)

    def commands(self, client):
        found, wanted = [], self.random.randint(1, MOST_COMMANDS)
        while len(found) < wanted:
            found += self.random.choice([
                [self.change()], [self.change()], [f"commit {self.change()}; {self.change()}"], ["room"], [f"get {self.id()}"],
                [f"begin {self.question()}", *["scan"] * self.blocks, "finish"], [f"begin {self.question()}", "scan", "abandon"],
                [f"begin best low({self.column()})"], ["scan"], ["abandon"],
            ])
        return [f"as {client} {command}" for command in found[:MOST_COMMANDS]]

    def id(self):
        return self.random.randint(1, self.capacity + 1)

    def script(self):
        rows = [self.row(odd=0) for _ in range(self.random.randint(0, self.capacity))]
        commands = [command for client in range(1, self.clients + 1) for command in self.commands(client)]
        if self.random.random() < 0.2:
            commands.insert(self.random.randint(0, len(commands)), self.random.choice(ODD_LINES))
        return "\n".join(["table", ",".join(self.columns), *rows, "end", *commands, ""]).encode()


def part(opening, columns, lines):
    """What is printed first, of lines that are refused and of commands of no client; and the commands of each client."""
    first, commands = [], {client: [] for client in range(1, opening.clients + 1)}
    for number, line in lines:
        try:
            client, *command = table.read_command(columns, line)
            commands[client].append(command)
        except (table.NoCommand, table.Refused, KeyError):
            first += table.lines_for(opening, columns, number, line)
    return first, commands


def copy_of(one):
    """A table that steps apart from this one: no commit changes its rows in place, a scan changes its query."""
    return replace(one, queries={client: replace(query) for client, query in one.queries.items()})


def replies_in(lines):
    """The replies of each client, in order; None where there is none of this form. A reply has its client's number first, and then its answer's rows."""
    found = []
    for line in lines:
        if line.startswith("level ") and found:
            found[-1].append(line)
        elif re.match(r"[1-8] ", line):
            found.append([line])
        else:
            return None
    numbers = [int(reply[0][0]) for reply in found]
    if numbers != sorted(numbers):
        return None
    return {client: [reply for reply in found if reply[0].startswith(f"{client} ")] for client in range(1, 9)}


def is_interleaving(one, left, replies):
    """Whether some interleaving of the commands that are left, from a table, has just these replies."""
    if not any(left.values()):
        return not any(replies.values())
    for client, commands in left.items():
        if commands and replies[client]:
            after = copy_of(one)
            if table.reply_lines(after, client, *commands[0]) == replies[client][0]:
                rest = ({**left, client: commands[1:]}, {**replies, client: replies[client][1:]})
                if is_interleaving(after, *rest):
                    return True
    return False


def is_right(clients, capacity, block, script, output):
    """Whether an output is one that this script may have on threads."""
    opening, columns, lines = table.open_script(clients, capacity, block, script)
    first, commands = part(opening, columns, lines)
    printed = output.splitlines()
    replies = replies_in(printed[len(first):])
    is_whole = output == "".join(line + "\n" for line in printed)
    return is_whole and printed[:len(first)] == first and replies is not None and is_interleaving(opening, commands, replies)


def outputs(clients, capacity, block, script):
    """The outputs of all interleavings, made one by one."""
    opening, columns, lines = table.open_script(clients, capacity, block, script)
    first, commands = part(opening, columns, lines)
    turns = [client for client, several in commands.items() for _ in several]
    for order in set(itertools.permutations(turns)):
        after, left = copy_of(opening), {client: iter(several) for client, several in commands.items()}
        replies = {client: [] for client in commands}
        for client in order:
            replies[client] += table.reply_lines(after, client, *next(left[client]))
        yield "".join(line + "\n" for line in [*first, *itertools.chain(*replies.values())])


def self_test():
    """Of two clients that update a row and get it, the second to update is seen by both, or by itself alone: no other output is accepted."""
    given = 2, 1, 1, b"table\nx\n3\nend\nas 1 update 1 5\nas 2 update 1 7\nas 9 room\nas 1 get 1\nas 2 get 1\n"
    might = {f"9 refused 1: no such client\n1 updated 1\n1 row 1: {a}\n2 updated 1\n2 row 1: {b}\n" for a in (3, 5, 7) for b in (3, 5, 7)}
    right = set(outputs(*given))
    if len(right) != 3 or {output for output in might if is_right(*given, output)} != right:
        sys.exit("the check accepts another output than those of the interleavings")
    one = min(right)
    lines = one.splitlines(True)
    for wrong in (one[:-1], one + lines[-1], "".join(lines[:-1]), "".join(lines[1:]), "".join([*lines[1:], lines[0]]), "".join([lines[0], *lines[3:], *lines[1:3]])):
        if is_right(*given, wrong):
            sys.exit(f"the check accepts an output that is changed:\n{wrong}")


def run(program, words, script):
    done = subprocess.run([program, *map(str, words)], input=script, stdout=subprocess.PIPE, stderr=subprocess.STDOUT, timeout=60)
    return done.stdout.decode(errors="replace"), done.returncode


def differences(program, seed, runs):
    """How many outputs the history of this seed had, and what was wrong with one."""
    histories = Histories(random.Random(seed))
    script = histories.script()
    found = {run(program, ["threads", *histories.options()], script) for _ in range(runs)}
    for output, status in sorted(found):
        if status != 0 or not is_right(histories.clients, histories.capacity, histories.block, script, output):
            return len(found), f"seed {seed}: threads {' '.join(map(str, histories.options()))}\n{script.decode()}\nprogram, with status {status}:\n{output}"
    return len(found), None


def main():
    parser = argparse.ArgumentParser(description=__doc__.splitlines()[0])
    parser.add_argument("program", nargs="?", type=Path, default=PROGRAM)
    parser.add_argument("--histories", type=int, default=1000)
    parser.add_argument("--first", type=int, default=1)
    parser.add_argument("--runs", type=int, default=6)
    given = parser.parse_args()
    self_test()
    if not given.program.is_file():
        sys.exit(f"{given.program} is not there: build it first")
    seeds = range(given.first, given.first + given.histories)
    with ThreadPoolExecutor(2 * (os.cpu_count() or 1)) as pool:
        found = list(pool.map(lambda seed: differences(given.program.resolve(), seed, given.runs), seeds))
    wrong = [text for _, text in found if text]
    print(*wrong[:3], sep="\n", end="\n" if wrong else "")
    print(f"{len(seeds)} histories, {given.runs} runs of each, {sum(count > 1 for count, _ in found)} with different replies, {len(wrong)} wrong")
    sys.exit(1 if wrong else 0)


main()
