"""The sequential table: a plain list of rows, copied whole at each begin, and what a script prints by it.

Written from docs/GUIDE.md alone, and sharing nothing with the program.
"""
import re
from dataclasses import dataclass, field

import questions

BLANKS = b" \t"
NUMBER = re.compile(rb"[+-]?[0-9]+")
NAME = re.compile(rb"[A-Za-z][A-Za-z0-9_.]{0,31}")


class Refused(Exception):
    """A line is refused with this text behind the word `refused`, or the whole script with this one."""


class NoCommand(Exception):
    """A line has none of the forms of a command."""


@dataclass
class Query:
    question: questions.Question
    rows: dict
    left: int


@dataclass
class Table:
    clients: int
    capacity: int
    block: int
    # id: (number of the commit that made it, row)
    rows: dict = field(default_factory=dict)
    last_id: int = 0
    commits: int = 0
    queries: dict = field(default_factory=dict)

    def needed(self, rows):
        """How many versions stand in these rows or in the snapshot of an open query."""
        tables = [rows, *(query.rows for query in self.queries.values())]
        return len({(id, made) for table in tables for id, (made, _) in table.items()})

    def commit(self, changes):
        """Makes changes (kind, id, row) at one moment, or none; the ids that it added."""
        missing = next((id for kind, id, _ in changes if kind != "insert" and id not in self.rows), None)
        if missing is not None:
            raise Refused(f"7: no such row {missing}")
        rows, added = dict(self.rows), []
        for kind, id, row in changes:
            if kind == "insert":
                id = self.last_id + len(added) + 1
                added.append(id)
            if kind == "delete":
                del rows[id]
            else:
                rows[id] = (self.commits + 1, row)
        if any(kind != "delete" for kind, _, _ in changes) and self.needed(rows) > self.capacity:
            raise Refused(f"8: full needed {self.needed(rows)}")
        self.rows, self.commits, self.last_id = rows, self.commits + 1, self.last_id + len(added)
        return added

    def query(self, client):
        if client not in self.queries:
            raise Refused("4: no query")
        return self.queries[client]

    def reply(self, client, act, *values):
        """The lines of a reply, without the client before them."""
        if not 1 <= client <= self.clients:
            raise Refused("1: no such client")
        return getattr(self, f"reply_to_{act}")(client, *values)

    def reply_to_insert(self, _, row):
        return [f"inserted {self.commit([('insert', None, row)])[0]}"]

    def reply_to_update(self, _, id, row):
        self.commit([("update", id, row)])
        return [f"updated {id}"]

    def reply_to_delete(self, _, id):
        self.commit([("delete", id, None)])
        return [f"deleted {id}"]

    def reply_to_commit(self, _, changes):
        return [f"committed {len(changes)} first {(self.commit(changes) or [0])[0]}"]

    def reply_to_begin(self, client, question):
        if client in self.queries:
            raise Refused("3: query open")
        blocks = -(-self.capacity // self.block)
        self.queries[client] = Query(question, dict(self.rows), blocks)
        return [f"begun {blocks}"]

    def reply_to_scan(self, client):
        query = self.query(client)
        if query.left == 0:
            raise Refused("5: all scanned")
        query.left -= 1
        return [f"left {query.left}"]

    def reply_to_finish(self, client):
        query = self.query(client)
        if query.left:
            raise Refused(f"6: not done left {query.left}")
        del self.queries[client]
        found = query.question.answer([(id, row) for id, (_, row) in query.rows.items()])
        return [f"answer {len(found)}", *(f"level {level} id {id}: {cells(row)}" for level, id, row in found)]

    def reply_to_abandon(self, client):
        self.query(client)
        del self.queries[client]
        return ["abandoned"]

    def reply_to_get(self, _, id):
        if id not in self.rows:
            raise Refused(f"7: no such row {id}")
        return [f"row {id}: {cells(self.rows[id][1])}"]

    def reply_to_room(self, _):
        return [f"room {self.capacity - self.needed(self.rows)}"]


def cells(row):
    return ",".join(map(str, row))


def read_row(width, text, row):
    fields = text.split(b",")
    if len(fields) != width:
        raise Refused(f"table 5: width row {row}")
    return [read_number(field.strip(BLANKS), row, column) for column, field in enumerate(fields, 1)]


def read_number(field, row, column):
    if not NUMBER.fullmatch(field):
        raise Refused(f"table 6: not whole row {row} col {column}")
    if not -2**63 <= int(field) < 2**63:
        raise Refused(f"table 7: out of range row {row} col {column}")
    return int(field)


def read_table(lines):
    """Columns and rows of a table text without quotes. Raises its first fault."""
    records = [line.split(b",") for line in lines if line]
    names = [name.strip(BLANKS) for name in records[0]] if records else []
    if not names:
        raise Refused("table 1: no columns")
    if len(names) > 16:
        raise Refused("table 2: too many columns")
    for column, name in enumerate(names):
        if not NAME.fullmatch(name):
            raise Refused(f"table 3: bad name col {column + 1}")
        if name in names[:column]:
            raise Refused(f"table 4: same name col {column + 1}")
    return names, [read_row(len(names), b",".join(record), n) for n, record in enumerate(records[1:], 1)]


def words(text, count):
    """The first words of a text, and what stands behind them and the blanks that follow."""
    found = []
    for _ in range(count):
        word = re.match(rb"[ \t]*([^ \t]*)[ \t]*", text, re.S)
        if not word[1]:
            raise NoCommand
        found.append(word[1])
        text = text[word.end():]
    return (*found, text)


def whole(word, most):
    if not re.fullmatch(rb"[0-9]+", word) or int(word) > most:
        raise NoCommand
    return int(word)


def only(rest):
    if rest.strip(BLANKS):
        raise NoCommand


def read_piece(text):
    """The form of one change: its kind, its id, and the text of its values."""
    kind, rest = words(text, 1)
    if kind == b"insert":
        return "insert", None, rest
    if kind not in (b"update", b"delete"):
        raise NoCommand
    word, rest = words(rest, 1)
    id = whole(word, 2**64 - 1)
    if kind == b"update":
        return "update", id, rest
    only(rest)
    return "delete", id, None


def read_changes(width, pieces):
    """The changes of a commit. Forms have been read; then come values, the number of changes, an id named twice."""
    changes = [(kind, id, None if values is None else read_row(width, values, 0)) for kind, id, values in pieces]
    if len(changes) > 8:
        raise Refused("commit 13: change count")
    named = [id for _, id, _ in changes]
    for place, id in enumerate(named):
        if id is not None and id in named[:place]:
            raise Refused(f"commit 12: twice place {place + 1}")
    return changes


def read_command(columns, line):
    """A command line as (client, act, values..)."""
    as_word, number, act, rest = words(line, 3)
    if as_word != b"as":
        raise NoCommand
    client = whole(number, 255)
    if act in (b"scan", b"finish", b"abandon", b"room"):
        only(rest)
        return client, act.decode()
    if act == b"get":
        word, rest = words(rest, 1)
        only(rest)
        return client, "get", whole(word, 2**64 - 1)
    if act == b"begin":
        try:
            return client, "begin", questions.read(columns, rest)
        except questions.Fault as fault:
            raise Refused(f"term {fault.number}: {fault.text}")
    if act == b"commit":
        return client, "commit", read_changes(len(columns), [read_piece(piece) for piece in rest.split(b";")])
    kind, id, values = read_piece(act + b" " + rest)
    row = [] if values is None else [read_row(len(columns), values, 0)]
    return client, kind, *([] if id is None else [id]), *row


def reply_lines(table, client, act, *values):
    """The lines of a client's reply."""
    try:
        first, *more = table.reply(client, act, *values)
    except Refused as refused:
        return [f"{client} refused {refused}"]
    return [f"{client} {first}", *more]


def lines_for(table, columns, number, line):
    """The lines of the reply to a command line."""
    try:
        command = read_command(columns, line)
    except NoCommand:
        return [f"line {number} refused: command"]
    except Refused as refused:
        return [f"line {number} refused {refused}"]
    return reply_lines(table, *command)


def open_script(clients, capacity, block, script):
    """The table that a script opens, its columns, and the command lines with their numbers. Raises what is printed where all is refused."""
    lines = [line.removesuffix(b"\r") for line in script.split(b"\n")]
    if lines[-1] == b"" and (script.endswith(b"\n") or not script):
        lines.pop()
    if lines[:1] != [b"table"]:
        raise Refused("script refused: no table")
    if b"end" not in lines:
        raise Refused("script refused: no end")
    end = lines.index(b"end")
    try:
        columns, rows = read_table(lines[1:end])
    except Refused as refused:
        kind, text = str(refused).split(" ", 1)
        raise Refused(f"{kind} refused {text}")
    if len(rows) > capacity:
        raise Refused(f"opening refused 8: full needed {len(rows)}")
    table = Table(clients, capacity, block)
    for row in rows:
        table.commit([("insert", None, row)])
    return table, columns, [(number, line) for number, line in enumerate(lines[end + 1:], end + 2) if line.strip(BLANKS)]


def play(clients, capacity, block, script):
    """What the program prints for a script, and its status."""
    try:
        table, columns, lines = open_script(clients, capacity, block, script)
    except Refused as refused:
        return f"{refused}\n", 2
    out = [text for number, line in lines for text in lines_for(table, columns, number, line)]
    return "".join(line + "\n" for line in out), 0
