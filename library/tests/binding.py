"""prefq.h by ctypes, no more than the tests beside this file need."""
import ctypes
from ctypes import POINTER, byref, c_char_p, c_int, c_int32, c_int64, c_size_t, c_uint32, c_uint64, c_void_p

KINDS = {1: "client", 2: "table", 3: "term", 4: "commit", 5: "opening", 6: "arguments", 7: "end"}
VERBS = {"insert": 1, "update": 2, "delete": 3}


class Refusal(ctypes.Structure):
    _fields_ = [("kind", c_int), ("number", c_int32), ("place", c_int64), ("row", c_int64), ("amount", c_uint64), ("text", c_char_p)]


class Setup(ctypes.Structure):
    _fields_ = [("clients", c_uint32), ("capacity", c_uint32), ("block", c_uint32), ("window", c_uint32)]


class Change(ctypes.Structure):
    _fields_ = [("verb", c_int), ("id", c_uint64), ("values", POINTER(c_int64))]


ROWS, NUMBERS, COUNT = POINTER(c_int64), POINTER(POINTER(c_int64)), POINTER(c_size_t)
CALLS = {
    "open": [c_char_p, c_size_t, ROWS, c_size_t, c_size_t, POINTER(Setup), POINTER(c_void_p)],
    "open_text": [c_char_p, c_size_t, POINTER(Setup), POINTER(c_void_p)],
    "insert": [c_void_p, ROWS, c_size_t, POINTER(c_uint64)],
    "insert_many": [c_void_p, ROWS, c_size_t, c_size_t, POINTER(c_uint64)],
    "update": [c_void_p, c_uint64, ROWS, c_size_t],
    "update_many": [c_void_p, POINTER(c_uint64), POINTER(ROWS), c_size_t, c_size_t, COUNT],
    "delete": [c_void_p, c_uint64],
    "commit": [c_void_p, POINTER(Change), c_size_t, c_size_t, POINTER(c_uint64)],
    "get": [c_void_p, c_uint64, ROWS, c_size_t],
    "room": [c_void_p, POINTER(c_uint32)],
    "rows": [c_void_p, c_uint32, NUMBERS, COUNT],
    "ask": [c_void_p, c_uint32, c_char_p, c_size_t, NUMBERS, COUNT],
    "begin": [c_void_p, c_uint32, c_char_p, c_size_t, POINTER(c_uint32)],
    "scan": [c_void_p, c_uint32, c_uint32, POINTER(c_uint32)],
    "finish": [c_void_p, c_uint32, NUMBERS, COUNT],
    "abandon": [c_void_p, c_uint32],
    "lines": [c_void_p, c_char_p, c_size_t, POINTER(c_void_p), COUNT],
    "end": [c_void_p],
    "close": [c_void_p],
}


class Refused(Exception):
    """A call that did not return PREFQ_OK: its result, and what prefq_last_refusal says."""

    def __init__(self, result, why):
        super().__init__(why.text.decode())
        self.result, self.kind, self.number, self.place = result, KINDS[why.kind], why.number, why.place


def load(path):
    library = ctypes.CDLL(str(path))
    library.prefq_last_refusal.restype = POINTER(Refusal)
    for name, arguments in CALLS.items():
        call = getattr(library, f"prefq_{name}")
        call.argtypes, call.restype = arguments, None if name in ("end", "close") else c_int
    return library


class Table:
    """A table of the library."""

    def __init__(self, library, text, width, rows=None, **setup):
        """Opens the table of a text; where there are rows, the text is that of the names alone."""
        self._library, self.width, self._table = library, width, c_void_p()
        self._row = (c_int64 * width)()
        if rows is None:
            self._call("open_text", text, len(text), byref(Setup(**setup)), byref(self._table))
        else:
            flat = [value for row in rows for value in row]
            self._call("open", text, len(text), (c_int64 * len(flat))(*flat), len(rows), width, byref(Setup(**setup)), byref(self._table))

    def _call(self, name, *arguments):
        result = getattr(self._library, f"prefq_{name}")(*arguments)
        if result:
            raise Refused(result, self._library.prefq_last_refusal()[0])

    def _values(self, values):
        return (c_int64 * len(values))(*values), len(values)

    def insert(self, values):
        id = c_uint64()
        self._call("insert", self._table, *self._values(values), byref(id))
        return id.value

    def insert_many(self, rows):
        first, flat = c_uint64(), [value for row in rows for value in row]
        self._call("insert_many", self._table, (c_int64 * len(flat))(*flat), len(rows), self.width, byref(first))
        return first.value

    def update(self, id, values):
        self._call("update", self._table, id, *self._values(values))

    def update_many(self, ids, rows):
        """Returns how many of the updates were made."""
        made, kept = c_size_t(), [(c_int64 * len(row))(*row) for row in rows]
        values = (ROWS * len(rows))(*(ctypes.cast(row, ROWS) for row in kept))
        self._call("update_many", self._table, (c_uint64 * len(ids))(*ids), values, len(ids), len(rows[0]), byref(made))
        return made.value

    def delete(self, id):
        self._call("delete", self._table, id)

    def commit(self, changes):
        """Each change is a verb, an id and values, as far as it has them."""
        made, first = (Change * len(changes))(), c_uint64()
        kept = [(c_int64 * self.width)(*values) for _, _, values in changes]
        for place, (verb, id, _) in enumerate(changes):
            made[place] = Change(VERBS[verb], id, kept[place])
        self._call("commit", self._table, made, len(changes), self.width, byref(first))
        return first.value

    def get(self, id):
        self._call("get", self._table, id, self._row, self.width)
        return list(self._row)

    def room(self):
        room = c_uint32()
        self._call("room", self._table, byref(room))
        return room.value

    def _answer(self, name, *arguments):
        numbers, count = ROWS(), c_size_t()
        self._call(name, self._table, *arguments, byref(numbers), byref(count))
        flat, size = numbers[:count.value * (2 + self.width)], 2 + self.width
        return [flat[at:at + size] for at in range(0, len(flat), size)]

    def rows(self, client=1):
        return self._answer("rows", client)

    def ask(self, question, client=1):
        return self._answer("ask", client, question, len(question))

    def finish(self, client):
        return self._answer("finish", client)

    def _left(self, name, *arguments):
        left = c_uint32()
        self._call(name, self._table, *arguments, byref(left))
        return left.value

    def begin(self, client, question):
        return self._left("begin", client, question, len(question))

    def scan(self, client, blocks=1):
        return self._left("scan", client, blocks)

    def abandon(self, client):
        self._call("abandon", self._table, client)

    def lines(self, lines):
        replies, length = c_void_p(), c_size_t()
        self._call("lines", self._table, lines, len(lines), byref(replies), byref(length))
        return ctypes.string_at(replies, length.value)

    def close(self):
        self._library.prefq_close(self._table)
        self._table = c_void_p()
