"""A table of SQLite that is followed: triggers in the user's file note the key of each row that is changed, and the note has the next serial number.

There is one note for each key, with the number of its last change, so the notes take no more room than the keys do. A transaction's numbers are those behind
all that was committed before, since SQLite has one writer at a time; so what is seen up to a number is what was seen at one moment.
"""
import os
import re
import sqlite3
import time
import weakref
from contextlib import closing
from typing import Any, Callable, Dict, List, Mapping, Optional, Sequence, Tuple, TypeVar
from urllib.parse import quote

from .columns import Column
from .dealt import Key
from .errors import Refused
from .follow_source import Cells, Changes, Everything, Source, check_columns
from .hints import nearest, unknown_column
from .kinds import Floats, Texts, Whole
from .kinds.kind import quoted as identifier
from .loading import chosen

Result = TypeVar("Result")
# What SQLite makes of a declared type, by the first of these words in it, and the kind of such a column where all of its values are missing.
AFFINITIES: Tuple[Tuple[str, Any], ...] = (("int", Whole), ("char", Texts), ("clob", Texts), ("text", Texts), ("real", Floats), ("floa", Floats), ("doub", Floats))
SECONDS_TO_WAIT = 5.0       # for another transaction, which keeps the file
CHANGES = "prefq_changes"
TRIGGERS = ("prefq_insert", "prefq_update", "prefq_delete")
OF_NO_USER = ("sqlite_", f"{CHANGES}:")
NOTES = "create table {notes} (number integer primary key autoincrement, key unique)"
# A key is looked up among the notes by their index: with the affinity of the table's own column, which + takes away, all notes would be looked through.
NOTE = "delete from {notes} where key = +{row}.{key}; insert into {notes} (key) values ({row}.{key});"
NEW_KEY = "delete from {notes} where key = +new.{key} and not new.{key} = old.{key} collate binary; " \
          "insert into {notes} (key) select new.{key} where not new.{key} = old.{key} collate binary;"
# What of a statement is quoted or a comment; and of a trigger whether it ends others, and runs behind a change: one that does not say so runs before it.
QUOTED = re.compile(r"""'(?:[^']|'')*'|"(?:[^"]|"")*"|`(?:[^`]|``)*`|\[[^\]]*\]|--[^\n]*|/\*.*?(?:\*/|$)""", re.DOTALL)
ENDS_OTHERS = re.compile(r"\braise\s*\(\s*ignore\b", re.IGNORECASE)
RUNS_BEHIND = re.compile(r"create\s+trigger\s+[^\s.]+(?:\s*\.\s*[^\s.]+)?\s+after\b", re.IGNORECASE)


class SqliteSource(Source):
    """A table of a file of SQLite, by a connection of its own."""

    faults = (sqlite3.Error,)

    def __init__(self, connection: sqlite3.Connection, table: str, key: str, columns: Optional[Sequence[str]]) -> None:
        self._path = path_of(connection)
        self._file = file_at(self._path)        # as it was before it was opened: what is opened may be another one by then, and is refused
        self._db = connected_to(self._path)
        # A connection and its statements are a cycle, so that where nothing refers to the frame only the collector would close it.
        weakref.finalize(self, close_in, os.getpid(), self._db).atexit = False
        try:
            self._key, self._schema, self._has_added = key, -1, False
            self.name = at_one_moment(self._db, lambda: table_named(self._db, table))
            check_meaning(connection, self.name)
            there = at_one_moment(self._db, self._found)
            self.columns = chosen([name for name in there if name != key or columns is not None], columns)
            self._followed = {name: there[name] for name in (key, *self.columns)}
            self._objects = self._own_objects(NOTE, NEW_KEY)
            # As versions up to 0.3.0 made them.
            self._earlier = self._own_objects(NOTE.replace("+", ""), NEW_KEY.replace("+", ""))
        except BaseException:
            self._db.close()
            raise

    def everything(self) -> Everything:
        if not self._at_one_moment(self._is_installed):
            self._at_one_moment(self._install, "begin immediate")
        return self._at_one_moment(self._everything)

    def changes(self, since: int) -> Optional[Changes]:
        return self._at_one_moment(lambda: self._changes(since))

    def now(self) -> Optional[int]:
        return self._at_one_moment(self._place)

    def withdraw(self) -> None:
        try:
            if self._has_added:
                at_one_moment(self._db, lambda: remove(self._db, self.name, self._key), "begin immediate")
        finally:
            self.close()

    def _at_one_moment(self, call: Callable[[], Result], begin: str = "begin") -> Result:
        """What a call finds in a transaction, for which it waits for others no longer than the frame may."""
        if file_at(self._path) != self._file:
            raise Refused(f"the file of table {self.name!r} is not there any more, or is another one: follow the table again", "follow")
        left = SECONDS_TO_WAIT if self.until is None else max(0.0, min(SECONDS_TO_WAIT, self.until - time.monotonic()))
        self._db.execute(f"pragma busy_timeout = {int(1000 * left)}").close()
        return at_one_moment(self._db, call, begin)

    def _everything(self) -> Everything:
        self._check_table()
        if not self._has_objects():
            raise Refused(f"what follows table {self.name!r} was dropped while it was read: ask again", "follow")
        rows = self._rows(f"select {self._names('')} from {identifier(self.name)}")
        found = Everything(self._last(), self._kinds(), {self._checked(row[0]): row[1:] for row in rows})
        self._schema = self._version()
        return found

    def _changes(self, since: int) -> Optional[Changes]:
        place = self._place()
        if place is None or place < since:      # of a copy from before
            return None
        if place == since:
            return Changes(place, False, {})
        notes, table, key = map(identifier, (self._notes, self.name, self._key))
        found = self._rows(f"select n.key, {self._names('t.')} from {notes} n left join {table} t on t.{key} = n.key where n.number > ?", since)
        # Of a key that has become null nothing is noted.
        if any(row[0] is None for row in found) or self._rows(f"select 1 from {table} where {key} is null limit 1"):
            return None
        [(count,)] = self._rows(f"select count(*) from {table}")
        return Changes(place, False, self._changed(found), count)

    def _place(self) -> Optional[int]:
        """The last number; None where the schema is another one, after which SQLite does not say which values are what they were, nor whether all was noted."""
        return self._last() if self._version() == self._schema else None

    def _changed(self, found: Sequence[Sequence[Any]]) -> Dict[Key, Optional[Cells]]:
        """The rows that are changed. By the table's own comparison other keys may be equal to the one that is noted: where it is none of them, it has gone."""
        changed: Dict[Key, Optional[Cells]] = {}
        for row in found:
            noted, key = row[0], row[1]
            if key is not None:
                self._checked(key)
            if isinstance(noted, (int, str)):
                is_there = type(key) is type(noted) and key == noted
                changed[noted] = row[2:] if is_there else changed.get(noted)
        return changed

    def _checked(self, key: Any) -> Key:
        if isinstance(key, (int, str)):
            return key
        raise Refused(f"table {self.name!r} has a row with the key {key!r}: a key is a whole number or a text", "follow")

    # ---- the schema ----

    def _version(self) -> int:
        return int(self._rows("pragma schema_version")[0][0])

    def _found(self) -> Dict[str, str]:
        """The types of the columns, of which the key is one."""
        there = types_of(self._db, self.name)
        self._check_key(there)
        return there

    def _check_key(self, there: Mapping[str, str]) -> None:
        if self._key not in there:
            raise Refused(unknown_column(self._key, list(there)), "follow")
        table = identifier(self.name)
        primary = [name for _, name, *_, place, _ in self._rows(f"pragma table_xinfo({table})") if place]
        unique = [name for _, name, is_unique, _, is_partial in self._rows(f"pragma index_list({table})") if is_unique and not is_partial]
        keys = [primary, *([row[2] for row in self._rows(f"pragma index_info({identifier(name)})")] for name in unique)]
        if [self._key] not in keys:
            raise Refused(f"several rows of table {self.name!r} may have the same {self._key!r}: a key is the primary key, or unique", "follow")

    def _check_table(self) -> None:
        """Refuses a table whose columns that are followed are not those that they were, or whose key is none any more."""
        there = types_of(self._db, table_named(self._db, self.name))
        check_columns(repr(self.name), self._followed, there, repr)
        self._check_key(there)
        self._check_triggers()

    def _check_triggers(self) -> None:
        """Refuses a table with a trigger that runs behind a change, and by `raise(ignore)` ends those that have not run yet: what notes the change may be one of them."""
        ends = next((name for name, sql in self._triggers() if ENDS_OTHERS.search(plain(sql)) and RUNS_BEHIND.match(plain(sql))), None)
        if ends is not None:
            raise Refused(f"table {self.name!r} has the trigger {ends!r}, which by raise(ignore) ends what notes a change: make it a trigger before the change", "follow")

    def _kinds(self) -> Dict[str, Column]:
        """The kinds of columns by their types, for those that have no values."""
        found: Dict[str, Column] = {}
        for name in self.columns:
            kind = next((kind for word, kind in AFFINITIES if word in self._followed[name]), None)
            some = f"select 1 from {identifier(self.name)} where {identifier(name)} is not null limit 1"
            if kind is not None and not self._rows(some):
                found[name] = Column(name, kind())
                found[name].grows = True
        return found

    # ---- what is added to the file ----

    @property
    def _notes(self) -> str:
        return f"{CHANGES}:{self.name}:{self._key}"

    def _own_objects(self, note: str, new_key: str) -> Dict[str, str]:
        """The names of what is added, with how it is made, of triggers that note a row and a new key by these statements."""
        table, words = identifier(self.name), {"notes": identifier(self._notes), "key": identifier(self._key)}
        made = {self._notes: NOTES.format(**words)}
        for event, notes in (("insert", note.format(row="new", **words)), ("update", note.format(row="old", **words) + " " + new_key.format(**words)),
                             ("delete", note.format(row="old", **words))):
            name = f"prefq_{event}:{self.name}:{self._key}"
            made[name] = f"create trigger {identifier(name)} after {event} on {table} begin {notes} end"
        return made

    def _there(self) -> Dict[str, str]:
        """What is there by these names."""
        marks = ", ".join("?" * len(self._objects))
        found = self._rows(f"select name, sql from sqlite_master where name in ({marks})", *self._objects)
        return {name: as_made(sql) for name, sql in found if sql}

    def _has_objects(self) -> bool:
        return self._there() == self._objects and self._run_first()

    def _run_first(self) -> bool:
        """Whether the triggers that note a change run before those of the user's own, which may end with an error and leave the change there, as by `raise(fail)` or
        `insert or fail`: SQLite runs the newest ones first."""
        found = [name for name, sql in self._triggers() if name in self._objects or not is_ours(name, sql)]
        return set(found[-len(TRIGGERS):]) < set(self._objects)

    def _triggers(self) -> List[Any]:
        """The names of the table's triggers, with how they were made, the newest ones last."""
        return self._rows("select name, sql from sqlite_master where type = 'trigger' and tbl_name = ? collate nocase order by rowid", self.name)

    def _is_installed(self) -> bool:
        self._check_table()
        return self._has_objects()

    def _install(self) -> None:
        """Adds the table of notes and the triggers, unless they are there; triggers of an earlier version, and those that do not run first, are made anew, since these
        note the same. What has one of their names and is another thing is refused, and stays."""
        self._check_table()
        there, run_first = self._there(), self._run_first()
        for name, sql in self._objects.items():
            found = there.get(name)
            if found not in (None, sql, self._earlier[name]):
                raise Refused(f"{name!r} is there already, and is not what follows table {self.name!r}: drop it, or give it another name", "follow")
            if found == sql and (run_first or name == self._notes):
                continue
            if found:
                self._db.execute(f"drop trigger {identifier(name)}")
            self._db.execute(sql)
        if 0 < len(there) < len(self._objects):     # What was changed while some were missing is noted nowhere: a note without a key stands for any rows.
            self._db.execute(f"insert into {identifier(self._notes)} (key) values (null)")
        self._db.execute("commit")
        self._has_added = not there

    def _rows(self, statement: str, *values: Any) -> List[Any]:
        return rows_of(self._db, statement, *values)

    def _last(self) -> int:
        return int(self._rows(f"select max(number) from {identifier(self._notes)}")[0][0] or 0)

    def _names(self, of: str) -> str:
        return ", ".join(of + identifier(name) for name in (self._key, *self.columns))


def at_one_moment(db: sqlite3.Connection, call: Callable[[], Result], begin: str = "begin") -> Result:
    """What a call finds in a transaction, which has ended then, whatever is raised and wherever."""
    try:
        try:
            end_transaction(db)     # where a call before was interrupted, and so was its end
            db.execute(begin)
            return call()
        finally:
            end_transaction(db)
    finally:
        end_transaction(db)         # where the end above was interrupted


def rows_of(db: sqlite3.Connection, statement: str, *values: Any) -> List[Any]:
    """The rows of a statement, which has ended then: one that has not locks the file, also behind its transaction."""
    cursor = db.cursor()
    try:
        cursor.row_factory = None
        return cursor.execute(statement, values).fetchall()
    finally:
        cursor.close()


def end_transaction(db: sqlite3.Connection) -> None:
    """Takes back what is not committed."""
    if db.in_transaction:
        db.execute("rollback")


def path_of(connection: sqlite3.Connection) -> bytes:
    """Where the file of a connection is, whatever the caller makes of rows and texts there."""
    [(path,)] = rows_of(connection, "select cast(file as blob) from pragma_database_list where name = 'main'")
    if not path:
        raise Refused("a database in memory has no file that another connection reads", "follow")
    return bytes(path)


def file_at(path: bytes) -> Optional[Tuple[int, int]]:
    """Which file is at a path, None where there is none: a connection goes on with the one that it has opened, also where that was moved or removed."""
    try:
        found = os.stat(path)
    except OSError:
        return None
    return found.st_dev, found.st_ino


def connected_to(path: bytes) -> sqlite3.Connection:
    """Another connection to this file."""
    return sqlite3.connect(f"file:{quote(path)}?mode=rw", uri=True, isolation_level=None, check_same_thread=False)


def close_in(process: int, db: sqlite3.Connection) -> None:
    """Closes a connection in the process that has opened it."""
    if os.getpid() == process:
        db.close()


def check_meaning(connection: sqlite3.Connection, table: str) -> None:
    """Refuses a name that means a temporary table, which no other connection sees."""
    if rows_of(connection, "select 1 from sqlite_temp_master where type in ('table', 'view') and name = ? collate nocase", table):
        raise Refused(f"{table!r} means a temporary table or view of this connection, which no other one sees: drop it, or follow by another connection", "follow")


def table_named(db: sqlite3.Connection, table: str) -> str:
    """The name of a table as it is spelled in the file."""
    rows = [row for row in rows_of(db, "select name, type, sql from sqlite_master where type in ('table', 'view')") if not row[0].startswith(OF_NO_USER)]
    found = next((row for row in rows if folded(row[0]) == folded(table)), None)
    if found is None:
        near = nearest(table, [name for name, _, _ in rows])
        raise Refused(f"there is no table {table!r}" + (f"; did you mean {near!r}?" if near else ""), "follow")
    if found[1] == "view" or found[2].lower().startswith("create virtual"):
        raise Refused(f"{found[0]!r} is a {'view' if found[1] == 'view' else 'virtual table'}, whose rows no trigger sees: follow the table that has them", "follow")
    return str(found[0])


def types_of(db: sqlite3.Connection, table: str) -> Dict[str, str]:
    """The types of the columns as they are declared, by their names."""
    return {name: declared.lower() for _, name, declared, *_, hidden in rows_of(db, f"pragma table_xinfo({identifier(table)})") if hidden != 1}


def folded(name: str) -> bytes:
    """What names of SQLite are compared by: the letters of ASCII in small."""
    return name.encode(errors="surrogatepass").lower()


def plain(statement: str) -> str:
    """A statement without its comments, with a word in place of what is quoted."""
    return QUOTED.sub(lambda found: " " if found[0].startswith(("--", "/*")) else " quoted ", statement)


def as_made(statement: str) -> str:
    """A statement as it was given, of which SQLite writes the first words in capitals."""
    return statement.replace("CREATE TABLE ", "create table ", 1).replace("CREATE TRIGGER ", "create trigger ", 1)


def unfollow(connection: sqlite3.Connection, table: str, key: str = "id") -> None:
    """Removes from a file of SQLite what `Frame.follow` has added there for this table, also what was added under a name that it had before, and where there is
    no table by this name any more."""
    with closing(connected_to(path_of(connection))) as db:
        at_one_moment(db, lambda: remove(db, table, key), "begin immediate")


def remove(db: sqlite3.Connection, table: str, key: str) -> None:
    """Removes what was added for a table. Where there is nothing, a table or a key that is not there is refused."""
    found = added(db, table, key)
    if not found:
        there = types_of(db, table_named(db, table))
        if key not in there:
            raise Refused(unknown_column(key, list(there)), "follow")
    for kind, name in found:
        db.execute(f"drop {kind} {identifier(name)}")
    db.execute("commit")


def added(db: sqlite3.Connection, table: str, key: str) -> List[Tuple[str, str]]:
    """What was added for a table, by its name or by one that it had before: the triggers, and then the notes, each with what it is."""
    there = [(kind, name, of, name.partition(":")) for kind, name, of, sql in
             rows_of(db, "select type, name, tbl_name, sql from sqlite_master where type in ('table', 'trigger') order by type desc") if is_ours(name, sql)]
    of_table = {whose for kind, _, of, (_, _, whose) in there
                if folded(whose) == folded(f"{table}:{key}") or kind == "trigger" and folded(of) == folded(table) and whose.endswith(f":{key}")}
    return [(kind, name) for kind, name, _, (_, _, whose) in there if whose in of_table]


def is_ours(name: str, statement: str) -> bool:
    """Whether this was added to follow a table: the notes, or a trigger that writes there, whatever its table and its key are called by now."""
    what, _, whose = name.partition(":")
    notes = identifier(f"{CHANGES}:{whose}")
    return what == CHANGES and as_made(statement) == NOTES.format(notes=notes) or what in TRIGGERS and f"insert into {notes} (key)" in statement
