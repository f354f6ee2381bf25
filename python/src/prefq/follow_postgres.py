"""A table of PostgreSQL that is followed by logical decoding: the server gives whole transactions in the order of their commits.

The slot is a temporary one. It ends with its connection, so a frame that is killed leaves nothing behind that would have the server keep its log; whoever opens
another frame reads the table anew.
"""
import sys
import time
from concurrent.futures import Future, ThreadPoolExecutor, wait
from contextlib import suppress
from datetime import timezone
from typing import Any, Callable, Collection, Dict, List, Optional, Sequence, Tuple, TypeVar
from uuid import uuid4

from .checks import MOST, whole
from .columns import Column
from .decoding import WHOLE, Layout, Log, place_of
from .dealt import Key
from .errors import Refused
from .follow_source import UNCHANGED, Cells, Changes, Everything, Source, check_columns, client_of
from .hints import unknown_column
from .infer import first_inexact, kind_of_texts
from .kinds import Booleans, Clock, Dates, Decimals, Floats, Kind, Texts, Times, Whole
from .kinds.at_once import MOST_DECIMALS
from .kinds.kind import quoted as identifier
from .loading import chosen

Result = TypeVar("Result")
OLDEST = 130_000
TRIES = 3
PAUSE = 0.05    # seconds between two cancels of a statement
SETTINGS = {"datestyle": "ISO, YMD", "timezone": "UTC", "extra_float_digits": "1", "synchronous_commit": "on"}
KINDS: Dict[str, Any] = {"real": Floats, "double precision": Floats, "boolean": Booleans, "date": Dates, "timestamp without time zone": Times,
                         "time without time zone": Clock, "text": Texts, "character varying": Texts, "character": Texts, "uuid": Texts, "name": Texts,
                         **dict.fromkeys(WHOLE, Whole)}
KEYS = (*WHOLE, "text", "character varying", "uuid", "name")
KINDS_OF_TABLES = {"v": "a view", "m": "a materialized view", "p": "a partitioned table", "f": "a foreign table"}
FIND = """select c.oid, c.relkind, c.relpersistence, c.relreplident, quote_ident(n.nspname) || '.' || quote_ident(c.relname),
    exists (select from pg_inherits where inhparent = c.oid), row_security_active(c.oid)
    from pg_class c join pg_namespace n on n.oid = c.relnamespace where c.oid = coalesce(to_regclass(quote_ident(%s)), to_regclass(%s))"""
COLUMNS = """select attname, format_type(atttypid, null), format_type(atttypid, atttypmod), typtype from pg_attribute a join pg_type t on t.oid = atttypid
    where attrelid = %s and attnum > 0 and not attisdropped order by attnum"""
INDEXES = """select attname, indisprimary, indisreplident, attnotnull from pg_index join pg_attribute on attrelid = indrelid and attnum = indkey[0]
    where indrelid = %s and indisunique and indimmediate and indisvalid and indnkeyatts = 1 and indpred is null"""
# The types of some columns, and those that these are made of: of arrays, domains, composite types and ranges. Servers before 14 have no ranges of many.
TYPES = """with recursive used(oid) as (
        select atttypid from pg_attribute where attrelid = %s and attname = any(%s::name[])
        union select part from used, lateral (
            select unnest(array[typelem, typbasetype]) from pg_type where pg_type.oid = used.oid
            union all select rngsubtype from pg_range r where used.oid in (rngtypid, (to_jsonb(r) ->> 'rngmultitypid')::oid)
            union all select atttypid from pg_type join pg_attribute on attrelid = typrelid where pg_type.oid = used.oid) as parts(part))
    select oid::bigint, typrelid::bigint, case typnamespace when 'pg_catalog'::regnamespace then typname::text end from used join pg_type using (oid)"""
# Each change of a table, of its schema, its columns, its keys, the words of its enums and the parts of its composite types writes a row of the catalog anew, by a
# transaction of another number.
SCHEMA = """select 'table', 0, 0, xmin::text from pg_class where oid = %(oid)s
    union all select 'schema', 0, n.oid::bigint, n.xmin::text from pg_namespace n join pg_class c on n.oid = c.relnamespace where c.oid = %(oid)s
    union all select 'column', attrelid::bigint, attnum, xmin::text from pg_attribute where attrelid = any(%(tables)s::oid[])
    union all select 'word', 0, oid::bigint, xmin::text from pg_enum where enumtypid = any(%(types)s::oid[])
    union all select 'key', 0, indexrelid::bigint, xmin::text from pg_index where indrelid = %(oid)s and indisunique order by 1, 2, 3"""
# Types whose output has names of other things, which may get other names.
OF_NAMES = frozenset(["regclass", "regcollation", "regconfig", "regdictionary", "regnamespace", "regoper", "regoperator", "regproc", "regprocedure", "regrole", "regtype",
                      "aclitem"])
Schema = List[Tuple[Any, ...]]


class PostgresSource(Source):
    """A table of a database of PostgreSQL, by a connection of its own."""

    def __init__(self, connection: Any, table: str, key: str, columns: Optional[Sequence[str]], kinds: Collection[str]) -> None:
        self._connect_again = connector(connection)
        self.faults = (sys.modules[client_of(connection)].Error,)
        # By it the name is that of the same table as for the connection that was given.
        self._settings = {**SETTINGS, "search_path": search_path(connection)}
        self._table, self._key = table, key
        self._slot, self._given = "", -1
        self._schema: Schema = []       # of the rows that were given
        self._types: List[Tuple[int, int, Optional[str]]] = []      # of the columns, as the schema was when it was checked
        # Columns of kinds that were given, and the places of those that are floats by their values.
        self._chosen = frozenset(kinds)
        self._floats: Tuple[int, ...] = ()
        self._db = self._connected()
        try:
            self._check_server()
            self._oid, self.name, replident = self._found()
            check_meaning(connection, table, self._oid, self.name)
            there = self._there()
            self._check_key(there, replident)
            self.columns = chosen([name for name in there if name != key or columns is not None], columns)
            self._declared = {name: there[name] for name in (key, *self.columns)}
            self._check_kinds(kinds)
            self._layout = Layout(self.name, key, self.columns, {name: plain for name, (plain, _, _) in self._declared.items()})
        except BaseException:
            self._db.close()
            raise

    def everything(self) -> Everything:
        return self._talking(self._everything)

    def changes(self, since: int) -> Optional[Changes]:
        if since != self._given or not self._slot or self._db.closed:
            return None
        self._given = -1        # What is read from the slot is not there again.
        log = self._talking(lambda: self._log(self._place("pg_current_wal_flush_lsn()")))
        if not log.is_clear or not self._are_floats(log) or not self._talking(self._is_as_it_was):
            return None
        self._given = log.place
        return Changes(log.place, log.is_cleared, log.rows)

    def now(self) -> int:
        def found() -> int:
            self._connect_if_closed()
            return self._brought_to_disk()

        return self._talking(found)

    def place(self, given: Any) -> int:
        return place_of(given) if isinstance(given, str) else whole(given, "at_least", 0, MOST)

    def interrupt(self) -> None:
        with suppress(Exception):       # Then the connection has ended.
            self._db.cancel()

    def _everything(self) -> Everything:
        self._connect_if_closed()
        for _ in range(TRIES):
            schema = self._checked()
            self._begin_slot()
            rows = self._snapshot()
            log = self._log(self._brought_to_disk())
            found = with_log(rows, log)
            if found is not None and self._checked() == schema:
                self._given, self._schema = log.place, schema
                return Everything(log.place, self._kinds(list(found.values())), found)
        raise Refused(f"table {self.name} was changed {TRIES} times while it was read: ask again", "follow")

    # ---- the connection ----

    def _talking(self, call: Callable[[], Result]) -> Result:
        """A call of the connection, which is not used again where something went wrong, or was interrupted."""
        try:
            return call()
        except Refused:
            raise
        except BaseException:
            self._db.close()
            raise

    def _connected(self) -> Any:
        db = self._connect_again()
        try:
            db.autocommit = True
            cursor = db.cursor()
            for name, value in self._settings.items():
                cursor.execute("select set_config(%s, %s, false)", (name, value))
            self._slot = ""
            return db
        except BaseException:
            db.close()
            raise

    def _connect_if_closed(self) -> None:
        if self._db.closed:
            self._db = self._connected()

    def _rows(self, sql: str, *values: Any) -> List[Tuple[Any, ...]]:
        cursor = self._db.cursor()
        cursor.execute(sql, values)
        return list(cursor.fetchall())

    def _place(self, function: str) -> int:
        return place_of(str(self._rows(f"select {function}::text")[0][0]))

    def _brought_to_disk(self) -> int:
        """A message of our own is committed and brought to the disk, and so is all that was committed before, also what nobody waited for: the place behind it."""
        self._rows("select pg_logical_emit_message(true, 'prefq', '')")
        return self._place("pg_current_wal_flush_lsn()")

    def _begin_slot(self) -> None:
        """A new slot, whose begin waits for the transactions that write. What is read from one that is there may not be seen by others yet, nor by a snapshot."""
        if self._slot:
            self._rows("select pg_drop_replication_slot(%s)", self._slot)
            self._slot = ""
        name = f"prefq_{uuid4().hex}"
        self._wait_for("select pg_create_logical_replication_slot(%s, 'test_decoding', true)", name)
        self._slot = name

    def _wait_for(self, sql: str, *values: Any) -> None:
        """Runs a statement that waits for others by a thread, so that signals get in meanwhile, and an end of the time."""
        running: "Future[List[Tuple[Any, ...]]]" = Future()     # A signal may come before `submit` has returned its own.
        with ThreadPoolExecutor(1) as pool:
            try:
                try:
                    pool.submit(self._run, running, sql, *values)
                    is_late = not wait([running], None if self.until is None else max(0.0, self.until - time.monotonic())).done
                finally:
                    self._end(running)
            finally:
                self._end(running)      # where the end above was interrupted
        if is_late:
            self._db.close()
            raise Refused(f"table {self.name} has to be read anew, and transactions that write, for whose end this waits, have not ended meanwhile",
                          "follow")
        running.result()

    def _run(self, running: "Future[List[Tuple[Any, ...]]]", sql: str, *values: Any) -> None:
        """Runs a statement, unless it is cancelled by now."""
        if running.set_running_or_notify_cancel():
            try:
                running.set_result(self._rows(sql, *values))
            except BaseException as why:
                running.set_exception(why)

    def _end(self, running: "Future[List[Tuple[Any, ...]]]") -> None:
        """Ends a statement. The server passes over a cancel that comes before the statement has begun there."""
        while not (running.done() or running.cancel()):
            self._db.cancel()
            wait([running], PAUSE)

    def _log(self, flushed: int) -> Log:
        """What is committed and was not read before; its place is at least the one that was flushed before."""
        log = Log(self._layout)
        for place, line in self._rows("select lsn::text, data from pg_logical_slot_get_changes(%s, null, null, 'skip-empty-xacts', '1')", self._slot):
            log.add(place, line)
        log.place = max(log.place, flushed)
        return log

    def _snapshot(self) -> Dict[Key, List[Any]]:
        """The rows at one moment, behind the begin of the slot. Who holds the table's lock sees the columns that the rows have."""
        cursor = self._db.cursor()
        cursor.execute("begin isolation level read committed read only")
        try:
            # Takes the lock, for which a right to one column is enough.
            cursor.execute(f"select from only {self.name} where false")
            self._checked()
            cursor.execute(f"select {', '.join(map(output, (self._key, *self.columns)))} from only {self.name}")
            rows = cursor.fetchall()
        except Refused:
            cursor.execute("rollback")
            raise
        cursor.execute("rollback")
        return {self._layout.key_of(row[0]): [self._layout.cell(name, text) for name, text in zip(self.columns, row[1:])] for row in rows}

    # ---- the schema ----

    def _check_server(self) -> None:
        [(version,)], [(level,)] = self._rows("select current_setting('server_version_num')::int"), self._rows("show wal_level")
        if version < OLDEST:
            raise Refused(f"this is PostgreSQL {version // 10_000}: a table is followed from 13 on", "follow")
        if level != "logical":
            raise Refused(f"the server has wal_level = {level}: a table is followed with wal_level = logical, which needs a restart of the server", "follow")

    def _found(self) -> Tuple[int, str, str]:
        """The table that has the name now, its whole name, and by what the log says which row is changed."""
        rows = self._rows(FIND, self._table, self._table)
        if not rows:
            raise Refused(f"there is no table {self._table!r}", "follow")
        oid, kind, persistence, replident, name, has_heirs, has_row_security = rows[0]
        if kind != "r":
            raise Refused(f"{name} is {KINDS_OF_TABLES.get(kind, 'no table')}, whose rows the log does not have: follow the table that has them", "follow")
        if persistence != "p":
            raise Refused(f"{name} is {'a temporary' if persistence == 't' else 'an unlogged'} table, whose rows the log does not have", "follow")
        if has_heirs:
            raise Refused(f"{name} has tables that inherit from it, whose rows the log has as theirs: follow each by itself", "follow")
        if has_row_security:
            raise Refused(f"{name} has row security for this user, and the log has all rows: follow it as a user who sees them all", "follow")
        return oid, name, replident

    def _there(self) -> Dict[str, Tuple[str, str, str]]:
        """The columns with their types: plain, with their sizes, and what sort of type it is."""
        return {name: (plain, sized, sort) for name, plain, sized, sort in self._rows(COLUMNS, self._oid)}

    def _check_key(self, there: Dict[str, Tuple[str, str, str]], replident: str) -> None:
        if self._key not in there:
            raise Refused(unknown_column(self._key, list(there)), "follow")
        if there[self._key][0] not in KEYS:
            raise Refused(f"column {self._key!r} has the type {there[self._key][0]}: a key is a whole number or a text", "follow")
        # By what the log says which row it is: the primary key, another index, or all columns, of which the key then has to be filled.
        place = {"d": 0, "i": 1, "f": 2}.get(replident)
        if place is None or not any(name == self._key and fits[place] for name, *fits in self._rows(INDEXES, self._oid)):
            raise Refused(f"the log does not say by {self._key!r} which row of {self.name} is changed: make it the primary key, or the replica identity", "follow")

    def _checked(self) -> Schema:
        """The schema of the table, whose columns that are followed, and whose key, are as they were; else they are refused."""
        oid, name, replident = self._found()
        if (oid, name) != (self._oid, self.name):
            raise Refused(f"table {self.name} is another one now. Follow it again", "follow")
        there = self._there()
        check_columns(self.name, self._declared, there, lambda declared: str(declared[1]))
        self._check_key(there, replident)
        self._types = self._used([self._key, *self.columns])
        return self._schema_of(oid)

    def _used(self, names: Sequence[str]) -> List[Tuple[int, int, Optional[str]]]:
        """The types that columns have, each with the table of its parts, if there is one, and its name where it is one of PostgreSQL's own."""
        return self._rows(TYPES, self._oid, list(names))

    def _schema_of(self, oid: int) -> Schema:
        cursor = self._db.cursor()
        cursor.execute(SCHEMA, {"oid": oid, "tables": [oid, *(table for _, table, _ in self._types)], "types": [type for type, _, _ in self._types]})
        return list(cursor.fetchall())

    def _is_as_it_was(self) -> bool:
        """Whether the schema is that of the rows that were given: else these may be others, or have other keys, of which the log says nothing."""
        oid, _, _ = self._found()
        return self._schema_of(oid) == self._schema

    def _kinds(self, rows: Sequence[Cells]) -> Dict[str, Column]:
        """The kinds of the columns by their types."""
        found: Dict[str, Column] = {}
        for place, name in enumerate(self.columns):
            kind = self._kind(*self._declared[name])
            texts = [] if kind is not None else list(dict.fromkeys(row[place] for row in rows if row[place] is not None))
            found[name] = Column(name, kind or (kind_of_texts(texts) if texts else Whole()))
        self._floats = tuple(place for place, name in enumerate(self.columns)
                             if self._declared[name][0] == "numeric" and name not in self._chosen and type(found[name].kind) is Floats)
        return found

    def _are_floats(self, log: Log) -> bool:
        """Whether numbers of any number of decimals, in columns that are floats since the values before were, are floats too: else such a column has another kind."""
        texts = (row[place] for row in log.rows.values() if row is not None for place in self._floats)
        return first_inexact(text for text in texts if isinstance(text, str)) is None

    def _check_kinds(self, given: Collection[str]) -> None:
        """Refuses a column whose type has no kind, where none is given."""
        for name in self.columns:
            plain, sized, sort = self._declared[name]
            if name not in given and plain != "numeric" and self._kind(plain, sized, sort) is None:
                raise Refused(f"column {name!r} has the type {plain}, which no kind reads by itself: leave it out by columns=[..], or give it one, as "
                              f"kinds={{{name!r}: 'text'}}", "follow")
            if any(type in OF_NAMES for _, _, type in self._used([name])):
                raise Refused(f"column {name!r} has the type {plain}, whose texts are names of other things, which may get other names: leave it out by columns=[..]",
                              "follow")

    def _kind(self, plain: str, sized: str, sort: str) -> Optional[Kind]:
        """The kind of a type; None for numbers of any number of decimals, and for what only a kind that is given reads."""
        if plain == "numeric" and sized != plain:
            decimals = int(sized.rstrip(")").partition(",")[2] or 0)
            return Decimals(decimals) if 0 <= decimals <= MOST_DECIMALS else None
        if plain == "timestamp with time zone":
            return Times(timezone.utc)
        return Texts() if sort == "e" else KINDS[plain]() if plain in KINDS else None


def with_log(rows: Dict[Key, List[Any]], log: Log) -> Optional[Dict[Key, Cells]]:
    """Rows with what the log says; None where that is not clear."""
    found: Dict[Key, Cells] = {} if log.is_cleared else dict(rows)
    for key, values in log.rows.items():
        if values is None:
            found.pop(key, None)
        elif UNCHANGED in values and key not in found:
            return None
        else:
            found[key] = [old if value is UNCHANGED else value for value, old in zip(values, found.get(key, values))]
    return found if log.is_clear else None


def connector(connection: Any) -> Any:
    """What opens another connection to the same database, as the same user."""
    module = sys.modules[client_of(connection)]
    info = connection.info
    parameters = dict(info.get_parameters() if hasattr(info, "get_parameters") else info.dsn_parameters)
    if info.password:
        parameters["password"] = info.password
    parameters["client_encoding"] = "UTF8"
    return lambda: module.connect(**parameters)


def search_path(connection: Any) -> str:
    """In which schemas a connection looks for a table; one that has written is refused."""
    path, has_written = asked_of(connection, "select current_setting('search_path') as path, txid_current_if_assigned() is not null as has_written")
    if has_written:
        raise Refused("the connection has a transaction that has written, and whose end has to be waited for: commit first", "follow")
    return str(path)


def check_meaning(connection: Any, table: str, oid: int, name: str) -> None:
    """Refuses a name by which a connection means another table than other connections do, as a temporary one."""
    [meant] = asked_of(connection, "select coalesce(to_regclass(quote_ident(%s)), to_regclass(%s))::oid::bigint as meant", table, table)
    if meant != oid:
        raise Refused(f"{table!r} means another table for this connection than {name}, such as a temporary one: give the name with its schema", "follow")


def asked_of(connection: Any, sql: str, *values: Any) -> Sequence[Any]:
    """The one row of a query that is asked by the caller's connection. Where that has no transaction, it has none afterwards."""
    was_idle = connection.info.transaction_status == 0
    cursor = connection.cursor()
    cursor.execute(sql, values or None)
    row = cursor.fetchone()
    if was_idle and not connection.autocommit:
        connection.rollback()
    return list(row.values() if isinstance(row, dict) else row)


def output(name: str) -> str:
    """A column as the output function of its type gives it, by which the log has it too: a cast to text gives another text for some types."""
    return f"case num_nulls({identifier(name)}) when 0 then format('%s', {identifier(name)}) end"

