"""Tables that are followed, and whose columns, key or name are changed meanwhile: the frame has what the table has, or is refused by name; it has never other rows."""
import prefq
import test_follow
import test_follow_postgres
from test_follow_sqlite import DROPS_COLUMNS

setUpModule = test_follow_postgres.setUpModule
OFFERS = "create table offers (id integer primary key, price integer, dist integer)"
GONE = "was changed: column {!r} is not there any more. Follow it again"


class Structures:
    """The same for each database. `run_all` runs statements, `rows` has those of one, and `declare` gives a column another type, and the key none of its own."""

    def offers(self, **options):
        self.run_all(f"drop table if exists offers; {OFFERS}; insert into offers values (1, 10, 7), (2, 20, 5), (3, 30, 6)")
        frame = self.followed(**options)
        self.run_all("update offers set price = 15 where id = 1")
        return frame

    def is_taken(self, frame, names="id, price, dist"):
        """The frame has the rows of the table now, and what is changed later."""
        for change in ("delete from offers where id = 3", "update offers set price = price - 14"):
            self.assertEqual([(row.id, *row.values()) for row in frame.rows()], self.rows(f"select {names} from offers order by id"))
            self.assertEqual(frame.best("best low(price)").ids, [id for id, in self.rows("select id from offers where price = (select min(price) from offers)")])
            self.run_all(change)

    def is_refused(self, frame, *words):
        """By each call, not once alone, whatever is changed meanwhile; a question at a place that is there has the rows of that place."""
        at, rows = frame.at, frame._tables.get(2)
        for _ in range(2):
            with self.refuses(prefq.Refused, *words, kind="follow"):
                frame.rows()
            with self.refuses(prefq.Refused, *words, kind="follow"):
                frame.best("best low(price)", at_least=frame.now())
        self.assertEqual((frame.at, frame._tables.get(2)), (at, rows))

    def test_columns_that_are_added(self):
        for added in ("stars integer", "stars integer default 5", "note text"):
            with self.subTest(column=added):
                frame = self.offers()
                self.run_all(f"alter table offers add column {added}; update offers set dist = 1 where id = 3")
                self.assertEqual(frame.names, ["price", "dist"])
                self.is_taken(frame)

    def test_a_column_that_is_renamed_and_renamed_back(self):
        for name in ("price", "id"):
            with self.subTest(column=name):
                frame = self.offers()
                self.run_all(f"alter table offers rename column {name} to other; update offers set dist = 99")
                self.is_refused(frame, GONE.format(name))
                self.run_all(f"alter table offers rename column other to {name}")
                self.is_taken(frame)

    def test_another_column_that_takes_the_name(self):
        frame = self.offers()
        self.run_all("alter table offers rename column price to other; alter table offers rename column dist to price; alter table offers rename column other to dist")
        self.is_taken(frame)

    @DROPS_COLUMNS
    def test_a_column_that_is_dropped(self):
        frame = self.offers()
        self.run_all("alter table offers drop column dist")
        self.is_refused(frame, GONE.format("dist"))
        self.run_all("alter table offers add column dist integer default 4")
        self.is_taken(frame)

    @DROPS_COLUMNS
    def test_a_column_that_is_not_followed_and_is_dropped(self):
        frame = self.offers(columns=["price"])
        self.run_all("alter table offers drop column dist; update offers set price = 50 where id = 2")
        self.is_taken(frame, "id, price")

    def test_another_type(self):
        for name, new in (("id", "bigint"), ("id", "text"), ("price", "bigint"), ("dist", "text")):
            with self.subTest(column=name, type=new):
                frame = self.offers()
                self.declare(name, new)
                self.run_all("update offers set price = 1 where price = 20")
                self.is_refused(frame, f"column {name!r} has the type {self.shown(new)} now, and had {self.shown('integer')}. Follow it again")

    def test_a_key_that_is_one_no_more(self):
        frame = self.offers()
        self.declare("id", "integer", is_key=False)
        self.run_all("insert into offers values (1, 1, 1)")
        self.is_refused(frame, self.NO_KEY)

    def test_a_table_with_another_name(self):
        frame = self.offers()
        self.run_all("alter table offers rename to others; update others set price = 1 where id = 2")
        self.is_refused(frame, "there is no table 'offers'")
        self.run_all("alter table others rename to offers")
        self.is_taken(frame)

    def test_a_table_that_is_dropped(self):
        frame = self.offers()
        self.run_all("drop table offers")
        self.is_refused(frame, "there is no table 'offers'")


class OfSqlite(Structures, test_follow.OfSqlite):
    NO_KEY = "several rows of table 'offers' may have the same 'id'"
    shown = staticmethod(repr)

    def run_all(self, text):
        for statement in text.split("; "):
            self.db.execute(statement)

    def rows(self, query):
        return self.db.execute(query).fetchall()

    def declare(self, name, type, *, is_key=True):
        """SQLite has another type of a column by another table alone."""
        schema = OFFERS.replace(f"{name} integer", f"{name} {type}").replace("" if is_key else " primary key", "")
        self.run_all(f"alter table offers rename to before; {schema}; insert into offers select * from before; drop table before")


class OfPostgres(Structures, test_follow_postgres.OfPostgres):
    NO_KEY = "the log does not say by 'id' which row of public.offers is changed"
    shown = staticmethod(str)

    def run_all(self, text):
        for statement in text.split("; "):
            self.run_sql(statement)

    def rows(self, query):
        return self.run_sql(query)

    def declare(self, name, type, *, is_key=True):
        self.run_sql(f"alter table offers alter {name} type {type}" if is_key else "alter table offers drop constraint offers_pkey")
