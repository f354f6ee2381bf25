"""What is asked beside a question of a frame that follows a table of SQLite: so many rows, ties, conditions, groups and expressions."""
import unittest.mock

import prefq
import test_follow
from prefq import high, low
from test_follow import QUESTION

HOTELS = [(1, "Lyon", 50, 8), (2, "Lyon", 60, 5), (3, "Bern", 80, 2), (4, "Bern", 70, 6), (5, "Bern", 90, 2),
          (6, "Lyon", 95, 9), (7, None, None, 7), (8, "Bern", 50, 8)]
# In one table, and in several.
CAPACITIES = (1024, 4)


def pairs(answer):
    return list(zip(answer.levels, answer.ids))


class Beside(test_follow.OfSqlite):
    def setUp(self):
        super().setUp()
        self.frames = [self.offers(*HOTELS, capacity=CAPACITIES[0]), self.followed(capacity=CAPACITIES[1])]
        self.assertEqual([frame.tables for frame in self.frames], [1, 3])

    def as_sql(self, question, statement, **beside):
        """Each frame answers as SQL does."""
        for frame in self.frames:
            with self.subTest(question=question, tables=frame.tables, **beside):
                self.assertEqual(frame.best(question, **beside).ids, [id for id, in self.db.execute(statement)])

    def test_so_many_rows(self):
        for top in (1, 2, 3, 7, 1000):
            self.as_sql("best low(price)", f"select id from offers order by price is null, price, id limit {top}", top=top)
        self.db.execute("update offers set price = 10 where id = 6")
        self.as_sql("best low(price)", "select id from offers order by price is null, price, id limit 2", top=2)
        self.as_sql("best low(price) by hotel",
                    "select id from (select *, row_number() over (partition by hotel order by price, id) as place from offers) where place <= 2 "
                    "order by place, id", top=2)

    def test_ties(self):
        for ties, order in (("high(price)", "price desc"), (-low("dist"), "dist desc"), ("low(price / dist)", "1.0 * price / dist"),
                            ("pos(hotel, 'Lyon')", "hotel <> 'Lyon'")):
            self.as_sql("best pos(hotel, 'Bern', 'Lyon')",
                        f"select id from (select * from offers where hotel is not null order by {order}, id limit 4) order by id", top=4, ties=ties)
        for frame in self.frames:
            self.assertEqual(frame.best(QUESTION, top=3, ties="high(dist)").ids, [1, 2, 8])

    def test_conditions(self):
        for where, condition in (("price > 55", "price > 55"), ("hotel = 'Bern' and dist <= 6 or price is missing", "hotel = 'Bern' and dist <= 6 or price is null"),
                                 ("price / dist >= 10", "1.0 * price / dist >= 10"), ("price > 1000", "price > 1000")):
            self.as_sql(QUESTION, f"""with some as (select * from offers where {condition}) select id from some a where not exists
                (select 1 from some b where ifnull(b.price, 9e9) <= ifnull(a.price, 9e9) and b.dist <= a.dist
                and (ifnull(b.price, 9e9) < ifnull(a.price, 9e9) or b.dist < a.dist))
                order by id""", where=where)

    def test_expressions_and_intersections(self):
        for frame in self.frames:
            self.assertEqual(frame.best("best low(price / dist)", where="price is not missing").ids, [1, 8])
            self.assertEqual(frame.best("best low(abs(price - 78)) by hotel", top=1, ties="high(price)").ids, [3, 6, 7])
            self.assertEqual(pairs(frame.best("top_level 2 low(price) | low(dist)", where="hotel = 'Lyon'")), [(1, 1), (1, 2), (2, 6)])

    def test_groups(self):
        for frame in self.frames:
            self.assertEqual(pairs(frame.best("best low(price)", by="hotel", top=2)), pairs(frame.best("best low(price) by hotel", top=2)))
            self.assertEqual(pairs(frame.best(low("price"), by=["hotel", "dist"], where="dist > 5")), [(1, 1), (1, 4), (1, 6), (1, 7), (1, 8)])

    def test_twins_and_so_many_rows(self):
        for frame in self.frames:
            self.assertEqual(frame.best("skyline of price min, dist min", top=1000).ids, [1, 2, 3, 8, 4, 5, 6, 7])
            self.assertEqual(frame.best("skyline of distinct price min, dist min", top=1000).ids, [1, 2, 3])
            self.assertEqual(frame.best("skyline of distinct price min, dist min", top=2, ties="low(dist)").ids, [2, 3])

    def test_psel(self):
        for frame in self.frames:
            self.assertEqual(pairs(prefq.psel(frame, low("price") * low("dist"), top=1, ties="high(price)")), [(1, 3)])
            self.assertEqual(pairs(prefq.psel(frame, "low(price)", top_level=2, where=prefq.expr("price > 60"), by="hotel")), [(1, 4), (1, 6), (2, 3)])

    def test_why_among_the_rows_that_meet_a_condition(self):
        for frame in self.frames:
            self.assertEqual(frame.why(6, QUESTION).ids, [1, 2, 3, 8, 4, 5])
            self.assertEqual(pairs(frame.why(6, QUESTION, where="price > 60", by="hotel")), [])
            self.assertEqual(pairs(frame.why(6, "best low(price / dist)", where="hotel = 'Lyon'")), [(1, 1)])
            with self.refuses(prefq.Refused, "row 1 does not meet the condition", kind="arguments"):
                frame.why(1, QUESTION, where="price > 60")

    def test_why_of_a_row_that_too_many_dominate(self):
        for frame in self.frames:
            with unittest.mock.patch("prefq.why.MOST_ROWS", 5), self.refuses(prefq.Refused, "6 rows dominate the row, and 5 are compared at most", kind="parts"):
                frame.why(6, QUESTION)

    def test_at_a_place(self):
        for frame in self.frames:
            frame.refresh()
        self.db.execute("update offers set price = 5 where id = 3")
        for frame in self.frames:
            self.assertEqual(frame.best("best low(price)", top=1, where="dist > 1", at_least=frame.at).ids, [1])
        place = self.frames[0].now()
        for frame in self.frames:
            answer = frame.best("best low(price)", top=1, where="dist > 1", at_least=place)
            self.assertEqual((answer.ids, answer.at), ([3], place))

    def test_what_is_refused(self):
        self.db.execute("create table rooms (code text primary key, price int, beds int)")
        self.db.execute("insert into rooms values ('a', 5, 1), ('b', 6, 0)")
        rooms = self.followed("rooms", key="code")
        for call, words in ((lambda: rooms.best("best low(price / beds)"), "row 'b' has 0 behind the /"),
                            (lambda: rooms.best("best low(price)", ties="low(beds)"), "it needs top="),
                            (lambda: rooms.best("best low(price)", top=1, ties="low(bed)"), "no column 'bed'; did you mean beds?"),
                            (lambda: rooms.best("best low(price)", where="bed > 1"), "no column 'bed'; did you mean beds?"),
                            (lambda: rooms.best("best low(price)", by="bed"), "no column 'bed'; did you mean beds?"),
                            (lambda: rooms.best("best low(price) by beds", by="beds"), "the question has groups itself")):
            with self.subTest(words), self.refuses(prefq.Refused, words):
                call()
        with self.refuses(ValueError, "top is 0: not from 1 to 1000"):
            rooms.best("best low(price)", top=0)
        self.assertEqual(rooms.best("best low(price / beds)", where="beds > 0").ids, ["a"])

    def test_a_value_that_no_row_has_is_warned_of(self):
        for frame in self.frames:
            for question, beside in (("best pos(hotel, 'Lion')", {"top": 1}), ("best low(price)", {"where": "hotel <> 'Lion'"}),
                                     ("best low(price)", {"top": 1, "ties": high("price") & prefq.pos("hotel", "Lion")})):
                with self.subTest(question, **beside), self.assertWarns(prefq.UnknownValue) as caught:
                    frame.best(question, **beside)
                self.assertEqual(caught.filename, __file__)
