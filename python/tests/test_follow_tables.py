"""Rows of a table of SQLite that is followed, in as many tables as they need."""
import unittest.mock

import prefq
from plain import Ask, Low, Pareto
from prefq.follow_source import Changes
from prefq.selection import Selection
from support import pairs
from test_follow import QUESTION, OfSqlite


class ManyTables(OfSqlite):
    def test_rows_are_dealt_to_as_many_tables_as_they_need(self):
        frame = self.offers(*((number, f"hotel {number % 3}", number * 7 % 40, number * 11 % 41) for number in range(40)), capacity=16)
        self.assertEqual(frame.tables, 3)
        self.as_plain(frame)
        self.db.executemany("insert into offers values (?, 'x', ?, ?)", [(number, number * 13 % 50, number * 17 % 51) for number in range(100, 130)])
        self.as_plain(frame)
        self.assertGreater(frame.tables, 4)
        self.db.execute("update offers set price = 60 - price")     # all of them, in tables that are nearly full
        self.as_plain(frame)
        self.db.execute("delete from offers where id > 5")
        self.as_plain(frame)

    def as_plain(self, frame):
        rows = {id: {"hotel": hotel, "price": price, "dist": dist} for id, hotel, price, dist in self.db.execute("select * from offers")}
        term = Pareto("low(price) * low(dist)", [Low("price", ""), Low("dist", "")])
        asks = [Ask(f"best {term.text}", term, levels=1), Ask(f"top_level 3 {term.text} by hotel", term, ["hotel"], levels=3),
                Ask(f"at_least 7 {term.text}", term, rows=7),
                Ask("skyline of distinct price min, hotel diff", Low("price", ""), ["hotel"], 1, None, ["price", "hotel"])]
        for asked in asks:
            with self.subTest(question=asked.text):
                answer = frame.best(asked.text)
                self.assertEqual(list(zip(answer.levels, answer.ids)), asked.answer(rows))

    def test_more_rows_than_one_table_holds_are_left_by_all_of_them(self):
        frame = self.offers(*((number, "x", number, 40 - number) for number in range(40)), capacity=16)
        with unittest.mock.patch("prefq.parts.MOST_ROWS", 30), self.refuses(prefq.parts.RowsLeft, "40 rows of 40 are left after each part was asked", kind="parts"):
            frame.best(QUESTION)
        self.assertEqual(len(frame.best(QUESTION)), 40)

    def test_rows_that_meet_a_condition_are_asked_where_too_many_are_left_of_the_tables(self):
        """A table is asked for as many levels as rows are wanted, which may have more rows than one table holds; the rows themselves are asked for 4 at first."""
        frame = self.offers(*((number, "x", number, 200 - number + 10 * (number % 20)) for number in range(200)), capacity=64)
        wanted = frame.best(QUESTION, top=10, where="price > 20")
        rows = prefq.dealt_questions.AskedOfRows
        with unittest.mock.patch("prefq.parts.MOST_ROWS", 60), unittest.mock.patch("prefq.dealt_questions.AskedOfRows", side_effect=rows) as asked:
            frame._kept._made.clear()
            self.assertEqual(pairs(frame.best(QUESTION, top=10, where="price > 20")), pairs(wanted))
            self.assertEqual(asked.call_count, 1)
            picture = frame.snapshot(QUESTION, Selection.of(top=10, where="price > 20"))
            self.assertEqual([(row.level, row.id) for row in picture.best], list(pairs(wanted)))
            with self.refuses(prefq.parts.RowsLeft, "200 rows of 200 are left"):
                frame.best("best empty()")
            with unittest.mock.patch("prefq.selection.MOST_ROWS", 60), self.refuses(prefq.parts.RowsLeft, "179 rows of 179 are left"):
                frame.best("best empty()", where="price > 20")

    def test_more_rows_than_a_few_levels_have_are_asked_of_the_rows_that_meet_a_condition(self):
        frame = self.offers(*((number, "x", number * 7 % 50, number * 11 % 53) for number in range(60)), capacity=16)
        for asked, top, is_of_tables in [(QUESTION, 32, True), (QUESTION, 33, False), ("best low(price)", 60, True), ("best low(price) * low(dist) * pos(hotel, 'x') * high(price)", 1, False)]:
            with self.subTest(asked, top=top), unittest.mock.patch("prefq.dealt_questions.AskedOfTables", side_effect=prefq.dealt_questions.AskedOfTables) as tables:
                found = pairs(frame.best(asked, top=top, where="price > 20"))
                self.assertEqual(tables.call_count, is_of_tables)
                frame._kept._made.clear()
                self.assertEqual(found, pairs(frame.best(asked, top=top, where="price > 20 + 0 * dist")))

    def test_many_rows_that_are_left_are_asked_in_pieces(self):
        frame = self.offers(*((number, "x", number % 20, number // 20) for number in range(60)), capacity=16)
        found = frame.best("top_level 5 low(price) * low(dist)")
        with unittest.mock.patch("prefq.parts.MOST_ROWS", 30):
            self.assertEqual(frame.best("top_level 5 low(price) * low(dist)").ids, found.ids)

    def test_rows_of_which_hardly_one_is_dominated_are_refused_soon(self):
        frame, asked = self.offers(*((number, "x", number, 200 - number + (number == 100)) for number in range(200)), (200, "x", 100, 100), capacity=64), []
        once = prefq.dealt_questions.ask_once
        with unittest.mock.patch("prefq.parts.MOST_ROWS", 150), unittest.mock.patch("prefq.dealt_questions.ask_once", lambda *words: asked.append(words) or once(*words)):
            with self.refuses(prefq.parts.RowsLeft, "200 rows of 201 are left", kind="parts"):
                frame.best(QUESTION)
        self.assertEqual(len(asked), 2)

    def test_a_question_sees_all_tables_as_they_were_at_its_begin(self):
        frame = self.offers(*((number, "x", number, number) for number in range(12)), capacity=4)
        begun = frame._dealt.begin_all()
        self.db.execute("delete from offers where id < 4")
        self.db.execute("update offers set price = 99")
        self.db.execute("insert into offers values (50, 'x', 50, 50)")
        self.assertEqual([row.price for row in frame.rows()], [99] * 8 + [50])
        self.assertEqual([key for key, _ in begun.rows()], list(range(12)))
        self.db.execute("delete from offers where id = 4")
        self.assertEqual(len(frame), 8)
        self.assertEqual(sum(len(shard.keys) for shard in frame._dealt._shards), 8 + 1)     # that of the row that has just gone

    def test_rows_for_whose_versions_a_table_has_no_room_go_to_another_one(self):
        frame = self.offers(*((number, "x", number, number) for number in range(56)), capacity=64)
        begun = frame._dealt.begin_all()
        self.db.execute("update offers set price = price + 100")
        self.assertEqual([row.price for row in frame.rows()], list(range(100, 156)))        # eight of them had room in their table
        self.assertGreater(frame.tables, 1)
        self.assertEqual([key for key, _ in begun.rows()], list(range(56)))

    def test_many_rows_of_a_table_are_changed_by_several_calls(self):
        frame = self.offers(*((number, "x", number, number) for number in range(56)), capacity=64)
        self.db.execute("update offers set price = price + 100")
        with unittest.mock.patch("prefq.dealt.TOGETHER", 16):
            self.assertEqual([row.price for row in frame.rows()], list(range(100, 156)))
        self.assertEqual(frame.tables, 1)

    def test_the_number_of_rows_behind_a_clearing_is_that_of_the_rows_that_came_since(self):
        frame = self.offers(*((number, "x", number, number) for number in range(12)), capacity=4)
        rows = {number: ("y", number, 1) for number in range(10, 15)}
        self.assertFalse(frame._take(Changes(frame.at + 1, True, rows, 12 + 3)))
        self.assertEqual(len(frame), 12)
        self.assertTrue(frame._take(Changes(frame.at + 1, True, {**rows, 3: None}, 5)))
        self.assertEqual(sorted(key for key in frame._tables._places), list(rows))

    def test_a_question_that_is_wrong_is_refused_at_its_place(self):
        frame = self.offers(*((number, "x", number, number) for number in range(12)), capacity=4)
        with self.refuses(prefq.Refused, "no column 'prize'; did you mean price?", kind="term", place=9):
            frame.best("best low(prize)")
        with self.assertWarns(prefq.UnknownValue):
            frame.best("best pos(hotel, 'y')")
