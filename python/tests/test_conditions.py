"""Conditions: which of them a table is asked, what is computed over all rows for others, and that both give what a plain evaluation gives, row by row."""
import os
import random
import unittest
import unittest.mock
import warnings
from fractions import Fraction

import plain_expressions
import prefq
import random_frames
from prefq import checks, ranges
from prefq.condition_terms import condition_of
from prefq.dealt import Dealt
from prefq.dealt_questions import asked_of
from prefq.kinds.numbers import number_of_float
from prefq.moment import moment_of
from prefq.rows import Zipped
from prefq.selection import Selection, selected
from support import FrameTestCase, TestCase, pairs

QUESTIONS = int(os.environ.get("PREFQ_TEST_COUNT", 1000)) // 3
SEED = int(os.environ.get("PREFQ_TEST_SEED", 20260501))
QUESTIONS_OF_A_FRAME = 5
HOTELS = [{"city": "Lyon", "price": 50, "stars": 3, "pool": True}, {"city": "Bern", "price": 60, "stars": 5, "pool": None},
          {"city": "Lyon", "price": 70, "stars": 4, "pool": False}, {"city": None, "price": None, "stars": 1, "pool": True},
          {"city": "Lyon", "price": 50, "stars": 3, "pool": True}]
OF_THE_TABLE = [("price > 50", [2, 3]), ("60 >= price", [1, 2, 5]), ("not price > 50", [1, 5]), ("price is missing", [4]), ("not (price is missing or stars < 4)", [2, 3]),
                ("city = 'Lyon' and price <> 50", [3]), ("city <> 'Lyon'", [2]), ("city not in ('Bern', 'Lyon')", []), ("pool", [1, 4, 5]), ("pool = false", [3]),
                ("not pool and stars = 4", [3]), ("stars in (1, 4)", [3, 4]), ("2 <= stars < 5", [1, 3, 5]), ("price < 55 or price > 65", [1, 3, 5]), ("stars > 9", []),
                ("stars > 2 and stars < 2", []), ("price >= -3 * 2 and price <= max(60, 2)", [1, 2, 5]), ("pool is not missing", [1, 3, 4, 5])]
OF_ALL_ROWS = [("price < 55 or stars > 4", [1, 2, 5]), ("price > 15 * stars", [1, 3, 5]), ("price / stars > 15", [1, 3, 5]), ("stars < 4 or stars > 1000", [1, 4, 5]),
               ("(price > 50) = pool", []), ("abs(stars - 4) = 1", [1, 2, 5]), ("city = 'Lyon' and (pool or stars = 4)", [1, 3, 5]), ("stars > 9 and price > stars", []),
               ("not (price > 60 or price < 10 * stars)", [1, 2, 5])]


class OfATable(FrameTestCase):
    records = HOTELS

    def test_a_condition_about_single_columns_is_asked_of_the_table(self):
        with unittest.mock.patch("prefq.table.Table.columnar_rows", side_effect=AssertionError):
            for where, ids in OF_THE_TABLE:
                with self.subTest(where):
                    self.assertEqual(sorted(self.frame.best("top_level 9 low(stars)", where=where).ids), ids)

    def test_another_one_is_computed_over_all_rows(self):
        for where, ids in OF_ALL_ROWS:
            with self.subTest(where):
                self.assertIsNone(condition_of(where, self.frame._opened).whole)
                self.assertEqual(sorted(self.frame.best("top_level 9 low(stars)", where=where).ids), ids)

    def test_only_rows_that_meet_the_parts_about_single_columns_are_read_for_another_one(self):
        for where, count in [("price > 55 and price > 15 * stars", 2), ("city = 'Lyon' and (pool or stars = 4) and stars < 4", 2), ("price > 55 or price > 15 * stars", 5),
                             ("stars > 4 and price / stars > 1", 5), ("city in ('Bern', 'Ulm') and price >= stars", 1), ("stars > 100 and price > stars", 1)]:
            with self.subTest(where):
                terms = condition_of(where, self.frame._opened).narrowing
                self.assertEqual(len(self.frame._opened.table.columnar_rows(terms)), count)

    def test_a_row_that_is_refused_is_so_whatever_else_the_condition_says(self):
        for where, says in [("stars > 4 and price / (stars - 4) > 1", "row 3 has 0 behind the /"), ("price / (stars - 4) > 1 and stars > 4", "row 3 has 0 behind the /")]:
            with self.subTest(where), self.refuses(prefq.Refused, says):
                self.frame.best("best low(price)", where=where)
        with prefq.Frame.from_records([{"x": 1.5, "y": 1}, {"x": float("inf"), "y": 2}]) as frame, self.refuses(prefq.Refused, "row 2 has inf"):
            frame.best("best low(x)", where="y = 1 and x + 1 > 2")

    def test_a_row_with_a_new_text_may_come_before_the_rows_are_read(self):
        with prefq.Frame.from_records(HOTELS) as frame:
            rows = prefq.table.Table.columnar_rows

            def inserting(*words):
                if len(frame) == 5:
                    frame.insert({"city": "Ulm", "price": 80, "stars": 2})
                return rows(*words)

            with unittest.mock.patch("prefq.table.Table.columnar_rows", inserting):
                self.assertEqual(frame.best("best empty()", where="city in ('Bern', 'Ulm') and price > stars").ids, [2, 6])

    def test_other_rows_are_left_out_of_levels_counts_groups_and_equal_rows(self):
        for asked, beside, found in [
                ("at_least 4 low(price)", {}, [(1, 1), (1, 5), (2, 2), (3, 3)]), ("at_least 3 low(stars)", {}, [(1, 1), (1, 5), (2, 3)]),
                ("best low(stars) by pool", {}, [(1, 1), (1, 2), (1, 3), (1, 5)]), ("skyline of distinct price min", {}, [(1, 1)]),
                ("skyline of distinct price max, stars min, city diff", {}, [(1, 1), (1, 2), (1, 3)]), ("best low(price)", {"top": 3}, [(1, 1), (1, 5), (2, 2)]),
                ("best high(stars)", {"top": 2, "ties": "low(price)"}, [(1, 2), (2, 3)]), ("best -(low(stars) * high(price))", {}, [(1, 1), (1, 2), (1, 5)])]:
            with self.subTest(asked):
                self.assertEqual(pairs(self.frame.best(asked, where="stars > 2", **beside)), found)

    def test_a_condition_longer_than_a_table_reads_is_computed(self):
        long = f"city = 'Lyon' and {' and '.join(f'stars not in ({number}, {number + 2**60})' for number in range(10, 60))}"
        self.assertEqual(sorted(self.frame.best("best empty()", where=long).ids), [1, 3, 5])
        many = f"stars in ({', '.join(map(str, range(4, 1000, 3)))})"
        self.assertEqual(self.frame.best("best empty()", where=many).ids, [3])

    def test_a_list_of_many_values_is_read_in_a_time_that_grows_with_them(self):
        handled, complement = [], ranges.complement

        def counted(some):
            handled.append(len(some))
            return complement(some)

        for where in (f"stars in ({', '.join(map(str, range(0, 1000, 2)))})", f"stars not in ({', '.join(map(str, range(0, 1000, 2)))})"):
            with self.subTest(where[:12]), unittest.mock.patch("prefq.ranges.complement", counted):
                handled.clear()
                condition_of(where, self.frame._opened)
                self.assertLess(sum(handled), 10_000)

    def test_of_a_condition_that_no_row_can_meet_one_level_is_asked(self):
        asked, query = [], prefq.table.Table.query
        with unittest.mock.patch("prefq.table.Table.query", lambda table, text: asked.append(text) or query(table, text)), warnings.catch_warnings():
            warnings.simplefilter("ignore", prefq.UnknownValue)
            for question in ("top_level 1000 low(price)", "at_least 900 low(price) by city"):
                for where in ("city = 'Ulm'", "stars > 2 and stars < 2"):
                    self.assertEqual(self.frame.best(question, where=where).ids, [])
        self.assertEqual({text.split()[0] for text in asked}, {"best"})

    def test_of_parts_longer_than_a_table_reads_only_the_first_narrow_the_rows(self):
        values = ", ".join(f"0.{number:02}" for number in range(1, 100))
        long = " and ".join(f"{name} not in ({values})" for name in "xyz")
        with prefq.Frame.from_records([{"x": 1, "y": 2, "z": 3}, {"x": 1, "y": "0.5", "z": 3}, {"x": 3, "y": 2, "z": "0.07"}], kinds=dict.fromkeys("xyz", "decimal(18)")) as frame:
            for where, ids in ((long, [1]), (f"{long} and x > 5 * y", [])):
                with self.subTest(where[-9:]):
                    self.assertEqual(frame.best("best empty()", where=where).ids, ids)
            terms = condition_of(long, frame._opened).narrowing
            self.assertEqual([term.split("(")[0] for term in terms], ["between", "-pos", "between", "-pos"])

    def test_what_is_wrong_is_refused_as_before(self):
        for where, says in [("stars > 'x'", "this is a number|'x' is a text"), ("city > 'A'", "texts, which have no order"), ("stars", "column 'stars' is a number"),
                            ("pool < true", "< compares numbers"), ("stars > 1e", "unexpected|number"), ("price > 1 / 0", "row 1 has 0 behind the /"),
                            ("star > 3", "did you mean stars"), ("city = 5", "a value in quotes")]:
            with self.subTest(where), self.assertRaisesRegex(prefq.Refused, says):
                self.frame.best("best low(price)", where=where)

    def test_a_row_with_a_new_text_may_come_before_the_query(self):
        with prefq.Frame.from_records(HOTELS, clients=1) as frame:
            planned, plans = prefq.condition_terms.plan, []

            def inserting(*words):
                plans.append(planned(*words))
                if len(plans) == 1:
                    frame.insert({"city": "Ulm", "price": 1, "stars": 1})
                return plans[-1]

            with unittest.mock.patch("prefq.condition_terms.plan", inserting):
                self.assertEqual(frame.best("best low(price)", where="city = 'Ulm'").ids, [6])

    def test_each_part_of_a_difference_is_computed_once(self):
        calls, values = [], prefq.computed.Computer._named

        def counted(*words):
            calls.append(words)
            return values(*words)

        with unittest.mock.patch("prefq.computed.Computer._named", counted):
            self.assertEqual(self.frame.best("best low(stars)", where=f"{'-(' * 10}stars{')' * 10} > 2 - 0 * stars").ids, [1, 5])
        self.assertLess(len(calls), 10)

    def test_rows_of_one_float_or_many(self):
        for count in (3, 200):
            records = [{"x": number / 4 if number % 2 else -number / 8, "y": float(number)} for number in range(count)]
            with self.subTest(count), prefq.Frame.from_records(records) as frame:
                ids = [id for id, row in enumerate(records, 1) if Fraction(repr(row["x"])) * 4 >= Fraction(repr(row["y"]))]
                self.assertEqual(frame.best("best empty()", where="x * 4 >= y").ids, ids)
                self.assertEqual(frame.best("best empty()", where="x < y").ids, [id for id, row in enumerate(records, 1) if row["x"] < row["y"]])


class Ranges(TestCase):
    def test_the_numbers_beside_a_position(self):
        for sign, position, found in [("<", 5, (-2, 4)), ("<=", 5, (-2, 5)), ("<=", Fraction(11, 2), (-2, 5)), (">", Fraction(11, 2), (6, 9)), (">=", 5, (5, 9)),
                                      ("=", 5, (5, 5)), ("=", Fraction(11, 2), None), ("<", -10**30, None)]:
            with self.subTest(sign, position=position):
                numbers = [number for number in range(-2, 10) if ranges.within(ranges.beside(sign, Fraction(position)), [number]) == b"\1"]
                self.assertEqual(numbers, [] if found is None else list(range(found[0], found[1] + 1)))

    def test_all_numbers_are_in_ranges_or_beside_them(self):
        for some in ([], [(checks.LEAST, checks.MOST)], [(1, 2), (3, 4)], [(checks.LEAST, 5), (9, checks.MOST)]):
            with self.subTest(some):
                other = ranges.complement(some)
                self.assertEqual(ranges.union(some, other), [(checks.LEAST, checks.MOST)])
                self.assertEqual(ranges.intersection(some, other), [])

    def test_rows_are_told_apart_by_few_ranges_and_by_many(self):
        for count in (1, 3, 4, 5, 50):
            some = [(100 * number, 100 * number + 60) for number in range(-count // 2, count // 2 + 1)]
            for far in (some, ranges.complement(some), [*some, (10**9, checks.MOST)], [(checks.LEAST, -10**9), *some]):
                numbers = [checks.LEAST, *range(-300, 300, 7), -40, 60, 61, 100, 10**9 - 1, 10**9, checks.MOST]
                found = [any(first <= number <= last for first, last in far) for number in numbers]
                for most in (0, 1000):
                    with self.subTest(count, far=far[-1], most=most), unittest.mock.patch("prefq.ranges.MOST_IN_A_SET", most):
                        self.assertEqual(list(ranges.within(far, numbers)), found)

    def test_a_number_lies_among_floats_as_python_shows_them(self):
        for text, is_above, is_below in [("0.1", 0.1, 0.1), ("0.10000000000000001", 0.1, 0.10000000000000002), ("1e400", 1.7976931348623157e308, float("inf")),
                                         ("-1e400", float("-inf"), -1.7976931348623157e308), ("1e-400", 0.0, 5e-324), ("-1e-400", -5e-324, 0.0)]:
            with self.subTest(text):
                position = ranges.float_position(Fraction(text))
                self.assertLessEqual(number_of_float(is_above), position)
                self.assertLessEqual(position, number_of_float(is_below))
                self.assertEqual(position.denominator == 1, is_above == is_below)


class AtRandom(TestCase):
    def one(self, chance):
        columns, records = random_frames.frame(chance)
        with prefq.Frame.from_records(records, columns=list(columns), kinds={name: kind.spelling for name, kind in columns.items()}) as frame:
            opened = frame._opened
            questions, expressions = random_frames.Questions(chance, columns), plain_expressions.Expressions(chance, columns)
            for _ in range(QUESTIONS_OF_A_FRAME):
                parts = [expressions.condition(1) for _ in range(chance.randrange(1, 4))]
                where = " and ".join(f"({part.text})" for part in parts)
                asked = questions.question().text
                self.check(opened, where, parts, {row.id: dict(row) for row in frame.rows()}, asked, chance)

    def check(self, opened, where, parts, rows, asked, chance):
        """A condition as a table is asked it, as it is computed, and as it is evaluated in each row; and a question with it, of one table and of several."""
        try:
            condition = condition_of(where, opened).whole
        except prefq.Refused:
            return
        numbers = dict(opened.table.rows())
        if condition is not None:
            met = [id for id in rows if all(part.of(rows[id]) is True for part in parts)]
            self.assertEqual([id for id in rows if condition.is_met(numbers[id])], met, where)
        selection = Selection.of(where=where)
        moment = moment_of(opened.columns, lambda place: [row[place] for row in numbers.values()], lambda number: number)
        with warnings.catch_warnings():
            warnings.simplefilter("ignore", prefq.UnknownValue)
            try:
                wanted = [(row.level, row.id) for row in selected(asked, selection, moment)]
            except prefq.Refused:
                return
        dealt = Dealt(opened.columns, list(numbers), Zipped(list(zip(*numbers.values()))), {"capacity": chance.choice([8, 1024])})
        try:
            self.assertEqual([(row.level, row.id) for row in asked_of(dealt, asked, selection).answer()], wanted, (asked, where))
        finally:
            dealt.close()

    def test_as_by_a_plain_evaluation(self):
        for number in range(QUESTIONS // QUESTIONS_OF_A_FRAME):
            with self.subTest(frame=number):
                self.one(random.Random(SEED + number))


if __name__ == "__main__":
    unittest.main()
