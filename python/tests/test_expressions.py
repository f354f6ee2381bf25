"""Expressions and conditions: what they compute, exactly, and that random ones are as by a plain evaluation."""
import datetime
import os
import random
import time
import unittest
import warnings
from decimal import Decimal
from fractions import Fraction

import plain
import plain_expressions
import prefq
import random_frames
from prefq import parts
from support import FrameTestCase, TestCase, pairs

try:
    import pandas
except ImportError:
    pandas = None

QUESTIONS = int(os.environ.get("PREFQ_TEST_COUNT", 1000)) // 3
SEED = int(os.environ.get("PREFQ_TEST_SEED", 20260501))
QUESTIONS_OF_A_FRAME = 5
HOTELS = [{"City": "Lyon", "Price": Decimal("57.40"), "Stars": 5, "x": 0.1, "Opened": datetime.date(2002, 4, 14), "Left": datetime.date(2002, 5, 1), "Pool": True},
          {"City": "Bern", "Price": Decimal("60.00"), "Stars": 3, "x": 0.3, "Opened": datetime.date(1955, 4, 14), "Left": datetime.date(1955, 4, 20), "Pool": False},
          {"City": "Lyon", "Price": Decimal("90.00"), "Stars": 9, "x": 0.2, "Opened": datetime.date(2012, 4, 14), "Left": None, "Pool": True},
          {"City": None, "Price": None, "Stars": 4, "x": 0.5, "Opened": None, "Left": datetime.date(2012, 4, 14), "Pool": None}]


class Expressions(FrameTestCase):
    records = HOTELS

    def test_answers(self):
        for question, ids in [
                ("best low(Price / Stars)", [3]), ("best high(abs(Stars - 4))", [3]), ("best around(Price / Stars, 20)", [2]), ("best low(Price + 2 * Stars)", [2]),
                ("best true(Price < 60 or Stars > 8)", [1, 3]), ("best pos(Price > 58, true)", [2, 3]), ("best -true(Stars >= 4)", [2]), ("best low(-Stars)", [3]),
                ("best low((Stars))", [2]), ("best low(min(Stars, 4, Price))", [2]), ("best true(City is missing)", [4]), ("best true(not Pool) & low(Stars)", [2]),
                ("best true(Opened > 1990-01-01 and City in ('Lyon', 'Bern'))", [1, 3]), ("best low(Left - Opened)", [2]), ("best between(Left - Opened, 10, 20)", [1]),
                ("best true(x + x + x = 0.3)", [1]), ("best true(0.1 + 0.2 = x)", [2]), ("best pos(Price / 3, 20)", [2]), ("best true(Left = Opened)", [1, 2, 3, 4]),
                ("best high(Price * 1e2 / 7) by Pool", [2, 3, 4]), ("best low(Price / Stars) * high(Stars)", [3]), ("best true(Pool = true) & low(Price)", [1])]:
            with self.subTest(question):
                self.assertEqual(self.frame.best(question).ids, ids)

    def test_conditions(self):
        for where, ids in [
                ("Price < 60", [1]), ("not Price < 60", [2, 3]), ("City = 'Lyon' and Price > 60", [3]), ("Pool", [1, 3]), ("not Pool", [2]), ("City is not missing", [1, 2, 3]),
                ("City is null or Stars = 5", [1, 4]), ("Opened < '2000-01-01'", [2]), ("'2000-01-01' > Opened", [2]), ("3 < Stars <= 5", [1, 4]), ("Stars in (3, 9)", [2, 3]),
                ("Stars not in (3, 9)", [1, 4]), ("x = 0.1", [1]), ("Pool = true", [1, 3]), ("Pool <> yes", [2]), ("Stars > 100", []), ("City <> 'Lyon'", [2]),
                ("Price > 0 OR Price <= 0", [1, 2, 3]), ('"Price" >= 60', [2, 3]), ("`Price` >= 6e1", [2, 3]), ("Left > Opened", [1, 2]), ("Stars * 2 == 10", [1])]:
            with self.subTest(where):
                self.assertEqual(sorted(self.frame.best("top_level 9 low(Stars)", where=where).ids), ids)

    def test_a_row_of_which_an_expression_has_no_value_is_named_and_can_be_left_out(self):
        with self.refuses(prefq.Refused, "row 4 has 0 behind the /", kind="term"):
            self.frame.best("best low(x / (Stars - 4))")
        self.assertEqual(self.frame.best("best low(x / (Stars - 4))", where="Stars <> 4").ids, [2])
        with prefq.Frame.from_records([{"x": 1.5}, {"x": float("inf")}, {"x": 2.0}]) as frame:
            frame.delete(1)
            with self.refuses(prefq.Refused, "row 2 has inf, with which nothing is computed", "best low(x + 1)\n             ^"):
                frame.best("best low(x + 1)")
            self.assertEqual(frame.best("best high(x)", where="x > 1e308").ids, [2])

    def test_numbers_of_thousands_of_digits(self):
        """A condition of a hundred letters took hours over many rows; what is only compared, and products of columns, are not larger than they were."""
        with prefq.Frame.from_records([{"x": number, "f": float(f"{number}e300")} for number in range(1, 2_001)]) as frame, self.within(20):
            for sign in ("*", "/"):
                with self.refuses(prefq.Refused, f"behind this {sign} a number may have more than 8,192 digits, with which nothing is computed", kind="term"):
                    frame.best("best low(x)", where="x" + 63 * f" {sign} 1e4000" + " > 5")
            self.assertEqual(frame.best("best low(x)", where="x > 1e9999").ids, [])
            self.assertEqual(frame.best("best low(x)", where="x * 1e3000 * 1e3000 > 5").ids, [1])
            for expression in ("*".join(64 * ["x"]), "+".join(16 * ["f"]), f"max({', '.join(['f', *map(str, range(600))])}) * 2", "x" + 63 * " / 7"):
                self.assertEqual(frame.best(f"best low({expression})").ids, [1])

    def test_what_is_missing_comes_last(self):
        with prefq.Frame.from_records([{"x": 1, "y": 2}, {"x": None, "y": 1}, {"x": 3, "y": 3}]) as frame:
            self.assertEqual(pairs(frame.best("top_level 3 low(x + y)")), [(1, 1), (2, 3), (3, 2)])
            self.assertEqual(pairs(frame.best("top_level 3 -low(x + y)")), [(1, 3), (2, 1), (3, 2)])

    def test_thirds_and_numbers_that_no_64_bits_have(self):
        with prefq.Frame.from_records([{"x": 1, "y": 3}, {"x": 2, "y": 6}, {"x": 2**62, "y": 7}, {"x": -2**62, "y": 7}]) as frame:
            self.assertEqual(pairs(frame.best("top_level 3 high(x / y)")), [(1, 3), (2, 1), (2, 2), (3, 4)])
            self.assertEqual(frame.best("best pos(x * x, 4)").ids, [2])
            self.assertEqual(frame.best("best low(x * x * x / y)").ids, [4])
            with self.refuses(prefq.Refused, "numbers too fine for 64 bits"):
                frame.best("best around(x * x / y, 0)")

    def test_a_value_beside_such_numbers_is_a_plain_one(self):
        """Python reads 1/3 and 1_000 as well, which are none beside other numbers."""
        with prefq.Frame.from_records([{"x": 2**62, "y": 7}, {"x": 1, "y": 3}, {"x": 7000, "y": 7}]) as frame:
            for text in ("1/3", "1_000", "abc"):
                with self.subTest(text), self.refuses(prefq.Refused, f"column 'x * x / y' (numbers too fine for 64 bits): '{text}' is no number", kind="term"):
                    frame.best(f"best pos(x * x / y, '{text}')")
            self.assertEqual(frame.best("best pos(x * x / y, '7e6')").ids, [3])

    def test_more_columns_and_expressions_than_a_table_has(self):
        terms = " * ".join(f"low(x + {number})" for number in range(17))
        with prefq.Frame.from_records([{"x": 2}, {"x": 1}]) as frame:
            says = "17 columns and expressions are asked, and a table has 16"
            for ask in (lambda: frame.best(f"best {terms}"), lambda: frame.why(1, f"best {terms}"), lambda: prefq.psel(frame, terms), lambda: prefq.psel([{"x": 2}, {"x": 1}], terms),
                        lambda: frame.best("best low(x)", top=1, ties=terms), lambda: parts.best([parts.Partition(["x"], [[2], [1]])], f"best {terms}")):
                with self.refuses(prefq.Refused, says, kind="term"):
                    ask()
            self.assertEqual(frame.hasse(terms), [(2, 1)])

    def test_more_parts_of_an_intersection_than_a_table_has_columns(self):
        """They are refused before they are computed, which took minutes for 300 of them."""
        with prefq.Frame.from_records([{"x": number, "y": -number} for number in range(5_000)]) as frame, self.within(10):
            for count in (17, 300, 5_000):
                for mode in ("best ", "top_level 3 -"):
                    with self.refuses(prefq.Refused, f"{count} columns and expressions are asked, and a table has 16", kind="term", place=len(mode) + 1):
                        frame.best(f"{mode}({' | '.join(count * ['low(x)'])})")
            self.assertEqual(frame.best(" | ".join(["best low(x)", *15 * ["low(x)"]])).ids, [1])

    def test_true_of_what_is_neither_true_nor_false_is_refused(self):
        """A column of texts was asked for the text true, which some row may have."""
        with prefq.Frame.from_records([{"c": "true", "x": 1, "b": None}, {"c": "a", "x": 2, "b": True}], kinds={"b": "bool"}) as frame:
            for text, says in [("true(c)", "column 'c' has the kind text, and a condition is true or false"), ("true(x)", "column 'x' has the kind whole, and a condition is true or false"),
                               ("true(x + 1)", "column 'x + 1' has the kind number, and a condition is true or false")]:
                with self.subTest(text), self.refuses(prefq.Refused, says, f"\n    best low(x) & {text}\n                  ^", kind="term"):
                    frame.best(f"best low(x) & {text}")
            self.assertEqual((frame.best("best true(b)").ids, frame.best("best -true(b)").ids, frame.best("best true(not b)").ids), ([2], [1, 2], [1, 2]))
        some = [parts.Partition(["b", "x"], [[None, 1]]), parts.Partition(["b", "x"], [[True, 1], [False, 2]])]
        self.assertEqual(parts.best(some, "best true(b) & low(x)").ids, [2])

    def test_words_of_a_column_mean_in_a_condition_what_they_mean_in_pos(self):
        with prefq.Frame.from_records([{"smoking": "no"}, {"smoking": "yes"}, {"smoking": None}], kinds={"smoking": "bool(no, yes)"}) as frame:
            for where, ids in [("smoking = no", [1]), ("no = smoking", [1]), ("smoking <> no", [2]), ("smoking in (yes)", [2]), ("smoking", [1]), ("(not smoking) = no", [1])]:
                with self.subTest(where):
                    self.assertEqual(frame.best("best empty()", where=where).ids, ids)
            self.assertEqual((frame.best("best pos(smoking, no)").ids, frame.best("best true(smoking = no)").ids, frame.best("best high(smoking)").ids), ([1], [1], [1]))

    def test_the_words_that_a_column_has_for_true_and_false_stand_in_quotes(self):
        """A refusal said so, and then they were no truth."""
        with prefq.Frame.from_records([{"x": "Y"}, {"x": "n"}, {"x": None}], kinds={"x": "bool(y, n)"}) as frame:
            for where, ids in [("x = 'Y'", [1]), ("x <> 'Y'", [2]), ("'n' = x", [2]), ("x in ('y', 'n')", [1, 2]), ("x not in ('y')", [2]), ("x = 'true'", [1])]:
                with self.subTest(where):
                    self.assertEqual((frame.best("best empty()", where=where).ids, frame.best(f"best true({where})").ids), (ids, ids))
            with self.refuses(prefq.Refused, "A text stands in single quotes, 'y'"):
                frame.best("best empty()", where="x = y")
            for where, says in [("x = 'z'", "column 'x' (bool(y, n)): 'z' is not true, false, yes, no, y or n"), ("x = 1", "column 'x' (bool(y, n)): '1' is not true"),
                                ("(x is missing) = 'y'", "'y' is a text, and a condition is true or false")]:
                with self.subTest(where), self.refuses(prefq.Refused, says, kind="term", place=where.index("'z'" if "z" in where else "1" if "1" in where else "'y'")):
                    frame.best("best empty()", where=where)
        with prefq.Frame.from_records([{"x": "1"}, {"x": "0"}], kinds={"x": "bool(1, 0)"}) as frame:
            self.assertEqual((frame.best("best pos(x, 0)").ids, frame.best("best empty()", where="x = 0").ids), ([2], [2]))

    def test_a_negation_in_the_place_of_a_column(self):
        with prefq.Frame.from_records([{"b": True, "not": 2}, {"b": False, "not": 1}, {"b": None, "not": 3}]) as frame:
            for text, ids in [("high(not b)", [2]), ("pos(not b, false)", [1]), ("low(not b and `not` > 1)", [1, 2]), ("low(not)", [2]), ("around(not, 3)", [3])]:
                with self.subTest(text):
                    self.assertEqual(frame.best(f"best {text}").ids, ids)

    def test_empty_prefers_none(self):
        """Either way round, and where a column has gaps; with another preference it is that one."""
        with prefq.Frame.from_records([{"a": None, "b": 1}, {"a": 2, "b": 2}, {"a": 3, "b": 2}]) as frame:
            for text in ("empty()", "-empty()", "-(empty() & empty())", "reverse(empty()) by b", "-empty() by a", "empty() | empty()"):
                with self.subTest(text):
                    self.assertEqual(frame.best(f"best {text}").ids, [1, 2, 3])
                    self.assertEqual((frame.why(1, f"best {text}"), frame.hasse(text)), ([], []))
            for text in ("empty() * low(b)", "low(b) & -empty()", "empty() & low(b)", "empty() | low(b)", "-(-empty() * -low(b))", "-(high(b) | (empty() * empty()))"):
                with self.subTest(text):
                    self.assertEqual((frame.best(f"best {text}").ids, frame.hasse(text)), ([1], frame.hasse("low(b)")))

    def test_numbers_that_no_float_tells_apart(self):
        with prefq.Frame.from_records([{"x": 10**17, "y": 3}, {"x": 10**17 + 1, "y": 3}, {"x": 10**17 - 1, "y": 3}, {"x": 0, "y": 1}]) as frame:
            self.assertEqual(pairs(frame.best("top_level 3 high(x * x / y)")), [(1, 2), (2, 1), (3, 3)])
            self.assertEqual(frame.best(f"best high(x * x / y * {10**300})").ids, [2])
            self.assertEqual(frame.best(f"best low(0 - x * x / y * {10**300})").ids, [2])

    def test_an_infinite_float_beside_a_number_of_many_decimals(self):
        with prefq.Frame.from_records([{"a": Decimal("1e-18"), "f": float("inf")}], kinds={"a": "decimal(18)", "f": "float"}) as frame:
            self.assertEqual(frame.best("best low(a)", where=f"f > {' * '.join(['a'] * 18)}").ids, [1])

    def test_a_value_that_no_row_has(self):
        with self.assertWarnsRegex(prefq.UnknownValue, "no row of 'City' has 'Lion'; did you mean 'Lyon'?") as caught:
            self.assertEqual(self.frame.best("best low(Price)", where="City = 'Lion'"), [])
        self.assertEqual(caught.filename, __file__)

    def test_many_values_that_no_row_has(self):
        wanted = [f"City {number} of the coast" for number in range(3000)]
        rows = [{"City": f"Town {number} of the coast", "price": number} for number in range(500)]
        with prefq.Frame.from_records(rows) as frame, warnings.catch_warnings(record=True) as caught:
            warnings.simplefilter("always")
            begun = time.process_time()
            self.assertEqual(frame.best("best low(price)", where=f"City in ({', '.join(map(repr, wanted))})"), [])
            self.assertLess(time.process_time() - begun, 3)
        self.assertEqual(len(caught), 3000)
        self.assertEqual(sum("did you mean" in str(each.message) for each in caught), 20)

    def test_it_follows_each_change(self):
        with prefq.Frame.from_records([{"price": 50, "stars": 2}, {"price": 90, "stars": 3}]) as frame:
            self.assertEqual(frame.best("best low(price / stars)").ids, [1])
            frame.update(2, {"price": 60})
            self.assertEqual(frame.best("best low(price / stars)").ids, [2])
            new = frame.insert({"price": 40, "stars": 4})
            self.assertEqual(frame.best("best low(price / stars)").ids, [new])
            frame.delete(new)
            frame.insert({"price": Decimal("1.25"), "stars": 1})
            self.assertEqual(frame.best("best low(price / stars)", where="price < 70").ids, [4])
            self.assertEqual(frame.rows()[0], {"price": 50, "stars": 2})

    def test_names_of_any_spelling(self):
        with prefq.Frame.from_records([{"Price (EUR)": 5, "and": 1, "wt.hp": 2}, {"Price (EUR)": 3, "and": 3, "wt.hp": 2}]) as frame:
            self.assertEqual(frame.best('best low("Price (EUR)" * `and`)').ids, [1])
            self.assertEqual(frame.best("best low(wt.hp / `and`)").ids, [2])
            self.assertEqual(frame.best("best low(and)").ids, [1])
            self.assertEqual(frame.best("best low(`Price (EUR)`)", where="wt.hp >= 2").ids, [2])

    def test_psel(self):
        self.assertEqual(pairs(prefq.psel(HOTELS, "low(Price / Stars)", where="Stars > 3", top=2)), [(1, 3), (2, 1)])
        self.assertEqual(prefq.psel(HOTELS, prefq.low(prefq.expr("Price / Stars")) & prefq.true("Pool")).ids, [3])

    @unittest.skipIf(pandas is None, "pandas is not installed")
    def test_dataframes(self):
        frame = pandas.DataFrame({"wt": [2.62, 2.32, 3.215], "hp": [110, 93, 110], 7: [1, 2, 3]}, index=["Mazda", "Datsun", "Hornet"])
        self.assertEqual(list(prefq.psel(frame, "low(wt / hp)").index), ["Mazda"])
        self.assertEqual(list(prefq.psel(frame, "true(wt > 3)").index), ["Hornet"])
        self.assertEqual(list(prefq.psel(frame, "low(hp)", where="wt > 2.5").index), ["Mazda", "Hornet"])
        self.assertEqual(list(prefq.psel(frame, "low(hp)", where="wt > 100").index), [])
        with self.refuses(prefq.Refused, "row 2 has 0 behind the /"):
            prefq.psel(frame, "low(wt / (hp - 93))")

    @unittest.skipIf(pandas is None, "pandas is not installed")
    def test_empty_looks_at_no_column_beside_those_that_are_named(self):
        lists = pandas.DataFrame({"a": [[1], [2], [3]], "b": [3, 1, 2]})
        twice = pandas.DataFrame([[1, 2, 3], [3, 2, 1], [0, 0, 2]], columns=["a", "a", "b"])
        for frame, best in ((lists, [1]), (twice, [1])):
            self.assertEqual(list(prefq.psel(frame, "empty() * low(b)").index), best)
            self.assertEqual(list(prefq.psel(frame, "empty() by b").index), [0, 1, 2])


class Random(TestCase):
    def refused(self, rows, *parts):
        """Whether one of these has no value in a row."""
        try:
            for row in rows.values():
                for part in parts:
                    part.of(row)
        except plain_expressions.Nothing:
            return True
        return False

    def asked(self, chance, expressions):
        """A question about an expression: its text, and its term over rows that have the values of the expression under its text."""
        if chance.random() < 0.3 or not expressions.numbers:
            part = expressions.condition()
            return part, f"true({part.text})", plain.Layered(part.text, "", [[True]])
        part = expressions.number(2)
        first, last = sorted(chance.choice([Fraction(0), Fraction(7, 2), Fraction(-100), Fraction(10**6), Fraction(1, 4)]) for _ in range(2))
        values = [f"{float(value)!r}" for value in (first, last)]
        return chance.choice([(part, f"low({part.text})", plain.Low(part.text, "")), (part, f"high({part.text})", plain.High(part.text, "")),
                              (part, f"between({part.text}, {', '.join(values)})", plain.Between(part.text, "", first, last)),
                              (part, f"pos({part.text}, {values[0]}, 1)", plain.Layered(part.text, "", [[first, 1]]))])

    def one(self, chance):
        columns, records = random_frames.frame(chance)
        given = {name: kind.spelling for name, kind in columns.items() if kind.is_given}
        expressions = plain_expressions.Expressions(chance, columns)
        with prefq.Frame.from_records(records, kinds=given) as frame:
            for _ in range(QUESTIONS_OF_A_FRAME):
                self.question(chance, frame, dict(enumerate(records, 1)), expressions, random_frames.Questions(chance, columns))

    def question(self, chance, frame, rows, expressions, questions):
        part, text, term = self.asked(chance, expressions)
        if part.is_column:
            return
        where = chance.choice([None, expressions.condition()])
        if where and self.refused(rows, where):
            with self.assertRaises(prefq.Refused):
                frame.best(f"best {text}", where=where.text)
            return
        rows = {id: row for id, row in rows.items() if where is None or where.of(row)}
        other = questions.term(1)
        sign, product = chance.choice([("*", plain.Pareto), ("&", plain.Prior)])
        asked = f"top_level 2 -{text} {sign} ({other.text})"
        try:
            if self.refused(rows, part):
                with self.assertRaises(prefq.Refused):
                    frame.best(asked, where=where and where.text)
                return
            answer = frame.best(asked, where=where and where.text)
        except prefq.Refused as why:
            self.assertTrue("too fine" in str(why) or "names a column" in str(why) or "that are written are compared" in str(why), (asked, where and where.text, str(why)))
            return
        valued = {id: {**row, part.text: part.of(row)} for id, row in rows.items()}
        self.assertEqual(pairs(answer), plain.Ask("", product("", [plain.Converse("", term), other]), levels=2).answer(valued), (asked, where and where.text))
        if pandas is not None and chance.random() < 0.2:
            found = self.selected(frame, asked, where)
            self.assertEqual(list(zip(found[".level"], found.index)), pairs(answer), (asked, where and where.text))

    def selected(self, frame, asked, where):
        """The same by psel of a DataFrame, whose index are the ids."""
        rows = frame.rows()
        table = pandas.DataFrame([dict(row) for row in rows], index=[row.id for row in rows], columns=frame.names, dtype=object)
        return prefq.psel(table, asked, where=where and where.text, kinds={column.name: str(column.kind) for column in frame.columns})

    def test_as_by_a_plain_evaluation(self):
        with warnings.catch_warnings():
            warnings.simplefilter("ignore", prefq.UnknownValue)
            for number in range(QUESTIONS // QUESTIONS_OF_A_FRAME):
                with self.subTest(frame=number):
                    self.one(random.Random(SEED + number))


if __name__ == "__main__":
    unittest.main()
