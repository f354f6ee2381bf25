"""Frames: a spreadsheet's file in one line, changes of records, missing values, why, pictures and other forms of an answer."""
import copy
import csv
import dataclasses
import datetime
import io
import json
import pickle
import sqlite3
import tempfile
import threading
import time
import unittest
import unittest.mock
import warnings
from collections import namedtuple
from decimal import Decimal
from pathlib import Path
from xml.etree import ElementTree

import prefq
from prefq.desk import Desk
from prefq.questions import read_question
from support import TestCase

HOTELS = Path(__file__).parent / "data" / "hotels.csv"
QUESTION = "best pos(City, 'Lyon') & low(\"Price (EUR)\") * high(Stars) * low(\"Distance km\")"


def file_rows():
    with open(HOTELS, newline="", encoding="utf-8-sig") as file:
        return list(csv.DictReader(file))


def number(text, missing):
    return missing if text.strip().lower() in ("", "n/a") else Decimal(text)


class Records(TestCase):
    """Records that are none, or of another form."""

    def test_no_records_with_their_columns(self):
        with prefq.Frame.from_records([], columns=["hotel", "price"], kinds={"hotel": "text", "price": "decimal(2)"}) as frame:
            self.assertEqual((frame.rows(), [str(column.kind) for column in frame.columns], frame.insert({"price": "59.50"})), ([], ["text", "decimal(2)"], 1))
        with self.refuses(prefq.Refused, "without rows a column has to be given its kind: hotel"):
            prefq.Frame.from_records([], columns=["hotel", "price"], kinds={"price": "decimal(2)"})

    def test_a_field_of_a_data_class_that_is_not_set(self):
        @dataclasses.dataclass
        class Offer:
            price: int
            dist: int = dataclasses.field(init=False)

        with prefq.Frame.from_records([Offer(60), {"price": 50, "dist": 2}]) as frame:
            frame.insert(Offer(70))
            self.assertEqual([tuple(row.values()) for row in frame.rows()], [(60, None), (50, 2), (70, None)])

    def test_bytes_are_no_list_of_values(self):
        with prefq.Frame.empty(["x", "y"], {"x": "whole", "y": "whole"}) as frame:
            for record in (b"12", bytearray(b"12"), memoryview(b"12")):
                with self.refuses(TypeError, f"a record is a mapping or a list of values, not {record!r}"):
                    frame.insert(record)

    def test_the_record_that_is_refused_is_named(self):
        """Of many, nobody knew which one it was; and the texts of those before it were taken for values of some row."""
        columns = [prefq.Column("x", "whole"), prefq.Column("city", "text")]
        for rows, error, says in [([[1, "Lyon"], ["a", "Bern"]], ValueError, ", column 'x' (whole): 'a' is no number"), ([[1, "Lyon"], [2, 5]], TypeError, ", column 'city' (text): 5 is no text"),
                                  ([[1, "Lyon"], [2]], prefq.Refused, ": a row of 1 values, where there are 2 columns: x, city"), ([[1, "Lyon"], 7], TypeError, ": a record is a mapping or a list of values, not 7"),
                                  ([[1, "Lyon"], {"X": 1}], prefq.Refused, ": no column 'X'; did you mean x?")]:
            with self.subTest(rows=rows), prefq.Frame(columns) as frame:
                with self.refuses(error, f"record 2{says}"):
                    frame.insert_many(rows)
                self.assertEqual(len(frame), 0)
                if says.startswith(", column 'x'"):
                    with self.assertWarns(prefq.UnknownValue):
                        frame.best("best pos(city, 'Lyon')")
                with self.refuses(error, f"row 2{says}"):
                    prefq.Frame(columns, rows)
                frame.insert(rows[0])
                with self.refuses(error, f"change 3{says}"):
                    frame.commit(("insert", rows[0]), ("delete", 1), ("insert", rows[1]))
                self.assertEqual(len(frame), 1)

    def test_one_record_that_is_another_one_each_time(self):
        """As some readers of files give it. All rows were the last one by insert_many, though not by from_records."""
        def records():
            record = {}
            for record["x"] in range(3):
                yield record

        with prefq.Frame.from_records(records()) as frame:
            frame.insert_many(records())
            self.assertEqual([row.x for row in frame.rows()], [0, 1, 2, 0, 1, 2])
        self.assertEqual([row.x for row in prefq.psel(records(), "top_level 3 low(x)")], [0, 1, 2])

    def test_what_is_no_column_or_no_cursor(self):
        """It was an AttributeError of Python's own, and a text was a list of its letters."""
        for columns in (["x", "y"], "xy", {"x": "whole"}, [("x", "whole")]):
            with self.subTest(columns=columns), self.refuses(TypeError, "columns has ", "a frame has Columns, as Column('price', 'whole')"):
                prefq.Frame(columns)
        for cursor in ([(1,)], None, sqlite3.connect(":memory:")):
            with self.subTest(cursor=cursor), self.refuses(TypeError, f"cursor is of type {type(cursor).__name__}: not the cursor of a query"):
                prefq.Frame.from_sql(cursor)
        for names in (lambda: prefq.Frame.empty("xy", {"x": "whole", "y": "whole"}), lambda: prefq.parts.best([prefq.parts.Partition("xy", [[1, 2]])], "best low(x)")):
            with self.refuses(TypeError, "columns is a list of names, not 'xy'"):
                names()

    def test_lists_say_what_takes_them(self):
        for record in ((1, 2), [1, 2]):
            with self.refuses(TypeError, f"row 1 is no mapping, but {record!r}: Frame.from_sql takes the cursor of a query, and Frame(columns, rows) lists of values"):
                prefq.Frame.from_records([record])


class Hotels(TestCase):
    def plainly(self):
        """The best hotels of Lyon by price, stars and distance, as pairs of their row and their level."""
        keys = {}
        for id, row in enumerate(file_rows(), 1):
            if row["City"] == "Lyon":
                keys[id] = (number(row["Price (EUR)"], Decimal(10**9)), -number(row["Stars"], Decimal(-10**9)), number(row["Distance km"], Decimal(10**9)))
        return [id for id, key in keys.items()
                if not any(all(a <= b for a, b in zip(other, key)) and other != key for other in keys.values())]

    def test_in_one_line(self):
        with prefq.Frame.from_csv(HOTELS) as hotels:
            answer = hotels.best(QUESTION)
            self.assertEqual(answer.ids, self.plainly())
            self.assertEqual(len(answer), 15)
            for record, row in ((record, file_rows()[record.id - 1]) for record in answer):
                self.assertEqual((record["Hotel name"], record["Price (EUR)"], record.Stars), (row["Hotel name"], Decimal(row["Price (EUR)"]), Decimal(row["Stars"])))

    def test_overhead(self):
        """What a question costs beyond the time of its queries, in the best of some series."""
        with prefq.Frame.from_csv(HOTELS) as hotels:
            below = prefq.translate.plan(QUESTION, read_question(QUESTION, hotels._opened.by_name.get, hotels.names), hotels._opened.below).text

            def seconds(call):
                begun = time.perf_counter()
                call()
                return time.perf_counter() - begun

            with_frame = min(seconds(lambda: hotels.best(QUESTION)) for _ in range(10))
            alone = min(seconds(lambda: hotels.table.best(below)) for _ in range(10))
            print(f"\na question over 1500 rows takes {1000 * (with_frame - alone):.2f} ms more by a frame")
            self.assertLess(with_frame - alone, 0.02)


class Changes(TestCase):
    def frame(self, **options):
        return prefq.Frame.from_records([{"city": "Lyon", "price": Decimal("57.40")}, {"city": "Bern", "price": Decimal("65.6")}], **options)

    def test_each(self):
        Hotel = namedtuple("Hotel", "city price")
        Room = dataclasses.make_dataclass("Room", ["city", "price"])
        with self.frame() as frame:
            self.assertEqual(frame.insert({"city": "Köln", "price": "10.5"}), 3)
            self.assertEqual(list(frame.insert_many([Hotel("Wien", 7), Room("Graz", 8.25), ["Linz", None], {}])), [4, 5, 6, 7])
            frame.update(1, {"price": 5})
            frame.update(2, ["Basel", 6])
            frame.delete(3)
            self.assertEqual([(row.id, row.city, row.price) for row in frame.rows()],
                             [(1, "Lyon", 5), (2, "Basel", 6), (4, "Wien", 7), (5, "Graz", Decimal("8.25")), (6, "Linz", None), (7, None, None)])
            self.assertEqual((len(frame), frame.get(4), frame.room()), (6, {"city": "Wien", "price": 7}, 1024 - 6))
            self.assertEqual(list(frame), frame.rows())
            for call in (lambda: frame.get(3), lambda: frame.delete(3), lambda: frame.update(3, {"price": 1}), lambda: frame.why(3, "best low(price)")):
                with self.refuses(prefq.Refused, "no such row 3", kind="client", number=7):
                    call()
            self.assertEqual(repr(frame), "<prefq.Frame of city, price: 6 rows>")
        with self.assertRaises(prefq.Ended):
            frame.best("best low(price)")
        frame.close()

    def test_a_full_frame(self):
        with self.frame(capacity=3) as frame:
            frame.insert({"price": 1})
            with self.refuses(prefq.Refused, "full", kind="client", number=8):
                frame.insert({"price": 2})
            self.assertEqual(len(frame), 3)

    def test_a_record(self):
        record = prefq.Record({"city": "Lyon", "x y": 5}, id=3, level=1)
        self.assertEqual((record.city, record["x y"], record.id, record.level, dict(record)), ("Lyon", 5, 3, 1, {"city": "Lyon", "x y": 5}))
        with self.refuses(AttributeError, "no column 'citi'; did you mean city?"):
            record.citi
        again = pickle.loads(pickle.dumps(record))
        self.assertEqual((again, again.id, again.level), (record, 3, 1))

    def test_a_row_comes_between_a_question_and_its_query(self):
        """It brings a column's first gap, or a text that the question names: it neither wins nor is overlooked."""
        for question, record, ids in [("best low(x)", {"city": "Bern"}, [1]), ("best -high(x)", {}, [1]), ("skyline of distinct x min", {"city": "Bern"}, [1]),
                                      ("best pos(city, 'Oslo')", {"x": 7, "city": "Oslo"}, [2]), ("best -pos(city, 'Oslo')", {"x": 7}, [1])]:
            with self.subTest(question=question), prefq.Frame.from_records([{"x": 5, "city": "Bern"}]) as frame:
                query = frame.table.query
                came = []

                def late(text):
                    if not came:
                        came.append(frame.insert(record))
                    return query(text)

                with unittest.mock.patch.object(frame.table, "query", late), warnings.catch_warnings():
                    warnings.simplefilter("ignore", prefq.UnknownValue)
                    self.assertEqual((frame.best(question).ids, came), (ids, [2]))

    def test_partial_updates_of_many_threads(self):
        names = [f"x{place}" for place in range(8)]
        with prefq.Frame.from_records([dict.fromkeys(names, 0)]) as frame:
            threads = [threading.Thread(target=lambda name=name: [frame.update(1, {name: value}) for value in range(1, 51)]) for name in names]
            for thread in threads:
                thread.start()
            for thread in threads:
                thread.join()
            self.assertEqual(frame.get(1), dict.fromkeys(names, 50))


class Missing(TestCase):
    """Rows 1 to 3 have values, row 4 has none."""

    RECORDS = [{"x": -5, "city": "Lyon", "y": 1}, {"x": 0, "city": "Bern", "y": 1}, {"x": 5, "city": "Köln", "y": 2}, {"y": 2}]

    def test_never_wins(self):
        with prefq.Frame.from_records(self.RECORDS) as frame:
            for term, levels in [
                    ("low(x)", "1 2 3 4"), ("high(x)", "3 2 1 4"), ("-low(x)", "3 2 1 4"), ("reverse(high(x))", "1 2 3 4"), ("--low(x)", "1 2 3 4"),
                    ("around(x, 1)", "3 1 2 4"), ("-around(x, 1)", "1 3 2 4"), ("between(x, -1, 9)", "2 1 1 3"), ("-between(x, -1, 9)", "1 2 2 3"),
                    ("around(x, -9223372036854775808)", "1 2 3 4"), ("pos(x, 0)", "2 1 2 2"), ("-pos(x, 0)", "1 2 1 2"), ("pos(x, -9223372036854775808)", "1 1 1 1"),
                    ("pos(city, 'Bern')", "2 1 2 2"), ("-pos(city, 'Bern')", "1 2 1 2"), ("layered(city, {'Bern'}, {'Lyon'})", "2 1 3 3"),
                    ("-layered(city, {'Bern'}, {'Lyon'})", "2 3 1 3"), ("-layered(city, {'Wien'}, {'Lyon'})", "2 1 1 3"), ("-pos(city, 'Wien')", "1 1 1 2"),
                    ("-(low(x) & low(y))", "3 2 1 4"), ("-(low(x) * low(y))", "3 2 1 2"), ("low(x) by city", "1 1 1 1"),
                    ("low(x) by y", "1 2 1 2")]:
                with self.subTest(term=term), warnings.catch_warnings():
                    warnings.simplefilter("ignore", prefq.UnknownValue)
                    answer = frame.best(f"top_level 9 {term}")
                    self.assertEqual(" ".join(str(level) for _, level in sorted(zip(answer.ids, answer.levels))), levels)

    def test_the_clause(self):
        records = [{"x": 5, "g": "a"}, {"x": None, "g": "a"}, {"x": None, "g": None}, {"x": None, "g": None}, {"x": 5, "g": "a"}]
        with prefq.Frame.from_records(records) as frame:
            for question, ids in [("skyline of x min", [1, 5]), ("skyline of x max", [1, 5]), ("skyline of distinct x min", [1]), ("skyline of distinct x max", [1]),
                                  ("skyline of x min, g diff", [1, 3, 4, 5]), ("skyline of distinct x min, g diff", [1, 3]), ("skyline of distinct x max, g diff", [1, 3])]:
                with self.subTest(question=question):
                    self.assertEqual(frame.best(question).ids, ids)
            self.assertEqual(frame.why(5, "skyline of distinct x min, g diff").ids, [1])
            self.assertEqual(frame.why(2, "skyline of distinct x min, g diff").ids, [1, 5])

    def test_why_where_min_and_max_are_asked_of_one_column(self):
        records = [{"x": x, "y": y} for x, y in [(2, 1), (1, 1), (None, 2), (2, 1), (0, 1), (0, 2), (1, 1)]]
        with prefq.Frame.from_records(records) as frame:
            for question, levels in [("skyline of distinct x max, x min", {1: 1, 2: 1, 5: 1, 4: 2, 6: 2, 7: 2}),
                                     ("skyline of distinct x max, x min, y min", {1: 1, 2: 1, 5: 1, 4: 2, 6: 2, 7: 2})]:
                with self.subTest(question=question):
                    answer = frame.why(3, question)
                    self.assertEqual(dict(zip(answer.ids, answer.levels)), levels)

    def test_why_of_more_criteria_than_a_table_has_columns(self):
        names = [f"x{place}" for place in range(9)]
        records = [dict.fromkeys(names), *({name: row ** power % 11 for power, name in enumerate(names, 1)} for row in range(1, 11))]
        question = "skyline of distinct " + ", ".join(f"{name} min, {name} max" for name in names)
        with prefq.Frame.from_records(records) as frame, self.assertRaisesRegex(prefq.Refused, "a distinct clause of 18 criteria"):
            frame.why(1, question)

    def test_a_column_that_an_update_does_not_name_gets_no_gap(self):
        """A question that asks for the rows with values first takes many times as long."""
        changes = {"update": lambda frame: frame.update(1, {"x": 3}), "commit": lambda frame: frame.commit(("update", 1, {"x": 3}), ("delete", 2)),
                   "desk": lambda frame: Desk(frame).update(1, {"x": 3}), "wider": lambda frame: frame.update(1, {"x": "3.5"})}
        for name, change in changes.items():
            with self.subTest(name), prefq.Frame.from_records([{"x": 1, "y": 2}, {"x": 2, "y": 1}]) as frame:
                change(frame)
                self.assertEqual([column.has_gaps for column in frame.columns], [False, False])
                self.assertEqual(frame.get(1).y, 2)

    def test_each_change_that_brings_a_gap_notes_it(self):
        changes = {"insert": lambda frame: frame.insert({"x": 3}), "many": lambda frame: frame.insert_many([{"x": 3, "y": 1}, [3, None]]),
                   "update": lambda frame: frame.update(1, {"y": None}), "list": lambda frame: frame.update(1, [3, float("nan")]),
                   "commit": lambda frame: frame.commit(("delete", 2), ("insert", {"x": 3})), "wider": lambda frame: frame.insert({"x": "3.5"}),
                   "desk": lambda frame: Desk(frame).insert({"x": 3})}
        for name, change in changes.items():
            with self.subTest(name), prefq.Frame.from_records([{"x": 1, "y": 2}, {"x": 2, "y": 5}]) as frame:
                change(frame)
                self.assertEqual([column.has_gaps for column in frame.columns], [False, True])
                self.assertIsNotNone(frame.best("best low(y)")[0].y)

    def test_not_a_number_is_missing(self):
        nan = float("nan")
        with prefq.Frame.from_records([{"x": 1.5}, {"x": nan}, {"x": Decimal("nan")}]) as frame:
            self.assertEqual([row.x for row in frame.rows()], [1.5, None, None])


class Why(TestCase):
    def test_levels(self):
        with prefq.Frame.from_records([{"x": x, "y": y} for x, y in [(50, 8), (60, 5), (80, 2), (70, 6), (90, 2), (100, 1), (110, 9)]]) as frame:
            why = frame.why(7, "best low(x) * low(y)")
            self.assertEqual(list(zip(why.levels, why.ids)), [(1, 1), (1, 2), (1, 3), (1, 6), (2, 4), (2, 5)])
            self.assertEqual(why[0], {"x": 50, "y": 8})
            self.assertEqual(frame.why(1, "at_least 5 low(x) * low(y)"), [])
            with self.refuses(prefq.Refused, "no column 'z'"):
                frame.why(7, "best low(z)")

    def test_many_rows_and_levels(self):
        with prefq.Frame.from_records([{"x": x} for x in range(1200)]) as frame:
            why = frame.why(1100, "best low(x)")
            self.assertEqual(why.ids, list(range(1, 1100)))
            self.assertEqual(why.levels, [*range(1, 1001), *[None] * 99])

    def test_sixteen_columns(self):
        names = [f"x{place}" for place in range(16)]
        with prefq.Frame.from_records([{name: (place * row) % 7 for place, name in enumerate(names, 1)} for row in range(40)]) as frame:
            question = "best " + " * ".join(f"low({name})" for name in names[:2]) + "".join(f" & low({name})" for name in names[2:])
            rows = {row.id: [row[name] for name in names] for row in frame.rows()}

            def dominates(a, b):
                front = [(p > q) - (p < q) for p, q in zip(a[:2], b[:2])]
                return max(front) <= 0 and min(front) < 0 or not any(front) and a[2:] < b[2:]

            for id in rows:
                self.assertEqual(sorted(frame.why(id, question).ids), [other for other in rows if dominates(rows[other], rows[id])])


class Forms(TestCase):
    RECORDS = [{"level": "high", "price": Decimal("57.40"), "f": 0.1, "day": datetime.date(2026, 5, 1), "pool": True, "name": 'say "<x>", ok\nyes'},
               {"level": None, "price": None, "f": float("inf"), "day": None, "pool": None, "name": None}]

    def answer(self, question="top_level 2 low(price)"):
        with prefq.Frame.from_records(self.RECORDS) as frame:
            return frame.best(question)

    def test_csv(self):
        rows = list(csv.reader(io.StringIO(self.answer().to_csv(), newline="")))
        self.assertEqual(rows, [[".level", "id", "level", "price", "f", "day", "pool", "name"],
                                ["1", "1", "high", "57.40", "0.1", "2026-05-01", "true", 'say "<x>", ok\nyes'], ["2", "2", "", "", "inf", "", "", ""]])
        with tempfile.TemporaryDirectory() as folder:
            path = Path(folder, "answer.csv")
            self.assertIsNone(self.answer().to_csv(path))
            with prefq.Frame.from_csv(path) as again:
                self.assertEqual(dict(again.get(1)), {".level": 1, "id": 1, **self.RECORDS[0], "f": 0.1})

    def test_json(self):
        for indent in (None, 2):
            text = self.answer().to_json(indent=indent)
            found = json.loads(text, parse_float=Decimal)
            self.assertEqual(found, [{".level": 1, "id": 1, "level": "high", "price": Decimal("57.40"), "f": Decimal("0.1"), "day": "2026-05-01", "pool": True,
                                      "name": 'say "<x>", ok\nyes'},
                                     {".level": 2, "id": 2, "level": None, "price": None, "f": "inf", "day": None, "pool": None, "name": None}])
            self.assertIn("57.40", text)
        with prefq.Frame.from_records(self.RECORDS) as frame:
            self.assertEqual(frame.best("best pos(level, 'high') & low(price) by name").to_json() and json.loads(frame.why(1, "best low(price)").to_json()), [])

    def test_html_and_text(self):
        answer = self.answer()
        self.assertIn('<th style="text-align: right">.level</th>', answer._repr_html_())
        self.assertIn("<td>say &quot;&lt;x&gt;&quot;, ok\nyes</td>", answer._repr_html_())
        self.assertEqual(repr(answer).splitlines()[0].split(), [".level", "id", "level", "price", "f", "day", "pool", "name"])
        self.assertEqual(len(repr(answer).splitlines()), 3)
        with prefq.Frame.from_records([{"x": 1}] * 300) as frame:
            answer = frame.best("best low(x)")
            self.assertTrue(repr(answer).endswith(".. and 280 rows more"))
            self.assertIn(".. and 100 rows more", answer._repr_html_())
            self.assertEqual(answer.to_html().count("<tr>"), 301)
            self.assertEqual(len(answer.to_text().splitlines()), 301)
        ElementTree.fromstring(answer.to_html())

    def test_pickled(self):
        answer = self.answer()
        again = pickle.loads(pickle.dumps(answer))
        self.assertEqual((again, again.levels, again.ids, again.to_csv(), again.question), (answer, answer.levels, answer.ids, answer.to_csv(), answer.question))

    def test_a_copy_has_the_notes(self):
        answer = prefq.Answer("best low(x)", [prefq.Column("x", "whole")], [prefq.Record({"x": 1}, id=1, level=1)], notes=["column 'x': 'n/a' (1 row) taken for missing"])
        for again in (copy.copy(answer), copy.deepcopy(answer), pickle.loads(pickle.dumps(answer)), answer[:1]):
            self.assertEqual((again, again.notes), (answer, answer.notes))

    def test_pictures(self):
        with prefq.Frame.from_csv(HOTELS) as hotels:
            for question, fronts, names in [
                    ('best low("Price (EUR)") * low("Distance km")', 1, ("Price (EUR) (less is better)", "Distance km (less is better)")),
                    ('top_level 3 -(high("Price (EUR)") * -high(Stars))', 1, ("Price (EUR) (less is better)", "Stars (more is better)")),
                    ('best low("Price (EUR)") * low("Distance km") by City', 4, ("Price (EUR) (less is better)", "Distance km (less is better)")),
                    ("best pos(City, 'Lyon') & low(Opened)", 0, ("Opened (less is better)", "Price (EUR)")),
                    ("best pos(City, 'Lyon')", 0, ("Price (EUR)", "Stars")), (QUESTION, 0, ("Price (EUR) (less is better)", "Stars (more is better)"))]:
                with self.subTest(question=question):
                    answer = hotels.best(question)
                    picture = ElementTree.fromstring(answer.to_svg())
                    texts = ["".join(element.itertext()) for element in picture.iter("{http://www.w3.org/2000/svg}text")]
                    self.assertEqual(texts[0], question)
                    for name in names:
                        self.assertIn(name, texts)
                    self.assertEqual(sum(element.get("class") == "front" for element in picture.iter()), fronts)
                    circles = [element.get("r") for element in picture.iter("{http://www.w3.org/2000/svg}circle")]
                    shown = [row for row in hotels.rows() if all(row[name.split(" (less")[0].split(" (more")[0]] is not None for name in names)]
                    self.assertEqual(len(circles), len(shown))
                    self.assertEqual(circles.count("4.5"), len({row.id for row in shown} & set(answer.ids)))

    def test_a_staircase_is_drawn_where_the_points_are_a_front(self):
        """Of groups that are asked for beside the question, one of which lies behind another, there is none."""
        records = [{"City": "Lyon", "x": 1, "y": 2}, {"City": "Lyon", "x": 2, "y": 1}, {"City": "Bern", "x": 3, "y": 4}, {"City": "Bern", "x": 4, "y": 3}]
        with prefq.Frame.from_records(records) as frame:
            for question, by, fronts in [("best low(x) * low(y)", None, 1), ("best low(x) * low(y) by City", None, 2), ("best low(x) * low(y)", "City", 0), ("best low(x) * high(y)", None, 1),
                                         ("best -(low(x) * high(y))", None, 1), ("best low(x) * low(y)", ["City", "x"], 0)]:
                with self.subTest(question=question, by=by):
                    self.assertEqual(frame.best(question, by=by).to_svg().count('class="front"'), fronts)

    def test_picture_of_other_columns(self):
        with prefq.Frame.from_csv(HOTELS) as hotels:
            answer = hotels.best(QUESTION)
            for x, y in [("City", "Breakfast"), ("Opened", "Hotel name"), (None, "City")]:
                self.assertIn(f">{y}<", answer.to_svg(x=x, y=y))
            with self.refuses(prefq.Refused, "no column 'Town'"):
                answer.to_svg(x="Town")
        self.assertIn("level 1", answer.to_svg())
        with prefq.Frame.from_records([{"x": 5}]) as one:
            self.assertIn("<circle", one.best("best low(x)").to_svg())
            self.assertIn("<svg", one.best("best low(x) by x").to_svg())


class ByMatplotlib(TestCase):
    def test_axes(self):
        try:
            import matplotlib
        except ImportError:
            raise unittest.SkipTest("matplotlib is not installed")
        matplotlib.use("Agg")
        with prefq.Frame.from_csv(HOTELS) as hotels:
            axes = hotels.best('top_level 2 low("Price (EUR)") * low("Distance km")').plot()
        self.assertEqual((axes.get_xlabel(), axes.get_ylabel()), ("Price (EUR) (less is better)", "Distance km (less is better)"))
        self.assertEqual([text.get_text() for text in axes.get_legend().get_texts()], ["other rows (1458)", "level 1", "level 2"])
        self.assertEqual(len(axes.lines), 1)
        matplotlib.pyplot.close("all")
