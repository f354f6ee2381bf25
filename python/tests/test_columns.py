"""Columns: what kind each is taken for, that values come back exactly, and what does not fit."""
import contextlib
import csv
import datetime
import decimal
import enum
import io
import random
import sqlite3
import struct
import time
import unittest
import warnings
from decimal import Decimal
from fractions import Fraction

import prefq
from prefq.checks import LEAST, MOST
from prefq.columns import Column
from prefq.infer import kind_of_texts, kind_of_values
from prefq.kinds import Floats, kind_named
from prefq.loading import column_of_values
from support import TestCase

UTC = datetime.timezone.utc
PLUS_2 = datetime.timezone(datetime.timedelta(hours=2))


def from_text(text, **options):
    return prefq.Frame.from_csv(io.StringIO(text), **options)


class Kinds(TestCase):
    def test_of_texts(self):
        for texts, kind in [
                (["1", "-7", "+3"], "whole"), (["1.5", "-.25", "3"], "decimal(2)"), (["1e3", "2.5e-2"], "decimal(3)"), (["57.40", "5"], "decimal(2)"),
                (["inf", "1.5"], "float"), (["1e-300", "0.5"], "float"), (["0.1", "123456789012345.1", "5e-324"], "float"),
                (["yes", "NO"], "bool"), (["TRUE", "false"], "bool"), (["0", "1"], "whole"),
                (["2026-05-01", "1999-12-31"], "date"), (["2026-05-01", "2026-05-01 17:30"], "time"), (["2026-05-01T17:30:01.5Z"], "time(UTC)"),
                (["2026-05-01T17:30+02:00", "2026-05-01T17:30+02:00"], "time(UTC+02:00)"), (["2026-05-01T17:30+02:00", "2026-05-01T17:30Z"], "time(UTC)"),
                (["2026-05-01 17:30Z", "2026-05-01 17:30"], "text"), (["2026-02-30"], "text"), (["Lyon"], "text"), ([], "text"), (["007", "12"], "text"),
                (["1_000", "2"], "text"), (["١"], "whole"), (["０５", "５"], "text"), (["12", "-٠٧"], "text"), (["٠", "1"], "whole"), (["1,5"], "text"), (["9223372036854775807"], "whole"), (["0x10"], "text")]:
            with self.subTest(texts=texts):
                self.assertEqual(str(kind_of_texts(texts)), kind)

    def test_of_values(self):
        for values, kind in [([1, None], "whole"), ([Decimal("1.50"), 2], "decimal(2)"), ([Decimal("1E+2")], "decimal(0)"), ([1.5, 2, float("nan")], "float"),
                             ([True, None], "bool"), ([datetime.date(2026, 5, 1)], "date"), ([datetime.datetime(2026, 5, 1)], "time"),
                             ([datetime.datetime(2026, 5, 1, tzinfo=UTC)], "time(UTC)"), ([datetime.time(17, 30)], "clock"), (["a"], "text"), ([], "text"), ([None], "text"), (["5"], "text")]:
            with self.subTest(values=values):
                self.assertEqual(str(kind_of_values("x", values)), kind)

    def test_mixed_values_are_refused(self):
        for values in ([1, "a"], [1.5, Decimal("1.5")], [True, 1], [datetime.date(2026, 5, 1), datetime.datetime(2026, 5, 1)], [[1]], [b"x"], [1j]):
            with self.subTest(values=values), self.refuses(prefq.Refused, "column 'x' has values of", "columns=[..]", kind="table"):
                prefq.Frame.from_records([{"x": value} for value in values])

    def test_the_first_value_that_does_not_go_with_those_before_is_named(self):
        """Of thousands of rows nobody knew which one it was."""
        noon = datetime.datetime(2026, 5, 1, 12)
        for values, says in [([1, None, 2, "a", 3.5], "row 4, column 'x' has values of int and str, as 'a':"), ([noon, None, noon, 5], "row 4, column 'x' has values of datetime and int, as 5:"),
                             ([None, "a", b"x" * 99], f"row 3, column 'x' has values of bytes and str, as b'{'x' * 58}..:"), (["a", 10**5000], "as a number of thousands of digits:"),
                             ([float("nan"), [1]], "row 2, column 'x' has values of list, as [1]:")]:
            for door in (lambda: prefq.Frame.from_records([{"x": value} for value in values]), lambda: prefq.parts.best([prefq.parts.Partition(["x"], [[value] for value in values])], "best low(x)")):
                with self.subTest(says=says), self.refuses(prefq.Refused, says, kind="table"):
                    door()

    def test_in_a_program_whose_decimals_have_few_digits(self):
        for texts, kind in [(["922337203685477580.7", "1e0"], "decimal(1)"), (["922337203685477580.9", "1e0"], "text"), (["-92233720368547758.07", "1e-2"], "decimal(2)")]:
            for rounding in ("ROUND_DOWN", "ROUND_UP"):
                with self.subTest(texts=texts, rounding=rounding), decimal.localcontext() as context:
                    context.prec, context.rounding = 5, rounding
                    self.assertEqual(str(kind_of_texts(texts)), kind)

    def test_in_a_program_that_traps_each_signal_of_decimals(self):
        """One of them is that a float becomes a decimal by itself."""
        with decimal.localcontext() as context:
            context.traps = dict.fromkeys(context.traps, True)
            with prefq.Frame.from_records([{"f": 0.5, "d": Decimal("0.25")}, {"f": 0.1, "d": Decimal("12345.5")}]) as frame:
                for question, ids in [("best pos(f, 0.5)", [1]), ("best layered(f, {0.1}, {0.5})", [2]), (prefq.pos("f", 0.1), [2]), ("best around(d, 0.1)", [1]), ("best low(f * d)", [1])]:
                    self.assertEqual(frame.best(question).ids, ids)
                self.assertEqual(frame.best("best low(d)", where="f = 0.1 and d > f").ids, [2])
                self.assertEqual(frame.get(frame.insert({"d": 0.125})).d, Decimal("0.125"))

    def test_named(self):
        for spelling in ("whole", "decimal(2)", "float", "bool", "date", "time", "text"):
            self.assertEqual(str(kind_named(spelling)), spelling)
        self.assertEqual(str(kind_named("choice(S, M, L)")), "choice(S, M, L)")
        for spelling in ("decimal", "number", "decimal(x)", "", "choice"):
            with self.refuses(prefq.Refused, "there are whole, decimal(2)"):
                kind_named(spelling)

    def test_python_s_truths_in_a_question_of_words(self):
        """A question has them as true and false. Of the kind bool(false, true), the word true said of what is false, so that `pos("s", True)` preferred it."""
        for kind in ("bool", "bool(no, yes)", "bool(true, false)", "bool(0, FALSE)", "bool(TRUE, 0)"):
            with self.subTest(kind=kind), prefq.Frame.from_records([{"s": True}, {"s": False}], kinds={"s": kind}) as frame:
                self.assertEqual((frame.best(prefq.pos("s", True)).ids, frame.best(prefq.pos("s", False)).ids, frame.best(prefq.true("s")).ids), ([1], [2], [1]))
        for kind in ("bool(false, true)", "bool(False, x)", "bool(x, TRUE)"):
            with self.subTest(kind=kind), self.refuses(prefq.Refused, "the word false is not true"):
                kind_named(kind)

    def test_a_kind_that_is_given(self):
        records = [{"price": 129.99, "size": "M"}, {"price": 59.5, "size": "S"}, {"price": 60, "size": "L"}]
        with prefq.Frame.from_records(records, kinds={"price": "decimal(2)", "size": "choice(S, M, L)"}) as frame:
            self.assertEqual(frame.get(1), {"price": Decimal("129.99"), "size": "M"})
            self.assertEqual(frame.best("best around(price, 59.99)").ids, [3])
            self.assertEqual(frame.best("best low(size)").ids, [2])
            self.assertEqual(frame.best("best high(size)").ids, [3])
            with self.refuses(ValueError, "'XL' is none of 'S', 'M', 'L'"):
                frame.insert({"size": "XL"})


class Exactly(TestCase):
    def test_values_come_back(self):
        moment = datetime.datetime(2026, 10, 25, 2, 30, 0, 123456)
        records = [{"w": value, "d": decimal, "f": real, "b": bool(value % 2), "t": text, "m": moment + datetime.timedelta(microseconds=value % 7),
                    "z": moment.replace(tzinfo=PLUS_2), "day": day}
                   for value, decimal, real, text, day in zip([0, LEAST + 1, MOST, -1], map(Decimal, ["129.99", "-0.01", "92233720368547758.07", "0"]),
                                                              [float("inf"), -0.0, 5e-324, -1.7976931348623157e308], ["", "n/a", "it's", " x "],
                                                              [datetime.date.min, datetime.date.max, datetime.date(2000, 2, 29), datetime.date(1970, 1, 1)])]
        with prefq.Frame.from_records(records) as frame:
            rows = frame.rows()
            self.assertEqual([dict(row) for row in rows], records)
            self.assertEqual([[type(value) for value in row.values()] for row in rows], [[type(value) for value in record.values()] for record in records])

    def test_floats_keep_their_order(self):
        seed = random.Random(5)
        some = [struct.unpack("<d", seed.randbytes(8))[0] for _ in range(3000)]
        some = sorted([value for value in some if value == value] + [0.0, -0.0, 1.0, -1.0, float("inf"), float("-inf"), 5e-324, -5e-324])
        numbers = [Floats().encode(value) for value in some]
        self.assertEqual(numbers, sorted(numbers))
        self.assertEqual([Floats().decode(number) for number in numbers], some)
        self.assertEqual(len(set(numbers)), len(set(some)))
        self.assertGreater(min(numbers), LEAST)

    def test_a_file(self):
        with from_text('\ufeffHotel name,"Price (EUR)",Opened,Pool,Zip\n"a ""b"", c",57.40,2002-04-14,yes,01234\r\n\nd,n/a,,NO,90001\n') as frame:
            self.assertEqual([dict(row) for row in frame.rows()], [
                {"Hotel name": 'a "b", c', "Price (EUR)": Decimal("57.40"), "Opened": datetime.date(2002, 4, 14), "Pool": True, "Zip": "01234"},
                {"Hotel name": "d", "Price (EUR)": None, "Opened": None, "Pool": False, "Zip": "90001"}])
            with self.refuses(prefq.Refused, "column 'Zip' has texts (01234 begins with a zero), which have no order"):
                frame.best("best low(Zip)")

    def test_other_files(self):
        with from_text("name;price\na;12,50\nb;7,25\n", decimal=",") as frame:
            self.assertEqual(frame.best("best low(price)")[0], {"name": "b", "price": Decimal("7.25")})
        with from_text('name;price;note\na;12,50;"b,c"\n', decimal=",", kinds={"note": "text", "price": "decimal(2)"}) as frame:
            self.assertEqual(dict(frame.get(1)), {"name": "a", "price": Decimal("12.50"), "note": "b,c"})
        with from_text("name;price\na;12,50\nb;7,25\n") as frame, self.refuses(prefq.Refused, "'12,50' is not plain: the kind decimal(2, decimal=\",\") reads 12.50"):
            frame.best("best low(price)")
        with from_text("x\ty\n1\t2\n", columns=["y"]) as frame:
            self.assertEqual(frame.names, ["y"])
        with from_text(",x\n0,5\n") as frame:
            self.assertEqual(frame.names, ["column 1", "x"])
        with from_text("x\n1\n?\n", missing=["?"]) as frame:
            self.assertEqual([row.x for row in frame.rows()], [1, None])
        with from_text("x,y\n") as frame:
            self.assertEqual((len(frame), frame.rows()), (0, []))
        with from_text("price\n" + "5\n" * 20 + "cheap\n") as frame, self.refuses(prefq.Refused, "'cheap' is no number"):
            frame.best("best low(price)")

    def test_a_column_without_a_value_is_refused_as_that(self):
        for frame in (from_text("a,b\n,1\n,2\n"), prefq.Frame.from_records([{"a": None, "b": 1}])):
            with frame:
                for question, place in (("best low(a)", 5), ("best low(b) & around(a, 3)", 14), ("best low(b + a)", 13), ("best true(not a)", 14), ("best true(a < 'x')", 14)):
                    with self.subTest(question), self.refuses(prefq.Refused, "column 'a' has no value, from which its kind would be seen", "give it a kind", kind="term", place=place):
                        frame.best(question)
        with prefq.Frame.empty(["a"], {"a": "text"}) as frame:
            for question in ("best low(a)", "best true(a < 'x')"):
                with self.subTest(question), self.refuses(prefq.Refused, "column 'a' has the kind text, which has no order"):
                    frame.best(question)
            frame.insert(["x"])
            with self.refuses(prefq.Refused, "column 'a' has texts, which have no order"):
                frame.best("best low(a)")


class Refusals(TestCase):
    def test_files(self):
        for text, *says in [("", "the file is empty"), ("x,x\n1,2\n", "two columns are called 'x'"), ("x,y\n1,2\n1\n", "line 3: it has 1 cells"),
                            ("x,y\n1,2,3\n", "line 2: it has 3 cells"), ('x\n"5\n', "line 2")]:
            with self.subTest(text=text), self.refuses(prefq.Refused, *says, kind="table"):
                from_text(text)

    def test_numbers_that_do_not_fit_stay_texts(self):
        for text, number in [("x\n99999999999999999999.5\n", "99999999999999999999.5"), ("x\n-1\n9223372036854775808\n", "9223372036854775808")]:
            with self.subTest(text=text), from_text(text) as frame:
                self.assertEqual(frame.rows()[-1].x, number)
                with self.refuses(prefq.Refused, f"'{number}' does not fit 64 bits: the kind float rounds it", kind="term"):
                    frame.best("best low(x)")

    def test_an_encoding(self):
        import tempfile
        with tempfile.NamedTemporaryFile(suffix=".csv") as file:
            file.write("city\nKöln\n".encode("cp1252"))
            file.flush()
            with self.refuses(prefq.Refused, "is not utf-8 (byte 6)", "encoding='cp1252'"):
                prefq.Frame.from_csv(file.name)
            with prefq.Frame.from_csv(file.name, encoding="cp1252") as frame:
                self.assertEqual(frame.get(1).city, "Köln")
        with self.assertRaises(FileNotFoundError):
            prefq.Frame.from_csv("/nowhere/hotels.csv")

    def test_bytes_and_numpy(self):
        with prefq.Frame.from_csv(io.BytesIO("\ufeffcity\nKöln\n".encode())) as frame:
            self.assertEqual(frame.get(1), {"city": "Köln"})
        try:
            import numpy
        except ImportError:
            raise unittest.SkipTest("numpy is not installed")
        with prefq.Frame.from_records([{"f": numpy.float32(0.1), "w": numpy.int8(5), "b": numpy.bool_(True), "d": Decimal("0.1")}]) as frame:
            frame.insert({"f": numpy.float64(0.1), "w": numpy.uint64(7), "b": numpy.bool_(False), "d": numpy.float32(0.1)})
            self.assertEqual([tuple(row.values()) for row in frame.rows()], [(float(numpy.float32(0.1)), 5, True, Decimal("0.1")), (0.1, 7, False, Decimal("0.1"))])

    def test_columns(self):
        with self.refuses(prefq.Refused, "no column 'prise'; did you mean price?"):
            from_text("price\n1\n", columns=["prise"])
        with self.refuses(TypeError, "columns is a list of names"):
            from_text("price\n1\n", columns="price")
        with self.refuses(prefq.Refused, "there are no columns"):
            prefq.Frame.from_records([])
        with self.refuses(TypeError, "5 is no name of a column"):
            prefq.Frame.from_records([{5: 1}])
        for rows in ([[1, 2], [3]], [[1, 2], [3, 4, 5]]):
            with self.refuses(prefq.Refused, "where there are 2 columns: x, y"):
                prefq.Frame([prefq.Column("x", "whole"), prefq.Column("y", "whole")], rows)
        with prefq.Frame([prefq.Column("x", "whole"), prefq.Column("y", "text")], [[1, "a"], {"x": 2}]) as frame:
            self.assertEqual([tuple(row.values()) for row in frame.rows()], [(1, "a"), (2, None)])
        with self.refuses(TypeError, "row 2 is no mapping"):
            prefq.Frame.from_records([{"x": 1}, [1]])

    def test_too_many_columns(self):
        text = io.StringIO()
        writer = csv.writer(text)
        writer.writerow(["remarks", "name", *(f"x{place}" for place in range(16))])
        writer.writerows([[f"a{row}", f"b{row % 5}", *range(16)] for row in range(10)])
        with self.refuses(prefq.Refused, "there are 18 columns, and a table has at most 16", "leave out, say, remarks, name", number=2):
            from_text(text.getvalue())
        with from_text(text.getvalue(), columns=[f"x{place}" for place in range(16)]) as frame:
            self.assertEqual(len(frame.columns), 16)

    def test_values(self):
        with prefq.Frame.from_records([{"w": 1, "d": Decimal("1.25"), "f": 0.5, "b": True, "day": datetime.date(2026, 5, 1), "t": datetime.datetime(2026, 5, 1),
                                        "z": datetime.datetime(2026, 5, 1, tzinfo=UTC), "s": "a"}]) as frame:
            before = frame.rows()
            for record, error, says in [
                    ({"w": Fraction(1, 3)}, ValueError, "column 'w' (whole): 1/3 is no whole number"), ({"w": True}, TypeError, "column 'w' (whole): True is no number"),
                    ({"w": 2**63}, ValueError, "does not fit"), ({"w": -2**63}, ValueError, "does not fit"), ({"w": "many"}, ValueError, "'many' is no number"),
                    ({"d": 10**17}, ValueError, "does not fit"), ({"d": Decimal("0.1234567890123456789")}, ValueError, "column 'd' (decimal(2)): 0.1234567890123456789 has more than 2 decimals"),
                    ({"d": 0.1 + 0.2}, ValueError, "more than 2 decimals"), ({"d": Decimal("inf")}, ValueError, "fits"), ({"f": "x"}, ValueError, "'x' is no number"),
                    ({"f": 2**53 + 1}, ValueError, "is no 64-bit float"), ({"f": True}, TypeError, "True is no number"),
                    ({"f": Fraction(1, 3)}, ValueError, "is no 64-bit float"), ({"f": 10**400}, ValueError, "too large"), ({"f": 1j}, TypeError, "column 'f' (float)"),
                    ({"b": 1}, TypeError, "neither True nor False"),
                    ({"b": "perhaps"}, ValueError, "not true, false"), ({"day": datetime.datetime(2026, 5, 1)}, TypeError, "is no date"),
                    ({"day": "1.5.2026"}, ValueError, "is no date such as"), ({"t": datetime.date(2026, 5, 1)}, TypeError, "is no date with a time"),
                    ({"t": datetime.datetime(2026, 5, 1, tzinfo=UTC)}, ValueError, "has a time zone"), ({"z": datetime.datetime(2026, 5, 1)}, ValueError, "has no time zone"),
                    ({"t": "2026-05-01 25:00"}, ValueError, "is no date with a time"), ({"t": "2026-05-01 10:00:00.1234567"}, ValueError, "parts of a microsecond"),
                    ({"s": 5}, TypeError, "5 is no text"), ({"ww": 5}, prefq.Refused, "no column 'ww'; did you mean w?"), ([1, 2], prefq.Refused, "a row of 2 values"),
                    (5, TypeError, "a record is a mapping"), ("abc", TypeError, "a record is a mapping")]:
                with self.subTest(record=record):
                    for call in (frame.insert, lambda record: frame.update(1, record), lambda record: frame.insert_many([{"w": 3}, record])):
                        with self.refuses(error, says):
                            call(record)
            self.assertEqual(frame.rows(), before)

    def test_the_row_is_named(self):
        with self.refuses(ValueError, "row 3, column 'x' (decimal(1)): 1.25 has more than 1 decimal"):
            prefq.Frame.from_records([{"x": 1}, {"x": None}, {"x": 1.25}], kinds={"x": "decimal(1)"})
        for value, says in [("Infinity", "(decimal(1)): Infinity is no number that fits"), ("1e-19", "(decimal(18)): 1E-19 has more than 18 decimals")]:
            with self.refuses(ValueError, f"row 3, column 'x' {says}"):
                prefq.Frame.from_records([{"x": 1}, {"x": Decimal("0.5")}, {"x": Decimal(value)}])
        with self.refuses(ValueError, "line 4, column 'x' (whole): 'c' is no number"):
            from_text("x\n1\n2\nc\n", kinds={"x": "whole"})


class ValuesOfOtherTypes(TestCase):
    """Values of enumerations, of numpy and so on are the values that they equal, or are refused."""

    def test_texts_whose_str_is_another_text(self):
        class City(str, enum.Enum):
            LYON = "Lyon"
            BERN = "Bern"

        for kinds in ({}, {"city": "text"}, {"city": "choice(Bern, Lyon)"}):
            with self.subTest(kinds=kinds), prefq.Frame.from_records([{"city": City.LYON}, {"city": "Bern"}], kinds=kinds) as frame:
                frame.insert({"city": City.BERN})
                frame.insert_many([{"city": City.LYON}, {"city": "Lyon"}])
                self.assertEqual([(type(row.city), row.city) for row in frame.rows()], [(str, text) for text in ("Lyon", "Bern", "Bern", "Lyon", "Lyon")])
                self.assertEqual(frame.best(prefq.pos("city", City.LYON)).ids, [1, 4, 5])

    def test_texts_that_equal_others(self):
        """Of a class whose texts equal those of other capitals each one stays what it is."""
        class Word(str):
            def __eq__(self, other):
                return self.lower() == str.lower(other)

            def __hash__(self):
                return hash(self.lower())

        some = [Word("LYON"), "lyon", Word("Lyon"), None, Word("bern"), "Bern"]
        frames = [lambda: prefq.Frame.from_records([{"city": city} for city in some]),
                  lambda: prefq.Frame.from_records([{"city": city} for city in some], kinds={"city": "choice(LYON, Lyon, lyon, Bern, bern)"})]
        with contextlib.suppress(ImportError):
            import pandas
            frames.append(lambda: prefq.Frame.from_dataframe(pandas.DataFrame({"city": some})))
        for made in frames:
            with made() as frame:
                frame.insert({"city": Word("LyoN")} if "choice" not in str(frame.columns[0].kind) else {"city": Word("Lyon")})
                self.assertEqual([str(row.city) for row in frame.rows()][:6], ["LYON", "lyon", "Lyon", "None", "bern", "Bern"])
                self.assertIn(str(frame.get(7).city), ("LyoN", "Lyon"))
                self.assertEqual(frame.best("best pos(city, 'lyon')").ids, [2])
        with self.refuses(ValueError, "'BERN' is none of 'Bern', 'bern'"):
            Column("city", "choice(Bern, bern)").encode(Word("BERN"))

    def test_floats_that_show_fewer_digits_than_they_have(self):
        class Price(float):
            def __str__(self):
                return f"{float(self):.2f}"

        with prefq.Frame.empty(["x"], {"x": "decimal(3)"}) as frame:
            self.assertEqual(frame.get(frame.insert({"x": Price(59.999)})).x, Decimal("59.999"))
            with self.refuses(ValueError, "has more than 3 decimals"):
                frame.insert({"x": Price(59.9999)})
        with prefq.Frame.from_records([{"x": 5}]) as frame:
            self.assertEqual(frame.get(frame.insert({"x": Price(0.125)})).x, Decimal("0.125"))

    def test_floats_of_numpy_under_its_older_options(self):
        try:
            import numpy
        except ImportError:
            raise unittest.SkipTest("numpy is not installed")
        with numpy.printoptions(legacy="1.13"):
            column = Column("x", "decimal(18)")
            for value, shown in [(numpy.float64(0.1 + 0.2), "0.30000000000000004"), (numpy.float32(1) / numpy.float32(3), "0.33333334"), (numpy.float16(0.1), "0.1"), (numpy.longdouble("0.25"), "0.25"),
                                 (numpy.float32(5), "5"), (numpy.array(0.5), "0.5")]:
                self.assertEqual(column.decode(column.encode(value)), Decimal(shown))

    def test_two_values_of_one_name(self):
        database = sqlite3.connect(":memory:")
        database.row_factory = sqlite3.Row
        rows = database.execute("select 60 as price, 90 as price, 2 as dist").fetchall()
        with prefq.Frame.from_records([{"price": 1, "dist": 1}]) as frame:
            for call in (frame.insert, lambda row: frame.update(1, row), lambda row: frame.insert_many([row]), lambda row: prefq.psel([row], "low(price)"), lambda row: prefq.Frame.from_records([row])):
                with self.refuses(prefq.Refused, "two columns are called 'price'", kind="table"):
                    call(rows[0])
            self.assertEqual([dict(row) for row in frame.rows()], [{"price": 1, "dist": 1}])
        self.assertEqual(prefq.psel(database.execute("select 60 as price, 2 as dist").fetchall(), "low(price)")[0], {"price": 60, "dist": 2})
        database.close()

    def test_decimals_of_a_million_digits_are_refused_at_once(self):
        begun = time.process_time()
        with prefq.Frame.from_records([{"w": 1, "d": Decimal("0.5"), "f": 0.5}]) as frame:
            for value in map(Decimal, ["1E+1000000", "-1E+999999999", "1E-1000000", "Infinity"]):
                for name in "wd":
                    with self.subTest(value=value, column=name), self.refuses(ValueError, f"column '{name}'", f"{value} is no number that fits"):
                        frame.insert({name: value})
            for value in (Decimal(f"1.{'3' * 1_000_000}"), Decimal(f"-0.{'0' * 20}{'7' * 1_000_000}")):
                for name, says in (("w", "is no number that fits"), ("d", "is no number that fits"), ("f", "is no 64-bit float")):
                    with self.subTest(column=name), self.refuses(ValueError, f"column '{name}'", f"{str(value)[:60]}.. {says}"):
                        frame.insert({name: value})
            frame.insert({"w": Decimal("0E+1000000"), "d": Decimal("1E+4"), "f": Decimal("5E-1")})
            self.assertEqual(tuple(frame.get(2).values()), (0, 10000, 0.5))
        self.assertLess(time.process_time() - begun, 3)

    def test_what_numpy_makes_a_float_of_and_is_no_number(self):
        try:
            import numpy
        except ImportError:
            raise unittest.SkipTest("numpy is not installed")
        some = [numpy.True_, numpy.array(True), numpy.array([5.0]), numpy.array([numpy.nan]), numpy.complex128(1), numpy.ma.masked, numpy.bytes_(b"1"), numpy.timedelta64(5, "ns")]
        with prefq.Frame.from_records([{"x": 0.5}]) as frame, warnings.catch_warnings():
            warnings.simplefilter("ignore")     # numpy warns of what it makes of some of them
            for value in some:
                with self.subTest(value=repr(value)):
                    with self.refuses((TypeError, ValueError), "column 'x' (float)"):
                        frame.insert({"x": value})
                    with self.refuses((TypeError, ValueError), "row 1, column 'x' (float)"):
                        prefq.Frame.from_records([{"x": value}], kinds={"x": "float"})
            for value in (numpy.datetime64("2026-05-01"), numpy.timedelta64(5, "D"), numpy.complex128(1), numpy.bytes_(b"1")):
                with self.refuses(prefq.Refused, f"column 'x' has values of {type(value).__name__}", kind="table"):
                    prefq.Frame.from_records([{"x": value}])
            for value in (numpy.float32(0.25), numpy.int8(7), numpy.array(2.5), Fraction(3, 4), Decimal("1.5")):
                self.assertEqual(frame.get(frame.insert({"x": value})).x, value)

    def test_truths_of_numpy_2(self):
        """Their type is called bool, and some versions give them an index, as whole numbers have one."""
        truth = type("bool", (), {"__module__": "numpy", "__index__": lambda self: 1})()
        with prefq.Frame.from_records([{"x": truth}, {"x": False}]) as frame:
            self.assertEqual((str(frame.columns[0].kind), [row.x for row in frame.rows()], frame.best(prefq.pos("x", truth)).ids), ("bool", [True, False], [1]))

    def test_whole_numbers_of_numpy_that_no_float_is(self):
        """numpy compares them with a float as floats, by which each of them is one."""
        try:
            import numpy
        except ImportError:
            raise unittest.SkipTest("numpy is not installed")
        for value in (numpy.int64(2**53 + 1), numpy.int64(-2**62 - 1), numpy.uint64(2**63 + 1), numpy.array(2**53 + 1)):
            with self.subTest(value=repr(value)):
                for kinds in (None, {"x": "float"}):
                    with self.refuses(ValueError, "row 2, column 'x' (float)", f"{value} is no 64-bit float"):
                        prefq.Frame.from_records([{"x": 0.5}, {"x": value if kinds else value[()]}], kinds=kinds)
        with prefq.Frame.from_records([{"x": numpy.int64(2**53 + 2)}, {"x": 0.5}]) as frame:
            self.assertEqual(frame.get(1).x, 2**53 + 2)

    def test_whole_numbers_of_narrow_floats_of_numpy(self):
        """numpy shows 10010.0 and 123456790.0 for the first two."""
        try:
            import numpy
        except ImportError:
            raise unittest.SkipTest("numpy is not installed")
        for value, whole in ((numpy.float16(10_008), 10_008), (numpy.float32(123_456_792), 123_456_792), (numpy.array(-123_456_792, dtype="float32"), -123_456_792), (numpy.longdouble(2**62 + 1), 2**62 + 1)):
            for kind in ("whole", "decimal(0)"):
                with self.subTest(value=repr(value), kind=kind), prefq.Frame.empty(["x"], {"x": kind}) as frame:
                    self.assertEqual(frame.get(frame.insert({"x": value})).x, whole)
        for value in (numpy.float32("inf"), numpy.longdouble("-inf")):
            with self.refuses(ValueError, f"{value} is no number that fits"):
                Column("x", "whole").encode(value)

    def test_what_numpy_writes_as_digits_and_is_no_number(self):
        try:
            import numpy
        except ImportError:
            raise unittest.SkipTest("numpy is not installed")
        for kind in ("whole", "decimal(2)"):
            for value in (numpy.datetime64("2026"), numpy.array("5"), numpy.bool_(True)):
                with self.subTest(kind=kind, value=repr(value)), self.refuses(TypeError, f"column 'x' ({kind}): {value!r} is no number"):
                    Column("x", kind).encode(value)


class WholeNumbersAtOnce(TestCase):
    """Python's own whole numbers are found without a look at each."""

    def one_by_one(self, values):
        column = Column("x", kind_of_values("x", values))
        return str(column.kind), [column.encode(value) for value in values], column.has_gaps

    def at_once(self, values):
        column, numbers = column_of_values("x", values, None)
        return str(column.kind), list(numbers), column.has_gaps

    def said(self, call, values):
        try:
            return call(values)
        except (prefq.Refused, TypeError, ValueError) as why:
            return type(why)

    def test_as_one_by_one(self):
        chance = random.Random(20260501)
        some = [0, 5, -7, 2**63 - 1, 1 - 2**63]
        for others in ([None], [None] * 20, [], [True], [1.0, 2.5], ["5"], [-2**63], [2**63], [Decimal("1.5"), None]):
            for _ in range(40):
                values = chance.choices(some + others, k=chance.randrange(8))
                with self.subTest(values=values):
                    self.assertEqual(self.said(self.at_once, values), self.said(self.one_by_one, values))
