"""DataFrames of pandas: `psel`, and frames that come from them and give answers as DataFrames."""
import contextlib
import io
import time
import unittest
import unittest.mock
from decimal import Decimal

import prefq
from prefq.checks import LEAST
from prefq.pandas_frames import encoded_series
from support import TestCase

try:
    import numpy
    import pandas
except ImportError:
    pandas = None


def hotels(count, seed=3):
    draw = numpy.random.default_rng(seed)
    return pandas.DataFrame({"price eur": draw.normal(120, 40, count).round(2), "dist": draw.exponential(2.5, count), "stars": draw.choice([3, 3.5, 4, 4.5, 5], count),
                             "city": draw.choice(["Lyon", "Köln", "Bern"], count), "opened": pandas.Timestamp("1950-01-01") + pandas.to_timedelta(draw.integers(0, 27000, count), "D")})


def front(keys):
    """The places of the rows that no other row dominates, smaller values being better."""
    order = numpy.lexsort(keys.T[::-1])
    found = []
    for place in order:
        if not any((keys[other] <= keys[place]).all() and (keys[other] < keys[place]).any() for other in found):
            found.append(place)
    return sorted(found)


@unittest.skipIf(pandas is None, "pandas is not installed")
class Psel(TestCase):
    def test_60_000_rows(self):
        frame = hotels(60_000)
        seconds = []
        for _ in range(3):
            begun = time.process_time()
            found = prefq.psel(frame, "low(`price eur`) * low(dist) * high(stars)")
            seconds.append(time.process_time() - begun)
        print(f"\npsel over 60,000 rows: {min(seconds):.2f} s of a processor")
        keys = numpy.column_stack([frame["price eur"], frame["dist"], -frame["stars"]])
        self.assertEqual(list(found.index), front(keys))
        self.assertEqual(list(found.columns), [".level", *frame.columns])
        self.assertTrue(found.drop(columns=".level").equals(frame.loc[found.index]))
        self.assertLess(min(seconds), 1)

    def test_more_rows_than_a_table_holds(self):
        frame = hotels(150_000, seed=4)
        found = prefq.psel(frame, "low(`price eur`) * low(dist) * high(stars)")
        self.assertEqual(list(found.index), front(numpy.column_stack([frame["price eur"], frame["dist"], -frame["stars"]])))
        with self.refuses(prefq.Refused, "too long", kind="term", number=5):
            prefq.psel(frame, " & ".join(["low(dist)"] * 500))
        self.assertEqual(len(prefq.psel(frame, "skyline of distinct stars max, city diff")), 3)

    def test_levels_and_groups(self):
        frame = hotels(500).set_index(pandas.Index([f"row {row}" for row in range(500)], name="label"))
        found = prefq.psel(frame, "low(`price eur`) * high(stars) by city", top_level=2)
        self.assertEqual(found.index.name, "label")
        for _, group in frame.groupby("city"):
            keys = numpy.column_stack([group["price eur"], -group["stars"]])
            first = front(keys)
            rest = group.drop(index=group.index[first])
            second = front(numpy.column_stack([rest["price eur"], -rest["stars"]]))
            mine = found[found.index.isin(group.index)]
            self.assertEqual(set(mine.index[mine[".level"] == 1]), set(group.index[first]))
            self.assertEqual(set(mine.index[mine[".level"] == 2]), set(rest.index[second]))
        self.assertGreaterEqual(len(prefq.psel(frame, "low(dist)", at_least=7)), 7)
        self.assertTrue(prefq.psel(frame, "top_level 3 low(dist)").equals(prefq.psel(frame, "low(dist)", top_level=3)))

    def test_what_is_wrong(self):
        frame = hotels(10)
        with self.refuses(prefq.Refused, "no column 'price'; did you mean \"price eur\"?", kind="term", number=2, place=4):
            prefq.psel(frame, "low(price)")
        with self.refuses(prefq.Refused, "around(..) needs a scale"):
            prefq.psel(frame, "around(dist, 2)")
        with self.refuses(prefq.Refused, "do not go together"):
            prefq.psel(frame, "low(dist)", top_level=1, at_least=1)
        with self.refuses(ValueError, "top_level is 0"):
            prefq.psel(frame, "low(dist)", top_level=0)
        self.assertEqual(len(prefq.psel(frame, "around(`price eur`, 120.005)", kinds={"price eur": "decimal(2)"})), 1)
        self.assertEqual(len(prefq.psel(frame.iloc[:0], "low(dist)")), 0)

    def test_names(self):
        frame = pandas.DataFrame([[2, 1, 5], [1, 2, 5]], columns=["x", "y", "y"])
        with self.refuses(prefq.Refused, "two columns are called 'y'"):
            prefq.psel(frame, "low(y)")
        found = prefq.psel(prefq.psel(frame, "low(x)", top_level=2), "high(x)")
        self.assertEqual((list(found.columns), found.values.tolist()), ([".level", "x", "y", "y"], [[1, 2, 1, 5]]))
        self.assertEqual(len(prefq.psel(pandas.DataFrame({5: [1], "x": [1]}), "low(x)")), 1)

    def test_other_things(self):
        records = [{"x": 2, "y": 1}, {"x": 1, "y": 2}, {"x": 2, "y": 2}]
        self.assertEqual(prefq.psel(records, "low(x) * low(y)").ids, [1, 2])
        with prefq.Frame.from_records(records) as frame:
            self.assertEqual(prefq.psel(frame, "low(x) * low(y)", top_level=2).levels, [1, 1, 2])


@unittest.skipIf(pandas is None, "pandas is not installed")
class Frames(TestCase):
    def typed(self):
        """A column of each type, with gaps where the type has them."""
        frame = pandas.DataFrame({
            "int64": [3, 1, 2], "uint8": pandas.Series([3, 1, 2], dtype="uint8"), "Int64": pandas.Series([3, None, 2], dtype="Int64"),
            "float64": [0.1, float("nan"), float("inf")], "float32": pandas.Series([0.1, 2, None], dtype="float32"), "Float64": pandas.Series([0.5, None, 1], dtype="Float64"),
            "bool": [True, False, True], "boolean": pandas.Series([True, None, False], dtype="boolean"), "object": ["Lyon", None, "Bern"],
            "string": pandas.Series(["a", None, "b"], dtype="string"), "category": pandas.Series(["b", "a", None], dtype="category"),
            "size": pandas.Categorical(["M", "S", "M"], categories=["S", "M", "L"], ordered=True),
            "time": pandas.to_datetime(["2026-05-01 10:00:00.123456789", None, "1999-12-31"]),
            "zone": pandas.to_datetime(["2026-10-25 02:30", None, "2026-10-25 03:30"]).tz_localize("UTC").tz_convert("Europe/Berlin"),
            "Int8": pandas.Series([1, 2, 3], dtype="Int8"), "numbers": pandas.Series([1, 2, 1], dtype="category")})
        frame.index = pandas.Index([10, 20, 30], name="key")
        return frame

    def test_the_same_types_and_index(self):
        frame = self.typed()
        with prefq.Frame.from_dataframe(frame) as opened:
            found = opened.best("top_level 9 low(int64)").to_dataframe()
            self.assertEqual(list(found[".level"]), [1, 2, 3])
            again = found.drop(columns=".level").loc[[10, 20, 30]]
            pandas.testing.assert_frame_equal(again, frame, check_names=True)

    def test_the_level_of_an_earlier_answer_is_no_level_of_this_one(self):
        before = prefq.psel(pandas.DataFrame({"x": [2, 1], "y": [1, 2]}), "top_level 2 low(x)")
        with prefq.Frame.from_dataframe(before) as opened:
            found = opened.best("top_level 2 low(y)").to_dataframe()
            self.assertEqual((list(found.columns), found.values.tolist()), ([".level", "x", "y"], [[1, 2, 1], [2, 1, 2]]))

    def test_what_has_no_column_that_a_question_could_name(self):
        for frame in (pandas.DataFrame([[1, 2]]), pandas.DataFrame()):
            with self.refuses(prefq.Refused, "no column 'x'; there is none whose name is a text"):
                prefq.psel(frame, "low(x)")

    def test_times_of_other_units_that_nanoseconds_do_not_reach(self):
        def of_seconds(*texts):
            values = numpy.array(texts, dtype="datetime64[s]")
            with contextlib.suppress(ValueError):       # pandas before 2
                if pandas.Series(values).dtype == values.dtype:
                    return pandas.Series(values)
            return pandas.Series(pandas.arrays.DatetimeArray._simple_new(values, dtype=values.dtype))

        _, numbers = encoded_series(of_seconds("2024-01-01", "NaT", "1677-09-22", "2262-04-11"), "t")
        self.assertEqual(numbers, [1_704_067_200 * 10**9, LEAST, -9_223_286_400 * 10**9, 9_223_286_400 * 10**9])
        for text in ("3000-01-01", "9999-12-31", "1677-09-21", "0001-01-01"):
            with self.subTest(text), self.refuses(prefq.Refused, f"row 2, column 't' has {text}T00:00:00, outside the years 1677 to 2262", kind="table"):
                encoded_series(of_seconds("2024-01-01", text), "t")

    def test_long_floats_that_are_no_floats(self):
        wide = numpy.array([0.5, 1, numpy.nan, 3], dtype="longdouble")
        for values in (wide, pandas.arrays.SparseArray(wide.astype("float64"))):
            self.assertEqual(list(prefq.psel(pandas.DataFrame({"x": values}), "low(x)").index), [0])
        with self.refuses(prefq.Refused, "row 4, column 'x' has", "which is no 64-bit float"):
            prefq.psel(pandas.DataFrame({"x": wide / [1, 1, 1, 7]}), "low(x)")

    def test_the_names_of_the_levels_of_an_index_stay_where_rows_come_later(self):
        """They were lost, and the labels were tuples and ids."""
        index = pandas.MultiIndex.from_tuples([("Lyon", 1), ("Bern", 2)], names=["city", "number"])
        with prefq.Frame.from_dataframe(pandas.DataFrame({"x": [5, 6]}, index=index)) as frame:
            frame.insert({"x": 4})
            for question, labels in [("best low(x)", [(3, 3)]), ("top_level 3 low(x)", [(3, 3), ("Lyon", 1), ("Bern", 2)]), ("best high(x)", [("Bern", 2)])]:
                found = frame.best(question).to_dataframe().index
                self.assertEqual((list(found.names), list(found)), (["city", "number"], labels))
        with prefq.Frame.from_dataframe(pandas.DataFrame({"x": [5]}, index=pandas.Index(["a"], name="key"))) as frame:
            frame.insert({"x": 5})
            found = frame.best("best low(x)").to_dataframe().index
            self.assertEqual((list(found.names), list(found)), (["key"], ["a", 2]))

    def test_narrow_floats_as_decimals(self):
        """They are the numbers that they show, as they are in a record. That of 64 bits for 0.1 of 32 is shown as 0.10000000149011612."""
        for dtype in ("float16", "float32", "Float32", "float64"):
            values = pandas.DataFrame({"x": pandas.Series([0.1, None, 59.5], dtype=dtype)})
            with self.subTest(dtype=dtype), prefq.Frame.from_dataframe(values, kinds={"x": "decimal(1)"}) as opened:
                self.assertEqual([row.x for row in opened.rows()], [Decimal("0.1"), None, Decimal("59.5")])
        with self.refuses(ValueError, "row 1, column 'x' (decimal(1)): 0.15 has more than 1 decimal"):
            prefq.Frame.from_dataframe(pandas.DataFrame({"x": pandas.Series([0.15], dtype="float32")}), kinds={"x": "decimal(1)"})

    def test_narrow_floats_of_pandas_own_type_as_decimals(self):
        """Later versions of pandas make Python's floats of them, of 64 bits, which have more digits."""
        def tolist(series):
            return [value if pandas.isna(value) else float(value) for value in series.array]

        with unittest.mock.patch.object(pandas.Series, "tolist", tolist):
            for dtype in ("Float32", "float32"):
                frame = prefq.Frame.from_dataframe(pandas.DataFrame({"x": pandas.Series([0.1, None, 2.5, 16777216], dtype=dtype)}), kinds={"x": "decimal(1)"})
                self.assertEqual([row.x for row in frame.rows()], [Decimal("0.1"), None, Decimal("2.5"), 16777216])

    def test_times_that_pandas_has_and_cannot_show_in_their_zone(self):
        """Taken, they kept each call from its rows."""
        last = pandas.Timestamp.max.tz_localize("UTC")
        with prefq.Frame.from_dataframe(pandas.DataFrame({"at": pandas.to_datetime(["2026-05-01"]).tz_localize("Europe/Berlin")})) as opened:
            for value in (last, str(last)):
                with self.refuses(ValueError, f"column 'at' (time(Europe/Berlin)): {value} lies outside the years 1677 to 2262 in the time zone of the column"):
                    opened.insert({"at": value})
            self.assertEqual(opened.get(opened.insert({"at": last - pandas.Timedelta("1D")})).at, last - pandas.Timedelta("1D"))
        dataframe = pandas.DataFrame({"at": pandas.DatetimeIndex([last - pandas.Timedelta("9D"), last])})
        with self.refuses(prefq.Refused, "row 2, column 'at'", "lies outside the years 1677 to 2262 in the time zone of the column", kind="table"):
            prefq.Frame.from_dataframe(pandas.DataFrame({"at": dataframe["at"].dt.tz_convert("Europe/Berlin")}))
        with prefq.Frame.from_dataframe(dataframe) as opened:
            self.assertEqual([row.at for row in opened.rows()], list(dataframe["at"]))

    def test_decimals_that_no_float_shows_stay_decimals(self):
        for texts, dtype in ((("1.50", "2.25"), "float64"), (("123456789012345.67", "123456789012345.68"), "object"), (("9007199254740993.01", "1.00"), "object")):
            values = list(map(Decimal, texts))
            with self.subTest(texts), prefq.Frame.from_records([{"x": value} for value in (*values, None)]) as opened:
                found = opened.best("top_level 3 low(x)").to_dataframe().x
                self.assertEqual((found.dtype, sorted(Decimal(str(value)) for value in found.dropna())), (dtype, sorted(values)))

    def test_a_category_that_its_kind_does_not_have_is_refused_with_its_column(self):
        sizes = pandas.Categorical.from_codes([0, 1], pandas.to_datetime(["2024-01-01 00:00:00.000000001", "2024-01-02"]), ordered=True)
        with self.refuses(prefq.Refused, "column 'x' has a category that its kind, time, does not have", "has parts of a microsecond", kind="table"):
            prefq.psel(pandas.DataFrame({"x": sizes}), "low(x)")

    def test_numbers_in_another_order_of_bytes(self):
        """pandas takes no rows of such a DataFrame, as files of other machines give it: psel and parts raised what it raises."""
        for order in "<>":
            frame = pandas.DataFrame({"city": list("aab"), **{name: pandas.Series(numpy.array([3, 1, 2], dtype=order + name)) for name in ("i8", "u2", "f4", "f8")}})
            for found in (prefq.psel(frame, "low(i8) by city"), prefq.psel(frame.groupby("city"), "low(f8)"), prefq.psel(frame, "low(u2) & low(f4) by city"),
                          prefq.parts.best([frame[:2], frame[2:]], "best low(f8) by city").to_dataframe(), prefq.Frame.from_dataframe(frame).best("best low(f8) by city").to_dataframe()):
                with self.subTest(order=order):
                    self.assertEqual(found.drop(columns=".level").values.tolist(), [["a", 1, 1, 1, 1], ["b", 2, 2, 2, 2]])

    def test_sparse_columns(self):
        values = {"whole": [1, 0, 0], "truth": [True, False, False], "float": [0.5, float("nan"), 0.0]}
        dataframe = pandas.DataFrame({name: pandas.arrays.SparseArray(some) for name, some in values.items()})
        with prefq.Frame.from_dataframe(dataframe) as opened:
            self.assertEqual([str(column.kind) for column in opened.columns], ["whole", "bool", "float"])
            pandas.testing.assert_frame_equal(opened.best("top_level 9 high(whole)").to_dataframe().drop(columns=".level"), dataframe)
        for name, labels in (("whole", [1, 2]), ("truth", [1, 2]), ("float", [2])):
            self.assertEqual(list(prefq.psel(dataframe, f"low({name})").index), labels)

    def test_a_dataframe_is_no_list_of_rows(self):
        """It is gone through by the names of its columns, which may be pairs."""
        numbers = pandas.DataFrame([[1, 2]], columns=pandas.MultiIndex.from_tuples([(10, 20), (30, 40)]))
        texts = pandas.DataFrame([["a", "b"]], columns=pandas.MultiIndex.from_tuples([("p", "q"), ("r", "s")]))
        columns = [prefq.Column("p", "text"), prefq.Column("q", "text")]
        with prefq.Table(["p", "q"]) as table, prefq.Frame(columns) as frame:
            for call in (lambda: prefq.Table(["p", "q"], numbers), lambda: table.insert_many(numbers), lambda: prefq.Frame(columns, texts),
                         lambda: prefq.parts.best([prefq.parts.Partition(["p", "q"], numbers)], "best low(p)")):
                with self.refuses(TypeError, "rows is of type DataFrame: not a list of rows"):
                    call()
            with self.refuses(TypeError, "records is of type DataFrame: not a list of records"):
                frame.insert_many(texts)
            self.assertEqual((len(table), len(frame)), (0, 0))

    def test_two_columns_of_one_name(self):
        """They are refused where one of them is taken."""
        twice = pandas.DataFrame([[1, 2, 3]], columns=["x", "y", "y"])
        for columns in (None, ["y"], ["x", "y"]):
            with self.subTest(columns=columns), self.refuses(prefq.Refused, "two columns are called 'y'", kind="table"):
                prefq.Frame.from_dataframe(twice, columns=columns)
        with prefq.Frame.from_dataframe(twice, columns=["x"]) as frame:
            self.assertEqual([dict(row) for row in frame.rows()], [{"x": 1}])

    def test_records_are_no_dataframe(self):
        with self.refuses(TypeError, "records is of type DataFrame: not a list of records (from_dataframe takes a DataFrame)"):
            prefq.Frame.from_records(pandas.DataFrame({"x": [1]}))

    def test_questions(self):
        with prefq.Frame.from_dataframe(self.typed()) as opened:
            for question, labels in [("best low(size)", [20]), ("best high(size) & low(int64)", [30]), ("best low(time)", [30]), ("best high(time)", [10]),
                                     ("best around(time, '2026-05-01')", [10]), ("best around(zone, '2026-10-25 03:10Z')", [30]), ("best low(zone)", [10]), ("best low(float64)", [10]),
                                     ("best high(float64)", [30]), ("best pos(float32, 2)", [20]), ("best low(Int64)", [30]), ("best high(boolean)", [10]),
                                     ("best pos(category, 'a')", [20]), ("best pos(string, 'b')", [30]), ("best low(numbers) & high(int64)", [10]), ("best low(Float64)", [10])]:
                with self.subTest(question=question):
                    self.assertEqual(list(opened.best(question).to_dataframe().index), labels)

    def test_rows_that_come_later(self):
        with prefq.Frame.from_dataframe(self.typed()[["int64", "float64", "time"]]) as opened:
            id = opened.insert({"int64": 0, "float64": numpy.float64(0.25), "time": pandas.Timestamp("2026-05-01")})
            opened.insert({"int64": numpy.int64(0), "float64": 0.25, "time": "2026-05-01"})
            found = opened.best("best low(int64)").to_dataframe()
            self.assertEqual((id, list(found.index), list(found["time"])), (4, [4, 5], [pandas.Timestamp("2026-05-01")] * 2))
            self.assertEqual([str(dtype) for dtype in found.dtypes], ["int64", "int64", "float64", "datetime64[ns]"])

    def test_a_type_that_does_not_have_a_later_value(self):
        frame = pandas.DataFrame({"small": pandas.Series([1, 2], dtype="int8"), "kind": pandas.Series(["a", "b"], dtype="category"), "x": pandas.Series([1, 2], dtype="int64"),
                                  "f": pandas.Series([0.5, 1], dtype="float32")})
        with prefq.Frame.from_dataframe(frame) as opened:
            opened.insert({"small": 300, "kind": "c", "x": None, "f": 0.1})
            found = opened.best("top_level 9 low(small)").to_dataframe()
        self.assertEqual([str(dtype) for dtype in found.dtypes], ["int64", "int64", "object", "Int64", "float64"])
        self.assertEqual((list(found["small"]), list(found["kind"]), found["x"].isna().tolist(), list(found["f"])), ([1, 2, 300], ["a", "b", "c"], [False, False, True], [0.5, 1, 0.1]))

    def test_a_missing_truth_is_not_false(self):
        truths = pandas.Series([True, False])
        for values in (truths, truths.astype(pandas.SparseDtype(bool, False))):
            with self.subTest(values.dtype), prefq.Frame.from_dataframe(pandas.DataFrame({"n": [1, 2], "x": values})) as opened:
                self.assertEqual(opened.best("top_level 9 low(n)").to_dataframe().x.dtype, values.dtype)
                opened.insert({"n": 3})
                found = opened.best("top_level 9 low(n)").to_dataframe().x
                self.assertEqual((str(found.dtype), found.isna().tolist(), found.tolist()[:2]), ("boolean", [False, False, True], [True, False]))

    def test_whole_numbers_that_have_become_decimals(self):
        for dtype in ("Int64", "UInt8", "int16", "Float32", "object"):
            with self.subTest(dtype), prefq.Frame.from_dataframe(pandas.DataFrame({"x": pandas.Series([1, 2], dtype=dtype), "y": [1, 2]}), kinds={"x": "decimal(1)"}) as opened:
                whole = opened.best("best low(y)").to_dataframe()
                opened.insert({"x": "2.5", "y": 3})
                found = opened.best("top_level 9 low(y)").to_dataframe()
                self.assertEqual((str(whole.x.dtype), list(whole.x), list(found.x)), (dtype, [1], [1, 2, 2.5]))

    def test_nanoseconds(self):
        stamp = pandas.Timestamp("2026-05-01 10:00:00.123456789")
        with prefq.Frame.from_dataframe(pandas.DataFrame({"time": [stamp]})) as opened:
            self.assertEqual(opened.get(1).time, stamp)
        with self.refuses(ValueError, "parts of a microsecond"):
            prefq.Frame.from_records([{"time": stamp}])

    def test_of_a_file(self):
        text = "price,stars,day,time,ok,name\n5.25,3,2026-05-01,2026-05-01 10:00,yes,a\n4.25,,,,,\n"
        with prefq.Frame.from_csv(io.StringIO(text)) as frame:
            found = frame.best("top_level 2 low(price)").to_dataframe()
        self.assertEqual([str(dtype) for dtype in found.dtypes], ["int64", "float64", "Int64", "datetime64[ns]", "datetime64[ns]", "boolean", "object"])
        self.assertEqual((list(found.index), found.index.name), ([2, 1], "id"))

    def test_what_is_wrong(self):
        for some, dtype in (([0, 2**64 - 1], "uint64"), ([None, 2**63], "UInt64"), ([LEAST + 1, LEAST], "int64")):
            with self.refuses(ValueError, f"row 2, column 'x' (whole): {some[1]} does not fit: a column has whole numbers from {LEAST + 1} to"):
                prefq.Frame.from_dataframe(pandas.DataFrame({"x": pandas.Series(some, dtype=dtype)}))
        for frame, says in [(pandas.DataFrame({"x": [[1]]}), "row 1, column 'x' has values of list, as [1]"), (pandas.DataFrame({"x": pandas.to_timedelta([1], "D")}), "column 'x' has values of"),
                            (pandas.DataFrame({"x": [1, "a"]}), "row 2, column 'x' has values of int and str, as 'a'"), (pandas.DataFrame(index=[1]), "there are no columns")]:
            with self.subTest(says=says), self.refuses(prefq.Refused, says, kind="table"):
                prefq.Frame.from_dataframe(frame)
        for other in ([{"x": 1}], "hotels.csv", None):
            with self.refuses(TypeError, f"dataframe is of type {type(other).__name__}: not a DataFrame of pandas"):
                prefq.Frame.from_dataframe(other)
        with self.refuses(TypeError, "5 is no name of a column"):
            prefq.Frame.from_dataframe(pandas.DataFrame({5: [1]}))
        with self.refuses(prefq.Refused, "two columns are called 'x'"):
            prefq.Frame.from_dataframe(pandas.DataFrame([[1, 2]], columns=["x", "x"]))
