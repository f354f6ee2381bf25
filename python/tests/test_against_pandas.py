"""Questions as a data person asks them of DataFrames of every type, each against what pandas itself says of the same rows; and what is refused, with its column."""
import datetime
import unittest
from decimal import Decimal

import prefq
from support import TestCase
from test_pandas import pandas

if pandas is not None:
    import numpy


def dominated_by_none(frame, **ways):
    """The labels of the rows that no other row dominates, by the ranks that pandas gives; a missing value is the last."""
    ranks = numpy.column_stack([frame[name].rank(method="dense", ascending=way == "low").fillna(10**9).to_numpy() for name, way in ways.items()])
    return [label for label, row in zip(frame.index, ranks) if not any((other <= row).all() and (other < row).any() for other in ranks)]


@unittest.skipIf(pandas is None, "pandas is not installed")
class AgainstPandas(TestCase):
    def of_every_type(self, draw, count):
        return pandas.DataFrame({
            "whole": draw.integers(-5, 5, count), "float": numpy.where(draw.random(count) < 0.2, numpy.nan, draw.integers(-4, 4, count) / 4), "bool": draw.random(count) < 0.5,
            "date": pandas.to_datetime(draw.integers(0, 5, count), unit="D"), "size": pandas.Categorical.from_codes(draw.integers(-1, 3, count), ["S", "M", "L"], ordered=True),
            "gaps": pandas.array([None if value > 3 else int(value) for value in draw.integers(0, 5, count)], dtype="Int64")})

    def test_products_of_columns_of_every_type(self):
        for seed in range(30):
            draw = numpy.random.default_rng(seed)
            frame = self.of_every_type(draw, int(draw.integers(1, 60)))
            ways = {name: draw.choice(["low", "high"]) for name in draw.choice(list(frame), 3, replace=False)}
            codes = frame.assign(size=frame["size"].cat.codes.where(frame["size"].cat.codes >= 0).astype(float))
            with self.subTest(seed):
                self.assertEqual(list(prefq.psel(frame, " * ".join(f"{way}({name})" for name, way in ways.items())).index), dominated_by_none(codes, **ways))

    def test_levels_by_peeling(self):
        for seed in range(5):
            draw = numpy.random.default_rng(seed)
            frame = pandas.DataFrame({"a": draw.integers(0, 15, 80), "b": draw.integers(0, 15, 80)})
            left, levels = frame, {}
            while len(left):
                front = dominated_by_none(left, a="low", b="low")
                levels.update(dict.fromkeys(front, 1 + max(levels.values(), default=0)))
                left = left.drop(front)
            found = prefq.psel(frame, "low(a) * low(b)", top_level=1000)
            self.assertEqual(dict(zip(found.index, found[".level"])), levels)

    def test_first_rows_groups_and_conditions(self):
        draw = numpy.random.default_rng(5)
        frame = pandas.DataFrame({"k": draw.choice(["a", "b", None], 300), "x": draw.permutation(300), "y": numpy.where(draw.random(300) < 0.2, numpy.nan, draw.normal(size=300))})
        self.assertEqual(list(prefq.psel(frame, "high(x)", top=10).index), list(frame.nlargest(10, "x").index))
        by_group = frame.groupby("k", dropna=False)
        self.assertEqual(sorted(prefq.psel(frame, "low(x)", by="k", top=3).index), sorted(label for _, group in by_group for label in group.nsmallest(3, "x").index))
        self.assertEqual(sorted(prefq.psel(frame.groupby("k"), "low(x)").index), sorted(frame.groupby("k").x.idxmin()))
        for condition, query in [("x > 50 and k = 'a'", "x > 50 and k == 'a'"), ("y < 0 or x = 3", "y < 0 or x == 3"), ("k in ('a', 'b') and y is not missing", "k in ['a', 'b'] and y == y")]:
            self.assertEqual(sorted(prefq.psel(frame, "low(x)", where=condition, top_level=1000).index), sorted(frame.query(query).index))

    def test_what_is_computed(self):
        draw = numpy.random.default_rng(6)
        frame = pandas.DataFrame({"x": draw.integers(1, 100, 300), "y": draw.integers(1, 100, 300)})
        for text, values in [("x * y", frame.x * frame.y), ("x - 2 * y", frame.x - 2 * frame.y), ("abs(x - y)", (frame.x - frame.y).abs()), ("min(x, y)", frame.min(axis=1))]:
            with self.subTest(text):
                self.assertEqual(list(prefq.psel(frame, f"low({text})").index), list(frame.index[values == values.min()]))

    def test_moments(self):
        days = pandas.DataFrame({"day": pandas.to_datetime(["2024-02-29", None, "2024-03-02", "2024-02-20"])})
        distances = (days.day - pandas.Timestamp("2024-03-01")).abs()
        self.assertEqual(list(prefq.psel(days, "around(day, '2024-03-01')").index), list(days.index[distances == distances.min()]))
        zoned = pandas.DataFrame({"at": pandas.to_datetime(["2024-03-31 00:30", "2024-03-31 03:30"]).tz_localize("Europe/Berlin")})
        found = prefq.psel(zoned, "low(at)", where="at > '2024-03-31T00:00:00+00:00'")
        self.assertEqual((list(found.index), found["at"].dtype), (list(zoned.index[zoned["at"] > pandas.Timestamp("2024-03-31", tz="UTC")]), zoned["at"].dtype))

    def test_odd_labels_and_names(self):
        rows = pandas.DataFrame({"a": [2, 1, 1, 0]}, index=[numpy.nan, "k", "k", numpy.nan])
        self.assertEqual(prefq.psel(rows, "top_level 2 low(a)").a.tolist(), [0, 1, 1])
        several = pandas.DataFrame({"a": [2, 1, 1]}, index=pandas.MultiIndex.from_tuples([("x", 1), ("x", 2), ("y", 1)], names=["k", "n"]))
        self.assertEqual(list(prefq.psel(several, "low(a)").index), [("x", 2), ("y", 1)])
        twice = pandas.DataFrame([[1, 2, 3], [2, 1, 0]], columns=["a", "a", "b"])
        self.assertEqual(list(prefq.psel(twice, "low(b)").index), [1])
        with self.refuses(prefq.Refused, "two columns are called 'a'"):
            prefq.psel(twice, "low(a)")

    def test_what_is_not_understood_is_refused_with_its_column(self):
        for values in (pandas.to_timedelta(["1 day", "2 hours"]), pandas.period_range("2024-01", periods=2, freq="M"), pandas.interval_range(0, 2), [1j, 2], [1, "2"], [True, 2], [10**30, 1], [b"x", b"y"],
                       [[1], [2]], [Decimal("1.5"), 2.5], [Decimal("Infinity"), Decimal(1)], [datetime.datetime(2024, 1, 1, tzinfo=datetime.timezone.utc), datetime.datetime(2024, 1, 1)],
                       numpy.array([2**63, 1], dtype="uint64"), [-2**63, 0]):
            frame = pandas.DataFrame({"a": pandas.Series(values, dtype=None if hasattr(values, "dtype") else object), "b": [2, 1]})
            with self.subTest(values=str(values)), self.refuses((prefq.Refused, ValueError, TypeError), "'a'"):
                prefq.psel(frame, "low(a)")
            # Where nobody asks for it, it is as it was.
            self.assertEqual(prefq.psel(frame, "low(b)").a.tolist(), frame.a.tolist()[1:])


if __name__ == "__main__":
    unittest.main()
