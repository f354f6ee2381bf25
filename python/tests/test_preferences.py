"""Preferences as values: their text is what is asked, and reads as they were made."""
import datetime
import os
import random
import unittest
import warnings
import zoneinfo
from decimal import Decimal
from fractions import Fraction

import plain
import prefq
import random_frames
from prefq import around, between, empty, expr, high, layered, low, pos, reverse, true
from support import TestCase

try:
    import pandas
except ImportError:
    pandas = None

COUNT = int(os.environ.get("PREFQ_TEST_COUNT", 1000)) // 10
SEED = int(os.environ.get("PREFQ_TEST_SEED", 20260501))
x, y, z = low("x"), high("y"), pos("z", 1)
TEXTS = [
    (x, "low(x)"), (low("Price (EUR)"), 'low("Price (EUR)")'), (low('say "x"'), 'low("say ""x""")'), (x * y * z, "low(x) * high(y) * pos(z, 1)"),
    (x & y * z, "low(x) & high(y) * pos(z, 1)"), ((x & y) * z, "(low(x) & high(y)) * pos(z, 1)"), (x * (y & z), "low(x) * (high(y) & pos(z, 1))"),
    (x * (y * z), "low(x) * high(y) * pos(z, 1)"), (-x, "-low(x)"), (--x, "--low(x)"), (-(x * y), "-(low(x) * high(y))"), (-x * y, "-low(x) * high(y)"),
    (reverse(x & y), "-(low(x) & high(y))"), (x | y & z, "low(x) | high(y) & pos(z, 1)"), ((x | y) & z, "(low(x) | high(y)) & pos(z, 1)"),
    (x.by("City"), "low(x) by City"), ((x & y).by("City", "a b"), 'low(x) & high(y) by City, "a b"'),
    (around("x", 5), "around(x, 5)"), (around("x", -5), "around(x, -5)"), (between("x", 0.5, Decimal("1.50")), "between(x, 0.5, 1.50)"),
    (around("x", Fraction(1, 8)), "around(x, 0.125)"), (around("x", Fraction(-10**40 - 1, 2)), f"around(x, -5{'0' * 39}.5)"), (around("x", Decimal("1e3")), "around(x, 1000)"),
    (pos("x", float("inf")), "pos(x, 'inf')"), (pos("x", True, False), "pos(x, true, false)"), (pos("x", "it's"), "pos(x, 'it''s')"),
    (around("x", datetime.date(2026, 5, 1)), "around(x, '2026-05-01')"), (around("x", datetime.datetime(2026, 5, 1, 17, 30)), "around(x, '2026-05-01 17:30:00')"),
    (around("x", datetime.time(17, 30)), "around(x, '17:30:00')"), (layered("x", ["a", "b"], ["c"]), "layered(x, {'a', 'b'}, {'c'})"),
    (low(expr("x / y")), "low(x / y)"), (true("x > 5"), "true(x > 5)"), (true(expr("x > 5")), "true(x > 5)"),
    (empty(), "empty()"), (empty() * x, "low(x)"), (x & empty(), "low(x)"), (empty() * empty(), "empty()"), (empty() | x, "low(x)"), (-empty(), "empty()"), (-empty() & x, "low(x)"),
]


class Values(TestCase):
    def test_texts(self):
        for preference, text in TEXTS:
            with self.subTest(text):
                self.assertEqual((str(preference), repr(preference)), (text, text))

    def test_how_many_base_terms_there_are(self):
        for preference, length in [(x, 1), (x * y * z, 3), (-(x & y), 2), (x | y & z, 3), ((x * x).by("c"), 2), (empty(), 0), (empty() * x, 1), (low(expr("x + y / z")), 1), (-empty(), 0)]:
            with self.subTest(str(preference)):
                self.assertEqual(len(preference), length)

    def test_what_a_preference_is(self):
        for preference, is_base, is_empty in [(x, True, False), (true("x > 5"), True, False), (empty(), False, True), (-empty(), False, True), (-x, False, False), (x * y, False, False), (empty() * x, True, False)]:
            with self.subTest(str(preference)):
                self.assertEqual((preference.is_base, preference.is_empty, isinstance(preference, prefq.Preference)), (is_base, is_empty, True))
        self.assertEqual(((x & y).by("c").question, empty().question), ("best low(x) & high(y) by c", "best empty()"))

    def test_equal_where_the_texts_are(self):
        self.assertEqual(low("x") * low("y"), low("x") * low("y"))
        self.assertNotEqual(low("x") * low("y"), low("y") * low("x"))
        self.assertNotEqual(low("x"), "low(x)")
        self.assertEqual(len({low("x"), low("x"), high("x")}), 2)

    def test_what_is_refused(self):
        for make, says in [(lambda: low(5), "low(..) takes the name of a column, or expr(..), and not 5"), (lambda: pos("x"), "pos(..) takes at least one value"),
                           (lambda: layered("x", "abc"), "layered(..) takes a list of values for each layer"),
                           (lambda: layered("x", [4, 6], 8), "layered(..) takes a list of values for each layer"), (lambda: layered("x", b"8"), "layered(..) takes a list of values"),
                           (lambda: layered("x", bytearray(b"8")), "layered(..) takes a list of values"),
                           (lambda: layered("x", []), "a layer has at least one value"),
                           (lambda: low("x") * 5, "* stands between two preferences, and 5 is of type int"), (lambda: low("x") & "y", "& stands between two preferences"),
                           (lambda: empty() | 5, "| stands between two preferences"), (lambda: low("x") + low("y"), "there is no +, rPref's disjoint union"),
                           (lambda: pos("x", None), "None, of type NoneType, is no value of a question"), (lambda: low("x").by(), "by(..) takes names of columns, not nothing"),
                           (lambda: low("x").by(3), "by(..) takes names of columns, not 3"), (lambda: expr(3), "an expression is a text, not 3")]:
            with self.subTest(says), self.refuses(TypeError, says):
                make()
        for make, says in [(lambda: -low("x").by("c"), "low(x) by c has groups"), (lambda: low("y") * low("x").by("c"), "write by(..) last"),
                           (lambda: around("x", float("nan")), "nan is no value"), (lambda: around("x", Decimal("nan")), "NaN is no number"),
                           (lambda: around("x", Fraction(1, 3)), "1/3 has more than 18 decimals")]:
            with self.subTest(says), self.refuses(ValueError, says):
                make()

    def test_and_of_python_is_refused(self):
        """It would take the second of two preferences, and `or` the first, and nothing would be said of the other."""
        for make in (lambda: low("x") and low("y"), lambda: low("x") or low("y"), lambda: empty() and low("y"), lambda: not low("x")):
            with self.refuses(TypeError, "a preference is neither true nor false: in place of and write * where both count at once, & where the first decides"):
                make()

    def test_a_time_that_the_clocks_of_its_zone_skip_is_refused(self):
        """It would be asked for as another one, an hour later."""
        skipped = datetime.datetime(2026, 3, 29, 2, 30, tzinfo=zoneinfo.ZoneInfo("Europe/Berlin"))
        for make in (lambda: around("at", skipped), lambda: pos("at", skipped), lambda: layered("at", [skipped])):
            with self.refuses(ValueError, "is no moment: the clocks of Europe/Berlin skip this time"):
                make()
        self.assertEqual(str(pos("at", skipped.replace(hour=3))), "pos(at, '2026-03-29 03:30:00+02:00')")
        self.assertEqual(str(pos("at", skipped.replace(tzinfo=None))), "pos(at, '2026-03-29 02:30:00')")

    @unittest.skipIf(pandas is None, "pandas is not installed")
    def test_a_missing_time_is_refused(self):
        """A column of texts would have been asked for the text NaT."""
        with self.refuses(ValueError, "NaT is no value: a missing value cannot be preferred"):
            pos("x", pandas.NaT)

    def test_a_number_of_more_digits_than_can_be_read_is_refused(self):
        """Its text would take all memory."""
        for text in ("1e999999999", "-1e999999999", "1e-999999999"):
            with self.refuses(ValueError, "is no number of a question"):
                around("x", Decimal(text))

    def test_asked(self):
        records = [{"c": "a", "x": 1, "y": 1}, {"c": "a", "x": 2, "y": 3}, {"c": "b", "x": 3, "y": 2}, {"c": "b", "x": 3, "y": 1}]
        with prefq.Frame.from_records(records) as frame:
            self.assertEqual(frame.best(x * y).ids, [1, 2])
            self.assertEqual(frame.best(x * y).question, "best low(x) * high(y)")
            self.assertEqual(frame.best((x & y).by("c")).ids, [1, 3])
            self.assertEqual(frame.best(f"top_level 2 {x}").ids, [1, 2])
            self.assertEqual(frame.why(4, x * y).ids, [1, 2, 3])
            self.assertEqual(prefq.psel(frame, x * y, top_level=2).ids, [1, 2, 3])


def built(term, chance):
    """The preference of a random term, by values."""
    if isinstance(term, (plain.Pareto, plain.Prior)):
        parts = [built(part, chance) for part in term.parts]
        whole = parts[0]
        for part in parts[1:]:
            whole = whole * part if isinstance(term, plain.Pareto) else whole & part
        return whole
    if isinstance(term, plain.Converse):
        return chance.choice([reverse, lambda part: -part])(built(term.part, chance))
    if isinstance(term, plain.Layered):
        return pos(term.name, *term.sets[0]) if term.text.startswith("pos") else layered(term.name, *term.sets)
    if isinstance(term, plain.Between):
        return around(term.name, term.first) if term.text.startswith("around") else between(term.name, term.first, term.last)
    return (high if isinstance(term, plain.High) else low)(term.name)


class Random(TestCase):
    def test_as_the_text(self):
        """What values make is read as the text that was written by hand: both have the same answer."""
        with warnings.catch_warnings():
            warnings.simplefilter("ignore", prefq.UnknownValue)
            for number in range(COUNT // 5):
                chance = random.Random(SEED + number)
                columns, records = random_frames.frame(chance)
                given = {name: kind.spelling for name, kind in columns.items() if kind.is_given}
                rows = dict(enumerate(records, 1))
                with self.subTest(frame=number), prefq.Frame.from_records(records, kinds=given) as frame:
                    for _ in range(5):
                        term = random_frames.Questions(chance, columns).term(3)
                        preference = built(term, chance)
                        answer = frame.best(preference)
                        self.assertEqual(list(zip(answer.levels, answer.ids)), plain.Ask("", term, levels=1).answer(rows), (str(preference), term.text))


if __name__ == "__main__":
    unittest.main()
