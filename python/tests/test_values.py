"""Values: each kind reads the texts that a second, plain grammar reads, gives their values back, and refuses all else by every door.

PREFQ_TEST_COUNT is how many texts are tried for each kind.
"""
import csv
import datetime
import io
import os
import random
import unittest.mock
import warnings
from decimal import Decimal
from fractions import Fraction
from functools import partial

import plain_values as plain
import prefq
from plain_values import REFUSED
from prefq.kinds import kind_named
from support import TestCase
from test_ask import run

try:
    import pandas
except ImportError:
    pandas = None

skip_without_pandas = unittest.skipIf(pandas is None, "pandas is not installed")
COUNT = int(os.environ.get("PREFQ_TEST_COUNT", 300))
# How many of them go through each door.
THROUGH_DOORS = 12 + COUNT // 100
UTC = datetime.timezone.utc
HOSTILE = ["", " ", "\u00a0", "-", ".", "-.", "+", "+.", "--1", "-+1", "1_0", "1_000", "0x10", "0b1", "1e3", "1E-2", "1e", "1e+", "e5", ".e1", "1.e1", "1e99999", "1e-9999", "1e9999",
           "9" * 30, "0." + "9" * 30, "9" * 5000, "nan", "NaN", "-nan", "inf", "-Infinity", "+inf", "infinit", "NA", "n/a", "null", "none", "None", "NULL", "true", "YES", "No", "y", "t",
           "١", "٣.٥", "²", "½", "Ⅷ", "5\u00a0", "\u20075", "1\u202f000", "5\0", "\0", "5\n", "\n5\n6", "5\r6", "5\t", "1,5", "1.5", "1,234", "1.234", "1'234", "1 234", "0,123", "12,34",
           "1,2345", "1,234,567.89", "1.234.567,89", "(5.00)", "(5", "5)", "()", "(-5)", "-(5)", "( 5 )", "€5", "5 €", "€", "€ 5 €", "5%", "-5 %", "- 5", "+ 5", "-€5", "€-5",
           "9223372036854775807", "9223372036854775808", "-9223372036854775807", "-9223372036854775808", "92233720368547758.07", "92233720368547758.08", "5.0", "5.00", "007", "-0", "-0.0",
           "1.7976931348623157e308", "1.7976931348623159e308", "5e-324", "2e-324", "0.1", "2026-05-01", "2026-5-1", "20260501", "2026-02-30", "2024-02-29", "0000-01-01", "0001-01-01",
           "9999-12-31", "2026-05-01 17:30", "2026-05-01T17:30:05.25", "2026-05-01 17:30:05,123456", "2026-05-01 17:30:05.1234567", "2026-05-01 17:30:05.123456000", "2026-05-01 17:30.5",
           "2026-05-01 24:00", "2026-05-01 17:60", "2026-05-01 17", "2026-05-01 17:30Z", "2026-05-01 17:30 Z", "2026-05-01 17:30+02:00", "2026-05-01 17:30-0530", "2026-05-01 17:30+24:00",
           "2026-05-01 17:30+02", "2026-05-01 17:30 CET", "2026-05-01Z", "2026-W18-5", "2026-121", "01.05.2026", "1.5.2026", "31.02.2026", "01.05.26", "05/01/2026", "5/1/26", "13/01/2026",
           "2026-03-29 02:30", "2026-10-25 02:30", "2026-10-25 02:30+01:00", "2026-03-29 01:59:59", "2026-10-25 03:00", "9999-12-31 23:59:59", "0001-01-01 00:00", "17:30", "17:30:05",
           "17:30:05.25", "17:30.5", "7:30", "24:00", "23:59:59.999999", "17:30Z", "17:30:05.1234567", "S", "M", " S", "s", "S, M", "it's", 'say "x"', "two\nlines", "\ufeff5", "\u200b5"]
LETTERS = list("0123456789+-.,:' eETZ()€%_/\t\n") + ["\u00a0", "١", "\0", "NA", "inf", "12", "00"]


class Case:
    """A kind: its spelling, the plain grammar of its texts, that of its values in a question, how a text of it is drawn, and which texts that grammar leaves out."""

    def __init__(self, spelling, read, draw, asked=None, leaves_out=lambda text: False):
        self.spelling, self.read, self.draw, self.asked, self.leaves_out = spelling, read, draw, asked or read, leaves_out

    def __repr__(self):
        return self.spelling


def number(most_decimals, thousands="", decimal=".", unit="", parentheses=False):
    """Draws numbers of a form."""
    def drawn(random_):
        amount = random_.choice([random_.randrange(10), random_.randrange(10**6), random_.randrange(2**63), 10 ** random_.randrange(19)])
        whole = f"{amount:,}".replace(",", thousands) if random_.random() < 0.8 else str(amount)
        part = "".join(random_.choice("0123456789") for _ in range(random_.randrange(most_decimals + 2)))
        text = whole + (decimal + part if part else "")
        text = random_.choice([f"{unit}{text}", f"{text} {unit}", text]).strip()
        return f"({text})" if parentheses and random_.random() < 0.3 else random_.choice(["", "", "-", "+"]) + text
    return drawn


def dated(pattern, first=1, last=9999):
    """Draws dates, or times, of these years in the signs of str.format."""
    def drawn(random_):
        date = datetime.date(random_.randrange(first, last + 1), random_.randrange(1, 13), random_.randrange(1, 29))
        time = datetime.time(random_.randrange(24), random_.randrange(60), random_.randrange(60), random_.choice([0, random_.randrange(10**6)]))
        return random_.choice(pattern).format(d=date, t=time, y=date.year % 100)
    return drawn


def among(*words):
    return lambda random_: random_.choice(words)


def is_read_by_python(text):
    """Python's formats read some digits of other scripts, and a blank before a digit."""
    return not text.isascii() or len(text.split()) > 1


def asked_number(text):
    """Any plain number may stand in a question, also one that no row can have."""
    return plain.number(text)


ISO = ["{d}", "{d} {t}", "{d}T{t}", "{d} {t:%H:%M}"]
CASES = [
    Case("whole", plain.decimal_number, number(0), asked_number),
    Case("decimal(0)", plain.decimal_number, number(1), asked_number),
    Case("decimal(2)", partial(plain.decimal_number, decimals=2), number(2), asked_number),
    Case("decimal(18)", partial(plain.decimal_number, decimals=18), number(18), asked_number),
    Case('whole(thousands="\'")', partial(plain.decimal_number, thousands="'"), number(0, "'"), asked_number),
    Case('decimal(2, thousands=",")', partial(plain.decimal_number, decimals=2, thousands=","), number(2, ","), asked_number),
    Case('decimal(2, thousands=".", decimal=",", unit="€")', partial(plain.decimal_number, decimals=2, thousands=".", decimal=",", unit="€"), number(2, ".", ",", "€"), asked_number),
    Case('decimal(1, unit="%", parentheses)', partial(plain.decimal_number, decimals=1, unit="%", parentheses=True), number(1, unit="%", parentheses=True), asked_number),
    Case("float", plain.binary_number, number(6)),
    Case('float(decimal=",")', partial(plain.binary_number, decimal=","), number(6, decimal=","), plain.binary_number),
    Case("bool", plain.truth, among("true", "False", "YES", "no")),
    Case('bool("on, all", none)', partial(plain.truth, true="on, all", false="none"), among("On, all", "none", "true", "no")),
    Case("date", plain.iso_date, dated(ISO[:1])),
    Case('date("%d.%m.%Y")', plain.german_date, dated(["{d:%d.%m}.{d.year:04}", "{d.day}.{d.month}.{d.year:04}", "{d}"]), plain.iso_date, is_read_by_python),
    Case('date("%m/%d/%y")', plain.american_date, dated(["{d:%m/%d}/{y:02}", "{d:%m/%d}/{d.year:04}", "{d}"]), plain.iso_date, is_read_by_python),
    Case("time", plain.moment, dated(ISO)),
    Case("time(UTC)", partial(plain.moment, offsets=lambda local: [datetime.timedelta()]), dated([*ISO, "{d} {t}+02:00", "{d}T{t}Z", "{d} {t:%H:%M}-0330"])),
    Case("time(UTC+02:00)", partial(plain.moment, offsets=lambda local: [datetime.timedelta(hours=2)]), dated([*ISO, "{d} {t} +05:45"], 2)),
    Case("time(Europe/Berlin)", partial(plain.moment, offsets=plain.offsets_in_berlin), dated([*ISO, "{d} {t}+02:00"], 1996, 2100), leaves_out=lambda text: "1893" <= text.strip()[:4] < "1996"),
    Case("clock", plain.clock, dated(["{t}", "{t:%H:%M}", "{t:%H:%M:%S}"])),
    Case("text", lambda text: text, among("Lyon", " x ", "NA", "-", "two\rlines")),
    Case('choice(S, "M, L", None, "say ""x""")', lambda text: plain.choice(text, "S", "M, L", "None", 'say "x"'), among("S", "M, L", "None", 'say "x"')),
]


def texts_of(case, random_, count):
    """Hostile texts, texts of the kind, and such texts with other letters in them."""
    texts = list(HOSTILE)
    for _ in range(count):
        text = case.draw(random_)
        texts.append(text)
        for _ in range(random_.randrange(1, 3)):
            place = random_.randrange(len(text) + 1)
            text = text[:place] + random_.choice(["", *LETTERS]) + text[place + random_.randrange(2):]
        texts.append(text)
    return [text for text in texts if not case.leaves_out(text)]


def comparable(value):
    """A value of the package as the plain grammar has it."""
    if isinstance(value, datetime.datetime) and value.tzinfo is not None:
        return value.astimezone(UTC).replace(tzinfo=None)
    return Fraction(value) if isinstance(value, (int, Decimal)) and not isinstance(value, bool) else value


def read_by(kind, text):
    try:
        return comparable(kind.decode(kind.read(text)))
    except ValueError:
        return REFUSED


def each_kind(test):
    """The test for each kind, with a source of random numbers of its own."""
    def tests(self):
        for case in CASES:
            with self.subTest(kind=case):
                test(self, case, random.Random(f"{test.__name__} {case}"))
    return tests


def through_doors(test):
    """The test for each kind, with some texts that it takes, and some that it refuses."""
    def tests(self):
        for case in CASES:
            random_ = random.Random(f"{test.__name__} {case}")
            texts = list(dict.fromkeys(random_.choices(texts_of(case, random_, 40), k=6 * THROUGH_DOORS)))
            taken = [text for text in texts if case.read(text) != REFUSED]
            refused = [text for text in texts if case.read(text) == REFUSED]
            with self.subTest(kind=case):
                test(self, case, taken[:THROUGH_DOORS], refused[:THROUGH_DOORS])
    return tests


class Kinds(TestCase):
    @each_kind
    def test_a_text_is_read_as_by_a_plain_grammar_or_refused(self, case, random_):
        kind = kind_named(case.spelling)
        for text in texts_of(case, random_, COUNT):
            self.assertEqual(read_by(kind, text), case.read(text), text)

    @each_kind
    def test_many_texts_at_once_are_read_as_one_by_one(self, case, random_):
        kind = kind_named(case.spelling)
        taken = [text for text in texts_of(case, random_, COUNT) if case.read(text) != REFUSED]
        for some in (taken, [text for text in taken if text.isascii()], [case.draw(random_) for _ in range(COUNT)], ["5", "-"], ["5", ""], ["\n"], ["5\n6", ""]):
            numbers = kind.read_all(some)
            if numbers is not None:
                self.assertEqual([comparable(kind.decode(number)) for number in numbers], list(map(case.read, some)))

    @each_kind
    def test_the_text_of_a_value_is_read_as_the_value(self, case, random_):
        kind = kind_named(case.spelling)
        for text in texts_of(case, random_, COUNT):
            if case.read(text) != REFUSED:
                number = kind.read(text)
                self.assertEqual(kind.read(kind.text(kind.decode(number))), number, text)

    @each_kind
    def test_the_spelling_of_a_kind_is_that_kind(self, case, random_):
        kind = kind_named(case.spelling)
        again = kind_named(str(kind))
        self.assertEqual(str(again), str(kind))
        for text in texts_of(case, random_, 10):
            self.assertEqual(read_by(again, text), read_by(kind, text), text)

    def test_further_spellings(self):
        for spelling in ["date('%d \"%m\" %Y')", 'bool("a, b", "b""c")', 'choice("", " x", "a(b)", c)', 'time(Europe/Berlin, "%d.%m.%Y %H:%M")', "time(UTC+00:53:28)", 'float(thousands="\u00a0", decimal=",")']:
            with self.subTest(spelling=spelling):
                self.assertEqual(str(kind_named(spelling)), spelling.replace("'", '"').replace('"%m"', '""%m""'))
                self.assertEqual(str(kind_named(str(kind_named(spelling)))), str(kind_named(spelling)))


class Doors(TestCase):
    """What a kind refuses is refused by each door, and what it takes comes in as the same value."""

    @through_doors
    def test_changes(self, case, taken, refused):
        with prefq.Frame.empty(["n", "x"], {"n": "whole", "x": case.spelling}) as frame:
            frame.insert({"n": 1})
            for text in refused:
                for call in (frame.insert, partial(frame.update, 1), lambda record: frame.insert_many([{"n": 3}, record])):
                    with self.refuses(ValueError, "column 'x'"):
                        call({"n": 2, "x": text})
            self.assertEqual([dict(row) for row in frame.rows()], [{"n": 1, "x": None}])
            ids = frame.insert_many([{"x": text} for text in taken])
            self.assertEqual([comparable(frame.get(id).x) for id in ids], list(map(case.read, taken)))

    @through_doors
    def test_records_and_dataframes(self, case, taken, refused):
        for opened in [from_records] + [from_dataframe] * (pandas is not None):
            for text in refused:
                with self.refuses(ValueError, "row 2", "column 'x'"):
                    opened([taken[0], text], case.spelling)
            with opened(taken, case.spelling) as frame:
                self.assertEqual([comparable(row.x) for row in frame.rows()], list(map(case.read, taken)))

    @through_doors
    def test_files(self, case, taken, refused):
        for text in refused:
            if text.strip() and text.strip().casefold() not in prefq.missing.WORDS:
                with self.refuses((ValueError, prefq.Refused)):
                    from_cells([text], case.spelling)
        taken = [text for text in taken if "\0" not in text]
        with from_cells(taken, case.spelling) as frame:
            self.assertEqual([None if row.x is None else comparable(row.x) for row in frame.rows()], [case.read(text) if text.strip() else None for text in taken])

    @through_doors
    def test_questions(self, case, taken, refused):
        """A question has values in their plain form, whatever that of the column is."""
        with prefq.Frame.empty(["x"], {"x": case.spelling}) as frame, warnings.catch_warnings():
            warnings.simplefilter("ignore", prefq.UnknownValue)
            for text in [*taken, *refused]:
                for word in ["pos", *["around"] * frame.columns[0].kind.measured]:
                    question = f"best {word}(x, {prefq.columns.quoted(text)})"
                    if case.asked(text) != REFUSED or is_fine(case, text):
                        frame.best(question)
                    else:
                        with self.refuses(prefq.Refused, "column 'x'", kind="term"):
                            frame.best(question)


class Inferred(TestCase):
    """Whatever kind a column of a file is taken for, each cell is read as the plain grammar of that kind reads it, is missing, or stays a text."""

    def test_each_cell_is_what_it_was(self):
        random_ = random.Random("inferred")
        draws = [case.draw for case in CASES if not case.spelling.startswith(("choice", "text"))]
        for _ in range(COUNT):
            draw = random_.choice(draws)
            cells = [random_.choice(HOSTILE[:160]) if random_.random() < 0.08 else random_.choice(["", "NA", "-", "none"]) if random_.random() < 0.1 else draw(random_) for _ in range(random_.randrange(1, 6))]
            cells = [cell for cell in cells if "\0" not in cell]
            with unittest.mock.patch("prefq.reading.CHUNK", random_.choice([1, 40, 65_536])):
                file = prefq.loading.File(prefq.reading.read_csv(csv_of(cells)))
                column, numbers = file.column("x")
            read = PLAIN_KINDS[column.kind.name]
            values = [column.decode(number) for number in numbers]
            self.assertEqual(len(values), len(cells))
            for cell, value in zip(cells, values):
                if value is None:
                    self.assertTrue(not cell.strip() or column.kind.name != "text" and cell.strip().lower() in prefq.missing.WORDS, (cells, column))
                else:
                    self.assertEqual(comparable(value), read(cell), (cells, column))
            self.assertEqual(bool(file.notes), column.kind.name != "text" and any(cell.strip().lower() in prefq.missing.WORDS for cell in cells))


PLAIN_KINDS = {"whole": plain.decimal_number, "decimal": plain.number, "float": plain.binary_number, "bool": plain.truth, "date": plain.iso_date, "text": lambda text: text,
               "time": lambda text: plain.moment(text, offsets=lambda local: [datetime.timedelta()]), "clock": plain.clock}


def is_fine(case, text):
    """Whether a time is finer than the column has them: a question may name it."""
    return case.spelling.startswith("time") and "1234567" in text and case.asked(text.replace("1234567", "123456")) != REFUSED


def from_records(texts, kind):
    return prefq.Frame.from_records([{"x": text} for text in texts], kinds={"x": kind})


def from_dataframe(texts, kind):
    return prefq.Frame.from_dataframe(pandas.DataFrame({"x": texts}, dtype="object"), kinds={"x": kind})


def from_cells(texts, kind):
    """The frame of a file with these cells in the column x."""
    return prefq.Frame.from_csv(csv_of(texts), delimiter=",", kinds={"x": kind})


def csv_of(texts):
    """A file with these cells in the column x."""
    text = io.StringIO()
    csv.writer(text).writerows([["n", "x"], *enumerate(texts)])
    return io.StringIO(text.getvalue())


class NothingIsMadeOfNothing(TestCase):
    """A text that is no number is refused, and does not win as 0."""

    HOTELS = [{"hotel": "Ritz", "price": "129.99"}, {"hotel": "Anna", "price": "59.50"}]

    def test_a_blank_a_point_and_a_sign(self):
        with prefq.Frame.from_records(self.HOTELS, kinds={"price": "decimal(2)"}) as frame:
            for text in ["", " ", "\u00a0", ".", "-", "-.", "+", "\t"]:
                for call in (frame.insert, partial(frame.update, 1), lambda record: frame.insert_many([record])):
                    with self.refuses(ValueError, f"column 'price' (decimal(2)): {text!r} is no number"):
                        call({"price": text})
                with self.refuses(ValueError, "row 3, column 'price'"):
                    prefq.Frame.from_records([*self.HOTELS, {"price": text}], kinds={"price": "decimal(2)"})
                if pandas is not None:
                    with self.refuses(ValueError, "row 3, column 'price'"):
                        prefq.psel(pandas.DataFrame([*self.HOTELS, {"price": text}]), "low(price)", kinds={"price": "decimal(2)"})
            self.assertEqual(frame.best("best low(price)").ids, [2])

    def test_files_with_points(self):
        text = "hotel,price\nRitz,.\nAnna,59.50\n"
        with self.refuses(ValueError, "line 2, column 'price' (decimal(2)): '.' is no number"):
            prefq.Frame.from_csv(io.StringIO(text), kinds={"price": "decimal(2)"})
        with prefq.Frame.from_csv(io.StringIO(text + "Post,\n"), missing=["."]) as frame:
            self.assertEqual(frame.best("top_level 3 low(price)").ids, [2, 1, 3])
        with self.refuses(ValueError, "'-' is no number"):
            prefq.Frame.from_csv(io.StringIO("price\n-\n5.5\n"), missing=["?"], kinds={"price": "decimal(1)"})

    def test_numbers_of_thousands_of_digits(self):
        many = "9" * 5000
        with prefq.Frame.from_records([{"x": 1, "d": Decimal("0.5"), "f": 0.5}]) as frame:
            for name in "xd":
                with self.refuses(ValueError, f"column '{name}'", "thousands of digits"):
                    frame.insert({name: many})
            with self.refuses(ValueError, "column 'f' (float): 999", "too large"):
                frame.insert({"f": many})
            for question, says in [(f"best around(x, {many})", "thousands of digits"), (f"best pos(x, {many})", "thousands of digits"), (f"top_level {many} low(x)", "the count is 999")]:
                with self.refuses(prefq.Refused, says, kind="term"):
                    frame.best(question)
            self.assertEqual(frame.best(f"top_level {'0' * 5000}2 low(x)").ids, [1])


class KindsThatAreGiven(TestCase):
    def test_for_a_column_that_is_not_there(self):
        """They are refused by each door, and not forgotten."""
        doors = [lambda kinds: prefq.Frame.from_records([{"price": 1, "x": 2}], kinds=kinds), lambda kinds: prefq.Frame.from_csv(io.StringIO("price,x\n1,2\n"), kinds=kinds),
                 lambda kinds: prefq.psel([{"price": 1, "x": 2}], "low(x)", kinds=kinds)]
        if pandas is not None:
            dataframe = pandas.DataFrame({"price": [1], "x": [2]})
            doors += [lambda kinds: prefq.Frame.from_dataframe(dataframe, kinds=kinds), lambda kinds: prefq.psel(dataframe, "low(x)", kinds=kinds)]
        for door in doors:
            with self.refuses(prefq.Refused, "no column 'prise'; did you mean price?"):
                door({"prise": "decimal(2)"})
            door({"price": "decimal(2)"})


    def test_texts_of_many_blanks(self):
        """With as many as 200, a look at one such text took a minute: each was tried as a blank behind each of the signs that may stand there."""
        blanks = " " * 5_000
        with self.within(10):
            for spelling in ('decimal(2, unit="€", parentheses)', 'whole(unit="€")', 'float(thousands=" ", decimal=",", unit="€", parentheses)'):
                for text in (f"({blanks}x", f"-{blanks}x", f"({blanks}-{blanks}€{blanks}x", f"5{blanks}x", f"(5{blanks}€{blanks}x"):
                    with self.refuses(ValueError, "is no number"):
                        kind_named(spelling).read(text)
            # What is said of a column of texts looks for a kind that would read them.
            with prefq.Frame.from_records([{"price": "(5 €)"}, {"price": f"({blanks}5 x)"}]) as frame, self.refuses(prefq.Refused, "has texts"):
                frame.best("best low(price)")
        self.assertEqual([kind_named('whole(unit="€", parentheses)').read(text) for text in ("( € 5 )", "(5 €)", "-  5", "€ 5", "5  €")], [-5, -5, -5, 5, 5])

    def test_that_is_none_for_a_column_that_nobody_asks(self):
        """A slip would be forgotten as long as the question names another column."""
        records, text = [{"price": 1, "x": 2}], "price,x\n1,2\n"
        doors = [lambda kinds: prefq.Frame.from_csv(io.StringIO(text), columns=["x"], kinds=kinds), lambda kinds: prefq.Frame.from_records(records, columns=["x"], kinds=kinds),
                 lambda kinds: prefq.psel(records, "low(x)", kinds=kinds), lambda kinds: prefq.parts.best([prefq.parts.Partition(["price", "x"], [[1, 2]])], "best low(x)", kinds=kinds)]
        if pandas is not None:
            dataframe = pandas.DataFrame(records)
            doors += [lambda kinds: prefq.Frame.from_dataframe(dataframe, columns=["x"], kinds=kinds), lambda kinds: prefq.psel(dataframe, "low(x)", kinds=kinds)]
        for door in doors:
            with self.refuses(prefq.Refused, "no kind 'decimals(2)': there are whole, decimal(2)"):
                door({"price": "decimals(2)"})
        done = run("ask", "-", "best low(x)", "--kind", "price=decimals(2)", text=text)
        self.assertEqual((done.returncode, done.stdout), (2, ""))
        self.assertIn("no kind 'decimals(2)'", done.stderr)


@skip_without_pandas
class DataFrames(TestCase):
    def test_an_ordered_categorical_keeps_its_order(self):
        day = datetime.date(2026, 5, 1)
        for values in ([3, 1, 2], [Decimal("0.5"), Decimal("0.1"), 2], [day, day.replace(day=3), day.replace(day=2)], [True, False], [2.5, -1.0, 0.5], ["c", "a", "b"]):
            categories = pandas.Categorical([*reversed(values), None], values, ordered=True)
            dataframe = pandas.DataFrame({"x": categories})
            count = len(values)
            with self.subTest(values=values), prefq.Frame.from_dataframe(dataframe) as frame:
                self.assertEqual([row.x for row in frame.rows()], [*reversed(values), None])
                self.assertEqual(frame.best("top_level 9 low(x)").ids, [*range(count, 0, -1), count + 1])
                self.assertEqual(frame.best("top_level 9 high(x)").ids, list(range(1, count + 2)))
                self.assertEqual(list(prefq.psel(dataframe, "low(x)").index), [count - 1])
                frame.insert({"x": values[0]})
                self.assertEqual(frame.best("best low(x)").ids, [count, count + 2])
                with self.assertRaises(ValueError):
                    frame.insert({"x": "other"})

    def test_a_number_that_is_no_category_stands_for_none_near_to_it(self):
        """As beside floats: 1e-400 was taken for 0."""
        dataframe = pandas.DataFrame({"x": pandas.Categorical([0.1, 0.0, 0.3], [0.3, 0.1, 0.0], ordered=True)})
        for text in ("1e-400", "0.10000000000000000555"):
            for question in (f"pos(x, {text})", f"true(x = '{text}')"):
                with self.subTest(question), self.refuses(prefq.Refused, f"'{text}' is none of '0.3', '0.1', '0.0'", kind="term"):
                    prefq.psel(dataframe, question)
            with prefq.Frame.from_dataframe(dataframe) as frame, self.refuses(ValueError, f"'{text}' is none of"):
                frame.insert({"x": text})
        self.assertEqual([list(prefq.psel(dataframe, question).index) for question in ("pos(x, 1e-1)", "true(x <= '0.10')")], [[0], [0, 2]])

    def test_an_ordered_categorical_without_categories(self):
        dataframe = pandas.DataFrame({"x": pandas.Categorical([None, None], [], ordered=True), "y": [1, 2]})
        with prefq.Frame.from_dataframe(dataframe) as frame:
            spelling = str(frame.columns[0].kind)
            self.assertEqual((spelling, [row.x for row in frame.rows()], frame.best("best low(x) & low(y)").ids), ("choice()", [None, None], [1]))
        for again in (prefq.Frame.from_dataframe(dataframe, kinds={"x": spelling}), prefq.Frame.empty(["x", "y"], {"x": spelling, "y": "whole"})):
            with again:
                self.assertEqual(str(again.columns[0].kind), spelling)
                with self.refuses(ValueError, "column 'x' (choice()): 'S' is no choice, and there is none"):
                    again.insert({"x": "S"})

    def test_an_unordered_categorical_has_the_order_of_its_values(self):
        with prefq.Frame.from_dataframe(pandas.DataFrame({"x": pandas.Categorical([3, 1, None, 2], [3, 1, 2])})) as frame:
            self.assertEqual(frame.best("top_level 9 low(x)").ids, [2, 4, 1, 3])

    def test_categories_of_which_no_row_is_left(self):
        """A DataFrame keeps them, as behind a condition. Nobody was warned of them, and of other types they were refused."""
        dataframe = pandas.DataFrame({"x": pandas.Categorical(["Bern", "Lyon", None], ["Bern", "Lyon", "Oslo"]), "y": pandas.Categorical([2, 1, 2], [1, 2, "two"])})[:2]
        with prefq.Frame.from_dataframe(dataframe[1:]) as frame:
            self.assertEqual([str(column.kind) for column in frame.columns], ["text", "whole"])
            self.assertEqual(frame.best("best low(y)").to_dataframe()["x"].dtype, dataframe["x"].dtype)
            for ask in (lambda: frame.best("best pos(x, 'Bern')"), lambda: prefq.psel(dataframe[1:], "pos(x, 'Oslo')")):
                with self.assertWarns(prefq.UnknownValue):
                    ask()
        self.assertEqual(list(prefq.psel(dataframe, "pos(x, 'Lyon') & low(y)").index), [1])

    def test_categories_without_a_row_say_the_kind_of_a_column_without_a_value(self):
        """As behind a condition, or in a group. Of numbers, bools and dates the order was not asked: the column was one of texts."""
        for categories, kind in (([1, 2], "whole"), ([1.5, 2.5], "float"), ([True, False], "bool"), ([datetime.date(2024, 1, 1)], "date"), (["Bern", "Lyon"], "text")):
            dataframe = pandas.DataFrame({"x": pandas.Categorical([None, None], categories), "y": [2, 1]})
            with self.subTest(categories), prefq.Frame.from_dataframe(dataframe) as frame:
                self.assertEqual(str(frame.columns[0].kind), kind)
                if kind == "text":
                    with self.assertWarns(prefq.UnknownValue):
                        frame.best("best pos(x, 'Lyon')")
                elif kind != "bool":
                    self.assertEqual(list(prefq.psel(dataframe, "low(x) & low(y)").index), [1])

    def test_texts_with_a_nul(self):
        some = ["x\0y", "x", "x\0z", "\0", ""]
        for texts, dtype in ((some, "object"), ([*some, None], "object"), ([*some, None], "string")):
            values = pandas.Series(texts, dtype=dtype)
            with prefq.Frame.from_dataframe(pandas.DataFrame({"t": values})) as frame:
                self.assertEqual([row.t for row in frame.rows()], texts)
                self.assertEqual(frame.best("best pos(t, 'x\0z')").ids, [3])
