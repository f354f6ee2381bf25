"""Questions in a file's own names and values: how they are read, and how a wrong one is refused at its place."""
import datetime
import decimal
import random
import re
import unittest.mock
import warnings
from decimal import Decimal

import prefq
from prefq.hints import nearest
from prefq.questions import read_question
from support import TestCase

RECORDS = [{"City": "Lyon", "Price (EUR)": Decimal("57.40"), "Stars": Decimal("4.5"), "Opened": datetime.date(2002, 4, 14), "Pool": True, "x": 0.5},
           {"City": "Bern", "Price (EUR)": Decimal("65.61"), "Stars": Decimal("3.0"), "Opened": datetime.date(1955, 4, 21), "Pool": False, "x": 1.5},
           {"City": "Köln", "Price (EUR)": None, "Stars": Decimal("5.0"), "Opened": datetime.date(2020, 1, 1), "Pool": True, "x": 2.5}]

REFUSED = [
    # what is asked, what is said, the number of the refusal, and what stands at its place
    ("", "a question begins with best, top_level K, at_least K or skyline of, as in: best low(City)", 1, ""),
    ("low(Stars) * high(x)", "write best low(Stars) * high(x)", 1, "low(Stars) * high(x)"),
    ("  -low(Stars)", "write best -low(Stars)", 1, "-low(Stars)"),
    ("BEST low(Stars)", "write best in small letters", 1, "BEST"),
    ("bets low(Stars)", "did you mean best?", 1, "bets"),
    ("select Stars", "a question begins with best", 1, "select"),
    ("top 3 low(Stars)", "write top_level 3", 1, "top"),
    ("best", "the question breaks off. Here could stand low(..)", 1, ""),
    ("best low(Prise)", "no column 'Prise'; did you mean \"Price (EUR)\"?", 2, "Prise)"),
    ("best low(stars)", "did you mean Stars?", 2, "stars)"),
    ("best low(Zzz)", "no column 'Zzz'; there are City, \"Price (EUR)\", Stars", 2, "Zzz)"),
    ("best low(Stars) by Citi", "did you mean City?", 2, "Citi"),
    ("best pos(Cidy, 'Köln') * low(Kölnn)", "did you mean City?", 2, "Cidy"),
    ("best pos(City, 'Köln') & low(Städte)", "no column 'Städte'", 2, "Städte)"),
    ("best Stars", "write low(Stars) or high(Stars)", 1, "Stars"),
    ("best price", 'write low("Price (EUR)")', 1, "price"),
    ("best min(Stars)", "min(x) is written low(x)", 1, "min"),
    ("best lowest(Stars)", "did you mean low(..)? Here could stand low(..)", 1, "lowest"),
    ("best low(Stars), high(x)", "no comma stands between two terms", 1, ", high"),
    ("best low(Stars) and high(x)", "write * where both count", 1, "and"),
    ("best low(Stars) limit 5", "at_least 5", 1, "limit"),
    ("best low(Stars) group by City", "write by and the column", 1, "group"),
    ("best low(Stars) + high(x)", "there is no +, rPref's disjoint union: write * where both count at once", 1, "+ high"),
    ("best pos(x, c(4, 6))", "values stand one after the other, as in pos(x, 4, 6). Here could stand a value of 'x', written like 59.9", 1, "c(4"),
    ("best around(Stars, mean(x))", "a question has no functions: write the value in place of mean(..)", 1, "mean"),
    ("best pos(City, )", "Here could stand a value of 'City', such as 'Lyon'", 1, ")"),
    ("best low(Stars);", "a question is one term", 1, ";"),
    ("best pos(City, \u2018Lyon\u2019)", "unexpected \u2018: the quotes are ' and \". Here", 1, "\u2018Lyon"),
    ("best low(Stars) \u00d7 high(x)", "unexpected \u00d7: write *. Here", 1, "\u00d7"),
    ("best low(Stars)\u00a0* high(x)", "unexpected '\\xa0'. Here could stand", 1, "\u00a0*"),
    ("best around(Opened, 17:30)", "unexpected :: a time stands in quotes, as '17:30'", 1, ":30"),
    ("best pos(Stars, NULL)", "unexpected NULL: a missing value is none that is preferred by itself: write true(x is missing)", 1, "NULL"),
    ("best not low(Stars)", "unexpected not. Here could stand low(..)", 1, "not low"),
    ("best low(Stars", "the question breaks off. Here could stand a )", 1, ""),
    ("best (low(Stars) & (high(x))", "the question breaks off. Here could stand * (both at once)", 1, ""),
    ("best low('Stars)", "the quote ' is not closed", 1, "'Stars)"),
    ("best pos(City, Lyon)", "a text stands in quotes, 'Lyon'", 1, "Lyon)"),
    ("best pos(Stars, 'many')", "column 'Stars' (decimal(1)): 'many' is no number", 1, "'many'"),
    ("best pos(Pool, 1)", "'1' is not true, false, yes or no", 1, "1)"),
    ("best between(Opened, '2026-01-01', '2026-02-31')", "'2026-02-31' is no date", 1, "'2026-02-31'"),
    ("best around(Stars, )", "Here could stand a value of 'Stars', written like 59.90", 1, ")"),
    ("best around(Stars, - 'x')", "Here could stand a value", 1, "'x'"),
    ("best low(City)", "column 'City' has texts, which have no order", 1, "low(City)"),
    ("best around(x, 1)", "around(..) needs a scale, as kinds={'x': 'decimal(2)'} gives it", 1, "around"),
    ("best between(Pool, 1, 2)", "has no distances for between(..)", 1, "between"),
    ("best between(Stars, 5, 4.5)", "empty range", 9, "4.5"),
    ("top_level 0 low(Stars)", "the count is 0: a count is from 1 to 1000", 6, "0 low"),
    ("top_level many low(Stars)", "Here could stand a count", 1, "many"),
    ("at_least 1001 low(Stars)", "a count is from 1 to 1000", 6, "1001"),
    ("at_least 00000 low(Stars)", "the count is 00000: a count is from 1 to 1000", 6, "00000"),
    ("top_level " + "9" * 5000 + " low(Stars)", f"the count is {'9' * 40}.. of 5000 digits: a count is from 1 to 1000", 6, "9" * 5000),
    ("best " + "-" * 65 + "low(Stars)", "more than 64 nestings", 4, "-low"),
    ("best " + "(" * 10000 + "low(Stars)", "more than 64 nestings", 4, "(" * (10000 - 64) + "low"),
    ("skyline City", "Here could stand of", 1, "City"),
    ("skyline of City diff", "the clause has no min or max", 7, "skyline"),
    ("skyline of Stars, x", "Here could stand min, max or diff", 1, ", x"),
    ("skyline of Stars min x max", "Here could stand a , or the end", 1, "x max"),
    ("skyline of City min", "has texts, which have no order", 1, "City min"),
    ("best layered(City, 'Lyon')", "Here could stand a {", 1, "'Lyon'"),
    ("best layered(City, {'Lyon' 'Bern'})", "Here could stand a , or a }", 1, "'Bern'"),
]

# What a table of whole numbers does not have, and a frame has.
REFUSED_BY_A_TABLE = [
    ("best low(Stars) | high(x)", "there is no |", 1, "|"),
    ("best low(Stars) | high(x)", "there is no |, rPref's intersection: write * where both count at once", 1, "|"),
    ("best low(Stars/x)", "no arithmetic: add a column with the quotient", 1, "/x"),
    ("best low(Stars+x)", "no arithmetic: add a column with the sum", 1, "+x"),
    ("best low(Stars - x)", "no arithmetic: add a column with the difference", 1, "- x"),
    ("best low(Stars * x)", "no arithmetic: add a column with the product", 1, "* x"),
    ("best high(abs(x))", "a question has no functions: add a column with abs(..)", 2, "abs"),
    ("best high(x(1))", "a question has no functions", 1, "(1"),
    ("best empty()", "there is no empty preference: leave it out", 1, "empty"),
    ("best true(x > 5)", "there are no conditions: pos(x, 'value') prefers a value", 1, "true"),
]
# What a frame reads beside the program's language, and refuses.
REFUSED_IN_EXPRESSIONS = [
    ("best low(City + 1)", "column 'City' has the kind text, and numbers are computed with", 1, "City"),
    ("best low(Stars + 'a')", "'a' is a text, and numbers are computed with", 1, "'a'"),
    ("best low(Stars + Pool)", "column 'Pool' is true or false, and numbers are computed with", 1, "Pool"),
    ("best low(Stars + (x > 1))", "this is true or false, and numbers are computed with", 1, "> 1"),
    ("best low(5)", "an expression names a column", 1, "5)"),
    ("best high(mean(x))", "there is no function 'mean'; there are abs, min, max", 2, "mean"),
    ("best high(abs(x, 1))", "Here could stand a )", 1, ", 1"),
    ("best high(max(x))", "Here could stand a , and another number", 1, "))"),
    ("best low(Stars / )", "Here could stand a column, a number, abs(..)", 1, ")"),
    ("best low((Stars + x)", "the question breaks off. Here could stand a )", 1, ""),
    ("best low((Stars + x", "the question breaks off. Here could stand an operator or a )", 1, ""),
    ("best low(Stars / (x - 0.5))", "row 1 has 0 behind the /, by which nothing is divided", 1, "/ ("),
    ('best low("Stars / x")', "an expression has no quotes, in Python expr(..) around it, and there is no column 'Stars / x'; did you mean Stars?", 2, '"Stars / x"'),
    ("best low(Stars + Zzz)", "no column 'Zzz'; there are City", 2, "Zzz"),
    ("best low(Stars + stars)", "did you mean Stars?", 2, "stars"),
    ("best true(City = null)", "Opened, Pool, x. Write is missing", 2, "null"),
    ("best true(City = Lyonn)", "A text stands in single quotes, 'Lyonn'", 2, "Lyonn"),
    ("best true(City < 'Lyon')", "column 'City' has texts, which have no order: write =, <> or in (..)", 1, "'Lyon'"),
    ("best true(City = 5)", "column 'City' (text) is compared with a value in quotes, such as 'Lyon'", 1, "5)"),
    ("best true(Opened > '1.1.2000')", "column 'Opened' (date): '1.1.2000' is no date", 1, "'1.1.2000'"),
    ("best true(Opened > Stars)", "column 'Opened' has the kind date, and numbers are computed with", 1, "Opened"),
    ("best true(Opened > City)", "columns 'Opened' (date) and 'City' (text) are not compared", 1, "> City"),
    ("best true(Pool < true)", "< compares numbers, dates and so on", 1, "< true"),
    ("best true(1 < 2)", "an expression names a column", 1, "1 < 2"),
    ("best true(x > 1 and 1 < 2)", "two values that are written are compared", 1, "< 2"),
    ("best true(5 is missing or Pool)", "a value that is written is never missing", 1, "5 is"),
    ("best true(x is)", "Here could stand missing or not missing", 1, ")"),
    ("best true(not Stars)", "column 'Stars' is a number, and a condition is true or false", 1, "Stars)"),
    ("best true(x in 5)", "Here could stand a (", 1, "5)"),
    ("best true(Stars)", "column 'Stars' has the kind decimal(1), and a condition is true or false: write a comparison, such as x > 5 or City = 'Lyon'", 1, "true"),
    ("best empty(x)", "Here could stand a )", 1, "x)"),
    ("best (low(Stars) * low(x)) | high(Stars)", "| stands between terms by which any two rows can be compared", 1, "low(Stars)"),
    ("best low(Stars) |", "the question breaks off. Here could stand low(..)", 1, ""),
    ("best low(x + " + "(" * 25 + "x", "more than 24 nestings in an expression", 4, "(x"),
    ("best low(x + " + "-" * 25 + "x", "more than 24 nestings in an expression", 4, "-x"),
    ("best low(" + "abs(" * 10_000, "more than 24 nestings in an expression", 4, "abs(" * (10_000 - 24)),
    ("best low(x" + " + x" * 65 + ")", "more than 64 operations on one another", 4, "+ x)"),
    ("best true(x > 1 & Stars > 3)", "unexpected &: write and. Here could stand", 1, "& Stars"),
    ("best true(x > 1 || Stars > 3)", "unexpected |: write or. Here could stand", 1, "|| Stars"),
    ("best true(City like 'L%')", "there are no patterns: write = or in (..)", 1, "like"),
    ("best true(Stars between 1 and 5)", "write 1 <= x <= 5", 1, "between"),
    ("best true(Stars in [1, 2])", "values stand in parentheses, as in (1, 2)", 1, "[1"),
    ("best true(Stars => 3)", "there are =, <>, <, <=, > and >=", 1, "> 3"),
    ("best true(! Pool)", "write not", 1, "! Pool"),
    ("best true(x > .5)", "a number has digits on both sides of its point", 1, ".5"),
    ("best true(x > +5)", "a number has no + in front", 1, "+5"),
    ("best true(x > 1,000)", "a number has no commas", 1, ",000"),
    ("best true(x = NaN)", "Opened, Pool, x. Write is missing", 2, "NaN"),
    ("best true(City = Lyxn)", "A text stands in single quotes, 'Lyxn'", 2, "Lyxn"),
    ("best true(x \u2264 5)", "there are =, <>, <, <=, > and >=", 1, "\u2264"),
    ("best low(+x)", "a number has no + in front", 1, "+x"),
    ("best low(x) by +x", "a sum stands in the place of a column, as in low(x + y)", 1, "+x"),
    ("best true(x > 1) / low(x)", "a quotient stands in the place of a column, as in low(x / y)", 1, "/ low"),
    ("best true", "write true(x > 5). Here could stand low(..), high(..), around(..), between(..), pos(..), layered(..), true(..), reverse(..), - or (", 1, "true"),
    ("best low(^x)", "unexpected ^: a name that is no word stands in double quotes, as in low(\"Price (EUR)\")", 1, "^x"),
    ("best low(x) by ^x", "unexpected ^: a name that is no word stands in double quotes, as in low(\"Price (EUR)\")", 1, "^x"),
    ("best low(x) low(x)", "Here could stand * (both at once), & (the first decides), | (better in both), by or the end", 1, "low(x"),
    ("best low(x) * empty", "write empty()", 1, "empty"),
    ("best low(x + 1e99999)", "'1e99999' is no number", 1, "1e99999"),
    ("best around(x / 3 * 9999999999999999999, 5)", "has the kind numbers too fine for 64 bits, which has no distances for around(..)", 1, "around"),
]


class Refusals(TestCase):
    @classmethod
    def setUpClass(cls):
        cls.frame = prefq.Frame.from_records(RECORDS)

    @classmethod
    def tearDownClass(cls):
        cls.frame.close()

    def test_each_at_its_place(self):
        for question, says, number, behind in REFUSED + REFUSED_IN_EXPRESSIONS:
            with self.subTest(question=question[:60]), self.refuses(prefq.Refused, says, kind="term", number=number) as caught:
                self.frame.best(question)

    def test_the_caret(self):
        for question, _, _, behind in REFUSED + REFUSED_IN_EXPRESSIONS:
            with self.subTest(question=question[:60]):
                with self.assertRaises(prefq.Refused) as caught:
                    self.frame.best(question)
                why = caught.exception
                self.assertTrue(question.encode()[why.place:].decode().startswith(behind))
                shown, caret = str(why).split("\n")[1:]
                self.assertTrue(shown[caret.index("^"):].startswith(question.encode()[why.place:].decode()[:80]))
                if len(question) <= 160:
                    self.assertEqual((shown, caret), ("    " + question, " " * (4 + len(question.encode()[:why.place].decode())) + "^"))
                else:
                    self.assertLess(len(shown), 180)

    def test_what_a_table_has_not(self):
        with prefq.Table(["Stars", "x"], [[1, 2]]) as table:
            for question, says, number, behind in REFUSED_BY_A_TABLE:
                with self.subTest(question=question), self.refuses(prefq.Refused, says, kind="term", number=number, place=question.index(behind)):
                    table.best(question)

    def test_what_the_table_refuses_stands_at_its_place_in_the_question_that_was_written(self):
        part = 'pos(City, "Köln") & ' * 60
        long = "best " + " & ".join(["around(\"Price (EUR)\", 60.15)"] * 100)
        with self.refuses(prefq.Refused, "too long", "at most 4096 bytes", "    best around(\"Price", kind="term", number=5):
            self.frame.best(long)
        deep = "best " + "(low(x) * low(Stars) & " * 63 + "low(x) * around(\"Price (EUR)\", 60.15)" + ")" * 63
        self.assertTrue(self.frame.best(deep))
        deeper = "best " + part + "(low(x) * low(Stars) & " * 64 + "low(x) * around(\"Price (EUR)\", 60.15)" + ")" * 64
        with self.refuses(prefq.Refused, "more than 64 nestings", kind="term", number=4, place=deeper.encode().index(b"around")):
            self.frame.best(deeper)

    def test_a_question_that_is_too_long_with_the_numbers_of_its_values_says_so(self):
        """It has 1,700 bytes itself. What is said instead is answered."""
        values = ", ".join(f"0.{number:03}" for number in range(1, 240))
        question = f"best low(y) & pos(x, {values})"
        with prefq.Frame.from_records([{"x": 5, "y": 1}, {"x": Decimal("0.2"), "y": 1}], kinds={"x": "decimal(18)"}) as frame:
            with self.refuses(prefq.Refused, "too long, 4,694 bytes with the numbers", "true(x in (..))): a question has at most 4096 bytes", kind="term", number=5,
                              place=question.index("pos(")):
                frame.best(question)
            self.assertEqual(frame.best(f"best low(y) & true(x in ({values}))").ids, [2])

    def test_the_caret_below_wide_signs(self):
        """They take two places on a terminal, and signs that stand above others none."""
        for before, blanks in [("best low(x) * ", 14), ("best pos(City, '東京') * ", 25), ("best pos(City, 'e\u0301') * ", 22), ("best\tpos(City, '東') * ", 23)]:
            with self.subTest(before):
                with self.assertRaises(prefq.Refused) as caught:
                    self.frame.best(f"{before}hgh(x)")
                self.assertEqual(len(str(caught.exception).splitlines()[2].expandtabs(1)), 4 + blanks + 1)

    def test_the_caret_in_a_question_of_several_lines(self):
        """They are shown as one. A line end was shown as a sign that nobody has."""
        with self.assertRaises(prefq.Refused) as caught:
            self.frame.best("best low(x)\r\n  * high(Stars)\n\t& hgh(x)")
        self.assertEqual(str(caught.exception).splitlines()[1:], ["    best low(x)    * high(Stars) \t& hgh(x)", "                                 \t  ^"])

    def test_signs_that_steer_a_terminal(self):
        with self.refuses(prefq.Refused, "no column '\\x1b[31m\\u202e'"):
            self.frame.best('best low("\x1b[31m\u202e")')
        question = "best hgh(x) * pos(City, '\x9b31m\x1b\u202e')"
        with self.assertRaises(prefq.Refused) as caught:
            self.frame.best(question)
        self.assertEqual([sign for sign in str(caught.exception) if not sign.isprintable()], ["\n", "\n"])

    def test_no_text(self):
        for question in (None, 5, b"best low(x)"):
            with self.refuses(TypeError, "a question is a text"):
                self.frame.best(question)

    def test_the_frame_is_as_before(self):
        self.assertEqual([dict(row) for row in self.frame.rows()], RECORDS)


class AsTheProgram(TestCase):
    """Over whole numbers, the program reads a question as this package does, but for expressions, `|` and so on: it refuses the same ones, at the same place, and has
    the same answers."""

    NAMES = ["x", "y", "by", "low", "distinct", "min"]
    PIECES = ["best", "top_level", "at_least", "skyline", "of", "distinct", "min", "max", "diff", "by", "low", "high", "around", "between", "pos", "layered", "reverse",
              *"((()))**&&-{},,", "1", "2", "1000", "1001", "0", *"xyxy", "zz", "+", "\t", "BEST", "Skyline", "OF", "MIN"]
    QUESTIONS = ["best low(x)*high(y)", "top_level 2 low(x)&(high(y)*-low(x)) by y", "at_least 3 around(x,-5) * between(y,1,5)", "best pos(x,1,2) & layered(y,{1,2},{3})",
                 "skyline of x min, y max, by diff", "skyline of distinct distinct min, x max", "best reverse(low(by))", "best -(low(x))*low(min) by low, x"]

    def changed(self, chance):
        """A question in which some pieces are taken away, put in or replaced, or which breaks off."""
        pieces = re.findall(r"[A-Za-z][\w.]*|\d+|\s+|.", chance.choice(self.QUESTIONS))
        for _ in range(chance.randrange(4)):
            at = chance.randrange(len(pieces) + 1)
            pieces[at:at + chance.randrange(2)] = chance.choices(self.PIECES, k=chance.randrange(2))
            if chance.random() < 0.1:
                pieces = pieces[:at]
        question = "".join(pieces)
        return question if question.strip() else "best"

    def outcome(self, ask):
        try:
            return [(row.level, row.id) for row in ask()]
        except prefq.Refused as why:
            return why.number, why.place, why.question

    def test_random_questions(self):
        chance = random.Random(11)
        rows = [[chance.randrange(5) for _ in self.NAMES] for _ in range(20)]
        refusals = 0
        with prefq.Frame.from_records([dict(zip(self.NAMES, row)) for row in rows]) as frame, prefq.Table(self.NAMES, rows) as table:
            def without_expressions(text, column, names, mode, make):
                return read_question(text, column, names)

            with unittest.mock.patch("prefq.table.explained", lambda why, columns: why), unittest.mock.patch("prefq.selection.read_frames_question", without_expressions):
                for _ in range(2000):
                    question = self.changed(chance)
                    by_table = self.outcome(lambda: table.best(question))
                    self.assertEqual(self.outcome(lambda: frame.best(question)), by_table, question)
                    refusals += isinstance(by_table, tuple)
        self.assertGreater(refusals, 500)
        self.assertLess(refusals, 1500)


class Spellings(TestCase):
    """Each of these questions has these ids in its answer."""

    ANSWERS = [
        ("best low('Price (EUR)')", [1]), ('best low("Price (EUR)")', [1]), ("best low(`Price (EUR)`)", [1]),
        ("best\n  low(x)\t*\n  high(Stars)", [1, 3]), ("best low(x)*-low(x)", [1, 2, 3]),
        ("best pos(City, 'Bern', \"Köln\")", [2, 3]), ("best pos(Pool, no)", [2]), ("best pos(Pool, 'FALSE')", [2]), ("best high(Pool) & low(x)", [1]),
        ("best around(Opened, 2001-12-31)", [1]), ("best around(Opened, '2011-02-22')", [3]), ("best between(Opened, 1900-01-01, 1999-12-31)", [2]),
        ("best around(Stars, 4)", [1]), ("best around(Stars, 3.75)", [1, 2]), ("best around(Stars, 375e-2)", [1, 2]), ("best around(Stars, 3.749)", [2]),
        ("best around(Stars, -1e30)", [2]), ("best pos(x, 1.5)", [2]), ("best pos(x, 1.50, 0.5)", [1, 2]), ("best pos(Stars, 4.55, 5)", [3]),
        ("Skyline Of Stars MAX", [3]), ("skyline of x min, Stars max, Pool diff", [1, 2, 3]), ("best layered(City, {'Bern'}, {'Lyon'})", [2]),
    ]

    def test_answers(self):
        with prefq.Frame.from_records(RECORDS) as frame, warnings.catch_warnings():
            warnings.simplefilter("ignore", prefq.UnknownValue)
            for question, ids in self.ANSWERS:
                with self.subTest(question=question):
                    self.assertEqual(frame.best(question).ids, ids)

    def test_distinct_is_a_column_too(self):
        with prefq.Frame.from_records([{"distinct": 1, "min": 5}, {"distinct": 1, "min": 5}, {"distinct": 2, "min": 5}]) as frame:
            self.assertEqual(frame.best("skyline of distinct min").ids, [1, 2])
            self.assertEqual(frame.best("skyline of distinct distinct min").ids, [1])
            self.assertEqual(frame.best('skyline of "distinct" min').ids, [1, 2])
            self.assertEqual(frame.best("skyline of distinct min min, distinct diff").ids, [1, 3])

    def test_a_value_that_no_row_has(self):
        with prefq.Frame.from_records(RECORDS) as frame:
            with self.assertWarnsRegex(prefq.UnknownValue, "no row of 'City' has 'Lion'; did you mean 'Lyon'?") as caught:
                self.assertEqual(frame.best("best pos(City, 'Lion')").ids, [1, 2, 3])
            self.assertEqual(caught.filename, __file__)
            frame.insert({"City": "Lion"})
            self.assertEqual(frame.best("best pos(City, 'Lion')").ids, [4])

    def test_a_number_that_no_float_is_stands_for_none_near_to_it(self):
        """As in a condition, where such a number equals none."""
        with prefq.Frame.from_records([{"f": 2.0**53}, {"f": 0.0}, {"f": 0.1}]) as frame:
            for text in ("9007199254740993", "1e-400", "0.10000000000000000555"):
                with self.subTest(text), self.assertWarnsRegex(prefq.UnknownValue, f"no row of 'f' has '{text}'"):
                    self.assertEqual((frame.best(f"best pos(f, {text})").ids, frame.best("best empty()", where=f"f = {text}").ids), ([1, 2, 3], []))
            for text, id in (("9007199254740992", 1), ("0.0e0", 2), ("-0", 2), ("0.100", 3), ("1e-1", 3)):
                with self.subTest(text):
                    self.assertEqual((frame.best(f"best pos(f, {text})").ids, frame.best("best empty()", where=f"f = {text}").ids), ([id], [id]))
            frame.insert({"f": 2**60})
            for text in ("1152921504606846976", "1.152921504606847e+18"):       # which it is, and which Python shows for it
                self.assertEqual(frame.best(f"best pos(f, {text})").ids, [4])

    def test_nestings_of_a_term_and_of_an_expression_in_it_count_together(self):
        """Python itself gave up, by a RecursionError."""
        with prefq.Frame.from_records([{"x": 1}, {"x": 2}]) as frame:
            for expression in ("(" * 24 + "x" + " + 1)" * 24, "min(" * 24 + "x" + ", x)" * 24, "x + 1 > 1 and (" * 24 + "x > 1" + ")" * 24):
                for count, is_refused in [(40, False), (41, True), (64, True)]:
                    question = f"best {'(' * count}high({expression}){')' * count}"
                    with self.subTest(expression, count=count):
                        if is_refused:
                            with self.refuses(prefq.Refused, "more than 64 nestings", kind="term", number=4):
                                frame.best(question)
                        else:
                            self.assertEqual(frame.best(question).ids, [2])

    def test_the_deepest_question_is_read_far_from_the_depth_of_python(self):
        """A caller may stand deep itself: with 64 parentheses and 63 sums some 140 calls were too many."""
        def beneath(calls, ask):
            return beneath(calls - 1, ask) if calls else ask()

        sums, nested = " + x" * 63, "min(" * 24 + "x" + ", x)" * 24
        with prefq.Frame.from_records([{"x": 1}, {"x": 2}]) as frame:
            for question in (f"best {'(' * 64}high(x{sums}){')' * 64}", f"best {'(' * 40}high({nested}){')' * 40}", f"best {'(high(x) & ' * 63}high(x){')' * 63}"):
                with self.subTest(question[:40]), frame.query("best low(x)"):      # beside which no answer is kept
                    self.assertEqual(beneath(400, lambda: frame.best(question).ids), [2])

    def test_a_number_beside_floats_where_decimals_may_not_be_made_of_floats(self):
        with prefq.Frame.from_records([{"f": 0.5}, {"f": 0.1}]) as frame, decimal.localcontext() as context:
            context.traps[decimal.FloatOperation] = True
            self.assertEqual(frame.best("best pos(f, 0.1)").ids, [2])

    def test_a_value_that_is_like_none_is_not_taken_for_one(self):
        with prefq.Frame.from_records([{"hair": "blonde"}, {"hair": "brown"}]) as frame:
            with self.assertWarnsRegex(prefq.UnknownValue, "no row of 'hair' has 'none'$"):
                frame.best("best pos(hair, 'none')")

    def test_an_example_of_a_value_is_one_of_the_column(self):
        records = [{"long": "a" * 50, "choice": "M", "quote": "O'Hara", "none": None}, {"long": "b" * 50, "choice": "S", "quote": "x", "none": None}]
        with prefq.Frame.from_records(records, kinds={"choice": "choice(S, M, L)", "none": "text"}) as frame:
            for name, says in [("long", "written like 'Lyon'"), ("choice", "such as 'S'"), ("quote", "such as 'O''Hara'"), ("none", "written like 'Lyon'")]:
                with self.refuses(prefq.Refused, f"Here could stand a value of '{name}', {says}\n"):
                    frame.best(f"best pos({name}, )")

    def test_an_empty_text_of_a_column_is_no_hint(self):
        """It stands in each text, and shows nobody what could stand there."""
        self.assertIsNone(nearest("Zug", ["", " ", "Bern"]))
        with prefq.Frame.from_records([{"City": ""}, {"City": " "}, {"City": "Bern"}]) as frame:
            with self.assertWarnsRegex(prefq.UnknownValue, "no row of 'City' has 'Zug'$"):
                frame.best("best pos(City, 'Zug')")
            with self.refuses(prefq.Refused, "Here could stand a value of 'City', such as 'Bern'\n"):
                frame.best("best pos(City, )")
        with prefq.Frame.from_records([{"City": ""}]) as frame, self.refuses(prefq.Refused, "written like 'Lyon'\n"):
            frame.best("best pos(City, )")

    def test_long_names_and_texts_are_not_compared(self):
        chance = random.Random(5)

        def text(length, signs):
            return "".join(chr(chance.randrange(0x4e00, 0x4e00 + signs)) for _ in range(length))

        for length, count, signs in [(1000, 500, 20_000), (10_000, 16, 2), (100, 500, 2), (100, 500, 30), (4, 20_000, 3)]:
            names = [text(length, signs) for _ in range(count)]
            with self.subTest(length=length, count=count), self.within(2):
                nearest(text(length, signs), names)
        self.assertIsNone(nearest("x" * 101, ["x" * 101]))
        self.assertEqual(nearest("x" * 99 + "y", ["z", "x" * 100]), "x" * 100)

    def test_a_letter_that_a_name_contains_is_not_meant_by_it(self):
        self.assertIsNone(nearest("Lyon", ["y", "no"]))
        self.assertEqual(nearest("the price of a night", ["y", "price"]), "price")

    def test_nearest(self):
        names = ["Price (EUR)", "Distance km", "x", "X"]
        for name, wanted in [("price", "Price (EUR)"), ("distance", "Distance km"), ("x", "x"), ("distance in km", "Distance km"), ("kn", None), ("prise", "Price (EUR)"), ("zzz", None), ("", None)]:
            self.assertEqual(nearest(name, names), wanted, name)
