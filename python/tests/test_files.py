"""CSV as people have it: words that are missing or are values, thousands and units, encodings, ends of lines, names that stand twice, and an answer that comes back."""
import csv
import gzip
import io
import json
import random
import subprocess
import sys
import tempfile
import time
import unittest.mock
from datetime import date, time as clock
from decimal import Decimal
from pathlib import Path

import prefq
from prefq.reading import read_csv
import random_frames
from support import TestCase
from test_ask import run

PEOPLE = "name,sex,mass\nLuke,male,77\nR2-D2,none,32\nLobot,NA,-\nC-3PO,none,NA\nLeia,female,49\n"
CARS = "car,AirBags,Price\nTercel,Driver only,9.8\nFestiva,None,7.4\nSentra,None,11.8\n"
AIR_BAGS = "choice(None, Driver only, Driver & Passenger)"


def from_text(text, **options):
    return prefq.Frame.from_csv(io.StringIO(text), **options)


def values(frame, name):
    return [row[name] for row in frame.rows()]


class Missing(TestCase):
    def test_a_word_is_a_value_among_texts_and_missing_among_numbers(self):
        with from_text(PEOPLE) as frame:
            self.assertEqual(values(frame, "sex"), ["male", "none", "NA", "none", "female"])
            self.assertEqual(values(frame, "mass"), [77, 32, None, None, 49])
            self.assertEqual(frame.notes, ["column 'mass': '-' (1 row), 'NA' (1 row) taken for missing; missing=[..] says otherwise"])
            self.assertEqual(frame.best("best low(mass) by sex").ids, [1, 2, 3, 5])

    def test_a_word_that_a_choice_or_a_bool_names_is_a_value(self):
        with from_text(CARS, kinds={"AirBags": AIR_BAGS}) as frame:
            self.assertEqual(frame.best("best low(AirBags) & low(Price)").ids, [2])
            self.assertEqual(frame.notes, [])
        done = run("ask", "-", "best low(AirBags) & low(Price)", "--csv", "--kind", f"AirBags={AIR_BAGS}", text=CARS)
        self.assertEqual((done.returncode, done.stdout, done.stderr), (0, "level,id,car,AirBags,Price\n1,2,Festiva,None,7.4\n", ""))
        with from_text("n,pool\n1,Y\n2,-\n3,\n", kinds={"pool": "bool(Y, -)"}, missing=["-", "none"]) as frame:
            self.assertEqual(values(frame, "pool"), [True, False, None])

    def test_words_that_are_given(self):
        """As they stand in the file, in any case, in every column; and then no others."""
        with from_text(PEOPLE, missing=["NA", "-", "NONE"]) as frame:
            self.assertEqual(values(frame, "sex"), ["male", None, None, None, "female"])
            self.assertEqual(values(frame, "mass"), [77, 32, None, None, 49])
        with from_text("x,y\n1,-\n?,NA\n", missing=["?"]) as frame:
            self.assertEqual([dict(row) for row in frame.rows()], [{"x": 1, "y": "-"}, {"x": None, "y": "NA"}])
        with from_text("x,y\n1,\nNA,2\n", missing=[]) as frame:
            self.assertEqual([dict(row) for row in frame.rows()], [{"x": "1", "y": None}, {"x": "NA", "y": 2}])
        with self.refuses(TypeError, "missing is a list of words"):
            from_text(PEOPLE, missing="NA")
        done = run("ask", "-", "best low(mass) by sex", "--csv", "--missing", "none", "--missing", "na", "--missing", "-", text=PEOPLE)
        self.assertEqual([line[:3] for line in done.stdout.splitlines()[1:]], ["1,1", "1,2", "1,5"])

    def test_words_that_are_no_texts(self):
        for missing, says in [([-999], "missing has -999, which is no text: write the word as it stands in the file, as '-999'"), (["NA", None], "missing has None"), ([b"NA"], "missing has b'NA'"),
                              (b"NA", "missing is a list of words, not b'NA'")]:
            with self.subTest(missing=missing):
                with self.refuses(TypeError, says):
                    from_text("x,y\n1,-999\n", missing=missing)
                with self.refuses(TypeError, says):
                    prefq.parts.best(["prices.csv"], "best low(x)", missing=missing)

    def test_words_and_columns_that_come_once(self):
        """Parts of which each is read anew forgot the words, so that -999 was the best price."""
        with tempfile.TemporaryDirectory() as folder:
            path = Path(folder, "prices.csv")
            path.write_text("price,x\n-999,1\n5,2\n")
            self.assertEqual(prefq.parts.best([path, path], "best low(price)", missing=(word for word in ["-999"])).ids, [2, 4])
        with from_text("price,x\n-999,1\n5,2\n", missing=iter(["-999"]), columns=iter(["x", "price"])) as frame:
            self.assertEqual([dict(row) for row in frame.rows()], [{"x": 1, "price": None}, {"x": 2, "price": 5}])
        with prefq.Frame.from_records([{"x": 1, "y": 2}], columns=iter(["y"])) as frame:
            self.assertEqual(frame.names, ["y"])

    def test_words_that_python_inserts_are_texts(self):
        with from_text("name,mass\nLuke,77\n") as frame:
            for word in ["Null", "None", "NA", "n/a", "-", "nan", ""]:
                self.assertEqual(frame.get(frame.insert({"name": word})).name, word)
                if word:
                    with self.refuses(ValueError, f"column 'mass' (whole): '{word}' is no number"):
                        frame.insert({"mass": word})

    def test_a_column_of_nothing_but_such_words_has_texts(self):
        with from_text("x,y\n1,NA\n2,none\n") as frame:
            self.assertEqual(values(frame, "y"), ["NA", "none"])


class WrittenOtherwise(TestCase):
    """Numbers, dates and truth values that are not plain: read where a kind says how; else the refusal names the kinds that would."""

    def test_thousands(self):
        text = 'x,qty\n1,"1,200"\n2,999\n3,"12,500"\n'
        with from_text(text) as frame, self.refuses(prefq.Refused, "'1,200' is not plain: the kind whole(thousands=\",\") reads 1200, or the kind decimal(3, decimal=\",\") reads 1.200"):
            frame.best("best high(qty)")
        with from_text(text, kinds={"qty": 'whole(thousands=",")'}) as frame:
            self.assertEqual((values(frame, "qty"), frame.best("best high(qty)").ids), ([1200, 999, 12500], [3]))
        with from_text(text, thousands=",") as frame:
            self.assertEqual(values(frame, "qty"), [1200, 999, 12500])

    def test_a_point_is_no_decimal_point_where_that_is_a_comma(self):
        text = "x;qty\n1;1.200\n2;999\n3;12.500\n"
        with from_text(text, decimal=",") as frame, self.refuses(prefq.Refused, "column 'qty' has texts", "the kind whole(thousands=\".\", decimal=\",\") reads 1200"):
            frame.best("best high(qty)")
        with from_text(text, decimal=",", thousands=".") as frame:
            self.assertEqual(values(frame, "qty"), [1200, 999, 12500])
        done = run("ask", "-", "best high(qty)", "--decimal", ",", text=text)
        self.assertEqual(done.returncode, 2)
        done = run("ask", "-", "best high(qty)", "--decimal", ",", "--thousands", ".", "--csv", text=text)
        self.assertEqual(done.stdout, "level,id,x,qty\n1,3,3,12.500\n")

    def test_texts_that_are_no_files(self):
        for text, kind in [("5", "whole reads 5"), ("7.50", "decimal(2) reads 7.50"), ("yes", "bool reads True"), ("2026-05-01", "date reads 2026-05-01")]:
            with prefq.Frame.from_records([{"x": text}]) as frame, self.refuses(prefq.Refused, f"has texts ('{text}' is a text: the kind {kind}), which"):
                frame.best("best low(x)")

    def test_dates_by_the_names_of_months_and_by_the_year_first(self):
        for text, kind in [("19-Sep-03", 'date("%d-%b-%y") reads 2003-09-19'), ("19 Sep 2003", 'date("%d %b %Y") reads 2003-09-19'), ("2003/09/19", 'date("%Y/%m/%d") reads 2003-09-19'),
                           ("19-Sep-03 17:30", 'time("%d-%b-%y %H:%M") reads 2003-09-19 17:30:00')]:
            with self.subTest(text), from_text(f"x\n{text}\n") as frame, self.refuses(prefq.Refused, f"('{text}' is not plain: the kind {kind}), which"):
                frame.best("best low(x)")

    def test_a_sign_with_a_blank_behind_it(self):
        """Is none of a plain number, and no reason to refuse the file."""
        for cells in (["5", "- 5"], ["+ 5"], ["- 5", "NA", ""]):
            with from_text("".join(f"{cell},x\n" for cell in ["a", *cells])) as frame:
                self.assertEqual(values(frame, "a"), [cell or None for cell in cells])

    def test_plain_points_in_a_file_of_decimal_commas(self):
        """A kind that names its sign has that sign, whatever the file has; and what is said of such a column names that kind."""
        text = "x;y;n\n1,5;2.50;1\n2,25;3.75;2\n"
        with from_text(text, decimal=",") as frame, self.refuses(prefq.Refused, "the kind decimal(2, decimal=\".\") reads 2.50"):
            frame.best("best low(y)")
        for spelling, found in [('decimal(2, decimal=".")', [Decimal("2.50"), Decimal("3.75")]), ('decimal(3, decimal=".")', [Decimal("2.500"), Decimal("3.750")]), ('float(decimal=".")', [2.5, 3.75])]:
            with from_text(text, decimal=",", kinds={"y": spelling, "n": 'whole(decimal=".")'}) as frame:
                self.assertEqual((values(frame, "x"), values(frame, "y"), values(frame, "n"), str(frame.columns[1].kind)), ([Decimal("1.50"), Decimal("2.25")], found, [1, 2], spelling))
        with self.refuses(ValueError, "line 2, column 'y' (decimal(2, decimal=\",\")): '2.50' is no number"):
            from_text(text, decimal=",", kinds={"y": "decimal(2)"})
        done = run("ask", "-", "best low(y)", "--csv", "--decimal", ",", "--kind", 'y=decimal(2, decimal=".")', text=text)
        self.assertEqual((done.stdout, done.stderr), ("level,id,x,y,n\n1,1,\"1,5\",2.50,1\n", ""))
        self.assertIn("y: text ('2.50' is a text: the kind decimal(2, decimal=\".\") reads 2.50", run("ask", "-", "--decimal", ",", text=text).stdout)

    def test_an_option_of_a_kind_that_stands_twice(self):
        for spelling, name in [('decimal(2, unit="€", unit="$")', "unit"), ('whole(thousands=",", thousands=".")', "thousands"), ("float(parentheses, decimal=\",\", parentheses)", "parentheses")]:
            with self.subTest(spelling=spelling), self.refuses(prefq.Refused, f"no kind {spelling!r}: {name} stands there twice"):
                from_text("x\n5\n", kinds={"x": spelling})

    def test_the_culprit_is_named(self):
        with from_text("x;y\n1;57,40\n2;1.065,61\n3;5,00\n", decimal=",") as frame:
            with self.refuses(prefq.Refused, "decimal(2, thousands=\".\", decimal=\",\") reads"):
                frame.best("best low(y)")
        with from_text("x;y;z\n1;160;2,62\n2;146,7;2,875\n", delimiter=";") as frame:
            for name, kind in [("y", 'decimal(1, decimal=",")'), ("z", 'decimal(3, decimal=",")')]:
                with self.refuses(prefq.Refused, kind):
                    frame.best(f"best low({name})")

    def test_thousands_do_not_begin_with_a_zero(self):
        with from_text('x\n"0,123"\n"1,250"\n') as frame, self.refuses(prefq.Refused, "the kind decimal(3, decimal=\",\") reads 0.123),"):
            frame.best("best low(x)")
        for text in ("0,123", "٠,123", "０,１２３"):
            with self.refuses(ValueError, f"{text!r} is no number"):
                from_text(f'x\n"{text}"\n', kinds={"x": 'whole(thousands=",")'})

    def test_what_no_kind_reads_by_itself(self):
        for cells, kind, found in [
                (["$5.00", "$1,250.50"], 'decimal(2, thousands=",", unit="$")', [Decimal("5.00"), Decimal("1250.50")]),
                (["5 %", "12.5 %"], 'decimal(1, unit="%")', [5, Decimal("12.5")]), (["(5.00)", "7.25"], "decimal(2, parentheses)", [-5, Decimal("7.25")]),
                (["01.05.2026", "31.12.2025"], 'date("%d.%m.%Y")', [date(2026, 5, 1), date(2025, 12, 31)]), (["5/31/2026", "12/1/2025"], 'date("%m/%d/%Y")', [date(2026, 5, 31), date(2025, 12, 1)]),
                (["17:30", "08:05:30"], "clock", [clock(17, 30), clock(8, 5, 30)]), (["Y", "N", "y"], "bool(y, n)", [True, False, True])]:
            text = io.StringIO()
            csv.writer(text).writerows([["n", "x"], *enumerate(cells)])
            with self.subTest(kind=kind):
                with from_text(text.getvalue(), delimiter=",") as frame, self.refuses(prefq.Refused, f"the kind {kind} reads"):
                    frame.best("best low(x)")
                with from_text(text.getvalue(), delimiter=",", kinds={"x": kind}) as frame:
                    self.assertEqual((values(frame, "x"), str(frame.columns[1].kind)), (found, kind))

    def test_kinds_on_the_command_line(self):
        words = ("ask", "-", "best low(a)", "--csv", "--kind")
        self.assertEqual(run(*words, 'a=decimal(2, thousands=",")', text='a,b\n"1,234.5",x\n999,y\n').stdout, "level,id,a,b\n1,2,999,y\n")
        self.assertEqual(run(*words[:2], "best low('a=b')", *words[3:], "a=b=whole", text="a=b,c\n5,x\n").stdout, "level,id,a=b,c\n1,1,5,x\n")
        for kind, says in [("decimal(²)", "no kind 'decimal(²)': it begins with the number of decimals"), ("decimal(2", "no kind 'decimal(2'"), ("decimal(99)", "0 to 18 decimals")]:
            done = run(*words, f"a={kind}", text="a,b\n1,2\n")
            self.assertEqual((done.returncode, done.stdout), (2, ""))
            self.assertIn(says, done.stderr)


class Columns(TestCase):
    def test_only_columns_that_the_question_names_are_looked_at(self):
        text = "id,x,pi,x2\n1234567890123456789,5,3.14159265358979323846,7\n9999999999999999999,4,2.5,8\n"
        self.assertEqual(run("ask", "-", "best low(x)", "--csv", text=text).stdout, "level,id,.id,x,pi,x2\n".replace("level,id,.id", "level,.id,id") + "1,2,9999999999999999999,4,2.5,8\n")
        done = run("ask", "-", text=text)
        self.assertEqual((done.returncode, done.stdout), (0, "id: text ('9999999999999999999' does not fit 64 bits: the kind float rounds it)\nx: whole\n"
                                                             "pi: text ('3.14159265358979323846' does not fit 64 bits: the kind float rounds it)\nx2: whole\n"))
        with from_text(text) as frame:
            self.assertEqual(frame.best("best low(x)")[0].pi, "2.5")

    def test_codes_that_would_lose_a_zero_are_texts(self):
        for cells in (["01E5", "02E7"], ["00e1"], ["+01E5", "7"], ["0٣e2", "12"], ["01.10", "31.12"], ["007.5", "8"], ["-00.5", "1.25"], ["٠١.٥", "2"], ["01.5e1", "2"]):
            with self.subTest(cells), from_text("\n".join(["x", *cells])) as frame:
                self.assertEqual(values(frame, "x"), cells)
                with self.refuses(prefq.Refused, f"{cells[0]} begins with a zero"):
                    frame.best("best low(x)")
        with from_text("x\n1E5\n0e3\n0.5e1\n") as frame:
            self.assertEqual(values(frame, "x"), [100_000, 0, 5])
        with from_text("x,y\n0.05,10.01\n.05,-0.0\n-0.0,100\n") as frame:
            self.assertEqual([tuple(row.values()) for row in frame.rows()], [(Decimal("0.05"), Decimal("10.01")), (Decimal("0.05"), 0), (0, 100)])
        with from_text('x;y\n01,10;"0,5"\n31,12;"-0,25"\n', decimal=",") as frame:
            self.assertEqual([tuple(row.values()) for row in frame.rows()], [("01,10", Decimal("0.5")), ("31,12", Decimal("-0.25"))])

    def test_names_that_stand_twice(self):
        text = "a,b,a\n1,2,3\n4,1,6\n"
        self.assertEqual(run("ask", "-", "best low(b)", "--csv", text=text).stdout, "level,id,a,b,a\n1,2,4,1,6\n")
        self.assertIn("two columns are called 'a', those at places 1 and 3", run("ask", "-", "best low(a)", text=text).stderr)
        with from_text(text, columns=["b"]) as frame:
            self.assertEqual(values(frame, "b"), [2, 1])
        for columns in (None, ["a"]):
            with self.refuses(prefq.Refused, "two columns are called 'a'"):
                from_text(text, columns=columns)

    def test_words_of_other_programs(self):
        for word, name in [("sep", "delimiter"), ("na_values", "missing"), ("skiprows", "skip"), ("dtype", "kinds"), ("usecols", "columns"), ("encodin", "encoding")]:
            with self.refuses(TypeError, f"Frame.from_csv has no option '{word}'", repr(name)):
                from_text("x\n1\n", **{word: ";"})
        with self.refuses(TypeError, "psel has no option 'levels'", "top_level"):
            prefq.psel([{"x": 1}], "low(x)", levels=10)

    def test_many_columns(self):
        names = ",".join(f"x{place}" for place in range(20_000))
        begun = time.process_time()
        done = run("ask", "-", "best low(x19999)", "--csv", text=names + "\n" + ",".join(["1"] * 20_000) + "\n")
        self.assertEqual(done.stdout, f"level,id,{names}\n1,1" + ",1" * 20_000 + "\n")
        self.assertLess(time.process_time() - begun, 3)


class Files(TestCase):
    def reads(self, data, **options):
        """The records of a file with these bytes."""
        with prefq.Frame.from_csv(io.BytesIO(data), **options) as frame:
            return [dict(row) for row in frame.rows()]

    def test_encodings_by_their_mark(self):
        text = "city,x\nKöln,1\n"
        for encoding in ("utf-8", "utf-8-sig", "utf-16", "utf-32"):
            self.assertEqual(self.reads(text.encode(encoding)), [{"city": "Köln", "x": 1}])
        self.assertEqual(self.reads(("\ufeff" + text).encode("utf-16-be")), [{"city": "Köln", "x": 1}])
        self.assertEqual(self.reads(text.encode("utf-16-le"), encoding="utf-16-le"), [{"city": "Köln", "x": 1}])

    def test_a_mark_that_an_encoding_leaves(self):
        """Behind it a name may stand in quotes."""
        text, record = '\ufeff"city, land",x\n"Bern, CH",1\n', {"city, land": "Bern, CH", "x": 1}
        for encoding in ("utf-8", "utf-16-le", "utf-32-be"):
            self.assertEqual(self.reads(text.encode(encoding), encoding=encoding), [record])
            self.assertEqual(self.reads(f"\ufeffOffers\n{text[1:]}".encode(encoding), encoding=encoding, skip=1), [record])
        with from_text(text) as frame:
            self.assertEqual([dict(row) for row in frame.rows()], [record])
        self.assertEqual(self.reads('x,t\n1,\ufeffa\n'.encode()), [{"x": 1, "t": "\ufeffa"}])

    def test_an_encoding_that_there_is_not(self):
        """Python has encodings of bytes too."""
        for encoding in ("utf8x", "hex", "rot13", "a\0b"):
            with self.subTest(encoding=encoding), self.refuses(ValueError, f"encoding is {encoding!r}: Python knows no encoding of text by this name"):
                self.reads(b"city,x\nBern,1\n", encoding=encoding)
        with self.refuses(TypeError, "encoding is 8: not the name of one"):
            self.reads(b"city,x\nBern,1\n", encoding=8)
        done = run("ask", "-", "best low(x)", "--encoding", "utf8x", text="city,x\nBern,1\n")
        self.assertEqual((done.returncode, done.stderr), (2, "prefq: encoding is 'utf8x': Python knows no encoding of text by this name\n"))

    def test_packed(self):
        data = gzip.compress(b"city,x\nBern,1\n")
        self.assertEqual(self.reads(data), [{"city": "Bern", "x": 1}])
        damaged = bytearray(gzip.compress(bytes(range(256)) * 9))
        damaged[12:20] = b"\xff" * 8
        for packed in (data[:20], data[:3], data[:-5], data[:-1] + b"x", data + b"\x1f\x8b", bytes(damaged)):
            with self.subTest(packed=packed), self.refuses(prefq.Refused, "cannot be unpacked"):
                self.reads(packed)
        with self.refuses(prefq.Refused, "is no text: its byte 3 is 0"):
            self.reads(b"a,b\0\n1,2\n")

    def test_ends_of_lines(self):
        for end in ("\r", "\n", "\r\n"):
            for last in (end, ""):
                with self.subTest(end=end, last=last):
                    self.assertEqual(self.reads(f'city,x{end}"a{end}b",1{end}c,2{last}'.encode()), [{"city": f"a{end}b", "x": 1}, {"city": "c", "x": 2}])
        self.assertEqual(run("ask", "-", "best low(b)", "--csv", text="a,b\r1,2\r3,1\r").stdout, "level,id,a,b\n1,2,3,1\n")

    def test_delimiters(self):
        for text, names in [("Preis, netto;Menge, Stück;Ort\n5;2;Lyon\n7,5;1;Bern\n", ["Preis, netto", "Menge, Stück", "Ort"]), ("Name, Vorname;Preis\nMeier, Hans;12\n", ["Name, Vorname", "Preis"]),
                            ("sep=|\na;b|c\n1;2|3\n", ["a;b", "c"]), ("a|b\n1|2\n", ["a", "b"]), ('"two\nlines";b\n1;2\n', ["two\nlines", "b"]), ("one\n1\n", ["one"])]:
            with self.subTest(text=text), from_text(text) as frame:
                self.assertEqual(frame.names, names)
                self.assertEqual(len(frame), text.count("\n") - 1 - text.count("sep=") - text.count("two"))

    def test_the_delimiter_behind_many_lines_that_are_skipped(self):
        """Only the first 64 KB were looked at, and where the names stood behind them the delimiter was taken for a comma."""
        before = "# a line of the instrument\n" * 5000
        for text in ("a;b\n1,5;2\n", "sep=;\na;b\n1,5;2\n"):
            with self.subTest(text=text), from_text(before + text, skip=5000, decimal=",") as frame:
                self.assertEqual(frame.rows(), [{"a": Decimal("1.5"), "b": 2}])

    def test_a_line_that_names_no_delimiter(self):
        """It is the one with the names. The end of the line was taken for the delimiter, and each row for one cell."""
        for line in ("sep=\r\n", 'sep="\n', "sep=\r"):
            with self.subTest(line=line), self.refuses(prefq.Refused, "line 2: it has 2 cells, and the first line has 1 name; skip=1 leaves out that line"):
                self.reads(f"{line}a,b\r\n1,2\r\n".encode())

    def test_a_line_that_is_refused_behind_plain_ones(self):
        """It is named by its number in the file, however many rows are read at a time."""
        plain = "\n\nx,y\n" + "1,2\n" * 6 + '"a\nb",2\r\n\n' + "3,4\n" * 6
        for line, options, says in [('"5"6,1\n', {}, "line 19: ',' expected after '\"'"), ("5,6,7\n", {}, "line 19: it has 3 cells"), ('"5', {}, "line 19: unexpected end of data"),
                                    ("5,x\n", {"kinds": {"y": "whole"}}, "line 19, column 'y' (whole): 'x' is no number")]:
            for chunk in (1, 5, 9, 24, 40, 65_536):
                with self.subTest(line=line, chunk=chunk), unittest.mock.patch("prefq.reading.CHUNK", chunk), self.refuses((prefq.Refused, ValueError), says):
                    from_text(plain + line, **options)

    def test_a_file_without_rows_keeps_the_kinds_that_are_given(self):
        for text in ("x,y\n", "x,y", "x,y\n\n \n"):
            with from_text(text, kinds={"x": "decimal(2)"}) as frame:
                self.assertEqual([str(column.kind) for column in frame.columns], ["decimal(2)", "text"])
                self.assertEqual(frame.get(frame.insert({"x": "5.5", "y": "a"})).x, Decimal("5.50"))

    def test_lines_that_are_not_as_the_others(self):
        self.assertEqual(self.reads(b"Offers of May\n\nx,y\n1,2\n", skip=2), [{"x": 1, "y": 2}])
        self.assertEqual(self.reads(b"x,y\n1,2\n   \n\n3,4,\n,\n"), [{"x": 1, "y": 2}, {"x": 3, "y": 4}, {"x": None, "y": None}])
        self.assertEqual(self.reads(b"x,y,\n1,2,\n3,4,\n"), [{"x": 1, "y": 2}, {"x": 3, "y": 4}])
        self.assertEqual(self.reads(b"x,y\n1\n3,4\n", null_padding=True), [{"x": 1, "y": None}, {"x": 3, "y": 4}])
        with self.refuses(prefq.Refused, "line 3: it has 1 cells", "null_padding=True"):
            self.reads(b"x,y\n1,2\n3\n")
        with self.refuses(prefq.Refused, "line 4: it has 3 cells"):
            self.reads(b"note\nx,y\n1,2\n1,2,3\n", skip=1)
        self.assertIn("--null-padding fills short rows", run("ask", "-", "best low(x)", text="x,y\n1,2\n3\n").stderr)

    def test_empty_lines_before_the_names(self):
        """They are none of the rows, and neither are the names."""
        for text, options in [("\n\na,b\n1,2\n\n3,4\n", {}), ("  \n\na;b\n1;2\n3;4\n", {}), ("note\n\na,b\n1,2\n3,4\n", {"skip": 1}), ("sep=|\r\n\r\na|b\r\n1|2\r\n3|4\r\n", {}), ("\n\na,b,\n1,2,\n3,4,\n", {})]:
            with self.subTest(text=text):
                self.assertEqual(self.reads(text.encode(), **options), [{"a": 1, "b": 2}, {"a": 3, "b": 4}])
                with self.refuses(ValueError, f"line {text.replace(chr(13), '').split(chr(10)).index(text.replace(chr(13), '').strip().split(chr(10))[-1]) + 1}, column 'b' (bool): '4'"):
                    self.reads(text.encode().replace(b"2", b"no"), kinds={"b": "bool"}, **options)
        self.assertEqual(run("ask", "-", "best low(b)", "--csv", text="\n\na,b\n1,2\n3,1\n").stdout, "level,id,a,b\n1,2,3,1\n")

    def test_a_line_of_blanks_is_no_row_in_a_file_of_one_column(self):
        """It was a row without a value there, which nobody sees who looks at the file."""
        for text, values in [("x\n5\n  \n7\n\t", [5, 7]), ("x\n  \n", []), ('x\n5\n""\n7\n', [5, None, 7]), ("x\n \nLyon\n\n  Bern \n", ["Lyon", "  Bern "]),
                             ("x,\n5,\n ,\n,\n \n", [5, None, None])]:
            with self.subTest(text=text):
                self.assertEqual([row["x"] for row in self.reads(text.encode())], values)
        with self.refuses(ValueError, "line 4, column 'x' (bool): '5'"):
            self.reads(b"x\n \nyes\n5\n", kinds={"x": "bool"})

    def test_blanks_in_quotes_are_a_row(self):
        """It was left out, and with it all that is told of rows by their number, as that of a line."""
        for text, values in [('x\n5\n" "\n7\n', [5, None, 7]), ('x\n5\n" "\n\t\n"\t"\n""\n \n7\n', [5, None, None, None, 7]), ('x\n"\n \n"\n \n7\n', [None, 7]),
                             ('x\nLyon\n" "\n"\n"\n" \n"\n', ["Lyon", None, None, None]), ('x\r\n5\r\n"  "\r\n \r\n7', [5, None, 7]), ('" "\n5\n', None)]:
            with self.subTest(text=text):
                rows = self.reads(text.encode())
                self.assertEqual([row.get("x") for row in rows] if values else rows, values or [{"column 1": 5}])
        with self.refuses(ValueError, "line 6, column 'x' (bool): '5'"):
            self.reads(b'x\n \n" "\nyes\n" "\n5\n', kinds={"x": "bool"})
        with self.refuses(prefq.Refused, "line 3: it has 1 cells, and the first line has 2 names"):
            self.reads(b'x,y\n1,2\n" "\n', kinds={"x": "whole"})
        self.assertEqual(self.reads(b'x,y\n1,2\n" "\n', null_padding=True), [{"x": 1, "y": 2}, {"x": None, "y": None}])

    def test_blanks_in_quotes_in_a_long_file(self):
        """Also where a row goes on behind the letters that are read at a time."""
        for text, values in [("x\n" + '7\n" "\n \n"\n"\n' * 20_000, [7, None, None] * 20_000), ("x\n" + "7\n" * 32_767 + '"' + "\n" * 5_000 + '"\n7\n', [7] * 32_767 + [None, 7])]:
            with from_text(text) as frame:
                self.assertTrue([row["x"] for row in frame.rows()] == values)       # of which no difference is to be shown

    def test_long_cells(self):
        long = "a" * 200_000
        self.assertEqual(self.reads(f"{long},x\n{long},1\n".encode()), [{long: long, "x": 1}])
        self.assertEqual(self.reads(("x,y\n" + "0" * 200_000 + ",1\n").encode())[0]["y"], 1)

    def test_closed_standard_streams(self):
        for closed, status, says in [("<&-", 2, "standard input is closed"), (">&-", 1, "standard output is closed")]:
            done = subprocess.run(["sh", "-c", f'printf "a,b\\n1,2\\n" | {{ "$0" -m prefq ask - "best low(a)" {closed}; }}', sys.executable], capture_output=True, encoding="utf-8", timeout=60)
            self.assertEqual((done.returncode, done.stdout, done.stderr), (status, "", f"prefq: {says}\n"))

    def test_what_never_ends_is_no_text(self):
        with open("/dev/zero", "rb") as file, self.refuses(prefq.Refused, "is no text"):
            prefq.Frame.from_csv(file)


class ComesBack(TestCase):
    """An answer in CSV is read as the values that it has."""

    def again(self, records, kinds, with_kinds):
        names = list(records[0])
        with prefq.Frame.from_records([{**record, "all": 1} for record in records], kinds=kinds) as frame:
            answer = frame.best("best low(all)")
            self.assertEqual([dict(row) for row in answer], [{**record, "all": 1} for record in records])
        kinds = {column.name: str(column.kind) for column in answer.columns} if with_kinds else None
        with prefq.Frame.from_csv(io.StringIO(answer.to_csv()), columns=names, kinds=kinds) as again:
            self.assertEqual([dict(row) for row in again.rows()], records)
            self.assertEqual(again.notes, [])

    def test_random_frames(self):
        further = (random_frames.Written, random_frames.WrittenDates)
        for number in range(40):
            random_ = random.Random(number)
            columns, records = random_frames.frame(random_, further)
            is_seen = {name: not kind.is_given for name, kind in columns.items()}
            with self.subTest(number=number):
                self.again(records, {name: kind.spelling for name, kind in columns.items() if kind.is_given}, True)
                if any(is_seen.values()):
                    self.again([{name: value for name, value in record.items() if is_seen[name]} for record in records], None, False)

    def test_words_and_ends_of_lines(self):
        self.again([{"code": text, "x": 1} for text in ["NA", "None", "-", "null", "a\rb", "a\r\nb", 'say "x"', "a;b", " x "]], None, False)

    def test_times_that_clocks_show_twice(self):
        for kind in ("time(Europe/Berlin)", 'time(Europe/Berlin, "%d.%m.%Y %H:%M")'):
            with from_text("x,at\n1,2026-10-25 02:30+01:00\n2,2026-10-25 02:30+02:00\n3,1890-01-01 00:00\n4,2026-05-01 10:00:00.000001\n", kinds={"at": kind}) as frame:
                answer = frame.best("top_level 9 low(x)")
            with prefq.Frame.from_csv(io.StringIO(answer.to_csv()), kinds={"at": kind}) as again:
                self.assertEqual([row["at"].timestamp() for row in again.rows()], [row["at"].timestamp() for row in answer])

    def test_read_in_parts(self):
        """The same kinds and values, however many rows are read at a time."""
        cells = {"a": ["1", "2.5", "NA", "", "7"], "b": ["NA", "none", "-", "x", ""], "c": ["1", "2", "x", "4", "NA"], "d": ["NA", "-", "", "none", "NA"], "e": ["yes", "", "NA", "no", "true"],
                 "f": ["2026-05-01", "2026-05-01 10:00", "", "NA", "2026-05-02"], "g": ["9223372036854775807", "1", "0.5", "2", "3"], "h": ["1", "inf", "0.5", "NA", "1e300"],
                 "i": ["1", "2", "1e3", "NA", "5"]}
        text = io.StringIO()
        csv.writer(text).writerows([cells, *zip(*cells.values())])
        found = []
        for chunk in (1, 20, 40, 65_536):
            with unittest.mock.patch("prefq.reading.CHUNK", chunk), from_text(text.getvalue()) as frame:
                found.append((list(map(str, frame.columns)), frame.rows(), frame.notes))
        self.assertEqual(found[1:], found[:-1])
        self.assertEqual([str(column.kind) for column in frame.columns], ["decimal(1)", "text", "text", "text", "bool", "time", "text", "float", "decimal(0)"])

    def test_json_has_the_values_of_columns_that_no_question_names(self):
        done = run("ask", "-", "best low(x)", "--json", text="x,y,z\n1,2.50,NA\n")
        self.assertEqual(json.loads(done.stdout, parse_float=Decimal), [{"level": 1, "id": 1, "x": 1, "y": Decimal("2.50"), "z": "NA"}])

    def test_a_file_that_is_written_to_meanwhile(self):
        """Its rows and its names are of one state, or it is refused."""
        with tempfile.TemporaryDirectory() as folder:
            path = Path(folder, "offers.csv")
            path.write_text("x,y\n1,2\n3,4\n")
            cells = read_csv(path)
            self.assertEqual(cells.rows_at([1]), {1: ["3", "4"]})
            path.write_text("y,x\n1,2\n3,4\n5,6\n")
            with self.refuses(prefq.Refused, "offers.csv was written to while it was read", kind="table"):
                cells.rows_at([1])

    def test_a_file_that_is_written_to_behind_its_first_rows(self):
        """It was a frame of rows of both states. One that another file takes the place of meanwhile is read as it was."""
        chunk = prefq.reading.Cells._chunk

        def beside(cells, text, *words):
            if "3,4" in text:
                with open(path, "r+") as file:
                    file.write("x,y\n9,9\n3,4\n5,6\n")
            return chunk(cells, text, *words)

        def in_its_place(cells, *words):
            Path(folder, "new.csv").write_text("x,y\n7,8\n")
            Path(folder, "new.csv").replace(path)
            return chunk(cells, *words)

        with tempfile.TemporaryDirectory() as folder:
            path = Path(folder, "offers.csv")
            for call in (lambda: prefq.Frame.from_csv(path), lambda: prefq.parts.best([path], "best low(x)")):
                path.write_text("x,y\n1,2\n3,4\n")
                with unittest.mock.patch("prefq.reading.Cells._chunk", beside), self.refuses(prefq.Refused, "offers.csv was written to while it was read", kind="table"):
                    call()
            path.write_text("x,y\n1,2\n3,4\n")
            with unittest.mock.patch("prefq.reading.Cells._chunk", in_its_place), prefq.Frame.from_csv(path) as frame:
                self.assertEqual([tuple(row.values()) for row in frame.rows()], [(1, 2), (3, 4)])

    def test_json_has_dates_as_iso_8601_has_them(self):
        with from_text("day,x\n01.05.2026,1\n", kinds={"day": 'date("%d.%m.%Y")'}) as frame:
            answer = frame.best("best low(x)")
        self.assertEqual(json.loads(answer.to_json())[0]["day"], "2026-05-01")
        self.assertIn("01.05.2026", answer.to_csv())
