"""`python -m prefq ask`: what it prints, its status, and what it says of a wrong question, file or option."""
import contextlib
import csv
import io
import json
import os
import re
import shlex
import subprocess
import sys
import tempfile
import textwrap
import time
import unittest.mock
from decimal import Decimal
from pathlib import Path
from xml.etree import ElementTree

import prefq
from prefq.__main__ import main
from prefq.ask import Progress
from support import TestCase

HOTELS = Path(__file__).parent / "data" / "hotels.csv"
DOCUMENT = Path(__file__).resolve().parents[2] / "docs" / "PYTHON.md"
QUESTION = "best pos(City, 'Lyon') & low(\"Price (EUR)\") * high(Stars) * low(\"Distance km\")"
# Without buffers Python cuts what a pipe does not take at once.
NOTE = "prefq: column 'Stars': 'n/a' (265 rows) taken for missing; --missing says otherwise\n"
ENVIRONMENT = {**{name: value for name, value in os.environ.items() if name != "PYTHONUNBUFFERED"}, "PYTHONIOENCODING": "utf-8"}


def run(*words, text=""):
    """Runs the command in this process."""
    output, errors = io.StringIO(), io.StringIO()
    with contextlib.redirect_stdout(output), contextlib.redirect_stderr(errors), unittest.mock.patch("sys.stdin", io.TextIOWrapper(io.BytesIO(text.encode()))):
        try:
            status = main(list(map(str, words)))
        except SystemExit as end:
            status = end.code
    return subprocess.CompletedProcess(words, status, output.getvalue(), errors.getvalue())


def process(*words, **more):
    """Runs the command as a process."""
    return subprocess.run([sys.executable, "-m", "prefq", *map(str, words)], capture_output=True, encoding="utf-8", timeout=120, env=ENVIRONMENT, **more)


@contextlib.contextmanager
def program(text):
    """The command runs a shell script in place of the program; its path."""
    with tempfile.TemporaryDirectory() as folder:
        path = Path(folder, "program")
        path.write_text(f"#!/bin/sh\n{text}\n")
        path.chmod(0o755)
        with unittest.mock.patch.dict(ENVIRONMENT, PREFQ_PROGRAM=str(path)):
            yield str(path)


class Asks(TestCase):
    def prints(self, done, status=0, errors=""):
        self.assertEqual((done.returncode, done.stderr), (status, errors))
        return done.stdout

    def refused(self, done, *says, status=2):
        self.assertEqual((done.returncode, done.stdout), (status, ""))
        for words in says:
            self.assertIn(words, done.stderr)
        self.assertNotIn("Traceback", done.stderr)

    def test_csv_has_the_rows_of_the_file(self):
        found = list(csv.reader(io.StringIO(self.prints(run("ask", HOTELS, QUESTION, "--csv"), errors=NOTE))))
        with open(HOTELS, newline="", encoding="utf-8-sig") as file:
            names, *rows = csv.reader(file)
        self.assertEqual(found[0], ["level", "id", *names])
        self.assertEqual([row[2:] for row in found[1:]], [rows[int(row[1]) - 1] for row in found[1:]])
        with prefq.Frame.from_csv(HOTELS) as frame:
            self.assertEqual([int(row[1]) for row in found[1:]], frame.best(QUESTION).ids)

    def test_json(self):
        found = json.loads(self.prints(run("ask", HOTELS, QUESTION, "--json"), errors=NOTE), parse_float=Decimal)
        self.assertEqual((len(found), found[0]["Price (EUR)"], found[0]["Opened"], found[0]["Breakfast"]), (15, Decimal("94.77"), "1952-02-14", True))

    def test_words_that_json_has_as_missing_are_said(self):
        """Also where the question does not name their column, whose cells are printed as they stand in other forms."""
        text, note = "x,y\n1,n/a\n2,5\n", "prefq: column 'y': 'n/a' (1 row) taken for missing; --missing says otherwise\n"
        self.assertEqual(json.loads(self.prints(run("ask", "-", "best low(x)", "--json", text=text), errors=note)), [{"level": 1, "id": 1, "x": 1, "y": None}])
        self.assertEqual(self.prints(run("ask", "-", "best low(x)", "--csv", text=text)), "level,id,x,y\n1,1,1,n/a\n")

    def test_html(self):
        page = self.prints(run("ask", HOTELS, QUESTION, "--html"), errors=NOTE)
        self.assertEqual(page.count("<tr>"), 16)
        self.assertIn("<title>best pos(City, &#x27;Lyon&#x27;)", page)

    def test_text(self):
        lines = self.prints(run("ask", "-", "top_level 2 low(x) by y", text="x,y\n3,a\n1,a\n2,b\n")).splitlines()
        self.assertEqual([line.split() for line in lines], [["level", "id", "x", "y"], ["1", "2", "1", "a"], ["1", "3", "2", "b"], ["2", "1", "3", "a"]])

    def test_the_question_may_stand_behind_options(self):
        lines = self.prints(run("ask", "-", "--decimal", ",", "--delimiter", ";", "best low(x)", "--top", "1", text="x;y\n2,5;1\n1,5;2\n")).splitlines()
        self.assertEqual([line.split() for line in lines], [["level", "id", "x", "y"], ["1", "2", "1,5", "2"]])

    def test_picture(self):
        with tempfile.TemporaryDirectory() as folder:
            path = Path(folder, "front.svg")
            self.prints(run("ask", HOTELS, 'best low("Price (EUR)") * low("Distance km")', "--plot", path))
            picture = ElementTree.parse(path).getroot()
            self.assertTrue(any(element.get("class") == "front" for element in picture.iter()))

    def test_more_columns_than_a_table_has(self):
        names = [f"x{place}" for place in range(40)]
        text = ",".join(names) + "\n" + "".join(",".join(str((row * place) % 11) for place in range(40)) + "\n" for row in range(30))
        found = list(csv.reader(io.StringIO(self.prints(run("ask", "-", "best low(x3) * high(x39)", "--csv", text=text)))))
        self.assertEqual(len(found[0]), 42)

    def test_more_rows_than_a_table_holds(self):
        text = "x,y\n" + "".join(f"{row * 7919 % 70001},{row * 104729 % 70001}\n" for row in range(1, 70001))
        found = list(csv.reader(io.StringIO(self.prints(run("ask", "-", "best low(x) * low(y)", "--csv", text=text)))))
        least, front = 70001, []
        for id, (x, y) in sorted(enumerate(((row * 7919 % 70001, row * 104729 % 70001) for row in range(1, 70001)), 1), key=lambda pair: pair[1]):
            if y < least:
                least = y
                front.append(["1", str(id), str(x), str(y)])
        self.assertEqual(found[1:], sorted(front, key=lambda row: int(row[1])))

    def test_the_columns_of_a_file(self):
        self.assertEqual(self.prints(run("ask", "-", text="a,Price\n01,5.25\n2,6\n")), "a: text (01 begins with a zero)\nPrice: decimal(2)\n")

    def test_options(self):
        text = "size;price\nM;5,5\nS;5,25\nL;9\n"
        words = ("ask", "-", "best low(size) * low(price)", "--csv", "--decimal", ",", "--delimiter", ";", "--kind", "size=choice(S, M, L)")
        self.assertEqual(self.prints(run(*words, text=text)), 'level,id,size,price\n1,2,S,"5,25"\n')

    def test_standard_input_in_another_encoding(self):
        done = subprocess.run([sys.executable, "-m", "prefq", "ask", "-", "best low(x)", "--csv", "--encoding", "cp1252"], input="city,x\nKöln,1\n".encode("cp1252"),
                              capture_output=True, timeout=60, env=ENVIRONMENT)
        self.assertEqual((done.stdout.decode(), done.stderr), ("level,id,city,x\n1,1,Köln,1\n", b""))

    def test_what_is_wrong(self):
        ask = lambda *words, text="City,Price\nLyon,5\n": run("ask", "-", *words, text=text)
        self.refused(ask("best low(Prise)"), "no column 'Prise'; did you mean Price?", "    best low(Prise)\n             ^")
        self.refused(ask("low(Price)"), "write best low(Price)")
        self.refused(ask("best low(City)"), "has texts")
        self.refused(ask("best low(Price) limit 5"), "there is --top 5 beside the question for just so many")
        self.refused(ask("best low(Price) where Price > 5"), "a condition stands beside the question, as --where \"x > 5\", or inside of it as true(x > 5)")
        self.refused(ask("best low(Price)", "--kind", "Prize=text"), "no column 'Prize'")
        self.refused(ask("best low(Price)", "--kind", "Price"), "write COLUMN=KIND")
        self.refused(ask("best low(Price)", "--kind", "Price=number"), "no kind 'number'")
        self.refused(ask("best low(City)", "--kind", "City=whole"), "line 2, column 'City' (whole): 'Lyon' is no number")
        self.refused(ask("best low(Price)", text=""), "is empty")
        self.refused(ask(text="# of 2026\n\nCity,Price\nLyon,5\n"), "it has 2 cells, and the first line has 1 name; --skip 1 leaves out that line")
        self.refused(run("ask", "/nowhere.csv", "best low(x)"), "prefq: /nowhere.csv: No such file")
        self.refused(ask("best low(a)", text="a;b\n1,5;2\n"), "'1,5' is not plain: the kind decimal(1, decimal=\",\") reads 1.5")
        self.refused(run("ask", HOTELS, QUESTION, "--csv", "--json"), "not allowed with")
        self.refused(run("ask"), "FILE.csv")
        self.refused(ask("best low(Price)", "--plot", "/nowhere/out.svg"), "No such file")
        self.refused(run("jump"), "no command 'jump'", "usage: python -m prefq ask")
        self.refused(run(), "usage: python -m prefq ask")
        done = ask("best pos(City, 'Lion')")
        self.assertEqual((done.returncode, done.stderr), (0, "prefq: no row of 'City' has 'Lion'; did you mean 'Lyon'?\n"))

    def test_help(self):
        self.assertEqual(self.prints(run("--version")), f"prefq {prefq.__version__}\n")
        self.assertIn("python -m prefq serve FILE.csv", self.prints(run("--help")))
        for word in ("examples:", "--plot OUT.svg", "top_level K TERM", "true(x > 5 and y = 'a')", "low(x / y)", "--ties='-low(x)'"):
            self.assertIn(word, self.prints(run("ask", "--help")))

    def test_commands_of_the_program(self):
        """The program gets the words and the script as they are; what it prints, and its status, are those of the command."""
        with program('printf "<%s>" "$@"; cat; echo "line 3" >&2; exit 7'):
            for words in (["play"], ["live", "--block", "1"], ["threads", "--clients", "1"], ["play", "--help"], ["live", "a b", ""]):
                done = process(*words, input="table\nx\n3\nend\n")
                self.assertEqual((done.returncode, done.stdout, done.stderr), (7, "".join(f"<{word}>" for word in words) + "table\nx\n3\nend\n", "line 3\n"))

    def test_the_program_inherits_no_signal_that_python_ignores(self):
        with program("grep SigIgn /proc/$$/status") as path:
            started, done = subprocess.run([path], capture_output=True, text=True, timeout=120), process("live")
        self.assertIn("SigIgn:", started.stdout)
        self.assertEqual(done.stdout, started.stdout)

    def test_without_the_program(self):
        done = subprocess.run([sys.executable, "-m", "prefq", "live"], capture_output=True, text=True, env={**ENVIRONMENT, "PREFQ_PROGRAM": "/nowhere/prefq"}, timeout=120)
        self.assertEqual((done.returncode, done.stdout), (1, ""))
        self.assertTrue(done.stderr.startswith("prefq: /nowhere/prefq is not there. Build it"), done.stderr)

    def test_a_reader_that_goes_away(self):
        process = subprocess.Popen([sys.executable, "-m", "prefq", "ask", str(HOTELS), "top_level 1000 low(Stars)", "--json"], stdout=subprocess.PIPE,
                                   stderr=subprocess.PIPE, env=ENVIRONMENT)
        process.stdout.read(10)
        process.stdout.close()
        self.assertEqual(process.stderr.read().decode(), NOTE)
        process.stderr.close()
        self.assertEqual(process.wait(60), 1)


class TheDocument(TestCase):
    def test_what_it_shows(self):
        """The first block of the section is the file, the second one has commands with what they print."""
        section = DOCUMENT.read_text(encoding="utf-8").split("# The command line\n")[1].split("\n# ")[0]
        file, commands = re.findall(r"(?:^    .*\n)+", section, re.MULTILINE)
        with tempfile.TemporaryDirectory() as folder:
            Path(folder, "offers.csv").write_text(textwrap.dedent(file), encoding="utf-8")
            for command in textwrap.dedent(commands).split("$ python -m prefq ")[1:]:
                words, printed = command.split("\n", 1)
                done = process(*shlex.split(words), cwd=folder)
                self.assertEqual(done.stdout + done.stderr, printed, words)


class TheProgress(TestCase):
    def said(self, seconds, terminal):
        errors = io.StringIO()
        errors.isatty = lambda: terminal
        with contextlib.redirect_stderr(errors):
            progress = Progress()
            progress._begun = time.monotonic() - seconds
            for step in [("reading", 4096, 0), ("reading price", 0, 0), ("comparing", 3, 4)]:
                progress(*step)
            progress.end()
        return errors.getvalue()

    def test_only_where_it_takes_long_and_a_person_watches(self):
        self.assertEqual(self.said(2, True), "\r\x1b[Kreading 4,096 rows\r\x1b[Kreading price\r\x1b[Kcomparing 75 %\r\x1b[K")
        self.assertEqual(self.said(0, True), "")
        self.assertEqual(self.said(2, False), "")
