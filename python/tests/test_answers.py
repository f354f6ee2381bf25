"""What an answer writes: files that come back as they were, valid XML, and text that does not steer a terminal."""
import csv
import datetime
import io
import json
import pickle
import tempfile
import unittest
import warnings
from pathlib import Path
from xml.etree import ElementTree

import prefq
from prefq.answer import Answer
from prefq.columns import Column
from prefq.plot import ticks_of
from prefq.records import Record
from prefq.visible import visible, width
from support import QUESTION, SKYLINE, TestCase, hotels, needs

TEXTS = ["a\rb", "\r", "a\nb", "a\r\nb", '"', ",", " x ", "\x1b[31mred", "\t", "plain"]


class Answers(TestCase):
    def setUp(self):
        folder = tempfile.TemporaryDirectory()
        self.addCleanup(folder.cleanup)
        self.path = Path(folder.name, "answer")

    def answer(self, texts, question="best low(x)", name="text"):
        records = [Record([(name, text), ("x", number)], id=number, level=1) for number, text in enumerate(texts, 1)]
        return Answer(question, [Column(name, "text"), Column("x", "whole")], records)

    def test_a_slice_is_an_answer(self):
        answer = self.answer(["a", "b", "c"])
        part = answer[1:]
        self.assertIsInstance(part, Answer)
        self.assertEqual((part.ids, part.question, part.names, part.to_csv()), ([2, 3], answer.question, answer.names, "level,id,text,x\n1,2,b,2\n1,3,c,3\n"))
        self.assertEqual((answer[::-1].ids, answer[:0].ids, answer[0].id, answer[-1].id, len(answer)), ([3, 2, 1], [], 1, 3, 3))
        with prefq.Frame.from_records([{"x": 1, "y": 1}, {"x": 1, "y": 2}, {"x": 2, "y": 3}]) as frame:
            picture = frame.best("best low(x)")[:1].to_svg()
        self.assertIn("other rows (2)", picture)

    def test_a_slice_of_an_answer_over_a_file(self):
        from prefq.ask import asked, file_of, parser
        from prefq.selection import Selection
        self.path.write_text("name,price\nRitz,59.0\nAnna,50\nPost,50\n")
        options = parser().parse_args([str(self.path), "best low(price)"])
        self.assertEqual(asked(file_of(options), options.question, Selection(), None)[1:].to_csv(), "level,id,name,price\n1,3,Post,50\n")

    def test_numbers_stand_on_the_right(self):
        self.assertIn('<tr><td style="text-align: right">1</td><td style="text-align: right">1</td><td>a</td><td style="text-align: right">1</td></tr>', self.answer(["a"]).to_html())

    def test_a_prompt_completes_the_columns_of_a_record(self):
        record = Record({"City": "Lyon", "Price (EUR)": 60})
        self.assertIn("City", dir(record))
        self.assertNotIn("Price (EUR)", dir(record))
        self.assertIn("items", dir(record))
        self.assertEqual(record._ipython_key_completions_(), ["City", "Price (EUR)"])

    def test_a_frame_in_a_notebook(self):
        with prefq.Frame.from_records([{"x": number} for number in range(300)]) as frame:
            page = frame._repr_html_()
        self.assertIn("<caption>300 rows</caption>", page)
        self.assertIn(".. and 100 rows more", page)
        ElementTree.fromstring(f"<div>{page}</div>")

    def test_of_many_other_rows_some_are_drawn(self):
        with prefq.Frame.from_records([{"x": number, "y": -number % 100} for number in range(5000)]) as frame:
            picture = frame.best("best low(x)").to_svg()
        self.assertIn("1,667 of 4,999 other rows", picture)
        self.assertEqual(picture.count('r="2"'), 1667)

    def test_a_picture_of_an_expression(self):
        with prefq.Frame.from_records([{"x": 1, "y": 2}, {"x": 2, "y": 3}]) as frame:
            picture = ElementTree.fromstring(frame.best("best low(x / y) * high(y)").to_svg())
        texts = ["".join(element.itertext()) for element in picture.iter("{http://www.w3.org/2000/svg}text")]
        self.assertIn("y (more is better)", texts)

    def test_a_picture_by_matplotlib_has_the_texts_as_they_are(self):
        """Between two dollars it takes a text for a formula; some are none, and were a ValueError when the picture was drawn."""
        needs(self, "matplotlib")
        import matplotlib
        matplotlib.use("Agg")
        from matplotlib import pyplot
        self.addCleanup(pyplot.close, "all")
        with prefq.Frame.from_records([{"Price ($)": 1, "Fee ($)": 2, "c": "a$^$"}, {"Price ($)": 2, "Fee ($)": 1, "c": "\r\ud800"}]) as frame, warnings.catch_warnings():
            warnings.simplefilter("error")
            for question, x in [('best low("Price ($)") * low("Fee ($)")', None), ("best pos(c, 'a$^$')", "c"), ("best pos(c, '\r\ud800')", "c")]:
                with self.subTest(question):
                    axes = frame.best(question).plot(x)
                    axes.figure.canvas.draw()
                    title = axes.title.get_text()
                    self.assertEqual((title.count("$"), title.count("\\$")), (question.count("$"), question.count("$")))

    def test_pictures_of_values_at_their_limits(self):
        """The last date stands for an open end; beside a large number the next one is the same float, and no float has the distance of the largest ones."""
        day, at = datetime.date, datetime.datetime
        for values in ([day(9999, 12, 31)] * 2, [day(1, 1, 1)], [day(1, 1, 1), day(9999, 12, 31)], [at(9999, 12, 31, 23, 59)], [10**17] * 2, [10**17, 10**17 + 1], [2**63 - 1, 1 - 2**63],
                       [1e300] * 2, [1.7e308, -1.7e308], [1.797e308] * 2, [5e-324, 0.0], [1e-15, 5e-15]):
            with self.subTest(values), prefq.Frame.from_records([{"x": value, "y": -number} for number, value in enumerate(values)]) as frame:
                picture = frame.best("best low(x) * high(y)").to_svg()
                for circle in ElementTree.fromstring(picture).iter("{http://www.w3.org/2000/svg}circle"):
                    self.assertTrue(96 <= float(circle.get("cx")) <= 570 and 44 <= float(circle.get("cy")) <= 424, picture)
        self.assertEqual([text for _, text in ticks_of(Column("x", "float"), [1e-15, 5e-15])], ["1e-15", "2e-15", "3e-15", "4e-15", "5e-15"])
        self.assertEqual([place for place, _ in ticks_of(Column("x", "float"), [-1.5e308, 1.5e308])], [-1e308, 0, 1e308])

    def test_csv_comes_back_as_it_was(self):
        answer = self.answer(TEXTS)
        answer.to_csv(self.path)
        for lines in (io.StringIO(answer.to_csv(), newline=""), io.StringIO(self.path.read_bytes().decode(), newline="")):
            self.assertEqual([row[2] for row in csv.reader(lines)][1:], TEXTS)
        self.assertEqual(self.answer(["a", "b"]).to_csv(), "level,id,text,x\n1,1,a,1\n1,2,b,2\n")

    def test_a_frame_reads_its_own_csv(self):
        texts = ["a\rb", "a\nb", "plain"]
        with prefq.Frame.from_records([{"text": text, "x": 1} for text in texts]) as frame:
            frame.best("best low(x)").to_csv(self.path)
        with prefq.Frame.from_csv(self.path) as again:
            self.assertEqual([row.text for row in again.rows()], texts)

    def test_an_open_file_of_another_encoding(self):
        """What it does not have is refused by its place before anything is written."""
        self.path.write_bytes(b"as before\n")
        for encoding, texts, says in [("ascii", ["good", "Köln"], "row 2, column 'text' is 'Köln', which ascii does not have"), ("cp1252", ["Köln", "Łódź"], "row 2, column 'text' is 'Łódź', which cp1252"),
                                      ("utf-8", ["a\udcff"], "row 1, column 'text' is 'a\\udcff', which utf-8 does not have")]:
            with self.subTest(encoding=encoding), open(self.path, "a", encoding=encoding) as file:
                with self.refuses(ValueError, says):
                    self.answer(texts).to_csv(file)
                with self.refuses(ValueError, r"the name of column 1 is 'Größe\udcff'"):
                    self.answer(["good"], name="Größe\udcff").to_csv(file)
        self.assertEqual(self.path.read_bytes(), b"as before\n")
        with open(self.path, "w", encoding="cp1252", newline="") as file:
            self.answer(["Köln"]).to_csv(file)
        self.assertEqual(self.path.read_bytes(), "level,id,text,x\n1,1,Köln,1\n".encode("cp1252"))
        with open(self.path, "w", encoding="ascii", errors="backslashreplace", newline="") as file:
            self.answer(["Köln"]).to_csv(file)
        self.assertEqual(self.path.read_bytes(), b"level,id,text,x\n1,1,K\\xf6ln,1\n")

    def test_lone_surrogates(self):
        """UTF-8 does not have them: JSON escapes them, pictures and HTML replace them, and a CSV file is refused before it is touched."""
        texts = ["good", "a\ud800b", "\udcff"]
        answer = self.answer(texts, "best low(x) & pos(text, '\ud800')")
        self.path.write_text("as before")
        with self.refuses(ValueError, r"row 2, column 'text' is 'a\ud800b', which UTF-8 does not have"):
            answer.to_csv(self.path)
        self.assertEqual(self.path.read_text(), "as before")
        with self.refuses(ValueError, r"the name of column 1 is '\ud800', which UTF-8 does not have"):
            self.answer(["good"], name="\ud800").to_csv(self.path)
        self.assertIn("a\ud800b", answer.to_csv())
        answer.to_json(self.path)
        self.assertEqual([record["text"] for record in json.loads(self.path.read_text(encoding="utf-8"))], texts)
        for text in (answer.to_html(), answer.to_svg(), answer.to_text(), repr(answer)):
            text.encode()
        answer.to_svg(self.path)
        ElementTree.parse(self.path)

    def test_pictures_and_html_are_xml(self):
        for sign in ("\x00", "\x01", "\x1b", "\x0b", "\ufffe", "\uffff", "\ud800", "<", "&", "\x7f", "\x85"):
            answer = self.answer([f"a{sign}b"], f"best low(x) & pos(text, '{sign}')", f"te{sign}xt")
            with self.subTest(sign=sign):
                ElementTree.fromstring(answer.to_svg(x=f"te{sign}xt", y="x"))
                ElementTree.fromstring(answer.to_svg(x="x", y=f"te{sign}xt"))
                ElementTree.fromstring(answer.to_html())

    def test_text_does_not_steer_a_terminal(self):
        texts = ["\x1b[2J\x1b[31mred", "\x9b31m", "bell\x07", "\u202eturned", "\x00", "e\u0301", "👩\u200d👩"]
        shown = [r"na\x1bme", r"\x1b[2J\x1b[31mred", r"\x9b31m", r"bell\x07", r"\u202eturned", r"\x00", *texts[5:]]
        answer = self.answer(texts, name="na\x1bme")
        for text in (repr(answer), answer.to_text()):
            self.assertEqual([line.split()[2] for line in text.splitlines()], shown)
        self.assertIn("\x1b[2J", answer.to_csv())
        self.assertEqual(json.loads(answer.to_json())[0]["na\x1bme"], texts[0])

    def test_wide_signs_stand_in_line(self):
        lines = self.answer(["東京", "Köln", "ab"]).to_text().splitlines()
        self.assertEqual({width(line) for line in lines}, {width(lines[0])})

    def test_each_control_sign_is_visible(self):
        for number in [*range(0x20), *range(0x7f, 0xa0), 0xd800, 0xdfff, 0x202e, 0x2066]:
            self.assertTrue(visible(chr(number)).isprintable(), number)


class OfATable(TestCase):
    """A table of whole numbers answers as a frame does."""

    def test_each_way_to_ask_a_table_gives_an_answer(self):
        with hotels() as table, hotels(block=2, capacity=16) as pieces:
            with table.query(QUESTION) as query:
                answers = [table.best(QUESTION), pieces.best(QUESTION), query.answer(), pickle.loads(pickle.dumps(table.best(QUESTION)))]
        for answer in answers:
            self.assertIsInstance(answer, Answer)
            self.assertEqual((answer.ids, answer.levels, answer.names, answer.question), (SKYLINE, [1] * 4, ["price", "dist"], QUESTION))
            self.assertEqual(answer.to_csv(), "level,id,price,dist\n1,1,50,8\n1,2,60,5\n1,3,80,2\n1,6,100,1\n")

    def test_the_other_rows_of_a_table_are_drawn(self):
        with hotels() as table:
            answer = table.best(QUESTION)
            self.assertIn("other rows (3)", answer.to_svg())
        self.assertNotIn("other rows", answer.to_svg())     # They ended with the table.

    def test_an_answer_is_drawn_while_all_clients_ask(self):
        with hotels(clients=1) as table, prefq.Frame.from_records([{"x": 1}, {"x": 2}], clients=1) as frame:
            answers = [table.best(QUESTION), frame.best("best low(x)")]
            with table.query(QUESTION), frame.query("best low(x)"):
                for answer in answers:
                    self.assertNotIn("other rows", answer.to_svg())
            for answer in answers:
                self.assertIn("other rows", answer.to_svg())

    def test_what_else_is_refused_of_the_other_rows_is_not_passed_over(self):
        def others():
            raise prefq.Refused("the table was changed", "follow")

        with self.refuses(prefq.Refused, "the table was changed"):
            Answer(QUESTION, [prefq.Column("x", "whole")], [prefq.Record({"x": 1}, id=1, level=1)], others=others).to_svg()

    def test_columns_of_a_table_that_are_called_as_a_row_has_it(self):
        with prefq.Table(["level", "id", "values"], [[-2**63, 2**63 - 1, 7]]) as table:
            answer = table.best("best low(id)")
        self.assertEqual((answer[0].level, answer[0].id, dict(answer[0])), (1, 1, {"level": -2**63, "id": 2**63 - 1, "values": 7}))
        self.assertEqual(answer.to_csv(), ".level,.id,level,id,values\n1,1,-9223372036854775808,9223372036854775807,7\n")


if __name__ == "__main__":
    unittest.main()
