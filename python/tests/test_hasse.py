"""The better-than graph, `why` over conditions and expressions, and `|`: by name, and random ones as by a plain evaluation of each pair of rows."""
import os
import pickle
import random
import tempfile
import unittest
import unittest.mock
import warnings
import xml.etree.ElementTree as ElementTree
from pathlib import Path

import plain
import prefq
import random_frames
from prefq import high, low
from prefq.better_than import Order, places_in
from support import TestCase, pairs

QUESTIONS = int(os.environ.get("PREFQ_TEST_COUNT", 1000)) // 3
SEED = int(os.environ.get("PREFQ_TEST_SEED", 20260501))
QUESTIONS_OF_A_FRAME = 5
ROWS = [{"name": "Ritz", "x": 1, "y": 2}, {"name": 'say "x"', "x": 2, "y": 1}, {"name": "a\nb", "x": 2, "y": 3}, {"name": "Post", "x": 3, "y": 4}, {"name": "Anna", "x": 3, "y": 4}]


class Graph(TestCase):
    @classmethod
    def setUpClass(cls):
        cls.frame = prefq.Frame.from_records(ROWS)
        cls.graph = cls.frame.hasse(low("x") * low("y"))

    @classmethod
    def tearDownClass(cls):
        cls.frame.close()

    def test_edges_without_those_that_follow(self):
        self.assertEqual(self.graph, [(1, 3), (2, 3), (3, 4), (3, 5)])
        self.assertEqual(self.frame.hasse("low(x)"), [(1, 2), (1, 3), (2, 4), (2, 5), (3, 4), (3, 5)])
        self.assertEqual(self.frame.hasse("best low(x) by y"), [])
        self.assertEqual(self.frame.hasse("skyline of distinct x min"), [(1, 2), (2, 3), (3, 4), (4, 5)])
        self.assertEqual(self.frame.hasse(low("x"), where="x < 3"), [(1, 2), (1, 3)])
        self.assertEqual(self.frame.hasse("high(x / y)", by="x"), [(2, 3)])
        self.assertEqual(self.frame.hasse("empty()"), [])

    def test_neighbours(self):
        graph = self.graph
        self.assertEqual([graph.succ(id) for id in range(1, 6)], [[3], [3], [4, 5], [], []])
        self.assertEqual([graph.pred(id) for id in range(1, 6)], [[], [], [1, 2], [3], [3]])
        self.assertEqual([graph.all_succ(id) for id in range(1, 6)], [[3, 4, 5], [3, 4, 5], [4, 5], [], []])
        self.assertEqual([graph.all_pred(id) for id in range(1, 6)], [[], [], [1, 2], [1, 2, 3], [1, 2, 3]])
        self.assertEqual(graph.levels, {1: 1, 2: 1, 3: 2, 4: 3, 5: 3})
        for call in (graph.succ, graph.pred, graph.all_succ, graph.all_pred):
            with self.refuses(prefq.Refused, "no such row 6"):
                call(6)

    def test_pickled(self):
        graph = pickle.loads(pickle.dumps(self.graph))
        self.assertEqual((graph, graph.levels, graph.all_pred(4), graph.to_dot()), (self.graph, self.graph.levels, [1, 2, 3], self.graph.to_dot()))

    def test_dot(self):
        self.assertEqual(self.frame.hasse("low(x)", where="x < 3").to_dot("name"), "\n".join([
            "digraph better_than {", "  rankdir=TB;", "  node [shape=box];", '  1 [label="Ritz"];', '  2 [label="say \\"x\\""];', '  3 [label="a\\nb"];',
            "  {rank=same; 1;}", "  {rank=same; 2; 3;}", "  1 -> 2;", "  1 -> 3;", "}", ""]))
        self.assertIn('  1 [label="1 of 2"];', self.graph.to_dot(lambda row: f"{row.x} of {row.y}"))
        with self.refuses(prefq.Refused, "no column 'nam'"):
            self.graph.to_dot("nam")

    def test_svg_without_graphviz(self):
        with unittest.mock.patch("shutil.which", lambda name: None), tempfile.TemporaryDirectory() as folder:
            picture = ElementTree.fromstring(self.graph.to_svg(label="name"))
            self.assertEqual(self.graph.to_svg(Path(folder, "x.svg")), None)
            self.assertTrue(Path(folder, "x.svg").read_text().startswith("<svg"))
        names = [text.text for text in picture.iter("{http://www.w3.org/2000/svg}text")]
        self.assertEqual(sorted(names), sorted(row["name"] for row in ROWS))
        self.assertEqual(len(list(picture.iter("{http://www.w3.org/2000/svg}line"))), 4)

    def test_svg_by_graphviz(self):
        """Where the command dot is there, it draws what it is given."""
        with tempfile.TemporaryDirectory() as folder:
            command = Path(folder, "dot")
            command.write_text('#!/bin/sh\necho "<svg>$1"\nsed "s/^/    /"\necho "</svg>"\n')
            command.chmod(0o755)
            with unittest.mock.patch.dict(os.environ, {"PATH": f"{folder}:{os.environ['PATH']}"}):
                lines = self.graph.to_svg().splitlines()
        self.assertEqual((lines[0], lines[-1], [line[4:] for line in lines[1:-1]]), ("<svg>-Tsvg", "</svg>", self.graph.to_dot().splitlines()))

    def test_what_is_refused(self):
        with prefq.Frame.from_records([{"x": 1}] * 10_001) as frame:
            with self.refuses(prefq.Refused, "there are 10001 rows, and at most 10000 are compared with each other"):
                frame.hasse("low(x)")
            frame.delete(1)
            self.assertEqual(frame.hasse("low(x)"), [])
        with self.refuses(prefq.Refused, "no column 'z'"):
            self.frame.hasse("low(z)")

    def test_a_value_that_no_row_has(self):
        for call in (lambda: self.frame.hasse("pos(name, 'Rits')"), lambda: self.frame.why(1, "best low(x)", where="name <> 'Rits'")):
            with self.assertWarnsRegex(prefq.UnknownValue, "no row of 'name' has 'Rits'; did you mean 'Ritz'?") as caught:
                call()
            self.assertEqual(caught.filename, __file__)

    def test_too_many_edges(self):
        with prefq.Frame.from_records([{"x": number % 2} for number in range(2004)]) as frame:
            with self.refuses(prefq.Refused, "more than 1000000 edges"):
                frame.hasse("low(x)")

    def test_no_rows(self):
        with prefq.Frame.empty(["x"], {"x": "whole"}) as frame:
            graph = frame.hasse("low(x)")
            self.assertEqual((graph, graph.levels), ([], {}))
            self.assertEqual(graph.to_dot(), "digraph better_than {\n  rankdir=TB;\n  node [shape=box];\n}\n")


class Why(TestCase):
    def test_of_conditions_and_expressions(self):
        with prefq.Frame.from_records(ROWS) as frame:
            self.assertEqual(frame.why(4, "best high(x / y)").ids, [2])
            self.assertEqual(frame.why(4, low("x") * low("y"), where="x > 1").ids, [2, 3])
            self.assertEqual(frame.why(4, "best low(x) | low(y)").ids, [1, 2, 3])
            self.assertEqual(frame.why(4, "best low(x)", by="y").ids, [])
            with self.refuses(prefq.Refused, "row 1 does not meet the condition"):
                frame.why(1, "best low(x)", where="x > 1")
            frame.delete(2)
            frame.insert({"x": 0, "y": 0})
            self.assertEqual(frame.why(4, "best low(x)").ids, [6, 1, 3])
            with self.refuses(prefq.Refused, "no such row 2"):
                frame.why(2, "best low(x)")

    def test_of_equal_rows_the_first_dominates_the_others(self):
        """As `skyline of distinct` has it, so that each of them has a level of its own, and what comes behind them has one behind all."""
        rows = [{"x": 1, "y": 9}, {"x": 2, "y": 5}, {"x": 1, "y": 9}, {"x": 2, "y": None}, {"x": 1, "y": 9}, {"x": 2, "y": None}, {"x": 3, "y": 9}, {"x": None, "y": None}, {"x": 2, "y": 5}]
        with prefq.Frame.from_records(rows) as frame:
            for question, id, wanted in [("x min", 7, [(1, 1), (2, 3), (3, 5), (4, 2), (5, 4), (6, 6), (7, 9)]), ("x min", 5, [(1, 1), (2, 3)]),
                                         ("x min, y min", 7, [(1, 1), (1, 2), (2, 3), (2, 9), (3, 5)]), ("x min, y max", 6, [(1, 1), (2, 3), (3, 5), (4, 2), (5, 9), (6, 4)]),
                                         ("y min, x diff", 6, [(1, 2), (2, 9), (3, 4)]), ("x min, x max", 9, [(1, 2), (2, 4), (3, 6)]),
                                         ("x min, y min, x max", 5, [(1, 1), (2, 3)]), ("x min, x min", 5, [(1, 1), (2, 3)]), ("x max, y max", 3, [(1, 7), (2, 1)]), ("x min", 1, [])]:
                with self.subTest(question, id=id):
                    found = frame.why(id, f"skyline of distinct {question}")
                    self.assertEqual(pairs(found), sorted(wanted))

    def test_equal_rows_at_random(self):
        for seed in range(QUESTIONS // 5):
            chance = random.Random(SEED + seed)
            rows = {id: {name: chance.choice([None, 1, 2, 3][chance.random() < 0.8:]) for name in "abc"} for id in range(1, chance.randrange(2, 25))}
            names = chance.sample("abc", 3)
            parts = [chance.choice([plain.Low, plain.High])(name, "") for name in names[:chance.randrange(1, 4)]]
            by = names[len(parts):][:chance.randrange(2)]
            clause = [f"{part.name} {'max' if isinstance(part, plain.High) else 'min'}" for part in parts] + [f"{name} diff" for name in by]
            asked = plain.Ask(f"skyline of distinct {', '.join(clause)}", plain.Pareto("", parts), by, 1, None, [part.name for part in parts] + by)
            levels = asked.levels_of(rows)
            with self.subTest(seed=seed), prefq.Frame.from_records(list(rows.values()), kinds=dict.fromkeys("abc", "whole")) as frame:
                for id in rows:
                    self.assertEqual(pairs(frame.why(id, asked.text)), sorted((levels[other], other) for other in asked.dominators(rows, id)), (asked.text, id))
                many = [prefq.parts.Partition(list("abc"), [list(row.values()) for row in list(rows.values())[begin:begin + 7]]) for begin in range(0, len(rows), 7)]
                self.assertEqual(pairs(prefq.parts.why(many, id, asked.text)), pairs(frame.why(id, asked.text)), (asked.text, id))

    def test_as_many_criteria_as_a_table_has_columns(self):
        names = [f"c{number}" for number in range(16)]
        with prefq.Frame.from_records([{name: value for name in names} for value in (1, 1, 2, 1, 3)]) as frame:
            self.assertEqual(pairs(frame.why(5, "skyline of distinct " + ", ".join(f"{name} min" for name in names))), [(1, 1), (2, 2), (3, 4), (4, 3)])

    def test_each_row_is_compared_once(self):
        """So that 50,000 of them take no time."""
        numbers = range(50_000)
        with self.within(5):
            order = Order("low(x) * low(y) * high(z)", ["x", "y", "z"], [numbers, [number % 7 for number in numbers], [-number % 5 for number in numbers]])
            found = list(places_in(order.better(15_000)))
        self.assertEqual(found, [number for number in range(15_000) if number % 7 <= 15_000 % 7 and -number % 5 >= -15_000 % 5])


class Random(TestCase):
    def weak(self, chance, questions):
        """A term by which any two rows can be compared."""
        parts = [questions.base() for _ in range(chance.randrange(1, 3))]
        term = parts[0] if len(parts) == 1 else plain.Prior(" & ".join(part.text for part in parts), parts)
        return plain.Converse(f"-({term.text})", term) if chance.random() < 0.3 else term

    def intersection(self, chance, questions):
        parts = [self.weak(chance, questions) for _ in range(chance.randrange(2, 4))]
        both = plain.Both(" | ".join(f"({part.text})" for part in parts), parts)
        if chance.random() < 0.3:
            both = plain.Converse(f"-({both.text})", both)
        if chance.random() < 0.5:
            return both
        other = questions.term(1)
        sign, product = chance.choice([("*", plain.Pareto), ("&", plain.Prior)])
        return product(f"({both.text}) {sign} ({other.text})", [both, other])

    def graph(self, frame, rows, asked):
        """The graph by comparing each two rows."""
        over = {(a, b) for a in rows for b in rows if a != b and asked.dominates((a, rows[a]), (b, rows[b]))}
        edges = sorted((a, b) for a, b in over if not any((a, c) in over and (c, b) in over for c in rows))
        graph = frame.hasse(asked.text)
        self.assertEqual(graph, edges, asked.text)
        self.assertEqual(graph.levels, asked.levels_of(rows), asked.text)
        for id in rows:
            self.assertEqual(graph.all_pred(id), sorted(a for a, b in over if b == id), asked.text)
            self.assertEqual(graph.all_succ(id), sorted(b for a, b in over if a == id), asked.text)
            self.assertEqual(graph.pred(id), [a for a, b in edges if b == id], asked.text)
            self.assertEqual(graph.succ(id), [b for a, b in edges if a == id], asked.text)

    def one(self, chance):
        columns, records = random_frames.frame(chance)
        given = {name: kind.spelling for name, kind in columns.items() if kind.is_given}
        rows = dict(enumerate(records, 1))
        questions = random_frames.Questions(chance, columns)
        with prefq.Frame.from_records(records, kinds=given) as frame:
            for _ in range(QUESTIONS_OF_A_FRAME):
                self.graph(frame, rows, questions.question())
            term = self.intersection(chance, questions)
            by = chance.choice([(), (chance.choice(list(columns)),)])
            asked = plain.Ask(f"top_level 3 {term.text}{' by ' * bool(by)}{', '.join(map(questions.quoted, by))}", term, by, 3)
            answer = frame.best(asked.text)
            self.assertEqual(list(zip(answer.levels, answer.ids)), asked.answer(rows), asked.text)
            self.graph(frame, rows, asked)
            self.assertEqual(sorted(frame.why(1, asked.text).ids), asked.dominators(rows, 1), asked.text)

    def test_as_by_a_plain_evaluation(self):
        with warnings.catch_warnings():
            warnings.simplefilter("ignore", prefq.UnknownValue)
            for number in range(QUESTIONS // (QUESTIONS_OF_A_FRAME + 1)):
                with self.subTest(frame=number):
                    self.one(random.Random(SEED + number))


class Intersection(TestCase):
    def test_a_value_that_no_row_has(self):
        with prefq.Frame.from_records([{"x": 1, "y": "a"}]) as frame, self.assertWarnsRegex(prefq.UnknownValue, "no row of 'y' has 'b'"):
            frame.best("best low(x) | pos(y, 'b')")

    def test_better_in_both(self):
        rows = [{"x": 1, "y": 5}, {"x": 2, "y": 5}, {"x": 2, "y": 6}, {"x": 3, "y": 1}]
        with prefq.Frame.from_records(rows) as frame:
            self.assertEqual(frame.best("best low(x) | low(y)").ids, [1, 2, 4])
            self.assertEqual(frame.best("best low(x) * low(y)").ids, [1, 4])
            self.assertEqual(frame.best(low("x") | low("y") | high("x")).ids, [1, 2, 3, 4])
            self.assertEqual(frame.best("best -(low(x) | low(y))").ids, [2, 3, 4])
            self.assertEqual(frame.best((low("x") | low("y")) & high("y")).ids, [1, 2, 4])


if __name__ == "__main__":
    unittest.main()
