"""rPref's examples over mtcars, R's data set, as docs/PYTHON.md shows them: as the document says, and as by a plain evaluation of each two cars."""
import csv
import re
import unittest
from fractions import Fraction
from pathlib import Path

import prefq
from plain import Ask, Between, Both, Converse, High, Layered, Low, Pareto, Prior, first
from support import TestCase

HERE = Path(__file__).resolve().parent
CARS = HERE / "data/mtcars.csv"
DOCUMENT = HERE.parent.parent / "docs/PYTHON.md"
EXAMPLE = re.compile(r'^\| `(?P<call>psel\(cars, "(?P<text>[^"]*)"(?P<options>[^`]*)\))` \| (?P<cars>[^|]*) \|$', re.MULTILINE)
MPG, HP = Low("mpg", ""), Low("hp", "")
LOW = Pareto("", [MPG, HP])
TERMS = {
    "low(mpg) * low(hp)": LOW, "high(mpg) * high(hp)": Pareto("", [High("mpg", ""), High("hp", "")]), "high(mpg) & low(hp)": Prior("", [High("mpg", ""), HP]),
    "low(wt / hp)": Low("ratio", ""), "high(abs(mpg - 20))": High("distance", ""), "true(mpg > 20 and hp > 100) * low(wt)": Pareto("", [Layered("good", "", [[True]]), Low("wt", "")]),
    "around(mpg, 20)": Between("mpg", "", 20, 20), "between(hp, 110, 120) * high(mpg)": Pareto("", [Between("hp", "", 110, 120), High("mpg", "")]),
    "pos(carb, 2) & high(mpg)": Prior("", [Layered("carb", "", [[2]]), High("mpg", "")]),
    "layered(cyl, {4, 6}, {8}) * high(hp)": Pareto("", [Layered("cyl", "", [[4, 6], [8]]), High("hp", "")]), "-(low(mpg) * low(hp))": Converse("", LOW), "low(mpg)": MPG,
    "high(mpg)": High("mpg", ""), "high(mpg) | high(hp)": Both("", [High("mpg", ""), High("hp", "")]), "empty() * high(hp)": High("hp", ""),
    "high(mpg) * low(wt)": Pareto("", [High("mpg", ""), Low("wt", "")]), "low(hp) * high(mpg)": Pareto("", [HP, High("mpg", "")]),
    "high(hp) * low(mpg)": Pareto("", [High("hp", ""), MPG]), "around(mpg, 25)": Between("mpg", "", 25, 25), "layered(cyl, {2, 4}, {6})": Layered("cyl", "", [[2, 4], [6]]),
    "high(4 * mpg + hp)": High("weighted", ""), "high(mpg / 642.9 + hp / 4694)": High("share", ""), "true(cyl = 4) & low(hp)": Prior("", [Layered("cyl", "", [[4]]), HP]),
    "low(abs(mpg - 20.090625) / 33.9 + abs(hp - 146.6875) / 335)": Low("spread", "")}
# The functions of rPref, of each of which the document says what it is here.
FUNCTIONS = """low high around between pos layered true low_ high_ around_ between_ pos_ layered_ true_ reverse empty is.empty_pref psel psel.indices peval eval.pref group_by top at_least
    top_level and_connected show_level get_btg plot_btg get_btg_dot hasse_pred all_pred hasse_succ all_succ init_pred_succ plot_front pareto_front length show.pref pref.str show.query
    as.expression is.preference is.base_pref is.complex_pref""".split()
SIGNS = ["p * q", "p & q", "p \\| q", "p + q", "-p"]
TABLE = re.compile(r"^\| rPref \| here \|\n(?P<rows>(?:\|.*\n)*)", re.MULTILINE)


def rows():
    """The cars by their numbers, with what the examples compute."""
    found = {}
    with open(CARS, newline="") as file:
        for id, row in enumerate(csv.DictReader(file), 1):
            car = {name: cell if name == "model" else Fraction(cell) for name, cell in row.items()}
            found[id] = {**car, "ratio": car["wt"] / car["hp"], "distance": abs(car["mpg"] - 20), "good": car["mpg"] > 20 and car["hp"] > 100}
    mpg, hp = ([car[name] for car in found.values()] for name in ("mpg", "hp"))
    for car in found.values():
        car["weighted"], car["share"] = 4 * car["mpg"] + car["hp"], car["mpg"] / sum(mpg) + car["hp"] / sum(hp)
        car["spread"] = abs(car["mpg"] - sum(mpg) / len(mpg)) / max(mpg) + abs(car["hp"] - sum(hp) / len(hp)) / max(hp)
    return found


class Cars(TestCase):
    @classmethod
    def setUpClass(cls):
        cls.cars = prefq.Frame.from_csv(CARS)
        # In a table the sign | has a \ before it.
        cls.examples = [{name: part.replace("\\|", "|") for name, part in example.groupdict().items()} for example in EXAMPLE.finditer(DOCUMENT.read_text(encoding="utf-8"))]

    @classmethod
    def tearDownClass(cls):
        cls.cars.close()

    def test_there_are_examples_of_each_term(self):
        self.assertEqual({example["text"] for example in self.examples}, set(TERMS))

    def test_as_the_document_says(self):
        for example in self.examples:
            with self.subTest(example["call"]):
                answer = eval(example["call"], {"psel": prefq.psel, "cars": self.cars})      # a call that the document shows
                self.assertEqual(", ".join(row.model for row in answer), example["cars"])

    def test_each_function_of_rpref_is_in_the_table(self):
        rows = TABLE.search(DOCUMENT.read_text(encoding="utf-8"))["rows"].splitlines()[1:]
        said = " ".join(row.split(" | ")[0] for row in rows)
        there = re.findall(r"[\w.]+", said)
        self.assertEqual([name for name in FUNCTIONS if name not in there] + [sign for sign in SIGNS if f"`{sign}" not in said], [])

    def test_the_better_than_graph(self):
        """Of the first ten cars, as by a comparison of each two."""
        ten = {id: car for id, car in rows().items() if id <= 10}
        ask = Ask("", TERMS["high(mpg) * low(wt)"])
        over = {(a, b) for a in ten for b in ten if a != b and ask.dominates((a, ten[a]), (b, ten[b]))}
        edges = sorted((a, b) for a, b in over if not any((a, c) in over and (c, b) in over for c in ten))
        with prefq.Frame.from_records([dict(row) for row in self.cars.rows()[:10]]) as cars:
            self.assertEqual(list(cars.hasse("high(mpg) * low(wt)")), edges)

    def test_as_by_a_plain_evaluation(self):
        cars = rows()
        for example in self.examples:
            with self.subTest(example["call"]):
                options = eval(f"dict({example['options'].lstrip(', ')})")
                there = {id: car for id, car in cars.items() if "where" not in options or car["am"] == 1 and car["gear"] > 4}
                by = [options["by"]] if "by" in options else []
                mode = "best" if not {"at_least", "top_level"} & set(options) else "levels"
                ask = Ask(mode, TERMS[example["text"]], by, None if "at_least" in options else options.get("top_level", 1), options.get("at_least"))
                found = first(ask, there, options["top"]) if "top" in options else ask.answer(there)
                self.assertEqual(", ".join(there[id]["model"] for _, id in found), example["cars"])


if __name__ == "__main__":
    unittest.main()
