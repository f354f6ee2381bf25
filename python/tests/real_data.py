#!/usr/bin/env python3
"""Asks real data sets, which packages of R have, and compares the answers with plain Python over the same cells.

    python3 python/tests/real_data.py

R writes diamonds, starwars, storms and Cars93 as CSV. Each question is asked by `Frame.from_csv`, by `python -m prefq ask`, and where pandas is installed by
`psel` of a DataFrame. Needs R with ggplot2, dplyr and MASS (of Debian: r-cran-ggplot2, r-cran-dplyr, r-cran-mass); says so where they are not there.
"""
import csv
import datetime
import io
import random
import shutil
import subprocess
import sys
import tempfile
import warnings
from decimal import Decimal
from pathlib import Path

HERE = Path(__file__).resolve().parent
sys.path[:0] = [str(HERE), str(HERE.parent / "src")]

import prefq
from plain import Ask, Between, Converse, High, Layered, Low, Pareto, Prior
from test_ask import run

try:
    import pandas
except ImportError:
    pandas = None

SETS = {"diamonds": "ggplot2", "starwars": "dplyr", "storms": "dplyr", "Cars93": "MASS"}
WRITES = """
found <- as.data.frame({package}::{name})
if ("{name}" == "storms") found$at <- with(found, sprintf("%04d-%02d-%02d %02d:00", as.integer(year), as.integer(month), as.integer(day), as.integer(hour)))
lists <- sapply(found, is.list)
found[lists] <- lapply(found[lists], function(column) sapply(column, paste, collapse = "\\n"))
write.csv(found, "{path}", row.names = FALSE, na = "NA")
"""
CUT = ["Fair", "Good", "Very Good", "Premium", "Ideal"]
CLARITY = ["I1", "SI2", "SI1", "VS2", "VS1", "VVS2", "VVS1", "IF"]
AIR_BAGS = ["None", "Driver only", "Driver & Passenger"]
KINDS = {"diamonds": {"cut": f"choice({', '.join(CUT)})", "clarity": f"choice({', '.join(CLARITY)})"}, "Cars93": {"AirBags": f"choice({', '.join(AIR_BAGS)})"},
         "starwars": {"mass": "decimal(1)", "height": "whole"}, "storms": {"category": "whole"}}
# Which columns have texts, in which NA alone is missing: R writes it so.
TEXTS = {"starwars": ["name", "hair_color", "skin_color", "eye_color", "sex", "gender", "homeworld", "species", "films", "vehicles", "starships"], "diamonds": ["cut", "color", "clarity"],
         "storms": ["name", "status"], "Cars93": ["Manufacturer", "Model", "Type", "AirBags", "DriveTrain", "Cylinders", "Man.trans.avail", "Origin", "Make"]}
# Enough for a comparison of each two of them.
MOST_ROWS = 600


def main():
    if not shutil.which("Rscript"):
        print("skipped: R is not installed")
        return 0
    failed = 0
    with tempfile.TemporaryDirectory() as folder, warnings.catch_warnings():
        warnings.simplefilter("ignore", prefq.UnknownValue)
        for name, package in SETS.items():
            path = Path(folder, f"{name}.csv")
            written = subprocess.run(["Rscript", "-e", WRITES.format(name=name, package=package, path=path)], capture_output=True, encoding="utf-8")
            if written.returncode:
                print(f"skipped: R has no {package} ({written.stderr.strip().splitlines()[-1]})")
                continue
            failed += DataSet(name, path).compared()
    return 1 if failed else 0


class DataSet:
    """A data set: its cells, and its values as plain Python has them."""

    def __init__(self, name, path):
        self.name, self.kinds, self.asked, self.wrong = name, KINDS.get(name, {}), 0, 0
        with open(path, encoding="utf-8", newline="") as file:
            self.names, *cells = csv.reader(file)
        if len(cells) > MOST_ROWS:
            cells = random.Random(name).sample(cells, MOST_ROWS)
        self.text = io.StringIO()
        csv.writer(self.text).writerows([self.names, *cells])
        self.rows = {id: dict(zip(self.names, map(self.value, self.names, row))) for id, row in enumerate(cells, 1)}

    def value(self, name, cell):
        """A cell as plain Python has it."""
        if cell in ("NA", ""):
            return None
        if name == "at":
            return datetime.datetime.fromisoformat(cell)
        return cell if name in TEXTS[self.name] else Decimal(cell)

    def compared(self):
        """How many answers differ."""
        with prefq.Frame.from_csv(io.StringIO(self.text.getvalue()), columns=self.used(), kinds=self.kinds, missing=["NA"]) as frame:
            for ask in QUESTIONS[self.name]:
                wanted = ask.answer(self.rows)
                answer = frame.best(ask.text)
                self.same(ask, "a frame", list(zip(answer.levels, answer.ids)), wanted)
                self.same(ask, "ask", self.by_ask(ask), wanted)
                if pandas is not None:
                    self.same(ask, "psel", self.by_psel(ask), wanted)
                id = random.Random(ask.text).choice(list(self.rows))
                self.same(ask, "why", sorted(frame.why(id, ask.text).ids), ask.dominators(self.rows, id))
        print(f"{self.name}: {len(self.rows)} rows, {self.asked} answers, {self.wrong} differ")
        return self.wrong

    def used(self):
        """The columns that questions name: a table has 16 at most."""
        return [name for name in self.names if any(name in ask.text for ask in QUESTIONS[self.name])]

    def by_ask(self, ask):
        words = [word for name, kind in self.kinds.items() for word in ("--kind", f"{name}={kind}")]
        done = run("ask", "-", ask.text, "--csv", "--missing", "NA", *words, text=self.text.getvalue())
        return done.stderr if done.returncode else [(int(row[0]), int(row[1])) for row in list(csv.reader(io.StringIO(done.stdout)))[1:]]

    def by_psel(self, ask):
        frame = pandas.read_csv(io.StringIO(self.text.getvalue()), na_values=["NA"], keep_default_na=False, dtype={name: "object" for name in self.names})
        for name in self.names:
            if name not in TEXTS[self.name]:
                # pandas reads numbers with decimals as floats, between which distances are not exact.
                frame[name] = [None if value is None else value for value in (row[name] for row in self.rows.values())]
        found = prefq.psel(frame, ask.text, kinds=self.kinds)
        return list(zip(found[".level"], found.index + 1))

    def same(self, ask, what, found, wanted):
        self.asked += 1
        if found != wanted:
            self.wrong += 1
            print(f"{self.name}: {ask.text}: {what} gives {found if isinstance(found, str) else found[:10]}, and right is {wanted[:10]}")


def low(name, order=None):
    return Low(name, f'low("{name}")', None if order is None else order.index)


def high(name, order=None):
    return High(name, f'high("{name}")', None if order is None else order.index)


def all_of(*terms):
    return Pareto(" * ".join(term.text for term in terms), terms)


def first(*terms):
    return Prior(" & ".join(f"({term.text})" if isinstance(term, (Pareto, Prior)) else term.text for term in terms), terms)


def best(term, *by):
    return Ask(f"best {term.text}" + (" by " + ", ".join(f'"{name}"' for name in by) if by else ""), term, by, 1)


def levels(count, term, *by):
    return Ask(f"top_level {count} {term.text}" + (" by " + ", ".join(f'"{name}"' for name in by) if by else ""), term, by, count)


def at_least(count, term):
    return Ask(f"at_least {count} {term.text}", term, (), None, count)


def around(name, value):
    return Between(name, f'around("{name}", {value})', Decimal(value), Decimal(value))


def at(moment):
    """Around a time."""
    return Between("at", f"around(at, '{moment}')", datetime.datetime.fromisoformat(moment), datetime.datetime.fromisoformat(moment))


def pos(name, *texts):
    return Layered(name, f'pos("{name}", {", ".join(map(quoted, texts))})', [texts])


def quoted(text):
    return "'" + text.replace("'", "''") + "'"


def reverse(term):
    return Converse(f"-({term.text})", term)


QUESTIONS = {
    "starwars": [best(high("height"), "sex"), best(high("height"), "hair_color"), levels(3, all_of(high("height"), low("mass")), "gender"), best(pos("sex", "none")),
                 best(first(pos("hair_color", "none"), around("birth_year", "57.5"))), at_least(10, all_of(pos("eye_color", "blue", "brown"), low("mass"))), best(reverse(all_of(high("mass"), low("height")))),
                 best(first(pos("films", "The Empire Strikes Back\nRevenge of the Sith\nReturn of the Jedi\nA New Hope"), low("mass")))],
    "Cars93": [best(all_of(low("AirBags", AIR_BAGS), low("Price"))), best(all_of(high("AirBags", AIR_BAGS), low("Price"), high("MPG.city"))), levels(2, low("Price"), "Origin", "AirBags"),
               best(all_of(low("Price"), high("Horsepower"), high("Luggage.room"))), best(first(pos("Cylinders", "rotary", "5"), around("EngineSize", "2.25"))), at_least(12, all_of(low("Weight"), high("Rear.seat.room"))),
               best(pos("Make", "Volkswagen Eurovan", "Mazda RX-7"), "Man.trans.avail")],
    "diamonds": [best(all_of(low("price"), high("carat"))), best(all_of(low("price"), high("carat"), high("cut", CUT), high("clarity", CLARITY))), levels(3, all_of(low("price"), high("carat")), "color"),
                 at_least(20, first(pos("color", "D", "E"), around("depth", "61.75"))), best(reverse(all_of(low("table"), high("x"))), "cut")],
    "storms": [best(all_of(high("wind"), low("pressure"))), best(high("tropicalstorm_force_diameter"), "status"), levels(2, all_of(high("category"), high("lat")), "year"),
               best(first(pos("name", "Katrina", "Andrew"), all_of(low("pressure"), around("long", "-75.25")))), best(at("1992-08-24 09:00")), levels(4, at("2004-09-11 21:00"), "status")],
}

if __name__ == "__main__":
    sys.exit(main())
