#!/usr/bin/env python3
"""Makes the tables of docs/EDITS.md from the must-fail edits, and shows that each edit can be made.

    python3 tests/edits.py            says what is wrong
    python3 tests/edits.py --write    writes the tables first

An edit of crates/CRATE/must-fail begins with three lines, which are its line of the page: `# promise: ` with what it breaks, `# shows: ` with
how the mistake shows when the code runs, mostly a test that fails, and `# clause: ` with the clause that refuses it. An edit of tests/must-fail
needs the first alone; its line is marked `release`. In each edit an `old:` has to stand once in its file, and what is named as a test, a script,
a function or a clause (contracts.py says how) has to be there. Needs Python 3.9.
"""
import re
import sys
from dataclasses import dataclass
from pathlib import Path

import contracts

TOP = Path(__file__).resolve().parent.parent
PAGE = TOP / "docs/EDITS.md"
CRATES = ["pref_table", "pref_term", "pref_sky", "pref_core", "pref_share", "share_tests", "pref_script", "prefq_c"]
# What an edit says of itself, and the heading of its column.
COLUMNS = {"promise": "promise", "shows": "how the mistake shows", "clause": "clause that refuses it"}
MOST_IN_A_CELL = 200
READ = ("# ", "file: ", "old: ", "new:")
SAID = re.compile(rf"^# ({'|'.join(COLUMNS)}): (.+)$", re.MULTILINE)
TEST = re.compile(r"`(\w+_tests)::([\w:]+)`")
SCRIPT = re.compile(r"`tests/scripts/(\w+)`")
TABLES = re.compile(rf"^## (?:{'|'.join(CRATES)})\n.*?(?=^## (?!{'|'.join(CRATES)})|\Z)", re.MULTILINE | re.DOTALL)


@dataclass
class Edit:
    crate: str
    path: Path
    is_of_the_gate: bool
    said: dict
    # of each change: the file in the crate, what stands there once, what comes in its place
    changes: list

    @property
    def name(self):
        return self.path.stem

    def cells(self):
        """Its line of the page."""
        return [f"`{self.name}`{'' if self.is_of_the_gate else ', *release*'}", *(self.said.get(column, "") for column in COLUMNS)]

    def texts(self):
        """The text of each file that it changes, after the change."""
        found = {}
        for file, old, new in self.changes:
            text = found[file] if file in found else (TOP / "crates" / self.crate / file).read_text(encoding="utf-8")
            if text.count(old) != 1:
                raise ValueError(f"stands {text.count(old)} times in {file}, not once: {old}")
            found[file] = text.replace(old, new)
        return found


def read_edit(path, crate, is_of_the_gate):
    text, changes, file, old = path.read_text(encoding="utf-8"), [], "", ""
    for line in text.splitlines():
        kind, _, rest = line.partition(":")
        rest = rest.removeprefix(" ")
        if kind == "file":
            file = rest
        elif kind == "old":
            old = rest
        elif kind == "new":
            changes.append((file, old, rest))
    return Edit(crate, path, is_of_the_gate, dict(SAID.findall(text)), changes)


def all_edits():
    """The edits, crate by crate, those that `rt ci` tries first."""
    return [read_edit(path, crate, is_of_the_gate) for crate in CRATES
            for folder, is_of_the_gate in ((f"crates/{crate}/must-fail", True), (f"tests/must-fail/{crate}", False))
            for path in sorted(TOP.glob(f"{folder}/*.edit"))]


def row(*cells):
    return f"| {' | '.join(cells)} |\n"


def section(crate, edits):
    head = row("edit", *COLUMNS.values()) + "|---" * (len(COLUMNS) + 1) + "|\n"
    rows = [row(*edit.cells()) for edit in edits if edit.crate == crate]
    return f"## {crate}\n\n{head}{''.join(rows)}\n"


def page(edits):
    """The page with its tables made anew; what stands before and behind them is written by hand."""
    made, count = TABLES.subn(lambda _: "".join(section(crate, edits) for crate in CRATES), PAGE.read_text(encoding="utf-8"))
    if count != 1:
        sys.exit("docs/EDITS.md has no place for its tables: a heading for each crate, one after the other")
    return made


def strays():
    """Edits that this doesn't read, since their crate is none of CRATES."""
    paths = [*TOP.glob("crates/*/must-fail/*.edit"), *TOP.glob("tests/must-fail/*/*.edit")]
    return sorted(path.relative_to(TOP) for path in paths if not {*CRATES} & {*path.parts})


def is_test(crate, name):
    """Whether a crate has a test of this name, `MODULE::.. ::FUNCTION`."""
    *modules, function = name.split("::")
    file = Path(TOP / "crates" / crate / "src", *modules).with_suffix(".rt")
    return file.is_file() and re.search(rf"#\[test\]\s+(?:#\[.*\]\s+)*fn {function}\b", file.read_text(encoding="utf-8")) is not None


def faults(edit):
    """What is wrong with an edit."""
    try:
        edit.texts()
    except (OSError, ValueError) as fault:
        yield str(fault)
    if not edit.changes:
        yield "changes nothing"
    yield from (f"has a line that is not read: {line}" for line in edit.path.read_text(encoding="utf-8").splitlines() if not line.startswith(READ))
    wanted = COLUMNS if edit.is_of_the_gate else ["promise"]
    yield from (f"has no line `# {column}: `" for column in wanted if column not in edit.said)
    for column, text in edit.said.items():
        if len(text) > MOST_IN_A_CELL:
            yield f"its line `# {column}: ` has more than {MOST_IN_A_CELL} characters"
        if "|" in text:
            yield f"its line `# {column}: ` has a |, which ends a cell"
    yield from contracts.faults(edit.crate, edit.said.get("clause", ""))
    shows = edit.said.get("shows", "")
    yield from (f"there is no test {crate}::{name}" for crate, name in TEST.findall(shows) if not is_test(crate, name))
    yield from (f"there is no script {name}" for name in SCRIPT.findall(shows) if not (TOP / f"tests/scripts/{name}.script").is_file())


def main():
    edits = all_edits()
    if sys.argv[1:] == ["--write"]:
        PAGE.write_text(page(edits), encoding="utf-8")
    wrong = [f"{edit.path.relative_to(TOP)}: {fault}" for edit in edits for fault in faults(edit)]
    wrong += [f"{path}: its crate is not known here" for path in strays()]
    names = [f"{edit.crate}/{edit.name}" for edit in edits]
    wrong += [f"two edits are called {name}" for name in sorted({name for name in names if names.count(name) > 1})]
    if page(edits) != PAGE.read_text(encoding="utf-8"):
        wrong.append("docs/EDITS.md is not what the edits say: python3 tests/edits.py --write")
    gate = sum(edit.is_of_the_gate for edit in edits)
    print(*wrong, f"{gate} edits, and {len(edits) - gate} more for a release; {len(wrong)} wrong", sep="\n")
    sys.exit(1 if wrong else 0)


if __name__ == "__main__":
    main()
