#!/usr/bin/env python3
"""Runs what the documents show on the built program, and compares what it prints.

    (cd crates/prefq && rt run prefq < stdin)     # builds crates/prefq/out/prefq
    python3 examples/check.py [PROGRAM]
    python3 examples/check.py --cases FOLDER      # writes the runs as cases of `rt try --cases`, which runs them on a program without a proof

A folder of an example has `args` (a word a line), `script.txt` and `replies.txt`. In its document, which is its README or else that of the
repository, a block `script` or `replies` is a part of these. In the documents below, these stand for runs:

- a block `script ARGS`, which is a whole script, and the block `replies [STATUS]` after it
- a block `sh` of one command, which gives the program a script between `<<'END'` and `END`, or none, and the block `replies [STATUS]` after it
- over the last block `table`: a block `question` and the block `answer` after it
- over the last block `table`: a table's line of a question, a meaning, and the ids of its answer, a `/` between two levels
- over the last block `table`: a table's line of a refused command, what is printed behind `line N`, and the right command
- a block `sh` of one command `crates/NAME/out/NAME` of another program, and the block `replies` after it. Where that program is not built, it is
  compared with the crate's file `stdout`, as `rt ci` does

A block `rust` or `text` with the name of a file behind that word is a part of that file.
"""
import re
import subprocess
import sys
from dataclasses import dataclass
from pathlib import Path

TOP = Path(__file__).resolve().parent.parent
# What PYTHON.md shows is run by python/tests/test_documents.py.
DOCUMENTS = [TOP / "README.md", *sorted(document for document in TOP.glob("docs/*.md") if document.name != "PYTHON.md")]
REFUSED_ARGUMENTS = b"arguments refused\n"
BLOCK = r"^```(?P<kind>\w+)(?P<rest>[^\n]*)\n(?P<text>.*?)^```$"
ASKED = r"^\| `(?P<question>[^`]+)` \|[^|\n]*\| (?P<ids>\d[\d, /]*) \|$"
SLIP = r"^\| `(?P<slip>as [^`]+)` \| `(?P<says>refused[^`]+)` \| `(?P<right>as [^`]+)` \|"
PART = re.compile(f"{BLOCK}|{ASKED}|{SLIP}", re.MULTILINE | re.DOTALL)
COMMAND = re.compile(r"crates/(?P<crate>\w+)/out/(?P=crate)(?P<words>[^\n<]*?)(?: <<'END'\n(?P<script>.*)END)?\n", re.DOTALL)


@dataclass
class Run:
    """A script that a document shows, with what the program must print and its status."""

    name: str
    words: list
    script: str
    printed: str
    status: int = 0
    crate: str = "prefq"

    def ends(self, program):
        """What the program prints, and its status. What stands on standard error counts as printed, unless it says why arguments are refused."""
        if self.crate != "prefq":
            program = TOP / f"crates/{self.crate}/out/{self.crate}"
            if not program.is_file():
                return (TOP / f"crates/{self.crate}/stdout").read_text(encoding="utf-8"), 0
        done = subprocess.run([program, *self.words], input=self.script.encode(), capture_output=True, timeout=60)
        also = b"" if done.stdout == REFUSED_ARGUMENTS else done.stderr
        return (done.stdout + also).decode(), done.returncode

    def fault(self, program):
        """Whether the program prints something else."""
        if self.ends(program) != (self.printed, self.status):
            return f"{self.name}: the program prints something else"

    def write(self, folder):
        """Writes the run as a case."""
        (folder / self.name).write_text(self.script, encoding="utf-8")
        (folder / f"{self.name}.args").write_text("".join(f"{word}\n" for word in self.words), encoding="utf-8")
        (folder / f"{self.name}.stdout").write_text(self.printed, encoding="utf-8")


def blocks(path):
    return [(part["kind"], part["rest"].strip(), part["text"]) for part in re.finditer(BLOCK, path.read_text(encoding="utf-8"), re.MULTILINE | re.DOTALL)]


def example(folder):
    script, replies = ((folder / name).read_text(encoding="utf-8") for name in ("script.txt", "replies.txt"))
    return Run(f"example-{folder.name}", (folder / "args").read_text(encoding="utf-8").split(), script, replies)


def strange_parts(folder, run):
    """What an example's document shows and its files do not have."""
    own = folder / "README.md"
    document = own if own.is_file() else TOP / "README.md"
    for kind, _, text in blocks(document):
        if kind in ("script", "replies") and text not in {"script": run.script, "replies": run.printed}[kind]:
            yield f"{run.name}: {document.parent.name}/README.md shows what {kind}.txt does not have: {text.splitlines()[0]}"


def strange_quotes(document):
    """What a document shows of a file and the file does not have."""
    for kind, file, text in blocks(document):
        if kind in ("rust", "text") and file and text not in (TOP / file).read_text(encoding="utf-8"):
            yield f"{document.name} shows what {file} does not have: {text.splitlines()[0]}"


def over(table, *commands):
    """The script of some commands over a table."""
    return "".join(f"{line}\n" for line in ("table", *table, "end", *commands))


def answer_of(table, ids):
    """What an answer prints that has these ids, a `/` between two levels."""
    levels = [[int(number) for number in level.split(",")] for level in ids.split("/")]
    rows = [f"level {level} id {number}: {table[number]}\n" for level, numbers in enumerate(levels, 1) for number in numbers]
    return f"1 begun 1\n1 left 0\n1 answer {len(rows)}\n" + "".join(rows)


def scanned(question):
    """The commands that ask a question of a table of one block."""
    return f"as 1 begin {question}", "as 1 scan", "as 1 finish"


def slip(name, table, part):
    """A refused command and the right one after it, which begins a query or inserts a row."""
    done = "1 begun 1" if part["right"].startswith("as 1 begin ") else f"1 inserted {len(table)}"
    printed = f"line {len(table) + 3} {part['says']}\n{done}\n"
    return Run(name, [], over(table, part["slip"], part["right"]), printed)


def command(text):
    """The words and the script of a command that a block shows, and the crate of its program."""
    parts = COMMAND.fullmatch(text)
    if not parts:
        sys.exit(f"this is no command of the program: {text}")
    return {"words": parts["words"].split(), "script": parts["script"] or "", "crate": parts["crate"]}


def runs_of(document):
    """What a document shows, run by run."""
    table, asked = [], {}
    for number, part in enumerate(PART.finditer(document.read_text(encoding="utf-8"))):
        name, kind, text = f"{document.stem}-{number}", part["kind"], part["text"]
        if kind == "table":
            table = text.splitlines()
        elif kind == "script":
            asked = {"words": part["rest"].split(), "script": text}
        elif kind == "sh":
            asked = command(text)
        elif kind == "question":
            asked = {"words": [], "script": over(table, *scanned(text.strip()))}
        elif kind == "replies":
            yield Run(name, **asked, printed=text, status=int(part["rest"] or 0))
        elif kind == "answer":
            yield Run(name, **asked, printed=f"1 begun 1\n1 left 0\n{text}")
        elif part["question"]:
            yield Run(name, [], over(table, *scanned(part["question"])), answer_of(table, part["ids"]))
        elif part["slip"]:
            yield slip(name, table, part)


def main():
    folders = [args.parent for args in sorted(TOP.glob("examples/*/args"))]
    examples = [example(folder) for folder in folders]
    runs = [*examples, *(run for document in DOCUMENTS for run in runs_of(document))]
    if sys.argv[1:2] == ["--cases"]:
        for run in runs:
            if run.crate == "prefq":
                run.write(Path(sys.argv[2]))
        return
    program = Path(sys.argv[1] if len(sys.argv) > 1 else TOP / "crates/prefq/out/prefq").resolve()
    if not program.is_file():
        sys.exit(f"{program} is not there: build it first")
    wrong = [why for run in runs if (why := run.fault(program))]
    wrong += [why for folder, run in zip(folders, examples) for why in strange_parts(folder, run)]
    wrong += [why for document in DOCUMENTS for why in strange_quotes(document)]
    print(*wrong, f"{len(runs)} runs checked, {len(wrong)} wrong", sep="\n")
    sys.exit(1 if wrong else 0)


main()
