#!/usr/bin/env python3
"""Makes the man page docs/prefq.1, which the wheel brings along.

    python3 dist/man_page.py             writes it
    python3 dist/man_page.py --check     compares it with what would be written

It is made of what `prefq --help` prints (tests/scripts), of the usage of `python -m prefq`, and of the tables of docs/GUIDE.md. Needs Python 3.8.
"""
import re
import sys
from pathlib import Path

TOP = Path(__file__).resolve().parent.parent
PAGE = TOP / "docs/prefq.1"
GUIDE = TOP / "docs/GUIDE.md"
HELP = TOP / "tests/scripts/help_lists_each_option.out"
PROJECT = TOP / "python/pyproject.toml"
COMMAND = TOP / "python/src/prefq/__main__.py"
# The parts of the help, by their first lines.
ABOUT, RUNS, SCRIPT, QUESTION, EXAMPLE = "Runs a script", "Commands:", "A script begins", "A question is", "Example:"
# The tables of the guide, by the heads of their first columns.
OPTIONS, STATUS, FAULTS, LIMITS = "argument", "status", "line | status", "what"


def field(name):
    """A text of pyproject.toml."""
    return re.search(rf'^{name} = "(.*)"$', PROJECT.read_text(encoding="utf-8"), re.MULTILINE)[1]


def escaped(text):
    """A text as roff has it."""
    text = text.replace("\\", "\\e").replace("-", "\\-")
    return re.sub(r"^(?=[.'])", r"\\&", text, flags=re.MULTILINE)


def of_markdown(text):
    """A text of the guide: code is bold, and a link is its words."""
    text = re.sub(r"\[([^\]]*)\]\([^)]*\)", r"\1", text)
    return re.sub(r"`([^`]*)`", r"\\fB\1\\fP", escaped(text))


def section(title, *parts):
    return [f".SH {title}", *parts]


def as_it_is(text):
    """Lines that are shown as they are."""
    return "\n".join([".nf", escaped(text), ".fi"])


def entry(name, text):
    return f".TP\n\\fB{escaped(name)}\\fP\n{text}"


def paragraphs(text):
    """A part of the help: its paragraphs, its lists of two columns, and what is indented further as it is."""
    for block in text.split("\n\n"):
        if block.startswith("    "):
            yield as_it_is(block)
        elif block.startswith("  "):
            yield from (entry(name, escaped(means)) for name, means in re.findall(r"^  (\S.*?) {2,}(\S.*)$", block, re.MULTILINE))
        else:
            yield f".PP\n{escaped(block)}"


def table(head):
    """The rows of the table of the guide whose head begins with these words, without their code marks in the first column."""
    text = GUIDE.read_text(encoding="utf-8")
    found = re.search(rf"^\| {re.escape(head)} \|.*\n\|[-|]+\|\n((?:\|.*\n)+)", text, re.MULTILINE)
    for row in found[1].splitlines():
        name, *cells = (cell.strip() for cell in re.split(r"(?<!\\)\|", row)[1:-1])
        yield name.replace("`", ""), cells


def part_of_the_help(first):
    """The part of the program's help that begins with these words, up to the part behind it."""
    text = HELP.read_text(encoding="utf-8")
    begin = text.index(f"\n{first}") + 1 if not text.startswith(first) else 0
    ends = [text.find(f"\n{word}", begin + 1) for word in (RUNS, "Usage:", "Options:", SCRIPT, QUESTION, EXAMPLE)]
    return text[begin:min((end for end in ends if end > 0), default=len(text))].rstrip()


def usages():
    """How the command that pip installs is called."""
    usage = re.search(r'^USAGE = """usage: (.*?)\n\n', COMMAND.read_text(encoding="utf-8"), re.MULTILINE | re.DOTALL)[1]
    return re.sub(r"^ *python -m ", "", usage, flags=re.MULTILINE)


def own_commands():
    """The commands of the package, each with what it does."""
    return re.findall(r"^(ask|serve) +(\S.*)$", COMMAND.read_text(encoding="utf-8"), re.MULTILINE)


def runs():
    """The ways to run a script, each with what it does."""
    return re.findall(r"^  (play|live|threads) +(.*)$", part_of_the_help(RUNS), re.MULTILINE)


def page():
    commands = [entry(name, f"{escaped(text[0].upper() + text[1:])}.") for name, text in own_commands()]
    commands += [entry(name, f"{escaped(text)}.") for name, text in runs()]
    options = [entry(f"{name} N", of_markdown(f"{values}, by default {default}: {what}."))
               for name, (values, default, what) in table(OPTIONS)]
    description = field("description")
    parts = [
        [f'.TH PREFQ 1 "" "prefq {field("version")}" "User Commands"'],
        section("NAME", f"prefq \\- {escaped(description[0].lower() + description[1:])}"),
        section("SYNOPSIS", as_it_is(usages())),
        section("DESCRIPTION", f"{escaped(part_of_the_help(ABOUT))}.", "The Python package of that name asks files and serves them as a page."),
        section("COMMANDS", *commands, ".PP", "Each says more with \\fB\\-\\-help\\fP."),
        section("OPTIONS", "They stand after \\fBplay\\fP, \\fBlive\\fP or \\fBthreads\\fP.", *options),
        section("SCRIPTS", *paragraphs(part_of_the_help(SCRIPT))),
        section("QUESTIONS", *paragraphs(part_of_the_help(QUESTION))),
        section("LIMITS", *(entry(name, of_markdown(f"{much[0].upper()}{much[1:]}.")) for name, (much,) in table(LIMITS))),
        section("EXIT STATUS", *(entry(name, of_markdown(f"{when[0].upper()}{when[1:]}.")) for name, (when,) in table(STATUS))),
        section("DIAGNOSTICS", *(entry(name, of_markdown(f"Status {status}: {means}.")) for name, (status, means, _) in table(FAULTS))),
        section("EXAMPLE", *paragraphs(part_of_the_help(EXAMPLE).partition("\n\n")[2])),
    ]
    return "".join(f"{line}\n" for part in parts for line in part)


def main():
    if sys.argv[1:] == ["--check"]:
        is_right = PAGE.is_file() and PAGE.read_text(encoding="utf-8") == page()
        print("docs/prefq.1 is as it is made" if is_right else "docs/prefq.1 is not as it is made: python3 dist/man_page.py writes it")
        sys.exit(0 if is_right else 1)
    PAGE.write_text(page(), encoding="utf-8")


if __name__ == "__main__":
    main()
