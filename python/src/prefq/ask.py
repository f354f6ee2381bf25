"""`python -m prefq ask FILE.csv QUESTION`: the best rows of a file, in its own names and values."""
import argparse
import html
import re
import sys
import time
import warnings
from typing import Any, Dict, Iterable, List, Mapping, Optional, Sequence, Tuple

from .answer import Answer
from .ask_files import asked_of_files, files_like
from .columns import Column
from .errors import Ended, Error
from .infer import kind_of_texts
from .loading import Encoded, File, records_of
from .missing import Missing
from .moment import Moment
from .partition import Reading
from .reading import is_blank, read_csv
from .records import Record
from .selection import Selection, selected
from .streams import FULL, NotWritten, complain, give_up_output, standard_input, write
from .translate import why_texts
from .visible import in_xml, visible
from .warned import UnknownValue

# Names of columns and the parentheses of a kind may both have =.
KIND_GIVEN = re.compile(r"(?P<column>.*?)=(?P<kind>[^=]*|[^=(]*\(.*\)\s*)", re.DOTALL)
EXAMPLES = """examples:
  python -m prefq ask hotels.csv "best low(Price) * high(Stars)"
  python -m prefq ask hotels.csv "best pos(City, 'Lyon') & low(\\"Price (EUR)\\")" --csv > best.csv
  python -m prefq ask hotels.csv "top_level 3 low(Price) * low(Distance) by City" --plot best.svg
  python -m prefq ask hotels.csv          prints the columns of the file
  python -m prefq ask 'data/*.csv' "best low(Price)"      asks all of these files, on all processors

A question: best TERM, top_level K TERM, at_least K TERM, each with `by COLUMN, ..` behind it or without, or skyline of COLUMN min, COLUMN max, COLUMN diff.
A term: low(x), high(x), around(x, 5), between(x, 1, 5), pos(x, 'a', 'b'), layered(x, {'a'}, {'b'}), true(x > 5 and y = 'a'), -t,
t * u (both at once), t & u (t decides first), t | u (better in both). In the place of a column may stand an expression, as in low(x / y).
"""


def parser() -> argparse.ArgumentParser:
    """What the command line has."""
    found = argparse.ArgumentParser(prog="python -m prefq ask", epilog=EXAMPLES,
                                    description="Prints the best rows of a CSV file: level, id (the number of the row), and the row as it stands there.",
                                    formatter_class=argparse.RawDescriptionHelpFormatter)
    found.add_argument("file", metavar="FILE.csv", help="comma-separated values with names in the first line; - is standard input; in quotes, 'data/*.csv' is all of these files")
    found.add_argument("question", metavar="QUESTION", nargs="?", help="in the names and values of the file; without one, the columns are printed")
    forms = found.add_mutually_exclusive_group()
    for form, what in (("csv", "CSV"), ("json", "JSON"), ("html", "a page of HTML")):
        forms.add_argument(f"--{form}", dest="form", action="store_const", const=form, help=f"print {what}")
    found.add_argument("--where", metavar="CONDITION", help="only rows that meet it count, as --where \"Stars >= 4 and City = 'Lyon'\"")
    found.add_argument("--top", type=int, metavar="K", help="print K rows, in each group: those of whole levels, and of the last one those that stand first in the file")
    found.add_argument("--ties", metavar="TERM", help="of the last level, print those that this term likes best; with a minus in front, as --ties='-low(x)'")
    found.add_argument("--plot", metavar="OUT.svg", help="draw the answer by its first two criteria into this file")
    add_file_options(found)
    return found


def add_file_options(found: argparse.ArgumentParser) -> None:
    """The options that say how a file is written, and what its columns are."""
    found.add_argument("--kind", metavar="COLUMN=KIND", action="append", default=[],
                       help="what a column is: whole, decimal(2), float, bool, date, time, clock, text, choice(a, b, c); decimal(2, thousands=\",\", unit=\"€\"), date(\"%%d.%%m.%%Y\")")
    found.add_argument("--missing", metavar="WORD", action="append",
                       help="a word that stands for a missing value, in any column; may be given again, and then NA, n/a, nan, null, none and - are values as any others")
    found.add_argument("--encoding", help="of the file (that of its mark, or utf-8)")
    found.add_argument("--delimiter", help="between the cells of the file (the one of , ; tab | that cuts its first rows alike, into most cells)")
    found.add_argument("--decimal", default=".", help="the sign before decimal digits (.)")
    found.add_argument("--thousands", default="", metavar="SIGN", help="the sign between thousands, as , in 1,200 (none)")
    found.add_argument("--skip", type=int, default=0, metavar="LINES", help="how many lines stand before the one with the names (0)")
    found.add_argument("--null-padding", action="store_true", help="a row that is too short ends in missing values, and is not refused")


def file_options(options: argparse.Namespace) -> Dict[str, Any]:
    """How files are read by these options, as `Frame.from_csv` takes it."""
    names = ("missing", "encoding", "delimiter", "decimal", "thousands", "skip", "null_padding")
    return {"kinds": kinds_of(options.kind), **{name: getattr(options, name) for name in names}}


def reading_of(options: argparse.Namespace) -> Reading:
    """The same of several files."""
    return Reading.of(file_options(options), "ask")


def file_of(options: argparse.Namespace, progress: Optional["Progress"] = None) -> File:
    """The file of these options."""
    reading = reading_of(options)
    cells = read_csv(standard_input(), reading.dialect, progress, "standard input") if options.file == "-" else read_csv(options.file, reading.dialect, progress)
    return File(cells, reading.kinds, Missing(reading.missing), reading.form)


# What is said of arguments of a function, and of options.
IN_OPTIONS = {
    r"^(where|top|ties)= ": r"--\1 ",
    r"it needs top=": "it needs --top",
    r"a frame has top=5": "there is --top 5",
    r"beside the question as where=\.\.": "beside the question, as --where \"x > 5\"",
    r"by where=": "by --where",
    r"missing=\[\.\.\]": "--missing",
    r"null_padding=True": "--null-padding",
    r"skip=(\d+)": r"--skip \1",
    r"encoding='([^']*)'": r"--encoding \1",
    r"give it the kind '([^']*)'": r"give it a kind, as --kind 'COLUMN=\1'",
    r"kinds=\{'([^']*)': '([^']*)'\}": r"--kind '\1=\2'",
    r"kinds=\{\.\.\}": "--kind COLUMN=KIND",
}


def main(arguments: Optional[Sequence[str]] = None) -> int:
    """Runs the command; returns its status: 0, 2 where something is refused, 1 where the program fails."""
    options = parser().parse_intermixed_args(arguments)        # the question may stand behind options
    try:
        with warnings.catch_warnings():
            warnings.showwarning = lambda message, *_: complain(str(message))
            warnings.simplefilter("always", UnknownValue)
            run(options)
    except BrokenPipeError:
        give_up_output()        # Nobody reads any more, as behind `| head`.
        return 1
    except KeyboardInterrupt:
        return 130
    except (NotWritten, Error, OSError, ValueError, TypeError, LookupError) as why:
        complain(wrong(why))
        return 1 if isinstance(why, (Ended, NotWritten)) else 2
    return 0


def wrong(why: BaseException) -> str:
    """What is wrong, in the words of the command line."""
    return in_options(f"{why.filename}: {why.strerror}" if isinstance(why, OSError) and why.filename else str(why))


def in_options(text: str) -> str:
    """What is said of arguments of a function, said of options."""
    for words, options in IN_OPTIONS.items():
        text = re.sub(words, options, text)
    return text


def run(options: argparse.Namespace) -> None:
    """Reads the file, or the files of a pattern, asks, and prints."""
    progress = Progress()
    files = files_like(options.file)
    selection = Selection.of(where=options.where, top=options.top, ties=options.ties)
    if files:
        found = asked_of_files(files, options.question, selection, reading_of(options), progress)
        progress.end()
        show(found, options, selection, found.notes_of_columns)
        return
    file = file_of(options, progress)
    if options.question is None:
        file.load(dict.fromkeys(file.cells.names))
        progress.end()
        say(file.notes.values())
        write("".join(f"{line}\n" for line in columns_of(file)))
        return
    if options.plot or options.form == "json":
        file.load(file.cells.names)         # Their values are wanted, not only their cells.
    file.load(selection.names(options.question, file.cells.names))
    answer = asked(file, options.question, selection, progress)
    progress.end()
    show(answer, options, selection, file.notes)


def show(answer: Answer, options: argparse.Namespace, selection: Selection, notes: Mapping[str, str]) -> None:
    """Says what is to be known of columns of an answer, draws it, and prints it."""
    said = answer.names if options.form == "json" else selection.names(options.question, answer.names)      # Of the others the cells are printed.
    say(notes[name] for name in said if name in notes)
    if options.plot:
        draw(answer, options.plot)
    write(written(answer, options.form))


def say(notes: Iterable[str]) -> None:
    """Says on standard error what is to be known of an answer."""
    for note in notes:
        complain(visible(in_options(note)))


def draw(answer: Answer, path: str) -> None:
    """Draws the answer into a file."""
    try:
        answer.to_svg(path)
    except OSError as why:
        if why.errno in FULL:
            raise NotWritten(f"{path}: {why.strerror}") from None
        raise


def columns_of(file: File) -> List[str]:
    """The columns of a file with their kinds, a line each."""
    columns = [file.column(name)[0] for name in file.cells.names]
    return [visible(f"{column.name}: {column.kind}{in_options(why_texts(column))}") for column in columns]


def asked(file: File, question: str, selection: Selection, progress: "Progress") -> Answer:
    """The answer, whose rows are those of the file. Only the columns that are named are understood."""
    best = selected(question, selection, Moment(file.cells.names, file.column, progress), progress=progress)
    return FileAnswer(question, file, [(row.level, row.id) for row in best])


class FileAnswer(Answer):
    """An answer that writes the cells of the file as they stand there."""

    def __init__(self, question: str, file: File, rows: Sequence[Tuple[int, int]]) -> None:
        self._rows = file.cells.rows_at(id - 1 for _, id in rows)
        self._loaded: Dict[str, Encoded] = {name: file.loaded[name] for name in dict.fromkeys(file.cells.names) if name in file.loaded}
        columns = [self._loaded[name][0] if name in self._loaded else self._shown(name, place) for place, name in enumerate(file.cells.names)]
        super().__init__(question, columns, self._records(rows), others=lambda: self._records((None, id) for id in range(1, file.rows + 1)))

    def cells(self, record: Record) -> List[str]:
        return [str(record.level), str(record.id), *self._rows[(record.id or 1) - 1]]

    def _shown(self, name: str, place: int) -> Column:
        """A column that the question does not name, with the kind that its cells in the answer look like."""
        return Column(name, kind_of_texts([row[place] for row in self._rows.values() if not is_blank(row[place])]))

    def _records(self, found: Iterable[Tuple[Optional[int], int]]) -> List[Record]:
        """The rows with the values of the columns that are understood."""
        columns, lists = [column for column, _ in self._loaded.values()], [numbers for _, numbers in self._loaded.values()]
        return records_of(columns, [(level, id, [numbers[id - 1] for numbers in lists]) for level, id in found])


class Progress:
    """Says on standard error what is done, where that takes longer than a second and a person watches."""

    def __init__(self) -> None:
        self._begun = time.monotonic()
        self._shown = False

    def __call__(self, what: str, done: int, total: int) -> None:
        if time.monotonic() - self._begun > 1 and sys.stderr is not None and sys.stderr.isatty():
            much = f" {100 * done // total} %" if total else f" {done:,} rows" if done else ""
            print(f"\r\x1b[K{what}{much}", end="", file=sys.stderr, flush=True)
            self._shown = True

    def end(self) -> None:
        """Takes away what was said."""
        if self._shown:
            print("\r\x1b[K", end="", file=sys.stderr, flush=True)


def kinds_of(words: Sequence[str]) -> Dict[str, str]:
    """The kinds that the command line gives."""
    found = {}
    for word in words:
        given = KIND_GIVEN.fullmatch(word)
        if not given:
            raise ValueError(f"--kind {word}: write COLUMN=KIND, as in --kind 'Stars=decimal(1)'")
        found[given["column"]] = given["kind"]
    return found


def written(answer: Answer, form: Optional[str]) -> str:
    """The answer in a form."""
    if form == "csv":
        return answer.to_csv()
    if form == "json":
        return answer.to_json(indent=1)
    if form == "html":
        title = html.escape(in_xml(answer.question))
        return f'<!doctype html>\n<html lang="en">\n<head><meta charset="utf-8"><title>{title}</title></head>\n<body>\n{answer.to_html()}\n</body>\n</html>\n'
    return answer.to_text() + "\n"
