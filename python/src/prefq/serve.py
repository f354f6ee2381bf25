"""`python -m prefq serve FILE.csv`: a page on which a file is asked and changed."""
import argparse
import csv
from pathlib import Path
from typing import Optional, Sequence

from .ask import add_file_options, file_options, say, wrong
from .desk import Desk
from .errors import Ended, Error
from .frame import Frame
from .server import Server, run
from .streams import complain

EXAMPLES = """examples:
  python -m prefq serve hotels.csv
  python -m prefq serve hotels.csv --port 9000 --question 'top_level 2 low("Price (EUR)") * high(Stars)'
"""


def parser() -> argparse.ArgumentParser:
    """What the command line has."""
    found = argparse.ArgumentParser(prog="python -m prefq serve", formatter_class=argparse.RawDescriptionHelpFormatter, epilog=EXAMPLES,
                                    description="Serves a page on which a CSV file is asked in the browser: a plot, a table, and rows that can be changed. The file itself stays as it is.")
    found.add_argument("file", metavar="FILE.csv", help="comma-separated values with names in the first line")
    found.add_argument("--port", type=int, default=8765, help="where the page is (8765); 0 takes a free one")
    found.add_argument("--host", default="127.0.0.1", help="the address that is listened on (127.0.0.1, which nobody else reaches); with another one anybody who reaches it sees and changes rows")
    found.add_argument("--allow-host", metavar="NAME", action="append", default=[], help="a name under which the page may be asked for, beside the address and localhost, as that of a proxy or of this machine in its network; given again, further ones; * is any")
    found.add_argument("--question", action="append", default=[], help="a question to begin with; given again, further examples")
    found.add_argument("--columns", help="names of the columns to take, with commas between them; a table has 16 at most")
    found.add_argument("--read-only", action="store_true", help="rows cannot be changed")
    add_file_options(found)
    return found


def main(arguments: Optional[Sequence[str]] = None) -> int:
    """Runs the command; returns its status: 0 after Ctrl-C, 2 where something is refused, 1 where the program or the network fails."""
    options = parser().parse_args(arguments)
    try:
        columns = next(csv.reader([options.columns], skipinitialspace=True)) if options.columns else None
        frame = Frame.from_csv(options.file, columns=columns, **file_options(options))
    except (Error, OSError, ValueError, TypeError, LookupError) as why:
        complain(wrong(why).replace("by columns=[..]", "by --columns"))
        return 1 if isinstance(why, Ended) else 2
    say(frame.notes)
    with Desk(frame) as desk:
        try:
            for question in options.question:
                desk.read(question)
            server = Server(desk, host=options.host, port=options.port, title=Path(options.file).name, questions=options.question, editable=not options.read_only,
                            allow_hosts=options.allow_host)
        except Error as why:
            complain(str(why))
            return 2
        except (OSError, OverflowError) as why:
            complain(f"{options.host}, port {options.port}: {why}")
            return 1
        run(server)
    return 0
