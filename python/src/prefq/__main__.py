"""`python -m prefq`, which is also the command `prefq`: `ask` and `serve`, and the commands of the program."""
import os
import signal
import sys
from typing import List

USAGE = """usage: python -m prefq ask FILE.csv [QUESTION] [--csv | --json | --html] [--plot OUT.svg]
       python -m prefq serve FILE.csv
       python -m prefq play | live | threads [OPTIONS] < SCRIPT

ask                   prints the best rows of a file
serve                 opens a page on which a file can be asked and changed
play, live, threads   runs a script over a table of whole numbers, as the program prefq does

python -m prefq COMMAND --help says more; python -m prefq --version prints the version. The command prefq, which pip installs, does the same.
"""
OF_THE_PROGRAM = ("play", "live", "threads")


def become_the_program(arguments: List[str]) -> int:
    """Lets the program take the place of this process; 1, and nothing else is done, where there is no program."""
    from .errors import ProgramNotFound
    from .program import find_program
    try:
        program = find_program()
    except ProgramNotFound as why:
        print(f"prefq: {why}", file=sys.stderr)
        return 1
    for ignored in (signal.SIGPIPE, signal.SIGXFSZ):
        # By Python; the program would inherit that.
        signal.signal(ignored, signal.SIG_DFL)
    os.execv(program, [program, *arguments])


def command() -> int:
    """What the command `prefq` does."""
    return main(sys.argv[1:])


def main(arguments: List[str]) -> int:
    """Runs a command, and returns its status."""
    if arguments[:1] == ["ask"]:
        from .ask import main as ask
        return ask(arguments[1:])
    if arguments[:1] == ["serve"]:
        from .serve import main as serve
        return serve(arguments[1:])
    if arguments and arguments[0] in OF_THE_PROGRAM:
        return become_the_program(arguments)
    if arguments and arguments[0] in ("-h", "--help", "help"):
        print(USAGE, end="")
        return 0
    if arguments and arguments[0] in ("-V", "--version"):
        from . import __version__
        print(f"prefq {__version__}")
        return 0
    if arguments:
        print(f"prefq: no command {arguments[0]!r}", file=sys.stderr)
    print(USAGE, end="", file=sys.stderr)
    return 2


if __name__ == "__main__":
    sys.exit(main(sys.argv[1:]))
