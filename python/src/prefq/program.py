"""Finds the program `prefq`."""
import os
import shutil
from pathlib import Path
from typing import Optional, Union

from .errors import ProgramNotFound

BUNDLED = Path(__file__).with_name("bin") / "prefq"
BUILT = Path(__file__).resolve().parents[3] / "crates/prefq/out/prefq"
COMMAND = b"from prefq.__main__ import"
BUILD = ("Build it in the repository by `(cd crates/prefq && rt run prefq < stdin)`, then install the package again (`pip install ./python`), "
         "or let the environment variable PREFQ_PROGRAM name it: crates/prefq/out/prefq")


def find_program(program: Union[str, "os.PathLike[str]", None] = None) -> str:
    """The path of the program: the given one, else the one in this package, else that of the environment variable PREFQ_PROGRAM, else `prefq` on the PATH
    (but not the command that pip installs with this package), else the one that is built in the repository, if this package lies there.

    >>> find_program("no/such/program")
    Traceback (most recent call last):
    prefq.errors.ProgramNotFound: no/such/program is not there. Build it ...
    """
    if program is not None:
        return _runs(os.fspath(program))
    if BUNDLED.is_file():
        return _runs(str(BUNDLED))
    named = os.environ.get("PREFQ_PROGRAM")
    if named:
        return _runs(named)
    found = _on_the_path() or (str(BUILT) if BUILT.is_file() else None)
    if found is None:
        raise ProgramNotFound(f"the program prefq is not there: not in this package, not by PREFQ_PROGRAM, not on the PATH. {BUILD}", "program")
    return found


def _on_the_path() -> Optional[str]:
    """The first `prefq` on the PATH that is the program."""
    for folder in os.get_exec_path():
        found = shutil.which("prefq", path=folder or os.curdir)
        if found and not _is_of_python(found):
            return found
    return None


def _is_of_python(path: str) -> bool:
    """Whether this is the command that pip installs with this package. It looks for the program in its turn, and could find itself."""
    try:
        with open(path, "rb") as file:
            return COMMAND in file.read(1024)
    except OSError:
        # A program need not be readable to run.
        return False


def _runs(path: str) -> str:
    """The path, if there is a program."""
    found = shutil.which(path)
    if found and not _is_of_python(found):
        return path
    what = ("is the command of the Python package, and not the program" if found else "is a folder" if Path(path).is_dir()
            else "cannot be executed" if Path(path).exists() else "is not there")
    raise ProgramNotFound(f"{path} {what}. {BUILD}", "program")
