"""Several files that are asked as one, each by a process of its own."""
import glob
import os
from concurrent.futures import ProcessPoolExecutor
from concurrent.futures.process import BrokenProcessPool
from typing import Iterable, List, Optional, Sequence

from .answer import Answer
from .carried import CellRows
from .errors import Ended, Refused
from .partition import Reading
from .parts import Found, Job, found_in, notes_of, records_left, watched
from .reading import Progress
from .records import Record
from .selection import Selection
from .sources import is_parquet
from .warned import warn_of


def files_like(pattern: str) -> List[str]:
    """The files of a pattern such as data/*.csv, by their names, or one Parquet file; none where it is the name of another file, or no pattern. A pattern of no file
    is `Refused`."""
    if os.path.exists(pattern) or not glob.has_magic(pattern):
        return [pattern] if is_parquet(pattern) and os.path.exists(pattern) else []
    files = sorted(glob.glob(pattern))
    if not files:
        raise Refused(f"{pattern}: there is no such file", "arguments")
    return files


def asked_of_files(files: Sequence[str], question: Optional[str], selection: Selection, reading: Reading, progress: Optional[Progress]) -> "FilesAnswer":
    """The answer over the rows of all files, as they stand there."""
    if question is None:
        raise Refused(f"{len(files)} files are asked a question; the columns are those of each one: ask {files[0]} for them" if len(files) > 1 else
                      f"{files[0]} is asked a question: the columns of a Parquet file are not listed", "arguments")
    job = Job(question, selection=selection, reading=reading)
    try:
        with ProcessPoolExecutor(min(len(files), os.cpu_count() or 1)) as pool:
            found = found_in(job, files, watched(pool.map, progress))
    except BrokenProcessPool:
        raise Ended("a process that read a file has ended", "process") from None
    warn_of(found.rows.absent.values())
    return FilesAnswer(job, found)


class FilesAnswer(Answer):
    """An answer that writes the cells of the files as they stand there; what comes from a Parquet file is written as its column has it."""

    def __init__(self, job: Job, found: Found) -> None:
        columns, records = records_left(found.rows, found.levels, job.reading)
        self._cells = {record.id: cells for record, cells in zip(records, in_one_order(found, [column.name for column in columns])) if cells is not None}
        super().__init__(job.question, columns, sorted(records, key=lambda row: (row.level, row.id)))
        self.notes_of_columns = notes_of(found.rows, columns, job.reading)

    def cells(self, record: Record) -> List[str]:
        return [str(record.level), str(record.id), *self._cells[record.id]] if record.id in self._cells else super().cells(record)


def in_one_order(found: Found, names: Sequence[str]) -> Iterable[Optional[List[str]]]:
    """The cells of each row, in the order of these columns, whatever it is in their files; None where it comes from none that has cells."""
    for rows in found.rows.rows:
        if isinstance(rows, CellRows):
            yield from map(list, zip(*(rows.values(name) for name in names)))
        else:
            yield from [None] * len(rows)
