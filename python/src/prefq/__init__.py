"""Best rows of a live table: skylines, levels and preferences.

>>> import prefq
>>> with prefq.Table(["price", "dist"], [[50, 8], [80, 2], [90, 9]]) as hotels:
...     for row in hotels.best("best low(price) * low(dist)"):
...         print(row.level, row.id, row.price, row.dist)
1 1 50 8
1 2 80 2
"""
from . import parts
from .answer import Answer
from .asynchronous import AsyncFrame, AsyncQuery, AsyncTable
from .columns import Column
from .errors import Ended, Error, LibraryNotFound, ProgramNotFound, Refused
from .follow import Followed
from .frame import Frame
from .frame_query import FrameQuery
from .hasse import Hasse
from .library import find_library
from .preferences import Expression, Preference, around, between, empty, expr, high, layered, low, pos, reverse, true
from .program import find_program
from .query import Query
from .records import Record
from .select import psel
from .table import Table
from .warned import UnknownValue

__version__ = "0.6.7"
__all__ = ["Answer", "AsyncFrame", "AsyncQuery", "AsyncTable", "Column", "Ended", "Error", "Expression", "Followed", "Frame", "FrameQuery", "Hasse", "LibraryNotFound",
           "Preference", "ProgramNotFound", "Query", "Record", "Refused", "Table", "UnknownValue", "around", "between", "empty", "expr", "find_library",
           "find_program", "high", "layered", "low", "parts", "pos", "psel", "reverse", "true"]
