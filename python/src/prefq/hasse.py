"""The better-than graph of a question: which rows dominate which, of which the picture shows only those without another row in between (the Hasse diagram)."""
import html
import os
import shutil
import subprocess
from typing import Any, Callable, Dict, Iterator, List, Optional, Sequence, Tuple, Union

from .answer import given
from .better_than import Order, places_in, rows_alike
from .columns import Column
from .errors import Refused, no_such_row
from .records import Record
from .selection import Reading
from .visible import in_xml
from .why import terms_lists

MOST_ROWS_COMPARED = 10_000
MOST_EDGES = 1_000_000
Label = Union[None, str, Callable[[Record], Any]]
Edge = Tuple[int, int]
ROW_HEIGHT, LETTER_WIDTH, GAP, MARGIN = 80, 8, 24, 20


class Hasse(List[Edge]):
    """The edges of the better-than graph without those that follow from others: pairs of the id of a row and that of one that it dominates with none in between.

    `pred` and `succ` give the neighbours of a row, `all_pred` and `all_succ` all rows that dominate it and that it dominates; `levels` has the level of each row.

    >>> import prefq
    >>> with prefq.Frame.from_records([{"x": 1, "y": 2}, {"x": 2, "y": 1}, {"x": 2, "y": 3}, {"x": 3, "y": 4}]) as frame:
    ...     graph = frame.hasse("low(x) * low(y)")
    >>> graph, graph.succ(1), graph.all_succ(1), graph.all_pred(4), graph.levels
    ([(1, 3), (2, 3), (3, 4)], [3], [3, 4], [1, 2, 3], {1: 1, 2: 1, 3: 2, 4: 3})
    """

    def __init__(self, question: str, columns: Sequence[Column], records: Sequence[Record], worse: Sequence[int]) -> None:
        """The records come in an order in which none dominates an earlier one; `worse` are the places that each dominates, as the bits of a number."""
        self.question = question
        self.columns = tuple(columns)
        self._records = list(records)
        self._ids = [record.id or 0 for record in records]
        self._places = {id: place for place, id in enumerate(self._ids)}
        self._worse = list(worse)
        edges = list(reduced(self._worse))
        super().__init__(sorted((self._ids[better], self._ids[other]) for better, other in edges))
        self.levels = dict(sorted(zip(self._ids, levels_of(len(self._ids), edges))))

    def __reduce__(self) -> Any:
        return Hasse, (self.question, self.columns, self._records, self._worse)

    def succ(self, id: int) -> List[int]:
        """The ids of the rows that this one dominates with none in between."""
        self._place(id)
        return [other for better, other in self if better == id]

    def pred(self, id: int) -> List[int]:
        """The ids of the rows that dominate this one with none in between."""
        self._place(id)
        return [better for better, other in self if other == id]

    def all_succ(self, id: int) -> List[int]:
        """The ids of all rows that this one dominates."""
        return sorted(self._ids[place] for place in places_in(self._worse[self._place(id)]))

    def all_pred(self, id: int) -> List[int]:
        """The ids of all rows that dominate this one."""
        place = self._place(id)
        return sorted(better for better, worse in zip(self._ids, self._worse) if worse >> place & 1)

    def to_dot(self, label: Label = None) -> str:
        """The diagram in the language of Graphviz, the rows of a level side by side. `label` is the name of a column, or a function of a record; else the id."""
        lines = ["digraph better_than {", "  rankdir=TB;", "  node [shape=box];"]
        lines += [f"  {id} [label={in_dot(self._label(record, label))}];" for id, record in self._by_id()]
        lines += [f"  {{rank=same; {' '.join(f'{id};' for id in ids)}}}" for ids in self._by_level()]
        lines += [f"  {better} -> {other};" for better, other in self]
        return "\n".join([*lines, "}"]) + "\n"

    def to_svg(self, path: Optional[Union[str, "os.PathLike[str]"]] = None, label: Label = None) -> Optional[str]:
        """The diagram as a picture, into a file, or as a text where no path is given: by Graphviz where its command `dot` is there, else with each level in a row."""
        return given(by_graphviz(self.to_dot(label)) if shutil.which("dot") else self._drawn(label), path)

    def _repr_svg_(self) -> str:
        """As a notebook shows it."""
        return self.to_svg() or ""

    def _place(self, id: int) -> int:
        if id not in self._places:
            raise no_such_row(id)
        return self._places[id]

    def _label(self, record: Record, label: Label) -> str:
        if label is None:
            return str(record.id)
        if callable(label):
            return str(label(record))
        column = next((column for column in self.columns if column.name == label), None)
        if column is None:
            raise Refused(f"no column {label!r}", "arguments")
        return column.text(record[column.name])

    def _by_id(self) -> List[Tuple[int, Record]]:
        """The records by their ids, ascending."""
        return sorted(zip(self._ids, self._records), key=lambda pair: pair[0])

    def _by_level(self) -> List[List[int]]:
        """The ids of each level."""
        found: Dict[int, List[int]] = {}
        for id, level in self.levels.items():
            found.setdefault(level, []).append(id)
        return [found[level] for level in sorted(found)]

    def _drawn(self, label: Label) -> str:
        texts = {id: html.escape(in_xml(self._label(record, label))) for id, record in self._by_id()}
        size = max(map(len, texts.values()), default=1) * LETTER_WIDTH + GAP
        rows = self._by_level()
        width, height = max(map(len, rows), default=1) * size + 2 * MARGIN, len(rows) * ROW_HEIGHT + 2 * MARGIN
        at = {id: (width / 2 + (place - (len(ids) - 1) / 2) * size, MARGIN + (row + 0.5) * ROW_HEIGHT) for row, ids in enumerate(rows) for place, id in enumerate(ids)}
        parts = ['<svg xmlns="http://www.w3.org/2000/svg" '
                 f'viewBox="0 0 {width} {height}" width="{width}" height="{height}" font-family="sans-serif" font-size="13">',
                 f"<title>{html.escape(in_xml(self.question))}</title>"]
        parts += [f'<line x1="{at[a][0]:.10g}" y1="{at[a][1]:.10g}" x2="{at[b][0]:.10g}" y2="{at[b][1]:.10g}" stroke="#777"/>' for a, b in self]
        for id, (x, y) in at.items():
            parts.append(f'<rect x="{x - size / 2 + 6:.10g}" y="{y - 14:.10g}" width="{size - 12}" height="28" rx="4" fill="#fff" stroke="#333"/>')
            parts.append(f'<text x="{x:.10g}" y="{y + 5:.10g}" text-anchor="middle">{texts[id]}</text>')
        return "\n".join([*parts, "</svg>"]) + "\n"


def ranked(read: Reading) -> Tuple[List[int], List[int]]:
    """The places of the rows in an order in which none dominates an earlier one, and for each of them those that it dominates, as bits in this order."""
    count = len(read.lists[0])
    if count > MOST_ROWS_COMPARED:
        raise Refused(f"there are {count} rows, and at most {MOST_ROWS_COMPARED} are compared with each other: leave some out by where=", "arguments")
    extension = Order(read.term, *terms_lists(read)).extension()
    order = sorted(range(count), key=extension.__getitem__)
    read = read.at(order)
    group = rows_alike(read.lists_of(read.plan.by), count)
    twins = rows_alike(read.lists, count) if read.question.distinct else [0] * count
    worse = Order(read.term, *terms_lists(read)).worse()
    return order, [under & group[place] | twins[place] >> place + 1 << place + 1 for place, under in enumerate(worse)]


def reduced(worse: Sequence[int]) -> Iterator[Tuple[int, int]]:
    """The pairs of places with none in between. Of the places that one dominates, the first is dominated by no other of them."""
    edges = 0
    for place, left in enumerate(worse):
        while left:
            first = (left & -left).bit_length() - 1
            left &= ~(worse[first] | 1 << first)
            edges += 1
            if edges > MOST_EDGES:
                raise Refused(f"the diagram has more than {MOST_EDGES} edges: leave rows out by where=", "arguments")
            yield place, first


def levels_of(count: int, edges: Sequence[Tuple[int, int]]) -> List[int]:
    """The level at each of so many places: one behind the deepest that dominates it. The edges come in order of the place that is better."""
    levels = [1] * count
    for better, other in edges:
        levels[other] = max(levels[other], levels[better] + 1)
    return levels


def in_dot(text: str) -> str:
    """A text in the language of Graphviz."""
    return '"' + in_xml(text).replace("\\", "\\\\").replace('"', '\\"').replace("\n", "\\n").replace("\r", "") + '"'


def by_graphviz(dot: str) -> str:
    """A diagram as Graphviz draws it."""
    return subprocess.run(["dot", "-Tsvg"], input=dot.encode(), stdout=subprocess.PIPE, check=True).stdout.decode()
