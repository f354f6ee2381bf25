"""Pictures of an answer: its rows among the others, by two columns, and the front as a staircase."""
import datetime
import html
import math
import os
import sys
from typing import Any, Dict, Iterable, List, NamedTuple, Optional, Sequence, Tuple, Union

from .answer import Answer, given
from .columns import Column
from .errors import Refused
from .expressions import read_frames_question
from .hints import unknown_column
from .kinds import Booleans, Choices, Clock, Texts
from .questions import Base, Converse, Product, Question, Term
from .records import Record
from .visible import in_xml, visible

WIDTH, HEIGHT = 720, 480
LEFT, RIGHT, TOP, BOTTOM = 96, 150, 44, 56
COLOURS = ("#1f6fb4", "#e07b1a", "#3a9a4b", "#b03a7a", "#7a5bb0", "#8a6d3b")
GREY = "#b8bec6"
MOST_OTHERS = 2000
MICROSECONDS_OF_AN_HOUR = 3_600_000_000
EPOCH = datetime.datetime(1970, 1, 1)
# In days since 1970, the first and the last day that Python has.
FIRST_DAY, LAST_DAY = ((day - EPOCH).days for day in (datetime.datetime.min, datetime.datetime.max))
LARGEST = sys.float_info.max


class Axis(NamedTuple):
    """A column as an axis: whether the question prefers its large values (None where it orders it in no such way)."""

    column: Column
    high: Optional[bool]


class Point(NamedTuple):
    """A row as a point."""

    x: float
    y: float
    level: Optional[int]
    id: Optional[int]
    group: Tuple[Any, ...]


class Drawing(NamedTuple):
    """What is drawn."""

    title: str
    x: Axis
    y: Axis
    others: List[Point]     # at most MOST_OTHERS of so many
    all_others: int
    points: List[Point]
    fronts: List[List[Tuple[float, float]]]


class Picture:
    """A picture as SVG, which a notebook shows.

    >>> Picture("<svg></svg>")
    <prefq.Picture of 11 characters>
    """

    def __init__(self, svg: str) -> None:
        self.svg = svg

    def __repr__(self) -> str:
        return f"<prefq.Picture of {len(self.svg)} characters>"

    def _repr_svg_(self) -> str:
        return self.svg

    def save(self, path: Union[str, "os.PathLike[str]"]) -> None:
        """Writes the picture into a file."""
        given(self.svg, path)


def drawing(answer: Answer, x: Optional[str], y: Optional[str]) -> Drawing:
    """What is drawn of an answer."""
    question = _question(answer)
    ways = {name: way for name, way in ways_of(question.term).items() if name in answer.names} if question else {}
    columns = {column.name: column for column in answer.columns}
    across, along = (Axis(columns[name], ways.get(name)) for name in _names(answer, x, y, ways))
    groups = [column.name for column in question.by] if question else []
    points = _points(answer, across, along, groups)
    ids = {record.id for record in answer}
    others = _points([record for record in answer.all_records() if record.id not in ids], across, along, groups)
    fronts = _fronts(points, across, along) if question and is_of_two(question.term, across, along) else []
    return Drawing(answer.question, across, along, others[::max(1, -(-len(others) // MOST_OTHERS))], len(others), points, fronts)


def _question(answer: Answer) -> Optional[Question]:
    columns = {column.name: column for column in answer.columns}
    try:
        return read_frames_question(answer.question, columns.get, answer.names, ("best", 1))
    except Refused:
        return None


def ways_of(term: Term, turned: bool = False) -> Dict[str, bool]:
    """The columns that a term orders by low or high, as they stand there, and whether it prefers large values."""
    if isinstance(term, Converse):
        return ways_of(term.part, not turned)
    if isinstance(term, Product):
        found: Dict[str, bool] = {}
        for part in term.parts:
            found.update((name, way) for name, way in ways_of(part, turned).items() if name not in found)
        return found
    return {term.column.name: (term.word == "high") != turned} if isinstance(term, Base) and term.word in ("low", "high") else {}


def is_of_two(term: Term, across: Axis, along: Axis) -> bool:
    """Whether a term is the product of low or high of these two columns, so that its front is a staircase."""
    while isinstance(term, Converse):
        term = term.part
    if not isinstance(term, Product) or term.sign != "*" or len(term.parts) != 2:
        return False
    ways = ways_of(term)
    return set(ways) == {across.column.name, along.column.name} and len(ways) == 2


def _names(answer: Answer, x: Optional[str], y: Optional[str], ways: Dict[str, bool]) -> Tuple[str, str]:
    for name in (x, y):
        if name is not None and name not in answer.names:
            raise Refused(unknown_column(name, answer.names), "arguments")
    candidates = list(ways) + [column.name for column in answer.columns if column.kind.ordered and column.name not in ways]
    candidates += [name for name in answer.names if name not in candidates]
    free = [name for name in candidates if name not in (x, y)]
    first = x if x is not None else free.pop(0)
    return first, y if y is not None else (free.pop(0) if free else first)


def _points(records: Iterable[Record], across: Axis, along: Axis, groups: Sequence[str]) -> List[Point]:
    rows = [(record, place_of(across.column, record.get(across.column.name)), place_of(along.column, record.get(along.column.name))) for record in records]
    return [Point(x, y, record.level, record.id, tuple(map(record.get, groups))) for record, x, y in rows if x is not None and y is not None]


def place_of(column: Column, value: Any) -> Optional[float]:
    """Where a value stands on an axis; None where it is missing or infinite."""
    if value is None:
        return None
    if isinstance(column.kind, (Texts, Choices, Booleans)):
        return float(column.kind.encode(value))
    if isinstance(column.kind, Clock):
        return column.kind.encode(value) / MICROSECONDS_OF_AN_HOUR
    if isinstance(value, datetime.datetime):
        naive = value.astimezone(datetime.timezone.utc).replace(tzinfo=None) if value.tzinfo else value
        return (naive - EPOCH) / datetime.timedelta(days=1)
    if isinstance(value, datetime.date):
        return float((value - EPOCH.date()).days)
    place = float(value)
    return place if math.isfinite(place) else None


def _fronts(points: List[Point], across: Axis, along: Axis) -> List[List[Tuple[float, float]]]:
    """The staircase of the first level, in each group. The answer does not know groups that were asked for beside the question: where points of several of them are
    no front together, there is none."""
    groups: Dict[Tuple[Any, ...], List[Tuple[float, float]]] = {}
    for point in points:
        if point.level == 1:
            groups.setdefault(point.group, []).append((point.x, point.y))
    falls = bool(across.high) == bool(along.high)
    return [staircase(some, bool(across.high)) for some in map(sorted, map(set, groups.values())) if is_front(some, falls)]


def is_front(points: List[Tuple[float, float]], falls: bool) -> bool:
    """Whether of these points, which come from the left, none lies behind another one: the line through them falls, or it rises."""
    return all(before[0] < after[0] and (after[1] < before[1] if falls else before[1] < after[1]) for before, after in zip(points, points[1:]))


def staircase(points: List[Tuple[float, float]], high: bool) -> List[Tuple[float, float]]:
    """The points with the corners between them: what lies behind the line is dominated."""
    line: List[Tuple[float, float]] = []
    for before, after in zip(points, points[1:]):
        line += [before, (before[0], after[1]) if high else (after[0], before[1])]
    return [*line, *points[-1:]]


def plotted(answer: Answer, x: Optional[str], y: Optional[str], ax: Any) -> Any:
    """The picture by matplotlib, or as SVG where that is not installed."""
    try:
        from matplotlib import pyplot
    except ImportError:
        return Picture(svg_of(answer, x, y))
    what = drawing(answer, x, y)
    if ax is None:
        ax = pyplot.subplots()[1]
    ax.scatter([point.x for point in what.others], [point.y for point in what.others], s=9, color=GREY, label=name_of_others(what) if what.others else None)
    for level in _levels(what):
        some = [point for point in what.points if point.level == level]
        ax.scatter([point.x for point in some], [point.y for point in some], s=30, color=_colour(level), label=_name_of(level), zorder=3)
    for line in what.fronts:
        ax.plot([x for x, _ in line], [y for _, y in line], color=_colour(1), linewidth=1.2, zorder=2)
    for axis, set_label, set_ticks, places in ((what.x, ax.set_xlabel, ax.set_xticks, [point.x for point in what.points + what.others]),
                                               (what.y, ax.set_ylabel, ax.set_yticks, [point.y for point in what.points + what.others])):
        set_label(_no_formula(label_of(axis)))
        ticks = ticks_of(axis.column, places)
        set_ticks([place for place, _ in ticks], [_no_formula(text) for _, text in ticks])
    ax.set_title(_no_formula(what.title), fontsize=10)
    ax.legend(loc="best", fontsize=8)
    return ax


def _no_formula(text: str) -> str:
    """A text as matplotlib draws it: what stands between two dollars would be a formula."""
    return visible(in_xml(text)).replace("$", r"\$")


def svg_of(answer: Answer, x: Optional[str], y: Optional[str]) -> str:
    """The picture as SVG."""
    what = drawing(answer, x, y)
    every = what.points + what.others
    xs, ys = Scale([point.x for point in every], LEFT, WIDTH - RIGHT), Scale([point.y for point in every], HEIGHT - BOTTOM, TOP)
    parts = [f'<svg xmlns="http://www.w3.org/2000/svg" width="{WIDTH}" height="{HEIGHT}" viewBox="0 0 {WIDTH} {HEIGHT}" font-family="sans-serif" font-size="12">',
             f'<rect width="{WIDTH}" height="{HEIGHT}" fill="white"/>', _text(LEFT, 22, what.title, size=14)]
    parts += _svg_axes(what, xs, ys)
    parts += [_circle(point, xs, ys, 2, GREY) for point in what.others]
    for line in what.fronts:
        places = " ".join(f"{xs.at(x):.1f},{ys.at(y):.1f}" for x, y in line)
        parts.append(f'<polyline class="front" points="{places}" fill="none" stroke="{_colour(1)}" stroke-width="1.5"/>')
    parts += [_circle(point, xs, ys, 4.5, _colour(point.level)) for point in reversed(what.points)]
    return "\n".join([*parts, *_svg_legend(what), "</svg>\n"])


def name_of_others(what: Drawing) -> str:
    """What the other rows are called, of which some may be drawn."""
    return f"other rows ({len(what.others)})" if len(what.others) == what.all_others else f"{len(what.others):,} of {what.all_others:,} other rows"


class Scale:
    """From places of values to places of a picture."""

    def __init__(self, places: Sequence[float], begin: float, end: float) -> None:
        self.low, self.high = (min(places), max(places)) if places else (0.0, 1.0)
        if self.low == self.high:
            # Beside a large number the next one is the same float.
            beside = max(1.0, abs(self.low) / 1000)
            self.low, self.high = max(self.low - beside, -LARGEST), min(self.high + beside, LARGEST)
        self._begin, self._end = begin, end
        # No float has the distance of the largest ones, and half of it is one.
        self._unit = 1.0 if math.isfinite(self.high - self.low) else 0.5

    def at(self, place: float) -> float:
        low = self.low * self._unit
        part = (place * self._unit - low) / (self.high * self._unit - low)
        return self._begin + (0.02 + 0.96 * part) * (self._end - self._begin)


def _svg_axes(what: Drawing, xs: Scale, ys: Scale) -> List[str]:
    left, bottom = LEFT, HEIGHT - BOTTOM
    parts = [f'<path d="M{left} {TOP}V{bottom}H{WIDTH - RIGHT}" fill="none" stroke="#444"/>']
    for place, text in ticks_of(what.x.column, [xs.low, xs.high]):
        parts += [f'<path d="M{xs.at(place):.1f} {bottom}v5" stroke="#444"/>', _text(xs.at(place), bottom + 19, text, anchor="middle")]
    for place, text in ticks_of(what.y.column, [ys.low, ys.high]):
        parts += [f'<path d="M{left} {ys.at(place):.1f}h-5" stroke="#444"/>', _text(left - 8, ys.at(place) + 4, text, anchor="end")]
    middle = (TOP + bottom) / 2
    return [*parts, _text((left + WIDTH - RIGHT) / 2, HEIGHT - 12, label_of(what.x), anchor="middle"),
            f'<text x="18" y="{middle}" text-anchor="middle" transform="rotate(-90 18 {middle})">{_escaped(label_of(what.y))}</text>']


def _svg_legend(what: Drawing) -> List[str]:
    rows = [(_colour(level), f"{_name_of(level)} ({sum(point.level == level for point in what.points)})") for level in _levels(what)]
    rows += [(GREY, name_of_others(what))] if what.others else []
    parts = []
    for place, (colour, text) in enumerate(rows[:20]):
        y = TOP + 8 + 18 * place
        parts += [f'<rect x="{WIDTH - RIGHT + 14}" y="{y - 5}" width="10" height="10" fill="{colour}"/>', _text(WIDTH - RIGHT + 30, y + 4, text)]
    return parts


def _circle(point: Point, xs: Scale, ys: Scale, radius: float, colour: str) -> str:
    level = "" if point.level is None else f", level {point.level}"
    return f'<circle cx="{xs.at(point.x):.1f}" cy="{ys.at(point.y):.1f}" r="{radius}" fill="{colour}"><title>id {point.id}{level}</title></circle>'


def _text(x: float, y: float, text: str, anchor: str = "start", size: int = 12) -> str:
    return f'<text x="{x:.1f}" y="{y:.1f}" text-anchor="{anchor}" font-size="{size}">{_escaped(text)}</text>'


def _escaped(text: str) -> str:
    return html.escape(in_xml(text))


def _levels(what: Drawing) -> List[Optional[int]]:
    return sorted({point.level for point in what.points}, key=lambda level: level or math.inf)


def _colour(level: Optional[int]) -> str:
    return "#555" if level is None else COLOURS[(level - 1) % len(COLOURS)]


def _name_of(level: Optional[int]) -> str:
    return "further levels" if level is None else f"level {level}"


def label_of(axis: Axis) -> str:
    """The label of an axis: its name, and which end is the better one."""
    return axis.column.name + ("" if axis.high is None else " (more is better)" if axis.high else " (less is better)")


def ticks_of(column: Column, places: Sequence[float]) -> List[Tuple[float, str]]:
    """Where an axis has its marks, and what stands there."""
    if not places:
        return []
    low, high = min(places), max(places)
    if isinstance(column.kind, Booleans):
        return [(float(value), column.kind.text(bool(value))) for value in (0, 1) if low <= value <= high]
    if isinstance(column.kind, (Texts, Choices)):
        texts = column.kind.texts
        step = max(1, len(texts) // 8)
        return [(float(code), text[:14]) for code, text in list(enumerate(texts, 1))[::step] if low <= code <= high]
    if column.kind.name in ("date", "time"):
        return marks_of_days(low, high)
    if isinstance(column.kind, Clock):
        return [(mark, f"{int(mark):02}:{round(mark % 1 * 60):02}") for mark in round_marks(low, high)]
    return [(mark, f"{mark:,.10g}") for mark in round_marks(low, high)]


def marks_of_days(low: float, high: float) -> List[Tuple[float, str]]:
    """Marks for days since 1970: years, months, days or times."""
    def date(days: float) -> datetime.datetime:
        return EPOCH + datetime.timedelta(days=days)

    def marks(dates: Iterable[datetime.datetime], form: str) -> List[Tuple[float, str]]:
        found = [((date - EPOCH) / datetime.timedelta(days=1), date.strftime(form)) for date in dates]
        return [mark for mark in found if low <= mark[0] <= high]

    low, high = (min(max(end, FIRST_DAY), LAST_DAY) for end in (low, high))
    if high - low > 4 * 366:
        return marks((datetime.datetime(int(year), 1, 1) for year in round_marks(date(low).year, date(high).year) if year == int(year)), "%Y")
    if high - low > 120:
        step = 1 if high - low < 200 else 3 if high - low < 800 else 6
        return marks((datetime.datetime(year, month, 1) for year in range(date(low).year, date(high).year + 1) for month in range(1, 13, step)), "%Y-%m")
    return marks(map(date, round_marks(low, high)), "%m-%d" if high - low > 5 else "%m-%d %H:%M")


def round_marks(low: float, high: float) -> List[float]:
    """Some five round numbers between two."""
    if not math.isfinite(high - low):
        return [2 * mark for mark in round_marks(low / 2, high / 2)]
    part = (high - low) / 5
    if not part >= sys.float_info.min:
        return [low]
    exponent = math.floor(math.log10(part))
    step = 10.0 ** exponent
    step *= next(times for times in (1, 2, 5, 10) if (high - low) / (step * times) <= 6)
    first = math.ceil(low / step)
    return [round(step * number, max(12, 1 - exponent)) for number in range(first, math.floor(high / step) + 1)]
