"""`psel`: the preferred rows of a DataFrame, a frame or records, as rPref's function of this name selects them."""
from typing import Any, Dict, List, Mapping, Optional, Sequence

from .answer import Answer
from .carried import frame_of
from .checks import MOST_ROWS, check_rows, whole
from .cursors import found_of, is_cursor, parts_of_rows
from .errors import Refused
from .follow import Followed
from .frame import TABLE_OPTIONS, Frame, mappings
from .hints import check_options
from .loading import check_kinds
from .moment import Moment
from .partition import Numbered, Reading, is_of_dask, mapped, partitions_in
from .parts import Job, answer_of, found_in
from .preferences import Asked, Operand, text_preferred
from .questions import Mode
from .selection import Names, Selection, has_mode, selected
from .warned import warn_of

LEVEL = ".level"
PSEL_OPTIONS = ("where", "top", "ties", "top_level", "at_least", "by", "show_level", "kinds")
IN_PARTS = "psel of more rows than one table holds, of a cursor, or of a DataFrame of Dask"


def psel(frame: Any, preference: Asked, *, where: Optional[Operand] = None, top: Optional[int] = None, ties: Optional[Asked] = None, top_level: Optional[int] = None,
         at_least: Optional[int] = None, by: Names = None, show_level: bool = True, kinds: Optional[Mapping[str, str]] = None, **options: Any) -> Any:
    """The rows that a preference prefers: the best ones, the first `top` rows, the levels 1 to `top_level`, or whole levels until there are `at_least` so many rows.

    Only rows that meet the condition `where` count, such as "Stars >= 4 and City = 'Lyon'". Of the last level that has its place among the `top` rows, those come
    first that `ties`, a preference, likes best, and then those that stand first. `by` are the columns of groups, in each of which all this is done; the groupby of a
    DataFrame by names of columns has its groups itself.

    The preference is one that `prefq.low` and so on make, or its text, that of rPref, without a mode, as in "low(`price eur`) * low(dist)"; it may end in `by city`.
    A question with a mode is taken too, without `top_level` and `at_least`. Of a DataFrame of pandas or of Dask the rows come back as they are, in a DataFrame of pandas
    with the column `.level` in front, where that is not left out by `show_level=False`; only the columns that are named are looked at, and it may have any number of
    rows: Dask's own scheduler asks each partition where it is. Of a Frame, of records, or of a cursor, of which there may be any number too, the rows come back as an
    Answer.

    >>> import prefq
    >>> prefq.psel([{"price": 60, "dist": 2.5}, {"price": 50, "dist": 3.5}, {"price": 70, "dist": 2.5}], "low(price) * low(dist)")
    level  id  price  dist
        1   1     60   2.5
        1   2     50   3.5
    """
    selection = Selection.of(mode_of(top_level, at_least), where=where, top=top, ties=ties, by=by)
    check_options(options, [*PSEL_OPTIONS, *TABLE_OPTIONS], "psel")
    text = text_preferred(preference)
    if (top_level is not None or at_least is not None) and has_mode(text):
        raise Refused("the question says itself how many levels are wanted: leave out top_level= and at_least=, or its mode", "arguments")
    if type(frame).__name__ in ("DataFrameGroupBy", "SeriesGroupBy"):
        from .pandas_frames import ungrouped
        frame, names = ungrouped(frame)
        selection = selection.grouped(names)
    if hasattr(frame, "columns") and (hasattr(frame, "iloc") or is_of_dask(frame)):
        found = _of_dask(frame, _job(text, selection, kinds, options)) if is_of_dask(frame) else _of_dataframe(frame, text, selection, kinds, options)
        return found if show_level else found.drop(columns=LEVEL)
    if not show_level:
        raise Refused("show_level=False leaves the column .level out of a DataFrame: a record has its level beside its values", "arguments")
    return _of_records(frame, text, selection, kinds, options)


def _of_records(frame: Any, text: str, selection: Selection, kinds: Optional[Mapping[str, str]], options: Dict[str, Any]) -> Answer:
    """The answer of a frame, of a cursor, or of records."""
    if isinstance(frame, (Frame, Followed)):
        return frame.answer(text, selection)
    if is_cursor(frame):
        job = _job(text, selection, kinds, options)
        return answer_of(found_of(frame, job), job)
    check_rows(frame, "records")
    records = frame if isinstance(frame, list) else list(mappings(frame))
    if len(records) > MOST_ROWS:
        job = _job(text, selection, kinds, options)
        return answer_of(found_in(job, _partitions_of(records), map), job)
    with Frame.from_records(records, kinds=kinds, **options) as opened:
        return opened.answer(text, selection)


def _partitions_of(records: Sequence[Any]) -> List[Numbered]:
    """Records as partitions that one table holds each: what one does not have is missing."""
    rows = list(mappings(records))
    names = list(dict.fromkeys(name for row in rows for name in row))
    values = [[row.get(name) for name in names] for row in rows]
    return list(parts_of_rows(names, (values[begin:begin + MOST_ROWS] for begin in range(0, len(values), MOST_ROWS))))


def _job(text: str, selection: Selection, kinds: Optional[Mapping[str, str]], options: Mapping[str, Any]) -> Job:
    """The question as one over partitions, whose tables are as they need to be."""
    check_options(options, [], f"{IN_PARTS},")
    return Job(text, selection=selection, reading=Reading(kinds or {}))


def mode_of(top_level: Optional[int], at_least: Optional[int]) -> Mode:
    """The mode for a text without one."""
    if top_level is not None and at_least is not None:
        raise Refused("top_level and at_least do not go together", "arguments")
    if top_level is not None:
        return "top_level", whole(top_level, "top_level", 1, 1000)
    return ("best", 1) if at_least is None else ("at_least", whole(at_least, "at_least", 1, 1000))


def _of_dataframe(dataframe: Any, text: str, selection: Selection, kinds: Optional[Mapping[str, str]], options: Dict[str, Any]) -> Any:
    from .pandas_frames import encoded_series, native
    check_kinds(kinds, list(dataframe.columns))
    dataframe = native(dataframe)
    moment = Moment(list(dataframe.columns), lambda name: encoded_series(dataframe[name], name, kinds))
    rows = selected(text, selection, moment, **options)
    found = dataframe.iloc[[row.id - 1 for row in rows]].drop(columns=LEVEL, errors="ignore")
    found.insert(0, LEVEL, [row.level for row in rows])
    return found


def _of_dask(frame: Any, job: Job) -> Any:
    found = found_in(job, partitions_in(frame), mapped)
    warn_of(found.rows.absent.values())
    order = sorted(range(len(found.levels)), key=lambda at: (found.levels[at], at))
    rows = frame_of(found.rows.rows).iloc[order].drop(columns=LEVEL, errors="ignore")
    rows.insert(0, LEVEL, [found.levels[at] for at in order])
    return rows
