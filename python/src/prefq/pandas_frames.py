"""DataFrames of pandas: their columns as those of a table, and answers as DataFrames. Only imported where pandas is there."""
import datetime
import warnings
from decimal import Decimal
from fractions import Fraction
from typing import Any, Callable, List, Mapping, Optional, Sequence, Tuple

from .checks import LEAST, MOST
from .columns import Column, is_missing
from .errors import Refused
from .infer import kind_of_values
from .kinds import Booleans, Choices, Dates, Decimals, Floats, Kind, NotRead, Texts, Times, Whole
from .records import Record


A_DAY = 24 * 60 * 60 * 10**9        # in nanoseconds


class Timestamps(Times):
    """Times of pandas, exact to a nanosecond, of the years 1677 to 2262."""

    nanoseconds, unit = 1, "nanosecond"

    def encode(self, value: Any) -> int:
        import numpy
        import pandas
        if isinstance(value, numpy.datetime64):
            found = value.astype("datetime64[ns]")
            if found.astype(value.dtype) != value:
                raise NotRead(f"{value} has parts of a nanosecond, or lies outside the years 1677 to 2262, which a time of pandas can have")
            value = pandas.Timestamp(found)
        if isinstance(value, str) or not isinstance(value, datetime.datetime):
            return super().encode(value)
        self.moment(value)      # which refuses some
        return self.shown(int(pandas.Timestamp(value).value), value)

    def _whole(self, position: Fraction, value: Any) -> int:
        number = super()._whole(position, value)
        if not LEAST < number <= MOST:
            raise NotRead(f"{value} lies outside the years 1677 to 2262, which a time of pandas can have")
        return self.shown(number, value)

    def shown(self, number: int, value: Any) -> int:
        """The number, if the clocks of the zone show it as a time of pandas. By that of UTC they differ by less than a day."""
        if self.zone is not None and abs(number) > MOST - A_DAY:
            try:
                self.decode(number)
            except (OverflowError, ValueError):
                raise NotRead(f"{value} lies outside the years 1677 to 2262 in the time zone of the column") from None
        return number

    def find(self, text: str) -> Optional[int]:
        number = super().find(text)
        return number if number is not None and LEAST < number <= MOST else None

    def decode(self, number: int) -> Any:
        import pandas
        return pandas.Timestamp(number, tz="UTC").tz_convert(self.zone) if self.zone else pandas.Timestamp(number)


def encoded_series(series: Any, name: str, kinds: Optional[Mapping[str, str]] = None, ids: Optional[Sequence[int]] = None) -> Tuple[Column, List[int]]:
    """A column of a DataFrame, and its numbers; see `loading.encoded`. The column keeps the type of pandas as `dtype`."""
    if kinds and name in kinds:
        column, numbers = _by_values(series, Column(name, kinds[name]), ids)
    else:
        kind, codes = _by_type(series, name, ids)
        column, numbers = (_by_values(series, Column(name, kind), ids) if codes is None else (Column(name, kind), codes))
        column.grows = True
    column.has_gaps = column.has_gaps or LEAST in numbers
    column.dtype = series.dtype
    return column, numbers


def _by_values(series: Any, column: Column, ids: Optional[Sequence[int]]) -> Tuple[Column, List[int]]:
    import numpy
    from .loading import encoded
    # A narrow float, also one of pandas' own types, shows fewer digits than the one of 64 bits that `tolist` makes of it.
    dtype = getattr(series.dtype, "numpy_dtype", series.dtype)
    is_narrow = isinstance(dtype, numpy.dtype) and dtype.kind == "f" and dtype.itemsize < 8
    return column, encoded(column, list(series.to_numpy(dtype=dtype, na_value=numpy.nan)) if is_narrow else series.tolist(), ids)


def _by_type(series: Any, name: str, ids: Optional[Sequence[int]]) -> Tuple[Kind, Optional[List[int]]]:
    """The kind of a type of pandas, and the numbers of its values where they are found all at once."""
    import pandas
    types = pandas.api.types
    if isinstance(series.dtype, pandas.SparseDtype):
        series = series.sparse.to_dense()       # Not each type of such is made another one.
    if types.is_bool_dtype(series.dtype) and not isinstance(series.dtype, pandas.CategoricalDtype):
        return Booleans(), _numbers(series.astype("boolean"))
    if types.is_integer_dtype(series.dtype):
        return Whole(), _whole(series)
    if types.is_float_dtype(series.dtype):
        return Floats(), _floats(series, name)
    if types.is_datetime64_any_dtype(series.dtype):
        zone = getattr(series.dtype, "tz", None)
        plain = series if zone is None else series.dt.tz_convert("UTC").dt.tz_localize(None)
        kind, numbers = Timestamps(zone), _nanoseconds(plain.to_numpy(), name)
        _check_shown(kind, numbers, name)
        return kind, numbers
    if isinstance(series.dtype, pandas.CategoricalDtype):
        return _categories(series, name)
    values = series.tolist()
    kind = kind_of_values(name, values, ids)
    return kind, _codes(values, kind) if isinstance(kind, Texts) else None


def _numbers(series: Any) -> List[int]:
    """The whole numbers of a series that may have gaps."""
    gaps = series.isna().to_numpy()
    numbers = series.fillna(False if series.dtype == "boolean" else 0).to_numpy(dtype="int64").copy()
    numbers[gaps] = LEAST
    return list(numbers.tolist())


def _whole(series: Any) -> Optional[List[int]]:
    """Whole numbers; None where one of them does not fit."""
    present = series.dropna()
    return _numbers(series) if not len(present) or LEAST < int(present.min()) and int(present.max()) <= MOST else None


def _floats(series: Any, name: str) -> List[int]:
    import numpy
    values = series.to_numpy(dtype="float64", na_value=numpy.nan)
    if getattr(series.dtype, "itemsize", 0) > values.itemsize:
        _check_same(values, series.to_numpy(), name, "which is no 64-bit float")
    bits = values.view("int64")
    numbers = numpy.where(bits < 0, numpy.int64(LEAST) - bits, bits)
    numbers[numpy.isnan(values)] = LEAST
    return list(numbers.tolist())


def _nanoseconds(moments: Any, name: str) -> List[int]:
    """The nanoseconds since 1970 of times of any unit."""
    found = moments.astype("datetime64[ns]")
    _check_same(found, moments, name, "outside the years 1677 to 2262 of nanoseconds: give it the kind 'time' by kinds={..}")
    return list(found.view("int64").tolist())


def _check_shown(kind: Timestamps, numbers: List[int], name: str) -> None:
    """Refuses times that pandas itself cannot show in their zone."""
    present = [number for number in numbers if number != LEAST]
    for number in (min(present), max(present)) if present else ():
        try:
            kind.shown(number, f"a time of {number} nanoseconds since 1970")
        except NotRead as why:
            raise Refused(f"row {numbers.index(number) + 1}, column {name!r}: {why}", "table") from None


def _check_same(found: Any, given: Any, name: str, why: str) -> None:
    """Refuses the first value that is another one in the type that was made of it, of which numpy says nothing."""
    import numpy
    wrong = numpy.flatnonzero((found.astype(given.dtype) != given) & (given == given))
    if len(wrong):
        raise Refused(f"row {wrong[0] + 1}, column {name!r} has {given[wrong[0]]}, {why}", "table")


def _categories(series: Any, name: str) -> Tuple[Kind, Optional[List[int]]]:
    categories = series.cat.categories.tolist()
    if not series.cat.ordered and series.nunique() < len(categories):
        # Those of which there is no row are no values of the column, but say the kind of one that has none.
        series = series.cat.remove_unused_categories()
    there = series.cat.categories.tolist()
    of = kind_of_values(name, there or categories, what="category")
    if not series.cat.ordered and not isinstance(of, Texts):
        return of, None
    try:
        kind: Kind = Choices(there, of) if series.cat.ordered else Texts(there)
    except ValueError as why:
        raise Refused(f"column {name!r} has a category that its kind, {of}, does not have: {why}", "table") from None
    return kind, [code + 1 if code >= 0 else LEAST for code in series.cat.codes.tolist()]


def _codes(values: Sequence[Any], kind: Texts) -> List[int]:
    """The codes of texts, of which some may be missing. (pandas' own codes take texts for the same that differ behind a NUL.)"""
    codes = iter(kind.read_all([value for value in values if isinstance(value, str)]))
    return [next(codes) if isinstance(value, str) else LEAST for value in values]


def native(frame: Any) -> Any:
    """The same DataFrame with its numbers in the machine's own order of bytes: of one with others pandas takes no rows."""
    import numpy
    others = {name: dtype.newbyteorder("=") for name, dtype in frame.dtypes.items() if isinstance(dtype, numpy.dtype) and not dtype.isnative}
    return frame.astype(others) if others else frame


def ungrouped(groups: Any) -> Tuple[Any, List[str]]:
    """The DataFrame of a groupby, and the names of the columns that it is grouped by. Rows without a group are left out, as pandas leaves them out."""
    names = [groups.keys] if isinstance(groups.keys, str) else groups.keys
    there = list(getattr(groups.obj, "columns", ()))
    if not isinstance(names, list) or not all(isinstance(name, str) and name in there for name in names):
        raise TypeError("a groupby is one of a DataFrame by names of columns, as frame.groupby('cyl')")
    frame = native(groups.obj)
    return frame.dropna(subset=names) if groups.dropna else frame, names


def index_of(index: Any) -> Callable[[Sequence[Record]], Any]:
    """What gives the index of some rows: its own label for each row of a DataFrame with this index, and the id for a row that came later, in each level."""
    def labelled(records: Sequence[Record]) -> Any:
        import pandas
        places = [(record.id or 0) - 1 for record in records]
        if all(place < len(index) for place in places):
            return index.take(places)
        if isinstance(index, pandas.MultiIndex):
            return pandas.MultiIndex.from_tuples([index[place] if place < len(index) else (place + 1,) * index.nlevels for place in places], names=index.names)
        return pandas.Index([index[place] if place < len(index) else place + 1 for place in places], name=index.name)

    return labelled


def dataframe_of(answer: Any, index: Optional[Callable[[Sequence[Record]], Any]]) -> Any:
    """An answer as a DataFrame."""
    import pandas
    rows = pandas.Index(answer.ids, name="id") if index is None else index(answer)
    found = pandas.DataFrame({".level": pandas.Series(answer.levels, index=rows, dtype="int64" if None not in answer.levels else "Int64")}, index=rows)
    for column in answer.columns:
        if column.name != ".level":     # as of an earlier answer
            found[column.name] = _series([record[column.name] for record in answer], column, rows)
    return found


def _series(values: List[Any], column: Column, index: Any) -> Any:
    """The values of a column with the type that they had in pandas, where it can have them all, or that pandas has for them."""
    import pandas
    for dtype in (column.dtype, _dtype(values, column), "object"):
        try:
            with warnings.catch_warnings():
                # Some versions warn of a number that does not fit a small type, and cut it.
                warnings.simplefilter("ignore")
                found = pandas.Series(values, index=index, dtype=dtype)
        except (TypeError, ValueError, OverflowError):
            continue
        if dtype is not column.dtype or dtype is not None and _has_all(found, values):
            return found


def _has_all(series: Any, values: List[Any]) -> bool:
    """Whether a series has these values: of None a type of truths makes False, and a small one cuts a number."""
    return all(is_missing(back) if value is None else value == _of_python(back) for value, back in zip(values, series))


def _of_python(value: Any) -> Any:
    """A scalar of numpy as Python's own: a Decimal is not compared with whole numbers of numpy."""
    return value.item() if type(value).__module__ == "numpy" else value


def _dtype(values: List[Any], column: Column) -> str:
    gaps = None in values
    kind = column.kind
    if isinstance(kind, Floats):
        return "float64"
    if isinstance(kind, Decimals):
        # Floats that are shown as these numbers, where they are.
        return "float64" if all(value is None or Decimal(repr(float(value))) == value for value in values) else "object"
    if isinstance(kind, Whole):
        return "Int64" if gaps else "int64"
    if isinstance(kind, Booleans):
        return "boolean" if gaps else "bool"
    if isinstance(kind, Dates) or isinstance(kind, Times) and kind.zone is None:
        return "datetime64[ns]"
    return "object"
