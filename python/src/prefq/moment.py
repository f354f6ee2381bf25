"""Rows as they are at one moment."""
from array import array
from itertools import compress
from typing import Any, Callable, Dict, List, Optional, Sequence, Tuple

from .columns import Column
from .loading import Encoded
from .pauses import extended
from .reading import Progress, check_names


class Moment:
    """Rows as they are at one moment, each column of which is loaded when it is named. Their ids are 1, 2, 3 and so on; `places`, from 0, are of those that count: all
    at first, where it is None."""

    def __init__(self, names: Sequence[Any], load: Callable[[str], Encoded], progress: Optional[Progress] = None,
                 called: Callable[[int], Any] = lambda id: id) -> None:
        self._all_names, self._load, self._progress, self._called = names, load, progress, called
        self.names = [name for name in names if isinstance(name, str)]
        self.places: Optional[Sequence[int]] = None
        # Whether a value that no row here has is one that no row has at all: not so of what is left of parts.
        self.has_all_values = True
        self._loaded: Dict[str, Encoded] = {}
        # The numbers of columns in the rows that count, where these are not all.
        self._of_places: Dict[str, "array[int]"] = {}
        # The numbers of columns that are computed over the rows that count, by the identity of the column, which is kept.
        self._computed: Dict[int, Tuple[Column, Sequence[int]]] = {}

    @property
    def count(self) -> int:
        """How many rows count."""
        return len(self.places) if self.places is not None else max((len(numbers) for _, numbers in self._loaded.values()), default=0)

    def column(self, name: str) -> Optional[Column]:
        """The column of this name, None where there is none."""
        if name in self._all_names and name not in self._loaded:
            check_names(other for other in self._all_names if other == name)
            if self._progress:
                self._progress(f"reading {name}", 0, 0)
            self._loaded[name] = self._load(name)
        return self._loaded[name][0] if name in self._loaded else None

    def numbers(self, column: Column) -> Sequence[int]:
        """The numbers of a column in the rows that count."""
        if id(column) in self._computed:
            return self._computed[id(column)][1]
        numbers = self._loaded[column.name][1]
        if self.places is None:
            return numbers
        if column.name not in self._of_places:
            self._of_places[column.name] = extended(array("q"), map(numbers.__getitem__, self.places))
        return self._of_places[column.name]

    def add(self, column: Column, numbers: Sequence[int]) -> None:
        """Adds a column that is computed."""
        self._computed[id(column)] = column, numbers

    def place(self, id: int) -> Optional[int]:
        """The place, from 0, of a row among those that count; None where it does not."""
        if self.places is None:
            return id - 1
        return self.places.index(id - 1) if id - 1 in self.places else None

    def keep(self, mask: bytes) -> None:
        """Of the rows that count, only those count from now on for which the mask has a 1."""
        self.places = extended([], compress(range(self.count) if self.places is None else self.places, mask))
        self._of_places.clear()

    def id(self, number: int) -> int:
        """The id of a row by its number, from 1, among those that count."""
        return number if self.places is None else self.places[number - 1] + 1

    def called(self, place: int) -> Any:
        """What the row at a place, from 0, among those that count is called in a message."""
        return self._called(self.id(place + 1))

    def only(self, ids: List[int]) -> "Moment":
        """The same moment, of which only these rows count."""
        part = Moment(self._all_names, self._load, self._progress, self._called)
        part._loaded = self._loaded
        part.places = [id - 1 for id in ids]
        return part


def moment_of(columns: Sequence[Column], numbers: Callable[[int], Sequence[int]], called: Callable[[int], Any]) -> Moment:
    """Rows of these columns, each of which has its numbers by its place. `called` gives what messages call a row by its number, from 1 on."""
    places = {column.name: place for place, column in enumerate(columns)}
    return Moment(list(places), lambda name: (columns[places[name]], numbers(places[name])), called=called)
