"""What is warned of: values of a question that no row has."""
import sys
import warnings
from typing import Iterable


class UnknownValue(UserWarning):
    """A warning: a question names a value that no row has, so that it prefers nothing.

    >>> import prefq
    >>> import warnings
    >>> with prefq.Frame.from_records([{"City": "Lyon"}]) as hotels, warnings.catch_warnings(record=True) as caught:
    ...     answer = hotels.best("best pos(City, 'Lion')")
    >>> print(caught[0].category.__name__, caught[0].message, sep=": ")
    UnknownValue: no row of 'City' has 'Lion'; did you mean 'Lyon'?
    """


def warn_of(unknown: Iterable[str]) -> None:
    """Warns of values of a question that no row has, at the caller's line."""
    level = 2
    while sys._getframe(level - 1).f_globals.get("__package__") == __package__ and sys._getframe(level - 1).f_back:
        level += 1
    for message in unknown:
        warnings.warn(message, UnknownValue, stacklevel=level)
