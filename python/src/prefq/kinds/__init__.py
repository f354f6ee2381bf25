"""The kinds of columns: how values stand in a table as whole numbers of 64 bits, and come back exactly.

Each kind keeps what questions can see of its values: equality always, their order where it has one (`ordered`: for low and high), and their distances where
these have a meaning (`measured`: for around and between). `LEAST` stands for a missing value in every kind, so no value of a column has it.

Texts are read in one place, `Kind.read`, by the grammar that its class says; whatever is not of that grammar is refused, and nothing is made of nothing.
"""
from ..errors import NotRead
from .booleans import Booleans
from .kind import Kind
from .moments import Clock, Dates, Times
from .numbers import Decimals, Floats, Whole
from .spelling import kind_named
from .texts import Choices, Texts

__all__ = ["Booleans", "Choices", "Clock", "Dates", "Decimals", "Floats", "Kind", "NotRead", "Texts", "Times", "Whole", "kind_named"]
