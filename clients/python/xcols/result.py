"""The rows of a report, with the types of their columns."""

from __future__ import annotations

import csv
import io
from collections.abc import Iterator
from dataclasses import dataclass, field
from typing import TYPE_CHECKING, Literal

if TYPE_CHECKING:
    import pandas

    from xcols.folder import PassedOver

Value = int | str | None


@dataclass(frozen=True)
class Column:
    """A column of a report: its name and whether it holds integers of 64 bits (`"int"`) or texts (`"text"`)."""

    name: str
    type: Literal["int", "text"]


@dataclass(frozen=True)
class Result:
    """The rows of a report, in their order.

    text: the report as it is printed, with its header, as comma-separated values.
    passed_over: the files that a gather passed over.

    >>> result = folder.whole("SELECT region, COUNT(*) AS n FROM sales JOIN store ON s = k GROUP BY region")
    >>> result.columns
    (Column(name='region', type='text'), Column(name='n', type='int'))
    >>> result.rows
    [(None, 1), ('north', 2)]
    """

    columns: tuple[Column, ...]
    rows: list[tuple[Value, ...]]
    text: str = field(repr=False)
    passed_over: tuple[PassedOver, ...] = ()

    def __iter__(self) -> Iterator[tuple[Value, ...]]:
        return iter(self.rows)

    def __len__(self) -> int:
        return len(self.rows)

    def __bool__(self) -> bool:
        """Always true: a result without rows is a result. `len(result)` is its number of rows."""
        return True

    def __str__(self) -> str:
        """A table with NULL as `NULL`, integers to the right and texts to the left."""
        shown = [["NULL" if value is None else str(value) for value in row] for row in self.rows]
        names = [column.name for column in self.columns]
        widths = [max(len(row[at]) for row in [names, *shown]) for at in range(len(names))]
        lines = [names, ["-" * width for width in widths], *shown]
        return "\n".join("  ".join(map(_fitted, line, widths, self.columns)).rstrip() for line in lines)

    def to_dicts(self) -> list[dict[str, Value]]:
        """A dictionary for each row. Of two columns of one name, the last is in it."""
        names = [column.name for column in self.columns]
        return [dict(zip(names, row, strict=True)) for row in self.rows]

    def to_frame(self) -> pandas.DataFrame:
        """A DataFrame of pandas: integers are Int64, exact and with NA for NULL; texts are `string`."""
        import pandas

        kinds = {"int": "Int64", "text": "string"}
        series = [
            pandas.Series([row[at] for row in self.rows], dtype=kinds[column.type], name=column.name)
            for at, column in enumerate(self.columns)
        ]
        return pandas.concat(series, axis=1)


def result_of(text: str, columns: tuple[Column, ...], passed_over: tuple[PassedOver, ...] = ()) -> Result:
    """The result that a report's comma-separated text is. NULL is printed as `\\N`, and so is the text of those two bytes."""
    records = csv.reader(io.StringIO(text, newline=""))
    next(records)
    rows = [tuple(_value(item, column) for item, column in zip(record, columns, strict=True)) for record in records]
    return Result(columns, rows, text, passed_over)


def _fitted(text: str, width: int, column: Column) -> str:
    return text.rjust(width) if column.type == "int" else text.ljust(width)


def _value(item: str, column: Column) -> Value:
    if item == "\\N":
        return None
    return int(item) if column.type == "int" else item
