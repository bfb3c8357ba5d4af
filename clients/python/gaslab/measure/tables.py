"""Tables of numbers: frames of pandas, or records of numpy, as CSV and as charts."""
import csv
import importlib
import io
import os
from collections.abc import Iterable, Mapping, Sequence
from typing import Any, Union

import numpy
from numpy.typing import NDArray

from ..protocol.doors import PathLike
from ..protocol.drafts import draft
from ..protocol.errors import library

Table = Any
"""A DataFrame if pandas is installed, and else an array of numpy records. `table["tick"]` is a column."""


def table_of(names: Sequence[str], rows: Iterable[Sequence[Union[int, float]]]) -> Table:
    """A table of these rows."""
    columns = [numpy.array(column) for column in zip(*rows)] or [numpy.zeros(0, int) for _ in names]
    return table_of_columns(dict(zip(names, columns)))


def table_of_columns(columns: Mapping[str, NDArray[Any]]) -> Table:
    """A table of these columns, arrays of one length by their names."""
    try:
        pandas = importlib.import_module("pandas")
    except ImportError:
        kinds = numpy.dtype([(name, column.dtype) for name, column in columns.items()])
        return numpy.rec.fromarrays(list(columns.values()), dtype=kinds)
    return pandas.DataFrame(dict(columns))


def columns_of(table: Table) -> list[str]:
    """The names of a table's columns, in order."""
    return list(table.columns if hasattr(table, "columns") else table.dtype.names)


def check_columns(wanted: Iterable[str], names: Sequence[str]) -> None:
    """Raises `ValueError`, with the names that there are, if one is wanted that is none of these."""
    for name in wanted:
        if name not in names:
            raise ValueError(f"no column {name}: there are {', '.join(names)}")


def csv_text(table: Table) -> str:
    """A table as CSV with a line of names."""
    names, text = columns_of(table), io.StringIO()
    writer = csv.writer(text, lineterminator="\n")
    writer.writerow(names)
    writer.writerows(zip(*(table[name].tolist() for name in names)))
    return text.getvalue()


def chart(table: Table, path: PathLike, x: str, y: Union[str, Sequence[str]]) -> None:
    """Writes a chart of the columns `y` over the column `x`, a line with a mark for each number.

    The path ends in .svg, .png or .pdf. Raises `ValueError` for another ending, an unknown column, or a table
    without rows.
    """
    names = [y] if isinstance(y, str) else list(y)
    ending = os.path.splitext(os.fspath(path))[1][1:].lower()
    if ending not in ("svg", "png", "pdf"):
        raise ValueError(f"a chart's path ends in .svg, .png or .pdf: not {path}")
    check_columns((x, *names), columns_of(table))
    if not len(table) or not names:
        raise ValueError("a chart has at least one line with one number")
    with library("matplotlib").rc_context({"svg.hashsalt": "gaslab", "svg.fonttype": "none"}):
        figure = library("matplotlib.figure").Figure(figsize=(6.4, 3.6), layout="constrained")
        axes = figure.add_subplot(xlabel=x, ylabel=names[0] if len(names) == 1 else "")
        for name in names:
            axes.plot(table[x], table[name], marker="o", markersize=4, label=name)
        axes.axhline(0, color="black", linewidth=0.8)
        axes.grid(alpha=0.3)
        if len(names) > 1:
            axes.legend()
        with draft(path) as file:
            figure.savefig(file, format=ending, metadata={"Date": None} if ending == "svg" else {})
