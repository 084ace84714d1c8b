"""Queries over a star of tables that lies in a folder, through the program `xcols`.

>>> from xcols import Folder
>>> Folder("examples/sales").whole("SELECT COUNT(*) AS orders FROM sales").rows
[(5,)]
"""

from xcols.errors import (
    ArithmeticFault,
    CannotRead,
    CannotWrite,
    Conflict,
    Incomplete,
    Missing,
    NoProgram,
    Refusal,
    UsageError,
    XcolsError,
)
from xcols.folder import Folder, Loaded, PassedOver, Preview
from xcols.result import Column, Result

__all__ = [
    "ArithmeticFault",
    "CannotRead",
    "CannotWrite",
    "Column",
    "Conflict",
    "Folder",
    "Incomplete",
    "Loaded",
    "Missing",
    "NoProgram",
    "PassedOver",
    "Preview",
    "Refusal",
    "Result",
    "UsageError",
    "XcolsError",
]
