"""What the program refuses, as exceptions.

Every exception of this package is an `XcolsError`. Those that come from a line of the program have it in `line`.
"""

from __future__ import annotations

import re
from collections.abc import Sequence
from typing import TYPE_CHECKING

if TYPE_CHECKING:
    from xcols.folder import PassedOver


class XcolsError(Exception):
    """The parent of all."""


class NoProgram(XcolsError):
    """The program isn't there; the text says how it is built."""


class UsageError(XcolsError):
    """The program didn't take its words: a number of rows out of range, for example."""


class Refusal(XcolsError):
    """A command was refused. Its line is `xcols: WORD NUMBER DETAILS`, as `docs/REFUSALS.md` lists them.

    word: the layer, as `"plan"`, `"sql"` or `"memory"`.
    number: the error code, or None where the line has none.
    details: what comes after it: offsets, rows, columns, paths.
    sentence: what it means and what to do, where the program can say so.
    """

    def __init__(self, line: str, sentence: str = "") -> None:
        self.line = line
        self.word, self.number, self.details = _parts(line)
        self.sentence = sentence
        super().__init__(f"{line}: {sentence}" if sentence else line)

    @property
    def offset(self) -> int | None:
        """The byte of the query at which SQL is refused, from 0, or None for another refusal."""
        return self._number_of("sql", range(100), 0)

    @property
    def row(self) -> int | None:
        """The row of a CSV file that a load refuses, from 0 after the header, or None."""
        return self._number_of("load", range(100), 0)

    @property
    def column(self) -> int | None:
        """The column in the catalogue, from 0, of a field that a load refuses, or None."""
        return self._number_of("load", range(3, 7), 1)

    def _number_of(self, word: str, numbers: range, at: int) -> int | None:
        is_such = self.word == word and self.number in numbers and len(self.details) > at and self.details[at].isdigit()
        return int(self.details[at]) if is_such else None


class CannotRead(Refusal):
    """A file isn't there or can't be read. Its path is in `details[0]`."""


class CannotWrite(Refusal):
    """A file or an output can't be written. Its path is in `details[0]`."""


class ArithmeticFault(XcolsError):
    """The query ends with a fault of arithmetic, over the whole table.

    kind: `"overflow"`, `"division by zero"` or `"sum out of range"`.
    row: the number of the fact's row, from 0, or None where the fault is of a group.
    """

    def __init__(self, line: str) -> None:
        self.line = line
        said = re.fullmatch(r"arithmetic: (.*?)(?: at row (\d+))?", line)
        self.kind = said[1] if said else line
        self.row = int(said[2]) if said and said[2] else None
        super().__init__(line)


class Incomplete(XcolsError):
    """A gather has no report yet.

    fragments: the numbers of the fragments that are missing or in conflict.
    passed_over: the files that were passed over.
    """

    def __init__(self, line: str, fragments: Sequence[int]) -> None:
        self.line = line
        self.fragments = tuple(fragments)
        self.passed_over: tuple[PassedOver, ...] = ()
        super().__init__(line)


class Missing(Incomplete):
    """No answer of these fragments has come."""


class Conflict(Incomplete):
    """Of these fragments unequal answers have come. They stay in conflict: gather anew without the wrong ones."""


def _parts(line: str) -> tuple[str, int | None, tuple[str, ...]]:
    """Of a line's text after `xcols: `, the word, the number and the details."""
    for head in ("cannot read ", "cannot write "):
        if line.startswith(head):
            return head.strip(), None, (line.removeprefix(head),)
    word, *rest = line.split(" ")
    if rest and rest[0].isdigit():
        return word, int(rest[0]), tuple(rest[1:])
    return word, None, tuple(rest)


def refusal_of(line: str, sentence: str = "") -> Refusal:
    """The exception of a line's text after `xcols: `."""
    kinds = {"cannot read ": CannotRead, "cannot write ": CannotWrite}
    kind = next((kind for head, kind in kinds.items() if line.startswith(head)), Refusal)
    return kind(line, sentence)


def incomplete_of(line: str) -> Incomplete:
    """The exception of a report's line `missing: 0 3` or `conflict: 1`."""
    word, _, numbers = line.partition(":")
    kind = {"missing": Missing, "conflict": Conflict}[word]
    return kind(line, [int(number) for number in numbers.split()])
