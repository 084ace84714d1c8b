"""A folder of tables, and the program's commands over it."""

from __future__ import annotations

import os
import re
import tempfile
import time
from collections.abc import Iterable, Iterator
from concurrent.futures import ThreadPoolExecutor, as_completed
from dataclasses import dataclass
from pathlib import Path

from xcols.errors import ArithmeticFault, Incomplete, UsageError, incomplete_of
from xcols.program import Program, Ran, find_program
from xcols.result import Column, Result, result_of

StrPath = str | os.PathLike[str]

MAX_ROWS = 1_048_576


@dataclass(frozen=True)
class Loaded:
    """What a load wrote: the number of the fact table's rows, and that of its fragments."""

    rows: int
    fragments: int


@dataclass(frozen=True)
class PassedOver:
    """A file that a gather passed over, and the number of its refusal, as `gather 6 PATH` in `docs/REFUSALS.md`."""

    number: int
    path: str


@dataclass(frozen=True)
class Preview:
    """A query over the fragments that were answered so far.

    answered, fragments: how many of how many.
    result: the rows, or None where the query over these fragments ends with a fault of arithmetic.
    fault: that fault.
    """

    answered: int
    fragments: int
    result: Result | None
    fault: ArithmeticFault | None


class Folder:
    """A folder with `catalog.txt` and one `NAME.csv` a table, or with the files that `load` wrote.

    program: the program's path; without it the environment's XCOLS, the one installed with this package, `xcols` on the path,
    or the repository's.

    >>> folder = Folder("examples/sales")
    >>> folder.whole("SELECT SUM(q) AS pieces FROM sales").rows
    [(7,)]

    Every call raises `Refusal` (or `CannotRead`, `CannotWrite`) where the command is refused, `UsageError` where its words
    are no command, and `NoProgram` where there is no program.
    """

    def __init__(self, path: StrPath, program: StrPath | None = None) -> None:
        self.path = os.fspath(path)
        self._program = Program(find_program(program))

    def __repr__(self) -> str:
        return f"Folder({self.path!r})"

    def init(self, fact: str | None = None) -> str:
        """Writes a `catalog.txt` under which the folder's CSV files load, and gives what was chosen and why.

        >>> print(Folder("mine").init(fact="orders"))
        """
        return self._program.run("init", self.path, *_option("--fact", fact)).err

    def load(self, rows: int = MAX_ROWS, load: int | None = None) -> Loaded:
        """Writes the tables into files of columns, with this number of rows in a fragment. `load` is the number that the files
        carry, by default the seconds since 1970; two loads with one number can't be distinguished.

        >>> folder.load(rows=2)
        Loaded(rows=5, fragments=3)
        """
        number = int(time.time()) if load is None else load
        ran = self._program.run("load", self.path, "--load", str(number), "--rows", str(rows))
        said = re.match(r"loaded (\d+) rows in (\d+) fragments", ran.out)
        if said is None:
            raise UsageError(f"load printed {ran.out!r}")
        return Loaded(int(said[1]), int(said[2]))

    def whole(self, query: str, rows: int = MAX_ROWS, vector: int = 1024) -> Result:
        """Answers a query over the CSV files, in memory. Raises ArithmeticFault where it ends with one.

        >>> folder.whole("SELECT id FROM sales WHERE q BETWEEN 1 AND 2").rows
        [(1,), (5,)]
        """
        words = ["whole", self.path, "--query", query, "--rows", str(rows), "--vector", str(vector)]
        return self._report(query, self._program.run(*words))

    def work(self, query: str, fragment: int, out: StrPath, vector: int = 1024) -> Path:
        """Answers a query for one fragment of the loaded tables, and gives the path of the answer's file.

        >>> folder.work("SELECT COUNT(*) FROM sales", 0, "a0")
        PosixPath('a0')
        """
        words = ["--query", query, "--fragment", str(fragment), "--out", os.fspath(out), "--vector", str(vector)]
        self._program.run("work", self.path, *words)
        return Path(out)

    def gather(
        self, query: str, files: Iterable[StrPath], save: StrPath | None = None, journal: StrPath | None = None
    ) -> Result:
        """What files of answers and of states say together. They may come in any order and more than once.

        save: where the coordinator's state is written. journal: a file that keeps each answer as it comes.
        Raises Missing or Conflict, with the fragments, where there is no report yet (the state is saved all the same), and
        ArithmeticFault where the query ends with one. Files that are passed over are in `passed_over` of the result and of
        Missing and Conflict.

        >>> folder.gather("SELECT COUNT(*) FROM sales", ["a0", "a1", "a2"]).rows
        [(5,)]
        """
        return self._report(query, self._gather(query, files, save, journal))

    def preview(
        self, query: str, files: Iterable[StrPath], save: StrPath | None = None, journal: StrPath | None = None
    ) -> Result:
        """The query over the fragments that hold one answer, as if these were all. Otherwise as `gather`.

        >>> folder.preview("SELECT COUNT(*) FROM sales", ["a0"]).rows
        [(2,)]
        """
        return self._report(query, self._gather(query, files, save, journal, "--preview"))

    def explain(self, query: str) -> str:
        """The query's plan as a tree, and where each condition is tested.

        >>> print(folder.explain("SELECT COUNT(*) FROM sales WHERE q > 1"))
        """
        return self._program.run("explain", self.path, "--query", query).out

    def show(self, file: StrPath, rows: int | None = None, groups: bool = False) -> str:
        """What one of the folder's files, or an answer, a state or a journal elsewhere, has in it. `rows`: its first rows as
        CSV. `groups`: an answer's or a state's groups.

        >>> print(folder.show("examples/sales/cut.xcl"))
        """
        inside = os.path.join(self.path, os.fspath(file))
        path = inside if os.path.exists(inside) else os.fspath(file)
        return self._program.run("show", path, *_option("--rows", rows), *(["--groups"] if groups else [])).out

    def columns(self, query: str) -> tuple[Column, ...]:
        """The columns of a query's report, with their types.

        >>> folder.columns("SELECT t, COUNT(*) AS n FROM sales GROUP BY t")
        (Column(name='t', type='text'), Column(name='n', type='int'))
        """
        head = "columns: "
        said = next(line for line in self.explain(query).splitlines() if line.startswith(head))
        return tuple(Column(*column.split(" ")) for column in said.removeprefix(head).split(", "))  # type: ignore[arg-type]

    def fragments(self) -> tuple[int, ...]:
        """The numbers of the fragments that the tables were loaded in. Raises CannotRead where they weren't: `load` comes first.

        >>> folder.fragments()
        (0, 1, 2)
        """
        said = re.search(r"^fragments (\d+)$", self.show("cut.xcl"), re.MULTILINE)
        assert said is not None
        return tuple(range(int(said[1])))

    def query(self, query: str, processes: int | None = None) -> Result:
        """Answers a query over the loaded tables by a process for each fragment, `processes` at once (as many as there are
        processors).

        >>> folder.query("SELECT COUNT(*) FROM sales", processes=4).rows
        [(5,)]
        """
        *_, last = self.previews(query, processes)
        if last.fault is not None:
            raise last.fault
        assert last.result is not None
        return last.result

    def previews(self, query: str, processes: int | None = None) -> Iterator[Preview]:
        """As `query`, with the query over the fragments answered so far after each answer. The last is the report.

        >>> for seen in folder.previews("SELECT COUNT(*) FROM sales", processes=4):
        ...     print(seen.answered, "of", seen.fragments, seen.result.rows)
        """
        fragments = self.fragments()
        columns = self.columns(query)
        with tempfile.TemporaryDirectory() as room, ThreadPoolExecutor(processes or os.cpu_count()) as pool:
            state = Path(room, "state.xgs")
            answers = [pool.submit(self.work, query, k, Path(room, f"{k}.xga")) for k in fragments]
            try:
                for count, answer in enumerate(as_completed(answers), 1):
                    files = [answer.result(), *([state] if count > 1 else [])]
                    ran = self._gather(query, files, state, None, *(["--preview"] if count < len(fragments) else []))
                    yield _preview(count, len(fragments), ran, columns)
            finally:
                pool.shutdown(cancel_futures=True)

    def _gather(
        self, query: str, files: Iterable[StrPath], save: StrPath | None, journal: StrPath | None, *words: str
    ) -> Ran:
        options = [*_option("--save", save), *_option("--journal", journal), *words]
        return self._program.run("gather", self.path, "--query", query, *options, *[os.fspath(file) for file in files])

    def _report(self, query: str, ran: Ran) -> Result:
        passed_over = tuple(_passed_over(ran.err))
        if ran.status == 4:
            incomplete: Incomplete = incomplete_of(ran.out.strip())
            incomplete.passed_over = passed_over
            raise incomplete
        if ran.status == 3:
            raise ArithmeticFault(ran.out.strip())
        return result_of(ran.out, self.columns(query), passed_over)


def _option(name: str, value: object) -> list[str]:
    return [] if value is None else [name, os.fspath(value) if isinstance(value, os.PathLike) else str(value)]


def _passed_over(err: str) -> Iterator[PassedOver]:
    for line in err.splitlines():
        said = re.fullmatch(r"xcols: gather (\d+) (.*)", line)
        if said:
            yield PassedOver(int(said[1]), said[2])


def _preview(answered: int, fragments: int, ran: Ran, columns: tuple[Column, ...]) -> Preview:
    if ran.status == 3:
        return Preview(answered, fragments, None, ArithmeticFault(ran.out.strip()))
    if ran.status == 4:
        raise incomplete_of(ran.out.strip())
    return Preview(answered, fragments, result_of(ran.out, columns), None)
