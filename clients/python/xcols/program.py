"""Where the program is, and one run of it."""

from __future__ import annotations

import os
import shutil
import subprocess
from dataclasses import dataclass
from functools import cache
from pathlib import Path

from xcols.errors import NoProgram, UsageError, refusal_of

_HOW_TO_GET = (
    "the program xcols isn't there: this package has none for this machine. In the repository, `./install PREFIX` installs it: at "
    "once where the repository's release runs, on Linux with x86_64 and glibc 2.34 or later, and else with the Rattle toolchain, which takes "
    "over an hour to prove and build it. Put it on the path, or name it by the environment's XCOLS or by Folder(path, program=..)"
)
_PACKAGE = Path(__file__).resolve().parent


@dataclass(frozen=True)
class Ran:
    """What a run printed, and its status."""

    status: int
    out: str
    err: str


def find_program(program: str | os.PathLike[str] | None = None) -> str:
    """The program's path: `program`, else the environment's `XCOLS`, else the one that was installed with this package, else
    `xcols` on the path, else the one that `./xcols` runs in the repository that this file lies in. Raises NoProgram."""
    named = program or os.environ.get("XCOLS")
    if named:
        found = shutil.which(os.fspath(named))
        if found is None:
            raise NoProgram(f"{os.fspath(named)} can't be run: {_HOW_TO_GET}")
        return found
    installed = _PACKAGE / "bin/xcols"
    found = str(installed) if os.access(installed, os.X_OK) else shutil.which("xcols") or _of_repository()
    if found is None:
        raise NoProgram(_HOW_TO_GET)
    return found


@cache
def _of_repository() -> str | None:
    """The program that the repository's `./xcols` runs, where this file lies in one and there is a program."""
    script = _PACKAGE.parents[2] / "xcols"
    if not script.is_file() or not os.access(script, os.X_OK):
        return None
    said = subprocess.run([script, "--path"], stdout=subprocess.PIPE, stderr=subprocess.DEVNULL, text=True, check=False)
    return said.stdout.strip() if said.returncode == 0 else None


class Program:
    """The program, which is run anew for each command."""

    def __init__(self, path: str) -> None:
        self.path = path

    def run(self, *words: str) -> Ran:
        """One run. Statuses 0, 3 and 4 are given back; 1 raises a Refusal and 2 a UsageError."""
        done = subprocess.run([self.path, *words], stdout=subprocess.PIPE, stderr=subprocess.PIPE, check=False)
        ran = Ran(done.returncode, done.stdout.decode(), done.stderr.decode(errors="replace"))
        if ran.status == 1:
            # Files that were passed over are named in front of it.
            line = ran.err.rstrip("\n").rpartition("\n")[2].removeprefix("xcols: ")
            raise refusal_of(line, self.sentence(line))
        if ran.status not in (0, 3, 4):
            raise UsageError(ran.err.strip() or f"the program ended with status {ran.status}")
        return ran

    def sentence(self, line: str) -> str:
        """What `xcols refusal` says of a line: what it means and what to do, or nothing where it knows none."""
        words = line.split(" ")[:2]
        done = subprocess.run([self.path, "refusal", *words], stdout=subprocess.PIPE, stderr=subprocess.DEVNULL, check=False)
        heads = ("  means: ", "  what to do: ")
        said = [row.removeprefix(head) for row in done.stdout.decode().splitlines() for head in heads if row.startswith(head)]
        return ". ".join(said) if done.returncode == 0 else ""
