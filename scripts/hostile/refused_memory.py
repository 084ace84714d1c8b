#!/usr/bin/env python3
"""refused_memory.py [--cases CASES] [--xcols XCOLS] [--keep]: refuses one allocation after the other of the built programs, and
then that allocation and all after it: `cases` over each file of scripts/hostile/memory and over refused_memory.case, and `xcols`
over a folder of this machine. A run does what it does with ample memory, or says that memory ran out: a case in its own lines and
`xcols` with status 1, without a file but those of the run with ample memory and without a part of one; or `cases` ends where no
case can go on. How many allocations were refused is printed and compared with the file `allocations`, which --keep writes:
where there are fewer than nine tenths of them, a call has stopped allocating. The last line counts the runs."""
import argparse
import concurrent.futures
import os
import re
import shutil
import subprocess
import sys
import tempfile

from folders import QUERY, TABLES, held, put

HERE = os.path.dirname(os.path.abspath(__file__))
MEMORY = f"{HERE}/memory"
TOP = os.path.dirname(os.path.dirname(HERE))
SAID = b"an allocation is refused\n"
# The lines in which a case says that memory ran out. Where what is written to is a list that can't grow, the device or the writer
# has failed; what a folder in memory can't hold isn't written.
WANT = re.compile(r"(\w+,? )?refused (0|8|12)(: .*)?|refused for want of memory|refused by the writer|.*\bmemory\b.*"
                  r"|\(no (query|catalogue)\)|no block|xcols: \w+ 0"
                  r"|err .*xcols: (cannot (write|read) .*|journal 1[23])|out \(ends without a line end\)|status 1")


def built(folder):
    shutil.copy(f"{TOP}/scripts/refuse.c.txt", f"{folder}/refuse.c")
    subprocess.run(["cc", "-O2", "-shared", "-fPIC", "-o", f"{folder}/refuse.so", f"{folder}/refuse.c"], check=True)
    return f"{folder}/refuse.so"


class Program:
    """A program with words, run in a folder."""

    def __init__(self, shim, words, folder):
        self.shim, self.words, self.folder = shim, words, folder

    def run(self, **environment):
        environment |= {"LD_PRELOAD": self.shim, "PATH": os.environ.get("PATH", "")}
        return subprocess.run(self.words, cwd=self.folder, env=environment, stdout=subprocess.PIPE, stderr=subprocess.PIPE,
                              timeout=600)

    def counted(self):
        with tempfile.NamedTemporaryFile() as file:
            done = self.run(MEASURED=file.name)
            return done, int(file.read().split()[0])


def is_part(words, whole):
    """Whether the words stand in the whole, in their order."""
    rest = iter(whole)
    return all(word in rest for word in words)


def says_want(wanted, came):
    lines = came.splitlines()
    others = [line for line in lines if not WANT.fullmatch(line)]
    if len(others) == len(lines) or not is_part(" ".join(others).split(), wanted.split()):
        return False
    printed = any(line.startswith("out ") for line in others)
    return not (printed and "status 1" in lines and "err xcols: cannot write standard output" not in lines)


def mismatches(name, text):
    start = rf"^{re.escape(name)}:\d+: wanted\n"
    return re.findall(rf"{start}(.*?)but came\n(.*?)\n(?={start}|{re.escape(name)}: \d+ passed|\Z)", text, re.M | re.S)


def judge_cases(name, ample, done):
    """How a run of `cases` with refused memory went: on, to its end, or wrong."""
    err = done.stderr.replace(SAID, b"").decode()
    if done.returncode == 0 and done.stdout == ample.stdout and not err:
        return "on"
    text = done.stdout.decode(errors="replace")
    fit = all(says_want(wanted, came) for wanted, came in mismatches(name, text))
    if done.returncode == 1 and fit and (err.startswith("cases: ") and err.count("\n") == 1):
        return "ended"
    if done.returncode == 1 and fit and not err and mismatches(name, text):
        return "on"
    return "wrong"


def each(pool, count, one):
    """What comes of one run for each allocation that is refused alone, and with all behind it. A load asks some 4,090 times for a
    file to be removed, by five allocations each: of so many in the middle it is one in 41."""
    numbers = [n for n in range(1, count + 1) if n <= 1000 or n > count - 300 or n % 41 == 0]
    runs = [(mode, n) for mode in ("REFUSED", "REFUSED_FROM") for n in numbers]
    return zip(runs, pool.map(lambda run: one(*run), runs))


class Totals:
    def __init__(self):
        self.passed = self.failed = 0
        self.allocations = {}

    def take(self, name, count, judged):
        on = ended = 0
        for (mode, n), (verdict, done) in judged:
            on, ended = on + (verdict == "on"), ended + (verdict == "ended")
            if verdict == "wrong":
                self.failed += 1
                if self.failed <= 20:
                    print(f"{name}: {mode}={n}: status {done.returncode}")
                    sys.stdout.write((done.stdout + done.stderr).decode(errors="replace")[:2000])
        print(f"{name}: {count} allocations, {on} runs went on, {ended} ended for want of memory", flush=True)
        self.passed += on + ended
        self.allocations[name] = count


# ---- the program `cases`

def refuse_cases(pool, shim, cases, totals, only):
    idle = Program(shim, [cases, "/dev/null"], MEMORY).counted()[1]
    files = [(MEMORY, name) for name in sorted(os.listdir(MEMORY)) if name.endswith(".case")]
    for folder, name in files + [(f"{TOP}/crates/cases", "data/refused_memory.case")]:
        if only not in (None, name):
            continue
        program = Program(shim, [cases, name], folder)
        ample, count = program.counted()
        if ample.returncode != 0:
            totals.failed += 1
            print(f"{name}: fails with ample memory\n{ample.stdout.decode()}{ample.stderr.decode()}")
            continue

        def one(mode, n):
            done = program.run(**{mode: str(n)})
            verdict = judge_cases(name, ample, done) if SAID in done.stderr else "wrong"
            return verdict, done

        totals.take(name, count - idle, each(pool, count, one))
        if SAID in program.run(REFUSED=str(count + 1)).stderr:
            totals.failed += 1
            print(f"{name}: there are more allocations")


# ---- the program `xcols` over a folder of this machine

def is_want_of_memory(err):
    return re.fullmatch(r"xcols: (memory|cannot (read|write) .+)\n", err) is not None


def judge_xcols(before, after, ample, done, folder, partial):
    """The same, of `xcols` over a folder that held the files `before` and would hold `after`."""
    err = done.stderr.replace(SAID, b"").decode(errors="replace")
    found = held(folder)
    whole = all(data in (before.get(name), after.get(name)) for name, data in found.items() if name not in partial)
    kept = all(name in found for name in before if name in after)
    if not whole or not kept:
        return "wrong"
    if done.returncode == ample.returncode and done.stdout == ample.stdout and err.encode() == ample.stderr:
        return "on" if found == after else "wrong"
    # What was said of a file that is passed over may stand before it.
    fits = done.returncode == 1 and is_want_of_memory(err.replace(ample.stderr.decode(), "", 1))
    return "on" if fits and (not done.stdout or "standard output" in err) else "wrong"


def refuse_xcols(pool, shim, xcols, totals, only):
    files = {f"s/{name}": data for name, data in TABLES.items()}
    commands = [
        ("load", ["load", "s", "--load", "7", "--rows", "2"]),
        ("work", ["work", "s", "--query", QUERY, "--fragment", "0", "--out", "a0"]),
        ("gather", ["gather", "s", "--query", QUERY, "--save", "state", "a0", "a1", "none"]),
        ("gather with a journal", ["gather", "s", "--query", QUERY, "--journal", "s/j", "a0", "a1"]),
        ("whole", ["whole", "s", "--query", QUERY, "--rows", "2"]),
    ]
    for name, words in commands:
        with tempfile.TemporaryDirectory() as room:
            put(room, files)
            ample, count = Program(shim, [xcols, *words], room).counted()
            after = held(room)
        if ample.returncode != 0:
            totals.failed += 1
            print(f"xcols {name}: {ample.stderr.decode()}")
            return

        def one(mode, n):
            with tempfile.TemporaryDirectory() as room:
                put(room, files)
                done = Program(shim, [xcols, *words], room).run(**{mode: str(n)})
                verdict = judge_xcols(files, after, ample, done, room, {"s/j"} if "--journal" in words else set())
                # Whatever a journal has, the next run has all answers.
                again = Program(shim, [xcols, *words], room).run() if "--journal" in words else ample
                return verdict if again.stdout == ample.stdout else "wrong", done

        if only in (None, f"xcols {name}"):
            totals.take(f"xcols {name}", count, each(pool, count, one))
        files = after
        if name == "work":
            with tempfile.TemporaryDirectory() as room:
                put(room, files)
                subprocess.run([xcols, "work", "s", "--query", QUERY, "--fragment", "1", "--out", "a1"], cwd=room, check=True)
                files = held(room) | {"none": b"XGA"}


def compare(totals, keep):
    path = f"{MEMORY}/allocations"
    if keep:
        with open(path, "w") as file:
            file.writelines(f"{name}: {count}\n" for name, count in totals.allocations.items())
    with open(path) as file:
        kept = dict(line.rstrip("\n").rsplit(": ", 1) for line in file)
    for name, count in totals.allocations.items():
        if count != int(kept.get(name, -1)):
            print(f"{name}: {count} allocations, {kept.get(name, 'none')} are kept")
            totals.failed += 10 * count < 9 * int(kept.get(name, 0))


def main():
    parser = argparse.ArgumentParser()
    parser.add_argument("--cases")
    parser.add_argument("--xcols")
    parser.add_argument("--keep", action="store_true")
    parser.add_argument("--only", help="the case file or the command of this name alone")
    words = parser.parse_args()
    totals = Totals()
    with tempfile.TemporaryDirectory() as room, concurrent.futures.ThreadPoolExecutor(os.cpu_count()) as pool:
        shim = built(room)
        if words.cases:
            refuse_cases(pool, shim, os.path.abspath(words.cases), totals, words.only)
        if words.xcols:
            refuse_xcols(pool, shim, os.path.abspath(words.xcols), totals, words.only)
    compare(totals, words.keep)
    print(f"refused-memory: {totals.passed} passed, {totals.failed} failed")
    sys.exit(totals.failed > 0)


main()
