#!/usr/bin/env python3
"""failing_ends.py XCOLS: lets each call on a file of the built program XCOLS fail in turn, over folders of this machine: what is
opened, read, written, synced, renamed, removed, cut, sought, asked or locked. Each command then ends with status 1 and the one
line that names the file, prints nothing else, and leaves whole files alone under their names: those of the run that nothing
fails, or those that were there; `load` the first of its files or none, and none where a fragment couldn't be written. Where a
call doesn't matter, all is as if it hadn't failed. Behind a failed journal the next run prints the whole report. Besides: reads
and writes of one byte, outputs that are closed or full, and a CSV file that grows or shrinks between its two readings. The last
line counts the runs."""
import os
import re
import shutil
import subprocess
import sys
import tempfile

import folders
from folders import QUERY, held, put

HERE = os.path.dirname(os.path.abspath(__file__))
XCOLS = os.path.abspath(sys.argv[1])
CALLS = ["open", "read", "write", "sync", "rename", "unlink", "cut", "seek", "stat", "lock"]
EIO, ENOSPC = "5", "28"
TABLES = {f"s/{name}": data for name, data in folders.TABLES.items()}
# In the order in which a load puts them under their names.
LOADED = ["s/n.0.xcf", "s/n.1.xcf", "s/d.xcf", "s/cut.xcl"]
REFUSAL = re.compile(r"xcols: (cannot (read|write) .+|journal 1[2-5]|file 2|work 3 2)\n")


class Tally:
    passed = failed = 0

    def check(self, name, good, said=""):
        if good:
            self.passed += 1
        else:
            self.failed += 1
            print(f"failing-ends: {name}: FAILED {said}", flush=True)


tally = Tally()


def run(room, words, **environment):
    environment |= {"LD_PRELOAD": SHIM, "PATH": os.environ.get("PATH", "")}
    return subprocess.run([XCOLS, *words], cwd=room, env=environment, stdout=subprocess.PIPE, stderr=subprocess.PIPE, timeout=600)


def over(files, words, **environment):
    """What a command does over a folder that holds these files, and what the folder then holds."""
    with tempfile.TemporaryDirectory() as room:
        put(room, files)
        done = run(room, words, **environment)
        return done, held(room)


def counted(files, words):
    with tempfile.NamedTemporaryFile("r") as file:
        done, after = over(files, words, COUNTED=file.name)
        counts = {line.split()[0]: int(line.split()[1]) for line in file}
    return done, after, counts


def is_whole(name, data, before, after):
    return data in (before.get(name), after.get(name)) or name == "s/j"


def leaves_whole_files(call, before, after, found):
    """No part is left, unless it couldn't be removed, and all else is whole."""
    parts = [name for name in found if name.endswith(".part")]
    others = {name: data for name, data in found.items() if name not in parts}
    return (not parts or call == "unlink") and all(is_whole(name, data, before, after) for name, data in others.items())


def leaves_a_front(call, line, before, after, found):
    """Of a load's files the first ones are new."""
    new = [found.get(name) == after[name] and before.get(name) != after[name] for name in LOADED]
    front = new == sorted(new, reverse=True)
    none = call != "write" or "n." not in line or not any(new)
    return front and none


def fail_each(name, files, words, journal=False):
    """Each call of a command in turn."""
    ample, after, counts = counted(files, words)
    tally.check(f"{name} without a failure", ample.returncode == 0, ample.stderr.decode())
    runs = 0
    for call in CALLS:
        # A load asks 4,094 times for a file to be removed: the first and the last ones.
        numbers = [n for n in range(1, counts[call] + 1) if n <= 60 or n > counts[call] - 20]
        for n in numbers:
            runs += 1
            done, found = over(files, words, FAIL=call, AT=str(n), ERROR=ENOSPC if call == "write" else EIO)
            line = done.stderr.decode()
            same = done.returncode == 0 and done.stdout == ample.stdout and done.stderr == ample.stderr
            if same:
                good = found == after or leaves_whole_files("unlink", files, after, found)
            else:
                good = done.returncode == 1 and REFUSAL.fullmatch(line.replace(ample.stderr.decode(), "", 1)) is not None
                good = good and (not done.stdout or "standard output" in line)
                good = good and leaves_whole_files(call, files, after, found)
                if words[0] == "load":
                    good = good and leaves_a_front(call, line, files, after, found)
            tally.check(f"{name}: {call} {n}", good, f"status {done.returncode}, {line!r}, {sorted(found)}")
            if journal and not same:
                again, _ = over(found, words)
                tally.check(f"{name}: {call} {n}, again", again.stdout == ample.stdout and again.returncode == 0,
                            again.stderr.decode())
    print(f"failing-ends: {name}: {runs} calls, " + ", ".join(f"{counts[call]} {call}" for call in CALLS if counts[call]), flush=True)
    little, found = over(files, words, LITTLE="1")
    tally.check(f"{name} by one byte", (little.returncode, little.stdout, little.stderr) == (0, ample.stdout, ample.stderr)
                and (found == after), little.stderr.decode())
    return after


def answered(files):
    """The folder with the answers of both fragments and a file that is none."""
    for fragment in ("0", "1"):
        done, files = over(files, ["work", "s", "--query", QUERY, "--fragment", fragment, "--out", f"a{fragment}"])
        tally.check(f"work on {fragment}", done.returncode == 0, done.stderr.decode())
    return files | {"none": b"XGA"}


# ---- outputs that are closed or full

def output_of(files, words, shell):
    with tempfile.TemporaryDirectory() as room:
        put(room, files)
        done = subprocess.run(["sh", "-c", f'"$0" "$@" {shell}', XCOLS, *words], cwd=room, stdout=subprocess.PIPE,
                              stderr=subprocess.PIPE, timeout=600)
        return done, held(room)


def close_outputs(files, gather, whole):
    for name, words in (("gather", gather), ("whole", whole)):
        for shell in (">/dev/full", ">&-"):
            done, found = output_of(files, words, shell)
            tally.check(f"{name} {shell}", done.returncode == 1 and done.stderr.endswith(b"cannot write standard output\n")
                        and all(found[path] == data for path, data in files.items()), f"{done.returncode} {done.stderr}")
        read, write = os.pipe()
        os.close(read)
        with tempfile.TemporaryDirectory() as room:
            put(room, files)
            done = subprocess.run([XCOLS, *words], cwd=room, stdout=write, stderr=subprocess.PIPE, timeout=600)
            os.close(write)
            tally.check(f"{name} into a closed pipe", (done.returncode, done.stderr) == (141, b""), f"{done.returncode} {done.stderr}")
    # The file that is passed over is named on standard error.
    for shell in ("2>/dev/full", "2>&-"):
        done, found = output_of(files, gather + ["none"], shell)
        tally.check(f"gather {shell}", done.returncode == 1 and not done.stdout
                    and all(found[path] == data for path, data in files.items()), f"{done.returncode} {done.stdout}")


# ---- a file that changes between its two readings

def change_between(files):
    more = files["s/n.csv"] + b"5,q\n"
    fewer = files["s/n.csv"][:-8]
    for name, other, line in (("grows", more, "xcols: load 8\n"), ("shrinks", fewer, "xcols: load 9\n")):
        given = files | {"s/other": other}
        done, found = over(given, ["load", "s", "--load", "7", "--rows", "2"], SWAP="s/n.csv", FOR="s/other")
        tally.check(f"a file that {name}", (done.returncode, done.stderr.decode(), done.stdout) == (1, line, b"")
                    and found == given, f"{done.returncode} {done.stderr} {sorted(found)}")


def main():
    load = ["load", "s", "--load", "7", "--rows", "2"]
    loaded = fail_each("load", TABLES, load)
    fail_each("load over another", loaded | {"s/n.csv": b"v,w\n7,x\n8,y\n9,z\n5,a\n"}, ["load", "s", "--load", "8", "--rows", "2"])
    fail_each("work", loaded, ["work", "s", "--query", QUERY, "--fragment", "0", "--out", "a0"])
    files = answered(loaded)
    gather = ["gather", "s", "--query", QUERY, "a0", "a1"]
    whole = ["whole", "s", "--query", QUERY, "--rows", "2"]
    fail_each("gather", files, gather + ["none"])
    fail_each("gather that saves", files, gather + ["--save", "state"])
    fail_each("gather with a preview", files, gather + ["--preview"])
    fail_each("gather with a journal", files, gather + ["--journal", "s/j"], journal=True)
    fail_each("whole", files, whole)
    close_outputs(files, gather, whole)
    change_between(TABLES)


with tempfile.TemporaryDirectory() as folder:
    SHIM = f"{folder}/calls.so"
    shutil.copy(f"{HERE}/calls.c.txt", f"{folder}/calls.c")
    subprocess.run(["cc", "-O2", "-shared", "-fPIC", "-o", SHIM, f"{folder}/calls.c", "-ldl"], check=True)
    main()
print(f"failing-ends: {tally.passed} passed, {tally.failed} failed")
sys.exit(tally.failed > 0)
