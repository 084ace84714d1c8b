#!/usr/bin/env python3
"""run.py PROGRAM [ROUNDS]: what a coordinator's journal costs. An append of a small answer and of one of some 100 KB, in a file
and in a file in memory (/dev/shm), beside two writes of `dd oflag=dsync` of as many bytes, which is what an append is: the least
of ROUNDS (5) of 64 appends each. Then opening a journal of 8,192 records, beside SHA-256 over as many bytes."""
import hashlib
import os
import shutil
import subprocess
import sys
import tempfile
import time
from concurrent.futures import ThreadPoolExecutor

PROGRAM = os.path.abspath(sys.argv[1])
ROUNDS = int(sys.argv[2]) if len(sys.argv) > 2 else 5
FRAGMENTS, RECORDS = 64, 8192


def run(*words):
    done = subprocess.run([PROGRAM, *words], stdout=subprocess.DEVNULL, stderr=subprocess.PIPE, check=False)
    if done.returncode not in (0, 4):
        sys.exit(f"{words[0]}: {done.returncode} {done.stderr.decode()}")


def seconds(call):
    begun = time.perf_counter()
    call()
    return time.perf_counter() - begun


def least(call):
    return min(seconds(call) for _ in range(ROUNDS))


def tables(folder, fragments, rows):
    """A table of so many fragments of so many rows, each row with a key of its own."""
    os.makedirs(folder)
    with open(f"{folder}/catalog.txt", "w") as out:
        out.write("fact n\ncol k int\ncol v int\n")
    write_rows(folder, fragments * rows, 1)
    load(folder, rows)
    return folder


def write_rows(folder, count, value):
    with open(f"{folder}/n.csv", "w") as out:
        out.write("k,v\n")
        out.writelines(f"{k},{value}\n" for k in range(count))


def load(folder, rows):
    run("load", folder, "--load", "1", "--rows", str(rows))


def answers(folder, query, fragments, name):
    def work(k):
        run("work", folder, "--query", query, "--fragment", str(k), "--out", f"{folder}/{name}{k}")
        return f"{folder}/{name}{k}"

    with ThreadPoolExecutor(os.cpu_count()) as pool:
        return list(pool.map(work, range(fragments)))


def written(place, size):
    """So many writes of this size, each on the disk before the next, and as many of a byte."""
    for bytes_of in (size, 1):
        words = ["dd", "if=/dev/zero", f"of={place}/dd", f"bs={bytes_of}", f"count={FRAGMENTS}", "oflag=dsync", "status=none"]
        subprocess.run(words, check=True)


def appended(folder, query, files, place):
    if os.path.exists(f"{place}/journal"):
        os.remove(f"{place}/journal")
    run("gather", folder, "--query", query, "--journal", f"{place}/journal", *files)


def appends(room, name, query, rows):
    folder = tables(f"{room}/{name}", FRAGMENTS, rows)
    files = answers(folder, query, FRAGMENTS, "a")
    size = os.path.getsize(files[0])
    for words, place in (("a file", room), ("in memory", tempfile.mkdtemp(dir="/dev/shm"))):
        without = least(lambda: run("gather", folder, "--query", query, *files))
        kept = least(lambda: appended(folder, query, files, place))
        beside = least(lambda: written(place, size))
        each, two = (kept - without) / FRAGMENTS, beside / FRAGMENTS
        print(f"append of {size} bytes, {words}: {each * 1e6:.0f} us, dd {two * 1e6:.0f} us, {each / two:.2f} times", flush=True)
        if place != room:
            shutil.rmtree(place)


def records(room):
    """A journal with two records a fragment."""
    fragments = RECORDS // 2
    folder = tables(f"{room}/many", fragments, 1)
    query = "SELECT SUM(v) FROM n"
    files = answers(folder, query, fragments, "a")
    write_rows(folder, fragments, 2)
    load(folder, 1)
    files += answers(folder, query, fragments, "b")
    with open(f"{room}/records", "wb") as out:
        out.write(b"XGJ1")
        for path in files:
            spelled = open(path, "rb").read()
            out.write(b"\1" + len(spelled).to_bytes(4, "little") + spelled)
        out.write(b"\0")
    return folder, query, f"{room}/records"


def opening(room):
    folder, query, journal = records(room)
    given = open(journal, "rb").read()
    opened = least(lambda: run("gather", folder, "--query", query, "--journal", journal, os.devnull))
    hashed = least(lambda: hashlib.sha256(given).digest())
    print(f"open of {RECORDS} records, {len(given)} bytes: {opened:.2f} s; SHA-256 by this Python: {hashed:.2f} s")


with tempfile.TemporaryDirectory() as room:
    appends(room, "small", "SELECT COUNT(*) FROM n", 2)
    appends(room, "large", "SELECT k, SUM(v) FROM n GROUP BY k", 3000)
    opening(room)
