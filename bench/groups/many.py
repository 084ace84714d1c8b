#!/usr/bin/env python3
"""many.py PROGRAM DIR [ROUNDS]: queries of many groups over 1,000,000 rows, ordered and cut to ten, by an integer and by three
texts: four workers at once, the gather of their answers, and sqlite over a database of its own. Writes comma-separated seconds
(the least of ROUNDS, 3) and peaks of memory in MB on standard output, a line for each number of groups of each query. Needs
Debian's `time`. The rows of both are compared."""
import csv
import os
import random
import sqlite3
import subprocess
import sys
import tempfile
import time

PROGRAM, FOLDER = os.path.abspath(sys.argv[1]), sys.argv[2]
ROUNDS = int(sys.argv[3]) if len(sys.argv) > 3 else 3
ROWS, FRAGMENTS = 1_000_000, 4
# A query's name, its text, the columns of its keys, and the numbers of its groups.
QUERIES = [
    (
        "integer",
        "SELECT orderkey, SUM(revenue) AS total, MAX(quantity) AS most FROM orders "
        "GROUP BY orderkey ORDER BY total DESC, orderkey LIMIT 10",
        {"orderkey": "int"},
        (100, 1_000, 10_000, 100_000, 250_000),
    ),
    (
        "texts",
        "SELECT city, brand, mode, SUM(revenue) AS total, MAX(quantity) AS most FROM orders "
        "GROUP BY city, brand, mode ORDER BY total DESC, city, brand, mode LIMIT 10",
        {"city": "text", "brand": "text", "mode": "text"},
        (100_000,),
    ),
]


def key(keys, group):
    """The key of a group: its number, or three texts of which each has as many values as the others."""
    if "orderkey" in keys:
        return (group,)
    return f"CITY {group // 2_500:04}", f"BRAND#{group // 50 % 50:04}", f"MODE {group % 50:04}"


def generate(keys, groups):
    """A table of 1,000,000 rows with so many different keys, and a database of the same rows."""
    os.makedirs(FOLDER, exist_ok=True)
    random.seed(groups)
    with open(f"{FOLDER}/catalog.txt", "w") as out:
        columns = "".join(f"col {name} {kind}\n" for name, kind in {**keys, "revenue": "int", "quantity": "int"}.items())
        out.write(f"fact orders\n{columns}")
    rows = [(*key(keys, row * groups // ROWS), random.randrange(1_000_000), random.randint(1, 50)) for row in range(ROWS)]
    with open(f"{FOLDER}/orders.csv", "w") as out:
        out.write(",".join([*keys, "revenue", "quantity"]) + "\n")
        out.writelines(",".join(map(str, row)) + "\n" for row in rows)
    database = f"{FOLDER}/orders.sqlite"
    if os.path.exists(database):
        os.remove(database)
    base = sqlite3.connect(database)
    declared = ", ".join(f"{name} {'INTEGER' if kind == 'int' else 'TEXT'}" for name, kind in keys.items())
    base.execute(f"CREATE TABLE orders ({declared}, revenue INTEGER, quantity INTEGER)")
    base.executemany(f"INSERT INTO orders VALUES ({', '.join('?' * (len(keys) + 2))})", rows)
    base.commit()
    base.close()
    words = [PROGRAM, "load", FOLDER, "--load", "1", "--rows", str(ROWS // FRAGMENTS)]
    subprocess.run(words, check=True, stdout=subprocess.DEVNULL)
    return database


def run_all(commands):
    """Runs them at once: the seconds until all have ended, the greatest memory, and what the last printed."""
    with tempfile.TemporaryDirectory() as room, open(f"{room}/out", "w+b") as out:
        # A child of this process would count its memory too, so that one of Debian's `time` stands between.
        watched = [["/usr/bin/time", "-f", "%M", "-o", f"{room}/{at}", *words] for at, words in enumerate(commands)]
        begun = time.perf_counter()
        children = [subprocess.Popen(words, stdout=out) for words in watched]
        statuses = [child.wait() for child in children]
        seconds = time.perf_counter() - begun
        if any(statuses):
            sys.exit(f"statuses {statuses}")
        memory = max(int(open(f"{room}/{at}").read()) / 1024 for at in range(len(watched)))
        out.seek(0)
        return seconds, memory, out.read()


def least(commands):
    runs = [run_all(commands) for _ in range(ROUNDS)]
    return min(run[0] for run in runs), max(run[1] for run in runs), runs[-1][2]


out = csv.writer(sys.stdout)
out.writerow(["keys", "groups", "work", "work_memory", "gather", "gather_memory", "sqlite", "sqlite_memory"])
for name, query, keys, groups in [(name, query, keys, groups) for name, query, keys, sizes in QUERIES for groups in sizes]:
    database = generate(keys, groups)
    answers = [f"{FOLDER}/{k}.xga" for k in range(FRAGMENTS)]
    each = [[PROGRAM, "work", FOLDER, "--query", query, "--fragment", str(k), "--out", answer] for k, answer in enumerate(answers)]
    work = least(each)
    gather = least([[PROGRAM, "gather", FOLDER, "--query", query, *answers]])
    theirs = least([["sqlite3", "-csv", database, query]])
    # sqlite quotes a text with a blank, which needs no quotes.
    if gather[2].split(b"\n")[1:] != theirs[2].replace(b"\r", b"").replace(b'"', b"").split(b"\n"):
        sys.exit(f"{name}, {groups} groups: the answers differ")
    out.writerow([name, groups, *(cell for run in (work, gather, theirs) for cell in (f"{run[0]:.3f}", f"{run[1]:.0f}"))])
    sys.stdout.flush()
