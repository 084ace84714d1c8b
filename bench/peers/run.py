#!/usr/bin/env python3
"""run.py PROGRAM DIR [ROUNDS]: the star's queries by xcols, over the files that `load` wrote, and by sqlite over a database of its
own, each cold (the machine's cached files were dropped, which wants root) and warm. Writes comma-separated seconds on standard
output: the median of ROUNDS (5) cold runs, the least of ROUNDS warm ones. DIR has the tables of bench/star/generate.py; it is
loaded, and the database is made, where they aren't there yet. The rows of both are compared."""
import csv
import os
import sqlite3
import statistics
import subprocess
import sys
import tempfile
import time

PROGRAM, FOLDER = os.path.abspath(sys.argv[1]), sys.argv[2]
ROUNDS = int(sys.argv[3]) if len(sys.argv) > 3 else 5
HERE = os.path.dirname(os.path.abspath(__file__))
DATABASE = f"{FOLDER}/star.sqlite"
QUERIES = [line.rstrip("\n").split("|", 1) for line in open(f"{HERE}/../star/queries.txt")]


def load():
    if not os.path.exists(f"{FOLDER}/cut.xcl"):
        subprocess.run([PROGRAM, "load", FOLDER, "--load", "1", "--rows", "1048576"], check=True, stdout=subprocess.DEVNULL)
    if os.path.exists(DATABASE):
        return
    base = sqlite3.connect(DATABASE)
    for name in ("lineorder", "date", "customer", "supplier", "part"):
        with open(f"{FOLDER}/{name}.csv", newline="") as file:
            records = csv.reader(file)
            header, first = next(records), next(records)
            kinds = ["INTEGER" if field.lstrip("-").isdigit() else "TEXT" for field in first]
            key = "" if name == "lineorder" else " PRIMARY KEY"
            columns = ", ".join(f"{column} {kind}{key if at == 0 else ''}" for at, (column, kind) in enumerate(zip(header, kinds)))
            base.execute(f"CREATE TABLE {name} ({columns})")
            insert = f"INSERT INTO {name} VALUES ({', '.join('?' * len(header))})"
            base.execute(insert, first)
            base.executemany(insert, records)
    base.execute("ANALYZE")
    base.commit()
    base.close()


def by_xcols(query):
    with tempfile.TemporaryDirectory() as room:
        fragments = len([name for name in os.listdir(FOLDER) if name.startswith("lineorder.") and name.endswith(".xcf")])
        answers = [f"{room}/{k}" for k in range(fragments)]
        for k, answer in enumerate(answers):
            subprocess.run([PROGRAM, "work", FOLDER, "--query", query, "--fragment", str(k), "--out", answer], check=True)
        done = subprocess.run([PROGRAM, "gather", FOLDER, "--query", query, *answers], check=True, stdout=subprocess.PIPE)
    return done.stdout.split(b"\n")[1:-1]


def by_sqlite(query):
    done = subprocess.run(["sqlite3", "-csv", DATABASE, query], check=True, stdout=subprocess.PIPE)
    return done.stdout.replace(b"\r", b"").replace(b'"', b"").split(b"\n")[:-1]


def seconds(program, query):
    begun = time.perf_counter()
    rows = program(query)
    return time.perf_counter() - begun, rows


def cold(program, query):
    times = []
    for _ in range(ROUNDS):
        subprocess.run(["sync"], check=True)
        with open("/proc/sys/vm/drop_caches", "w") as caches:
            caches.write("3")
        times.append(seconds(program, query)[0])
    return statistics.median(times)


load()
out = csv.writer(sys.stdout)
out.writerow(["query", "program", "cold", "warm"])
for name, query in QUERIES:
    found = {}
    for word, program in (("xcols", by_xcols), ("sqlite", by_sqlite)):
        first = cold(program, query) if os.geteuid() == 0 else float("nan")
        warm = min(seconds(program, query)[0] for _ in range(ROUNDS))
        found[word] = sorted(program(query))
        out.writerow([name, word, f"{first:.3f}", f"{warm:.3f}"])
        sys.stdout.flush()
    if found["xcols"] != found["sqlite"]:
        sys.exit(f"{name}: the answers differ")
