#!/usr/bin/env python3
"""run.py PROGRAM DIR [ROUNDS]: measures `load`, and for each query of queries.txt `work`, `gather` and `whole`, beside sqlite3
over the same CSV files; prints seconds by the clock, the least and the median of ROUNDS (3), and the greatest memory in MB.
Each printed answer is held against sqlite's."""
import os
import statistics
import subprocess
import sys
import tempfile
import time

program, folder = sys.argv[1], sys.argv[2]
rounds = int(sys.argv[3]) if len(sys.argv) > 3 else 3
here = os.path.dirname(os.path.abspath(__file__))
rows = sum(1 for _ in open(f"{folder}/lineorder.csv")) - 1
TABLES = {
    "lineorder": "lo_orderkey int, lo_linenumber int, lo_custkey int, lo_partkey int, lo_suppkey int, lo_orderdate int, lo_quantity int, lo_extendedprice int, lo_discount int, lo_revenue int, lo_supplycost int, lo_shipmode text",
    "date": "d_datekey integer primary key, d_year int, d_yearmonthnum int, d_weeknuminyear int",
    "customer": "c_custkey integer primary key, c_city text, c_nation text, c_region text",
    "supplier": "s_suppkey integer primary key, s_city text, s_nation text, s_region text",
    "part": "p_partkey integer primary key, p_mfgr text, p_category text, p_brand1 text",
}


def measured(words, given=None):
    times, memory, printed = [], 0, b""
    for _ in range(rounds):
        with tempfile.TemporaryFile() as out, tempfile.TemporaryFile() as told:
            begun = time.monotonic()
            child = subprocess.Popen(words, stdin=subprocess.PIPE, stdout=out, stderr=told)
            if given is not None:
                child.stdin.write(given.encode())
            child.stdin.close()
            _, status, used = os.wait4(child.pid, 0)
            times.append(time.monotonic() - begun)
            memory = max(memory, used.ru_maxrss / 1024)
            out.seek(0)
            printed = out.read()
            told.seek(0)
            if status:
                sys.exit(f"{words}: {status} {told.read().decode()}")
    return times, memory, printed


def line(name, times, memory):
    print(f"{name:28} {min(times):7.3f} {statistics.median(times):7.3f} s {memory:7.0f} MB", flush=True)


def table_rows(printed):
    return [record.split(b",") for record in printed.replace(b"\r", b"").split(b"\n")[1:] if record]


line("load", *measured([program, "load", folder, "--load", "1", "--rows", str(rows)])[:2])
answer = tempfile.mktemp()
line("work, no column used", *measured([program, "work", folder, "--query", "SELECT COUNT(*) FROM lineorder", "--fragment", "0", "--out", answer])[:2])
schema = "".join(f"CREATE TABLE {name} ({columns});\n" for name, columns in TABLES.items())
imports = "".join(f".import --skip 1 {folder}/{name}.csv {name}\n" for name in TABLES)
for stated in open(f"{here}/queries.txt"):
    name, query = stated.rstrip("\n").split("|", 1)
    line(f"{name} work", *measured([program, "work", folder, "--query", query, "--fragment", "0", "--out", answer])[:2])
    times, memory, gathered = measured([program, "gather", folder, "--query", query, answer])
    line(f"{name} gather", times, memory)
    times, memory, whole = measured([program, "whole", folder, "--query", query, "--rows", str(rows)])
    line(f"{name} whole", times, memory)
    times, memory, theirs = measured(["sqlite3", ":memory:"], f"{schema}.mode csv\n{imports}.headers on\n{query};\n")
    line(f"{name} sqlite3", times, memory)
    if gathered != whole or table_rows(whole) != table_rows(theirs.replace(b'"', b"")):
        sys.exit(f"{name}: the answers differ")
