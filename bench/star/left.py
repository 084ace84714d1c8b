#!/usr/bin/env python3
"""left.py PROGRAM DIR [ROUNDS]: runs `work` over the star of `generate.py` in DIR by turns for the queries of left_queries.txt,
which have LEFT JOIN, and those of queries.txt of the same names, which have inner joins. Prints the least seconds of both, and
the median of the ratios of the turns. What both print is compared."""
import pathlib
import statistics
import subprocess
import sys
import tempfile
import time

HERE = pathlib.Path(__file__).resolve().parent


def queries(name):
    return dict(line.split("|", 1) for line in (HERE / name).read_text().splitlines())


def run(words):
    begun = time.monotonic()
    done = subprocess.run(words, capture_output=True, check=False)
    if done.returncode:
        sys.exit(f"{words}: {done.returncode} {done.stderr.decode()}")
    return time.monotonic() - begun, done.stdout


def main():
    program, folder = sys.argv[1], sys.argv[2]
    rounds = int(sys.argv[3]) if len(sys.argv) > 3 else 9
    run([program, "load", folder, "--load", "1", "--rows", "1048576"])
    inner = queries("queries.txt")
    for name, left in queries("left_queries.txt").items():
        pair = [inner[name], left]
        times, ratios, printed = [[], []], [], []
        with tempfile.TemporaryDirectory() as room:
            for _ in range(rounds):
                for at, query in enumerate(pair):
                    words = [program, "work", folder, "--query", query, "--fragment", "0", "--out", f"{room}/{at}"]
                    times[at].append(run(words)[0])
                ratios.append(times[1][-1] / times[0][-1])
            for at, query in enumerate(pair):
                printed.append(run([program, "gather", folder, "--query", query, f"{room}/{at}"])[1])
        if printed[0] != printed[1]:
            sys.exit(f"{name}: the answers differ")
        print(f"{name}: inner {min(times[0]):.4f} s, left {min(times[1]):.4f} s, {statistics.median(ratios):.2f}", flush=True)


main()
