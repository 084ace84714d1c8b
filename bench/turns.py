#!/usr/bin/env python3
"""turns.py ONE OTHER DIR [ROUNDS]: runs two builds of the program, ONE the older, by turns over the star of
`bench/star/generate.py` in DIR, which the older loads anew, and prints of each command the least seconds of both, and the median
of the ratios of the turns.

Measured are `work` over one fragment of the whole table, for the queries of bench/star and for conditions alone; `whole` in one
fragment and in 62; and `gather` of 4,096 answers of a table of 4,096 rows. What both print is compared, and answers between
their magic and their seal, since two builds may write different formats."""
import os
import pathlib
import statistics
import subprocess
import sys
import tempfile
import time

HERE = pathlib.Path(__file__).resolve().parent
CONDITIONS = {
    "no condition": "",
    "one of a dictionary": "WHERE lo_shipmode = 'AIR'",
    "LIKE": "WHERE lo_shipmode LIKE '%AI%'",
    "IN": "WHERE lo_shipmode IN ('AIR', 'MAIL', 'SHIP')",
    "integers": "WHERE lo_quantity < 25",
}


def queries():
    """The queries of bench/star by their names."""
    found = {}
    for line in (HERE / "star" / "queries.txt").read_text().splitlines():
        name, query = line.split("|", 1)
        found[name] = query
    return found


def seconds(words, out):
    with open(out, "wb") as printed:
        begun = time.monotonic()
        done = subprocess.run(words, stdout=printed, stderr=subprocess.PIPE, check=False)
        taken = time.monotonic() - begun
    if done.returncode:
        sys.exit(f"{words}: {done.returncode} {done.stderr.decode()}")
    return taken


def turns(name, programs, words, room, rounds, written=None):
    """Runs the words by each program in turn. `written` is a file whose bytes are compared too."""
    times = {program: [] for program in programs}
    ratios = []
    said = set()
    for _ in range(rounds):
        for program in programs:
            times[program].append(seconds([program, *words], room / "printed"))
            said.add((room / "printed").read_bytes() + (pathlib.Path(written).read_bytes()[4:-32] if written else b""))
        ratios.append(times[programs[1]][-1] / times[programs[0]][-1])
    if len(said) != 1:
        sys.exit(f"{name}: the programs differ")
    one, other = (min(times[program]) for program in programs)
    print(f"{name:34} {one:8.4f} {other:8.4f} s {statistics.median(ratios):6.2f}", flush=True)


def small_table(room):
    """A fact table of 4,096 rows with a key of 16 values."""
    folder = room / "small"
    folder.mkdir()
    (folder / "catalog.txt").write_text("fact n\ncol k int\ncol v int\n")
    (folder / "n.csv").write_text("k,v\n" + "".join(f"{row % 16},{row}\n" for row in range(4096)))
    return folder


def many_answers(programs, room, rounds):
    folder = small_table(room)
    query = "SELECT k, COUNT(*), SUM(v) FROM n GROUP BY k ORDER BY k"
    seconds([programs[0], "load", folder, "--load", "1", "--rows", "1"], room / "printed")
    answers = []
    for fragment in range(4096):
        answers.append(str(room / f"a{fragment}"))
        words = ["work", folder, "--query", query, "--fragment", str(fragment), "--out", answers[-1]]
        seconds([programs[0], *words], room / "printed")
    turns("gather of 4,096 answers", programs, ["gather", folder, "--query", query, *answers], room, rounds)


def main():
    programs, folder = [os.path.abspath(program) for program in sys.argv[1:3]], sys.argv[3]
    rounds = int(sys.argv[4]) if len(sys.argv) > 4 else 9
    with tempfile.TemporaryDirectory() as place:
        room = pathlib.Path(place)
        seconds([programs[0], "load", folder, "--load", "1", "--rows", "1048576"], room / "printed")
        measured = queries() | {
            name: f"SELECT COUNT(*) FROM lineorder {condition}" for name, condition in CONDITIONS.items()
        }
        answer = str(room / "answer")
        for name, query in measured.items():
            words = ["work", folder, "--query", query, "--fragment", "0", "--out", answer]
            turns(f"work, {name}", programs, words, room, rounds, answer)
        for rows in 1048576, 16384:
            for name, query in queries().items():
                words = ["whole", folder, "--query", query, "--rows", str(rows)]
                turns(f"whole, {name}, {-(-1000000 // rows)} fragments", programs, words, room, 3)
        many_answers(programs, room, rounds)


main()
