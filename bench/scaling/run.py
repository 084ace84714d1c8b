#!/usr/bin/env python3
"""run.py PROGRAM DIR [ROWS [QUERY]]: how costs grow with the number of fragments. Where DIR has no tables, the star of
bench/star with ROWS rows (1,048,576) is generated in it. Loads it in 1, 4, 16, 64, 256, 1,024 and 4,096 fragments, answers a query fragment by fragment,
gathers at once and in a tree, and prints a row of each table of docs/SCALING.md for each number of fragments. Seconds are
those of the processor, of all runs together; sizes are bytes. The printed report is held against that of `whole`."""
import glob
import os
import resource
import subprocess
import sys

program, folder = sys.argv[1], sys.argv[2]
rows = int(sys.argv[3]) if len(sys.argv) > 3 else 1_048_576
query = sys.argv[4] if len(sys.argv) > 4 else (
    "SELECT lo_shipmode, d_year, COUNT(*), SUM(lo_revenue) FROM lineorder, date WHERE lo_orderdate = d_datekey "
    "GROUP BY lo_shipmode, d_year")
here = os.path.dirname(os.path.abspath(__file__))
answers = f"{folder}/answers"


def ran(*words, status=0):
    before = resource.getrusage(resource.RUSAGE_CHILDREN)
    done = subprocess.run([program, words[0], folder, *words[1:]], stdout=subprocess.PIPE)
    after = resource.getrusage(resource.RUSAGE_CHILDREN)
    if done.returncode != status:
        sys.exit(f"{words}: status {done.returncode}")
    return after.ru_utime + after.ru_stime - before.ru_utime - before.ru_stime, done.stdout


def size(*paths):
    return sum(os.path.getsize(path) for path in paths)


def removed(pattern):
    for path in glob.glob(pattern):
        os.remove(path)


# How many groups an answer has: the number stands behind the tag of the body.
def groups(path):
    with open(path, "rb") as file:
        answer = file.read()
    number = lambda at, width: int.from_bytes(answer[at:at + width], "little")
    at = 16 + number(12, 4)
    at += 4 + 4 * number(at, 4) + 4
    at += 2 + number(at, 2)
    at += 2 + 2 * number(at, 2)
    return number(at + 1, 4)


if not os.path.exists(f"{folder}/catalog.txt"):
    subprocess.run([sys.executable, f"{here}/../star/generate.py", folder, str(rows)], check=True)
os.makedirs(answers, exist_ok=True)
_, whole = ran("whole", "--query", query, "--rows", "1048576")
print(f"load average: {os.getloadavg()[0]:.1f}")
print("| fragments | files of the fact | cut.xcl | answers | of which cuts | groups merged | state "
      "| load, s | work, s | the slowest, s | gather, s | gather of 16ths, s |")
for fragments in [1, 4, 16, 64, 256, 1024, 4096]:
    if fragments > rows:
        break
    removed(f"{folder}/lineorder.*.xcf")
    removed(f"{answers}/*")
    loading, _ = ran("load", "--load", "1", "--rows", str(-(-rows // fragments)))
    paths = [f"{answers}/{k}.xga" for k in range(fragments)]
    each = [ran("work", "--query", query, "--fragment", str(k), "--out", path)[0] for k, path in enumerate(paths)]
    gathering, printed = ran("gather", "--query", query, "--save", f"{answers}/state", *paths)
    states = [f"{answers}/state.{k}" for k in range(min(16, fragments))]
    status = 4 if fragments > 1 else 0
    tree = sum(ran("gather", "--query", query, "--save", state, *paths[k::16], status=status)[0] for k, state in enumerate(states))
    joining, joined = ran("gather", "--query", query, *states)
    if not whole == printed == joined:
        sys.exit("the reports differ")
    cells = [
        fragments, size(*glob.glob(f"{folder}/lineorder.*.xcf")), size(f"{folder}/cut.xcl"), size(*paths), 4 * fragments ** 2,
        sum(map(groups, paths)), size(f"{answers}/state"),
    ]
    seconds = [loading, sum(each), max(each), gathering, tree + joining]
    print("| " + " | ".join([f"{cell:,}" for cell in cells] + [f"{second:.2f}" for second in seconds]) + " |", flush=True)
print(f"load average: {os.getloadavg()[0]:.1f}")
