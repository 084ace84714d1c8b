#!/usr/bin/env python3
"""gate.py [DIR]: clones this repository into DIR (a temporary folder if none is named), builds the program there as its first
use does, and then runs the whole gate. Prints what each crate cost: processor seconds of its proof, its tests and its edits,
by samples of the processes that check them. Edits begin with a proof of their own, which a crate with one edit alone goes
without. Of each part, the time by the clock and all processor time, as the system counts it. Where `rt` keeps what passed, the
gate takes over what the first build proved, so both together are one run, if the machine kept nothing before: what `rt` says
last tells. Nothing else should run beside it. Stopped by an interrupt, it prints what it has seen so far."""
import collections
import os
import resource
import signal
import subprocess
import sys
import tempfile
import time

top = os.path.dirname(os.path.dirname(os.path.abspath(__file__)))
folder = sys.argv[1] if len(sys.argv) > 1 else tempfile.mkdtemp(prefix="gate-")
tick = os.sysconf("SC_CLK_TCK")
kinds = ["proof", "tests", "proof for edits", "edits"]
seen = {}


def kind_of(cwd, words):
    if "rt-edit" not in cwd:
        return "tests" if "--test" in words else "proof"
    kept = words[words.index("--incremental") + 1] if "--incremental" in words else ""
    return "proof for edits" if kept.endswith("/seed") else "edits"


def sample():
    for number in filter(str.isdigit, os.listdir("/proc")):
        try:
            words = open(f"/proc/{number}/cmdline").read().split("\0")
            if os.path.basename(words[0]) != "rattle" or "--crate-name" not in words:
                continue
            crate = words[words.index("--crate-name") + 1]
            cwd = os.readlink(f"/proc/{number}/cwd")
            fields = open(f"/proc/{number}/stat").read().rpartition(")")[2].split()
        except (OSError, ValueError):
            continue
        # The process's own time. Copies of itself that check beside it are processes of their own.
        seen[number, fields[19]] = (crate, kind_of(cwd, words), sum(int(field) for field in fields[11:13]) / tick)


def measure(name, words):
    """Runs a command in the clone, and prints what it took. Returns its status."""
    begun, before = time.monotonic(), resource.getrusage(resource.RUSAGE_CHILDREN)
    with open(f"{folder}.{name.replace(' ', '-')}.log", "w") as log:
        ran = subprocess.Popen(words, cwd=folder, stdout=log, stderr=subprocess.STDOUT, stdin=subprocess.DEVNULL, start_new_session=True)
        try:
            while ran.poll() is None:
                sample()
                time.sleep(0.3)
        except KeyboardInterrupt:
            os.killpg(ran.pid, signal.SIGTERM)
            ran.wait()
    taken, used = time.monotonic() - begun, resource.getrusage(resource.RUSAGE_CHILDREN)
    user, system = used.ru_utime - before.ru_utime, used.ru_stime - before.ru_stime
    print(f"{name}: {taken / 60:.1f} minutes by the clock; processor minutes: {user / 60:.1f} of user time, {system / 60:.1f} of system time")
    print(subprocess.run(["tail", "-n", "2", log.name], capture_output=True, text=True).stdout, end="", flush=True)
    return ran.returncode


def print_table():
    costs = collections.defaultdict(collections.Counter)
    for crate, kind, seconds in seen.values():
        costs[crate][kind] += seconds
    print(f"| Crate | {' | '.join(kind.capitalize() for kind in kinds)} | Together |\n|{'---|' * (len(kinds) + 2)}")
    for line in open(f"{folder}/crates.txt"):
        crate = line.partition(":")[0].strip()
        if crate in costs:
            row = costs[crate]
            print(f"| `{crate}` | {' | '.join(f'{row[kind]:.0f}' for kind in kinds)} | {sum(row.values()):.0f} |")
    total = {kind: sum(row[kind] for row in costs.values()) / 60 for kind in kinds}
    print(", ".join(f"{kind} {minutes:.1f}" for kind, minutes in total.items()), "minutes, by the samples")


subprocess.run(["git", "clone", "-q", top, folder], check=True)
query = ["whole", "examples/sales", "--query", "SELECT SUM(q) FROM sales", "--rows", "2"]
status = measure("first build", ["./xcols", *query]) or measure("gate", [".ci/run"])
print_table()
sys.exit(status)
