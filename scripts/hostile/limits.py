#!/usr/bin/env python3
"""limits.py XCOLS [CASES]: each limit once with ample memory, through the built programs, since a call that answers want of memory
at an odd size is proved too. What must come out is counted here by hand. The last line counts the checks."""
import concurrent.futures
import os
import random
import subprocess
import sys
import tempfile

from formats import DICT, FRAME, INT, PLAIN, RUNS, TEXT, judged_fragment

XCOLS, CASES = [*map(os.path.abspath, sys.argv[1:3]), None][:2]
MOST_ROWS = 1_048_576
passed = failed = 0


def check(name, good, said=""):
    global passed, failed
    passed, failed = passed + bool(good), failed + (not good)
    print(f"limits: {name}: {'passed' if good else 'FAILED ' + str(said)[:300]}", flush=True)


def xcols(*words):
    done = subprocess.run([XCOLS, *words], stdout=subprocess.PIPE, stderr=subprocess.PIPE)
    return done.returncode, done.stdout.decode(), done.stderr.decode()


def put(name, text):
    os.makedirs(os.path.dirname(name) or ".", exist_ok=True)
    with open(name, "w") as file:
        file.writelines(text)


def answers(folder, query, count):
    paths = [f"{folder}/a{k}" for k in range(count)]
    with concurrent.futures.ThreadPoolExecutor(os.cpu_count()) as pool:
        done = pool.map(lambda k: xcols("work", folder, "--query", query, "--fragment", str(k), "--out", paths[k]), range(count))
    check(f"{count} answers of {folder}", all(ended == (0, "", "") for ended in done))
    return paths


def gathered(folder, query, count):
    return xcols("gather", folder, "--query", query, *answers(folder, query, count))


# ---- 4,096 fragments

def fragments():
    put("many/catalog.txt", "fact n\ncol v int\n")
    put("many/n.csv", ["v\n"] + [f"{v}\n" for v in range(4096)])
    loaded = xcols("load", "many", "--load", "7", "--rows", "1")
    check("a load of 4,096 fragments", loaded == (0, "loaded 4096 rows in 4096 fragments\n", ""), loaded)
    query = "SELECT COUNT(*), SUM(v) FROM n"
    printed = gathered("many", query, 4096)
    check("4,096 answers gathered", printed == (0, "c1,c2\n4096,8386560\n", ""), printed)
    put("many/n.csv", ["v\n"] + ["1\n"] * 4097)
    refused = xcols("load", "many", "--load", "7", "--rows", "1")
    check("4,097 fragments", refused == (1, "", "xcols: cut 2\n"), refused)
    if CASES is None:
        print("limits: 4,096 fragments in one call: skipped, the program `cases` isn't there")
        return
    # In memory: a cut of 4,096 fragments is loaded, answered and gathered by one call.
    with open("whole.case", "w") as file:
        file.write("file s/catalog.txt\nfact n\ncol v int\n\nescaped s/n.csv\nv\\n\n*4096 1\\n\n\n")
        file.write(f'whole s {",".join(["1"] * 4096)} 1024 "SELECT COUNT(*), SUM(v) FROM n"\n----\nout c1,c2\nout 4096,4096\n')
        text = "SELECT COUNT(*), SUM(v) FROM n"
        # The state has for each fragment its length, a tag, a body of one group of two aggregates, and its own tag.
        size = 56 + 4 * 4096 + len(text) + 2 * 2 + 4096 * (1 + 5 + 4 + 4 + 20)
        file.write(f"rows, state of {size} bytes\n")
    done = subprocess.run([CASES, "whole.case"], stdout=subprocess.PIPE, stderr=subprocess.PIPE)
    check("4,096 fragments in one call", done.returncode == 0, done.stdout[-300:])


# ---- 1,048,576 rows, files of over 100 MB, a group of all rows, and a dimension of as many

def rows():
    put("rows/catalog.txt", "fact n\ncol v int\ncol t text\ndim d key k\ncol k int\ncol r text\n")
    texts = (f"{v},{v * 2654435761 % 2 ** 32:0100}\n" for v in range(MOST_ROWS))
    put("rows/n.csv", ["v,t\n"])
    with open("rows/n.csv", "a") as file:
        file.writelines(texts)
    put("rows/d.csv", ["k,r\n"])
    with open("rows/d.csv", "a") as file:
        file.writelines(f"{v},{v * 40503 % 2 ** 32:0100}\n" for v in range(MOST_ROWS))
    loaded = xcols("load", "rows", "--load", "7", "--rows", str(MOST_ROWS))
    check("a load of 1,048,576 rows", loaded == (0, f"loaded {MOST_ROWS} rows in 1 fragments\n", ""), loaded)
    sizes = [os.path.getsize(f"rows/{name}.xcf") for name in ("n.0", "d")]
    check("files of over 100 MB", min(sizes) > 100_000_000, sizes)
    greatest = max(v * 2654435761 % 2 ** 32 for v in range(MOST_ROWS))
    query = "SELECT COUNT(t), MAX(t), SUM(v), AVG(v) FROM n"
    printed = gathered("rows", query, 1)
    total = MOST_ROWS * (MOST_ROWS - 1) // 2
    wanted = f"c1,c2,c3,c4\n{MOST_ROWS},{greatest:0100},{total},{total // MOST_ROWS}\n"
    check("a group of 1,048,576 rows, row group by row group", printed == (0, wanted, ""), printed)
    query = "SELECT COUNT(r), MAX(r) FROM n JOIN d ON v = k"
    greatest = max(v * 40503 % 2 ** 32 for v in range(MOST_ROWS))
    printed = gathered("rows", query, 1)
    check("a dimension of over 100 MB", printed == (0, f"c1,c2\n{MOST_ROWS},{greatest:0100}\n", ""), printed)
    with open("rows/d.csv", "a") as file:
        file.write(f"{MOST_ROWS},x\n")
    refused = xcols("load", "rows", "--load", "7", "--rows", str(MOST_ROWS))
    check("a dimension of a row more", refused == (1, "", "xcols: load 8\n"), refused)


# ---- a catalogue of over 1 MB

def catalogue():
    lines = ["# " + "x" * 1000 + "\n"] * 1100
    names = [f"c{i:063}" for i in range(64)]
    lines += ["fact n\n"] + [f"col {name}" + " " * 1000 + "int\n" for name in names]
    for d in range(16):
        lines += [f"dim d{d:063} key {names[0]}\n"] + [f"col {name} int{' null' if name != names[0] else ''}\n" for name in names]
    put("wide/catalog.txt", lines)
    put("wide/n.csv", [",".join(names) + "\n"] + [",".join(str(i) for i in range(64)) + "\n"])
    for d in range(16):
        put(f"wide/d{d:063}.csv", [",".join(names) + "\n"])
    check("a catalogue of over 1 MB", os.path.getsize("wide/catalog.txt") > 1_000_000)
    loaded = xcols("load", "wide", "--load", "7", "--rows", "1")
    check("17 tables of 64 columns with names of 64 bytes", loaded == (0, "loaded 1 rows in 1 fragments\n", ""), loaded)
    printed = gathered("wide", f"SELECT SUM({names[63]}) FROM n", 1)
    check("their last column", printed == (0, "c1\n63\n", ""), printed)


# ---- 1,000 entries, summed and evaluated, of each kind, in one fragment and in seven

def entries():
    values = [(i * 7919 + 13) % 1000 - 500 for i in range(1000)]
    words = [f"w{value + 500:04}" for value in values]
    put("sums/catalog.txt", "fact n\ncol g int\ncol v int null\ncol t text null\n")
    put("sums/n.csv", ["g,v,t\n"] + [f"{i % 3},{v},{w}\n" for i, (v, w) in enumerate(zip(values, words))])
    query = ("SELECT g, COUNT(*), COUNT(v), SUM(v), MIN(v), MAX(v), AVG(v), COUNT(t), MIN(t), MAX(t) FROM n GROUP BY g ORDER BY g")
    wanted = "g,c2,c3,c4,c5,c6,c7,c8,c9,c10\n"
    for g in range(3):
        of, texts = values[g::3], words[g::3]
        # The average is cut off towards zero.
        average = int(sum(of) / len(of))
        wanted += f"{g},{len(of)},{len(of)},{sum(of)},{min(of)},{max(of)},{average},{len(of)},{min(texts)},{max(texts)}\n"
    for length, count in ((1000, 1), (143, 7)):
        loaded = xcols("load", "sums", "--load", "7", "--rows", str(length))
        printed = gathered("sums", query, count)
        check(f"1,000 entries of each kind in {count} fragments", printed == (0, wanted, ""), (loaded, printed))
    # Several states in one call: each of a part of the answers, and a state of states.
    for k in range(7):
        xcols("gather", "sums", "--query", query, "--save", f"sums/s{k}", f"sums/a{k}", f"sums/a{(k + 1) % 7}")
    printed = xcols("gather", "sums", "--query", query, *[f"sums/s{k}" for k in range(7)])
    check("seven states merged in one call", printed == (0, wanted, ""), printed)


# ---- a block of 8,192 rows of each kind

def blocks():
    numbers = random.Random(1)
    columns = {
        "plain": (PLAIN, INT, [numbers.getrandbits(64) - 2 ** 63 for _ in range(8192)]),
        "dict": (DICT, INT, [(1 << 40) * (i * 7919 % 7) for i in range(8192)]),
        "runs": (RUNS, INT, [(i // 512) * (1 << 40) for i in range(8192)]),
        "frame": (FRAME, INT, [i * 7919 % 1000 for i in range(8192)]),
        "plain_text": (PLAIN, TEXT, [f"{i * 7919 % 8192:09}".encode() for i in range(8192)]),
        "dict_text": (DICT, TEXT, [f"word{i * 7919 % 5}".encode() for i in range(8192)]),
        "runs_text": (RUNS, TEXT, [f"word{i // 512}".encode() for i in range(8192)]),
    }
    lines = "".join(f"col {name}_c {'int' if of == INT else 'text'}\n" for name, (_, of, _) in columns.items())
    put("blocks/catalog.txt", "fact n\n" + lines)
    shown = [[v.decode() if isinstance(v, bytes) else str(v) for v in values] for _, _, values in columns.values()]
    put("blocks/n.csv", [",".join(f"{name}_c" for name in columns) + "\n"] + [",".join(row) + "\n" for row in zip(*shown)])
    loaded = xcols("load", "blocks", "--load", "7", "--rows", "8192")
    check("a load of 8,192 rows", loaded == (0, "loaded 8192 rows in 1 fragments\n", ""), loaded)
    with open("blocks/n.0.xcf", "rb") as file:
        said, _ = judged_fragment(file.read())
    lines = said.split("\n")[9:]
    for (name, (_, of, values)), line in zip(columns.items(), lines):
        wanted = name.split("_")[0] + "".join(f" {v}" if of == INT else f" '{v.decode()}'" for v in values)
        check(f"a block of 8,192 rows, {name}", line == wanted, line[:60])
    query = "SELECT " + ", ".join(f"MIN({name}_c), MAX({name}_c), COUNT({name}_c)" for name in columns) + " FROM n"
    wanted = ",".join(f"{min(row)},{max(row)},8192" if of == TEXT else f"{min(map(int, row))},{max(map(int, row))},8192"
                      for row, (_, of, _) in zip(shown, columns.values()))
    printed = gathered("blocks", query, 1)
    check("their least and greatest values", printed[0] == 0 and printed[1].split("\n")[1] == wanted, printed)


with tempfile.TemporaryDirectory(dir="/dev/shm" if os.access("/dev/shm", os.W_OK) else None) as room:
    os.chdir(room)
    for part in (fragments, rows, catalogue, entries, blocks):
        part()
    os.chdir("/")
print(f"limits: {passed} passed, {failed} failed")
sys.exit(failed > 0)
