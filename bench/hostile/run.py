#!/usr/bin/env python3
"""run.py PROGRAM DIR [WORD..]: time and memory of inputs that are as long as they may be, or longer, each at a quarter, a half and
the whole of its size. DIR needs 3 GB. With words only the inputs whose names have one of them. Prints a row of the table in
docs/SCALING.md for each input: seconds of the processor and the peak of memory at the whole size, and by what they grew from the
half to it, where the input doubled."""
import os
import shutil
import subprocess
import sys

program, folder = os.path.abspath(sys.argv[1]), sys.argv[2]
wanted = sys.argv[3:]
CHUNK = 1 << 20


def put(name, *parts):
    os.makedirs(os.path.dirname(name) or ".", exist_ok=True)
    with open(name, "w") as file:
        for part in parts:
            file.writelines([part] if isinstance(part, str) else part)
    return os.path.getsize(name)


def repeated(text, size):
    """So many bytes of a text, in pieces."""
    piece = text * max(1, CHUNK // len(text))
    for at in range(0, size, len(piece)):
        yield piece[:size - at]


def measured(*words):
    """Seconds of the processor, the peak in MB, the status and the first words of what was printed."""
    read, write = os.pipe()
    child = subprocess.Popen([program, *words], stdout=write, stderr=write)
    os.close(write)
    said = b""
    with os.fdopen(read, "rb") as file:
        while piece := file.read(CHUNK):
            said += piece[:200 - len(said)]
    _, status, usage = os.wait4(child.pid, 0)
    child.returncode = os.waitstatus_to_exitcode(status)
    return usage.ru_utime + usage.ru_stime, usage.ru_maxrss / 1024, child.returncode, said.decode(errors="replace").split("\n")[0]


SMALL = "fact n\ncol v int\ncol t text\n"


def small():
    put("f/catalog.txt", SMALL)
    put("f/n.csv", "v,t\n1,a\n2,b\n")


def load():
    return ["load", "f", "--load", "7", "--rows", "1048576"]


def whole(query):
    return ["whole", "f", "--query", query, "--rows", "1048576"]


def field(size):
    put("f/catalog.txt", SMALL)
    return put("f/n.csv", "v,t\n1,", repeated("x", size)), load()


def quoted_field(size):
    put("f/catalog.txt", SMALL)
    return put("f/n.csv", 'v,t\n1,"', repeated("x\n", size)), load()


def fields(size):
    put("f/catalog.txt", SMALL)
    return put("f/n.csv", "v,t\n1", repeated(",", size)), load()


def catalogue_line(size):
    put("f/n.csv", "v,t,w\n1,a,5\n2,b,6\n")
    return put("f/catalog.txt", SMALL, "col w", repeated(" ", size), "int\n"), whole("SELECT COUNT(*) FROM n")


def catalogue_word(size):
    small()
    return put("f/catalog.txt", SMALL, "col ", repeated("w", size), " int\n"), whole("SELECT COUNT(*) FROM n")


def catalogue_lines(size):
    small()
    return put("f/catalog.txt", repeated("#\n", size), SMALL), whole("SELECT COUNT(*) FROM n")


def query_of(front, piece, end):
    def make(size):
        small()
        query = front + piece * ((size - len(front) - len(end)) // len(piece))
        return len(query) + len(end), whole(query + end)
    return make


def brackets(count):
    small()
    query = "SELECT " + "(" * count + "v" + ")" * count + " FROM n"
    return count, whole(query)


def keys(count):
    names = [f"k{i}" for i in range(count)]
    put("f/catalog.txt", "fact n\n", (f"col {name} int\n" for name in names))
    put("f/n.csv", ",".join(names) + "\n", (",".join(str(i * 7919 % 65521 + j) for j in range(count)) + "\n" for i in range(50_000)))
    listed = ", ".join(names)
    return count, whole(f"SELECT {listed}, COUNT(*) FROM n GROUP BY {listed}" + " LIMIT 1")


def joins(count):
    rows = 1_048_576
    dims = "".join(f"dim d{i} key k{i}\ncol k{i} int\ncol r{i} int\n" for i in range(count))
    put("f/catalog.txt", "fact n\ncol v int\n" + dims)
    put("f/n.csv", "v\n", (f"{v}\n" for v in range(0, rows, 16)))
    for i in range(count):
        put(f"f/d{i}.csv", f"k{i},r{i}\n", (f"{v},{v & 7}\n" for v in range(rows)))
    subprocess.run([program, *load()], check=True, stdout=subprocess.DEVNULL)
    on = "".join(f" JOIN d{i} ON v = k{i}" for i in range(count))
    return count, ["work", "f", "--query", f"SELECT SUM(r{count - 1}) FROM n" + on, "--fragment", "0", "--out", "f/a"]


def fragments(count):
    put("f/catalog.txt", "fact n\ncol v int\n")
    put("f/n.csv", "v\n", (f"{v}\n" for v in range(count)))
    subprocess.run([program, "load", "f", "--load", "7", "--rows", "1"], check=True, stdout=subprocess.DEVNULL)
    query = "SELECT COUNT(*), SUM(v) FROM n"
    for k in range(count):
        subprocess.run([program, "work", "f", "--query", query, "--fragment", str(k), "--out", f"f/a{k}"], check=True)
    return count, ["gather", "f", "--query", query, *[f"f/a{k}" for k in range(count)]]


GB, MB = 1 << 30, 1 << 20
# A name, the unit of its size, the whole size and what makes it.
INPUTS = [
    ("a CSV field without an end", "MB", GB, field),
    ("a CSV field of lines in quotes", "MB", GB, quoted_field),
    ("a CSV row of empty fields", "MB", 100 * MB, fields),
    ("a catalogue's line of blanks", "MB", 100 * MB, catalogue_line),
    ("a catalogue's name", "MB", 100 * MB, catalogue_word),
    ("a catalogue of comments", "MB", 100 * MB, catalogue_lines),
    ("a query of OR, refused", "bytes", 65_600, query_of("SELECT COUNT(*) FROM n WHERE v = 1", " OR v = 1", "")),
    ("a query of sums, refused", "bytes", 65_600, query_of("SELECT v", " + 1", " FROM n")),
    ("a query's list of IN", "bytes", 65_535, query_of("SELECT COUNT(*) FROM n WHERE v IN (7", ", 7", ")")),
    ("a query's text", "bytes", 65_535, query_of("SELECT COUNT(*) FROM n WHERE t = '", "x", "'")),
    ("a query's comment", "bytes", 65_535, query_of("SELECT COUNT(*) FROM n --", "x", "")),
    ("LIKE over many %", "bytes", 65_535, query_of("SELECT COUNT(*) FROM n WHERE t LIKE '", "%_", "'")),
    ("open brackets", "brackets", 256, brackets),
    ("keys, over 50,000 rows", "keys", 64, keys),
    ("joins of 1,048,576 rows", "joins", 16, joins),
    ("fragments that are gathered", "fragments", 4096, fragments),
]


def shown_size(size, unit):
    return f"{size / MB:,.0f} MB" if unit == "MB" else f"{size:,} {unit}"


def main():
    os.makedirs(folder, exist_ok=True)
    os.chdir(folder)
    print("| Input | Size | Ends with | Seconds | from the half | Peak, MB | from the half |\n|---|---|---|---|---|---|---|")
    for name, unit, size, make in INPUTS:
        if wanted and not any(word in name for word in wanted):
            continue
        seconds, peaks = [], []
        for part in (size // 4, size // 2, size):
            shutil.rmtree("f", ignore_errors=True)
            taken, words = make(part)
            second, peak, status, said = measured(*words)
            seconds.append(second)
            peaks.append(peak)
        end = f"status {status}, `{said[:60]}`"
        # Of less than 0.05 seconds it says nothing.
        grew = [f"{after / before:.1f}" if after > 0.05 else "" for before, after in (seconds[1:], peaks[1:])]
        print(f"| {name} | {shown_size(taken, unit)} | {end} | {seconds[2]:.2f} | {grew[0]} | {peaks[2]:,.0f} | {grew[1]} |", flush=True)
    shutil.rmtree("f", ignore_errors=True)
    print(f"load average: {os.getloadavg()[0]:.1f}")


main()
