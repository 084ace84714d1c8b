#!/usr/bin/env python3
"""false_lengths.py CASES: what the built program `cases` takes of memory for files in which a number promises more than the bytes
behind it hold. Each file is refused, and is run beside one of as many bytes whose number promises a little more than they hold,
so that all else is alike. The greatest single request and the sum of all may be greater by the room for what the bytes could
hold, and by no more; a reader of row groups takes a payload in pieces of up to 65,536 bytes. The last line counts the files."""
import os
import shutil
import subprocess
import sys
import tempfile

from damage import command_case, read_case
from formats import COUNT_DISTINCT, INT, MAX, ROWS, TEXT, Job, cut_front, sealed, u16, u32, u64

HERE = os.path.dirname(os.path.abspath(__file__))
TOP = os.path.dirname(os.path.dirname(HERE))
CASES = os.path.abspath(sys.argv[1])
MOST = 2 ** 32 - 1
SLACK, PIECES = 4096, 4 * 65536

COUNTED = Job(7, [2, 3], [], [(ROWS, 0)], "SELECT COUNT(*) FROM sales")
TEXTS = Job(7, [2, 3], [TEXT], [(MAX, TEXT)], "Q")
SETS = Job(7, [2, 3], [], [(COUNT_DISTINCT, INT)], "Q")
FOLDER = ("file f/catalog.txt\nfact n\ncol v int\ndim d key k\ncol k int\n\nbytes f/cut.xcl\n" + sealed(cut_front(7, [8192])).hex()
          + "\n\n")
GATHERED = "file f/catalog.txt\nfact sales\ncol q int\n\nbytes f/cut.xcl\n" + sealed(cut_front(7, [2, 3])).hex() + "\n\n"


def answer_with(text_length=None, lengths=2, keys=0, aggregates=1, groups=1):
    text = COUNTED.text.encode()
    return (b"XGA1" + u64(7) + u32(len(text) if text_length is None else text_length) + text + u32(lengths) + u32(2) + u32(3) + u32(0)
            + u16(keys) + u16(aggregates) + b"\1\0" + b"\1" + u32(groups) + u32(2) + u32(2))


def state_with(groups):
    text = COUNTED.text.encode()
    return b"XGS1" + u64(7) + u32(len(text)) + text + u32(2) + u32(2) + u32(3) + u16(0) + u16(1) + b"\1\0" + b"\1\1" + u32(groups) + u32(2) * 2


def text_at_end(length):
    return answer_front(TEXTS) + b"\1" + u32(1) + b"\2" + u16(length) + b"ab"


def value_at_end(length):
    return answer_front(TEXTS) + b"\1" + u32(1) + b"\0" + u32(1) + u32(1) + b"\2" + u16(length) + b"ab"


def set_with(entries):
    return b"XGA2" + SETS.front() + u32(0) + SETS.shape() + b"\1" + u32(1) + u32(2) + u32(entries) + b"\1" + u64(10)


def answer_front(job):
    return b"XGA1" + job.front() + u32(0) + job.shape()


def file_with(of, block, kind=1, payload=None, rows=8192, table=b"n"):
    """A file's front up to its first block, whose length is that of its payload or a false one."""
    name = b"v" if table == b"n" else b"k"
    head = b"XCF1" + u64(7) + u16(1) + table + u32(0) + u64(0) + u32(rows) + u16(1) + u16(1) + name + bytes([of, 0])
    return head + u32(min(rows, 8192)) + bytes([kind]) + u32(len(block) if payload is None else payload) + block


def fragment_head(columns=1, name=1):
    return b"XCF1" + u64(7) + u16(name) + b"n" + u32(0) + u64(0) + u32(0) + u16(columns)


def alone(kind, words=""):
    return lambda data: read_case(kind, words, data, "refused\n")


def by_command(path, command, head):
    return lambda data: head + command_case(path, data, command, "refused\n")


ANSWER = alone("answer ", COUNTED.words())
STATE = alone("state ", COUNTED.words())
TEXT_ANSWER = alone("answer ", TEXTS.words())
SET_ANSWER = alone("answer ", SETS.words())
FRAGMENT = alone("fragment")
CUT = alone("cut-file")
WORK = by_command("f/n.0.xcf", 'xcols work f --query "SELECT COUNT(v) FROM n" --fragment 0 --out a', FOLDER)
JOIN = by_command("f/d.xcf", 'xcols work f --query "SELECT COUNT(*) FROM n JOIN d ON v = k" --fragment 0 --out a',
                  FOLDER + "bytes f/n.0.xcf\n" + sealed(file_with(INT, bytes(8) + b"\0", kind=3)).hex() + "\n\n")
GATHER = by_command("a", f'xcols gather f --query "{COUNTED.text}" a', GATHERED)
JOURNAL = by_command("j", f'xcols gather f --query "{COUNTED.text}" --journal j a', GATHERED + 'bytes a\n""\n\n')

TEN = bytes(10)
# A name, what makes a case of bytes, the file with a false number, and the one beside it.
SUBJECTS = [
    ("a query of 4294967295 bytes", ANSWER, answer_with(text_length=MOST), answer_with(text_length=100), SLACK),
    ("a cut of 4294967295 fragments", ANSWER, answer_with(lengths=MOST), answer_with(lengths=20), SLACK),
    ("65535 keys", ANSWER, answer_with(keys=65535), answer_with(keys=60), SLACK),
    ("65535 aggregates", ANSWER, answer_with(aggregates=65535), answer_with(aggregates=60), SLACK),
    ("4294967295 groups", ANSWER, answer_with(groups=MOST), answer_with(groups=2), SLACK),
    ("4294967295 groups that are gathered", GATHER, answer_with(groups=MOST), answer_with(groups=2), SLACK),
    ("4294967295 groups of a state", STATE, state_with(MOST), state_with(2), SLACK),
    ("a state of 4294967295 groups that is gathered", GATHER, state_with(MOST), state_with(2), SLACK),
    ("a key of 65535 bytes at the end", TEXT_ANSWER, text_at_end(65535), text_at_end(3), SLACK),
    ("a greatest text of 65535 bytes at the end", TEXT_ANSWER, value_at_end(65535), value_at_end(3), SLACK),
    ("a set of 4294967295 entries", SET_ANSWER, set_with(MOST), set_with(2), SLACK),
    ("a payload of 4294967295 bytes", FRAGMENT, file_with(INT, TEN, payload=MOST), file_with(INT, TEN, payload=11), SLACK),
    ("a payload of 4294967295 bytes that is worked on", WORK, file_with(INT, TEN, payload=MOST), file_with(INT, TEN, payload=11), PIECES),
    ("a dimension's payload of 4294967295 bytes", JOIN, file_with(INT, TEN, payload=MOST, table=b"d"), file_with(INT, TEN, payload=11, table=b"d"), SLACK),
    ("a dictionary of 8192 integers in 10 bytes", FRAGMENT, file_with(INT, u32(8192) + bytes(6)), file_with(INT, u32(1) + bytes(6)), SLACK),
    ("a dictionary of 8192 integers that is worked on", WORK, file_with(INT, u32(8192) + bytes(6)), file_with(INT, u32(1) + bytes(6)), SLACK),
    ("a dictionary of 8192 texts in 10 bytes", FRAGMENT, file_with(TEXT, u32(8192) + bytes(6)), file_with(TEXT, u32(2) + bytes(6)), SLACK),
    ("8192 runs in 10 bytes", FRAGMENT, file_with(INT, u32(8192) + bytes(6), kind=2), file_with(INT, u32(1) + bytes(6), kind=2), SLACK),
    ("8192 rows of no bytes", FRAGMENT, file_with(INT, b"", kind=0), file_with(INT, b"", kind=0, rows=1), SLACK),
    ("1048576 rows of no bytes", WORK, file_with(INT, b"", kind=0, rows=2 ** 20), file_with(INT, b"", kind=0, rows=8192), SLACK),
    ("64 columns of no bytes", FRAGMENT, fragment_head(columns=64), fragment_head(columns=1), SLACK),
    ("a name of 64 bytes in one", FRAGMENT, fragment_head(name=64), fragment_head(name=40), SLACK),
    ("a cut's file of 4096 fragments of no bytes", CUT, b"XCL1" + u64(7) + u32(4096), b"XCL1" + u64(7) + u32(1), SLACK),
    ("a journal's record of 4294967295 bytes", JOURNAL, b"XGJ1\1" + u32(MOST) + TEN, b"XGJ1\1" + u32(11) + TEN, SLACK),
]


def measured(room, shim, text):
    path = f"{room}/false.case"
    with open(path, "w", newline="") as file:
        file.write(text)
    done = subprocess.run([CASES, path], env={"LD_PRELOAD": shim, "MEASURED": f"{room}/measured"}, stdout=subprocess.PIPE,
                          stderr=subprocess.PIPE, timeout=600)
    with open(f"{room}/measured") as file:
        numbers = [int(word) for word in file.read().split()]
    return done.stdout.decode(errors="replace").split("but came\n")[-1].split("\n")[0], numbers


def main():
    passed = failed = 0
    with tempfile.TemporaryDirectory() as room:
        shim = f"{room}/refuse.so"
        shutil.copy(f"{TOP}/scripts/refuse.c.txt", f"{room}/refuse.c")
        subprocess.run(["cc", "-O2", "-shared", "-fPIC", "-o", shim, f"{room}/refuse.c"], check=True)
        print("| File | Its refusal | Greatest request | Beside it | Sum of all | Beside it |\n|---|---|---|---|---|---|")
        for name, case, false, beside, slack in SUBJECTS:
            assert len(false) == len(beside), name
            line, (_, greatest, total) = measured(room, shim, case(sealed(false)))
            _, (_, greatest_beside, total_beside) = measured(room, shim, case(sealed(beside)))
            refused = line.startswith(("refused", "out missing: 0 1", "err xcols: "))
            good = refused and greatest <= greatest_beside + slack and total <= total_beside + slack
            passed, failed = passed + good, failed + (not good)
            mark = "" if good else " (FAILED)"
            print(f"| {name}{mark} | `{line}` | {greatest:,} | {greatest_beside:,} | {total:,} | {total_beside:,} |", flush=True)
    print(f"false-lengths: {passed} passed, {failed} failed")
    sys.exit(failed > 0)


main()
