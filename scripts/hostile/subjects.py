"""The files of which scripts/hostile/damage.py changes each byte: answers and states of several shapes, files of every
kind of block, and cuts."""
from formats import (AVG, COUNT, COUNT_DISTINCT, DICT, FRAME, GREATEST, INT, LEAST, MAX, MIN, PLAIN, ROWS, RUNS, SUM, SUM_DISTINCT, TEXT,
                     Job, answer_front, cut_front, fault_bytes, fragment_front, groups_bytes, payload, sealed, state_front, u32)

COUNTED = Job(7, [2, 3], [], [(ROWS, 0)], "SELECT COUNT(*) FROM sales")
KEYED = Job(7, [2, 3], [INT, TEXT], [(ROWS, 0), (COUNT, TEXT), (SUM, INT), (MIN, INT), (MAX, TEXT), (AVG, INT)], "Q")
ROWWISE = Job(7, [2, 3], [TEXT], [], "Q", plain=True)
DIFFERENT = Job(7, [2, 3], [TEXT], [(COUNT_DISTINCT, TEXT), (SUM_DISTINCT, INT), (ROWS, 0)], "Q")

TWO_GROUPS = groups_bytes(KEYED, [
    ([None, b"ab"], 1, [(1, None), (0, None), (1, LEAST), (1, -5), (0, None), (1, 3)]),
    ([4, b""], 2, [(2, None), (1, None), (2, 9), (0, None), (2, b"yz"), (0, 0)]),
])

TWO_SETS = groups_bytes(DIFFERENT, [
    ([None], 1, [(1, [b"ab"]), (0, []), (1, None)]),
    ([b"k"], 2, [(2, [b"", b"ba"]), (2, [-1, 5]), (2, None)]),
])


def whole(n):
    return groups_bytes(COUNTED, [([], n, [(n, None)])])


ANSWERS = {
    "a count": (COUNTED, answer_front(COUNTED, 0, whole(2))),
    "every aggregate": (KEYED, answer_front(KEYED, 1, TWO_GROUPS)),
    "a fault": (COUNTED, answer_front(COUNTED, 1, fault_bytes(4, 2))),
    "rows": (ROWWISE, answer_front(ROWWISE, 0, groups_bytes(ROWWISE, [([b"a"], 1, []), ([b"b"], 1, [])]))),
    "sets": (DIFFERENT, answer_front(DIFFERENT, 1, TWO_SETS)),
    "a count in the first format": (COUNTED, answer_front(COUNTED, 0, whole(2), b"XGA1")),
}

STATES = {
    "nothing": (COUNTED, state_front(COUNTED, [None, None])),
    "both": (COUNTED, state_front(COUNTED, [whole(2), whole(3)])),
    "a conflict and a fault": (COUNTED, state_front(COUNTED, ["conflict", fault_bytes(2, 1)])),
    "groups": (KEYED, state_front(KEYED, [None, TWO_GROUPS])),
    "sets": (DIFFERENT, state_front(DIFFERENT, [None, TWO_SETS])),
    "both in the first format": (COUNTED, state_front(COUNTED, [whole(2), whole(3)], b"XGS1")),
}

JOURNAL = b"XGJ1" + b"".join(
    b"\1" + u32(109) + sealed(answer_front(COUNTED, k, whole(n))) for k, n in enumerate(COUNTED.cut)) + b"\0"

CUTS = {"a cut of two": cut_front(7, [2, 3]), "a cut of one": cut_front(7, [5])}


def one_column(of, nullable, kind, values, **parts):
    block = kind, payload(kind, of, nullable, values, **parts)
    return fragment_front(7, b"n", 0, 0, len(values), [(b"v", of, nullable)], [(len(values), [block])])


def blocks():
    """A file of each kind of block, of each type, where NULL may stand and where not."""
    files = {}
    for nullable in (False, True):
        hole = [None] if nullable else []
        null = " null" if nullable else ""
        ints, texts = [5, -7, 5, LEAST] + hole, [b"b", b"", b"\xc3\xa9", b"b"] + hole
        files[f"plain int{null}"] = one_column(INT, nullable, PLAIN, ints)
        files[f"dict int{null}"] = one_column(INT, nullable, DICT, ints)
        files[f"plain text{null}"] = one_column(TEXT, nullable, PLAIN, texts)
        files[f"dict text{null}"] = one_column(TEXT, nullable, DICT, texts)
        files[f"frame{null}"] = one_column(INT, nullable, FRAME, [5, 7, 9, 1, 100] + hole)
        files[f"frame without bits{null}"] = one_column(INT, nullable, FRAME, [3, 3] if not nullable else [None, None])
        files[f"frame of 64 bits{null}"] = one_column(INT, nullable, FRAME, [GREATEST, LEAST] + hole)
        # The last run stands for a NULL too.
        files[f"runs int{null}"] = one_column(
            INT, nullable, RUNS, [4, 4, 9, 0] + hole, runs=[(2, 4), (1, 9), (1 + len(hole), 0)])
        files[f"runs text{null}"] = one_column(
            TEXT, nullable, RUNS, [b"b", b"b", b""] + hole, runs=[(2, b"b"), (1 + len(hole), b"")])
    files["an entry without a row"] = one_column(INT, False, DICT, [5, 9, 9, 5], entries=[2, 5, 7, 9])
    files["neighbours that are equal"] = one_column(TEXT, False, RUNS, [b"b"] * 3, runs=[(1, b"b"), (2, b"b")])
    return files


def two_columns():
    columns = [(b"v", INT, False), (b"w", TEXT, True)]
    w = [b"x", None, b"yz"]
    return fragment_front(7, b"n", 0, 0, 3, columns, [
        (3, [(FRAME, payload(FRAME, INT, False, [1, 2, 4])), (PLAIN, payload(PLAIN, TEXT, True, w))])])


def two_row_groups():
    head = RUNS, payload(RUNS, INT, False, [1] * 8192, runs=[(8192, 1)])
    tail = PLAIN, payload(PLAIN, INT, False, [2])
    return fragment_front(7, b"n", 0, 0, 8193, [(b"v", INT, False)], [(8192, [head]), (1, [tail])])


FRAGMENTS = blocks() | {
    "two columns": two_columns(),
    "two row groups": two_row_groups(),
    "no rows": fragment_front(7, b"n", 0, 0, 0, [(b"v", INT, False)], []),
}

DIMENSION = fragment_front(7, b"d", 0, 0, 3, [(b"k", INT, False), (b"w", TEXT, True)], [
    (3, [(PLAIN, payload(PLAIN, INT, False, [10, 20, 30])), (DICT, payload(DICT, TEXT, True, [b"x", None, b"x"]))])])

