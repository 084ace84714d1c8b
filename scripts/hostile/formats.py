"""The files of docs/FORMATS.md, written and judged apart from the crates' code: what is wrong first with bytes, by its
number, or what they say, in the words of the case files (docs/TESTING.md)."""
import hashlib

INT, TEXT = 1, 2
ROWS, COUNT, SUM, MIN, MAX, AVG, COUNT_DISTINCT, SUM_DISTINCT = 1, 2, 3, 4, 5, 6, 7, 8
SETS = COUNT_DISTINCT, SUM_DISTINCT
LEAST, GREATEST = -(2 ** 63), 2 ** 63 - 1
PLAIN, DICT, RUNS, FRAME = 0, 1, 2, 3
GROUP_ROWS = 8192


class Wrong(Exception):
    """The first thing that is wrong: its number, and for a block its row group and column."""

    def __init__(self, *numbers):
        super().__init__(numbers)
        self.numbers = numbers


def number(n, width, signed=False):
    return n.to_bytes(width, "little", signed=signed)


def u8(n):
    return number(n, 1)


def u16(n):
    return number(n, 2)


def u32(n):
    return number(n, 4)


def u64(n):
    return number(n, 8)


def i64(n):
    return number(n, 8, True)


def i128(n):
    return number(n, 16, True)


def sealed(front):
    return front + hashlib.sha256(front).digest()


class Reader:
    def __init__(self, data):
        self.data, self.at = data, 0

    def take(self, n):
        if n > len(self.data) - self.at:
            raise Wrong(2)
        self.at += n
        return self.data[self.at - n:self.at]

    def number(self, width, signed=False):
        return int.from_bytes(self.take(width), "little", signed=signed)

    def magic(self, wanted):
        if self.take(4) != wanted:
            raise Wrong(1)

    def format(self, name):
        """The format of an answer or a state, whose magic begins with these three bytes."""
        magic = self.take(4)
        if magic[:3] != name or magic[3:] not in (b"1", b"2"):
            raise Wrong(1)
        return int(magic[3:])

    def text(self, width):
        text = self.take(self.number(width))
        try:
            text.decode("utf-8")
        except UnicodeDecodeError:
            raise Wrong(9) from None
        return text

    def one_of(self, allowed, wrong):
        byte = self.number(1)
        if byte not in allowed:
            raise Wrong(wrong)
        return byte

    def end(self):
        """The seal, and nothing behind it."""
        seal = self.take(32)
        if self.at != len(self.data):
            raise Wrong(3)
        if seal != hashlib.sha256(self.data[:-32]).digest():
            raise Wrong(4)


# ---- answers and states

KIND_WORDS = {ROWS: "rows", COUNT: "count", SUM: "sum", MIN: "min", MAX: "max", AVG: "avg",
              COUNT_DISTINCT: "count-distinct", SUM_DISTINCT: "sum-distinct"}
KINDS = {1: [kind for kind in KIND_WORDS if kind not in SETS], 2: list(KIND_WORDS)}
TYPE_WORDS = {INT: "int", TEXT: "text"}


class Job:
    """A load, a query's text, its shape, and a cut. `aggregates` are pairs of a kind and its argument's type."""

    def __init__(self, load, cut, keys, aggregates, text, plain=False):
        self.load, self.cut, self.keys, self.aggregates = load, cut, keys, aggregates
        self.text, self.plain = text, plain

    def words(self):
        keys = ",".join(TYPE_WORDS[key] for key in self.keys) or "-"
        aggregates = ",".join("rows" if kind == ROWS else f"{KIND_WORDS[kind]}:{TYPE_WORDS[of]}"
                              for kind, of in self.aggregates) or "-"
        plain = "plain:" if self.plain else ""
        return f'{self.load} {",".join(map(str, self.cut))} {plain}{keys}/{aggregates} "{self.text}"'

    def front(self):
        text = self.text.encode()
        return u64(self.load) + u32(len(text)) + text + u32(len(self.cut)) + b"".join(map(u32, self.cut))

    def shape(self):
        return (u16(len(self.keys)) + bytes(self.keys) + u16(len(self.aggregates))
                + b"".join(bytes(aggregate) for aggregate in self.aggregates))


def value_bytes(value):
    if value is None:
        return u8(0)
    if isinstance(value, int):
        return u8(1) + i64(value)
    return u8(2) + u16(len(value)) + value


def state_bytes(kind, n, of):
    """A state of n entries: `of` is the sum, the extreme value or the entries of a set, or None."""
    if kind in SETS:
        return u32(n) + b"".join(map(value_bytes, of))
    if kind in (SUM, AVG):
        return u32(n) + i128(of)
    if kind in (MIN, MAX):
        return u32(n) + value_bytes(of)
    return u32(n)


def groups_bytes(job, groups):
    """Groups as triples: the key's values, the rows, and a pair of n and value for each aggregate."""
    out = u8(1) + u32(len(groups))
    for key, rows, states in groups:
        out += b"".join(map(value_bytes, key)) + u32(rows)
        out += b"".join(state_bytes(kind, n, of) for (kind, _), (n, of) in zip(job.aggregates, states))
    return out


def fault_bytes(row, code):
    return u8(0) + u64(row) + u8(code)


def answer_front(job, fragment, body, magic=b"XGA2"):
    return magic + job.front() + u32(fragment) + job.shape() + body


def state_front(job, cells, magic=b"XGS2"):
    """Cells are None, "conflict" or a body's bytes."""
    return magic + job.front() + job.shape() + b"".join(
        u8(0) if cell is None else u8(2) if cell == "conflict" else u8(1) + cell for cell in cells)


def read_job(reader):
    load = reader.number(8)
    text = reader.text(4)
    return load, text, [reader.number(4) for _ in range(reader.number(4))]


def read_shape(reader, format):
    keys = [reader.one_of((INT, TEXT), 9) for _ in range(reader.number(2))]
    aggregates = []
    for _ in range(reader.number(2)):
        kind = reader.one_of(KINDS[format], 9)
        aggregates.append((kind, reader.one_of((0,) if kind == ROWS else (INT, TEXT), 9)))
    return keys, aggregates


def read_value(reader):
    tag = reader.one_of((0, 1, 2), 9)
    return None if tag == 0 else reader.number(8, True) if tag == 1 else reader.text(2)


def read_state(reader, kind):
    n = reader.number(4)
    if kind in SETS:
        return n, [read_value(reader) for _ in range(n)]
    if kind in (SUM, AVG):
        return n, reader.number(16, True)
    return n, read_value(reader) if kind in (MIN, MAX) else None


def read_body(reader, keys, aggregates):
    if reader.one_of((0, 1), 9) == 0:
        return "fault", reader.number(8), reader.number(1)
    groups = []
    for _ in range(reader.number(4)):
        key = [read_value(reader) for _ in keys]
        rows = reader.number(4)
        groups.append((key, rows, [read_state(reader, kind) for kind, _ in aggregates]))
    return "groups", groups


def is_of(value, of):
    return value is None or isinstance(value, int) == (of == INT)


def is_typed(kind, of, column):
    if kind in SETS:
        return all(value is not None and is_of(value, column) for value in of)
    return kind not in (MIN, MAX) or is_of(of, column)


def judge_values(body, keys, aggregates):
    if body[0] == "fault":
        return
    for key, _, states in body[1]:
        fit = all(map(is_of, key, keys)) and all(
            is_typed(kind, of, column) for (kind, column), (_, of) in zip(aggregates, states))
        if not fit:
            raise Wrong(9)


def order(value):
    return (0, 0) if value is None else (1, value) if isinstance(value, int) else (2, value)


def judge_order(body):
    if body[0] == "fault":
        return
    keys = [tuple(map(order, key)) for key, _, _ in body[1]]
    sets = [list(map(order, of)) for _, _, states in body[1] for _, of in states if isinstance(of, list)]
    if any(a >= b for values in [keys, *sets] for a, b in zip(values, values[1:])):
        raise Wrong(8)


def fits(kind, n, of, rows):
    if n > rows or (kind == ROWS and n != rows):
        return False
    if kind in SETS:
        return True
    if kind in (SUM, AVG):
        return n * LEAST <= of <= n * GREATEST
    return kind not in (MIN, MAX) or (of is None) == (n == 0)


def judge_numbers(job, fragment, body):
    if body[0] == "fault":
        first = sum(job.cut[:fragment])
        if body[2] not in (1, 2) or not first <= body[1] < first + job.cut[fragment]:
            raise Wrong(10)
        return
    groups = body[1]
    if sum(rows for _, rows, _ in groups) > job.cut[fragment]:
        raise Wrong(10)
    whole = not job.keys and not job.plain
    if whole and len(groups) != 1 or not whole and any(rows == 0 for _, rows, _ in groups):
        raise Wrong(10)
    for _, rows, states in groups:
        for (kind, _), (n, of) in zip(job.aggregates, states):
            if not fits(kind, n, of, rows):
                raise Wrong(10)


def judge_job(job, load, text, cut):
    if load != job.load:
        raise Wrong(5)
    if text != job.text.encode():
        raise Wrong(6)
    if cut != job.cut:
        raise Wrong(7)


def is_shape(job, keys, aggregates):
    return keys == job.keys and aggregates == job.aggregates


def shown_value(value):
    if value is None:
        return "NULL"
    return str(value) if isinstance(value, int) else "'" + value.decode() + "'"


def shown_state(kind, n, of):
    if kind in SETS:
        return ", count 0, sum 0" + "".join(
            (", entries " if k == 0 else " ") + shown_value(value) for k, value in enumerate(of))
    line = f", count {n}, sum {of if kind in (SUM, AVG) else 0}"
    if kind in (MIN, MAX) and of is not None:
        line += f", {'least' if kind == MIN else 'greatest'} {shown_value(of)}"
    return line


def shown_body(job, body):
    if body[0] == "fault":
        return f"fault {body[2]} at row {body[1]}\n"
    out = ""
    for key, rows, states in body[1]:
        out += "".join(f"key {shown_value(value)}, " for value in key) + f"rows {rows}"
        out += "".join(shown_state(kind, *state) for (kind, _), state in zip(job.aggregates, states)) + "\n"
    return out


def judged_answer(job, data):
    """What an answer's bytes say for a job, as lines; or Wrong."""
    reader = Reader(data)
    format = reader.format(b"XGA")
    load, text, cut = read_job(reader)
    fragment = reader.number(4)
    keys, aggregates = read_shape(reader, format)
    body = read_body(reader, keys, aggregates)
    reader.end()
    judge_job(job, load, text, cut)
    if fragment >= len(cut):
        raise Wrong(7)
    if not is_shape(job, keys, aggregates):
        raise Wrong(9)
    judge_values(body, keys, aggregates)
    judge_order(body)
    judge_numbers(job, fragment, body)
    return f"fragment {fragment}\n{shown_body(job, body)}{len(data)} bytes\n"


def judged_state(job, data):
    """What a state's bytes say for a job, as lines; or Wrong."""
    reader = Reader(data)
    format = reader.format(b"XGS")
    load, text, cut = read_job(reader)
    keys, aggregates = read_shape(reader, format)
    cells = []
    for _ in cut:
        tag = reader.one_of((0, 1, 2), 9)
        cells.append(("nothing\n", "", "conflict\n")[tag] or read_body(reader, keys, aggregates))
    reader.end()
    judge_job(job, load, text, cut)
    if not is_shape(job, keys, aggregates):
        raise Wrong(9)
    bodies = [(k, cell) for k, cell in enumerate(cells) if not isinstance(cell, str)]
    for _, body in bodies:
        judge_values(body, keys, aggregates)
    for k, body in bodies:
        judge_order(body)
        judge_numbers(job, k, body)
    return "".join(cell if isinstance(cell, str) else shown_body(job, cell) for cell in cells) + f"{len(data)} bytes\n"


def judged_journal(job, data):
    """Which fragments the answers in a journal are of; or Wrong."""
    if data[:4] != b"XGJ1":
        raise Wrong(14)
    at, held = 4, []
    while True:
        if at >= len(data):
            raise Wrong(14)
        if data[at] == 0:
            return held
        length = int.from_bytes(data[at + 1:at + 5], "little")
        answer = data[at + 5:at + 5 + length]
        if len(answer) != length or at + 5 > len(data):
            raise Wrong(14)
        held.append(int(judged_answer(job, answer).split()[1]))
        at += 5 + length


# ---- blocks

def mask_bytes(values):
    bits = sum(1 << i for i, value in enumerate(values) if value is None)
    return number(bits, (len(values) + 7) // 8)


def cells(values, of):
    return [(0 if of == INT else b"") if value is None else value for value in values]


def values_form(values, of):
    if of == INT:
        return b"".join(map(i64, values))
    ends = [sum(map(len, values[:i + 1])) for i in range(len(values))]
    return b"".join(map(u32, ends)) + b"".join(values)


def payload(kind, of, nullable, values, entries=None, runs=None):
    """A block's payload. `entries` are a dictionary's, which may have unused ones; `runs` are pairs of a length and a
    value, of which neighbours may be equal."""
    front = mask_bytes(values) if nullable else b""
    values = cells(values, of)
    if kind == PLAIN:
        return front + values_form(values, of)
    if kind == DICT:
        entries = sorted(set(values)) if entries is None else entries
        return front + u32(len(entries)) + values_form(entries, of) + b"".join(u16(entries.index(value)) for value in values)
    if kind == RUNS:
        return front + u32(len(runs)) + b"".join(u16(n) for n, _ in runs) + values_form([value for _, value in runs], of)
    base = min(values)
    width = (max(values) - base).bit_length()
    bits = sum(value - base << i * width for i, value in enumerate(values))
    return front + i64(base) + u8(width) + number(bits, (len(values) * width + 7) // 8)


class NoBlock(Exception):
    pass


class Payload:
    def __init__(self, data):
        self.data = data

    def take(self, n):
        if n > len(self.data):
            raise NoBlock
        front, self.data = self.data[:n], self.data[n:]
        return front

    def number(self, width, signed=False):
        return int.from_bytes(self.take(width), "little", signed=signed)

    def count(self, most):
        n = self.number(4)
        if not 1 <= n <= most:
            raise NoBlock
        return n

    def values(self, m, of):
        if of == INT:
            return [self.number(8, True) for _ in range(m)]
        ends = [0] + [self.number(4) for _ in range(m)]
        if any(a > b or b - a > 65535 for a, b in zip(ends, ends[1:])):
            raise NoBlock
        joined = self.take(ends[-1])
        texts = [joined[a:b] for a, b in zip(ends, ends[1:])]
        try:
            for text in texts:
                text.decode("utf-8")
        except UnicodeDecodeError:
            raise NoBlock from None
        return texts


def body_values(kind, of, n, body):
    if kind == PLAIN:
        return body.values(n, of)
    if kind == DICT:
        d = body.count(n)
        entries = body.values(d, of)
        codes = [body.number(2) for _ in range(n)]
        if any(a >= b for a, b in zip(entries, entries[1:])) or any(code >= d for code in codes):
            raise NoBlock
        return [entries[code] for code in codes]
    if kind == RUNS:
        r = body.count(n)
        lengths = [body.number(2) for _ in range(r)]
        if 0 in lengths or sum(lengths) != n:
            raise NoBlock
        return [value for length, value in zip(lengths, body.values(r, of)) for _ in range(length)]
    if of != INT:
        raise NoBlock
    base, width = body.number(8, True), body.number(1)
    if width > 64:
        raise NoBlock
    bits = body.number((n * width + 7) // 8)
    if bits >> n * width:
        raise NoBlock
    offsets = [bits >> i * width & (1 << width) - 1 for i in range(n)]
    if min(offsets) != 0 or max(offsets).bit_length() != width or base + max(offsets) > GREATEST:
        raise NoBlock
    return [base + offset for offset in offsets]


def block_values(kind, of, nullable, n, data):
    """The values that a payload encodes; or NoBlock."""
    body = Payload(data)
    nulls = [False] * n
    if nullable:
        mask = body.number((n + 7) // 8)
        if mask >> n:
            raise NoBlock
        nulls = [bool(mask >> i & 1) for i in range(n)]
    if kind not in (PLAIN, DICT, RUNS, FRAME):
        raise NoBlock
    values = body_values(kind, of, n, body)
    if body.data or any(null and value not in (0, b"") for null, value in zip(nulls, values)):
        raise NoBlock
    return [None if null else value for null, value in zip(nulls, values)]


# ---- files of fragments, dimensions and cuts

def fragment_front(load, table, fragment, first_row, rows, columns, groups):
    """Columns are triples of a name, a type and whether NULL may stand; groups are pairs of a number of rows and of
    blocks, each a kind and its payload."""
    out = b"XCF1" + u64(load) + u16(len(table)) + table + u32(fragment) + u64(first_row) + u32(rows) + u16(len(columns))
    for name, of, nullable in columns:
        out += u16(len(name)) + name + u8(of) + u8(nullable)
    for n, blocks in groups:
        out += u32(n) + b"".join(u8(kind) + u32(len(data)) + data for kind, data in blocks)
    return out


def cut_front(load, lengths):
    return b"XCL1" + u64(load) + u32(len(lengths)) + b"".join(map(u32, lengths))


def within(reader, width, least, most):
    n = reader.number(width)
    if not least <= n <= most:
        raise Wrong(7)
    return n


def read_name(reader):
    name = reader.take(within(reader, 2, 1, 64))
    word = set(b"abcdefghijklmnopqrstuvwxyz0123456789_")
    # No name here comes near a reserved word.
    if not set(name) <= word or name[0] in b"0123456789":
        raise Wrong(6)
    return name


def read_columns(reader):
    columns = []
    for _ in range(within(reader, 2, 1, 64)):
        name = read_name(reader)
        if any(name == column[0] for column in columns):
            raise Wrong(6)
        of = reader.one_of((INT, TEXT), 6)
        columns.append((name, of, reader.one_of((0, 1), 6) == 1))
    return columns


def shown_column_value(value):
    if value is None:
        return " \\N"
    if isinstance(value, int):
        return f" {value}"
    return f" ({len(value)} bytes)" if len(value) > 100 else " '" + value.decode() + "'"


BLOCK_WORDS = {PLAIN: "plain", DICT: "dict", RUNS: "runs", FRAME: "frame"}


def judged_fragment(data):
    """What a fragment's or a dimension's file says, as lines, and its header; or Wrong."""
    reader = Reader(data)
    reader.magic(b"XCF1")
    load, table = reader.number(8), read_name(reader)
    fragment, first_row, rows = reader.number(4), reader.number(8), within(reader, 4, 0, 2 ** 20)
    columns = read_columns(reader)
    out = f"load {load}, table {table.decode()}, fragment {fragment}, from row {first_row}, {rows} rows\n"
    for name, of, nullable in columns:
        out += f"col {name.decode()} {TYPE_WORDS[of]}{' null' if nullable else ''}\n"
    for group in range((rows + GROUP_ROWS - 1) // GROUP_ROWS):
        n = min(GROUP_ROWS, rows - group * GROUP_ROWS)
        if reader.number(4) != n:
            raise Wrong(6)
        out += f"group of {n} rows\n"
        for index, (_, of, nullable) in enumerate(columns):
            kind = reader.number(1)
            block = reader.take(reader.number(4))
            try:
                values = block_values(kind, of, nullable, n, block)
            except NoBlock:
                raise Wrong(5, group, index) from None
            out += BLOCK_WORDS[kind] + "".join(map(shown_column_value, values)) + "\n"
    reader.end()
    return out, (load, table, fragment, first_row, rows, columns)


def judged_cut(data):
    """What a cut's file says, as a line; or Wrong."""
    reader = Reader(data)
    reader.magic(b"XCL1")
    load = reader.number(8)
    lengths = [within(reader, 4, 0, 2 ** 20) for _ in range(within(reader, 4, 1, 4096))]
    reader.end()
    return f"load {load}, cut" + "".join(f" {length}" for length in lengths) + "\n"
