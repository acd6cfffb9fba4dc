"""Document 01, cell by cell: an independent account of the program, written from the document alone.

Every cell's status is counted from the edges that span its column, as the definition says: no row of counts is carried from line to line and no record
is made from another. `answer(data)` gives what the program prints for the bytes `data` on its standard input; `run_call` and `area_call` what the calls answer.
"""

import collections

LIMIT = 2**30
EDGES = 4096
FILE_BYTES = 49152
INPUT_BYTES = 65536
RECORD_ROOM = 2048


class Refusal(Exception):
    def __init__(self, number, value):
        super().__init__(number, value)
        self.number, self.value = number, value


# ---- the mask file


def number_at(data, at):
    """The number that starts at `at`, and the place after it."""
    value = 0
    for group in range(5):
        if at + group >= len(data):
            raise Refusal(12, len(data))
        byte = data[at + group]
        value += (byte & 127) << (7 * group)
        if byte < 128:
            if group and byte == 0:
                raise Refusal(13, at)
            return value, at + group + 1
    raise Refusal(13, at)


def signed(value, at):
    if value == 1:
        raise Refusal(13, at)
    return -(value // 2) if value % 2 else value // 2


def read_file(data):
    """The rings of a mask file: a list of (layer, [(x, y), ..])."""
    if len(data) > FILE_BYTES:
        raise Refusal(11, 0)
    edition, at = number_at(data, 0)
    if edition != 1:
        raise Refusal(14, 0)
    rings, total = [], 0
    while at < len(data):
        layer, after = number_at(data, at)
        if layer > 7:
            raise Refusal(15, at)
        at = after
        k, after = number_at(data, at)
        if k < 2:
            raise Refusal(15, at)
        if total + k > EDGES:
            raise Refusal(17, at)
        total += k
        at = after
        pairs = []
        last = [0, 0]
        for i in range(k):
            pair = [0, 0]
            for axis in range(2):
                stored, after = number_at(data, at)
                pair[axis] = last[axis] + signed(stored, at)
                if abs(pair[axis]) > LIMIT:
                    raise Refusal(15, at)
                if i and pair[axis] == last[axis]:
                    raise Refusal(16, at)
                if i == k - 1 and pair[axis] == pairs[0][axis]:
                    raise Refusal(16, at)
                at = after
            pairs.append(tuple(pair))
            last = pair
        rings.append((layer, pairs))
    return rings


def edges_of(rings):
    """Each ring's k edges run at y_i from x_i to x_(i+1), the last back to x1."""
    edges = []
    for layer, pairs in rings:
        for i, (x, y) in enumerate(pairs):
            edges.append((layer, y, x, pairs[(i + 1) % len(pairs)][0]))
    return edges


# ---- the expression


class NotInGrammar(Exception):
    pass


def parse(text):
    """A function of the set of covering layers."""

    def sum_(at):
        left, at = product(at)
        while text[at : at + 1] in (b"+", b"^"):
            op = text[at : at + 1]
            right, at = product(at + 1)
            left = (lambda a, b: lambda c: a(c) or b(c))(left, right) if op == b"+" else (lambda a, b: lambda c: a(c) != b(c))(left, right)
        return left, at

    def product(at):
        left, at = factor(at)
        while text[at : at + 1] in (b"*", b"-"):
            op = text[at : at + 1]
            right, at = factor(at + 1)
            left = (lambda a, b: lambda c: a(c) and b(c))(left, right) if op == b"*" else (lambda a, b: lambda c: a(c) and not b(c))(left, right)
        return left, at

    def factor(at):
        here = text[at : at + 1]
        if here == b"!":
            inner, at = factor(at + 1)
            return (lambda a: lambda c: not a(c))(inner), at
        if here == b"(":
            inner, at = sum_(at + 1)
            if text[at : at + 1] != b")":
                raise NotInGrammar
            return inner, at + 1
        if here and here in b"abcdefgh":
            layer = here[0] - ord("a")
            return lambda c: layer in c, at + 1
        raise NotInGrammar

    holds, at = sum_(0)
    if at != len(text):
        raise NotInGrammar
    return holds


def read_expression(text):
    if not 1 <= len(text) <= 64:
        raise Refusal(6, 0)
    for n in range(len(text) + 1):
        beginning = text[:n]
        if beginning.count(b"(") - beginning.count(b")") > 16:
            raise Refusal(7, 0)
    try:
        holds = parse(text)
    except NotInGrammar:
        raise Refusal(8, 0) from None
    if holds(frozenset()):
        raise Refusal(9, 0)
    return holds


# ---- cells and records


def covering(edges, i, js):
    """For each row of the rising list js, the layers that cover cell (i, j): west edges less east edges that span column i and have y at most j, at least 1."""
    spanning = sorted((y, layer, 1 if end < start else -1) for layer, y, start, end in edges if min(start, end) <= i < max(start, end))
    count, at = {}, 0
    for j in js:
        while at < len(spanning) and spanning[at][0] <= j:
            _, layer, way = spanning[at]
            count[layer] = count.get(layer, 0) + way
            at += 1
        yield frozenset(layer for layer, n in count.items() if n >= 1)


def small_cells(edges):
    """The places that part the plane into small cells in which nothing changes: every unit where the drawing is small, else where an edge lies."""
    xs = sorted({e[2] for e in edges} | {e[3] for e in edges})
    ys = sorted({e[1] for e in edges})
    if not edges:
        return [], []
    if xs[-1] - xs[0] <= 40 and ys[-1] - ys[0] <= 40:
        return list(range(xs[0], xs[-1] + 1)), list(range(ys[0], ys[-1] + 1))
    return xs, ys


def joined(kind, places, marks, sides):
    """The records of one kind: sides(p, k) are the cells on the right and on the left of going forward along small piece k of the line at p."""
    records = []
    for p in range(len(places)):
        run = None
        for k in range(len(marks)):
            way = 0
            if k + 1 < len(marks):
                right, left = sides(p, k)
                way = (1 if right else -1) if right != left else 0
            if run and run[0] != way:
                start, end = marks[run[1]], marks[k]
                records.append((kind, places[p], start, end) if run[0] > 0 else (kind, places[p], end, start))
                run = None
            if way and not run:
                run = (way, k)
    return records


def run(edges, holds):
    """The records of the result in their order, and the number of inside cells."""
    xs, ys = small_cells(edges)
    inside = {}
    area = 0
    for i in range(len(xs) - 1):
        for j, covers in enumerate(covering(edges, xs[i], ys[:-1])):
            if holds(covers):
                inside[i, j] = True
                area += (xs[i + 1] - xs[i]) * (ys[j + 1] - ys[j])
    cell = lambda i, j: (i, j) in inside
    level = joined(0, ys, xs, lambda p, k: (cell(k, p - 1), cell(k, p)))
    upright = joined(1, xs, ys, lambda p, k: (cell(p, k), cell(p - 1, k)))
    return level + upright, area


def read_edges(numbers):
    """The edges of an edge list, or its refusal."""
    if len(numbers) % 4:
        raise Refusal(1, 0)
    edges = [tuple(numbers[i : i + 4]) for i in range(0, len(numbers), 4)]
    if len(edges) > EDGES:
        raise Refusal(2, 0)
    for k, (layer, y, start, end) in enumerate(edges):
        if not 0 <= layer <= 7 or max(abs(y), abs(start), abs(end)) > LIMIT:
            raise Refusal(3, k)
        if start == end:
            raise Refusal(4, k)
    ends = collections.Counter()
    for layer, _, start, end in edges:
        ends[layer, start] += 1
        ends[layer, end] -= 1
    columns = collections.Counter()
    for (layer, x), n in sorted(ends.items()):
        columns[layer] += n
        if columns[layer]:
            raise Refusal(5, 0)
    return edges


def run_call(numbers, text, room):
    """What the run answers, and the numbers that it writes at the front of a buffer of this many."""
    try:
        records, _ = run(read_edges(numbers), read_expression(text))
    except Refusal as r:
        return (r.number, r.value), []
    if room < 4 * len(records):
        return (10, len(records)), []
    return (0, len(records)), [n for record in records for n in record]


def area_call(numbers, text):
    try:
        return 0, run(read_edges(numbers), read_expression(text))[1]
    except Refusal as r:
        return r.number, r.value


def answer(data):
    try:
        if len(data) > INPUT_BYTES:
            raise Refusal(11, 0)
        text, _, file = data.partition(b"\n")
        edges = edges_of(read_file(file))
        holds = read_expression(text)
        records, area = run(edges, holds)
        if len(records) > RECORD_ROOM:
            raise Refusal(10, len(records))
        lines = ["0 %d" % len(records)]
        lines += ["%d %d %d %d" % r for r in records]
        lines.append("area %d" % area)
    except Refusal as r:
        lines = ["%d %d" % (r.number, r.value)]
    return ("\n".join(lines) + "\n").encode()
