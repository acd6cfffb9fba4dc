"""Generated inputs of the program: masks and texts, valid and damaged, tiny and huge. `cases(seed, count)` yields bytes for standard input."""

import random

LIMIT = 2**30


def group(value):
    """A number as groups of seven bits, least group first."""
    out = bytearray()
    while value >= 128:
        out.append(value % 128 + 128)
        value //= 128
    out.append(value)
    return bytes(out)


def stored(z):
    return group(2 * -z + 1 if z < 0 else 2 * z)


def mask(rings):
    out = bytearray(group(1))
    for layer, pairs in rings:
        out += group(layer) + group(len(pairs))
        x = y = 0
        for px, py in pairs:
            out += stored(px - x) + stored(py - y)
            x, y = px, py
    return bytes(out)


class Maker:
    def __init__(self, seed):
        self.r = random.Random(seed)

    # ---- rings

    def scale(self):
        """Where a drawing lies and how large its numbers are: an origin and a stretch."""
        r = self.r
        near = lambda: r.choice([0, 0, r.randrange(-40, 40), 2**24 + 1 + 2 * r.randrange(100), -(2**24) - 1 - 2 * r.randrange(100), r.randrange(-(2**29), 2**29)])
        stretch = r.choice([1, 1, 1, 1, 2, 3, 1000, 2**20 + 1, 2**24 - 1])
        return near(), near(), stretch

    def box(self, size, place):
        r = self.r
        ox, oy, stretch = place
        x1, x2 = sorted(r.sample(range(size), 2))
        y1, y2 = sorted(r.sample(range(size), 2))
        at = lambda x, y: (ox + stretch * x, oy + stretch * y)
        if r.random() < 0.75:
            return [at(x2, y1), at(x1, y2)]
        return [at(x1, y1), at(x2, y2)]

    def staircase(self, size, place):
        """A ring of several pairs, neighbours differing in x and in y."""
        r = self.r
        ox, oy, stretch = place
        k = r.randrange(2, 9)
        while True:
            xs = [r.randrange(size) for _ in range(k)]
            ys = [r.randrange(size) for _ in range(k)]
            if all(xs[i] != xs[i - 1] and ys[i] != ys[i - 1] for i in range(k)):
                return [(ox + stretch * x, oy + stretch * y) for x, y in zip(xs, ys)]

    def rings(self):
        r = self.r
        place = self.scale()
        size = r.choice([3, 4, 6, 10, 20])
        layers = r.choice([1, 2, 2, 3, 8])
        out = []
        for _ in range(r.choice([0, 1, 1, 2, 2, 3, 4, 6, 12])):
            pairs = self.box(size, place) if r.random() < 0.7 else self.staircase(size, place)
            out.append((r.randrange(layers), pairs))
            if r.random() < 0.1:
                out.append(out[-1])
        return out

    # ---- texts

    def factor(self, depth):
        r = self.r
        pick = r.random()
        if depth > 0 and pick < 0.25:
            return b"(" + self.sum(depth - 1) + b")"
        if depth > 0 and pick < 0.4:
            return b"!" + self.factor(depth - 1)
        return bytes([97 + r.randrange(r.choice([1, 2, 2, 3, 8]))])

    def product(self, depth):
        out = self.factor(depth)
        while self.r.random() < 0.35:
            out += self.r.choice([b"*", b"-"]) + self.factor(depth)
        return out

    def sum(self, depth):
        out = self.product(depth)
        while self.r.random() < 0.3:
            out += self.r.choice([b"+", b"^"]) + self.product(depth)
        return out

    def text(self):
        r = self.r
        pick = r.random()
        if pick < 0.72:
            return self.sum(2)
        if pick < 0.8:
            deep = r.randrange(14, 20)
            return b"(" * deep + b"a" + b")" * r.choice([deep, deep, deep - 1])
        if pick < 0.84:
            return b"a" * r.choice([0, 1, 63, 64, 65]) if r.random() < 0.5 else b"+".join([b"a"] * r.choice([32, 33]))
        if pick < 0.88:
            return b")" + b"(" * 17
        damaged = bytearray(self.sum(2))
        for _ in range(r.randrange(1, 3)):
            at = r.randrange(len(damaged) + 1)
            if r.random() < 0.5 and at < len(damaged):
                damaged[at] = r.choice(b"abh!*-+^() i`0\x80")
            else:
                damaged[at:at] = bytes([r.choice(b"abh!*-+^()@2")])
        return bytes(damaged).replace(b"\n", b"a")

    # ---- damage

    def damaged(self, file):
        r = self.r
        file = bytearray(file)
        for _ in range(r.choice([1, 1, 2])):
            at = r.randrange(len(file) + 1)
            what = r.randrange(7)
            if what == 0 and at < len(file):
                file[at] = r.randrange(256)
            elif what == 1:
                del file[at:]
            elif what == 2:
                file[at:at] = b"\x80\x00"
            elif what == 3 and at < len(file):
                file[at] = 1
            elif what == 4:
                file[at:at] = bytes([r.randrange(128, 256)] * r.randrange(1, 6))
            elif what == 5 and at < len(file):
                del file[at]
            elif what == 6 and at < len(file):
                file[at] = 0
        return bytes(file)

    def odd_ring(self):
        """Rings that are whole numbers throughout and refused all the same."""
        r = self.r
        what = r.randrange(7)
        if what == 0:
            return [(8 + r.randrange(200), [(0, 0), (1, 1)])]
        if what == 1:
            return [(0, [(5, 5)] * r.randrange(0, 2))]
        if what == 2:
            return [(1, [(LIMIT + r.choice([0, 1]), 0), (0, 1)])]
        if what == 3:
            return [(1, [(0, 0), (0, 1)])]
        if what == 4:
            return [(1, [(0, 0), (3, 1), (5, 7), (0, 2)])]
        if what == 5:
            return [(1, [(0, 0), (3, 1), (5, 7), (1, 0)])]
        return [(1, [(LIMIT, -LIMIT), (-LIMIT, LIMIT)])]

    # ---- large ones

    def comb(self, teeth):
        """Two layers of crossing bars: a*b has teeth^2 squares."""
        long = 4 * teeth
        return [(0, [(long, 4 * i), (0, 4 * i + 2)]) for i in range(teeth)] + [(1, [(4 * i + 2, 0), (4 * i, long)]) for i in range(teeth)]

    def pairs(self, total):
        """A file with this many pairs: squares side by side."""
        return [(0, [(3 * i + 2, 0), (3 * i, 1)]) for i in range(total // 2 - 1)] + [(0, [(-3, 5), (-9, 7), (-6, 6)] if total % 2 else [(-3, 5), (-9, 7)])]

    def case(self):
        r = self.r
        pick = r.random()
        if pick < 0.6:
            return self.text() + b"\n" + mask(self.rings())
        if pick < 0.85:
            return self.text() + b"\n" + self.damaged(mask(self.rings()))
        if pick < 0.93:
            return self.text() + b"\n" + mask(self.rings()[:2] + self.odd_ring())
        if pick < 0.96:
            return self.text()
        if pick < 0.98:
            return self.text() + b"\n" + bytes(r.randrange(256) for _ in range(r.randrange(12)))
        return self.text() + b"\n" + group(r.choice([0, 1, 2, 127, 128, 2**35 - 1]))


def fixed():
    """Inputs that chance would not make: sizes at and past each limit, and results at and past the record room."""
    m = Maker(0)
    example = mask([(0, [(10, 0), (0, 5)]), (1, [(14, 2), (6, 8)])])
    for text in (b"a*b", b"a+b", b"a^b", b"a-b", b"b-a", b"!a", b"a+!a", b"!a*b", b"()", b"", b"a-b*c", b"a+b*c"):
        yield text + b"\n" + example
    yield b""
    yield b"\n"
    yield b"a"
    yield b"a\n\x01"
    yield b"a\n\x80\x00"
    yield b"a\n"
    for teeth in (15, 16, 17, 23):
        yield b"a*b\n" + mask(m.comb(teeth))
    yield b"a\n" + mask(m.pairs(4096))
    yield b"a\n" + mask(m.pairs(4097))
    for size in (49151, 49152, 49153):
        yield b"a\n" + b"\x01" + b"\x00" * (size - 1)
    for size in (65535, 65536, 65537):
        yield b"a" * size
        yield b"a\n" + b"\x01" * (size - 2)
    corner = 2**30
    yield b"a\n" + mask([(0, [(corner, -corner), (-corner, corner)])])
    yield b"a\n" + mask([(0, [(corner, -corner), (-corner, corner)]), (0, [(corner, -corner), (-corner, corner)])])


def cases(seed, count):
    made = 0
    for data in fixed():
        made += 1
        yield data
    m = Maker(seed)
    while made < count:
        made += 1
        yield m.case()
