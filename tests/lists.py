"""Generated edge lists for the calls: small and large, closed and open, shuffled, cut, doubled and damaged. `questions(seed, count)` yields
(edge numbers, text, room) with the name of what it is for."""

import random

from generate import LIMIT, Maker


def box(layer, x1, y1, x2, y2, clockwise=True):
    """West below and east above has the opaque inside."""
    low, high = (layer, y1, x2, x1), (layer, y2, x1, x2)
    return [low, high] if clockwise else [(layer, y1, x1, x2), (layer, y2, x2, x1)]


class Lists(Maker):
    def boxes(self, count, size, layers, moved=(0, 0), stretch=1):
        r = self.r
        out = []
        for _ in range(count):
            x1, x2 = sorted(r.sample(range(size), 2))
            y1, y2 = sorted(r.sample(range(size), 2))
            at = lambda v, by: by + stretch * v
            out += box(r.randrange(layers), at(x1, moved[0]), at(y1, moved[1]), at(x2, moved[0]), at(y2, moved[1]), r.random() < 0.8)
        return out

    def shuffled(self, edges):
        self.r.shuffle(edges)
        return edges

    def cut(self, edges, times):
        """Some edges in two, at a whole place within."""
        r = self.r
        for _ in range(times):
            k = r.randrange(len(edges))
            layer, y, start, end = edges[k]
            if abs(end - start) > 1:
                mid = r.randrange(min(start, end) + 1, max(start, end))
                edges[k] = (layer, y, start, mid)
                edges.append((layer, y, mid, end))
        return edges

    def damaged(self, edges):
        """An odd length, a layer or a coordinate out of range, a flat edge, or an open list; twice where two refusals are to meet."""
        r = self.r
        numbers = [n for e in edges for n in e]
        for _ in range(r.choice([1, 1, 2, 3])):
            k = r.randrange(max(1, len(numbers) // 4)) * 4
            what = r.randrange(6)
            if what == 0:
                numbers += [0] * r.randrange(1, 4)
            elif k + 3 >= len(numbers):
                continue
            elif what == 1:
                numbers[k] = r.choice([-1, 8, 7, -(2**31)])
            elif what == 2:
                numbers[k + r.randrange(1, 4)] = r.choice([LIMIT, LIMIT + 1, -LIMIT, -LIMIT - 1, 2**31 - 1, -(2**31)])
            elif what == 3:
                numbers[k + 3] = numbers[k + 2]
            elif what == 4:
                numbers[k + 2] += r.choice([-1, 1])
            else:
                numbers[k + 2], numbers[k + 3] = numbers[k + 3], numbers[k + 2]
        return numbers

    def small(self):
        r = self.r
        moved = r.choice([(0, 0), (0, 0), (2**24 + 1, -(2**24) - 3), (LIMIT - 40, -LIMIT)])
        return self.boxes(r.choice([0, 1, 2, 3, 5, 9, 20]), r.choice([3, 5, 9, 30]), r.choice([1, 2, 3, 8]), moved)


def room_for(r, needed):
    """Room for just the records, for one number less, for none, or for more."""
    return r.choice([needed, needed, max(0, needed - 1), 0, needed + r.randrange(1, 9)])


def large(m):
    """Lists that reach every way the work takes that depends on size, each with its name."""
    r = m.r
    for count in (128, 129, 300, 700, 1500, 2048):
        yield "%d boxes on small coordinates" % count, m.shuffled(m.boxes(count, r.choice([20, 50]), r.choice([2, 8]))), r.choice([b"a*b", b"a^b", b"(a+c)-b", b"a+b+c+d+e+f+g+h"])
    yield "256 edges", m.boxes(128, 40, 3), b"a-b"
    yield "258 edges", m.boxes(129, 40, 3), b"a-b"
    for corner in (2**24 + 1, -LIMIT, LIMIT - 50):
        yield "boxes at %d" % corner, m.boxes(400, 50, 3, (corner, corner)), b"a^b^c"
    yield "boxes far apart", m.boxes(250, 250, 2, (-(2**29), -(2**29)), 2**22 - 3), b"a^b"
    yield "a cluster, and two boxes far off", m.shuffled(m.boxes(300, 60, 2) + box(0, LIMIT - 5, LIMIT - 5, LIMIT, LIMIT) + box(1, -LIMIT, -LIMIT, 3 - LIMIT, 3 - LIMIT)), b"a^b"
    yield "a small cluster, and two boxes far off", m.shuffled(m.boxes(90, 200, 2) + box(0, LIMIT - 5, LIMIT - 5, LIMIT, LIMIT) + box(1, -LIMIT, -LIMIT, 3 - LIMIT, 3 - LIMIT)), b"a*b"
    for layers in (1, 8):
        yield "nested boxes on one y, %d layers" % layers, [e for i in range(300) for e in box(i % layers, i, 0, 1000 - i, 2 + i % 5)], b"a" if layers == 1 else b"a^b+h"
    yield "31 edges at one y", [e for i in range(31) for e in box(i % 3, i, 0, 99 - i, 1 + i)], b"a^b^c"
    yield "32 edges at one y", [e for i in range(32) for e in box(i % 3, i, 0, 99 - i, 1 + i)], b"a^b^c"
    yield "many equal edges at one y", box(0, 0, 0, 9, 4) * 700 + box(1, 3, 0, 7, 5) * 600, b"a-b"
    for k in (20, 44):
        yield "%d by %d touching corners" % (k, k), m.shuffled([e for i in range(k) for j in range(k) if (i + j) % 2 for e in box(i % 3, i, j, i + 1, j + 1)]), b"a+b+c"
    for teeth in (12, 24, 64, 100):
        bars = [e for i in range(teeth) for e in box(0, 0, 4 * i, 4 * teeth, 4 * i + 2) + box(1, 4 * i, 0, 4 * i + 2, 4 * teeth)]
        yield "%d crossing bars" % teeth, bars, b"a*b"
    bars = [e for i in range(95) for e in box(0, 0, 4 * i, 400, 4 * i + 2) + box(1, 4 * i, 0, 4 * i + 2, 400)]
    yield "a result swept in parts", m.cut(m.shuffled(bars), 60), b"a^b"
    yield "4,096 edges of wide strips", m.boxes(2048, 90, 2), b"a^b"
    yield "4,097 edges", m.boxes(2048, 9, 1) + [(0, 0, 0, 1)], b"a"
    yield "a large open list", m.boxes(1000, 60, 4) + [(3, 5, 7, 2)], b"a"


def questions(seed, count):
    m = Lists(seed)
    r = m.r
    for name, edges, text in large(m):
        yield name, [n for e in edges for n in e], text
    for _ in range(count):
        edges = m.shuffled(m.small())
        if edges and r.random() < 0.3:
            edges = m.cut(edges, 3)
        numbers = m.damaged(edges) if r.random() < 0.45 else [n for e in edges for n in e]
        yield "generated", numbers, m.text()
