#!/usr/bin/env python3
"""layouts.py KIND N SEED > FILE: N rectangles, turn about on layers 0 and 1, one to a line: layer 4 x1 y1 .. x4 y4, clockwise.

KIND  sparse: few overlap; touch: each meets a few others; dense: most overlap most; hatch: level bars on 0, upright bars on 1, all cross
"""
import random
import sys

kind, n, seed = sys.argv[1], int(sys.argv[2]), int(sys.argv[3])
R = 2**30 - 1
r = random.Random(seed)
side = int(2 * R / n**0.5)
step = 2 * R // n
for i in range(n):
    if kind == "hatch":
        at = -R + i // 2 * 2 * step + r.randint(1, step // 2)
        thin = r.randint(1, step // 2)
        x, y, w, h = (-R, at, 2 * R, thin) if i % 2 == 0 else (at, -R, thin, 2 * R)
    else:
        low, high = {"sparse": (1, side // 4), "touch": (side // 2, side * 2), "dense": (1, R)}[kind]
        w, h = r.randint(low, high), r.randint(low, high)
        x, y = r.randint(-R, R - w), r.randint(-R, R - h)
    print(i % 2, 4, x, y, x, y + h, x + w, y + h, x + w, y)
