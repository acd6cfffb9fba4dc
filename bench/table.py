#!/usr/bin/env python3
"""table.py TIMES: the ratio of the proved library's time to each peer's, for each layout and operation; every area compared."""
import os
import sys

rows = {}
for line in open(sys.argv[1]):
    peer, file, op, _, edges, _, area, _, _, _, cells = line.split()
    case = os.path.basename(file)[:-4], op
    rows.setdefault(case, {})[peer] = float(edges), float(area), int(float(cells))
peers = [p for p in ("boost", "clipper", "klayout") if any(p in r for r in rows.values())]
print("\n| layout | operation | run, ms | area, ms | " + " | ".join("run to " + p for p in peers) + " |")
print("|---|---|---|---|" + "---|" * len(peers))
worst = dict.fromkeys(peers, 0.0)
wrong = 0
for (layout, op), r in rows.items():
    run, area, cells = r["laukavesp"]
    ratios = []
    for p in peers:
        if p not in r:
            ratios.append("-")
            continue
        ratio = run / r[p][0]
        worst[p] = max(worst[p], ratio)
        ratios.append("%.2f" % ratio)
        exact = p != "clipper"
        if (exact and r[p][2] != cells) or abs(r[p][2] - cells) > cells * 1e-12 + 1:
            wrong += 1
            print("AREA DIFFERS", layout, op, p, r[p][2], cells)
    print("| %s | %s | %.4f | %.4f | %s |" % (layout, op, run, area, " | ".join(ratios)))
print("\ngreatest ratio: " + ", ".join("%s %.2f" % w for w in worst.items()) + "; areas that differ: %d" % wrong)
