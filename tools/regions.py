#!/usr/bin/env python3
"""Compares what `cover regions` writes with a plain reading of the definitions, in exact fractions.

Usage: tools/regions.py FILE..          writes the rows of each file by the definitions
       tools/regions.py --random COUNT  makes so many small coverages and compares the rows with the proved program's

PROGRAM in the environment names another program than the proved one. It shares no method with the program: hot
pixels by clipping, faces by the signed areas of boundary walks and containment, labels by counting the crossings of
the leaning ray from the side point of each region's least side, clearances by trying all grid points.
"""
import math
import os
import pathlib
import random
import re
import subprocess
import sys
import tempfile
from collections import Counter
from fractions import Fraction as F
from functools import cmp_to_key


def members_of(text):
    """The rings of each geometry, without the closing point."""
    members = []
    for body in re.findall(r"(?i)POLYGON\s*((?:EMPTY)|\((?:[^A-Za-z]*)\))", text):
        rings = [[tuple(int(n) for n in pair.split()) for pair in ring.split(",")][:-1]
                 for ring in re.findall(r"\(([^()]+)\)", body)]
        members.append(rings)
    return members


def uses_of(members):
    uses = []
    for number, rings in enumerate(members):
        for ring in rings:
            for a, b in zip(ring, ring[1:] + ring[:1]):
                if a != b:
                    uses.append((number, (min(a, b), max(a, b))))
    return uses


def turn(a, b, c):
    return (b[0] - a[0]) * (c[1] - a[1]) - (b[1] - a[1]) * (c[0] - a[0])


def crossing(s, t):
    """The point where two segments cross, inside both, or None."""
    (a, b), (c, d) = s, t
    p, q, u, v = turn(a, b, c), turn(a, b, d), turn(c, d, a), turn(c, d, b)
    if (p > 0) == (q > 0) or (u > 0) == (v > 0) or 0 in (p, q, u, v):
        return None
    w = F(u, u - v)
    return (a[0] + w * (b[0] - a[0]), a[1] + w * (b[1] - a[1]))


def pixel_of(p):
    return tuple((2 * F(n) + 1) // 2 for n in p)


def passing(s, r):
    """A place on s, from 0 to 1, in the pixel of r, or None."""
    low, high, low_open, high_open = F(0), F(1), False, False
    for axis in (0, 1):
        start, step = s[0][axis], s[1][axis] - s[0][axis]
        first, last = r[axis] - F(1, 2), r[axis] + F(1, 2)
        if step == 0:
            if not first <= start < last:
                return None
            continue
        a, b = (first - start) / step, (last - start) / step
        a_open, b_open = False, True
        if step < 0:
            a, b, a_open, b_open = b, a, True, False
        if a > low or (a == low and a_open):
            low, low_open = a, a_open
        if b < high or (b == high and b_open):
            high, high_open = b, b_open
    if low > high or (low == high and (low_open or high_open)):
        return None
    return (low + high) / 2


def noded(uses):
    """The members' chain edges with their counts."""
    segments = sorted({s for _, s in uses})
    hot = {end for s in segments for end in s}
    for i, s in enumerate(segments):
        for t in segments[i + 1:]:
            p = crossing(s, t)
            if p:
                hot.add(pixel_of(p))
    counts = Counter()
    chains = {}
    for s in segments:
        met = sorted((at, r) for r in hot for at in [passing(s, r)] if at is not None)
        chain = [r for _, r in met]
        chains[s] = [(min(a, b), max(a, b)) for a, b in zip(chain, chain[1:])]
    for member, s in uses:
        for e in chains[s]:
            counts[member, e] += 1
    return counts


def boundary_walks(edges):
    """The walks with the face on their left, each a list of sides."""
    leaving = {}
    for k, (lo, hi) in enumerate(edges):
        leaving.setdefault(lo, []).append((2 * k, hi))
        leaving.setdefault(hi, []).append((2 * k + 1, lo))
    following = {}
    for v, ways in leaving.items():
        def half(way):
            return 0 if way[1] > v else 1
        ways.sort(key=cmp_to_key(lambda a, b: half(a) - half(b) or (-1 if turn(v, a[1], b[1]) > 0 else 1)))
        for (one, _), (after, _) in zip(ways, ways[1:] + ways[:1]):
            following[after ^ 1] = one
    walks, seen = [], set()
    for side in range(2 * len(edges)):
        walk = []
        while side not in seen:
            seen.add(side)
            walk.append(side)
            side = following[side]
        if walk:
            walks.append(walk)
    return walks


def ends(edges, side):
    lo, hi = edges[side // 2]
    return (lo, hi) if side % 2 == 0 else (hi, lo)


def doubled_area(edges, walk):
    return sum(a[0] * b[1] - a[1] * b[0] for a, b in (ends(edges, side) for side in walk))


def side_point(edges, side):
    lo, hi = edges[side // 2]
    sign = 1 if side % 2 == 0 else -1
    return (F(lo[0] + hi[0], 2) - sign * F(1, 2**64), F(lo[1] + hi[1], 2) + sign * F(2**30, 2**64))


def sweep(p):
    return 2**30 * p[0] + p[1]


def is_over(e, p):
    return sweep(e[0]) <= sweep(p) < sweep(e[1]) and turn(e[0], e[1], p) < 0


def winds_round(edges, walk, p):
    total = 0
    for side in walk:
        if is_over(edges[side // 2], p):
            total += 1 if side % 2 == 0 else -1
    return total


def regions_of(edges):
    """For each side its region, and the walks of each region; region None is the outer one's place."""
    walks = boundary_walks(edges)
    shells = [w for w in walks if doubled_area(edges, w) > 0]
    faces = {id(w): [w] for w in shells}
    outer = []
    for walk in walks:
        if doubled_area(edges, walk) > 0:
            continue
        p = side_point(edges, walk[0])
        round_it = [w for w in shells if winds_round(edges, w, p)]
        if round_it:
            faces[id(min(round_it, key=lambda w: doubled_area(edges, w)))].append(walk)
        else:
            outer.append(walk)
    return list(faces.values()), outer


def distance4(p, e):
    """Four times the squared distance of a point and an edge."""
    (x, y), (dx, dy) = (p[0] - e[0][0], p[1] - e[0][1]), (e[1][0] - e[0][0], e[1][1] - e[0][1])
    at = min(max(F(x * dx + y * dy, dx * dx + dy * dy), 0), 1)
    return 4 * ((x - at * dx) ** 2 + (y - at * dy) ** 2)


def clearance(edges, face):
    """The greatest whole number that is at most twice the distance of some grid point of the face to every edge."""
    xs, ys = zip(*(p for walk in face for side in walk for p in ends(edges, side)))
    widest = 0
    for x in range(min(xs), max(xs) + 1):
        for y in range(min(ys), max(ys) + 1):
            if sum(winds_round(edges, walk, (x, y)) for walk in face) != 0:
                widest = max(widest, math.isqrt(math.floor(min(distance4((x, y), e) for e in edges))))
    return widest


def rows(text):
    members = members_of(text)
    uses = uses_of(members)
    counts = noded(uses)
    edges = sorted({e for (_, e), n in counts.items() if n % 2 == 1})
    faces, outer = regions_of(edges)
    lines = []
    for face in faces + ([outer] if outer else []):
        number = min(side for walk in face for side in walk)
        if face is outer:
            lines.append((number, "outer - - -"))
            continue
        p = side_point(edges, number)
        label = [m for m in range(len(members))
                 if sum(n for (i, e), n in counts.items() if i == m and is_over(e, p)) % 2 == 1]
        kind = "gap" if not label else "single" if len(label) == 1 else "shared"
        area = sum(doubled_area(edges, walk) for walk in face)
        room = "-" if label else clearance(edges, face)
        lines.append((number, f"{kind} {','.join(map(str, label)) or '-'} {area} {room}"))
    return "".join(f"{number} {line}\n" for number, line in sorted(lines))


TOP = pathlib.Path(__file__).resolve().parent.parent
PROGRAM = pathlib.Path(os.environ.get("PROGRAM", TOP / "crates/cover/out/cover")).resolve()


def random_coverage():
    """Up to three members of up to two rings on a small grid, so that most meet, overlap and touch."""
    size = random.choice([2, 4, 8, 30])
    members = []
    for _ in range(random.randint(1, 3)):
        rings = []
        for _ in range(random.randint(1, 2)):
            ring = [(random.randint(-size, size), random.randint(-size, size)) for _ in range(random.randint(3, 6))]
            rings.append("(" + ", ".join(f"{x} {y}" for x, y in ring + ring[:1]) + ")")
        members.append("POLYGON (" + ", ".join(rings) + ")")
    return "\n".join(members) + "\n"


def compare(count):
    with tempfile.TemporaryDirectory() as name:
        folder = pathlib.Path(name)
        for seed in range(count):
            random.seed(seed)
            text = random_coverage()
            (folder / "in").write_text(text)
            ran = subprocess.run([PROGRAM, "regions", "in", "out"], cwd=folder, stdout=subprocess.PIPE)
            came, wanted = (folder / "out").read_text(), rows(text)
            if ran.returncode != 0 or came != wanted:
                sys.exit(f"WRONG, seed {seed}:\n{text}wanted:\n{wanted}came:\n{came}")
    print(f"{count} coverages: the rows are those of the definitions")


def main():
    if len(sys.argv) == 3 and sys.argv[1] == "--random":
        compare(int(sys.argv[2]))
    elif len(sys.argv) > 1:
        for name in sys.argv[1:]:
            sys.stdout.write(rows(open(name).read()))
    else:
        sys.exit(__doc__)


if __name__ == "__main__":
    main()
