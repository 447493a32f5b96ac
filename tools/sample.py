#!/usr/bin/env python3
"""What `cover sample` writes and answers, by a plain reading of the definitions.

Usage: tools/sample.py N SEED [OUT]  prints the message, and writes the cleaned coverage to OUT
       tools/sample.py --raw N SEED  prints the coverage that is cleaned

It takes crossings, pixels, walks, clearances and rings from regions.py and clean.py, and looks for each only where it can
be: at segments, hot pixels and members whose boxes meet. So it takes seconds where those take days.
"""
import math
import sys
from collections import Counter, defaultdict

from clean import member_text, polygon_of, ring_text, rings_of
from regions import clearance, crossing, doubled_area, is_over, passing, pixel_of, regions_of, side_point, uses_of

GAP = 8
SIDE = 16


def draws(seed):
    x = seed
    while True:
        x = (1664525 * x + 1013904223) % 2**32
        yield x // 2**28 % 3 - 1


def sampled(n, seed):
    drawn = draws(seed)
    members = []
    for j in range(n):
        for i in range(n):
            ring = []
            for u, v in ((i, j), (i + 1, j), (i + 1, j + 1), (i, j + 1)):
                dx = next(drawn)
                dy = next(drawn)
                ring.append((64 * u + dx, 64 * v + dy))
            members.append([ring])
    return members


class Near:
    """Things by their boxes."""

    def __init__(self):
        self.squares = defaultdict(list)

    @staticmethod
    def squares_of(points, grown):
        xs, ys = zip(*points)
        for x in range(math.floor((min(xs) - grown) / SIDE), math.floor((max(xs) + grown) / SIDE) + 1):
            for y in range(math.floor((min(ys) - grown) / SIDE), math.floor((max(ys) + grown) / SIDE) + 1):
                yield x, y

    def add(self, points, thing):
        for square in self.squares_of(points, 0):
            self.squares[square].append(thing)

    def near(self, points, grown=1):
        return {thing for square in self.squares_of(points, grown) for thing in self.squares.get(square, ())}


def noded_near(uses):
    segments = sorted({s for _, s in uses})
    by_box = Near()
    hot = {end for s in segments for end in s}
    for s in segments:
        for t in by_box.near(s):
            p = crossing(s, t)
            if p:
                hot.add(pixel_of(p))
        by_box.add(s, s)
    pixels = Near()
    for r in hot:
        pixels.add([r], r)
    counts, chains = Counter(), {}
    for s in segments:
        met = sorted((at, r) for r in pixels.near(s) for at in [passing(s, r)] if at is not None)
        chain = [r for _, r in met]
        chains[s] = [(min(a, b), max(a, b)) for a, b in zip(chain, chain[1:])]
    for member, s in uses:
        for e in chains[s]:
            counts[member, e] += 1
    return counts


class Overlay:
    """The regions between the live edges: the walks round each, its label, and the lengths that it shares with each other one."""

    def __init__(self, members):
        counts = noded_near(uses_of(members))
        self.edges = sorted({e for (_, e), n in counts.items() if n % 2 == 1})
        faces, outer = regions_of(self.edges)
        self.region = {}
        self.faces = {}
        for face in faces + [outer]:
            number = min(side for walk in face for side in walk)
            self.faces[number] = face
            self.region.update((side, number) for walk in face for side in walk)
        self.outer = min(side for walk in outer for side in walk)
        of_member = defaultdict(list)
        for (member, e), n in counts.items():
            of_member[member] += [e] * n
        boxes = Near()
        for member, edges in of_member.items():
            boxes.add([p for e in edges for p in e], member)
        self.label = {}
        for number in self.faces:
            p = side_point(self.edges, number)
            self.label[number] = sorted(m for m in boxes.near([p]) if sum(is_over(e, p) for e in of_member[m]) % 2 == 1)
        self.shared = defaultdict(Counter)
        for k, (lo, hi) in enumerate(self.edges):
            a, b = self.region[2 * k], self.region[2 * k + 1]
            length = math.isqrt(65536 * ((hi[0] - lo[0]) ** 2 + (hi[1] - lo[1]) ** 2))
            self.shared[a][b] += length
            if a != b:
                self.shared[b][a] += length

    def clearance(self, gap):
        sides = sorted(side for walk in self.faces[gap] for side in walk)
        own = sorted({self.edges[side // 2] for side in sides})
        place = {e: k for k, e in enumerate(own)}
        return clearance(own, [[2 * place[self.edges[side // 2]] + side % 2 for side in walk] for walk in self.faces[gap]])

    def longest(self, region, by_region):
        """The member with the greatest length shared with the region, the least of several."""
        lengths = Counter()
        for other, length in self.shared[region].items():
            if by_region.get(other) is not None:
                lengths[by_region[other]] += length
        return lengths

    def owners(self):
        alone = {r: label[0] for r, label in self.label.items() if len(label) == 1}
        owners = {}
        for r, label in self.label.items():
            lengths = self.longest(r, alone)
            owners[r] = max(label, key=lambda m: (lengths[m], -m)) if label else None
        widened = dict(owners)
        for r, label in self.label.items():
            if r != self.outer and not label and self.clearance(r) < GAP:
                lengths = self.longest(r, owners)
                widened[r] = max(lengths, key=lambda m: (lengths[m], -m))
        return widened


class Part:
    """The edges round a part, in the form that clean.py's rings_of reads."""

    def __init__(self, overlay, regions):
        sides = {side for r in regions for walk in overlay.faces[r] for side in walk}
        places = sorted({side // 2 for side in sides})
        self.edges = [overlay.edges[k] for k in places]
        self.region = {2 * at + s: overlay.region[2 * k + s] for at, k in enumerate(places) for s in (0, 1)}


def polygons(overlay, owned):
    owned, parts = set(owned), []
    while owned:
        part, new = set(), [owned.pop()]
        while new:
            r = new.pop()
            part.add(r)
            joined = [o for o in overlay.shared[r] if o in owned]
            owned.difference_update(joined)
            new += joined
        parts.append(polygon_of(rings_of(Part(overlay, part), part)))
    return sorted(parts)


def main():
    words = sys.argv[1:]
    if len(words) == 3 and words[0] == "--raw":
        for member in sampled(int(words[1]), int(words[2])):
            print("POLYGON (" + ", ".join(map(ring_text, member)) + ")")
        return
    if len(words) not in (2, 3):
        sys.exit(__doc__)
    members = sampled(int(words[0]), int(words[1]))
    overlay = Overlay(members)
    owned = defaultdict(list)
    for r, member in overlay.owners().items():
        owned[member].append(r)
    cleaned = [polygons(overlay, owned[m]) for m in range(len(members))]
    if len(words) == 3:
        with open(words[2], "w") as out:
            out.write("".join(map(member_text, cleaned)))
    points = sum(len(ring) for polys in cleaned for poly in polys for ring in poly)
    print(f"sampled: members {len(cleaned)}, polygons {sum(map(len, cleaned))}, points {points}")


if __name__ == "__main__":
    main()
