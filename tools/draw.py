#!/usr/bin/env python3
"""Draws a file of polygons, and over it the segments of a second file, as an SVG picture.

Usage: tools/draw.py POLYGONS.wkt [SEGMENTS.wkt [REGIONS.txt]] >PICTURE.svg
       tools/draw.py POLYGONS.wkt --places POINTS.txt ROWS.txt >PICTURE.svg
       tools/draw.py POLYGONS.wkt --faults MAP.geojson >PICTURE.svg

The polygons of each geometry have one colour; segments are drawn red. With the rows of `cover regions` as the third
file, the segments are those of `cover node`: then each region has its row's number, kind and label beside its least
side, and no segment is red. With --places the points of a points file are drawn, each with its row of `cover locate`.
With --faults a map that `cover_faults` wrote is drawn: marks are red, overlaps dark violet and gaps black, both with
their kind and members beside them. It reads plain well-known text, decimals too, and proves nothing.
"""
import json
import math
import re
import sys

COLOURS = ["#9ecae1", "#a1d99b", "#fdd0a2", "#bcbddc", "#fdae6b", "#c7e9c0"]
FAULT_COLOURS = {"overlap": "#54278f", "gap": "#000"}
SIZE = 480
MARGIN = 24


def geometries(text):
    """Yield (word, list of rings or lines) of each geometry; each ring is a list of points."""
    for found in re.finditer(r"(?i)(MULTIPOLYGON|POLYGON|MULTILINESTRING)\s*((?:EMPTY)|\()", text):
        if found.group(2).upper() == "EMPTY":
            yield found.group(1).upper(), []
            continue
        depth, end = 0, found.end() - 1
        while True:
            depth += {"(": 1, ")": -1}.get(text[end], 0)
            end += 1
            if depth == 0:
                break
        body = text[found.end() - 1:end]
        rings = [[tuple(float(n) for n in pair.split()) for pair in ring.split(",")]
                 for ring in re.findall(r"\(([^()]+)\)", body)]
        yield found.group(1).upper(), rings


def rows(segments, regions, place):
    """Yield the text of each row, beside the least side of its region and along it."""
    lists = [lines for _, lines in geometries(open(segments).read())]
    live = sorted({tuple(line) for lines in lists[1:] for line in lines})
    for row in open(regions):
        number, kind, label = row.split()[:3]
        words = " ".join(word for word in (number, kind, label) if word != "-")
        (x, y), (u, v) = (map(float, place(end).split(",")) for end in live[int(number) // 2])
        turn = math.atan2(v - y, u - x)
        off = -7 if int(number) % 2 == 0 else 7
        where = f"translate({(x + u) / 2:.1f} {(y + v) / 2:.1f}) rotate({math.degrees(turn):.1f}) translate(0 {off})"
        yield f'<text transform="{where}" text-anchor="middle" dy="0.35em">{words}</text>'


def places(points, located, place):
    """Yield the dot of each point, and the text of its row beside it."""
    for p, row in zip(points, open(located)):
        x, y = map(float, place(p).split(","))
        yield f'<circle cx="{x:.1f}" cy="{y:.1f}" r="4"/>'
        yield f'<text x="{x + 9:.1f}" y="{y:.1f}" dy="0.35em">{row.strip()}</text>'


def faults(map_name):
    """The marked segments of a map, and its areas: the kind of each, its members and its rings."""
    marked, areas = [], []
    for feature in json.load(open(map_name))["features"]:
        shape, held = feature["geometry"], feature["properties"]
        if shape["type"] == "LineString":
            marked.append([tuple(p) for p in shape["coordinates"]])
        else:
            rings = [[tuple(p) for p in ring] for ring in shape["coordinates"]]
            areas.append((held["kind"], held["members"], rings))
    return marked, areas


def path_of(rings, place):
    return " ".join("M" + " L".join(place(p) for p in ring) + " Z" for ring in rings)


def area(kind, members, rings, place):
    """Yield the filled area, and the text of its kind and members above it, or beside it where it is high."""
    colour = FAULT_COLOURS[kind]
    yield f'<path d="{path_of(rings, place)}" fill="{colour}" fill-rule="evenodd" stroke="{colour}" stroke-width="1"/>'
    xs, ys = zip(*(map(float, place(p).split(",")) for ring in rings for p in ring))
    x, y = (min(xs) + max(xs)) / 2, (min(ys) + max(ys)) / 2
    words = f"{kind} {','.join(map(str, members))}"
    if max(xs) - min(xs) > max(ys) - min(ys):
        yield f'<text x="{x:.1f}" y="{min(ys) - 9:.1f}" text-anchor="middle">{words}</text>'
    else:
        yield f'<text x="{max(xs) + 9:.1f}" y="{y:.1f}" dy="0.35em">{words}</text>'


def main():
    located = sys.argv[4] if sys.argv[2:3] == ["--places"] and len(sys.argv) == 5 else None
    dots = [tuple(map(int, line.split())) for line in open(sys.argv[3]) if line.strip()] if located else []
    fault_map = sys.argv[3] if sys.argv[2:3] == ["--faults"] and len(sys.argv) == 4 else None
    if located or fault_map:
        del sys.argv[2:]
    if len(sys.argv) not in (2, 3, 4):
        sys.exit(__doc__)
    members = [rings for _, rings in geometries(open(sys.argv[1]).read())]
    marked = []
    if len(sys.argv) == 3:
        marked = [line for _, lines in geometries(open(sys.argv[2]).read()) for line in lines]
    areas = []
    if fault_map:
        marked, areas = faults(fault_map)
    shown = members + [rings for _, _, rings in areas]
    points = [p for rings in shown for ring in rings for p in ring] + [p for line in marked for p in line] + dots
    left, bottom = min(x for x, _ in points), min(y for _, y in points)
    width = max(x for x, _ in points) - left or 1
    height = max(y for _, y in points) - bottom or 1
    scale = (SIZE - 2 * MARGIN) / max(width, height)

    def place(p):
        return f"{MARGIN + (p[0] - left) * scale:.1f},{MARGIN + (bottom + height - p[1]) * scale:.1f}"

    high = height * scale + 2 * MARGIN
    wide = width * scale + 2 * MARGIN
    print(f'<svg xmlns="http://www.w3.org/2000/svg" width="{wide:.0f}" height="{high:.0f}">')
    for number, rings in enumerate(members):
        colour = COLOURS[number % len(COLOURS)]
        print(f'  <path d="{path_of(rings, place)}" fill="{colour}" fill-opacity="0.7" fill-rule="evenodd" stroke="#555" stroke-width="1"/>')
    for line in marked:
        print(f'  <polyline points="{" ".join(place(p) for p in line)}" fill="none" stroke="#d00" stroke-width="4"/>')
    if areas:
        print('  <g font-family="sans-serif" font-size="14">')
        for text in (text for kind, held, rings in areas for text in area(kind, held, rings, place)):
            print("    " + text)
        print("  </g>")
    if len(sys.argv) == 4:
        print('  <g font-family="sans-serif" font-size="10">')
        for text in rows(sys.argv[2], sys.argv[3], place):
            print("    " + text)
        print("  </g>")
    if located:
        print('  <g font-family="sans-serif" font-size="14">')
        for text in places(dots, located, place):
            print("    " + text)
        print("  </g>")
    print("</svg>")


if __name__ == "__main__":
    main()
