#!/usr/bin/env python3
"""Compares what `cover simplify` writes with a plain greedy run that tries all points at each step.

Usage: tools/simplify.py TOLERANCE [--inner] FILE..  writes each file, which is valid, simplified by the definitions
       tools/simplify.py --random COUNT [SIZE]       makes so many coverages of about SIZE segments (40, if not told),
                                                     cleans them by the program, simplifies them at several tolerances,
                                                     with and without --inner, and compares the bytes with the program's

PROGRAM in the environment names another program than the proved one. Lines are walked here on maps of points, and the
triangle of each point is told anew at each step.
"""
import pathlib
import random
import re
import subprocess
import sys
import tempfile
from collections import Counter

import marks
from clean import RULES, member_text, ring_text
from regions import PROGRAM, members_of, random_coverage, turn, uses_of


def polygons_of(text):
    """The polygons of each geometry, each a list of rings without the closing point."""
    return [[members_of(f"POLYGON ({body})")[0] for body in re.findall(r"\(((?:\([^()]*\)[\s,]*)+)\)", line)]
            for line in re.split(r"(?i)(?:MULTI)?POLYGON", text)[1:]]


def segment(a, b):
    return (min(a, b), max(a, b))


def steps(points):
    return list(zip(points, points[1:]))


# ---- lines

def lines_of(segments):
    """All lines, each in its lesser direction, in lexicographic order."""
    beside = {}
    for a, b in segments:
        beside.setdefault(a, []).append(b)
        beside.setdefault(b, []).append(a)
    nodes = {p for p, others in beside.items() if len(others) != 2}
    lines = set()

    def walk_from(node):
        for p in beside[node]:
            line = [node, p]
            while line[-1] not in nodes:
                before, here = line[-2:]
                line += [q for q in beside[here] if q != before]
            lines.add(min(tuple(line), tuple(line[::-1])))

    for node in list(nodes):
        walk_from(node)
    while left := set(beside) - {p for line in lines for p in line}:
        nodes.add(min(left))
        walk_from(min(left))
    return sorted(lines)


def is_inner(uses, line):
    """Whether two members have all segments of the line."""
    held = Counter(member for a, b in steps(line) for member in {m for m, s in uses if s == segment(a, b)})
    return sum(n == len(line) - 1 for n in held.values()) >= 2


# ---- the run

def is_in_triangle(p, a, b, c):
    """Whether a point is in the closed triangle, which may be flat."""
    turns = turn(a, b, p), turn(b, c, p), turn(c, a, p)
    return not min(turns) < 0 < max(turns) and min(a, b, c) <= p <= max(a, b, c)


def spots(lines, removed):
    """The size of the triangle, the line and the place of each point between the ends of lines, with the triangle."""
    for number, line in enumerate(lines):
        left = [(place, p) for place, p in enumerate(line) if p not in removed]
        for (_, a), (place, b), (_, c) in zip(left, left[1:], left[2:]):
            yield (abs(turn(a, b, c)), number, place), (a, b, c)


def next_point(lines, removed, tolerance, losing):
    """The point at the least spot of those that are removable, or None."""
    left = [[p for p in line if p not in removed] for line in lines]
    vertices = {p for line in left for p in line}
    joined = {segment(a, b) for line in left for a, b in steps(line)}
    for (size, number, _), (a, b, c) in sorted(spots(lines, removed)):
        if (size <= 2 * tolerance ** 2 and number in losing and segment(a, c) not in joined
                and not any(is_in_triangle(p, a, b, c) for p in vertices - {a, b, c})):
            return b
    return None


def removed_by_run(uses, tolerance, inner):
    lines = lines_of({s for _, s in uses})
    losing = {number for number, line in enumerate(lines) if not inner or is_inner(uses, line)}
    removed = set()
    while (b := next_point(lines, removed, tolerance, losing)) is not None:
        removed.add(b)
    return removed


# ---- what is left

def ring_without(ring, removed):
    return [p for p in ring if p not in removed] if len(set(ring)) > 1 else ring


def simplified(text, tolerance, inner):
    removed = removed_by_run(uses_of(members_of(text)), tolerance, inner)
    return "".join(member_text([[ring_without(ring, removed) for ring in rings] for rings in polygons])
                   for polygons in polygons_of(text))


# ---- random cases

def run(folder, words, text):
    (folder / "in").write_text(text)
    ran = subprocess.run([PROGRAM, *words], cwd=folder, stdout=subprocess.PIPE)
    if ran.returncode != 0:
        sys.exit(f"WRONG, {' '.join(words)}: {ran.stdout.decode()}{text}")
    return (folder / "out").read_text()


def varied(ring):
    """A ring from another point on, maybe the other way round, maybe with a point twice; with one of a single point."""
    at = random.randrange(len(ring))
    ring = ring[at:] + ring[:at]
    if random.random() < 0.5:
        ring.reverse()
    twice = random.randrange(len(ring))
    if random.random() < 0.2:
        ring.insert(twice, ring[twice])
    return [ring, [ring[twice]] * 3] if random.random() < 0.1 else [ring]


def random_strips(size):
    """Members between one crooked line and the next; lines are close by or cross."""
    lines, step = random.randint(2, 4), random.randint(1, 5)
    apart, swing = random.choice([1, 5, 20]), random.choice([1, 3, 10, 40])
    crooked = [[(step * k, apart * n + random.randint(-swing, swing)) for k in range(max(2, size // lines))]
               for n in range(lines)]
    return "".join(f"POLYGON ({ring_text(low + high[::-1])})\n" for low, high in zip(crooked, crooked[1:]))


def valid_coverage(folder, size):
    """One of three kinds of random coverages; cleaned, and its rings written in other ways."""
    text = random.choice([random_coverage, lambda: marks.random_coverage(size), lambda: random_strips(size)])()
    words = ["--rule", random.choice(RULES), "--gap", str(random.randrange(4))]
    text = run(folder, ["clean", "in", "out", *words], text)
    return "".join(member_text([[ring for one in rings for ring in varied(one)] for rings in polygons])
                   for polygons in polygons_of(text))


def compare(count, size):
    with tempfile.TemporaryDirectory() as name:
        folder = pathlib.Path(name)
        compared = 0
        for seed in range(count):
            random.seed(seed)
            text = valid_coverage(folder, size)
            for tolerance in [0, 1, random.randint(2, 5), random.randint(6, 100), 2**30]:
                for inner in [[], ["--inner"]]:
                    wanted = simplified(text, tolerance, bool(inner))
                    words = ["simplify", "in", "out", "--tolerance", str(tolerance), *inner]
                    came = run(folder, words, text)
                    compared += 1
                    if came != wanted:
                        sys.exit(f"WRONG, seed {seed}, {' '.join(words)}:\n{text}wanted:\n{wanted}came:\n{came}")
    print(f"{count} coverages of about {size} segments, simplified in {compared} ways: "
          "the bytes are those of the plain greedy run")


def main():
    if len(sys.argv) in (3, 4) and sys.argv[1] == "--random":
        compare(int(sys.argv[2]), int(sys.argv[3]) if len(sys.argv) == 4 else 40)
    elif len(sys.argv) > 2 and sys.argv[1].isdigit():
        inner = sys.argv[2] == "--inner"
        for name in sys.argv[3 if inner else 2:]:
            sys.stdout.write(simplified(open(name).read(), int(sys.argv[1]), inner))
    else:
        sys.exit(__doc__)


if __name__ == "__main__":
    main()
