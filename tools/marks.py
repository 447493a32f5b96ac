#!/usr/bin/env python3
"""Compares what `cover validate` and `cover node` write with a plain reading of the definitions that tries all pairs.

Usage: tools/marks.py FILE..                 writes the marked segments of each file by the definitions
       tools/marks.py --random COUNT [SIZE]  makes so many coverages of about SIZE segments (60, if not told) and compares
                                             the bytes with the proved program's

PROGRAM in the environment names another program than the proved one. Noding is that of tools/regions.py.
"""
import pathlib
import random
import subprocess
import sys
import tempfile
from fractions import Fraction as F

from regions import PROGRAM, is_over, members_of, noded, side_point, turn, uses_of


def is_on(p, s):
    return turn(s[0], s[1], p) == 0 and s[0] <= p <= s[1]


def meets_badly(s, t):
    """Whether two unequal segments have a point in common that is not an end of both."""
    if s == t or s[1][0] < t[0][0] or t[1][0] < s[0][0]:
        return False
    (a, b), (c, d) = s, t
    if any(is_on(p, q) and p not in q for p, q in ((a, t), (b, t), (c, s), (d, s))):
        return True
    p, q, u, v = turn(a, b, c), turn(a, b, d), turn(c, d, a), turn(c, d, b)
    return p * q < 0 and u * v < 0


def holders(uses, p):
    """The members that hold the point."""
    odd = set()
    for member, e in uses:
        if is_over(e, p):
            odd ^= {member}
    return odd


def is_marked(uses, users, met, place):
    member, s = uses[place]
    if s in met or uses.count((member, s)) > 1:
        return True
    above = holders(uses, side_point([s], 0))
    if any((other in above) == (member in above) for other in users[s] if other != member):
        return True
    middle = (F(s[0][0] + s[1][0], 2), F(s[0][1] + s[1][1], 2))
    return any(other not in users[s] for other in holders(uses, middle))


def lines(segments):
    texts = [f"({a[0]} {a[1]}, {b[0]} {b[1]})" for a, b in segments]
    return f"MULTILINESTRING ({', '.join(texts)})\n" if texts else "MULTILINESTRING EMPTY\n"


def marks(text):
    members = members_of(text)
    uses = uses_of(members)
    users = {}
    for member, s in uses:
        users.setdefault(s, set()).add(member)
    met = {s for s in users if any(meets_badly(s, t) for t in users)}
    marked = [use for place, use in enumerate(uses) if is_marked(uses, users, met, place)]
    return "".join(lines([s for member, s in marked if member == i]) for i in range(len(members)))


def edges(text):
    members = members_of(text)
    counts = noded(uses_of(members))
    odd = [sorted(e for (member, e), n in counts.items() if member == i and n % 2 == 1) for i in range(len(members))]
    return lines(sorted({e for _, e in counts})) + "".join(map(lines, odd))


def random_coverage(size):
    """Members of one ring of a few points each, near each other or all over the grid."""
    width = random.choice([3, 10, 100, 1000])
    spread = random.choice([2, 10, width])
    members = []
    while sum(map(len, members)) < size:
        x, y = random.randint(-width, width), random.randint(-width, width)
        members.append([(x + random.randint(-spread, spread), y + random.randint(-spread, spread))
                        for _ in range(random.randint(3, 6))])
    return "".join("POLYGON ((" + ", ".join(f"{x} {y}" for x, y in ring + ring[:1]) + "))\n" for ring in members)


def expect(folder, word, text, wanted, seed):
    (folder / "in").write_text(text)
    subprocess.run([PROGRAM, word, "in", "out"], cwd=folder, stdout=subprocess.PIPE)
    came = (folder / "out").read_text()
    if came != wanted:
        sys.exit(f"WRONG, seed {seed}, {word}:\n{text}wanted:\n{wanted}came:\n{came}")


def compare(count, size):
    with tempfile.TemporaryDirectory() as name:
        folder = pathlib.Path(name)
        for seed in range(count):
            random.seed(seed)
            text = random_coverage(size)
            expect(folder, "validate", text, marks(text), seed)
            expect(folder, "node", text, edges(text), seed)
    print(f"{count} coverages of about {size} segments: marks and edges are those of the definitions")


def main():
    if len(sys.argv) in (3, 4) and sys.argv[1] == "--random":
        compare(int(sys.argv[2]), int(sys.argv[3]) if len(sys.argv) == 4 else 60)
    elif len(sys.argv) > 1 and not sys.argv[1].startswith("-"):
        for name in sys.argv[1:]:
            sys.stdout.write(marks(open(name).read()))
    else:
        sys.exit(__doc__)


if __name__ == "__main__":
    main()
