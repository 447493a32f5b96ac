#!/usr/bin/env python3
"""node.py [SEGMENTS..]: how long the proved program takes to node a row of squares that overlap.

Each square is tilted by a few units, so it crosses the next one away from the grid. For each number of segments (500,
1,000 and 2,000 where none is given) it prints the seconds of processor and the peak memory of the program. PROGRAM in
the environment names another program than the proved one. It needs GNU time, as /usr/bin/time.
"""

import os
import pathlib
import subprocess
import sys
import tempfile

TOP = pathlib.Path(__file__).resolve().parent.parent
PROGRAM = pathlib.Path(os.environ.get("PROGRAM", TOP / "build/cover")).resolve()


def square(number):
    left, tilt = 48 * number, number % 7 + 1
    corners = [(left, 0), (left + 64, tilt), (left + 64 - tilt, 64 + tilt), (left - tilt, 64)]
    ring = ", ".join(f"{x} {y}" for x, y in [*corners, corners[0]])
    return f"POLYGON (({ring}))\n"


def measure(operation, of_what):
    """Runs the operation on each row, and prints its figures and how many things `of_what` finds in its text."""
    for count in [int(word) for word in sys.argv[1:]] or [500, 1000, 2000]:
        with tempfile.TemporaryDirectory() as name:
            folder = pathlib.Path(name)
            (folder / "row").write_text("".join(square(number) for number in range(count // 4)))
            words = ["/usr/bin/time", "-f", "%U %S %M", "-o", "figures", PROGRAM, operation, "row", "out"]
            ran = subprocess.run(words, cwd=folder, stdout=subprocess.PIPE)
            if ran.stdout != b"done\n" or ran.returncode != 0:
                sys.exit(f"{operation}: {count} segments: a wrong answer {ran.stdout!r}, status {ran.returncode}")
            user, system, peak = (folder / "figures").read_text().split()
            print(f"{count} segments: {float(user) + float(system):.2f} s, {peak} KiB, {of_what((folder / 'out').read_text())}")


def main():
    measure("node", lambda text: f"{text.split(chr(10), 1)[0].count('(') - 1} noded edges")


if __name__ == "__main__":
    main()
