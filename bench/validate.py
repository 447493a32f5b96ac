#!/usr/bin/env python3
"""validate.py [COUNT..]: how long the proved program takes to validate a row of COUNT squares.

Each square shares a side with the next, as parcels do, so nothing is at fault. For each count (500, 1,000, 2,000
and 4,000 where none is given) it prints the seconds of processor and of clock, the peak memory of the program, and
the power of the count by which the processor time grew since the count before. PROGRAM in the environment names
another program than the proved one. It needs GNU time, as /usr/bin/time.
"""

import math
import os
import pathlib
import subprocess
import sys
import tempfile

TOP = pathlib.Path(__file__).resolve().parent.parent
PROGRAM = pathlib.Path(os.environ.get("PROGRAM", TOP / "build/cover")).resolve()
SIDE = 64


def square(column):
    left, right = SIDE * column, SIDE * (column + 1)
    return f"POLYGON (({left} 0, {right} 0, {right} {SIDE}, {left} {SIDE}, {left} 0))\n"


def validate(folder, count):
    """Validates a row of so many squares: processor seconds, clock seconds and peak KiB."""
    (folder / "row").write_text("".join(square(column) for column in range(count)))
    words = ["/usr/bin/time", "-f", "%U %S %e %M", "-o", "figures", PROGRAM, "validate", "row", "marks"]
    ran = subprocess.run(words, cwd=folder, stdout=subprocess.PIPE)
    written = (folder / "marks").read_text()
    if ran.stdout != b"done\n" or ran.returncode != 0 or written != "MULTILINESTRING EMPTY\n" * count:
        sys.exit(f"validate.py: {count} squares: a wrong answer {ran.stdout!r}, status {ran.returncode}")
    user, system, clock, peak = (folder / "figures").read_text().split()
    return float(user) + float(system), float(clock), int(peak)


def main():
    counts = [int(word) for word in sys.argv[1:]] or [500, 1000, 2000, 4000]
    if not PROGRAM.exists():
        sys.exit(f"validate.py: there is no program {PROGRAM}; ./run validate makes it")
    print(f"{'squares':>8} {'processor s':>12} {'clock s':>9} {'peak KiB':>9} {'power':>6}", flush=True)
    before = None
    with tempfile.TemporaryDirectory() as folder:
        for count in counts:
            seconds, clock, peak = validate(pathlib.Path(folder), count)
            power = math.log(seconds / before[1]) / math.log(count / before[0]) if before else None
            grown = f"{power:.2f}" if before else "-"
            print(f"{count:>8} {seconds:>12.2f} {clock:>9.2f} {peak:>9} {grown:>6}", flush=True)
            before = count, seconds


if __name__ == "__main__":
    main()
