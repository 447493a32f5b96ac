#!/usr/bin/env python3
"""text.py [N]: how long the proved reader and writer take on N rows of N squares (900 where none is given: 60 MB).

In one run, each three times, the least of the processor seconds: `LC_ALL=C wc -w` of the file; `bench_text` reading
it; `bench_text` reading it and writing it back, whose difference to reading is the writing; `cat` of the file; and
the plain fprintf writer of write.cpp, to a file. The text that is written back must be the file. It needs GNU time,
as /usr/bin/time, g++, and the program bench_text, which `rt run -- x` in crates/bench_text proves and builds.
"""

import os
import pathlib
import subprocess
import sys
import tempfile

TOP = pathlib.Path(__file__).resolve().parent.parent
PROGRAM = TOP / "crates/bench_text/out/bench_text"


def measured(folder, words, output=subprocess.DEVNULL):
    """The least processor seconds of three runs, and the peak KiB."""
    best = None
    for _ in range(3):
        timed = ["/usr/bin/time", "-f", "%U %S %M", "-o", "figures", *words]
        ran = subprocess.run(timed, cwd=folder, stdout=output, stderr=subprocess.DEVNULL, env={**os.environ, "LC_ALL": "C"})
        if ran.returncode != 0:
            sys.exit(f"text.py: {words} ended with {ran.returncode}")
        user, system, peak = (folder / "figures").read_text().split()
        now = (float(user) + float(system), int(peak))
        best = now if best is None or now < best else best
    return best


def main():
    count = sys.argv[1] if len(sys.argv) > 1 else "900"
    with tempfile.TemporaryDirectory() as name:
        folder = pathlib.Path(name)
        subprocess.run(["g++", "-O2", "-o", "write", TOP / "bench/write.cpp"], cwd=folder, check=True)
        with open(folder / "in", "wb") as out:
            subprocess.run([sys.executable, TOP / "bench/squares.py", count], stdout=out, check=True)
        size = (folder / "in").stat().st_size
        words = measured(folder, ["wc", "-w", "in"])
        read = measured(folder, [PROGRAM, "in"])
        both = measured(folder, [PROGRAM, "in", "out"])
        if (folder / "in").read_bytes() != (folder / "out").read_bytes():
            sys.exit("text.py: the text that was written back is not the file")
        with open(folder / "copy", "wb") as out:
            cat = measured(folder, ["cat", "in"], out)
        with open(folder / "plain", "wb") as out:
            plain = measured(folder, ["./write", count], out)
        print(f"bytes {size}")
        print(f"wc -w            {words[0]:.2f} s")
        print(f"reading          {read[0]:.2f} s, {read[0] / words[0]:.1f} times wc, peak {read[1] * 1024 / size:.1f} times the file")
        print(f"writing          {both[0] - read[0]:.2f} s (both {both[0]:.2f} s, peak {both[1] * 1024 / size:.1f} times the file)")
        print(f"cat              {cat[0]:.2f} s")
        print(f"fprintf, with its points made {plain[0]:.2f} s")


if __name__ == "__main__":
    main()
