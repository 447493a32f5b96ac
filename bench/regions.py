#!/usr/bin/env python3
"""regions.py [SEGMENTS..]: how long the proved program takes to write the regions of a row of squares that overlap.

The squares, the figures and the environment are those of node.py.
"""

import node


def main():
    node.measure("regions", lambda text: f"{text.count(chr(10))} regions")


if __name__ == "__main__":
    main()
