#!/usr/bin/env python3
"""Prints the table of figures of README.md from what bench/run wrote: out/count.txt, out/table.txt, out/hostile-count.txt and out/hostile.txt."""

import pathlib
import re

OUT = pathlib.Path(__file__).resolve().parent / "out"
ROW = re.compile(r"^(\S+) +(\d+)  ([A-Z]+ \d+) +([\d.]+) +([\d.]+) ", re.MULTILINE)
HEAD = ["question", "octets", "answer", "engine, instructions", "independent, instructions", "ratio", "engine, microseconds", "independent, microseconds"]


def costs(name, scale):
    """The questions of a file, with the engine's and the independent implementation's cost."""
    return {found[1]: (found[2], found[3], float(found[4]) * scale, float(found[5]) * scale) for found in ROW.finditer((OUT / name).read_text())}


def rows(counted, timed, scale):
    """The table's rows for two files."""
    times = costs(timed, scale)
    for name, (octets, answer, engine, independent) in costs(counted, 1).items():
        yield [name, octets, answer, *("{:,.0f}".format(cost) for cost in (engine, independent)), "%.2f" % (engine / independent),
               *("{:,.2f}".format(time) for time in times[name][2:])]


def main():
    for row in [HEAD, ["---"] * len(HEAD), *rows("count.txt", "table.txt", 1e-3), *rows("hostile-count.txt", "hostile.txt", 1)]:
        print("| %s |" % " | ".join(row))


if __name__ == "__main__":
    main()
