#!/usr/bin/env python3
"""Measures the hierarchy of whole networks: the order of contraction, shape and lengths, the lengths anew, and distances.

A graph is named as for routes.py: a file, or `grid:W:H`, or `road:SIDE`, or one of bench/networks.py. Each round runs the
program `hierarchy_times`, which the gate builds. Times are those of the quickest round; the spread is the greatest of a
round's sums by the least. A distance is the mean over random pairs, and `to 1000` the time of the distances from one vertex to
a thousand, the laying out of their labels included; `again` is the mean over ten vertices, one after another in the same
labels. Memory is the peak of the resident set, with the graph's own.
"""
import os
import subprocess
import sys

import figures
import program
import routes

TIMES = os.path.join(program.TOP, "crates", "hierarchy_times", "out", "hierarchy_times")
PARTS = ["order", "contract", "customise", "distances", "many", "again"]
SOURCES = 10  # of `again`


def run(path, pairs):
    """The microseconds of each part, and what was found."""
    done = subprocess.run([TIMES, path, str(pairs)], stdout=subprocess.PIPE, stderr=subprocess.PIPE, timeout=program.SECONDS)
    if done.returncode != 0:
        sys.exit("`hierarchy_times` ended with status %d" % done.returncode)
    return {part: int(time) for part, time in map(str.split, done.stderr.decode().splitlines())}, done.stdout


def main():
    words = program.parser(__doc__)
    words.add_argument("graphs", nargs="*", default=routes.USUAL)
    words.add_argument("--pairs", type=int, default=1000)
    words.add_argument("--rounds", type=int, default=3)
    given = words.parse_args()
    print("| graph | vertices | order, ms | contract, ms | customise, ms | distance, us | to 1000, ms | again, ms | spread | memory, MB |")
    print("|---|---|---|---|---|---|---|---|---|---|")
    for name in given.graphs:
        path = routes.graph_file(name)
        runs = [run(path, given.pairs) for _round in range(given.rounds)]
        if any(found != runs[0][1] for _times, found in runs):
            sys.exit("%s: two runs found other distances" % name)
        sums = [sum(times.values()) for times, _found in runs]
        least = {part: min(times[part] for times, _found in runs) for part in PARTS}
        row = [os.path.basename(name), figures.vertices_of(path)]
        row += ["%.0f" % (least[part] / 1000) for part in PARTS[:3]]
        row += ["%.1f" % (least["distances"] / given.pairs), "%.2f" % (least["many"] / 1000)]
        row += ["%.2f" % (least["again"] / 1000 / SOURCES), "%.2f" % (max(sums) / min(sums))]
        memory = figures.peak([TIMES, path, str(given.pairs)], b"")
        print("| %s | %d | %s | %s | %s | %s | %s | %s | %s | %d |" % (*row, memory), flush=True)


if __name__ == "__main__":
    main()
