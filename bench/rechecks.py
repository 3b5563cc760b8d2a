#!/usr/bin/env python3
"""Measures `road recheck` over road-like networks of bench/network.py.

The network gets one more vertex, which no arc leads to. The certificate says that no path leads there from vertex 1: one block
with a row for each vertex that is reached, found plainly. So it measures reading, and the checks on rows, but none on
routes or vias. Times are those of the quickest round, less that of an empty certificate over the same graph, for which the
graph is read and laid out; the spread is the greatest by the least. Memory is the peak of the resident set, with the graph's
own.
"""
import heapq
import os

import figures
import network
import plain
import program


def rows(vertices, arcs):
    """(vertex, label, arc) of the canonical tree from vertex 1."""
    out = [[] for _ in range(vertices + 1)]
    for number, (tail, head, length) in enumerate(arcs, 1):
        out[tail].append((number, head, length))
    label, arc, queue, settled = {1: 0}, {1: 0}, [(0, 1)], set()
    while queue:
        length, v = heapq.heappop(queue)
        if v in settled:
            continue
        settled.add(v)
        for number, w, step in out[v]:
            found = length + step
            if w not in label or found < label[w] or (found == label[w] and number < arc[w]):
                if w not in label or found < label[w]:
                    heapq.heappush(queue, (found, w))
                label[w], arc[w] = found, number
    return [(v, label[v], arc[v]) for v in sorted(label)]


def main():
    words = program.parser(__doc__)
    words.add_argument("sides", nargs="*", type=int, default=[100, 316])
    words.add_argument("--rounds", type=int, default=3)
    given = words.parse_args()
    print("| vertices | certificate, MB | recheck, ms | MB/s | spread | memory, MB |")
    print("|---|---|---|---|---|---|")
    for side in given.sides:
        vertices, arcs = network.network(1, side)
        arcs = [(tail + 1, head + 1, length) for tail, head, length in arcs]
        vertices += 1
        graph = program.save("recheck.gr", plain.graph_text(plain.Graph(vertices, arcs)))
        lines = ["cert 1", "graph %d %d" % (vertices, len(arcs)), "query 1 %d 4/5 1/4 1/4" % vertices, "from 1 all"]
        lines += ["row %d %d %d" % row for row in rows(vertices, arcs)] + ["end", "none", "done"]
        text = "".join(line + "\n" for line in lines).encode()
        file = program.save("recheck.cert", text)
        empty = [program.built(), "recheck", graph, program.save("empty.cert", b"")]
        recheck = [program.built(), "recheck", graph, file]
        if program.run(recheck, check=True)[1] != b"yes 0\n":
            raise SystemExit("the certificate isn't accepted")
        reading = min(figures.seconds(empty, b"", False) for _round in range(given.rounds))
        times = [figures.seconds(recheck, b"") for _round in range(given.rounds)]
        took = min(times) - reading
        megabytes = len(text) / 1e6
        memory = figures.peak(recheck, b"")
        row = vertices, megabytes, took * 1000, megabytes / took, max(times) / min(times), memory
        print("| %d | %.1f | %.0f | %.0f | %.2f | %d |" % row, flush=True)


if __name__ == "__main__":
    main()
