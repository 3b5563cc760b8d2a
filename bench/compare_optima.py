#!/usr/bin/env python3
"""Compares the replies to `optimum` lines of random pairs with the definitions, byte for byte."""
import os
import sys

import drawing
import plain
import program


def main():
    words = program.parser(__doc__)
    words.add_argument("graph", nargs="?", default=os.path.join(program.TOP, "examples", "city.gr"))
    words.add_argument("count", nargs="?", type=int, default=1000)
    given = words.parse_args()
    graph = plain.read_graph(given.graph)
    requests = drawing.requests("optimum", 1, given.count, graph.vertices)
    status, output = program.road("answer", given.graph, text=requests)
    if status != 0 or output != plain.replies(graph, requests):
        print("different: status %d" % status)
        sys.exit(1)
    print("%d pairs on %d vertices and %d arcs: the same bytes" % (given.count, graph.vertices, len(graph.arcs)))


if __name__ == "__main__":
    main()
