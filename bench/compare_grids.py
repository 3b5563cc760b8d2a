#!/usr/bin/env python3
"""Compares the commands over files and grids with the plain script for grids and with the definitions, byte for byte.

`road make` is compared with bench/grid.py, `road check` and `road print` on grids and on the larger example, and `road
survey` with the definitions on small grids. With --large a grid of a million vertices is made too. It ends with 1 where a
byte differs, and leaves the two texts in bench/out (grid.expected, grid.replied).
"""
import os
import random
import sys

import drawing
import grid
import plain
import program

LARGEST_SEED = 10**19 - 1


def demand(words, expected):
    """Runs the program over these words, whose output is known."""
    status, output = program.road(*(str(word) for word in words))
    if status != 0 or output != expected:
        program.save("grid.expected", expected)
        program.save("grid.replied", output)
        print("`road %s` differs: status %d" % (" ".join(str(word) for word in words), status))
        sys.exit(1)


def demand_read(path, vertices, arcs, text):
    """Of a file of that many vertices and arcs; the text is the graph's with no needless byte."""
    demand(["check", path], b"graph vertices %d arcs %d\n" % (vertices, arcs))
    demand(["print", path], text)


def demand_made(seed, width, height):
    text = "".join(grid.text(seed, width, height)).encode()
    demand(["make", seed, width, height], text)
    demand_read(program.save("grid.gr", text), width * height, text.count(b"\n") - 1, text)


def survey(seed, width, height, queries):
    source = drawing.words(seed)
    graph = plain.Graph(width * height, list(grid.arcs(source, width, height)))
    none, lengths = 0, []
    for _ in range(queries):
        start, target = 1 + next(source) % graph.vertices, 1 + next(source) % graph.vertices
        query = plain.Query(graph, start, target, *plain.RATIOS.values())
        if query.optimum is None:
            none += 1
        else:
            lengths += [query.shortest] + [length for _rank, _name, length, *_others in query.alternatives()]
    return "graph vertices %d arcs %d\nqueries %d none %d\nroutes %d length %d\nend\n" % (
        graph.vertices, len(graph.arcs), queries, none, len(lengths), sum(lengths))


def main():
    words = program.parser(__doc__)
    words.add_argument("--large", action="store_true", help="make a grid of a million vertices too")
    given = words.parse_args()
    city = os.path.join(program.TOP, "examples", "city.gr")
    graph = plain.read_graph(city)
    demand_read(city, graph.vertices, len(graph.arcs), plain.graph_text(graph))
    chance = random.Random(1)
    grids = [(0, 2, 1), (0, 1, 1), (7, 6, 6), (LARGEST_SEED, 1, 9), (5, 9, 1), (3, 100, 70)]
    grids += [(chance.randint(0, LARGEST_SEED), chance.randint(1, 30), chance.randint(1, 30)) for _ in range(10)]
    if given.large:
        grids.append((7, 1000, 1000))
    for each in grids:
        demand_made(*each)
    surveys = [(7, 6, 6, 5), (0, 2, 1, 1), (0, 1, 1, 3), (LARGEST_SEED, 8, 1, 4)]
    surveys += [tuple(chance.randint(1, most) for most in (LARGEST_SEED, 8, 8, 8)) for _ in range(15)]
    for each in surveys:
        demand(["survey", *each], survey(*each).encode())
    print("%d grids, %d surveys: the same bytes" % (len(grids), len(surveys)))


if __name__ == "__main__":
    main()
