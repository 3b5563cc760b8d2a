#!/usr/bin/env python3
"""Writes a network of a plain shape, in which much is near, as a .gr file to the standard output.

All lengths are 1, and each arc stands beside one back.

star N    vertex 1 is joined to N leaves
path N    N vertices, each joined to the next
ladder N  two paths of N vertices, 1 to N and N + 1 to 2 N, and a rung between each two of one place
hubs N    vertices 1 and 2 are joined to the same N leaves, and not to each other
clique N  N vertices, each joined to each other
"""
import itertools
import sys

import program

LENGTH = 1


def star(count):
    return count + 1, ((1, leaf) for leaf in range(2, count + 2))


def path(count):
    return count, ((v, v + 1) for v in range(1, count))


def ladder(count):
    sides = (pair for v in range(1, count) for pair in ((v, v + 1), (count + v, count + v + 1)))
    return 2 * count, itertools.chain(sides, ((v, count + v) for v in range(1, count + 1)))


def hubs(count):
    return count + 2, ((hub, leaf) for leaf in range(3, count + 3) for hub in (1, 2))


def clique(count):
    return count, itertools.combinations(range(1, count + 1), 2)


SHAPES = {shape.__name__: shape for shape in (star, path, ladder, hubs, clique)}


def text(shape, count):
    """The lines of the file."""
    vertices, pairs = SHAPES[shape](count)
    pairs = list(pairs)
    yield "p sp %d %d\n" % (vertices, 2 * len(pairs))
    for u, v in pairs:
        yield "a %d %d %d\na %d %d %d\n" % (u, v, LENGTH, v, u, LENGTH)


def network_file(shape, count):
    """The path of a file that holds this network."""
    name = program.out_file("%s-%d.gr" % (shape, count))
    with open(name, "w", encoding="ascii") as file:
        file.writelines(text(shape, count))
    return name


def main():
    words = program.parser(__doc__)
    words.add_argument("shape", choices=list(SHAPES))
    words.add_argument("count", type=int, metavar="N")
    given = words.parse_args()
    sys.stdout.writelines(text(given.shape, given.count))


if __name__ == "__main__":
    main()
