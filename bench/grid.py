#!/usr/bin/env python3
"""Writes the generated grid as a .gr file to the standard output.

Vertex r * WIDTH + c + 1 stands in row r and column c. By rising vertex, and to the right before down, each pair of
neighbours gets an arc there and one back. Each arc takes the next word of SplitMix64 and has the length
1 + word mod 1000.
"""
import sys

import drawing
import program


def arcs(source, width, height):
    """The arcs (tail, head, length) by rising number, with lengths by the words of the source."""
    for v in range(1, width * height + 1):
        neighbours = []
        if v % width != 0:
            neighbours.append(v + 1)
        if v + width <= width * height:
            neighbours.append(v + width)
        for w in neighbours:
            yield v, w, 1 + next(source) % 1000
            yield w, v, 1 + next(source) % 1000


def text(seed, width, height):
    """The lines of the file."""
    count = 2 * ((width - 1) * height + width * (height - 1))
    yield "p sp %d %d\n" % (width * height, count)
    for arc in arcs(drawing.words(seed), width, height):
        yield "a %d %d %d\n" % arc


def main():
    words = program.parser(__doc__)
    for name in ("seed", "width", "height"):
        words.add_argument(name, type=int)
    given = words.parse_args()
    sys.stdout.writelines(text(given.seed, given.width, given.height))


if __name__ == "__main__":
    main()
