#!/usr/bin/env python3
"""Writes a road-like network as a .gr file to the standard output.

SIDE by SIDE junctions stand on a jittered grid. Streets join neighbours, one in eight only one way, and
one in twelve is left out. Every eighth row and column is an arterial road, every twenty-fourth a motorway
with ramps; faster roads have shorter times. Some streets have a parallel service lane, some junctions a
dead-end stub, and a few a loop. Lengths are travel times in tenths of a second.

The file is as such files are: comment lines and blank lines stand among the arcs, and some of its lines end with CR LF.
The same seed and side give the same bytes.
"""
import sys

import drawing
import program


def speed(line):
    if line % 24 == 12:
        return 31
    if line % 8 == 4:
        return 17
    return 9


def network(seed, side):
    words = drawing.words(seed)

    def below(n):
        return next(words) % n

    place = [(100 * c + below(41), 100 * r + below(41)) for r in range(side) for c in range(side)]
    arcs = []

    def time(u, v, metres_a_second):
        (x, y), (a, b) = place[u], place[v]
        return max(1, 10 * (abs(x - a) + abs(y - b)) // metres_a_second)

    def street(u, v, fast):
        if fast == 9 and below(12) == 0:
            return
        length = time(u, v, fast)
        one_way = fast == 9 and below(8) == 0
        if not one_way or below(2) == 0:
            arcs.append((u, v, length))
        else:
            arcs.append((v, u, length))
        if not one_way:
            arcs.append((v, u, length + below(3)))
        if below(40) == 0:
            arcs.append((u, v, length + below(5)))

    for r in range(side):
        for c in range(side):
            u = r * side + c
            if c + 1 < side:
                street(u, u + 1, speed(r))
            if r + 1 < side:
                street(u, u + side, speed(c))
            if below(200) == 0:
                arcs.append((u, u, 1 + below(50)))
    vertices = side * side
    for _ in range(vertices // 20):
        u = below(side * side)
        length = 20 + below(200)
        arcs.append((u, vertices, length))
        arcs.append((vertices, u, length))
        vertices += 1
    return vertices, arcs


def text(vertices, arcs, title):
    """The lines of the file."""
    yield "c %s\n" % title
    yield "c\r\n"
    yield "c%s\n" % ("-" * 300)
    yield "\n"
    yield "p sp %d %d\n" % (vertices, len(arcs))
    for number, (u, v, length) in enumerate(arcs, 1):
        if number % 250 == 1:
            yield "c arcs from %d on%s" % (number, "\r\n" if number % 500 == 1 else "\n")
        if number % 400 == 0:
            yield ["\n", "\r\n", "  \n", "\t\r\n"][number // 400 % 4]
        if number % 1000 == 0:
            yield " c a %d %d %d is left out\n" % (v + 1, u + 1, length)
        has_return = number % 97 == 0 or number // 300 % 5 == 3
        yield "a %d %d %d%s" % (u + 1, v + 1, length, "\r\n" if has_return else "\n")
    yield "c end\n"


def main():
    words = program.parser(__doc__)
    for name in ("seed", "side"):
        words.add_argument(name, type=int)
    given = words.parse_args()
    vertices, arcs = network(given.seed, given.side)
    title = "a road-like network made by bench/network.py %d %d" % (given.seed, given.side)
    sys.stdout.writelines(text(vertices, arcs, title))


if __name__ == "__main__":
    main()
