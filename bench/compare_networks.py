#!/usr/bin/env python3
"""Compares `road answer` with the definitions on networks of some hundred to two thousand vertices, byte for byte.

python3 bench/compare_networks.py [COUNT] [--vertices LOW HIGH] [--seed SEED]

A network is a grid of random lengths, a grid full of ties or of equal lengths, a road-like lattice with faster rows, or a random
graph, each with one-way and parallel arcs; or a path, a star of leaves, or a small clique. The definitions are those of plain.py, over distances that are found once for each vertex. It
ends with 1 where a byte differs, and leaves that network in bench/out: network.gr and network.requests.
"""
import argparse
import heapq
import itertools
import random
import sys
import time

import plain
import program


class Network(plain.Graph):
    def distance(self, u, v):
        if u not in self.distances:
            found, queue = {}, [(0, u)]
            while queue:
                length, at = heapq.heappop(queue)
                if at in found:
                    continue
                found[at] = length
                for _number, head, step in self.out[at]:
                    if head not in found:
                        heapq.heappush(queue, (length + step, head))
            self.distances[u] = found
        return self.distances[u].get(v)


def lattice(chance, width, height, length):
    """Arcs both ways between neighbours of a grid, but for a few one-way streets, and some parallel ones."""
    arcs = []
    for row in range(height):
        for column in range(width):
            here = row * width + column + 1
            beside = [here + 1] if column + 1 < width else []
            below = [here + width] if row + 1 < height else []
            for other in beside + below:
                there, back = length(row, column), length(row, column)
                arcs.append((here, other, there))
                if chance.random() < 0.9:
                    arcs.append((other, here, back))
                if chance.random() < 0.03:
                    arcs.append((here, other, there + chance.randint(0, 1)))
    return width * height, arcs


def joined(chance, kind, vertices):
    """Arcs both ways between each vertex and the next, the first and each other, or each two; among few lengths."""
    least = chance.choice([1, 3])
    pairs = {
        "path": [(v, v + 1) for v in range(1, vertices)],
        "star": [(1, v) for v in range(2, vertices + 1)],
        "clique": list(itertools.combinations(range(1, vertices + 1), 2)),
    }
    arcs = []
    for u, v in pairs[kind]:
        arcs += [(u, v, chance.randint(least, 3)), (v, u, chance.randint(least, 3))]
    return vertices, arcs


def network_of(chance, low, high):
    vertices = chance.randint(low, high)
    width = max(2, int(vertices**0.5 * chance.uniform(0.6, 1.6)))
    height = max(2, vertices // width)
    kind = chance.choice(["grid", "ties", "equal", "road", "random", "path", "star", "clique"])
    if kind == "grid":
        return kind, Network(*lattice(chance, width, height, lambda row, column: chance.randint(1, 1000)))
    if kind == "ties":
        return kind, Network(*lattice(chance, width, height, lambda row, column: chance.randint(1, 2)))
    if kind == "equal":
        return kind, Network(*lattice(chance, width, height, lambda row, column: 7))
    if kind in ("path", "star", "clique"):
        return kind, Network(*joined(chance, kind, 40 if kind == "clique" else vertices))
    if kind == "road":

        def length(row, column):
            fast = 5 if row % 8 == 0 or column % 8 == 0 else 1
            return chance.randint(80, 120) // fast

        return kind, Network(*lattice(chance, width, height, length))
    arcs = []
    for _ in range(3 * vertices):
        arcs.append((chance.randint(1, vertices), chance.randint(1, vertices), chance.randint(1, 100)))
    return kind, Network(vertices, arcs)


def requests_of(chance, vertices):
    """A few requests of every kind, near and far."""
    lines = []
    for _ in range(3):
        source, target = chance.randint(1, vertices), chance.randint(1, vertices)
        options = chance.choice(["", " epsilon 1/10", " alpha 2/5", " gamma 1/2", " epsilon 1/2 alpha 1/2", " alpha 0/1"])
        lines.append("route %d %d%s size 64" % (source, target, options))
        for _ in range(4):
            lines.append("why %d %d %d%s" % (source, target, chance.randint(1, vertices), options))
    lines.append("route %d %d" % (source, source))
    return "".join(line + "\n" for line in lines).encode()


def main():
    words = argparse.ArgumentParser(description=__doc__.splitlines()[0])
    words.add_argument("count", nargs="?", type=int, default=100)
    words.add_argument("--vertices", nargs=2, type=int, default=[200, 2000], metavar=("LOW", "HIGH"))
    words.add_argument("--seed", type=int, default=1)
    given = words.parse_args()
    chance = random.Random(given.seed)
    kinds, alternatives, begin = {}, 0, time.monotonic()
    for number in range(given.count):
        kind, network = network_of(chance, *given.vertices)
        text = requests_of(chance, network.vertices)
        path = program.save("network.gr", plain.graph_text(network))
        program.save("network.requests", text)
        status, output = program.road("answer", path, text=text)
        if status != 0 or output != plain.replies(network, text):
            print("network %d (%s, %d vertices, seed %d): another reply" % (number, kind, network.vertices, given.seed))
            sys.exit(1)
        kinds[kind] = kinds.get(kind, 0) + 1
        alternatives += output.count(b"route via")
    found = ", ".join("%s %d" % pair for pair in sorted(kinds.items()))
    print("networks: %s; alternatives: %d; %d s" % (found, alternatives, time.monotonic() - begin))


if __name__ == "__main__":
    main()
