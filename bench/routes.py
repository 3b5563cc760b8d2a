#!/usr/bin/env python3
"""Measures `route` lines, or those of another word, on whole networks, beside a plain program of the same job: that of
bench/yardstick, which it builds with rustc, or one that is named.

A graph is a file, or `grid:W:H` (made by `road make 7 W H`), or `road:SIDE` (bench/network.py 1 SIDE), or one of
bench/networks.py, as `star:100000` or `ladder:5000`. Each round runs `answer` over the graph with random pairs and without
a request; what the pairs take is that run beyond the quickest without. The plain program, which takes the same words, is
run in turn, and the bytes of both are compared. `why` lines ask for a third random vertex. With a rank the targets are
near: from each random source the 2^K-th vertex in the order of distance. With --before N so many more pairs are answered
first, and not counted. With --source and --target what is counted is one line alone, between these two. Times are means
over the pairs, of the quickest round; the spread is the slowest round's by the quickest. Memory is the peak of the resident
set.
"""
import array
import heapq
import os
import random
import sys
import time

import drawing
import figures
import networks
import program

USUAL = ["grid:60:60", "grid:300:300", "road:100", "road:316"]


def graph_file(name):
    kind, *sides = name.split(":")
    if kind == "grid":
        return program.grid_file(7, int(sides[0]), int(sides[1]))
    if kind == "road":
        return figures.network_file(1, int(sides[0]))
    if kind in networks.SHAPES:
        return networks.network_file(kind, int(sides[0]))
    return name


def arcs_of(path):
    """The heads and lengths of the arcs out of each vertex, flat; the arcs of vertex v end before place first[v + 1]."""
    tails, heads, lengths = array.array("I"), array.array("I"), array.array("I")
    with open(path, "rb") as file:
        for line in file:
            if line.startswith(b"a"):
                _word, tail, head, length = line.split()
                tails.append(int(tail))
                heads.append(int(head))
                lengths.append(int(length))
    first = array.array("I", bytes(4 * (figures.vertices_of(path) + 2)))
    for tail in tails:
        first[tail + 1] += 1
    for v in range(1, len(first)):
        first[v] += first[v - 1]
    places, steps = array.array("I", first), [None] * len(tails)
    for tail, head, length in zip(tails, heads, lengths):
        steps[places[tail]] = (head, length)
        places[tail] += 1
    return first, steps


def settled(first, steps, source, count):
    """The vertex that Dijkstra's algorithm settles so many vertices after the source; the last one where there are fewer."""
    labels, queue, last = {}, [(0, source)], source
    while queue and count >= 0:
        distance, at = heapq.heappop(queue)
        if at not in labels:
            labels[at], last, count = distance, at, count - 1
            for head, length in steps[first[at] : first[at + 1]]:
                if head not in labels:
                    heapq.heappush(queue, (distance + length, head))
    return last


def requests_of(path, word, pairs, rank, last):
    """The lines of so many pairs, and after them of the last one, where it isn't empty."""
    vertices = figures.vertices_of(path)
    ends = [line.split()[1:] for line in drawing.requests(word, 5, pairs, vertices).decode().splitlines()]
    if rank is not None:
        first, steps = arcs_of(path)
        ends = [(source, settled(first, steps, int(source), 2**rank)) for source, _target in ends]
    ends += [last] if last else []
    lines = ["%s %s %s" % (word, *pair) for pair in ends]
    if word == "why":
        chance = random.Random(6)
        lines = ["%s %d" % (line, chance.randint(1, vertices)) for line in lines]
    return "".join(line + "\n" for line in lines).encode()


def run(words, text):
    begin = time.monotonic()
    _status, output = program.run(words, text, check=True)
    return time.monotonic() - begin, output


def milliseconds(words, text, pairs, rounds):
    """The mean of each round over the last so many lines, beyond what the lines before take at least; and the bytes."""
    readings, wholes, output = [], [], b""
    before = b"".join(text.splitlines(keepends=True)[:-pairs])
    for _ in range(rounds):
        readings.append(run(words, before)[0])
        whole, output = run(words, text)
        wholes.append(whole)
    return [(whole - min(readings)) * 1000 / pairs for whole in wholes], output


def main():
    words = program.parser(__doc__)
    words.add_argument("graphs", nargs="*", default=USUAL)
    words.add_argument("--plain", help="a program that takes the same words, in place of the yardstick")
    words.add_argument("--word", choices=["route", "why", "optimum"], default="route")
    words.add_argument("--pairs", type=int, default=20)
    words.add_argument("--rounds", type=int, default=3)
    words.add_argument("--rank", type=int, help="targets that are the 2^RANK-th vertex from their source")
    words.add_argument("--before", type=int, default=0, help="so many pairs are answered first, and not counted")
    words.add_argument("--source", type=int, help="of the one pair that is counted")
    words.add_argument("--target", type=int)
    given = words.parse_args()
    if (given.source is None) != (given.target is None):
        words.error("--source and --target stand together")
    one = [] if given.source is None else [given.source, given.target]
    pairs, drawn = (1, given.before) if one else (given.pairs, given.before + given.pairs)
    plain = given.plain or figures.build_yardstick()
    print("| graph | vertices | road, ms | spread | plain, ms | ratio | memory, MB |")
    print("|---|---|---|---|---|---|---|")
    for name in given.graphs:
        path = graph_file(name)
        text = requests_of(path, given.word, drawn, given.rank, one)
        times, output = milliseconds([program.built(), "answer", path], text, pairs, given.rounds)
        memory = figures.peak([program.built(), "answer", path], text)
        row = [os.path.basename(name), figures.vertices_of(path), "%.2f" % min(times), "%.2f" % (max(times) / min(times))]
        others, wanted = milliseconds([plain, "answer", path], text, pairs, given.rounds)
        if wanted != output:
            print("%s: another reply than the plain program's" % name)
            sys.exit(1)
        row += ["%.2f" % min(others), "%.1f" % (min(times) / min(others))]
        print("| %s | %d | %s | %s | %s | %s | %d |" % (*row, memory), flush=True)


if __name__ == "__main__":
    main()
