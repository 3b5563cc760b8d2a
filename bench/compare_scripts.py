#!/usr/bin/env python3
"""Compares `road answer` with the definitions, computed plainly, over the versions of random small graphs, byte for byte.

A case is a small graph and a script of lines over it (random_cases.py): changes of lengths are staged and published among
the requests, and cursors of older versions are used again. The runs of worked_runs.py, whose replies were written by hand,
come first. It ends with 1 where a byte differs, and leaves that case in bench/out (comparison.py).
"""
import itertools
import random
import subprocess
import sys
import threading

import comparison
import plain
import program
import random_cases
import worked_runs

FULL_GRAPH = plain.Graph(2, [(1, 2, 7), (1, 2, 7)])
FULL_BEFORE = [(b"route 1 2 gamma 0/1 size 1", b"ok 1\noptimum length 7 arcs 1\nend\n"), (b"length 1 9", b"staged 1\n")]
FULL_AFTER = [
    (b"publish", b"error full\n"),
    (b"version", b"version 1048576\n"),
    (b"length 2 8", b"staged 1\n"),
    (b"publish", b"error full\n"),
    (b"length 2 6", b"staged 2\n"),
    (b"length 3 6", b"error arc\n"),
    (b"route 1 2", b"ok 1048576\noptimum length 7 arcs 2\nend\n"),
    (b"route 1 2 since 1048577", b"error behind 1048576\n"),
    (b"next 1.1.2.0.1.1.4.1.4.1.0", b"ok 1\noptimum length 7 arcs 1\nend\n"),
    (b"next 2.1.2.0.1.1.4.1.4.1.0", b"error gone 1048576\n"),
    (b"version", b"version 1048576\n"),
]


def demand_worked():
    """The definitions give the replies of the worked runs, and refuse one version too many."""
    for name, graph, _text, pairs in worked_runs.runs():
        run = plain.Run(graph)
        for line, reply in pairs:
            if run.reply(line) != reply:
                sys.exit("%s: %r has the reply %r, and %r by the definitions" % (name, line, reply, run.reply(line)))
    run = plain.Run(FULL_GRAPH)
    is_same = all(run.reply(line) == reply for line, reply in FULL_BEFORE)
    run.publish([])
    run.batches += [[]] * (plain.MOST_VERSIONS - run.newest())
    if not is_same or any(run.reply(line) != reply for line, reply in FULL_AFTER):
        sys.exit("by the definitions one version too many isn't refused")


def full_pairs():
    """Lines that publish every version that there may be, and one more, with their replies."""
    published = ((b"publish", b"published %d\n" % number) for number in range(2, plain.MOST_VERSIONS + 1))
    return itertools.chain(FULL_BEFORE, published, FULL_AFTER)


def demand_full(path, seconds):
    """The program publishes every version that there may be, and refuses one more."""
    graph = program.save("full.gr", plain.graph_text(FULL_GRAPH))
    requests = program.save("full.requests", b"".join(line + b"\n" for line, _reply in full_pairs()))
    with open(requests, "rb") as text, subprocess.Popen(
        [path, "answer", graph], stdin=text, stdout=subprocess.PIPE
    ) as process:
        timer = threading.Timer(seconds, process.kill)
        timer.daemon = True
        timer.start()
        for number, (line, reply) in enumerate(full_pairs(), 1):
            replied = process.stdout.read(len(reply))
            if replied != reply:
                process.kill()
                place = "line %d of bench/out/full.requests, %r" % (number, line)
                sys.exit("%s: expected %r, replied %r" % (place, reply, replied))
        rest = process.stdout.read()
        timer.cancel()
    if rest or process.returncode != 0:
        sys.exit("after the last reply: %r, status %d" % (rest[:80], process.returncode))
    print("%d versions, and one more refused: the same bytes" % plain.MOST_VERSIONS)


def random_case(chance):
    """A graph, mostly of at most 12 vertices, and a text of lines over its versions."""
    graph = random_cases.larger_graph(chance) if chance.random() < 0.08 else random_cases.random_graph(chance)
    return graph, random_cases.VersionScript(chance, graph).text()


def main():
    words = program.parser(__doc__)
    words.add_argument("count", nargs="?", type=int, default=100)
    words.add_argument("seed", nargs="?", type=int, default=1)
    words.add_argument("--program", help="a program that takes the same words, in place of that of the repository")
    words.add_argument("--seconds", type=float, default=60, help="that a run may take; one of --full ten times as long")
    words.add_argument("--full", action="store_true", help="one run alone, with every version that there may be")
    words.add_argument("--self-test", action="store_true", help="hold the definitions to the worked runs, and no program")
    given = words.parse_args()
    demand_worked()
    if given.self_test:
        print("%d worked runs: the same bytes" % len(list(worked_runs.runs())))
        return
    path = given.program or program.built()
    if given.full:
        demand_full(path, 10 * given.seconds)
        return
    for name, graph, text, _pairs in worked_runs.runs():
        comparison.demand_same(path, graph, text, name, given.seconds)
    chance = random.Random(given.seed)
    tally = comparison.Tally()
    for case in range(given.count):
        graph, text = random_case(chance)
        name = "script %d of seed %d" % (case, given.seed)
        tally.add(comparison.demand_same(path, graph, text, name, given.seconds))
    tally.tell(given.count)


if __name__ == "__main__":
    main()
