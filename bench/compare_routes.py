#!/usr/bin/env python3
"""Compares `road answer` with the definitions, computed plainly, on random small graphs, byte for byte.

A case is a small graph and a script of requests of every kind over its first version, good ones and faulty ones
(random_cases.py). It ends with 1 where a byte differs, and leaves that case in bench/out (comparison.py).
"""
import random

import comparison
import program
import random_cases


def main():
    words = program.parser(__doc__)
    words.add_argument("cases", nargs="?", type=int, default=300)
    words.add_argument("seed", nargs="?", type=int, default=1)
    given = words.parse_args()
    chance = random.Random(given.seed)
    tally = comparison.Tally()
    for case in range(given.cases):
        graph = random_cases.random_graph(chance)
        text = random_cases.Script(chance, graph).text()
        name = "case %d of seed %d" % (case, given.seed)
        tally.add(comparison.demand_same(program.built(), graph, text, name))
    tally.tell(given.cases)


if __name__ == "__main__":
    main()
