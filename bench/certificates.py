#!/usr/bin/env python3
"""Measures `road certify` and `road recheck` on road-like networks, for a near and a far pair of vertices each.

A near pair is vertex 1 and the 256th in the order of distance from it, a far one vertex 1 and the last. `certify` is set
beside the `route` line of the same pair: what is aimed at is 1.5 times its time, and the writing of the certificate at 150
MB a second. Times are those of the quickest round: of `certify` and `recheck` less that of an empty certificate over the same
graph, for which the graph is read and laid out, and of `route` less that of `answer` without a request. The spread is the
greatest time of one job by its least. Memory is the peak of the resident set, with the graph's own.
"""
import figures
import program
import routes

NEAR = 256


def pairs_of(graph):
    first, steps = routes.arcs_of(graph)
    yield "near", routes.settled(first, steps, 1, NEAR)
    yield "far", routes.settled(first, steps, 1, figures.vertices_of(graph))


def tell_pair(graph, name, target, rounds):
    road = program.built()
    status, text = program.run([road, "certify", graph, "1", str(target)])
    if status != 0:
        raise SystemExit("certify ended with %d" % status)
    certificate = program.save("measured.cert", text)
    recheck = [road, "recheck", graph, certificate]
    _status, said = program.run(recheck, check=True)
    request = b"route 1 %d size 64\n" % target
    jobs = {
        "empty": ([road, "recheck", graph, program.save("empty.cert", b"")], b"", False),
        "certify": ([road, "certify", graph, "1", str(target)], b""),
        "recheck": (recheck, b""),
        "idle": ([road, "answer", graph], b""),
        "route": ([road, "answer", graph], request),
    }
    times = figures.in_turn(jobs, rounds)
    least = {job: min(runs) for job, runs in times.items()}
    route = max(least["route"] - least["idle"], 0)
    certify, rechecked = (least[job] - least["empty"] for job in ("certify", "recheck"))
    size = len(text) / 1e6
    memory = [figures.peak(*jobs[job]) for job in ("certify", "recheck")]
    row = (
        figures.vertices_of(graph), name, said.decode().split()[1], size, route * 1000, certify * 1000,
        (1.5 * route + size / 150) * 1000, rechecked * 1000, size / rechecked, figures.spread(times), *memory,
    )
    print("| %d | %s | %s | %.2f | %.1f | %.1f | %.1f | %.1f | %.0f | %.2f | %d | %d |" % row, flush=True)


def main():
    words = program.parser(__doc__)
    words.add_argument("sides", nargs="*", type=int, default=[100, 316])
    words.add_argument("--rounds", type=int, default=5)
    given = words.parse_args()
    print("| vertices | pair | paths | certificate, MB | route, ms | certify, ms | aimed at, ms | recheck, ms | MB/s | spread "
          "| memory of certify, MB | of recheck, MB |")
    print("|---|---|---|---|---|---|---|---|---|---|---|---|")
    for side in given.sides:
        graph = figures.network_file(1, side)
        for name, target in pairs_of(graph):
            tell_pair(graph, name, target, given.rounds)


if __name__ == "__main__":
    main()
