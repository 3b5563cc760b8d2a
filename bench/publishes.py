#!/usr/bin/env python3
"""Measures publishes of changed lengths, pages of kept and of fresh plans, and the memory of versions, on whole networks.

A graph is named as for routes.py. One run of `answer` gets its lines one by one through a pipe: the time of a line is
from its writing to the end of its reply, and each figure is the mean over many lines, which may stand among others. First
--before random pairs are answered, and not counted: by then the server may have built its hierarchy.

publish of N: a version with N random arcs changed, by up to a tenth of their length; the staging isn't counted.
route: the first page of a random pair as the first line after such a version of one arc (first), and of another pair as
the second line (fresh).
next: the same page as that of the second line again, by a cursor, from the plan that is kept.
memory: the resident set after the publishes and pages, and after each of some further versions of 100 changed arcs, with
a page of each.
"""
import os
import random
import subprocess
import sys
import threading
import time

import figures
import program
import routes

COUNTS = [1, 100, 10000]  # of changed arcs
USUAL_RATIOS = "4.5.1.4.1.4"


class Server:
    """A run of `answer` that is asked line by line."""

    def __init__(self, path, graph):
        self.process = subprocess.Popen([path, "answer", graph], stdin=subprocess.PIPE, stdout=subprocess.PIPE)
        self.timer = threading.Timer(program.SECONDS, self.process.kill)
        self.timer.daemon = True
        self.timer.start()

    def ask(self, line, word):
        """The time of a line, in milliseconds, and its reply, whose first word has to be this one or `none`."""
        begin = time.perf_counter()
        self.process.stdin.write(b"%s\n" % line.encode())
        self.process.stdin.flush()
        reply = [self.process.stdout.readline()]
        while reply[0].startswith(b"ok ") and reply[-1] not in (b"end\n", b""):
            reply.append(self.process.stdout.readline())
        spent = (time.perf_counter() - begin) * 1000
        if reply[0].split()[:1] not in ([word.encode()], [b"none"]):
            sys.exit("`%s` was replied %r" % (line, reply[0]))
        return spent, reply

    def megabytes(self):
        """The resident set."""
        with open("/proc/%d/status" % self.process.pid, encoding="ascii") as file:
            return next(int(line.split()[1]) for line in file if line.startswith("VmRSS")) / 1024

    def quit(self):
        self.process.communicate(b"quit\n")
        self.timer.cancel()


class Measuring:
    """What is asked of a server, and the times of it."""

    def __init__(self, server, graph):
        self.server, self.chance = server, random.Random(8)
        self.vertices, self.lengths = figures.vertices_of(graph), lengths_of(graph)

    def ends(self):
        return self.chance.randint(1, self.vertices), self.chance.randint(1, self.vertices)

    def publish(self, count):
        """The time of a version of so many changes, and its number."""
        for _ in range(count):
            arc = self.chance.randrange(len(self.lengths))
            length = self.lengths[arc] + self.chance.randint(0, self.lengths[arc] // 10 + 1)
            self.server.ask("length %d %d" % (arc + 1, min(length, 4294967295)), "staged")
        spent, reply = self.server.ask("publish", "published")
        return spent, int(reply[0].split()[1])

    def pages(self, again):
        """The times of a page that comes first in a version, of a fresh one, and of that one again so many times."""
        _spent, version = self.publish(1)
        first, _reply = self.server.ask("route %d %d" % self.ends(), "ok")
        source, target = self.ends()
        fresh, page = self.server.ask("route %d %d" % (source, target), "ok")
        cursor = "%d.%d.%d.%s.5.0" % (version, source, target, USUAL_RATIOS)
        kept = []
        for _ in range(again):
            spent, same = self.server.ask("next " + cursor, "ok")
            kept.append(spent)
            if same != page:
                sys.exit("`next %s` was replied another page than `route %d %d`" % (cursor, source, target))
        return first, fresh, mean(kept)

    def memory(self, versions):
        """The megabytes now, and after each of so many further versions."""
        found = [self.server.megabytes()]
        for _ in range(versions):
            self.publish(100)
            self.server.ask("route %d %d" % self.ends(), "ok")
            found.append(self.server.megabytes())
        return found


def lengths_of(path):
    with open(path, "rb") as file:
        return [int(line.split()[3]) for line in file if line.startswith(b"a")]


def mean(times):
    return sum(times) / len(times)


def main():
    words = program.parser(__doc__)
    words.add_argument("graphs", nargs="*", default=routes.USUAL)
    words.add_argument("--program", help="a program that takes the same words, in place of that of the repository")
    words.add_argument("--before", type=int, default=20, help="so many pairs are answered first, and not counted")
    words.add_argument("--rounds", type=int, default=5, help="publishes of each count")
    words.add_argument("--pairs", type=int, default=20, help="versions with a page first, a fresh one, and that one again")
    words.add_argument("--again", type=int, default=20, help="kept pages of each of these")
    words.add_argument("--versions", type=int, default=4, help="further ones, after each of which memory is read")
    given = words.parse_args()
    head = ["graph", "vertices", "arcs"] + ["publish of %d, ms" % count for count in COUNTS]
    head += ["route: first, ms", "fresh, ms", "next, ms", "memory, MB", "after each version, MB"]
    print("| %s |\n|%s" % (" | ".join(head), "---|" * len(head)))
    for name in given.graphs:
        path = routes.graph_file(name)
        server = Server(given.program or program.built(), path)
        measuring = Measuring(server, path)
        for _ in range(given.before):
            server.ask("route %d %d" % measuring.ends(), "ok")
        publishes = [mean([measuring.publish(count)[0] for _ in range(given.rounds)]) for count in COUNTS]
        pages = [mean(times) for times in zip(*(measuring.pages(given.again) for _ in range(given.pairs)))]
        now, *later = measuring.memory(given.versions)
        server.quit()
        row = [os.path.basename(name), str(measuring.vertices), str(len(measuring.lengths))]
        row += ["%.3f" % time for time in publishes + pages] + ["%.0f" % now, ", ".join("%.0f" % each for each in later)]
        print("| %s |" % " | ".join(row), flush=True)


if __name__ == "__main__":
    main()
