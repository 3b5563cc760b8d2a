"""Compares `answer` with the definitions on one graph and one text of request lines, and counts lines and replies."""
import collections
import sys

import plain
import program

WORDS = ["optimum", "route", "next", "why", "version", "length", "publish", "other"]
VERDICTS = ["unreached", "optimum", "long", "shared", "local", "stretch", "listed"]
ERRORS = ["long", "syntax", "cursor", "vertex", "ratio", "size", "behind", "gone", "arc", "length", "full"]


def tell_difference(replies, output):
    """Prints the first request whose reply isn't where it should be."""
    place = 0
    for line, reply in replies:
        replied = output[place : place + len(reply)]
        if replied != reply:
            print("request  %r\nexpected %r\nreplied  %r" % (line[:200], reply, output[place : place + len(reply) + 80]))
            return
        place += len(reply)
    print("after the last reply: %r" % output[place : place + 80])


def demand_same(path, graph, text, case, seconds=program.SECONDS):
    """The lines and their replies, which the program at this path has to give too. Where it doesn't, the script ends and
    leaves the case in bench/out: case.gr, case.requests, and the replies by the definitions (case.expected) and by the
    program (case.replies)."""
    file = program.save("case.gr", plain.graph_text(graph))
    program.save("case.requests", text)
    replies = list(plain.Run(graph).replies(text))
    expected = b"".join(reply for _line, reply in replies)
    status, output = program.run([path, "answer", file], text, seconds=seconds)
    if status != 0 or output != expected:
        program.save("case.expected", expected)
        program.save("case.replies", output)
        print("%s differs, and is in bench/out; status %d" % (case, status))
        tell_difference(replies, output)
        sys.exit(1)
    return replies


class Tally:
    """How many lines of each kind were asked, and how many replies of each kind they got."""

    def __init__(self):
        self.counts = collections.Counter()

    def add(self, replies):
        """Of one run: its lines and their replies."""
        newest = 1
        for line, reply in replies:
            if not reply:
                continue
            rows = [row.split() for row in reply.decode().splitlines()]
            word = (plain.fields_of(line) or [b""])[0].decode("latin-1")
            self.counts["asked", word if word in WORDS else "other"] += 1
            self.counts["pages"] += word in ("route", "next") and rows[0][0] == "ok"
            self.counts["older"] += rows[0][0] in ("ok", "none") and int(rows[0][1]) < newest
            for row in rows:
                self.counts[row[0]] += 1
                if row[0] == "verdict":
                    self.counts["verdict", row[2]] += 1
                elif row[0] == "error":
                    self.counts["error", row[1]] += 1
            if rows[0][0] == "published":
                newest = int(rows[0][1])

    def list(self, name, words):
        return ", ".join("%s %d" % (word, self.counts[name, word]) for word in words)

    def tell(self, cases):
        counts = self.counts
        print("%d graphs, %d requests: the same bytes" % (cases, sum(counts["asked", word] for word in WORDS)))
        print("requests: " + self.list("asked", WORDS))
        shown = counts["pages"], counts["more"], counts["route"], counts["none"]
        print("pages: %d, with more after: %d, alternatives: %d, no path: %d" % shown)
        print("changes staged: %d, versions published: %d, replies of older ones: %d" % (
            counts["staged"], counts["published"], counts["older"]))
        print("verdicts: " + self.list("verdict", VERDICTS))
        print("errors: " + self.list("error", ERRORS))
