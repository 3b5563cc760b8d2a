#!/usr/bin/env python3
"""Compares what `road check` says of graph files with the form of such files, computed plainly.

The files are every prefix of the small example, every change of one of its bytes (or every STEP-th), random mixtures of good
and bad lines, and files at the limits of a line. It ends with 1 where the output, the status or the fault differs, and
leaves that file in bench/out (file.gr).
"""
import os
import random
import re
import subprocess
import sys

import program

MOST = {"vertices": 33554432, "arcs": 67108864, "length": 4294967295, "line": 256}
PIECES = [b"p", b"a", b"c", b"sp", b"0", b"1", b"2", b"6", b"007", b"-1", b"1x", b"4294967295", b"4294967296", b"33554432", b"33554433",
          b"67108865", b"9" * 19, b"9" * 20, b"x", b"\xff", b"ap", b"p\x0b"]


def number_of(field):
    return int(field) if re.fullmatch(rb"[0-9]{1,19}", field) else None


class Reading:
    """The lines so far of a graph file: its vertices and arcs once there is a problem line."""

    def __init__(self):
        self.vertices, self.arcs, self.seen = None, 0, 0

    def fault_of(self, line):
        fields = re.findall(rb"[^ \t]+", line)
        if fields and fields[0].startswith(b"c"):
            return None
        if len(line) > MOST["line"]:
            return "line-long"
        if not fields:
            return None
        kinds = {b"p": self.problem_fault, b"a": self.arc_fault}
        return kinds.get(fields[0], lambda _fields: "bad-line")(fields)

    def problem_fault(self, fields):
        if self.vertices is not None:
            return "second-problem"
        if len(fields) != 4 or fields[1] != b"sp":
            return "bad-line"
        numbers = [number_of(field) for field in fields[2:]]
        if None in numbers:
            return "bad-number"
        if numbers[0] > MOST["vertices"]:
            return "limit-vertices"
        if numbers[1] > MOST["arcs"]:
            return "limit-arcs"
        self.vertices, self.arcs = numbers
        return None

    def arc_fault(self, fields):
        if self.vertices is None:
            return "no-problem"
        if self.seen == self.arcs:
            return "too-many-arcs"
        if len(fields) != 4:
            return "bad-line"
        numbers = [number_of(field) for field in fields[1:]]
        if None in numbers:
            return "bad-number"
        if not all(1 <= end <= self.vertices for end in numbers[:2]):
            return "vertex-range"
        if numbers[2] == 0:
            return "length-zero"
        if numbers[2] > MOST["length"]:
            return "length-large"
        self.seen += 1
        return None


def judged(text):
    """The output, the status, and the first line on the standard error."""
    lines = text.split(b"\n")
    if not lines[-1]:
        lines.pop()
    reading = Reading()
    for number, line in enumerate(lines, 1):
        fault = reading.fault_of(line[:-1] if line.endswith(b"\r") else line)
        if fault:
            return b"", 3, "road: graph refused at line %d: %s" % (number, fault)
    if reading.vertices is None or reading.seen < reading.arcs:
        fault = "no-problem" if reading.vertices is None else "too-few-arcs"
        return b"", 3, "road: graph refused at line %d: %s" % (len(lines) + 1, fault)
    return b"graph vertices %d arcs %d\n" % (reading.vertices, reading.arcs), 0, ""


def demand(text):
    done = subprocess.run([program.built(), "check", "/dev/stdin"], input=text, capture_output=True, timeout=program.SECONDS)
    told = done.stderr.decode().splitlines()[:1]
    replied = done.stdout, done.returncode, told[0] if told else ""
    if replied != judged(text):
        print("expected %r\nreplied  %r\nof bench/out/file.gr" % (judged(text), replied))
        program.save("file.gr", text)
        sys.exit(1)


def mixtures(chance, good, count):
    """Files whose lines are good ones, at times cut, doubled or out of order, and lines of odd fields."""
    for _ in range(count):
        lines = []
        for line in good:
            if chance.random() < 0.9:
                lines += [line] * chance.choice([1, 1, 1, 1, 2])
            if chance.random() < 0.15:
                lines.append(b" ".join(chance.choices(PIECES, k=chance.randint(0, 5))))
        if chance.random() < 0.2:
            chance.shuffle(lines)
        ends = chance.choice([[b"\n"], [b"\r\n"], [b"\n", b"\r\n", b"\r\r\n", b"\t\n"]])
        text = b"".join(line + chance.choice(ends) for line in lines)
        yield text[: len(text) - chance.randint(0, 2)]


def main():
    words = program.parser(__doc__)
    words.add_argument("--step", type=int, default=1)
    words.add_argument("--mixtures", type=int, default=1000)
    given = words.parse_args()
    with open(os.path.join(program.TOP, "examples", "small.gr"), "rb") as file:
        small = file.read()
    prefixes = [small[:length] for length in range(len(small) + 1)]
    changes = [small[:at] + bytes([byte]) + small[at + 1 :] for at in range(len(small)) for byte in range(256)]
    long_lines = [before + b" " * more for before in (b"c", b"a 1 2 3", b"", b"p sp 1 0") for more in (240, 249, 250, 256, 257, 300)]
    limits = [b"p sp 2 1\n" + line + end for line in long_lines for end in (b"\n", b"\r\n", b"")]
    several = list(mixtures(random.Random(1), small.splitlines(), given.mixtures))
    texts = prefixes + changes[:: given.step] + limits + several
    for text in texts:
        demand(text)
    print("%d files: the same output, status and fault" % len(texts))


if __name__ == "__main__":
    main()
