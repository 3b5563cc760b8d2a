#!/usr/bin/env python3
"""Compares `road certify` and `road recheck` with certificates written and checked plainly (plain_certificates.py), on random
small graphs.

For each graph a query's certificate with the usual ratios is written by both, byte for byte the same, or refused where an
end isn't a vertex. Another, with ratios drawn from a few, is written plainly, which has to be accepted. Then it is changed
at random: a line left out, doubled, or swapped with the next, a cut at any byte, bytes after the end, a number raised or
lowered by one, replaced by another of the certificate, by 0, by the greatest, or given a leading zero. The program has to
say the same of each: yes with the count, or no with the line and the word. It ends with 1 where it doesn't, and leaves that
case in bench/out.
"""
import collections
import random
import re
import sys

import plain
import plain_certificates
import program
import random_cases

USUAL = ((4, 5), (1, 4), (1, 4))
RATIOS = [USUAL, ((1, 1), (0, 1), (4, 1)), ((1, 1), (0, 1), (1, 1)), ((0, 1), (1, 1), (0, 1))]
GREATEST = 10**19 - 1


def change_line(chance, text):
    lines = text.split(b"\n")[:-1]
    at = chance.randrange(len(lines))
    kind = chance.randrange(3)
    if kind == 0:
        del lines[at]
    elif kind == 1:
        lines.insert(at, lines[at])
    else:
        lines[at : at + 2] = lines[at : at + 2][::-1]
    return b"".join(line + b"\n" for line in lines)


def change_number(chance, text):
    numbers = list(re.finditer(rb"[0-9]+", text))
    found = chance.choice(numbers)
    value = int(found[0])
    other = chance.choice(numbers)[0].decode()
    written = chance.choice([str(value + 1), str(max(value - 1, 0)), "0", str(GREATEST), "0" + found[0].decode(), other, other])
    return text[: found.start()] + written.encode() + text[found.end() :]


def changed(chance, text):
    kind = chance.random()
    if kind < 0.3:
        return change_line(chance, text)
    if kind < 0.4:
        return text[: chance.randrange(len(text))]
    if kind < 0.43:
        return text + chance.choice([b"x", b"\n", b"done\n", text])
    if kind < 0.46:
        at = chance.randrange(len(text))
        return text[:at] + chance.choice([b" ", b"\r", b"\n", b"7", b"x", b"\0"]) + text[at + chance.randrange(2) :]
    for _ in range(chance.choice([1, 1, 1, 2, 3])):
        text = change_number(chance, text)
    return text


def demand_same(graph_file, graph, text, tally, case):
    """What the program says of a certificate, which has to be what is said plainly; counted by its word."""
    file = program.save("case.cert", text)
    said = plain_certificates.answer(graph, text)
    status, output = program.run([program.built(), "recheck", graph_file, file])
    wanted = 0 if said.startswith("yes") else 1
    if status != wanted or output != said.encode() + b"\n":
        print("%s differs, and is in bench/out: status %d, %r instead of %r" % (case, status, output, said))
        sys.exit(1)
    tally[said.split()[-1] if wanted else "yes"] += 1


def demand_written(graph_file, graph, source, target, case):
    """The certificate that the program writes, which has to be the one that is written plainly."""
    status, output = program.run([program.built(), "certify", graph_file, str(source), str(target)])
    inside = all(1 <= vertex <= graph.vertices for vertex in (source, target))
    wanted = plain_certificates.certificate(graph, source, target, *USUAL) if inside else b""
    if status != (0 if inside else 8) or output != wanted:
        program.save("case.cert", output)
        print("%s, from %d to %d: another certificate is written, with status %d, and is in bench/out" % (case, source, target, status))
        sys.exit(1)


def main():
    words = program.parser(__doc__)
    words.add_argument("cases", nargs="?", type=int, default=100)
    words.add_argument("seed", nargs="?", type=int, default=1)
    words.add_argument("--changes", type=int, default=20, help="changed certificates for each graph")
    given = words.parse_args()
    chance = random.Random(given.seed)
    tally = collections.Counter()
    for case in range(given.cases):
        graph = random_cases.random_graph(chance)
        graph_file = program.save("case.gr", plain.graph_text(graph))
        name = "case %d of seed %d" % (case, given.seed)
        demand_written(graph_file, graph, chance.randint(0, graph.vertices + 1), chance.randint(0, graph.vertices + 1), name)
        if graph.vertices == 0:
            continue
        source, target = chance.randint(1, graph.vertices), chance.randint(1, graph.vertices)
        demand_written(graph_file, graph, source, target, name)
        text = plain_certificates.certificate(graph, source, target, *chance.choice(RATIOS))
        if not plain_certificates.answer(graph, text).startswith("yes"):
            sys.exit("%s: what is written plainly isn't accepted plainly" % name)
        demand_same(graph_file, graph, text, tally, name)
        for _ in range(given.changes):
            demand_same(graph_file, graph, changed(chance, text), tally, name)
    print("%d certificates: the same answers" % sum(tally.values()))
    print(", ".join("%s %d" % found for found in sorted(tally.items())))


if __name__ == "__main__":
    main()
