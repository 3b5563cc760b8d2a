#!/usr/bin/env python3
"""Certificates by their definition, computed plainly and with no kit: the text that is written for a query, and what is
wrong with a text, line and word.

It answers as `road recheck` does, for a graph file without a fault and a certificate.
"""
import argparse
import re
import sys

import plain

MOST_BYTES = 1 << 62
NUMBER = rb"(?:0|[1-9][0-9]{0,18})"
NUMBERS = rb"((?: " + NUMBER + rb")*)"


class Fault(Exception):
    """The line and the word of the first fault."""

    def __init__(self, line, word):
        super().__init__("no %d %s" % (line, word))


# ---- texts


def pattern(*fields):
    """A line of these fields: words as they stand, `N` for a number, `R` for a ratio, and `*` for the numbers at its end."""
    parts = {b"N": rb" (" + NUMBER + rb")", b"R": rb" (" + NUMBER + rb")/(" + NUMBER + rb")", b"*": NUMBERS}
    text = b"".join(parts.get(field, b" " + field) for field in fields)
    return re.compile(text[1:] if fields[0] not in parts else text)


HEAD = [pattern(b"(from|to)", b"N", b"(all)"), pattern(b"(from|to)", b"N", b"(radius)", b"N")]
VIA = [
    pattern(b"via", b"N", b"(optimum)"), pattern(b"via", b"N", b"(shared)", b"N"), pattern(b"via", b"N", b"(listed)", b"N"),
    pattern(b"via", b"N", b"(local)", b"N", b"N", b"*"), pattern(b"via", b"N", b"(stretch)", b"N", b"N", b"*"),
]
LINES = {
    "version": [pattern(b"cert", b"1")],
    "graph": [pattern(b"graph", b"N", b"N")],
    "query": [pattern(b"query", b"N", b"N", b"R", b"R", b"R")],
    "head": HEAD,
    "row": [pattern(b"row", b"N", b"N", b"N")],
    "end": [pattern(b"end")],
    "none": [pattern(b"none")],
    "optimum": [pattern(b"optimum", b"N", b"*")],
    "route": [pattern(b"route", b"N", b"N", b"N", b"N", b"N", b"*")],
    "via": VIA,
    "done": [pattern(b"done")],
}
NEXT = {
    "begin": ["version"], "version": ["graph"], "graph": ["query"], "query": ["head"], "head": ["row", "end"],
    "row": ["row", "end"], "end": ["head", "none", "optimum"], "none": ["done"], "optimum": ["route", "via", "done"],
    "route": ["route", "via", "done"], "via": ["via", "done"], "done": [],
}


def values_of(fields):
    """Numbers as numbers, and lists of numbers as lists."""
    for field in fields:
        if field is None or field.isalpha():
            yield field
        elif re.fullmatch(NUMBER, field):
            yield int(field)
        else:
            yield [int(number) for number in field.split()]


def kind_of(line, kinds):
    for kind in kinds:
        for form in LINES[kind]:
            found = form.fullmatch(line)
            if found:
                return kind, list(values_of(found.groups()))
    return None


def parse(text):
    """The kinds and values of the lines; raises the first fault."""
    pieces = text[:MOST_BYTES].split(b"\n")
    lines, place = [], "begin"
    for number, line in enumerate(pieces[:-1], 1):
        found = kind_of(line, NEXT[place])
        if found is None:
            raise Fault(number, "syntax")
        lines.append(found)
        place = found[0]
    if place == "done" and pieces[-1] == b"":
        return lines
    raise Fault(len(pieces), "syntax" if place == "done" else "long" if len(text) > MOST_BYTES else "truncated")


# ---- checks


class Block:
    def __init__(self, kind, root, radius):
        self.kind, self.root, self.radius = kind, root, radius
        self.rows, self.lines = {}, []  # of each vertex the first label and arc; every row

    def has_room(self, length):
        return self.radius is None or length <= self.radius


class Checker:
    """The checks of one certificate against a graph, line by line."""

    def __init__(self, graph, lines):
        self.graph, self.lines, self.blocks = graph, lines, {}
        self.line = 0

    def demand(self, holds, word):
        if not holds:
            raise Fault(self.line, word)

    def checked(self):
        """How many paths are listed; raises the first fault."""
        block, routes, before = None, [], 0
        self.gather()
        for self.line, (kind, values) in enumerate(self.lines, 1):
            if kind == "graph":
                self.demand(values == [self.graph.vertices, len(self.graph.arcs)], "graph")
            elif kind == "query":
                self.check_query(*values)
            elif kind == "head":
                block, vertex = self.all_blocks.pop(0), 0
                self.check_head(block)
            elif kind == "row":
                self.check_row(block, vertex, *values)
                vertex = values[0]
            elif kind == "end":
                self.check_end(block)
            elif kind == "none":
                found = self.blocks.get((b"from", self.source))
                self.demand(found and found.radius is None and self.target not in found.rows, "none")
            elif kind == "optimum":
                self.check_optimum(*values)
            elif kind == "route":
                self.check_route(routes[-1] if routes else None, *values)
                routes.append(values)
            elif kind == "via":
                self.demand(values[0] == min((v for v in self.near if v > before), default=None), "next")
                self.demand(self.is_reason(routes, *values), "reason")
                before = values[0]
            elif kind == "done" and self.lines[-2][0] != "none":
                self.demand(all(v <= before for v in self.near), "next")
        return 0 if self.lines[-2][0] == "none" else 1 + len(routes)

    def gather(self):
        """All blocks are known to every check."""
        self.all_blocks = []
        for kind, values in self.lines:
            if kind == "head":
                self.all_blocks.append(Block(values[0], values[1], values[3] if values[2] == b"radius" else None))
            elif kind == "row":
                self.all_blocks[-1].rows.setdefault(values[0], tuple(values[1:]))
                self.all_blocks[-1].lines.append(values)

    def check_query(self, source, target, *numbers):
        self.source, self.target = source, target
        self.gamma, self.alpha, self.epsilon = zip(numbers[0::2], numbers[1::2])
        ratios = all(1 <= den <= 1000000 and num <= cap * den for (num, den), cap in zip(zip(numbers[0::2], numbers[1::2]), (1, 1, 4)))
        ends = all(1 <= v <= self.graph.vertices for v in (source, target))
        self.demand(ends and ratios, "query")

    def check_head(self, block):
        self.demand(1 <= block.root <= self.graph.vertices and (block.kind, block.root) not in self.blocks, "block")
        self.blocks[block.kind, block.root] = block

    def ends(self, block, number):
        """The arc's end at its row, its other end, and its length."""
        tail, head, length = self.graph.arcs[number - 1]
        return (head, tail, length) if block.kind == b"from" else (tail, head, length)

    def beside(self, block, vertex):
        """The numbers of the arcs that may stand in a row of the vertex."""
        return [number for number, _other, _length in (self.graph.into if block.kind == b"from" else self.graph.out)[vertex]]

    def is_tight(self, block, number, label):
        _here, other, length = self.ends(block, number)
        return other in block.rows and block.rows[other][0] + length == label

    def check_row(self, block, before, vertex, label, arc):
        self.demand(1 <= vertex <= self.graph.vertices and before < vertex, "vertex")
        self.demand(block.has_room(label), "radius")
        self.demand((vertex == block.root) == (arc == 0) and (arc != 0 or label == 0), "root")
        if arc == 0:
            return
        self.demand(1 <= arc <= len(self.graph.arcs), "arc")
        here, other, _length = self.ends(block, arc)
        self.demand(here == vertex and other in block.rows, "arc")
        self.demand(self.is_tight(block, arc, label), "tight")
        self.demand(not any(b < arc and self.is_tight(block, b, label) for b in self.beside(block, vertex)), "least")

    def check_end(self, block):
        self.demand(block.root in block.rows, "rootless")
        for vertex, label, _arc in block.lines:
            for number, other, length in (self.graph.out if block.kind == b"from" else self.graph.into)[vertex]:
                if block.has_room(label + length):
                    self.demand(other in block.rows and block.rows[other][0] <= label + length, "closed")

    def walk(self, block, vertex):
        """The arcs from a vertex to the block's root, by its rows."""
        arcs = []
        while vertex != block.root:
            arcs.append(block.rows[vertex][1])
            vertex = self.ends(block, arcs[-1])[1]
        return arcs

    def check_optimum(self, length, arcs):
        source, target = self.blocks.get((b"from", self.source)), self.blocks.get((b"to", self.target))
        self.demand(source and target and self.target in source.rows, "optimum")
        self.demand(length == source.rows[self.target][0] and arcs == self.walk(source, self.target)[::-1], "optimum")
        num, den = self.epsilon
        self.best, self.optimum, bound = length, arcs, (den + num) * length // den
        self.demand(source.has_room(bound) and target.has_room(bound), "bound")
        sums = {v: source.rows[v][0] + target.rows[v][0] for v in source.rows if v in target.rows}
        self.near = sorted(v for v, both in sums.items() if both <= bound)
        self.prefix_of = {v: self.walk(source, v)[::-1] for v in self.near}
        self.path_of = {v: self.prefix_of[v] + self.walk(target, v) for v in self.near}
        self.label_of = {v: source.rows[v][0] for v in self.near}

    def length(self, arcs):
        return sum(self.graph.arcs[number - 1][2] for number in arcs)

    def shared(self, path):
        return self.length(set(self.optimum) & set(path))

    def places(self, path):
        vertices, sums = [self.source], [0]
        for number in path:
            _tail, head, length = self.graph.arcs[number - 1]
            vertices.append(head)
            sums.append(sums[-1] + length)
        return vertices, sums

    def is_tested(self, sums, i, j):
        num, den = self.alpha
        bound = num * self.best
        return (sums[j] - sums[i]) * den <= bound or (j >= i + 2 and (sums[j - 1] - sums[i + 1]) * den < bound)

    def is_stretched(self, length, distance):
        num, den = self.epsilon
        return length * den > (den + num) * distance

    def check_route(self, before, via, length, shared, plateau, rank, path):
        self.demand(via in self.near, "near")
        self.demand(path == self.path_of[via] and path != self.optimum, "walk")
        vias = [v for v in self.near if self.path_of[v] == path]
        self.demand(via == min(vias), "name")
        labels = [self.label_of[v] for v in vias]
        numbers = [self.length(path), self.shared(path), max(labels) - min(labels)]
        self.demand([length, shared, plateau] == numbers and rank == max(2 * length + shared - plateau, 0), "numbers")
        self.demand(shared * self.gamma[1] <= self.gamma[0] * self.best, "share")
        vertices, sums = self.places(path)
        place = len(self.prefix_of[via])
        blocks = [self.blocks.get((b"from", vertex)) for vertex in vertices[:place]]
        self.demand(all(block and block.has_room(sums[-1] - sums[i]) for i, block in enumerate(blocks)), "cover")
        across = [(i, j, sums[j] - sums[i], blocks[i].rows[vertices[j]][0]) for i in range(place) for j in range(place + 1, len(vertices))]
        self.demand(all(whole == label for i, j, whole, label in across if self.is_tested(sums, i, j)), "local")
        self.demand(not any(self.is_stretched(whole, label) for _i, _j, whole, label in across), "stretch")
        self.demand(before is None or (before[4], before[0]) < (rank, via), "order")

    def is_walk(self, u, arcs, v):
        for number in arcs:
            if not 1 <= number <= len(self.graph.arcs) or self.graph.arcs[number - 1][0] != u:
                return False
            u = self.graph.arcs[number - 1][1]
        return u == v

    def is_reason(self, routes, via, word, *rest):
        path = self.path_of[via]
        if word == b"optimum":
            return path == self.optimum
        if word == b"shared":
            return rest[0] == self.shared(path) and rest[0] * self.gamma[1] > self.gamma[0] * self.best
        if word == b"listed":
            return any(route[0] == rest[0] and route[5] == path for route in routes)
        first, last, detour = rest
        if not first < last <= len(path):
            return False
        vertices, sums = self.places(path)
        if not self.is_walk(vertices[first], detour, vertices[last]):
            return False
        whole, other = sums[last] - sums[first], self.length(detour)
        if word == b"local":
            return self.is_tested(sums, first, last) and other < whole
        return self.is_stretched(whole, other)


def answer(graph, text):
    """What is said of a text."""
    try:
        return "yes %d" % Checker(graph, parse(text)).checked()
    except Fault as fault:
        return str(fault)


# ---- writing


def block_lines(kind, root, radius, tree):
    """The block of the vertices within a radius of the root, by their canonical paths."""
    yield "%s %d %s" % (kind, root, "all" if radius is None else "radius %d" % radius)
    for vertex, (label, arcs) in sorted(tree.items()):
        if radius is None or label <= radius:
            yield "row %d %d %d" % (vertex, label, arcs[0] if arcs else 0)
    yield "end"


def reason(query, path):
    if path == query.optimum:
        return "optimum"
    if query.shares_much(path):
        return "shared %d" % query.shared(path)
    for word, failure in (("local", query.local_failure(path)), ("stretch", query.stretch_failure(path))):
        if failure:
            i, j, _distance = failure
            vertices, _sums = query.places(path)
            detour = plain.canonical_paths(query.graph.out, vertices[i])[vertices[j]][1][::-1]
            return "%s %d %d%s" % (word, i, j, plain.arcs_text(detour))
    return "listed %d" % min(query.vias(path))


def found_lines(graph, query, source, target):
    num, den = query.epsilon
    bound = (den + num) * query.shortest // den
    yield from block_lines("from", source, bound, query.from_source)
    yield from block_lines("to", target, bound, plain.canonical_paths(graph.into, target))
    routes, radii = query.alternatives(), {}
    for _rank, name, _length, _shared, _plateau, path in routes:
        vertices, sums = query.places(path)
        for i in range(len(query.from_source[name][1])):
            radii[vertices[i]] = max(radii.get(vertices[i], 0), sums[-1] - sums[i])
    for vertex, radius in sorted(radii.items()):
        if vertex != source:
            yield from block_lines("from", vertex, radius, plain.canonical_paths(graph.out, vertex))
    yield "optimum %d%s" % (query.shortest, plain.arcs_text(query.optimum))
    for rank, name, length, shared, plateau, path in routes:
        yield "route %d %d %d %d %d%s" % (name, length, shared, plateau, rank, plain.arcs_text(path))
    for vertex, path in sorted(query.path_of.items()):
        if not query.is_long(path):
            yield "via %d %s" % (vertex, reason(query, path))


def certificate(graph, source, target, gamma=(4, 5), alpha=(1, 4), epsilon=(1, 4)):
    """The text of the certificate of a query."""
    query = plain.Query(graph, source, target, gamma, alpha, epsilon)
    ratios = "%d/%d %d/%d %d/%d" % (*gamma, *alpha, *epsilon)
    lines = ["cert 1", "graph %d %d" % (graph.vertices, len(graph.arcs)), "query %d %d %s" % (source, target, ratios)]
    if query.optimum is None:
        lines += [*block_lines("from", source, None, query.from_source), "none"]
    else:
        lines += found_lines(graph, query, source, target)
    return "".join(line + "\n" for line in [*lines, "done"]).encode()


def main():
    words = argparse.ArgumentParser(description=__doc__, formatter_class=argparse.RawDescriptionHelpFormatter)
    words.add_argument("graph")
    words.add_argument("certificate")
    given = words.parse_args()
    with open(given.certificate, "rb") as file:
        said = answer(plain.read_graph(given.graph), file.read())
    print(said)
    sys.exit(0 if said.startswith("yes") else 1)


if __name__ == "__main__":
    main()
