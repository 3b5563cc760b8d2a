#!/usr/bin/env python3
"""The definitions of docs/definitions.md, computed plainly and with no kit: canonical paths, the alternatives and the
verdicts of a query, over all vertices and all pairs of places, versions of a graph, and the replies to request lines.

It answers the request lines of the standard input over a graph file without a fault.
"""
import argparse
import heapq
import itertools
import re
import sys

LONGEST_LINE = 1024
LONGEST_LENGTH = 4294967295
MOST_VERSIONS = 1048576
KEPT = 8  # plans
RATIOS = {b"gamma": (4, 5), b"alpha": (1, 4), b"epsilon": (1, 4)}
USUAL = {**RATIOS, b"size": 5, b"since": 0}


# ---- graphs and canonical paths


class Graph:
    def __init__(self, vertices, arcs):
        self.vertices = vertices
        self.arcs = arcs  # (tail, head, length); arc k is arcs[k - 1]
        self.out = [[] for _ in range(vertices + 1)]  # of each vertex: (arc number, other end, length)
        self.into = [[] for _ in range(vertices + 1)]
        for number, (tail, head, length) in enumerate(arcs, 1):
            self.out[tail].append((number, head, length))
            self.into[head].append((number, tail, length))
        self.distances = {}

    def distance(self, u, v):
        """The least length of a walk from u to v; None where there is none."""
        if u not in self.distances:
            self.distances[u] = {w: length for w, (length, _arcs) in canonical_paths(self.out, u).items()}
        return self.distances[u].get(v)


def read_graph(path):
    """The graph of a file that has no fault."""
    with open(path, "rb") as file:
        text = file.read()
    vertices, arcs = 0, []
    for line in text.split(b"\n"):
        fields = line.split()
        if fields and fields[0] == b"p":
            vertices = int(fields[2])
        elif fields and fields[0] == b"a":
            arcs.append((int(fields[1]), int(fields[2]), int(fields[3])))
    return Graph(vertices, arcs)


def after(graph, changes):
    """The graph with the length of each named arc replaced, in the order of the changes."""
    arcs = list(graph.arcs)
    for number, length in changes:
        tail, head, _old = arcs[number - 1]
        arcs[number - 1] = tail, head, length
    return type(graph)(graph.vertices, arcs)


def graph_text(graph):
    """The file of a graph, with no needless byte."""
    lines = ["p sp %d %d\n" % (graph.vertices, len(graph.arcs))] + ["a %d %d %d\n" % arc for arc in graph.arcs]
    return "".join(lines).encode()


def canonical_paths(beside, root):
    """For each vertex joined to the root by arcs out of it (`graph.out`) or into it (`graph.into`): the least length of a
    walk between the two, and of the walks of that length the arc numbers that are least in dictionary order. They are
    read, and given, from the vertex to the root."""
    found, queue = {}, [(0, (), root)]
    while queue:
        length, arcs, v = heapq.heappop(queue)
        if v in found:
            continue
        found[v] = length, arcs
        for number, other, step in beside[v]:
            if other not in found:
                heapq.heappush(queue, (length + step, (number,) + arcs, other))
    return found


# ---- alternatives and verdicts


class Query:
    """The single-via paths of a query, as tuples of arc numbers, and what the definitions say of them."""

    def __init__(self, graph, source, target, gamma, alpha, epsilon):
        self.graph, self.source = graph, source
        self.gamma, self.alpha, self.epsilon = gamma, alpha, epsilon
        self.from_source, to_target = canonical_paths(graph.out, source), canonical_paths(graph.into, target)
        joined = [v for v in self.from_source if v in to_target]
        self.path_of = {v: self.from_source[v][1][::-1] + to_target[v][1] for v in joined}
        self.optimum = self.path_of.get(target)
        if self.optimum is not None:
            self.shortest = self.length(self.optimum)

    def length(self, path):
        return sum(self.graph.arcs[number - 1][2] for number in path)

    def shared(self, path):
        return self.length(set(self.optimum) & set(path))

    def vias(self, path):
        return [v for v, other in self.path_of.items() if other == path]

    def plateau(self, path):
        labels = [self.from_source[v][0] for v in self.vias(path)]
        return max(labels) - min(labels)

    def is_long(self, path):
        num, den = self.epsilon
        return self.length(path) * den > (den + num) * self.shortest

    def shares_much(self, path):
        num, den = self.gamma
        return self.shared(path) * den > num * self.shortest

    def places(self, path):
        """The vertices at the places of a path, and its length up to each."""
        vertices, sums = [self.source], [0]
        for number in path:
            _tail, head, length = self.graph.arcs[number - 1]
            vertices.append(head)
            sums.append(sums[-1] + length)
        return vertices, sums

    def local_failure(self, path):
        """The least two places with a tested subpath that is no shortest walk, and their distance."""
        num, den = self.alpha
        bound = num * self.shortest
        vertices, sums = self.places(path)
        for i, j in itertools.combinations(range(len(vertices)), 2):
            whole, distance = sums[j] - sums[i], self.graph.distance(vertices[i], vertices[j])
            is_tested = whole * den <= bound or (j >= i + 2 and (sums[j - 1] - sums[i + 1]) * den < bound)
            if is_tested and whole != distance:
                return i, j, distance
        return None

    def stretch_failure(self, path):
        """The least two places with a subpath that stretches too far, and their distance."""
        num, den = self.epsilon
        vertices, sums = self.places(path)
        for i, j in itertools.combinations(range(len(vertices)), 2):
            distance = self.graph.distance(vertices[i], vertices[j])
            if (sums[j] - sums[i]) * den > (den + num) * distance:
                return i, j, distance
        return None

    def is_admissible(self, path):
        if self.is_long(path):  # it stretches too far between its first and its last place
            return False
        return not (self.shares_much(path) or self.local_failure(path) or self.stretch_failure(path))

    def alternatives(self):
        """(rank, name, length, shared, plateau, path) of each, in order."""
        found = []
        for path in set(self.path_of.values()) - {self.optimum}:
            if self.is_admissible(path):
                length, shared, plateau = self.length(path), self.shared(path), self.plateau(path)
                found.append((2 * length + shared - plateau, min(self.vias(path)), length, shared, plateau, path))
        return sorted(found)

    def verdict(self, via):
        """The words of the verdict after its via vertex."""
        path = self.path_of.get(via)
        if path is None:
            return "unreached"
        if path == self.optimum:
            return "optimum"
        if self.is_long(path):
            return "long %d" % self.length(path)
        if self.shares_much(path):
            return "shared %d" % self.shared(path)
        if self.local_failure(path):
            return "local %d %d %d" % self.local_failure(path)
        if self.stretch_failure(path):
            return "stretch %d %d %d" % self.stretch_failure(path)
        return "listed %d" % min(self.vias(path))


# ---- lines, fields and numbers


class Refusal(Exception):
    """What stands after the word `error`."""


def lines_of(text):
    """A line ends at a line feed; a carriage return before it belongs to the end. What is after the last is a line too."""
    lines = text.split(b"\n")
    if lines[-1] == b"":
        lines.pop()
    return [line[:-1] if line.endswith(b"\r") else line for line in lines]


def fields_of(line):
    return re.findall(rb"[^ \t]+", line)


def number_of(field):
    if not re.fullmatch(rb"[0-9]{1,19}", field):
        raise Refusal("syntax")
    return int(field)


def numbers_of(fields, count):
    if len(fields) != count:
        raise Refusal("syntax")
    return [number_of(field) for field in fields]


def options_of(fields, names):
    """The options that pairs of fields give, each at most once, and the usual ones."""
    given = {}
    for name, value in itertools.zip_longest(fields[::2], fields[1::2]):
        if name not in names or name in given or value is None:
            raise Refusal("syntax")
        is_count = name in (b"size", b"since")
        given[name] = number_of(value) if is_count else tuple(numbers_of(value.split(b"/"), 2))
    return {**USUAL, **given}


def cursor_of(field):
    """The eleven numbers of a cursor: version, source, target, gamma, alpha, epsilon, size, offset."""
    parts = field.split(b".")
    if len(parts) != 11 or not all(re.fullmatch(rb"0|[1-9][0-9]{0,18}", part) for part in parts):
        raise Refusal("cursor")
    return [int(part) for part in parts]


# ---- replies


def arcs_text(arcs):
    return "".join(" %d" % number for number in arcs)


def plan(graph, source, target, ratios):
    """The lines of the optimum and of the alternatives after it; none where no path leads to the target."""
    query = Query(graph, source, target, *ratios)
    if query.optimum is None:
        return None
    items = ["optimum length %d arcs%s" % (query.shortest, arcs_text(query.optimum))]
    for rank, name, length, shared, plateau, path in query.alternatives():
        numbers = name, length, shared, plateau, rank, arcs_text(path)
        items.append("route via %d length %d shared %d plateau %d rank %d arcs%s" % numbers)
    return items


class Run:
    """A run of `answer`: the versions of a graph so far, the changes that are staged, and the keys whose plans are kept. A
    key is a version and a query: its source, its target and its ratios as they were given."""

    def __init__(self, graph):
        self.base, self.batches, self.staged = graph, [], []
        self.keys = []  # the most recently used first
        self.graphs, self.plans = {1: graph}, {}  # found so far, so that none is made twice

    def newest(self):
        return 1 + len(self.batches)

    def graph(self, version):
        if version not in self.graphs:
            self.graphs[version] = after(self.base, itertools.chain(*self.batches[: version - 1]))
        return self.graphs[version]

    def replies(self, text):
        """The lines of a text up to a line `quit`, each with the bytes of its reply."""
        for line in lines_of(text):
            if is_quit(line):
                return
            yield line, self.reply(line)

    def reply(self, line):
        """The bytes of the reply to a line; none to a line without a field."""
        fields = fields_of(line)
        try:
            if len(line) > LONGEST_LINE:
                raise Refusal("long")
            if not fields:
                return b""
            if fields[0] not in REQUESTS:
                raise Refusal("syntax")
            lines = REQUESTS[fields[0]](self, fields[1:])
        except Refusal as refusal:
            lines = ["error %s" % refusal]
        return "".join(line + "\n" for line in lines).encode()

    def test(self, ends, ratios=(), size=1, since=0):
        """Raises the first refusal that holds."""
        if not all(1 <= v <= self.base.vertices for v in ends):
            raise Refusal("vertex")
        for (num, den), cap in zip(ratios, (1, 1, 4)):
            if not 1 <= den <= 1000000 or num > cap * den:
                raise Refusal("ratio")
        if not 1 <= size <= 64:
            raise Refusal("size")
        if since > self.newest():
            raise Refusal("behind %d" % self.newest())

    def page(self, key, size, offset):
        """A page of the key's plan, which is kept from then on; the least recently used one is dropped for it."""
        self.keys = [key, *(other for other in self.keys if other != key)][:KEPT]
        version, source, target, ratios = key
        if key not in self.plans:
            self.plans[key] = plan(self.graph(version), source, target, ratios)
        items = self.plans[key]
        if items is None:
            return ["none %d" % version]
        first = min(offset, len(items))
        end = first + min(size, len(items) - first)
        cursor = [version, source, target, *itertools.chain(*ratios), size, end]
        more = ["more " + ".".join(map(str, cursor))] if end < len(items) else []
        return ["ok %d" % version, *items[first:end], *more, "end"]

    # ---- requests, by the fields after their word

    def optimum(self, fields):
        source, target = numbers_of(fields, 2)
        self.test([source, target])
        found = canonical_paths(self.graph(self.newest()).out, source).get(target)
        if found is None:
            return ["none %d" % self.newest()]
        return ["ok %d" % self.newest(), "optimum length %d arcs%s" % (found[0], arcs_text(found[1][::-1])), "end"]

    def route(self, fields):
        source, target = numbers_of(fields[:2], 2)
        options = options_of(fields[2:], (b"gamma", b"alpha", b"epsilon", b"size", b"since"))
        ratios = options[b"gamma"], options[b"alpha"], options[b"epsilon"]
        self.test([source, target], ratios, options[b"size"], options[b"since"])
        return self.page((self.newest(), source, target, ratios), options[b"size"], 0)

    def next_page(self, fields):
        if len(fields) != 1:
            raise Refusal("syntax")
        version, source, target, *numbers, size, offset = cursor_of(fields[0])
        ratios = tuple(numbers[0:2]), tuple(numbers[2:4]), tuple(numbers[4:6])
        self.test([source, target], ratios, size)
        key = version, source, target, ratios
        if version != self.newest() and key not in self.keys:
            raise Refusal("gone %d" % self.newest())
        return self.page(key, size, offset)

    def why(self, fields):
        source, target, via = numbers_of(fields[:3], 3)
        options = options_of(fields[3:], (b"gamma", b"alpha", b"epsilon", b"since"))
        ratios = options[b"gamma"], options[b"alpha"], options[b"epsilon"]
        self.test([source, target, via], ratios, since=options[b"since"])
        query = Query(self.graph(self.newest()), source, target, *ratios)
        if query.optimum is None:
            return ["none %d" % self.newest()]
        return ["ok %d" % self.newest(), "verdict %d %s" % (via, query.verdict(via)), "end"]

    def version(self, fields):
        numbers_of(fields, 0)
        return ["version %d" % self.newest()]

    def length(self, fields):
        arc, length = numbers_of(fields, 2)
        if not 1 <= arc <= len(self.base.arcs):
            raise Refusal("arc")
        if not 1 <= length <= LONGEST_LENGTH:
            raise Refusal("length")
        self.staged.append((arc, length))
        return ["staged %d" % len(self.staged)]

    def publish(self, fields):
        numbers_of(fields, 0)
        if self.newest() == MOST_VERSIONS:
            raise Refusal("full")
        self.batches.append(self.staged)
        self.staged = []
        return ["published %d" % self.newest()]


REQUESTS = {
    b"optimum": Run.optimum, b"route": Run.route, b"next": Run.next_page, b"why": Run.why, b"version": Run.version,
    b"length": Run.length, b"publish": Run.publish,
}


def is_quit(line):
    return len(line) <= LONGEST_LINE and fields_of(line) == [b"quit"]


def replies(graph, text):
    """The replies of a run over this text."""
    return b"".join(reply for _line, reply in Run(graph).replies(text))


def main():
    words = argparse.ArgumentParser(description=__doc__, formatter_class=argparse.RawDescriptionHelpFormatter)
    words.add_argument("graph")
    graph = read_graph(words.parse_args().graph)
    sys.stdout.buffer.write(replies(graph, sys.stdin.buffer.read()))


if __name__ == "__main__":
    main()
