"""Random small graphs, and random request lines over them: good lines of every kind, pages one after another, and lines
with one fault or several; over one version of the graph, or over many with changed lengths."""
import itertools

import plain

CAPS = {"gamma": 1, "alpha": 1, "epsilon": 4}
WIDE = ((1, 1), (0, 1), (4, 1))  # gamma, alpha and epsilon that refuse least
HUGE = [1 << 32, (1 << 32) + 1, 1 << 63, 10**19 - 1]
NO_NUMBERS = ["", "-1", "+1", "1x", "0x1", "1.0", "1" * 20, "0" * 20, "\u0663"]
NO_RATIOS = ["1", "/", "1/", "/2", "1//2", "1/2/3", "1/2x", "1:2"]
NO_OPTIONS = ["beta 1/2", "gamma", "Gamma 1/2", "size", "size 1/2", "since -1", "size 3 size 3", "1/2 gamma", "gamma=1/2"]
NO_CURSORS = [
    "1", "x", ".", "..........", "1.1.1", "1.1.1.4.5.1.4.1.4.5.0.", ".1.1.1.4.5.1.4.1.4.5.0", "1,1,1,4,5,1,4,1,4,5,0",
]
NO_REQUESTS = [
    b"hello", b"Route 1 1", b"routes 1 1", b"route", b"route 1", b"optimum 1", b"why 1 1", b"next", b"next 1 1",
    b"version 1", b"quit 1", b"quit quit", b"QUIT", b"Length 1 1", b"publish 1", b"published", b"length", b"length 1",
    b"length 1 1 1", b"length 1 1/1", b"1 1", b"#", b"\0",
    b"version\0", b"\xff\xfe", b"route\x0b1 1", b"version\x0c", b"optimum 1\xa01", b"\rversion", b"ver sion",
    b"x" * 1024, b"1" * 1025,
]


def grid_arcs(width, height, length):
    for v in range(1, width * height + 1):
        neighbours = [v + 1] * (v % width > 0) + [v + width] * (v + width <= width * height)
        for w in neighbours:
            yield v, w, length()
            yield w, v, length()


def stray_arcs(chance, vertices, length):
    """Ties, loops, stubs, parallel arcs, and arcs there and back."""
    for _ in range(chance.randint(0, 3 * vertices)):
        tail, head, there = chance.randint(1, vertices), chance.randint(1, vertices), length()
        yield tail, head, there
        if chance.random() < 0.4:
            yield head, tail, there
        if chance.random() < 0.1:
            yield tail, head, there


def random_lengths(chance):
    """A function that draws lengths: all equal, of few kinds, of many, or nearly as long as a length may be."""
    least, greatest = chance.choice([(1, 1), (1, 2), (1, 3), (1, 9), (1, 40), (1, 1000), (4294967290, 4294967295)])
    return lambda: chance.randint(least, greatest)


def random_graph(chance):
    """A grid, or a graph of up to ten vertices; now and then no vertex."""
    length = random_lengths(chance)
    shape = chance.random()
    if shape < 0.02:
        return plain.Graph(0, [])
    if shape < 0.5:
        width, height = chance.choice([(2, 2), (5, 2), (2, 6), (3, 3), (4, 3), (9, 1)])
        vertices, arcs = width * height, list(grid_arcs(width, height, length))
    else:
        vertices = chance.randint(1, 10)
        arcs = list(stray_arcs(chance, vertices, length))
    chance.shuffle(arcs)
    return plain.Graph(vertices, arcs)


def larger_graph(chance):
    """A grid, or a graph of 13 to 40 vertices."""
    length = random_lengths(chance)
    if chance.random() < 0.5:
        width, height = chance.choice([(4, 4), (6, 4), (5, 5), (8, 5), (20, 2)])
        return plain.Graph(width * height, list(grid_arcs(width, height, length)))
    vertices = chance.randint(13, 40)
    return plain.Graph(vertices, list(stray_arcs(chance, vertices, length)))


class Script:
    """Request lines over a graph, which stays as it is. What they ask next goes by what the definitions reply."""

    def __init__(self, chance, graph):
        self.chance, self.graph, self.run = chance, graph, plain.Run(graph)
        self.lines, self.cursors, self.fault_rate = [], [], 0
        pairs = itertools.permutations(range(1, graph.vertices + 1), 2)
        self.joined = [ends for ends in pairs if graph.distance(*ends) is not None]
        some = chance.sample(self.joined, min(10, len(self.joined)))
        self.rich = sorted(some, key=lambda ends: len(plain.Query(graph, *ends, *WIDE).alternatives()))[-3:]

    def text(self):
        """Some requests; now and then with a `quit` among them, or without the last line feed."""
        self.ask_all()
        if self.often(0.15):
            self.lines.insert(self.chance.randint(0, len(self.lines)), self.line([b"quit"]))
        if self.often(0.2):
            self.lines[-1] = self.lines[-1][:-1]
        return b"".join(self.lines)

    def ask_all(self):
        asks = {
            self.ask_route: 6, self.ask_why: 5, self.ask_forged: 4, self.ask_optimum: 3, self.ask_nothing: 2,
            self.ask_why_all: 1, self.ask_version: 1,
        }
        for _ in range(self.chance.randint(20, 120)):
            self.ask_one(asks)

    def ask_one(self, asks):
        """One kind of request, by their weights."""
        self.fault_rate = self.chance.choice([0, 0, 0, 0, 0.05, 0.15])
        self.chance.choices(list(asks), asks.values())[0]()

    def often(self, rate):
        return self.chance.random() < rate

    def slips(self):
        return self.often(self.fault_rate)

    # ---- parts of a line

    def number(self, value):
        if self.slips() and self.often(0.4):
            return self.chance.choice(NO_NUMBERS)
        return str(value).zfill(self.chance.randint(2, 19)) if self.often(0.03) else str(value)

    def vertex(self):
        most = self.graph.vertices
        if self.slips():
            return self.chance.choice([0, most + 1, (1 << 32) + most, *HUGE])
        return self.chance.randint(1, max(most, 1))

    def ends(self):
        """A source and a target; mostly a walk leads there, often many."""
        if self.joined and not self.slips() and self.often(0.85):
            return self.chance.choice(self.rich if self.often(0.5) else self.joined)
        return self.vertex(), self.vertex()

    def size(self):
        if self.slips():
            return self.chance.choice([0, 65, (1 << 32) + 5, *HUGE])
        return self.chance.choice([1, 1, 1, 2, 2, 3, 4, 5, 6, 64])

    def since(self):
        newest = self.run.newest()
        if self.slips() or self.often(0.1):
            return self.chance.choice([newest + 1, newest + 1, newest + 2, *HUGE])
        return self.chance.choice([0, newest - 1, newest, newest])

    def ratio(self, cap, bound):
        """A ratio up to cap; often the one on which some test of the query stands."""
        if self.slips():
            above = [(cap * 7 + 1, 7), (cap * 1000000 + 1, 1000000), (HUGE[3], 1)]
            return self.chance.choice(above + [(0, 0), (1, 0), (1, 1000001), (1, 1 << 32), (HUGE[3], HUGE[3])])
        if 1 <= bound[1] <= 1000000 and bound[0] <= cap * bound[1] and self.often(0.6):
            return bound
        den = self.chance.choice([1, 1, 2, 3, 4, 5, 8, 1000000])
        return self.chance.choice([0, cap * den, self.chance.randint(0, cap * den)]), den

    def bounds(self, source, target):
        """Ratios on which some via path of the pair stands: its shared length, the length of one of its subpaths with or
        without its end arcs, and the stretch of that subpath. One that is no ratio within its cap isn't used."""
        is_joined = (source, target) in self.joined
        graph = self.run.graph(self.run.newest())
        query = plain.Query(graph, source, target, *WIDE) if is_joined else None
        path = self.chance.choice(sorted(query.path_of.values())) if is_joined else ()
        if not path:
            return (0, 0), (0, 0), (0, 0)
        vertices, sums = query.places(path)
        i, j = sorted(self.chance.sample(range(len(vertices)), 2))
        whole, distance = sums[j] - sums[i], graph.distance(vertices[i], vertices[j])
        tested = sums[j - 1] - sums[i + 1] if j >= i + 2 and self.often(0.5) else whole
        return (query.shared(path), query.shortest), (tested, query.shortest), (whole - distance, distance)

    def options(self, source, target, names):
        """Some options in some order; often such that many paths are alternatives."""
        bounds = dict(zip(CAPS, self.bounds(source, target)))
        wide = {name: "%d/%d" % ratio for name, ratio in zip(CAPS, WIDE)} if self.often(0.5) else {}
        chosen = {*wide, *self.chance.sample(names, self.chance.randint(0, len(names)))}
        if "size" in names and self.often(0.5):
            chosen.add("size")
        fields = []
        for name in self.chance.sample(sorted(chosen), len(chosen)):
            if name in wide and self.often(0.9):
                value = wide[name]
            elif name in CAPS:
                num, den = self.ratio(CAPS[name], bounds[name])
                value = "%s/%s" % (self.number(num), self.number(den))
                if self.slips():
                    value = self.chance.choice(NO_RATIOS)
            else:
                value = self.number(self.size() if name == "size" else self.since())
            fields += [name, value]
        if self.slips() or self.often(0.04):
            repeated = [" ".join(fields[:2])] if fields else []
            fields.append(self.chance.choice(NO_OPTIONS + 4 * repeated))
        return fields

    def line(self, fields):
        """The line of these fields: sometimes with more blanks, with a carriage return, or as long as a line may be."""
        gaps = [b""] + [b" "] * (len(fields) - 1) + [b""]
        if self.often(0.15):
            gaps = [self.chance.choice([b" ", b"\t", b"  ", b"\t \t"]) for _ in gaps]
            gaps[0], gaps[-1] = gaps[0] * self.chance.randint(0, 1), gaps[-1] * self.chance.randint(0, 1)
        if self.often(0.03):
            length = self.chance.choice([1023, 1024, 1025, 1026, 2048, 70000])
            at = self.chance.randrange(len(gaps))
            gaps[at] += b" " * (length - sum(map(len, gaps)) - sum(map(len, fields)))
        text = gaps[0] + b"".join(field + gap for field, gap in zip(fields, gaps[1:]))
        return text + self.chance.choices([b"\n", b"\r\n", b"\r\r\n"], [85, 14, 1])[0]

    def ask(self, *fields):
        """Adds a line, and gives the reply to it."""
        line = self.line([field if isinstance(field, bytes) else str(field).encode() for field in fields])
        self.lines.append(line)
        return b"".join(reply for _line, reply in self.run.replies(line))

    # ---- lines of each kind

    def ask_optimum(self):
        source, target = self.ends()
        self.ask("optimum", self.number(source), self.number(target), *(["1"] if self.slips() else []))

    def ask_route(self):
        """A page, and often the pages after it."""
        source, target = self.ends()
        options = self.options(source, target, ["gamma", "alpha", "epsilon", "size", "since"])
        reply = self.ask("route", self.number(source), self.number(target), *options)
        while b"\nmore " in reply:
            cursor = reply.split()[-2]
            self.cursors.append(cursor.decode())
            if self.often(0.1):
                return
            reply = self.ask("next", cursor)

    def ask_forged(self):
        """A cursor that was given earlier or never, some of its numbers changed."""
        newest = self.run.newest()
        usual = "%d.%d.%d.4.5.1.4.1.4.%d.%d" % (
            newest, self.vertex(), self.vertex(), self.size(), self.chance.randint(0, 4))
        numbers = self.chance.choice(self.cursors + [usual]).split(".")
        changed = [0, 1, 2, 3, newest, newest + 1, 64, 65, self.graph.vertices + 1, *HUGE]
        for _ in range(self.chance.choice([0, 1, 1, 2, 3])):
            numbers[self.chance.randrange(11)] = str(self.chance.choice(changed))
        if self.slips() or self.often(0.15):
            place = self.chance.randrange(11)
            numbers[place] = self.chance.choice([*NO_NUMBERS, "0" + numbers[place]])
        cursor = ".".join(numbers)
        if self.slips():
            cursor = self.chance.choice([*NO_CURSORS, cursor + ".1", cursor.rsplit(".", 1)[0]])
        self.ask("next", cursor, *(["1"] if self.slips() else []))

    def ask_why(self):
        source, target = self.ends()
        options = self.options(source, target, ["gamma", "alpha", "epsilon", "since"])
        self.ask("why", self.number(source), self.number(target), self.number(self.vertex()), *options)

    def ask_why_all(self):
        source, target = self.ends()
        options = self.options(source, target, ["gamma", "alpha", "epsilon", "since"])
        for via in range(1, self.graph.vertices + 1):
            self.ask("why", source, target, via, *options)

    def ask_version(self):
        self.ask("version")

    def ask_nothing(self):
        """A line without a field, or one that is no request."""
        if self.often(0.3):
            self.ask(b"")
        else:
            self.ask(self.chance.choice(NO_REQUESTS))


class VersionScript(Script):
    """Request lines over the versions of a graph: changes are staged and published among them, more keys are asked for
    than are kept, and cursors are used again of kept keys, of dropped ones, and of versions that are none."""

    MOST_LINES, MOST_VERSIONS = 120, 30

    def ask_all(self):
        asks = {
            self.ask_again: 9, self.ask_length: 5, self.ask_route: 4, self.ask_why: 2, self.ask_optimum: 2,
            self.ask_version: 1, self.ask_forged: 1, self.ask_nothing: 1, self.ask_many_keys: 1,
            self.ask_publish: self.chance.choice([1, 4, 4, 20]),
        }
        count = self.chance.randint(10, self.MOST_LINES)
        while len(self.lines) < count:
            self.ask_one(asks)
        del self.lines[count:]

    def ask(self, *fields):
        """As any script; and a cursor of the key that was used is at hand from then on, whether one was given or not."""
        before = self.run.keys
        reply = super().ask(*fields)
        if self.run.keys != before:
            version, source, target, ratios = self.run.keys[0]
            numbers = [version, source, target, *itertools.chain(*ratios), self.chance.choice([1, 1, 2, 5])]
            self.cursors.append(".".join(map(str, [*numbers, self.chance.randint(0, 3)])))
        return reply

    def ask_again(self):
        """The page of an earlier cursor, mostly a late one: as it is, or at another place, or of another version."""
        if not self.cursors:
            return self.ask_forged()
        late = self.cursors[-20:] if self.often(0.8) else self.cursors
        numbers = self.chance.choice(late).split(".")
        newest = self.run.newest()
        if self.often(0.1):
            numbers[0] = str(self.chance.choice([0, 1, newest - 1, newest, newest + 1, *HUGE]))
        if self.often(0.1):
            numbers[9] = str(self.size())
        if self.often(0.1):
            numbers[10] = str(self.chance.randint(0, 5))
        self.ask("next", ".".join(numbers))

    def ask_many_keys(self):
        """As many keys as are kept or one less or more, each new: the usual ratio, written with other numbers each time."""
        ends = [self.ends() for _ in range(self.chance.randint(1, 2))]
        for _ in range(self.chance.randint(plain.KEPT - 1, plain.KEPT + 1)):
            factor = self.chance.randint(1, 200000)
            self.ask("route", *self.chance.choice(ends), "gamma", "%d/%d" % (4 * factor, 5 * factor), "size", 1)
        self.ask_again()

    def ask_length(self):
        """Some changes; often of the arc of the last one, and of a length that the graph has."""
        for _ in range(self.chance.choice([1, 1, 1, 2, 3, 5])):
            arcs = self.graph.arcs
            arc = self.chance.randint(1, max(len(arcs), 1))
            if self.run.staged and self.often(0.3):
                arc = self.run.staged[-1][0]
            is_old = arcs and self.often(0.5)
            length = self.chance.choice(arcs)[2] if is_old else self.chance.randint(1, 12)
            if self.slips() or self.often(0.03):
                arc = self.chance.choice([0, len(arcs), len(arcs) + 1, (1 << 32) + arc, *HUGE])
            if self.slips() or self.often(0.05):
                length = self.chance.choice([0, plain.LONGEST_LENGTH, plain.LONGEST_LENGTH + 1, *HUGE])
            fields = [self.number(arc), self.number(length), self.number(1)]
            self.ask("length", *fields[: self.chance.choice([1, 3]) if self.slips() or self.often(0.02) else 2])

    def ask_publish(self):
        """A version, also of no change; now and then with a field too many."""
        if self.run.newest() < self.MOST_VERSIONS:
            self.ask("publish", *([self.number(1)] if self.slips() or self.often(0.05) else []))
