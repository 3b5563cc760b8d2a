"""Runs of `answer` whose replies were written by hand from the definitions: both plain.py and the program have to give them.

A line after `>` is a request, and the lines after it are its reply. Where several requests stand one after another, the
reply after the last of them is the reply to each.
"""
import re

import plain

# The graph of the picture in README, and graphs that show one thing each.
SMALL = plain.Graph(6, [(1, 2, 10), (2, 6, 10), (1, 3, 11), (3, 4, 6), (4, 6, 5), (2, 3, 1)])
INNER = plain.Graph(6, [(1, 2, 10), (2, 6, 10), (1, 3, 11), (3, 6, 11), (2, 3, 1)])
SQUARE = plain.Graph(4, [(1, 2, 5), (3, 4, 5), (1, 3, 5), (2, 4, 5)])
STUB = plain.Graph(4, [(1, 2, 1), (2, 3, 1), (2, 4, 1), (4, 2, 1)])
PREFIX = plain.Graph(6, [(1, 3, 5), (3, 2, 5), (2, 6, 10), (3, 4, 6), (4, 5, 5), (5, 6, 5)])
PARALLEL = plain.Graph(2, [(1, 2, 7), (1, 2, 7), (1, 1, 1)])
EMPTY = plain.Graph(0, [])

OTHER_KEYS = """
> route 1 1
ok 2
optimum length 0 arcs
end
> route 1 2
ok 2
optimum length 10 arcs 1
end
> route 1 3
ok 2
optimum length 11 arcs 3
route via 1 length 11 shared 0 plateau 10 rank 12 arcs 1 6
end
> route 1 4
ok 2
optimum length 18 arcs 3 4
route via 1 length 18 shared 7 plateau 10 rank 33 arcs 1 6 4
end
> route 2 2
ok 2
optimum length 0 arcs
end
> route 2 3
ok 2
optimum length 1 arcs 6
end
> route 2 4
ok 2
optimum length 8 arcs 6 4
end
"""
EIGHTH_KEY = """
> route 2 6
ok 2
optimum length 10 arcs 2
end
"""
STAGED = """
> route 1 6 size 1
ok 1
optimum length 20 arcs 1 2
more 1.1.6.4.5.1.4.1.4.1.1
end
> length 4 7
staged 1
> publish
published 2
"""
KEPT = """
> next 1.1.6.4.5.1.4.1.4.1.1
ok 1
route via 3 length 22 shared 0 plateau 6 rank 38 arcs 3 4 5
end
"""
RUNS = [
    ("answers and no path", SMALL, """
> optimum 1 6
ok 1
optimum length 20 arcs 1 2
end
> route 1 6
> route 1 6 alpha 3/10
> route 1 6 epsilon 1/10
> route 1 6 since 1
ok 1
optimum length 20 arcs 1 2
route via 3 length 22 shared 0 plateau 6 rank 38 arcs 3 4 5
end
> route 1 1
ok 1
optimum length 0 arcs
end
> optimum 6 1
> route 6 1
> why 6 1 2
none 1
> version
version 1
"""),
    ("verdicts", SMALL, """
> why 1 6 4
ok 1
verdict 4 listed 3
end
> why 1 6 5
ok 1
verdict 5 unreached
end
> why 1 6 2
ok 1
verdict 2 optimum
end
> why 1 6 3 alpha 13/40
ok 1
verdict 3 local 0 3 20
end
> why 1 6 3 epsilon 9/100
ok 1
verdict 3 long 22
end
"""),
    ("an inner part that is short", INNER, """
> why 1 6 3
ok 1
verdict 3 local 0 2 20
end
> route 1 6
ok 1
optimum length 20 arcs 1 2
end
"""),
    ("ties by the last arcs and by the first", SQUARE, """
> route 1 4
ok 1
optimum length 10 arcs 3 2
route via 1 length 10 shared 0 plateau 5 rank 15 arcs 1 4
end
"""),
    ("a vertex that is met twice", STUB, """
> why 1 3 4 gamma 1/1 alpha 0/1 epsilon 1/1
ok 1
verdict 4 stretch 0 3 1
end
"""),
    ("a shared beginning", PREFIX, """
> why 1 6 4 gamma 1/10
ok 1
verdict 4 shared 5
end
> route 1 6
ok 1
optimum length 20 arcs 1 2 3
route via 4 length 21 shared 5 plateau 5 rank 42 arcs 1 4 5 6
end
"""),
    ("parallel arcs and a loop", PARALLEL, """
> route 1 2
ok 1
optimum length 7 arcs 1
end
"""),
    ("pages and cursors", SMALL, """
> route 1 6 size 1
ok 1
optimum length 20 arcs 1 2
more 1.1.6.4.5.1.4.1.4.1.1
end
> next 1.1.6.4.5.1.4.1.4.1.1
ok 1
route via 3 length 22 shared 0 plateau 6 rank 38 arcs 3 4 5
end
> next 1.1.6.4.5.1.4.1.4.1.2
ok 1
end
> next 1.1.6
> next 01.1.6.4.5.1.4.1.4.1.1
error cursor
"""),
    ("each refusal after those before it", SMALL, """
> next
> next 1.1.6 1
> route 1 6 size
> length 1
> length 1 2 3
> length 1 -2
> length 1 18446744073709551616
> publish 1
> published
error syntax
> next 2.7.6.4.5.1.4.1.4.0
error cursor
> why 1 6 7
> route 0 6 gamma 2/1 size 0 since 2
> next 2.7.6.2.1.1.4.1.4.0.0
error vertex
> route 1 6 gamma 2/1 size 0 since 2
> next 2.1.6.4.5.1.0.1.4.0.0
error ratio
> route 1 6 size 0 since 2
> route 1 6 size 65
> next 2.1.6.4.5.1.4.1.4.65.0
error size
> route 1 6 since 2
> why 1 6 3 since 2
error behind 1
> next 0.1.6.4.5.1.4.1.4.1.0
> next 2.1.6.4.5.1.4.1.4.1.0
error gone 1
> length 0 0
> length 7 5
> length 7 4294967296
error arc
> length 1 0
> length 1 4294967296
> length 1 9999999999999999999
error length
> length 1 4294967295
staged 1
"""),
    ("a page of an older version, and one of the newest", SMALL, STAGED + KEPT + """
> route 1 6
ok 2
optimum length 20 arcs 1 2
route via 3 length 23 shared 0 plateau 7 rank 39 arcs 3 4 5
end
> next 1.1.6.4.5.1.4.1.4.1.0
ok 1
optimum length 20 arcs 1 2
more 1.1.6.4.5.1.4.1.4.1.1
end
> why 1 6 3 epsilon 1/10
ok 2
verdict 3 long 23
end
> route 1 6 since 9
error behind 2
"""),
    ("eight keys of the newest version drop one of the first", SMALL, STAGED + OTHER_KEYS + EIGHTH_KEY + """
> next 1.1.6.4.5.1.4.1.4.1.1
error gone 2
"""),
    ("seven keys leave one of the first", SMALL, STAGED + OTHER_KEYS + KEPT),
    ("a page makes its key the most recently used", SMALL, STAGED + OTHER_KEYS + KEPT + EIGHTH_KEY + KEPT + """
> route 1 1
ok 2
optimum length 0 arcs
end
""" + KEPT),
    ("what is refused or isn't kept uses no key", SMALL, STAGED + OTHER_KEYS + """
> optimum 1 5
> why 1 5 2
none 2
> next 1.1.5.4.5.1.4.1.4.1.0
error gone 2
> route 1 5 since 3
error behind 2
> route 1 5 size 0
error size
> version
version 2
""" + KEPT),
    ("no path is kept as any other plan", SMALL, """
> route 1 5
none 1
> publish
published 2
> next 1.1.5.4.5.1.4.1.4.1.3
none 1
> next 1.5.1.4.5.1.4.1.4.1.3
error gone 2
> next 2.5.1.4.5.1.4.1.4.1.3
none 2
> publish
published 3
> next 2.5.1.4.5.1.4.1.4.64.0
none 2
"""),
    ("a key has its ratios as they were given", SMALL, """
> route 01 06 gamma 04/05 size 1
ok 1
optimum length 20 arcs 1 2
more 1.1.6.4.5.1.4.1.4.1.1
end
> publish
published 2
> next 1.1.6.8.10.1.4.1.4.1.1
error gone 2
> next 1.1.6.4.5.1.4.1.4.64.0
ok 1
optimum length 20 arcs 1 2
route via 3 length 22 shared 0 plateau 6 rank 38 arcs 3 4 5
end
"""),
    ("the last change of an arc wins, and none is seen before it is published", SMALL, """
> length 1 12
staged 1
> length 1 11
staged 2
> length 7 11
error arc
> length 2 0
error length
> optimum 1 2
ok 1
optimum length 10 arcs 1
end
> version
version 1
> publish
published 2
> optimum 1 2
ok 2
optimum length 11 arcs 1
end
> publish
published 3
> length 1 10
staged 1
> publish
published 4
> route 1 6
ok 4
optimum length 20 arcs 1 2
route via 3 length 22 shared 0 plateau 6 rank 38 arcs 3 4 5
end
"""),
    ("changes that nothing can be changed by", EMPTY, """
> length 1 1
error arc
> publish
published 2
> route 1 1
error vertex
> version
version 2
"""),
]


def runs():
    """The name, the graph, the text and the pairs of line and reply of each run."""
    for name, graph, table in RUNS:
        pairs = []
        for lines, reply in re.findall(r"((?:^> .*\n)+)((?:^[^>\n].*\n)+)", table, re.M):
            pairs += [(line[2:].encode(), reply.encode()) for line in lines.splitlines()]
        yield name, graph, b"".join(line + b"\n" for line, _reply in pairs), pairs
