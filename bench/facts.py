#!/usr/bin/env python3
"""Computes what docs state of the repository, and ends with 1 where they say otherwise.

A number in README.md or docs/ that is computed here has its name after it, as 26<!--crates-->. Beside these numbers: the
table of docs/definitions.md of the files of specs/ that a reader must believe (those that the contract of `run` imports,
also by way of others), the table of crates in docs/architecture.md (each crate once, after those that it stands on), and
the words, statuses and limits of the code, each of which README has to name.
"""
import glob
import os
import re
import sys

import program

RUN = "crates/route_server/src/command.rt"
NAMED = [  # a file, what in it README has to name, and how
    ("crates/road_model/specs/Messages.antt", r'^error_word .*"([a-z]+)"', "`error %s"),
    ("crates/route_server/src/status.rt", r'write!\(f, "([a-z ]+)"\)', "`road: %s`"),
    ("crates/dimacs_reader/specs/Messages.antt", r'^kind_word .*"([a-z-]+)"', "`%s`"),
    ("crates/route_server/specs/Statuses.antt", r"^status_number .* = (\d+)", "| %s |"),
    ("crates/road_model/src/graph_file.rt", r"const \w+: u\d+ = (\d+);", "%s"),
]
UNSAID = {"arc", "length", "full", "done"}  # refusals of changes, which no line can ask for yet; and status 0


def read(path):
    with open(os.path.join(program.TOP, path), encoding="utf-8") as file:
        return file.read()


def crates():
    """The crates, in the order of crates.txt, each with those of the repository that it stands on."""
    lines = [line.split(":") for line in read("crates.txt").splitlines() if ":" in line and line[0] != "#"]
    return {name: [dep for dep in deps.split() if dep in dict(lines)] for name, deps in lines}


def below(name, known):
    """A crate and all that it stands on."""
    return {name}.union(*(below(dep, known) for dep in known[name]))


def believed(known):
    """The files of specs/ that the contract of `run` imports, also by way of others, with their lines."""
    found, left = {}, re.findall(r"^ghost use Rattle\.(\w+)\.specs\.(\w+)", read(RUN), re.M)
    while left:
        crate, name = left.pop()
        if crate not in known or name == "declared" or (crate, name) in found:
            continue
        text = read("crates/%s/specs/%s.antt" % (crate, name))
        found[crate, name] = text.count("\n")
        left += re.findall(r"^(?:pub )?use Rattle\.(\w+)\.specs\.(\w+)", text, re.M)
    return found


def table_of(files):
    rows = ["| crate | files | lines |", "|---|---|---|"]
    for crate in sorted({crate for crate, _name in files}):
        names = sorted(name for of, name in files if of == crate)
        rows.append("| `%s` | %s | %d |" % (crate, ", ".join(names), sum(files[crate, name] for name in names)))
    return "\n".join(rows)


def wrong_marks(path, text, facts, stated):
    for number, name in re.findall(r"(\d+)<!--([\w-]+)-->", text):
        stated.add(name)
        if name not in facts:
            yield "%s: no such fact: %s" % (path, name)
        elif int(number) != facts[name]:
            yield "%s says %s for %s, and it is %d" % (path, number, name, facts[name])


def wrong_crates(known):
    named = re.findall(r"^\| [\w ]*\| `(\w+)` \|", read("docs/architecture.md"), re.M)
    if sorted(named) != sorted(known):
        yield "docs/architecture.md: the table isn't of these crates: %s" % sorted(set(named) ^ set(known))
    for place, name in enumerate(named):
        for dep in known.get(name, []):
            if dep not in named[:place]:
                yield "docs/architecture.md: %s stands on %s, which isn't above it" % (name, dep)


def unnamed_words():
    readme = read("README.md")
    for path, pattern, form in NAMED:
        words = set(re.findall(pattern, read(path), re.M)) - UNSAID
        if not words:
            yield "%s: nothing is found that README has to name" % path
        yield from ("README.md doesn't have %r, by %s" % (form % word, path) for word in sorted(words) if form % word not in readme)


def main():
    words = program.parser(__doc__)
    words.add_argument("--write", action="store_true", help="put the right numbers and the right table into docs")
    is_writing = words.parse_args().write
    known = crates()
    files = believed(known)
    edits = glob.glob(os.path.join(program.TOP, "crates", "*", "must-fail", "*.edit"))
    facts = {"crates": len(known), "below-road": len(below("road", known)), "must-fail": len(edits)}
    facts.update({"spec-files": len(files), "spec-lines": sum(files.values())})
    stated, wrong = set(), []
    for path in ["README.md"] + ["docs/" + name for name in sorted(os.listdir(os.path.join(program.TOP, "docs")))]:
        text = read(path)
        if is_writing:
            text = re.sub(r"(\d+)<!--([\w-]+)-->", lambda mark: "%s<!--%s-->" % (facts.get(mark[2], mark[1]), mark[2]), text)
            text = re.sub(r"(?<=<!--believed-->\n\n).*?(?=\n\n<!--end-->)", lambda _old: table_of(files), text, flags=re.S)
            with open(os.path.join(program.TOP, path), "w", encoding="utf-8") as file:
                file.write(text)
        wrong += wrong_marks(path, text, facts, stated)
    if table_of(files) not in read("docs/definitions.md"):
        wrong.append("docs/definitions.md: the table of files isn't the right one; --write puts it there")
    wrong += ["docs don't state the fact %s" % name for name in sorted(set(facts) - stated)]
    wrong += [*wrong_crates(known), *unnamed_words()]
    print("\n".join(wrong) or "docs and the repository agree: %s" % ", ".join("%s %d" % fact for fact in facts.items()))
    sys.exit(1 if wrong else 0)


if __name__ == "__main__":
    main()
