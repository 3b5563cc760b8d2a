#!/usr/bin/env python3
"""Compares the replies to the examples with the stored ones, byte for byte.

For each examples/NAME.requests the program answers over examples/NAME.gr, and has to write examples/NAME.replies, and so
have the definitions (plain.py), from which the stored replies are. README shows the replies to small.requests, and each
of its blocks with lines `> REQUEST` is a run over small.gr, which is held to the definitions. The certificate small.cert is
the one by the definitions, docs/certificates.md shows it, and the program writes and accepts it. It ends with 1 where a byte
differs.
"""
import glob
import os
import re
import sys

import plain
import plain_certificates
import program


def read(path):
    with open(path, "rb") as file:
        return file.read()


def demand(name, found, wanted):
    if found != wanted:
        program.save("example.expected", wanted)
        program.save("example.replied", found)
        sys.exit("%s: another reply; see example.expected and example.replied in bench/out" % name)


def main():
    program.parser(__doc__).parse_args()
    examples = sorted(glob.glob(os.path.join(program.TOP, "examples", "*.requests")))
    for path in examples:
        name = path[: -len(".requests")]
        requests, replies = read(path), read(name + ".replies")
        defined = plain.replies(plain.read_graph(name + ".gr"), requests)
        demand(os.path.basename(path) + ", by the definitions", defined, replies)
        status, output = program.road("answer", name + ".gr", text=requests)
        demand(os.path.basename(path), b"%sstatus %d" % (output, status), replies + b"status 0")
    readme = read(os.path.join(program.TOP, "README.md"))
    first = re.search(rb"^```\n(.*?)^```$", readme, re.M | re.S)
    demand("the first block of README", first[1], read(os.path.join(program.TOP, "examples", "small.replies")))
    small = plain.read_graph(os.path.join(program.TOP, "examples", "small.gr"))
    blocks = re.findall(rb"^```\n(> .*?)^```$", readme, re.M | re.S)
    for block in blocks:
        run = plain.Run(small)
        for request, reply in re.findall(rb"^> (.*)\n((?:[^>].*\n)*)", block, re.M):
            demand("README, " + request.decode(), reply, run.reply(request))
    certificate = os.path.join(program.TOP, "examples", "small.cert")
    demand("small.cert, by the definitions", plain_certificates.certificate(small, 1, 6), read(certificate))
    shown = re.search(rb"^```\n( 1 cert.*?)^```$", read(os.path.join(program.TOP, "docs", "certificates.md")), re.M | re.S)
    demand("docs/certificates.md", re.sub(rb"^.{3}", b"", shown[1], flags=re.M), read(certificate))
    status, output = program.road("certify", os.path.join(program.TOP, "examples", "small.gr"), "1", "6")
    demand("small.cert, written", b"%sstatus %d" % (output, status), read(certificate) + b"status 0")
    backwards = re.search(rb"^    \$ bin/road certify examples/small.gr 6 1\n((?:    .*\n)*)", readme, re.M)
    demand("README, certify", plain_certificates.certificate(small, 6, 1), re.sub(rb"^    ", b"", backwards[1], flags=re.M))
    status, output = program.road("recheck", os.path.join(program.TOP, "examples", "small.gr"), certificate)
    demand("small.cert", b"%sstatus %d" % (output, status), b"yes 2\nstatus 0")
    print("%d examples, %d blocks of README: the same bytes" % (len(examples), len(blocks)))


if __name__ == "__main__":
    main()
