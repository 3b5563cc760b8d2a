#!/usr/bin/env python3
"""Runs the program with each of its first allocations failing in turn, once and with all that follow.

The runs are the commands over the small example, and its requests. Each has to end as it does without a failure, but with
`error memory` in the place of some replies; or with the status 6, `road: out of memory` and whole replies, the first ones.
A line is printed for each run that ends otherwise, that is ended by a signal or that takes too long, and the script then
ends with 1. Allocations fail by a small library in C that the program is started with, so a C compiler has to be there.
"""
import functools
import os
import subprocess
import sys

import program

SHIM = r"""
#include <stddef.h>
#include <stdlib.h>
extern void *__libc_malloc(size_t), *__libc_realloc(void *, size_t);
static long left = -1, all;
static int fails(void) {
    if (left < 0) {
        left = atol(getenv("FAILING"));
        all = getenv("FAILING_ALL") != NULL;
    }
    if (left == 0 || --left > 0) return 0;
    left = all;
    return 1;
}
void *malloc(size_t size) { return fails() ? NULL : __libc_malloc(size); }
void *realloc(void *place, size_t size) { return fails() ? NULL : __libc_realloc(place, size); }
"""
GRAPH = os.path.join(program.TOP, "examples", "small.gr")
REQUESTS = os.path.join(program.TOP, "examples", "small.requests")
COMMANDS = [["check", GRAPH], ["print", GRAPH], ["make", "7", "6", "6"], ["survey", "7", "6", "6", "5"], ["answer", GRAPH], ["certify", GRAPH, "1", "6"]]
REFUSED = (6, b"road: out of memory\n")


@functools.lru_cache(maxsize=None)
def library():
    """The path of the library, made anew."""
    path = program.out_file("failing.so")
    done = subprocess.run(["cc", "-shared", "-fPIC", "-o", path, program.save("failing.c", SHIM.encode())])
    if done.returncode != 0:
        sys.exit("cc made no library")
    return path


def ended(words, text, seconds, failing=0, every=False):
    """The status, the output and the messages of a run whose allocation of this number fails."""
    settings = {"LD_PRELOAD": library(), "FAILING": str(failing), **({"FAILING_ALL": "1"} if every else {})}
    try:
        done = subprocess.run([program.built(), *words], input=text, capture_output=True, timeout=seconds, env=settings)
    except subprocess.TimeoutExpired:
        return None, b"", b""
    return done.returncode, done.stdout, done.stderr


def replies(output):
    """The replies, of a line or of the lines from `ok` to `end`; a last one that isn't whole counts too."""
    found, open_reply = [], []
    for line in output.splitlines(keepends=True):
        open_reply.append(line)
        if not open_reply[0].startswith(b"ok ") or line == b"end\n":
            found.append(b"".join(open_reply))
            open_reply = []
    return found + [b"".join(open_reply)] * bool(open_reply)


def is_right(words, whole, run):
    """Whether a run is as the one without a failure, but for memory that was refused."""
    status, output, messages = run
    if words[0] != "answer":
        return run == whole or (status, messages) == REFUSED and output == b""
    given, wanted = replies(output), replies(whole[1])
    same = len(given) <= len(wanted) and all(one in (other, b"error memory\n") for one, other in zip(given, wanted))
    return same and ((status, messages) == REFUSED or status == 0 and len(given) == len(wanted))


def main():
    parser = program.parser(__doc__)
    parser.add_argument("--allocations", type=int, default=300, help="so many of the first allocations fail (%(default)s)")
    parser.add_argument("--seconds", type=int, default=10, help="that a run may take (%(default)s)")
    given = parser.parse_args()
    with open(REQUESTS, "rb") as file:
        requests = file.read()
    runs, wrong, refused = 0, 0, 0
    for words in COMMANDS:
        text = requests if words[0] == "answer" else b""
        whole = ended(words, text, given.seconds)
        if whole[0] != 0:
            sys.exit("`%s` ended with %s where no allocation failed" % (" ".join(words), whole[0]))
        for failing in range(1, given.allocations + 1):
            for every in (False, True):
                run = ended(words, text, given.seconds, failing, every)
                runs, refused = runs + 1, refused + (run != whole)
                if not is_right(words, whole, run):
                    wrong += 1
                    says = "nothing in time" if run[0] is None else "status %d, %r, %r" % run
                    print("`%s`, allocation %d%s: %s" % (" ".join(words), failing, " and all after it" if every else "", says))
    print("%d runs, in %d of which memory was refused; %d of them wrong" % (runs, refused, wrong))
    sys.exit(1 if wrong else 0)


if __name__ == "__main__":
    main()
