#!/usr/bin/env python3
"""Measures the program against the plain Rust yardstick, with the same words on the same files, in turn.

files: `check` and `print` of a grid and of a road-like network, each of more than 100 MB, and `make` of a grid of a
million vertices. optima: `answer` with no request and with 200 random pairs, on grids of 60, 300 and 1000 a side and on a
road-like network of about a million vertices. It builds the yardstick with rustc, makes
the files in bench/out, and compares the bytes of both programs. Times are the medians of the rounds, 5 where no number is
given; the spread is the greatest time of a run by its least. Memory is the peak of the resident set; less than some 14 MB
isn't told apart.
"""
import os
import statistics
import subprocess
import sys
import time

import drawing
import program

PAIRS = 200
FILE_SIDE = 1200
MADE_SIDE = 1000
ANSWER_SIDES = (60, 300, 1000)
PEAK = (
    "import resource, subprocess, sys; "
    "subprocess.run(sys.argv[2:], stdin=sys.stdin, stdout=subprocess.DEVNULL, check=True, timeout=int(sys.argv[1])); "
    "print(resource.getrusage(resource.RUSAGE_CHILDREN).ru_maxrss)"
)


def build_yardstick():
    path = program.out_file("yardstick")
    source = os.path.join(program.BENCH, "yardstick", "main.rs")
    program.run(["rustc", "--edition", "2021", "-O", "-C", "target-cpu=x86-64-v2", "-o", path, source], check=True)
    return path


def network_file(seed, side):
    path = program.out_file("network-%d-%d.gr" % (seed, side))
    with open(path, "wb") as file:
        script = os.path.join(program.BENCH, "network.py")
        program.run([sys.executable, script, str(seed), str(side)], stdout=file, check=True)
    return path


def vertices_of(path):
    with open(path, "rb") as file:
        return next(int(line.split()[2]) for line in file if line.startswith(b"p"))


def megabytes(path):
    return os.path.getsize(path) / 1e6


def seconds(words, text, check=True):
    """The time of a run, which has to end with status 0 where that is checked, and else says nothing."""
    begin = time.monotonic()
    program.run(words, text, stdout=subprocess.DEVNULL, stderr=None if check else subprocess.DEVNULL, check=check)
    return time.monotonic() - begin


def in_turn(jobs, rounds):
    """The times of each job: words, input, and whether it has to end with status 0. Every round runs each job once."""
    times = {name: [] for name in jobs}
    for _ in range(rounds):
        for name, job in jobs.items():
            times[name].append(seconds(*job))
    return times


def spread(times):
    return max(max(runs) / min(runs) for runs in times.values())


def peak(words, text):
    """In megabytes."""
    _status, output = program.run([sys.executable, "-c", PEAK, str(program.SECONDS), *words], text, check=True)
    return int(output) / 1024


def same_output(programs, words, text=b""):
    """The length of the output, which must be the same."""
    road, other = (program.run([path, *words], text, check=True)[1] for path in programs.values())
    if road != other:
        sys.exit("the outputs of %s differ" % " ".join(words))
    return len(road)


def tell_files(programs, rounds):
    files = {
        "grid %d" % FILE_SIDE: program.grid_file(7, FILE_SIDE, FILE_SIDE),
        "road-like %d" % FILE_SIDE: network_file(7, FILE_SIDE),
    }
    made = ["make", "7", str(MADE_SIDE), str(MADE_SIDE)]
    rows = [(command, name, [command, path]) for command in ("check", "print") for name, path in files.items()]
    rows.append(("make", "grid %d" % MADE_SIDE, made))
    print("| command | graph | MB | road, MB/s | plain, MB/s | ratio | spread |")
    print("|---|---|---|---|---|---|---|")
    for command, name, words in rows:
        written = same_output(programs, words)
        size = written / 1e6 if words == made else megabytes(words[1])
        times = in_turn({p: ([path, *words], b"") for p, path in programs.items()}, rounds)
        road, other = (statistics.median(times[p]) for p in ("road", "plain"))
        figures = (size, size / road, size / other, road / other, spread(times))
        print("| %s | %s | %.0f | %.0f | %.0f | %.2f | %.2f |" % (command, name, *figures), flush=True)


def tell_optima(programs, rounds):
    files = {"grid %d" % side: program.grid_file(7, side, side) for side in ANSWER_SIDES}
    files["road-like"] = network_file(7, ANSWER_SIDES[-1])
    print("| graph | MB | read: road, MB/s | plain, MB/s | ratio | optimum: road, ms | plain, ms | ratio | spread | "
          "memory: road, MB | plain, MB | ratio |")
    print("|---|---|---|---|---|---|---|---|---|---|---|---|")
    for name, path in files.items():
        size, vertices = megabytes(path), vertices_of(path)
        requests = drawing.requests("optimum", 7, PAIRS, vertices)
        same_output(programs, ["answer", path], requests)
        loads = {"read": b"", "all": requests}
        jobs = {(p, load): ([programs[p], "answer", path], text) for load, text in loads.items() for p in programs}
        times = in_turn(jobs, rounds)
        medians = {job: statistics.median(runs) for job, runs in times.items()}
        read = [medians[p, "read"] for p in ("road", "plain")]
        query = [(medians[p, "all"] - medians[p, "read"]) / PAIRS * 1000 for p in ("road", "plain")]
        memory = [peak(*jobs[p, "all"]) for p in ("road", "plain")]
        figures = (size, size / read[0], size / read[1], read[0] / read[1], *query, query[0] / query[1], spread(times))
        row = "| %s | %.0f | %.0f | %.0f | %.2f | %.3f | %.3f | %.2f | %.2f | %.0f | %.0f | %.2f |"
        print(row % (name, *figures, *memory, memory[0] / memory[1]), flush=True)


def main():
    tables = {"files": tell_files, "optima": tell_optima}
    words = program.parser(__doc__)
    words.add_argument("table", nargs="?", choices=["both", *tables], default="both")
    words.add_argument("rounds", nargs="?", type=int, default=5)
    given = words.parse_args()
    programs = {"road": program.built(), "plain": build_yardstick()}
    for name in tables if given.table == "both" else [given.table]:
        tables[name](programs, given.rounds)


if __name__ == "__main__":
    main()
