"""Where the program and the files of the bench stand, and how programs are run: each for a limited time."""
import argparse
import functools
import os
import subprocess
import sys
import threading
import time

BENCH = os.path.dirname(os.path.abspath(__file__))
TOP = os.path.dirname(BENCH)
OUT = os.path.join(BENCH, "out")
BUILT = os.path.join(TOP, "crates", "road", "out", "road")
SECONDS = 600  # that a program may run


def parser(doc):
    """A parser of the command line that shows the script's documentation."""
    return argparse.ArgumentParser(description=doc, formatter_class=argparse.RawDescriptionHelpFormatter)


def out_file(name):
    os.makedirs(OUT, exist_ok=True)
    return os.path.join(OUT, name)


def save(name, data):
    path = out_file(name)
    with open(path, "wb") as file:
        file.write(data)
    return path


@functools.lru_cache(maxsize=None)
def built():
    """The path of the program. The launcher builds it first where that is needed, which may take long."""
    done = subprocess.run([os.path.join(TOP, "bin", "road"), "make", "0", "1", "1"], stdout=subprocess.DEVNULL)
    if done.returncode != 0:
        sys.exit("the program isn't there to be run: bin/road ended with status %d" % done.returncode)
    return BUILT


def run(words, text=b"", stdout=subprocess.PIPE, stderr=None, check=False, seconds=SECONDS):
    """The status and the output of a program with this text as its input. The script ends where the program doesn't end
    in time, or where its status is to be 0 and isn't."""
    with subprocess.Popen(words, stdin=subprocess.PIPE, stdout=stdout, stderr=stderr) as process:
        # Not the timeout of `communicate`: that asks for the end every now and then, and so adds to the times measured.
        timer = threading.Timer(seconds, process.kill)
        timer.daemon = True
        begin = time.monotonic()
        timer.start()
        output, _nothing = process.communicate(text)
        timer.cancel()
    if process.returncode < 0 and time.monotonic() - begin >= seconds:
        sys.exit("`%s` had not ended after %d seconds" % (" ".join(words), seconds))
    if check and process.returncode != 0:
        sys.exit("`%s` ended with status %d" % (" ".join(words), process.returncode))
    return process.returncode, output


def road(*words, text=b""):
    """The status and the output of a run over these words, with this text as its input."""
    return run([built(), *words], text)


def grid_file(seed, width, height):
    """The path of a file that holds this generated grid, made by the program."""
    path = out_file("grid-%d-%d-%d.gr" % (seed, width, height))
    with open(path, "wb") as file:
        run([built(), "make", str(seed), str(width), str(height)], stdout=file, check=True)
    return path
