"""What the benchmarks of the format layers share: the format probe, run on one line, and its time and memory."""
import os
import subprocess
import sys
import time

HERE = os.path.dirname(os.path.abspath(__file__))
PROBE = os.path.join(HERE, "..", "crates", "format_probe", "out", "format_probe")
OUT = os.path.join(HERE, "out")
PYTHON = "/usr/bin/python3"
PEAK = """
import resource, subprocess, sys
with open(sys.argv[2], "rb") as lines:
    subprocess.run([sys.argv[1]], stdin=lines, stdout=subprocess.DEVNULL, check=True)
print(resource.getrusage(resource.RUSAGE_CHILDREN).ru_maxrss * 1024)
"""


def need_probe():
    if not os.path.exists(PROBE):
        sys.exit("the format probe is not built yet: rt ci, or rt run in crates/format_probe, builds it")
    os.makedirs(OUT, exist_ok=True)


def in_out(name):
    return os.path.join(OUT, name)


def write(name, *pieces):
    """A file of these bytes in bench/out, and its path."""
    path = in_out(name)
    with open(path, "wb") as file:
        for piece in pieces:
            file.write(piece)
    return path


def answer(path):
    with open(path, "rb") as lines:
        return subprocess.run([PROBE], stdin=lines, stdout=subprocess.PIPE, check=True).stdout


def seconds(path):
    """How long the probe takes for the lines of a file."""
    with open(path, "rb") as lines:
        began = time.perf_counter()
        subprocess.run([PROBE], stdin=lines, stdout=subprocess.DEVNULL, check=True)
        return time.perf_counter() - began


def peak(path):
    """Its peak memory in bytes. A small process starts it: what a parent holds counts as its child's at first."""
    words = [sys.executable, "-c", PEAK, PROBE, path]
    return int(subprocess.run(words, stdout=subprocess.PIPE, check=True, text=True).stdout)


def b2sum_seconds(path):
    with open(path, "rb") as file:
        began = time.perf_counter()
        subprocess.run(["b2sum", "-l", "256"], stdin=file, stdout=subprocess.DEVNULL, check=True)
        return time.perf_counter() - began


def least(rounds, *measures):
    """The least of some rounds of each measure, taken in turn."""
    times = [[measure() for measure in measures] for _ in range(rounds)]
    return [min(column) for column in zip(*times)]
