#!/usr/bin/env python3
"""run.py: times `historian pack`, compared with two other packers, on 60 MB of lines.

It builds the program (`rt run`), the plain packer (`rustc`, at its fastest) and the fast one (`cc`, at its fastest). The plain packer
reads all of the input first, and its numerals with `str::parse`; the fast one tests nothing. The lines are three series from a fixed
seed, each whole and cut to half. One series comes with CR LF too, which the plain packer does not take. All have to print the same bytes.

The packers run in turn, seven times. It prints for each series:
- the median of the seconds of each packer, and the part of each other's time that the program takes.
- the program's peak memory in KB, and how much of it is left without 24 bytes a record.
- how many times as long the whole series takes as its half.

It runs by hand, never as a test."""
import os
import random
import select
import statistics
import subprocess
import sys
import tempfile
import time

HERE = os.path.dirname(os.path.abspath(__file__))
ROOT = os.path.dirname(os.path.dirname(HERE))
WORDS = ["pack", "2", "600000", "20", "0", "28800000"]
SIZE = 60_000_000
RUNS = 7
FAST = ["rustc", "--edition", "2021", "-C", "opt-level=3", "-C", "panic=abort", "-C", "lto=fat", "-C", "codegen-units=16"]
CC = ["cc", "-O3", "-march=native", "-Wno-parentheses"]


def write_lines(path, kind, size, ending="\n"):
    """Writes at most so many bytes of lines TIME,VALUE, one by one, so that this process stays small. walk: a random walk; flat: one
    long flat line; quarter: about a quarter of the values is kept."""
    draw = random.Random(20261126)
    t, v, done, n = 1_700_000_000_000, 5000, 0, 0
    with open(path, "w", newline="") as out:
        while True:
            t += draw.randrange(500, 1500)
            if kind == "walk":
                v += draw.randrange(-9, 10)
            elif kind == "quarter":
                v = 5000 + (4000 if (n // 8) % 2 else 0) + n % 3
            n += 1
            line = "%d,%d%s" % (t, v, ending)
            done += len(line)
            if done > size:
                return
            out.write(line)


def timed(program, path):
    """Runs a packer: its seconds, and what it printed."""
    with open(path, "rb") as source:
        began = time.perf_counter()
        child = subprocess.Popen([program] + WORDS, stdin=source, stdout=subprocess.PIPE)
        printed = child.stdout.read()
        status = child.wait()
        seconds = time.perf_counter() - began
    if status != 0:
        sys.exit("%s: status %d" % (program, status))
    return seconds, printed


def high_water(pid):
    """The most kilobytes that a process has had so far. 0 once it has ended."""
    with open("/proc/%d/status" % pid) as status:
        for line in status:
            if line.startswith("VmHWM:"):
                return int(line.split()[1])
    return 0


def peak_memory(program, path):
    """The most kilobytes that a packer had. The script looks each millisecond, and whenever the packer prints."""
    peak = 0
    with open(path, "rb") as source:
        child = subprocess.Popen([program] + WORDS, stdin=source, stdout=subprocess.PIPE)
        while True:
            peak = max(peak, high_water(child.pid))
            ready, _, _ = select.select([child.stdout], [], [], 0.001)
            if ready and not os.read(child.stdout.fileno(), 65536):
                break
        child.wait()
    return peak


def compared(name, programs, path):
    """Runs the packers in turn, and prints their medians and the first one's memory: the median of the first in seconds."""
    seconds, printed = {p: [] for p in programs}, set()
    for _ in range(RUNS):
        for program in programs:
            took, text = timed(program, path)
            seconds[program].append(took)
            printed.add(text)
    if len(printed) != 1:
        sys.exit("%s: the programs print different bytes" % name)
    records = printed.pop().count(b"\n")
    peak = peak_memory(programs[0], path)
    medians = [statistics.median(seconds[p]) for p in programs]
    parts = "  ".join("%s %.3f s (%.2f)" % (os.path.basename(p), m, medians[0] / m) for p, m in zip(programs[1:], medians[1:]))
    print("%-14s proved %.3f s  %s  peak %d KB, of it %d KB besides 24 bytes a record"
          % (name, medians[0], parts, peak, peak - records * 24 // 1024))
    return medians[0]


def main():
    words = ["rt", "run", "--"] + WORDS
    subprocess.run(words, cwd=os.path.join(ROOT, "crates", "historian"), stdin=subprocess.DEVNULL,
                   stdout=subprocess.DEVNULL, stderr=subprocess.DEVNULL, check=True)
    proved = os.path.join(ROOT, "crates", "historian", "out", "historian")
    with tempfile.TemporaryDirectory() as folder:
        plain, fast, path = (os.path.join(folder, name) for name in ("plain", "fast", "lines"))
        subprocess.run(FAST + ["-o", plain, os.path.join(HERE, "plain.rs")], check=True)
        subprocess.run(CC + ["-o", fast, os.path.join(HERE, "fast.c")], check=True)
        for kind in ["walk", "flat", "quarter"]:
            write_lines(path, kind, SIZE)
            whole = compared(kind, [proved, fast, plain], path)
            write_lines(path, kind, SIZE // 2)
            half = compared(kind + ", half", [proved, fast, plain], path)
            print("%-14s takes %.2f times as long as its half" % (kind, whole / half))
        write_lines(path, "walk", SIZE, "\r\n")
        compared("walk, CR LF", [proved, fast], path)


if __name__ == "__main__":
    main()
