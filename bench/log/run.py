#!/usr/bin/env python3
"""run.py [PROGRAM]: times `log`, compared with plain code that makes the same batches and calls, and with one device a tag.

PROGRAM is a built historian (crates/historian/out/historian, after `rt run` there). A million values of 64 tags, which walk at random,
come from 16 collectors. Three programs store the same files in turn, three times:
- `log` puts them into one log.
- plain.c, in C, puts and commits as `log` does, and makes no archive.
- `run` gives each tag a device of its own.

It prints how many blocks plain.c wrote, and medians: the seconds and rows a second of each. Then it compares: the time of `log` divided
by that of `run`, and the rate of `log` divided by that of plain.c. The files lie in a temporary folder in BENCH_DIR, or in
/var/tmp. It runs by hand, never as a test, with all processors free and on the disk that devices are meant for."""
import os
import random
import shutil
import statistics
import subprocess
import sys
import tempfile
import time

HERE = os.path.dirname(os.path.abspath(__file__))
ROOT = os.path.dirname(os.path.dirname(HERE))
RUNS, SEED = 3, 7
TAGS, COLLECTORS, ROWS = 64, 16, 1_000_000
TAG = """[[tag]]
name = "T%d"
exc_dev = 1
exc_max = 600_000
comp_dev = 2
comp_min = 0
comp_max = 28_800_000
"""


def lay(folder):
    """Writes a plant whose collectors have four tags each, with a row of each in turn."""
    with open(os.path.join(folder, "base.toml"), "w") as out:
        out.write("\n".join(TAG % n for n in range(TAGS)))
    with open(os.path.join(folder, "plan.toml"), "w") as out:
        out.write("\n".join('[[collector]]\nfile = "%d.csv"\n' % n for n in range(COLLECTORS)))
    own = TAGS // COLLECTORS
    for n in range(COLLECTORS):
        draw, values = random.Random(SEED + n), [0] * own
        with open(os.path.join(folder, "%d.csv" % n), "w") as out:
            for k in range(ROWS // COLLECTORS):
                values[k % own] += draw.randint(-2, 2)
                out.write("T%d,%d,%d\n" % (n * own + k % own, 1000 * (k // own), values[k % own]))


def timed(words, folder):
    """Runs a command over new devices, which has to end well: its seconds, and what it printed."""
    shutil.rmtree(os.path.join(folder, "historian.d"), ignore_errors=True)
    start = time.perf_counter()
    child = subprocess.run(words, cwd=folder, capture_output=True)
    took = time.perf_counter() - start
    if child.returncode != 0:
        sys.exit("%s: %s" % (words[:2], (child.stdout + child.stderr).decode()[:400]))
    return took, child.stdout.decode()


def taken(text):
    """How many values the tag lines report as taken."""
    return sum(int(word[6:]) for line in text.splitlines() for word in line.split() if word.startswith("taken="))


def main():
    program = os.path.abspath(sys.argv[1]) if len(sys.argv) > 1 else os.path.join(ROOT, "crates", "historian", "out", "historian")
    with tempfile.TemporaryDirectory(dir=os.environ.get("BENCH_DIR", "/var/tmp")) as folder:
        lay(folder)
        plain = os.path.join(folder, "plain")
        subprocess.run(["cc", "-O3", "-pthread", "-o", plain, os.path.join(HERE, "plain.c")], check=True)
        files = ["%d.csv" % n for n in range(COLLECTORS)]
        times = {"log": [], "plain": [], "run": []}
        for _ in range(RUNS):
            took, text = timed([plain] + files, folder)
            times["plain"].append(took)
            blocks = int(text.split()[2])
            for verb in ("log", "run"):
                took, text = timed([program, verb, "base.toml", "plan.toml"], folder)
                if taken(text) != ROWS:
                    sys.exit("%s: %d values are reported as taken, and not %d" % (verb, taken(text), ROWS))
                times[verb].append(took)
        log, code, run = (statistics.median(times[name]) for name in ("log", "plain", "run"))
        print("%d rows, %d tags, %d collectors, %d blocks of the plain program" % (ROWS, TAGS, COLLECTORS, blocks))
        print("log          %.2f s  %.0f rows/s" % (log, ROWS / log))
        print("plain code   %.2f s  %.0f rows/s" % (code, ROWS / code))
        print("device a tag %.2f s  %.0f rows/s  log takes %.2f of its time" % (run, ROWS / run, log / run))
        print("log against plain code: %.2f of its rate" % (code / log))


main()
