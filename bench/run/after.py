#!/usr/bin/env python3
"""after.py [PROGRAM]: times what a session of `run` does after its workers have ended, where it took all values.

PROGRAM is a built historian (crates/historian/out/historian, after `rt run` there). 16 collectors bring four million rows of 1,024 tags,
64 rows of a tag in turn. The devices lie in memory (/dev/shm), so the disk does not count.

strace notes when the last worker's thread ends, and when the program writes its report. Between these the session compares all openings
and tapes with the files, finds nothing that is missing, ends each device, and makes the text. It prints the median of that time in
seconds, of three sessions. It runs by hand, never as a test, with all processors free."""
import os
import re
import statistics
import subprocess
import sys
import tempfile

HERE = os.path.dirname(os.path.abspath(__file__))
ROOT = os.path.dirname(os.path.dirname(HERE))
RUNS = 3
TAGS, COLLECTORS, ROWS, BATCH = 1024, 16, 4_000_000, 64
TAG = """[[tag]]
name = "T%d"
exc_dev = 1
exc_max = 600_000
comp_dev = 2
comp_min = 0
comp_max = 28_800_000
"""


def lay(folder):
    """Writes a plant in which each collector goes round 64 of the tags, 64 rows each time."""
    with open(os.path.join(folder, "base.toml"), "w") as out:
        out.write("\n".join(TAG % n for n in range(TAGS)))
    with open(os.path.join(folder, "plan.toml"), "w") as out:
        out.write("\n".join('[[collector]]\nfile = "%d.csv"\n' % n for n in range(COLLECTORS)))
    for n in range(COLLECTORS):
        with open(os.path.join(folder, "%d.csv" % n), "w") as out:
            for k in range(ROWS // COLLECTORS):
                tag = (n + k // BATCH * COLLECTORS) % TAGS
                out.write("T%d,%d,%d\n" % (tag, 1000 * k, k * k % 7))


def after(program, folder):
    """Runs a session over new devices under strace: the seconds from the end of its last worker to its report."""
    subprocess.run(["rm", "-rf", os.path.join(folder, "historian.d")], check=True)
    trace = os.path.join(folder, "trace")
    words = ["strace", "-f", "--seccomp-bpf", "-ttt", "-e", "trace=exit,write", "-o", trace, program, "run", "base.toml", "plan.toml"]
    report = subprocess.run(words, cwd=folder, capture_output=True, check=True).stdout
    taken = sum(int(n) for n in re.findall(rb" taken=(\d+) ", report))
    if taken != ROWS:
        sys.exit("%d values are reported as taken, and not %d" % (taken, ROWS))
    ended = None
    with open(trace) as lines:
        for line in lines:
            _, moment, call = line.split(None, 2)
            if call.startswith("exit("):
                ended = float(moment)
            elif call.startswith("write(1,"):
                return float(moment) - ended
    sys.exit("no report was written")


def main():
    program = os.path.abspath(sys.argv[1]) if len(sys.argv) > 1 else os.path.join(ROOT, "crates", "historian", "out", "historian")
    with tempfile.TemporaryDirectory(dir="/dev/shm") as folder:
        lay(folder)
        took = statistics.median(after(program, folder) for _ in range(RUNS))
        print("after the workers, %d rows, %d tags, %d collectors: %.2f s" % (ROWS, TAGS, COLLECTORS, took))


main()
