#!/usr/bin/env python3
"""run.py [PROGRAM]: what a plant of a thousand tags costs: its devices, and a session that stores a million values in them.

PROGRAM is a built historian (crates/historian/out/historian, after `rt run` there). It measures three things, each seven times:
- new: `check` over a folder without devices, which makes a thousand.
- old: the same again, which opens them.
- run: a session of 16 collectors that stores a thousand values of each tag, in /dev/shm, where a sync costs nothing.

It prints the load of the machine, and of each the least seconds of the processor (user and system) and by the clock. The devices of the
first two lie in a temporary folder (TMPDIR), on a disk whose syncs count. It runs by hand, never as a test."""
import os
import resource
import shutil
import subprocess
import sys
import tempfile
import time

HERE = os.path.dirname(os.path.abspath(__file__))
PROGRAM = os.path.join(os.path.dirname(os.path.dirname(HERE)), "crates", "historian", "out", "historian")
RUNS = 7
TAGS = 1000
VALUES = 1000
COLLECTORS = 16
TAG = '[[tag]]\nname = "T%d"\nexc_dev = 0\nexc_max = 1000000\ncomp_dev = 0\ncomp_min = 0\ncomp_max = 1000000\n'


def write(folder, name, text):
    """Writes a file of the plant."""
    with open(os.path.join(folder, name), "w") as out:
        out.write(text)


def value(number):
    """The value with this number: the values jump up and down, so that each is kept."""
    return number * 7919 % 20011 - 10000


def make_plant(folder):
    """Writes the base, the collectors' files and the plan."""
    write(folder, "base.toml", "".join(TAG % tag for tag in range(TAGS)))
    for collector in range(COLLECTORS):
        tags = range(collector, TAGS, COLLECTORS)
        rows = ("T%d,%d,%d\n" % (tag, 1000 * number, value(number)) for tag in tags for number in range(1, VALUES + 1))
        write(folder, "c%d.csv" % collector, "".join(rows))
    write(folder, "plan.toml", "".join('[[collector]]\nfile = "c%d.csv"\n' % collector for collector in range(COLLECTORS)))


def timed(program, folder, words, is_new):
    """Runs a command, over new devices or over those that are there: its seconds of the processor, and by the clock."""
    if is_new:
        shutil.rmtree(os.path.join(folder, "historian.d"), ignore_errors=True)
    before, start = resource.getrusage(resource.RUSAGE_CHILDREN), time.monotonic()
    subprocess.run([program, *words], cwd=folder, stdout=subprocess.DEVNULL, check=True)
    clock, after = time.monotonic() - start, resource.getrusage(resource.RUSAGE_CHILDREN)
    return after.ru_utime + after.ru_stime - before.ru_utime - before.ru_stime, clock


def tell(what, pairs):
    """Prints the least seconds of the processor and by the clock."""
    print("%-28s %.3f s of the processor, %.3f by the clock" % (what, min(p for p, _ in pairs), min(c for _, c in pairs)))


def main():
    program = os.path.abspath(sys.argv[1] if len(sys.argv) > 1 else PROGRAM)
    print("load %.1f on %d processors" % (os.getloadavg()[0], os.cpu_count()))
    with tempfile.TemporaryDirectory() as disk, tempfile.TemporaryDirectory(dir="/dev/shm") as memory:
        make_plant(disk)
        pairs = [(timed(program, disk, ["check", "base.toml"], True), timed(program, disk, ["check", "base.toml"], False)) for _ in range(RUNS)]
        tell("new: a thousand devices", [new for new, _ in pairs])
        tell("old: a thousand devices", [old for _, old in pairs])
        make_plant(memory)
        tell("run: a million values", [timed(program, memory, ["run", "base.toml", "plan.toml"], True) for _ in range(RUNS)])


if __name__ == "__main__":
    main()
