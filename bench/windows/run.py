#!/usr/bin/env python3
"""run.py [--program PATH] [--runs N]: what questions over long windows of one large tag cost, and what late values cost.

PATH is a built historian (crates/historian/out/historian, after `rt run` there). The program first stores a tag whose archive has a million
points. Then it measures four things, each five times (or N):
- wide: `avg` over windows of a million points, 4,096 in one `trend`.
- tenth: the same over windows of a hundred thousand points.
- most: `avg` over 65,536 windows of a million points in one `trend`, which takes no more.
- late: 40,000 values in one `run`, at random times between the points; and as many in order of time behind the last point. Each `run`
  begins with a copy of the archive that has not had them.

It takes off what the opening alone costs: a `trend` with one question for the newest point, a `run` of one value. It prints a line for each:
the least processor time (user and system) of all its runs, less the least of the opening, and the same by the clock. While the machine has
other work, the processor time says more.

The files lie in a temporary folder in TMPDIR. Without this variable they lie in /dev/shm, where a sync costs nothing. It runs by hand,
never as a test."""
import argparse
import os
import random
import shutil
import subprocess
import sys
import tempfile
import time

HERE = os.path.dirname(os.path.abspath(__file__))
ROOT = os.path.dirname(os.path.dirname(HERE))
POINTS, STEP, SEED = 1_000_000, 1000, 7
WIDE, TENTH = POINTS - 100, POINTS // 10  # a hundred points less than all, so that the windows can differ
FEW, MOST = 4_096, 65_536  # the queries of a reader's file, and of all readers of a plan, have these limits
LATE = 40_000
BASE = """[[tag]]
name = "T1"
exc_dev = 0
exc_max = 1_000_000
comp_dev = 0
comp_min = 0
comp_max = 1_000_000
"""


def write(path, lines):
    with open(path, "w") as out:
        out.writelines(lines)


def jumps(times, draw):
    """A row at each of these times. The values go up and down in turn, so that each is kept."""
    return ("T1,%d,%d\n" % (t, draw.randint(1, 10_000) * (-1) ** n) for n, t in enumerate(times))


def asked(folder, name, queries):
    """Writes a plan NAME.toml that asks these queries, and its readers' files: the plan's name."""
    files = ["%s%d.csv" % (name, n) for n in range(0, len(queries), FEW)]
    for n, file in enumerate(files):
        write(os.path.join(folder, file), queries[FEW * n:FEW * (n + 1)])
    write(os.path.join(folder, name + ".toml"), ('[[reader]]\nfile = "%s"\n' % file for file in files))
    return name + ".toml"


def stored(folder, name, rows):
    """Writes a plan NAME.toml that stores these rows, and its collector's file: the plan's name."""
    write(os.path.join(folder, name + ".csv"), rows)
    write(os.path.join(folder, name + ".toml"), ['[[collector]]\nfile = "%s.csv"\n' % name])
    return name + ".toml"


def windows(many, points):
    """The mean of so many windows, each of so many points. They begin evenly spread over the archive."""
    rest = STEP * (POINTS - points)
    starts = [rest * n // many for n in range(many)]
    return ["avg,T1,%d,%d\n" % (start, start + STEP * points) for start in starts]


def timed(words, folder):
    """Runs a command that has to end well: the processor's seconds, the clock's, and what it printed."""
    with tempfile.TemporaryFile() as out:
        start = time.perf_counter()
        child = subprocess.Popen(words, cwd=folder, stdin=subprocess.DEVNULL, stdout=out)
        _, status, used = os.wait4(child.pid, 0)
        took = time.perf_counter() - start
        out.seek(0)
        child.returncode, text = os.waitstatus_to_exitcode(status), out.read().decode()
    if child.returncode:
        sys.exit("%s: %s" % (words, text[-300:]))
    return used.ru_utime + used.ru_stime, took, text


def least(runs):
    """The least of the processor's seconds, and of the clock's, of these runs."""
    return min(run[0] for run in runs), min(run[1] for run in runs)


class Plant:
    """A plant of one tag with a million points."""

    def __init__(self, folder, program, runs):
        self.folder, self.program, self.runs = folder, program, runs
        self.device, self.kept = os.path.join(folder, "historian.d", "T1.tag"), os.path.join(folder, "kept.tag")
        write(os.path.join(folder, "base.toml"), [BASE])
        self.call("run", stored(folder, "first", jumps(range(0, STEP * (POINTS + 1), STEP), random.Random(SEED))))
        self.has(POINTS)
        shutil.copyfile(self.device, self.kept)

    def call(self, command, plan):
        return timed([self.program, command, "base.toml", plan], self.folder)

    def has(self, records):
        """Ends if the archive has not so many records: then something else was measured."""
        text = timed([self.program, "check", "base.toml"], self.folder)[2]
        if " records=%d " % records not in text:
            sys.exit("the archive should have %d records: %s" % (records, text))

    def trend(self, plan):
        """The least seconds of a `trend`."""
        return least([self.call("trend", plan) for _ in range(self.runs)])

    def run(self, plan, more):
        """The least seconds of a `run` over the archive as it was first; it has to add so many records."""
        runs = []
        for _ in range(self.runs):
            shutil.copyfile(self.kept, self.device)
            runs.append(self.call("run", plan))
        self.has(POINTS + more)
        return least(runs)


def told(name, seconds, opening, many, unit):
    """Prints what one of so many cost beyond the opening: of the processor, and by the clock."""
    factor = {"us": 1e6, "s": 1}[unit]
    one = [factor * (all_of_it - alone) / many for all_of_it, alone in zip(seconds, opening)]
    print("%-58s %9.2f %-2s of the processor, %9.2f by the clock" % (name, one[0], unit, one[1]), flush=True)


def measure(plant):
    folder, draw = plant.folder, random.Random(SEED)
    opening = plant.trend(asked(folder, "opening", ["snap,T1\n"]))
    told("trend: the opening alone", opening, (0, 0), 1, "s")
    wide = plant.trend(asked(folder, "wide", windows(FEW, WIDE)))
    told("trend: avg over a window of a million points", wide, opening, FEW, "us")
    tenth = plant.trend(asked(folder, "tenth", windows(FEW, TENTH)))
    told("trend: avg over a window of a hundred thousand", tenth, opening, FEW, "us")
    most = plant.trend(asked(folder, "most", windows(MOST, WIDE)))
    told("trend: 65,536 windows of a million points", most, opening, 1, "s")
    behind = [STEP * (POINTS + 1 + n) for n in range(LATE)]
    between = [STEP * n + STEP // 2 for n in draw.sample(range(POINTS), LATE)]
    opening = plant.run(stored(folder, "one", jumps(behind[:1], draw)), 1)
    told("run: the opening, and one value", opening, (0, 0), 1, "s")
    told("run: a value in order", plant.run(stored(folder, "behind", jumps(behind, draw)), LATE), opening, LATE, "us")
    told("run: a late value", plant.run(stored(folder, "between", jumps(between, draw)), LATE), opening, LATE, "us")


def main():
    parser = argparse.ArgumentParser(description=__doc__, formatter_class=argparse.RawDescriptionHelpFormatter)
    parser.add_argument("--program", default=os.path.join(ROOT, "crates", "historian", "out", "historian"))
    parser.add_argument("--runs", type=int, default=5)
    given = parser.parse_args()
    memory = None if "TMPDIR" in os.environ or not os.access("/dev/shm", os.W_OK) else "/dev/shm"
    print("load %.1f on %d processors" % (os.getloadavg()[0], os.cpu_count()))
    with tempfile.TemporaryDirectory(dir=memory) as folder:
        measure(Plant(folder, os.path.abspath(given.program), given.runs))


if __name__ == "__main__":
    main()
