#!/usr/bin/env python3
"""run.py [PROGRAM]: times sessions of `run`, compared with bare writes and syncs and with SQLite, on the disk of the working folder.

PROGRAM is a built historian. Without the word it is crates/historian/out/historian, which is built if it is missing (`rt run`). A random
walk of a million values is stored in five ways, three times in turn:
- `run`, into one tag.
- Bare batches of 64, as a lane has them: two writes and two syncs each.
- SQLite, in commits of 64, with a write-ahead log and full synchronous.
- `run`, with an eighth of the values in each of eight tags, by eight collectors.
- Eight processes at once, which write an eighth of the bare batches each.

Then `trend` answers one window and a thousand windows of the archive, and SQLite answers the same averages of the raw rows. It prints
medians in seconds, ratios of rates, and bytes of memory and on the device a value. It runs by hand, never as a
test, with all processors free."""
import multiprocessing
import os
import random
import shutil
import sqlite3
import statistics
import subprocess
import sys
import tempfile
import time

HERE = os.path.dirname(os.path.abspath(__file__))
ROOT = os.path.dirname(os.path.dirname(HERE))
RUNS = 3
VALUES = 1_000_000
SEED = 7
TAG = """[[tag]]
name = "T%d"
exc_dev = 1
exc_max = 600_000
comp_dev = 2
comp_min = 0
comp_max = 28_800_000
"""


def walk(count, seed):
    """So many points: times a second apart, and values that go up or down by at most 2."""
    draw, value = random.Random(seed), 0
    for i in range(count):
        value += draw.randint(-2, 2)
        yield 1000 * i, value


def lay(folder, tags, count):
    """Writes a plant of so many tags, each with one collector of `count` rows."""
    with open(os.path.join(folder, "base.toml"), "w") as out:
        out.write("\n".join(TAG % n for n in range(tags)))
    with open(os.path.join(folder, "plan.toml"), "w") as out:
        out.write("\n".join('[[collector]]\nfile = "%d.csv"\n' % n for n in range(tags)))
    for n in range(tags):
        with open(os.path.join(folder, "%d.csv" % n), "w") as out:
            out.writelines("T%d,%d,%d\n" % (n, t, v) for t, v in walk(count, SEED + n))


def timed(words, folder):
    """Runs a command that has to end well: its seconds, and its peak memory in bytes."""
    start = time.perf_counter()
    child = subprocess.run(["/usr/bin/time", "-f", "%M"] + words, cwd=folder, capture_output=True)
    took = time.perf_counter() - start
    if child.returncode != 0:
        sys.exit("%s: %s" % (words, (child.stdout + child.stderr).decode()[:400]))
    return took, 1024 * int(child.stderr.split()[-1])


def session(program, folder):
    """Runs a session over new devices: its seconds, and its peak memory in bytes."""
    shutil.rmtree(os.path.join(folder, "historian.d"), ignore_errors=True)
    return timed([program, "run", "base.toml", "plan.toml"], folder)


def bare(folder, batches):
    """Writes so many bare batches, each a slot and its gate with a sync after each: the seconds."""
    path = os.path.join(folder, "bare%d" % os.getpid())
    slots = 4096
    file = os.open(path, os.O_RDWR | os.O_CREAT | os.O_TRUNC)
    os.pwrite(file, bytes(400 + slots + 1034 * slots), 0)
    os.fdatasync(file)
    slot, gate = bytes(range(256)) * 4 + bytes(10), b"\xa5"
    start = time.perf_counter()
    for n in range(batches):
        os.pwrite(file, slot, 400 + slots + 1034 * (n % slots))
        os.fdatasync(file)
        os.pwrite(file, gate, 400 + n % slots)
        os.fdatasync(file)
    took = time.perf_counter() - start
    os.close(file)
    os.remove(path)
    return took


def at_once(folder, batches):
    """Eight processes write an eighth of the bare batches each: the seconds of the slowest."""
    with multiprocessing.Pool(8) as pool:
        return max(pool.starmap(bare, [(folder, batches // 8)] * 8))


def database(folder, count):
    """Stores the walk in a new database, in commits of 64: the seconds, and the open connection."""
    for name in ("plain.db", "plain.db-wal", "plain.db-shm"):
        path = os.path.join(folder, name)
        if os.path.exists(path):
            os.remove(path)
    rows = list(walk(count, SEED))
    base = sqlite3.connect(os.path.join(folder, "plain.db"), isolation_level=None)
    base.execute("pragma journal_mode = wal")
    base.execute("pragma synchronous = full")
    base.execute("create table raw (t integer primary key, v integer) without rowid")
    start = time.perf_counter()
    for n in range(0, count, 64):
        base.execute("begin")
        base.executemany("insert into raw values (?, ?)", rows[n:n + 64])
        base.execute("commit")
    return time.perf_counter() - start, base


def windows(count, many):
    """So many windows, one after the other, over all of the walk but for its ends."""
    width = 1000 * (count - 200) // many
    return [(1000 * 100 + n * width, 1000 * 100 + (n + 1) * width) for n in range(many)]


def trend(program, folder, count, many):
    """The seconds of a `trend` that opens the archive and answers so many windows."""
    with open(os.path.join(folder, "asks.toml"), "w") as out:
        out.write('[[reader]]\nfile = "asks.csv"\n')
    with open(os.path.join(folder, "asks.csv"), "w") as out:
        out.writelines("avg,T0,%d,%d\n" % window for window in windows(count, many))
    return timed([program, "trend", "base.toml", "asks.toml"], folder)[0]


def averages(base, count, many):
    """The seconds that SQLite takes for the averages of the raw rows in the same windows."""
    start = time.perf_counter()
    for window in windows(count, many):
        base.execute("select avg(v) from raw where t >= ? and t < ?", window).fetchone()
    return time.perf_counter() - start


def told(name, ratio):
    """Prints a ratio."""
    print("%-66s %6.2f" % (name, ratio), flush=True)


def main():
    program = os.path.abspath(sys.argv[1]) if len(sys.argv) > 1 else os.path.join(ROOT, "crates", "historian", "out", "historian")
    if not os.path.exists(program):
        with open(os.path.join(ROOT, "examples", "four_lines.csv")) as lines:
            subprocess.run(["rt", "run", "--", "pack", "0", "1000000", "1", "0", "1000000"], stdin=lines, check=True,
                           cwd=os.path.join(ROOT, "crates", "historian"))
    with tempfile.TemporaryDirectory(dir=os.getcwd()) as folder:
        ones, eights = os.path.join(folder, "one"), os.path.join(folder, "eight")
        os.makedirs(ones)
        os.makedirs(eights)
        lay(ones, 1, VALUES)
        lay(eights, 8, VALUES // 8)
        runs = [(session(program, ones), bare(ones, VALUES // 64), database(ones, VALUES), session(program, eights),
                 at_once(eights, VALUES // 64)) for _ in range(RUNS)]
        one = statistics.median(run[0][0] for run in runs)
        plain = statistics.median(run[1] for run in runs)
        base = statistics.median(run[2][0] for run in runs)
        eight = statistics.median(run[3][0] for run in runs)
        print("a million values: one tag %.2f s, bare batches %.2f s, SQLite %.2f s, eight tags %.2f s" % (one, plain, base, eight))
        told("one tag, in the rate of bare batches", plain / one)
        told("one tag, in SQLite's rate", base / one)
        told("eight tags and collectors, in one tag's rate", one / eight)
        print("the disk's own: eight bare writers at once, in one's rate %6.2f" % (plain / statistics.median(run[4] for run in runs)))
        print("memory a raw value: %.0f bytes" % (runs[-1][0][1] / VALUES))
        print("device a raw value: %.1f bytes" % (os.path.getsize(os.path.join(ones, "historian.d", "T0.tag")) / VALUES))
        for many in (1, 1000):
            ours = statistics.median(trend(program, ones, VALUES, many) for _ in range(RUNS))
            other = statistics.median(averages(runs[-1][2][1], VALUES, many) for _ in range(RUNS))
            print("%4d windows: trend %.3f s from the process's start, SQLite %.3f s on an open connection" % (many, ours, other))


if __name__ == "__main__":
    main()
