#!/usr/bin/env python3
"""run.py [PROGRAM] [--values N] [--tags N] [--runs N] [--only WAY]: what it costs to store a plant's values in order of time, and grouped by tag.

PROGRAM is a built historian (crates/historian/out/historian, after `rt run` there). A million values of 1,000 tags, each tag once a
second, are stored in five ways. The devices of the tags exist already and hold nothing.
- `run`, with the rows of 16 collectors in order of time, as loggers write them.
- `run`, with the same rows grouped by tag, as tools/feed.py hands them over.
- tools/feed.py as a whole, from a CSV file with ISO times to the moved file.
- `log`, with the rows in order of time: one device for all tags.
- SQLite, with the rows in order of time: commits of 64, with a write-ahead log and full synchronous.

It prints for each: the medians of the seconds and of the processor's seconds (three runs), values a second, syncs and syncs a value, and
bytes on disk a value. The last column is the bytes of the records alone, without the fixed part of each device. Syncs are counted by strace
in one more run; without strace there is `-`. The files lie in a temporary folder in BENCH_DIR, or in /var/tmp. It runs by hand, never as a
test, with all processors free; while the machine has other work, the processor's seconds say more."""
import argparse
import datetime
import os
import random
import re
import resource
import shutil
import sqlite3
import statistics
import subprocess
import sys
import tempfile
import time

HERE = os.path.dirname(os.path.abspath(__file__))
ROOT = os.path.dirname(os.path.dirname(HERE))
COLLECTORS, SEED, START, FIXED = 16, 7, 1_711_670_400_000, 66_640
TAG = """[[tag]]
name = "T%d"
exc_dev = 1
exc_max = 600_000
comp_dev = 2
comp_min = 0
comp_max = 28_800_000
"""
SYNCS = re.compile(r"^\s*[\d.]+\s+[\d.]+\s+\d+\s+(\d+).*\s(?:fsync|fdatasync|sync_file_range|msync)$", re.M)


def walks(tags, seconds):
    """The values of each tag, one a second. Each goes up or down by at most 2."""
    draw, out = random.Random(SEED), []
    for _ in range(tags):
        value, values = 0, []
        for _ in range(seconds):
            value += draw.randint(-2, 2)
            values.append(value)
        out.append(values)
    return out


def write(path, lines):
    with open(path, "w") as out:
        out.writelines(lines)


def lay(folder, values):
    """Writes the base, a plan by time and one by tag with their collectors' files, and a CSV file as a logger writes it."""
    tags, seconds = len(values), len(values[0])
    os.makedirs(folder)
    write(os.path.join(folder, "base.toml"), (TAG % n for n in range(tags)))
    write(os.path.join(folder, "feed.toml"), ["settle_seconds = 0\n"])
    for name in ("time", "tag"):
        write(os.path.join(folder, name + ".toml"), ('[[collector]]\nfile = "%s%d.csv"\n' % (name, n) for n in range(COLLECTORS)))
    for n in range(COLLECTORS):
        own = range(n, tags, COLLECTORS)
        row = lambda tag, second: "T%d,%d,%d\n" % (tag, START + 1000 * second, values[tag][second])
        write(os.path.join(folder, "time%d.csv" % n), (row(tag, second) for second in range(seconds) for tag in own))
        write(os.path.join(folder, "tag%d.csv" % n), (row(tag, second) for tag in own for second in range(seconds)))
    begin = datetime.datetime.fromtimestamp(START // 1000, datetime.timezone.utc)
    times = [(begin + datetime.timedelta(seconds=second)).strftime("%Y-%m-%dT%H:%M:%SZ") for second in range(seconds)]
    write(os.path.join(folder, "logger.csv"), ("T%d,%s,%d\n" % (tag, times[second], values[tag][second])
                                               for second in range(seconds) for tag in range(tags)))


def processor():
    """The seconds that the commands which have ended took of a processor."""
    used = resource.getrusage(resource.RUSAGE_CHILDREN)
    return used.ru_utime + used.ru_stime


def timed(words, folder):
    """The seconds of a command that has to end well, and those of the processor."""
    start, before = time.perf_counter(), processor()
    child = subprocess.run(words, cwd=folder, capture_output=True)
    took = time.perf_counter() - start
    if child.returncode:
        sys.exit("%s: %s" % (words, (child.stdout + child.stderr).decode()[-600:]))
    return took, processor() - before


def fresh(program, folder):
    """Makes new devices of the tags without values, and puts the logger's file into an empty inbox."""
    for name in ("historian.d", "feed.d", "done", "inbox"):
        shutil.rmtree(os.path.join(folder, name), ignore_errors=True)
    timed([program, "check", "base.toml"], folder)
    os.makedirs(os.path.join(folder, "inbox"))
    shutil.copy(os.path.join(folder, "logger.csv"), os.path.join(folder, "inbox"))


def syncs(folder, start):
    """How many syncs a command and all that it starts make. `start` runs it under the words that it is given. None without strace."""
    if not shutil.which("strace"):
        return None
    trace = os.path.join(folder, "trace")
    start(["strace", "-f", "-c", "-e", "trace=fsync,fdatasync,sync_file_range,msync", "-o", trace])
    with open(trace) as text:
        return sum(int(n) for n in SYNCS.findall(text.read()))


def device_bytes(folder):
    """The bytes of all devices, and those of their records alone."""
    sizes = [os.path.getsize(os.path.join(folder, "historian.d", name)) for name in os.listdir(os.path.join(folder, "historian.d"))]
    return sum(sizes), sum(max(0, size - FIXED) for size in sizes)


def database(path, source):
    """Stores a logger's rows in SQLite, 64 in a commit, and prints the seconds. Its process is its own, so syncs can be counted."""
    with open(source) as text:
        parted = (line.rstrip("\n").split(",") for line in text)
        rows = [(int(tag[1:]), int(1000 * datetime.datetime.fromisoformat(t).timestamp()), int(v)) for tag, t, v in parted]
    base = sqlite3.connect(path, isolation_level=None)
    base.execute("pragma journal_mode = wal")
    base.execute("pragma synchronous = full")
    base.execute("create table raw (tag integer, t integer, v integer, primary key (tag, t)) without rowid")
    start = time.perf_counter()
    for n in range(0, len(rows), 64):
        base.execute("begin")
        base.executemany("insert into raw values (?, ?, ?)", rows[n:n + 64])
        base.execute("commit")
    print(time.perf_counter() - start)


def in_database(folder, under=()):
    """Stores the rows in a new database, if asked to under another program: the seconds of the commits."""
    for name in os.listdir(folder):
        if name.startswith("plain.db"):
            os.remove(os.path.join(folder, name))
    words = [*under, sys.executable, os.path.abspath(__file__), "--database", "plain.db", "logger.csv"]
    return float(subprocess.run(words, cwd=folder, stdout=subprocess.PIPE, check=True).stdout)


def show(name, count, took, used, calls, size, records):
    """Prints a line of the table."""
    shown = "%9s %7s" % ("-", "-") if calls is None else "%9d %7.3f" % (calls, calls / count)
    print("%-34s %8.2f %9s %9.0f %s %8.1f %8s" % (name, took, "-" if used is None else "%.2f" % used, count / took, shown, size / count,
                                                  "-" if records is None else "%.1f" % (records / count)), flush=True)


def measure(program, folder, count, runs, only):
    """Measures each way whose name begins so, and prints the table."""
    feed = [sys.executable, os.path.join(ROOT, "tools", "feed.py"), "--program", program]
    ways = [("run, in order of time", [program, "run", "base.toml", "time.toml"]),
            ("run, grouped by tag", [program, "run", "base.toml", "tag.toml"]),
            ("feed.py, from ISO times to done/", feed),
            ("log, in order of time", [program, "log", "base.toml", "time.toml"])]
    print("%-34s %8s %9s %9s %9s %7s %8s %8s" % ("", "seconds", "processor", "values/s", "syncs", "a value", "bytes", "records"))
    for name, words in ways:
        if not name.startswith(only):
            continue
        took = []
        for _ in range(runs):
            fresh(program, folder)
            took.append(timed(words, folder))
        total, records = device_bytes(folder)
        if words[1] == "log":
            total, records = os.path.getsize(os.path.join(folder, "historian.d", "plant.log")), None
        fresh(program, folder)
        seconds, used = map(statistics.median, zip(*took))
        show(name, count, seconds, used, syncs(folder, lambda under: timed(under + words, folder)), total, records)
    if "SQLite".startswith(only):
        measure_database(folder, count, runs)


def measure_database(folder, count, runs):
    """Measures SQLite, and prints its line."""
    took = statistics.median(in_database(folder) for _ in range(runs))
    size = sum(os.path.getsize(os.path.join(folder, name)) for name in os.listdir(folder) if name == "plain.db")
    calls = syncs(folder, lambda under: in_database(folder, under))
    show("SQLite, commits of 64", count, took, None, calls, size, None)


def main():
    if sys.argv[1:2] == ["--database"]:
        return database(*sys.argv[2:])
    parser = argparse.ArgumentParser(description=__doc__, formatter_class=argparse.RawDescriptionHelpFormatter)
    parser.add_argument("program", nargs="?", default=os.path.join(ROOT, "crates", "historian", "out", "historian"))
    parser.add_argument("--values", type=int, default=1_000_000)
    parser.add_argument("--tags", type=int, default=1_000)
    parser.add_argument("--runs", type=int, default=3)
    parser.add_argument("--only", default="", metavar="WAY", help="only the ways whose names in the table begin so")
    given = parser.parse_args()
    seconds = given.values // given.tags
    with tempfile.TemporaryDirectory(dir=os.environ.get("BENCH_DIR", "/var/tmp")) as folder:
        plant = os.path.join(folder, "plant")
        lay(plant, walks(given.tags, seconds))
        print("%d values of %d tags, %d collectors, medians of %d; load %.1f on %d processors" % (
            seconds * given.tags, given.tags, COLLECTORS, given.runs, os.getloadavg()[0], os.cpu_count()))
        measure(os.path.abspath(given.program), plant, seconds * given.tags, given.runs, given.only)


if __name__ == "__main__":
    main()
