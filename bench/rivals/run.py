#!/usr/bin/env python3
"""run.py [--values N] [--kind walk|flat|quarter] [--only NAME,..]: what a plant would pick instead, compared with the historian.

It prints a row for the disk, for the historian (HISTORIAN names it, or it is crates/historian/out/historian), and for each rival. These
store the same values of one tag, each in a fresh folder and a process of its own. SQLite is always there. PostgreSQL (PGBIN names the
folder of its initdb), InfluxDB and VictoriaMetrics have to be installed; the row of a missing one says `failed`. The values come from
series.py, once for each kind, and stay in the folder rivals-data of the folder for temporary files.

The columns are:
- ingest/s: values a second until the last batch is acknowledged, as the column durability says.
- B/value, settled: bytes on disk a raw value just then, and after the rival's own flush and compaction.
- avg ms: milliseconds for the mean of the whole span, median of five.
- windows ms: milliseconds for the means of a thousand windows of a thousandth each, in all.
- at t ms: milliseconds for 1,000 values at times of raw values, in all; the column "at t by" says what finds them.
- MiB: the peak memory of the largest process, in units of 1,048,576 bytes.

Plain Python checks every answer, and a wrong one ends the row. A rival's answer has to be the mean of the samples. The historian's means
are over time, and its archive is approximate: its answers may differ from the mean over time by CompDev, twice ExcDev and one. --only
takes names of rows or their beginnings. It runs by hand, never as a test, with all processors free."""
import argparse
import math
import multiprocessing
import os
import signal
import statistics
import subprocess
import sys
import tempfile
import time
from concurrent.futures import ProcessPoolExecutor

import rest
from common import Series
from ours import Historian
from sql import Postgres, PostgresBrin, Sqlite
from web import Influx, Victoria

RIVALS = {  # each with the number of values in a batch; None is all in one
    "historian": (Historian, 64),
    "sqlite-64": (Sqlite, 64),
    "sqlite-100000": (Sqlite, 100_000),
    "postgres-64": (Postgres, 64),
    "postgres-copy": (Postgres, None),
    "postgres-copy-brin": (PostgresBrin, None),
    "influx-64": (Influx, 64),
    "influx-5000": (Influx, 5000),
    "victoria-5000": (Victoria, 5000),
}
NAMES = ["disk", *RIVALS]
DATA, TOOLS = os.path.join(tempfile.gettempdir(), "rivals-data"), os.path.dirname(os.path.abspath(__file__))
COLUMNS = "{:<18} {:<55} {:>9} {:>8} {:>8} {:>8} {:>10} {:>10} {:>7}  {}"
HEADS = "rival,durability,ingest/s,B/value,settled,avg ms,windows ms,at t ms,MiB,at t by".split(",")


def asked(question, right, near):
    """The milliseconds of a question. Fails unless each answer is as near to the right one as asked for."""
    start = time.perf_counter()
    answers = list(question())
    taken = time.perf_counter() - start
    for answer, expected in zip(answers, right, strict=True):
        if not math.isclose(answer, expected, rel_tol=1e-6, abs_tol=max(near, 1e-6)):
            raise ValueError(f"answer {answer}, not {expected}")
    return taken * 1e3


def measure(name, rival, series):
    """Runs a rival through all that is measured: the row to print."""
    rival.prepare()
    empty = rival.disk(False), rival.disk(True)
    start = time.perf_counter()
    rival.ingest()
    rate = len(series.times) / (time.perf_counter() - start)
    ingested = rival.disk(False) - empty[0]
    rival.settle()
    settled, count = rival.disk(True) - empty[1], len(series.times)
    means, near = (series.means, rival.near) if name == "historian" else (series.averages, 0)
    right = means(*series.span)
    span = statistics.median(asked(lambda: rival.averages(*series.span), right, near) for _ in range(5))
    windows = asked(lambda: rival.averages(*series.windows), means(*series.windows), near)
    moments = asked(lambda: rival.at_all(series.moments), map(series.at, series.moments), near)
    return COLUMNS.format(
        name, rival.durability, f"{rate:,.0f}", f"{ingested / count:.2f}",
        f"{settled / count:.2f}", f"{span:,.2f}", f"{windows:,.1f}", f"{moments:,.1f}",
        f"{rival.peak() / 2**20:,.1f}", rival.at_by)


def job(name, *data):
    """Measures one row in this process, which does nothing else, so that memory is counted from new: the row to print."""
    series = Series(*data)
    with tempfile.TemporaryDirectory(prefix="rivals-") as folder:
        os.chmod(folder, 0o755)  # so that the user postgres gets to its data
        if name not in RIVALS:
            return f"{name:<18} {rest.disk(folder)}"
        make, batch = RIVALS[name]
        rival = make(folder, series, batch)
        try:
            return measure(name, rival, series)
        finally:
            rival.close()


def end(*_):
    """Ends the workers and this process so that each `finally` runs: servers stop, and folders are removed."""
    for worker in multiprocessing.active_children():
        worker.terminate()
    sys.exit("ended")


def main():
    parser = argparse.ArgumentParser(usage=__doc__)
    parser.add_argument("--values", type=int, default=1_000_000)
    parser.add_argument("--kind", choices=("walk", "flat", "quarter"), default="walk")
    parser.add_argument("--only", default="")
    given = parser.parse_args()
    names = [name for name in NAMES if name.startswith(tuple(given.only.split(",")))]
    if given.values < 10_000 or not names:
        parser.error(f"takes 10,000 values or more (no empty window) and names of {', '.join(NAMES)}")
    path = f"{DATA}/{given.kind}.csv"
    if not os.path.exists(path):
        os.makedirs(DATA, exist_ok=True)
        maker = f"python3 {TOOLS}/series.py {given.kind} 60000000 >{path}"
        subprocess.run(maker, shell=True, check=True)
    with open(path) as lines:
        count = min(given.values, sum(1 for _ in lines))
    print(f"{count:,} values of {given.kind}; load {os.getloadavg()[0]:.1f} on {os.cpu_count()} cores")
    print(COLUMNS.format(*HEADS), flush=True)
    signal.signal(signal.SIGTERM, end)
    with ProcessPoolExecutor(1, multiprocessing.get_context("spawn"), signal.signal,
                             (signal.SIGTERM, end), max_tasks_per_child=1) as pool:
        for name in names:
            try:
                print(pool.submit(job, name, given.kind, path, count).result(), flush=True)
            except Exception as error:
                print(f"{name:<18} failed: {error!r}", flush=True)


if __name__ == "__main__":
    main()
