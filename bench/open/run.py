#!/usr/bin/env python3
"""run.py [PROGRAM]: times the opening of a device of a million records, with one average over its whole span.

PROGRAM is a built historian (crates/historian/out/historian, after `rt run` there). `trend` opens the device and answers. It is compared
with plain.c (`cc -O3`), which keeps the same records and tests nothing. Each runs in turn, seven times, with the file in the page cache.

It prints the load of the machine, the answer, and medians: the seconds of each, and which part of the speed of plain.c the program has.
Last it prints the highest peak of memory in bytes a record. It runs by hand, never as a test."""
import os
import statistics
import struct
import subprocess
import sys
import tempfile
import time

HERE = os.path.dirname(os.path.abspath(__file__))
PROGRAM = os.path.join(os.path.dirname(os.path.dirname(HERE)), "crates", "historian", "out", "historian")
RUNS = 7
RECORDS = 1_000_000
SLOTS = 64
LOG = 400 + 1035 * SLOTS
OPEN = b"\xa5"
TUNING = (0, 1_000_000, 0, 0, 1_000_000)


def points():
    """The points: they jump up and down, so that each is kept."""
    return ((1000 * k, k * 7919 % 20011 - 10000) for k in range(RECORDS))


def summary():
    """The summary of all records: the last one is held, and it is the hinge too."""
    last = struct.pack(">Qq", 1000 * (RECORDS - 1), (RECORDS - 1) * 7919 % 20011 - 10000)
    numbers = b"".join(n.to_bytes(size, "big") for n, size in zip(TUNING, (7, 6, 7, 6, 6)))
    return struct.pack(">QIB3x", RECORDS, RECORDS, 0x15) + last + bytes(16) + last + bytes(32) + numbers


def lay(folder):
    """Writes the device, and the texts with which `trend` asks it: the path of the device."""
    header = b"PHT1" + bytes([2]) + b"T1".ljust(64, b"\0") + struct.pack(">5QI14x", *TUNING, SLOTS)
    path = os.path.join(folder, "historian.d", "T1.tag")
    os.makedirs(os.path.dirname(path))
    with open(path, "wb") as out:
        out.write(OPEN + header + summary() + bytes(128) + OPEN + bytes(15) + bytes(1035 * SLOTS))
        out.write(b"".join(b"K" + struct.pack(">Qq", t, v) for t, v in points()))
    keys = zip(("exc_dev", "exc_max", "comp_dev", "comp_min", "comp_max"), TUNING)
    texts = {
        "base.toml": '[[tag]]\nname = "T1"\n' + "".join("%s = %d\n" % pair for pair in keys),
        "plan.toml": '[[reader]]\nfile = "asked.csv"\n',
        "asked.csv": "avg,T1,0,%d\n" % (1000 * (RECORDS - 1)),
    }
    for name, text in texts.items():
        with open(os.path.join(folder, name), "w") as out:
            out.write(text)
    return path


def run(folder, words):
    """Runs a command that has to end well: its seconds, its peak memory in kilobytes, and what it printed."""
    start = time.perf_counter()
    child = subprocess.run(["/usr/bin/time", "-f", "%M"] + words, cwd=folder, capture_output=True)
    took = time.perf_counter() - start
    if child.returncode != 0:
        sys.exit("%s: %s" % (words, child.stdout[:200]))
    return took, int(child.stderr), child.stdout


def build(folder):
    """Compiles plain.c in a folder: its path."""
    plain = os.path.join(folder, "plain")
    subprocess.run(["cc", "-O3", "-o", plain, os.path.join(HERE, "plain.c")], check=True)
    return plain


def main():
    program = os.path.abspath(sys.argv[1]) if len(sys.argv) > 1 else PROGRAM
    with tempfile.TemporaryDirectory() as folder:
        path = lay(folder)
        size = os.path.getsize(path)
        print("load", os.getloadavg())
        words = {
            "trend": [program, "trend", "base.toml", "plan.toml"],
            "plain": [build(folder), path, str(RECORDS), str(LOG)],
        }
        told = {name: [] for name in words}
        for _ in range(RUNS):
            for name in words:
                told[name].append(run(folder, words[name]))
        answers = {told[name][0][2] for name in ("trend", "plain")}
        if len(answers) != 1:
            sys.exit("the answers differ: %s" % answers)
        print(answers.pop().decode().strip())
        ours, plain = (statistics.median(took for took, _, _ in told[name]) for name in words)
        print("opened and asked: %.4f s" % ours)
        print("the plain program: %.4f s, %.2f of its speed" % (plain, plain / ours))
        peak = max(memory for _, memory, _ in told["trend"])
        print("peak memory: %.1f bytes a record of %.1f bytes" % (peak * 1024 / RECORDS, size / RECORDS))


main()
