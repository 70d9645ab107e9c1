#!/usr/bin/env python3
"""run.py [FOLDER]: times the reading of collectors' rows, compared with a plain reader that nobody verified.

It copies main.rattle and the crates that it depends on into a repository of their own, builds that (`rt run`), and compiles plain.rs. It
builds in FOLDER and keeps it; without the word it builds in a temporary folder. It runs by hand, never as a test.

Both read 60 MB of rows of 200 tags in turn, seven times. They have to find as many rows with the same sum of values. It prints the load
of the machine and medians: the seconds of both, and the part of the plain time that the proved reader takes. These are for bytes and rows
together, and for the rows alone. Last it prints the highest peak of memory of the proved reader in bytes a row, without the input."""
import os
import random
import statistics
import subprocess
import sys
import tempfile

HERE = os.path.dirname(os.path.abspath(__file__))
sys.dont_write_bytecode = True
sys.path.insert(0, os.path.dirname(HERE))
from building import built, copied, needed  # noqa: E402

LINE = "rows_bench: anyhow trend_num byte_io value_rows"  # of its crate, in crates.txt
RUNS = 7
SIZE = 60_000_000


def build(folder):
    """Builds both programs in a folder: the paths of the proved one and of the plain one."""
    crate = copied(folder, needed(["value_rows"]), LINE)
    plain = os.path.join(folder, "plain")
    subprocess.run(["rustc", "-C", "opt-level=3", "-C", "target-cpu=native", "-o", plain, os.path.join(HERE, "plain.rs")],
                   check=True)
    return built(crate), plain


def write_rows(path):
    """Writes rows of 200 tags in random order, whose values walk at random. It does so line by line, so that this process stays small."""
    draw = random.Random(20261127)
    t, size, values = 1_700_000_000_000, 0, [0] * 200
    with open(path, "w") as out:
        while size < SIZE:
            tag = draw.randrange(200)
            t += draw.randrange(1, 20)
            values[tag] += draw.randrange(-40, 41)
            size += out.write("T%03d,%d,%d\n" % (tag, t, values[tag]))


def run(program, path):
    """The numbers that were printed, and the peak memory in kilobytes. It begins with that of this process, which is kept small."""
    with open(path, "rb") as rows:
        child = subprocess.run(["/usr/bin/time", "-f", "%M", program], stdin=rows, capture_output=True, check=True)
    return [int(word) for word in child.stdout.split()], int(child.stderr)


def main():
    with tempfile.TemporaryDirectory() as scratch:
        programs = build(sys.argv[1] if len(sys.argv) > 1 else scratch)
        path = os.path.join(scratch, "rows.csv")
        write_rows(path)
        told = {program: [] for program in programs}
        print("load", os.getloadavg())
        for _ in range(RUNS):
            for program in programs:
                told[program].append(run(program, path))
        proved, plain = (told[program] for program in programs)
        if proved[0][0][2:] != plain[0][0][2:]:
            sys.exit("the two readers differ")
        whole = [statistics.median((w[0] + w[1]) / 1e9 for w, _ in runs) for runs in (proved, plain)]
        rows = [statistics.median(w[1] / 1e9 for w, _ in runs) for runs in (proved, plain)]
        count, peak = proved[0][0][2], max(memory for _, memory in proved)
        print("reading and rows: proved %.3f s, plain %.3f s, %.2f times its time" % (*whole, whole[0] / whole[1]))
        print("rows alone:       proved %.3f s, plain %.3f s, %.2f" % (*rows, rows[0] / rows[1]))
        print("peak memory besides the input: %.1f bytes a row" % ((peak * 1024 - os.path.getsize(path)) / count))
        print("load", os.getloadavg())


if __name__ == "__main__":
    main()
