#!/usr/bin/env python3
"""run.py [FOLDER]: times takes and commits of a cell, compared with plain code.

It copies main.rattle and the crates that it depends on into a repository of their own, builds that (`rt run`), and compiles plain.rs. It
builds in FOLDER (an absolute path) and keeps it; without the word it builds in a temporary folder. It runs by hand, never as a test.

It prints the load of the machine, and these figures. A time is the median of seven runs. All runs of one program
come before those of the next.
- A million takes without a commit: nanoseconds a take of the cell, of plain code, and of plain code that posts each take too.
- The bytes of memory that a take needs: the least peak of seven runs with a million takes, less the least peak with none.
- 32,768 takes with a commit after each 64th, on a file: microseconds for each 64, compared with the bare writes and syncs of them."""
import os
import shutil
import statistics
import subprocess
import sys
import tempfile

HERE = os.path.dirname(os.path.abspath(__file__))
sys.dont_write_bytecode = True
sys.path.insert(0, os.path.dirname(HERE))
from building import built, copied, needed  # noqa: E402

LINE = "cell_bench may_wait=9: anyhow trend_num disk_model told_store tag_cell test_rig"  # of its crate, in crates.txt
RUNS = 7
TAKES = 1_000_000
COMMITTED = 32_768


def build(folder):
    """Builds both programs in a folder: the paths of the proved one and of the plain one."""
    crate = copied(folder, needed(["tag_cell", "told_store", "test_rig"]), LINE)
    plain = os.path.join(folder, "plain")
    subprocess.run(["rustc", "--edition", "2021", "-O", "-o", plain, os.path.join(HERE, "plain.rs")], check=True)
    return built(crate), plain


def run(folder, words):
    """Runs a program over no devices: the numbers that it printed, and its peak memory in kilobytes."""
    shutil.rmtree(os.path.join(folder, "historian.d"), ignore_errors=True)
    child = subprocess.run(["/usr/bin/time", "-f", "%M"] + words, cwd=folder, stdin=subprocess.DEVNULL, capture_output=True,
                           check=True)
    return [int(word) for word in child.stdout.split()], int(child.stderr)


def median(folder, program, what, count):
    """The median of the nanoseconds that a program printed."""
    return statistics.median(run(folder, [program, what, str(count)])[0][0] for _ in range(RUNS))


def main():
    with tempfile.TemporaryDirectory() as scratch:
        program, plain = build(sys.argv[1] if len(sys.argv) > 1 else scratch)
        print("load", os.getloadavg())
        ours, other = median(scratch, program, "takes", TAKES), median(scratch, plain, "takes", TAKES)
        print("a take: ours %.1f ns  plain %.1f ns  %.2f times" % (ours / TAKES, other / TAKES, ours / other))
        posts = median(scratch, plain, "posts", TAKES)
        print("compared with a plain program that posts too: %.1f ns, %.2f times" % (posts / TAKES, ours / posts))
        for name, each in [("ours", program), ("plain", plain)]:
            peak = min(run(scratch, [each, "takes", str(TAKES)])[1] for _ in range(RUNS))
            base = min(run(scratch, [each, "nothing", str(64)])[1] for _ in range(RUNS))
            print("%s: %.1f bytes a take" % (name, (peak - base) * 1024 / TAKES))
        ours, other = median(scratch, program, "commits", COMMITTED), median(scratch, plain, "device", COMMITTED)
        print("64 takes and a commit: ours %.1f us  bare device %.1f us  rate %.2f"
              % (64e-3 * ours / COMMITTED, 64e-3 * other / COMMITTED, other / ours))
        print("load", os.getloadavg())


if __name__ == "__main__":
    main()
