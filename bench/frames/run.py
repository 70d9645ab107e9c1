#!/usr/bin/env python3
"""run.py [FOLDER [WINDOWS]]: times single changes of a row's frames, compared with going over the whole row after each.

It copies main.rattle and the crates that it depends on into a repository of their own, and builds that (`rt run`). It builds in FOLDER
and keeps it; without the word it builds in a temporary folder. It runs by hand, never as a test.

It runs over rows of 100,000 windows (or WINDOWS) and of ten times as many. The frames in them are short, long, or one as long as the row.
Both ways run in turn, five times. It prints the load of the machine and medians: nanoseconds a change, how many times as fast that is as
going over the row, and milliseconds of making the frames. Then it divides the time of a change with ten times the windows by that with the
fewer ones."""
import os
import statistics
import subprocess
import sys
import tempfile

HERE = os.path.dirname(os.path.abspath(__file__))
sys.dont_write_bytecode = True
sys.path.insert(0, os.path.dirname(HERE))
from building import built, copied, needed  # noqa: E402

LINE = "frames_bench: anyhow trend_num event_frames"  # of its crate, in crates.txt
RUNS = 5
# One window in so many is not true: frames of a few windows, of thousands, and one frame.
GAPS = [4, 5_000, 1_000_000_000]


def build(folder):
    """Builds the program in a folder: its path."""
    return built(copied(folder, needed(["event_frames"]), LINE))


def run(program, windows, gap, how):
    """Runs the program: the nanoseconds of a change, and those of making the frames of the row."""
    words = [program, str(windows), str(gap), how]
    child = subprocess.run(words, stdin=subprocess.DEVNULL, capture_output=True, check=True)
    making, work, count, _ = [int(word) for word in child.stdout.split()]
    return work / count, making


def measure(program, windows, gap):
    """Measures both ways and prints medians: the nanoseconds of a change that `apply` makes."""
    kept, anew = [], []
    for _ in range(RUNS):
        kept.append(run(program, windows, gap, "kept"))
        anew.append(run(program, windows, gap, "anew"))
    change = statistics.median(each for each, _ in kept)
    making = statistics.median(making for _, making in kept)
    whole = statistics.median(each for each, _ in anew)
    print("%8d windows, 1 in %10d not true: %8.1f ns a change, %8.0f times as fast as going over the row; made in %.2f ms"
          % (windows, gap, change, whole / change, making / 1e6), flush=True)
    return change


def main():
    few = int(sys.argv[2]) if len(sys.argv) > 2 else 100_000
    with tempfile.TemporaryDirectory() as scratch:
        program = build(sys.argv[1] if len(sys.argv) > 1 else scratch)
        print("load", os.getloadavg())
        for gap in GAPS:
            one = measure(program, few, gap)
            ten = measure(program, 10 * few, gap)
            print("  a change in ten times as many windows takes %.2f times as long" % (ten / one))
        print("load", os.getloadavg())


if __name__ == "__main__":
    main()
