#!/usr/bin/env python3
"""run.py [FOLDER]: times contents of pages, and windows over them, compared with a plain sorted vector of a million points.

It copies main.rattle and the crates that it depends on into a repository of their own, and builds that (`rt run`). It builds in FOLDER
and keeps it; without the word it builds in a temporary folder. It runs by hand, never as a test.

Each work runs in both ways in turn, three times. It prints the load of the machine, and for each work the medians: nanoseconds for one
put or window in both ways, the ratio of the rates, and milliseconds of taking memory beforehand. Last it prints the
bytes of memory that a point needs, from the highest peaks of three runs."""
import os
import statistics
import subprocess
import sys
import tempfile

HERE = os.path.dirname(os.path.abspath(__file__))
sys.dont_write_bytecode = True
sys.path.insert(0, os.path.dirname(HERE))
from building import built, copied, needed  # noqa: E402

LINE = "content_bench: anyhow trend_num late_insert weighted_total"  # of its crate, in crates.txt
RUNS = 3
WORKS = ["in_order", "late", "whole_area", "whole_stair", "whole_low", "small_area", "small_stair", "small_low"]


def build(folder):
    """Builds the program in a folder: its path."""
    return built(copied(folder, needed(["weighted_total"]), LINE))


def run(program, work, how):
    """The numbers that were printed, and the peak memory in kilobytes. It begins with that of this process, which is kept small."""
    words = ["/usr/bin/time", "-f", "%M", program, work, how]
    child = subprocess.run(words, stdin=subprocess.DEVNULL, capture_output=True, check=True)
    return [int(word) for word in child.stdout.split()], int(child.stderr)


def measure(program, work):
    """Prints the figures of a work. Ends the script if both ways did the same puts or windows with different checksums."""
    told = {"paged": [], "plain": []}
    for _ in range(RUNS):
        for how in told:
            told[how].append(run(program, work, how))
    each = {how: statistics.median(words[1] / words[2] for words, _ in told[how]) for how in told}
    reserve = {how: statistics.median(words[0] for words, _ in told[how]) / 1e6 for how in told}
    ratio = each["plain"] / each["paged"]
    print("%-10s paged %12.1f ns  plain %12.1f ns  rate %8.2f times" % (work, each["paged"], each["plain"], ratio))
    print("%-10s memory before: paged %.3f ms  plain %.3f ms"
          % ("", reserve["paged"], reserve["plain"]), flush=True)
    if told["paged"][0][0][2] == told["plain"][0][0][2] and told["paged"][0][0][3] != told["plain"][0][0][3]:
        sys.exit("%s: the two ways differ" % work)


def main():
    with tempfile.TemporaryDirectory() as scratch:
        program = build(sys.argv[1] if len(sys.argv) > 1 else scratch)
        print("load", os.getloadavg())
        for work in WORKS:
            measure(program, work)
        for work, points in [("in_order", 1_000_000), ("late", 1_048_576)]:
            for how in ["paged", "plain"]:
                peak = max(run(program, work, how)[1] for _ in range(RUNS))
                base = max(run(program, "nothing", how)[1] for _ in range(RUNS))
                print("%-10s %s: %.1f bytes a point" % (work, how, (peak - base) * 1024 / points))
        print("load", os.getloadavg())


if __name__ == "__main__":
    main()
