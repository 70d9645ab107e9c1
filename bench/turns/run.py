#!/usr/bin/env python3
"""run.py [FOLDER]: times a book that gets one record a turn, a turn being a refresh and a save, and opening its device again.

It copies main.rattle with its proof, and the crates that it depends on with what was proved of them, into a repository of their own, and
builds that (`rt run`). It builds in FOLDER and keeps it; without the word it builds in a temporary folder. It runs by hand, never as a
test.

A group of 64 calculations over one input is refreshed and saved at once, and then with one record more a turn. Its device is in memory,
where a sync costs nothing. The group has 156 windows, which make some 10,000 cells, or 15,384, which make some 985,000 and a million at
the end. A record is a kept one, which completes one window more, or a late one, which touches old ones. The larger group gets three times
a thousand turns, and the smaller one ten times a hundred, since it has to stay small. The script prints the load of the machine and
medians: milliseconds of the first turn, microseconds of a later one, and which part of the former that is; and milliseconds of the
opening. Then it divides a later turn of the larger group by that of the smaller one."""
import os
import statistics
import subprocess
import sys
import tempfile

HERE = os.path.dirname(os.path.abspath(__file__))
sys.dont_write_bytecode = True
sys.path.insert(0, os.path.dirname(HERE))
from building import built, copied, needed, put  # noqa: E402

LINE = "turns_bench: anyhow trend_num disk_model calc_parser calc_check calc_eval calc_refresh group_book"  # of its crate, in crates.txt
SMALL, LARGE = (156, 100, 10), (15_384, 1000, 3)

INVARIANTS = {
    "records": """use Rattle.std.proofs.Common.{All}
use Rattle.trend_num.specs.Ranges.{InRange}
use Rattle.turns_bench.proofs.records.Given as goal

abbrev pub invariant-loop-i : goal.invariant-loop-i
invariant-loop-i g l = All (λ r. InRange r.point) l.recs.items
""",
}


def build(folder):
    """Builds the program in a folder: its path."""
    crate = copied(folder, needed(["group_book"]), LINE)
    for name, text in INVARIANTS.items():
        put(crate, "proofs/%s/Invariants.antt" % name, text)
    return built(crate, "2", "1", "kept")


def run(program, windows, turns, kind):
    """Runs the program: the nanoseconds of each turn, the first one first, and of the opening."""
    words = [program, str(windows), str(turns), kind]
    told = subprocess.run(words, stdin=subprocess.DEVNULL, capture_output=True, check=True).stdout
    return [int(word) for word in told.split()]


def medians(program, size, kind):
    """The medians of the first turn, of the later ones and of the opening, in nanoseconds."""
    windows, turns, runs = size
    told = [run(program, windows, turns, kind) for _ in range(runs)]
    later = statistics.median(one for each in told for one in each[1:-1])
    return statistics.median(each[0] for each in told), later, statistics.median(each[-1] for each in told)


def main():
    with tempfile.TemporaryDirectory() as scratch:
        program = build(sys.argv[1] if len(sys.argv) > 1 else scratch)
        print("load", os.getloadavg())
        for kind in ["kept", "late"]:
            later = {}
            for size in (SMALL, LARGE):
                first, later[size], opened = medians(program, size, kind)
                print("%d windows, %s: first turn %.2f ms, a later one %.2f us, 1/%.0f of it; opened in %.2f ms"
                      % (size[0], kind, first / 1e6, later[size] / 1e3, first / later[size], opened / 1e6))
            ratio = later[LARGE] / later[SMALL]
            print("a later turn of the larger group takes %.2f times that of the smaller one" % ratio)
        print("load", os.getloadavg())


if __name__ == "__main__":
    main()
