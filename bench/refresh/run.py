#!/usr/bin/env python3
"""run.py [FOLDER]: times sheets that get one record at a time, compared with sheets made anew.

It copies main.rattle with its proof, and the crates that it depends on, into a repository of their own, and builds that (`rt run`). It
builds in FOLDER and keeps it; without the word it builds in a temporary folder. It runs by hand, never as a test.

A sheet gets 100,000 or 1,000,000 kept records at once, and then a thousand records one at a time, kept ones or late ones. Each of the
four runs three times. It prints the load of the machine and medians: milliseconds of the sheet made anew, microseconds of one more
record, and which part of the former that is. Then it divides the time of one more record in the larger sheet by that in the smaller one."""
import os
import statistics
import subprocess
import sys
import tempfile

HERE = os.path.dirname(os.path.abspath(__file__))
sys.dont_write_bytecode = True
sys.path.insert(0, os.path.dirname(HERE))
from building import built, copied, needed, put  # noqa: E402

LINE = "refresh_bench: anyhow trend_num calc_parser calc_check calc_eval calc_refresh"  # of its crate, in crates.txt
RUNS = 3
SINGLES = 1000
SMALL, LARGE = 100_000, 1_000_000

ANSWERS = """use Rattle.std.proofs.Common.{rules}
use Rattle.calc_refresh.proofs.Inputs.{length-longer}
use Rattle.refresh_bench.proofs.times.Goals as goal

pub loop-i-init : goal.loop-i-init
loop-i-init g c = search (rules, length-longer)

pub loop-i-preserved : goal.loop-i-preserved
loop-i-preserved g c = search (rules, length-longer)
"""

INVARIANTS = {
    "records": """use Rattle.std.proofs.Common.{All}
use Rattle.trend_num.specs.Ranges.{InRange}
use Rattle.refresh_bench.proofs.records.Given as goal

abbrev pub invariant-loop-i : goal.invariant-loop-i
invariant-loop-i g l = All (λ r. InRange r.point) l.recs.items
""",
    "times": """use Rattle.std.proofs.Common.{◌≡◌, length}
use Rattle.refresh_bench.proofs.times.Given as goal

abbrev pub invariant-loop-i : goal.invariant-loop-i
invariant-loop-i g l = length l.sheet.copies ≡ 1
""",
    "main": """use Rattle.refresh_bench.proofs.main.Given as goal

abbrev pub ghosts-times : goal.ghosts-times
ghosts-times _ a = record { name = a.blank.name; parts = a.blank.parts }
""",
}


def build(folder):
    """Builds the program in a folder: its path."""
    crate = copied(folder, needed(["calc_refresh"]), LINE)
    for name, text in INVARIANTS.items():
        put(crate, "proofs/%s/Invariants.antt" % name, text)
    put(crate, "proofs/times/Answers.antt", ANSWERS)
    return built(crate, "10", "1", "late")


def run(program, first, kind):
    """Runs the program: the four numbers that it printed."""
    words = [program, str(first), str(SINGLES), kind]
    told = subprocess.run(words, stdin=subprocess.DEVNULL, capture_output=True, check=True).stdout
    return [int(word) for word in told.split()]


def main():
    with tempfile.TemporaryDirectory() as scratch:
        program = build(sys.argv[1] if len(sys.argv) > 1 else scratch)
        print("load", os.getloadavg())
        for kind in ["kept", "late"]:
            told = {first: [run(program, first, kind) for _ in range(RUNS)] for first in (SMALL, LARGE)}
            anew = {first: statistics.median(words[0] for words in told[first]) for first in told}
            each = {first: statistics.median(words[1] for words in told[first]) / SINGLES for first in told}
            for first in told:
                print("%s records, 1000 %s: anew %.2f ms, one more %.2f us, 1/%.0f of it, windows %d, values %d"
                      % (first, kind, anew[first] / 1e6, each[first] / 1e3, anew[first] / each[first], told[first][0][2],
                         told[first][0][3]))
            ratio = each[LARGE] / each[SMALL]
            print("one more of the larger sheet takes %.2f times that of the smaller one" % ratio)
        print("load", os.getloadavg())


if __name__ == "__main__":
    main()
