#!/usr/bin/env python3
"""test_disk.py [--program PATH] [--count N] [--only NAME ..]: tests a built historian with real files.

It tests what the program does in these cases:
- it is killed, or the power is cut.
- a call of the system fails or is interrupted, and what becomes of that device, also as the program opens it.
- two sessions meet in one folder.
- a file of the folder is damaged, of another kind, or may only be read.

Without --count there are 200 kills, 200 power cuts, 200 failing calls and 200 double sessions. They take some minutes with four free
processors; `--count 20` is the short form.

Power cuts, failing and interrupted calls, kills at given calls, and most cases of devices written anew need strace. Without it they are
not tried, and count as passed. It prints a line for each case, with its seconds, and last `N passed, N failed`. The exit status is 1 if
a case fails."""
import argparse
import os
import sys

sys.dont_write_bytecode = True
HERE = os.path.dirname(os.path.abspath(__file__))
sys.path[:0] = [HERE, os.path.join(HERE, "testing")]
import disk_calls  # noqa: E402
import disk_cuts  # noqa: E402
import disk_double  # noqa: E402
import disk_files  # noqa: E402
import disk_kills  # noqa: E402
import disk_opening  # noqa: E402
import disk_renew  # noqa: E402
from test_tools import run_cases  # noqa: E402


def main():
    parser = argparse.ArgumentParser(description=__doc__, formatter_class=argparse.RawDescriptionHelpFormatter)
    parser.add_argument("--program", default="historian", help="the built historian (default: on the path)")
    parser.add_argument("--count", type=int, default=200, help="kills, cuts, failing calls and double sessions: how many of each")
    parser.add_argument("--seed", type=int, default=1, help="the seed of the random moments")
    parser.add_argument("--jobs", type=int, default=min(4, os.cpu_count() or 1), help="how many cases run at the same time")
    parser.add_argument("--only", nargs="+", default=[], metavar="NAME", help="only the cases whose names begin so")
    settings = parser.parse_args()
    cases = disk_kills.CASES + disk_cuts.CASES + disk_calls.CASES + disk_renew.CASES + disk_opening.CASES
    cases += disk_double.CASES + disk_files.CASES
    return run_cases(cases, settings)


if __name__ == "__main__":
    sys.exit(main())
