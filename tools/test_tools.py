#!/usr/bin/env python3
"""test_tools.py [--program PATH] [--long] [--only NAME ..]: tests the tools with a built historian, mainly by killing.

The short form takes two minutes at most. It kills twenty times at random moments, and at some calls of the program and of the feeder. It
cuts the power 30 times. With --long it kills 300 times at random moments, and cuts the power 500 times. It kills at each write and sync
of the program too, and at each call by which the feeder syncs or cuts a file or changes a name. Kills at calls and power cuts need
strace. Without it they are not tried, and count as passed.

After kills and cuts the lines of `check` and the replies of `trend` have to be those of a plant that nobody stopped. The program makes
that plant of the same rows, without the tools. The script prints a line for each case, with its seconds, and last `N passed, N failed`.
The exit status is 1 if a case fails."""
import argparse
import concurrent.futures
import os
import sys
import tempfile
import time
import traceback

sys.dont_write_bytecode = True
HERE = os.path.dirname(os.path.abspath(__file__))
sys.path[:0] = [HERE, os.path.join(HERE, "testing")]
import again  # noqa: E402
import asked  # noqa: E402
import audited  # noqa: E402
import boarded  # noqa: E402
import cuts  # noqa: E402
import daily  # noqa: E402
import drawn  # noqa: E402
import keeping  # noqa: E402
import kills  # noqa: E402
import lost  # noqa: E402
import pages  # noqa: E402
import quick  # noqa: E402
import ruled  # noqa: E402
import site_asks  # noqa: E402
import site_daily  # noqa: E402
import site_dask  # noqa: E402
import site_kills  # noqa: E402
import sources  # noqa: E402
import stops  # noqa: E402
import strange  # noqa: E402
import told  # noqa: E402
import tuned  # noqa: E402
import watched  # noqa: E402
from plant import program_of  # noqa: E402


def result_of(case, program, settings):
    """Runs a case in a fresh folder: whether it passed, and the line to print."""
    start = time.monotonic()
    with tempfile.TemporaryDirectory(prefix="tools-") as folder:
        try:
            note = case(folder, program, settings)
        except Exception:
            return False, "%s FAILED:\n%s" % (case.__name__, traceback.format_exc())
    return True, "%-34s %6.1f s  %s" % (case.__name__, time.monotonic() - start, note or "")


def main():
    parser = argparse.ArgumentParser(description=__doc__, formatter_class=argparse.RawDescriptionHelpFormatter)
    parser.add_argument("--program", default="historian", help="the built historian (default: on the path)")
    parser.add_argument("--long", action="store_true", help="300 kills and 500 power cuts, and a kill at each call")
    parser.add_argument("--kills", type=int, help="another number of kills at random moments, and of power cuts")
    parser.add_argument("--seed", type=int, default=1, help="the seed of the random moments")
    parser.add_argument("--jobs", type=int, default=min(4, os.cpu_count() or 1), help="how many cases run at the same time")
    parser.add_argument("--only", nargs="+", default=[], metavar="NAME", help="only the cases whose names begin so")
    settings = parser.parse_args()
    settings.kills = settings.kills or (300 if settings.long else 20)
    modules = (kills, cuts, stops, strange, again, sources, daily, keeping, told, lost, watched, pages, asked, drawn, tuned, ruled, audited, boarded,
               quick, site_kills, site_asks, site_daily, site_dask)
    cases = [case for module in modules for case in module.CASES]
    return run_cases(cases, settings)


def run_cases(cases, settings):
    """Runs the cases that are asked for, some at the same time, and prints a line for each: the exit status."""
    program = program_of(settings.program)
    if program is None:
        print("there is no program %r: build it with `rt run` in crates/historian, or give its path with --program" % settings.program)
        print("0 passed, 1 failed")
        return 1
    if settings.only:
        cases = [case for case in cases if case.__name__.startswith(tuple(settings.only))]
    results = []
    with concurrent.futures.ThreadPoolExecutor(settings.jobs) as pool:
        for passed, line in pool.map(lambda case: result_of(case, program, settings), cases):
            results.append(passed)
            sys.__stdout__.write(line.rstrip() + "\n")
            sys.__stdout__.flush()
    sys.__stdout__.write("%d passed, %d failed\n" % (results.count(True), results.count(False)))
    return 0 if results and all(results) else 1


if __name__ == "__main__":
    sys.exit(main())
