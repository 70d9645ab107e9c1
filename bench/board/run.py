#!/usr/bin/env python3
"""run.py [--tags N] [--records N] [--points N]: how long tools/board.py takes for a large plant, and a browser for a long trend.

It makes a plant of 1,000 tags with 10,000 records each, and one tag of a million records, by writing the devices' bytes as docs/FORMATS.md
has them. Then it writes the board: all tags, after a turn in which each tag got values, and after one in which every tenth did. Headless
Chromium opens the page of the million points and zooms to a month, a week, a day and an hour of it. Its own clock tells how long that
takes, until it is on the screen (the median of five). It prints seconds. It needs libjs-dygraphs, and for the
pages chromium-driver and python3-selenium. The files lie in a temporary folder in BENCH_DIR, or in /var/tmp. It runs by hand, never as a
test."""
import argparse
import os
import statistics
import subprocess
import sys
import tempfile
import time

HERE = os.path.dirname(os.path.abspath(__file__))
ROOT = os.path.dirname(os.path.dirname(HERE))
sys.dont_write_bytecode = True
sys.path[:0] = [os.path.join(ROOT, "tools"), os.path.join(ROOT, "tools", "testing")]
import browser  # noqa: E402
from device_maker import MINUTE, batch_put, device_bytes, tag_text, walk  # noqa: E402

DAY = 86_400_000
TAKEN, BATCH = 40, 4  # values for each record; values of a tag in a turn
ZOOMS = (("all", 0, None), ("a month", 0.45, 30 * DAY), ("a week", 0.3, 7 * DAY), ("a day", 0.62, DAY), ("an hour", 0.8, DAY // 24))


def lay(folder, tags, records, points):
    """Makes the plant: the names of its tags, and the newest point of each."""
    os.makedirs(os.path.join(folder, "historian.d"))
    sizes = {"T%d" % place: (records, 40 * MINUTE) for place in range(tags)} | {"LONG": (points, MINUTE // 2)}
    newest = {}
    with open(os.path.join(folder, "base.toml"), "w") as base:
        base.writelines(map(tag_text, sizes))
    for place, (name, (count, every)) in enumerate(sizes.items()):
        line = walk(count, every, place)
        newest[name] = line[-1]
        with open(os.path.join(folder, "historian.d", name + ".tag"), "wb") as out:
            out.write(device_bytes(name, line, TAKEN * count))
    return sizes, newest


def turn(folder, names, sizes, newest, number):
    """Writes a batch of values into the lane of some tags, as a turn of the feeder leaves it: each makes a record."""
    for name in names:
        t, v = newest[name]
        values = [(t + (n + 1) * MINUTE, v + (300 if n % 2 else -300)) for n in range(BATCH)]
        newest[name] = values[-1]
        batch_put(os.path.join(folder, "historian.d", name + ".tag"), number, TAKEN * sizes[name][0] + BATCH * number, values)


def written(folder):
    """The seconds in which the board is written."""
    start = time.perf_counter()
    child = subprocess.run([sys.executable, os.path.join(ROOT, "tools", "board.py"), folder], capture_output=True, text=True)
    took = time.perf_counter() - start
    if child.returncode:
        sys.exit(child.stdout + child.stderr)
    return took, child.stdout.split(": ", 1)[1].strip()


def browsed(folder, runs=5):
    """The seconds from the opening of the long tag's page until its trend is on the screen, and those of each zoom."""
    found = {"load": []}
    with browser.opened() as driver:
        for _ in range(runs):
            browser.go(driver, os.path.join(folder, "board", "tags", "LONG.html"))
            found["load"].append(driver.execute_script("return board.shown") / 1000)
            for name, share, length in ZOOMS:
                took = driver.execute_async_script(
                    "const done = arguments[2], [first, last] = ends(), from = first + (last - first) * arguments[0];"
                    "show(from, arguments[1] ? from + arguments[1] : last, () => done(page.took));", share, length)
                found.setdefault(name, []).append(took / 1000)
    return {name: statistics.median(values) for name, values in found.items()}


def main():
    parser = argparse.ArgumentParser(description=__doc__, formatter_class=argparse.RawDescriptionHelpFormatter)
    parser.add_argument("--tags", type=int, default=1_000)
    parser.add_argument("--records", type=int, default=10_000, help="of each tag")
    parser.add_argument("--points", type=int, default=1_000_000, help="of the one long tag")
    given = parser.parse_args()
    with tempfile.TemporaryDirectory(dir=os.environ.get("BENCH_DIR", "/var/tmp")) as folder:
        sizes, newest = lay(folder, given.tags, given.records, given.points)
        print("%-44s %8.2f s; %s" % ("all tags", *written(folder)), flush=True)
        for number, names in enumerate((list(sizes), list(sizes)[::10])):
            turn(folder, names, sizes, newest, number)
            took, text = written(folder)
            print("%-44s %8.2f s; %s" % ("after a turn of %d tags" % len(names), took, text), flush=True)
        missing = browser.missing()
        if missing:
            sys.exit("the pages are not opened: " + missing)
        for name, took in browsed(folder).items():
            print("%-44s %8.3f s" % ("a page of %d points: %s" % (given.points, name), took))


if __name__ == "__main__":
    browser.with_selenium()
    main()
