#!/usr/bin/env python3
"""run.py [PROGRAM] [--values N] [--tags N] [--parts N] [--asked N] [--only NAME]: what a site of several plants costs.

PROGRAM is a built historian (crates/historian/out/historian, after `rt run` there). It measures three things:
- route: how many rows a second site.py routes on one processor, by its own processor time: long files of tags that one part has, long files
  of tags that go on in another part, some months before that part begins and in the days around it, and wide files. Each row of a long
  file has a time of its own.
- feed: a million values of 4,000 tags in four parts by site.py, against as many values of 1,000 tags in one plant by feed.py.
- ask: the newest values of 10,000 tags in ten parts, by `site.py ask --tags`.

Beside the seconds of the clock stand those of all processors together. The files lie in a temporary folder in BENCH_DIR, or in /var/tmp.
It runs by hand, never as a test, with all processors free."""
import argparse
import datetime
import io
import os
import random
import resource
import subprocess
import sys
import tempfile
import time

HERE = os.path.dirname(os.path.abspath(__file__))
ROOT = os.path.dirname(os.path.dirname(HERE))
TOOLS = os.path.join(ROOT, "tools")
sys.path[:0] = [TOOLS, os.path.join(ROOT, "bench", "feed")]
import site_router  # noqa: E402
from run import TAG  # noqa: E402  (of bench/feed)
from site_parts import Site  # noqa: E402

BEGIN = datetime.datetime(2024, 12, 31, tzinfo=datetime.timezone.utc)


def write(path, lines):
    os.makedirs(os.path.dirname(path), exist_ok=True)
    with open(path, "w") as out:
        out.writelines(lines)


def lay(folder, tags, parts, more=""):
    """A site of so many parts with so many tags together, T0 to T.., each part with its own; or one plant, if there is one part."""
    each = tags // parts
    for part in range(parts):
        place = folder if parts == 1 else os.path.join(folder, "p%d" % part)
        write(os.path.join(place, "base.toml"), (TAG % n for n in range(part * each, (part + 1) * each)))
        write(os.path.join(place, "feed.toml"), ["settle_seconds = 0\n"])
        os.makedirs(os.path.join(place, "inbox"))
    if parts > 1:
        write(os.path.join(folder, "site.toml"), ["settle_seconds = 0\n"] + ['[[part]]\nfolder = "p%d"\n' % n for n in range(parts)] + [more])
        os.makedirs(os.path.join(folder, "inbox"))


def rows(count, tags, step):
    """Rows of a logger: each tag in its turn, the times `step` milliseconds apart."""
    draw, value = random.Random(7), 0
    for n in range(count):
        value += draw.randint(-2, 2)
        moment = BEGIN + datetime.timedelta(milliseconds=step * n)
        yield "T%d,%s,%d\n" % (n % tags, moment.isoformat(timespec="milliseconds"), value)


def timed(words):
    """The seconds of a command by the clock, and by all processors."""
    before, start = resource.getrusage(resource.RUSAGE_CHILDREN), time.perf_counter()
    subprocess.run(words, check=True, stdout=subprocess.DEVNULL)
    after = resource.getrusage(resource.RUSAGE_CHILDREN)
    return time.perf_counter() - start, after.ru_utime + after.ru_stime - before.ru_utime - before.ru_stime


def route(given, folder):
    """Prints the rate of the router on one processor."""
    lay(folder, given.tags, given.parts, '[[part]]\nfolder = "later"\nfrom = "2025-01-01T00:00:00Z"\n')
    write(os.path.join(folder, "later", "base.toml"), (TAG % n for n in range(given.tags // given.parts)))
    site = Site(folder, given.program)
    site.read()
    long = list(rows(given.values, given.tags, 100))
    first = given.tags // given.parts
    goes_on = [line for line in long if int(line[1:line.index(",")]) < first]
    earlier = [line.replace("2025-01-01T", "2024-07-01T").replace("2024-12-31T", "2024-06-30T") for line in goes_on]
    wide = ["time,%s\n" % ",".join("T%d" % n for n in range(first, 2 * first))] + [
        "%s,%s\n" % ((BEGIN + datetime.timedelta(seconds=n)).isoformat(), ",".join(str(n % 97) for _ in range(first)))
        for n in range(given.values // first)]
    for name, lines in (("long, tags of one part", [line for line in long if int(line[1:line.index(",")]) >= first]),
                        ("long, tags that go on, months before", earlier), ("long, tags that go on, days around", goes_on),
                        ("wide, values", wide)):
        data, start = "".join(lines).encode(), time.process_time()
        router = site_router.Router(site, folder, 1)
        count = sum(router.route(io.BytesIO(data[:site_router.MOST_BYTES]), None)[2:3])
        router.close()
        took = time.process_time() - start
        print("route: %-40s %9d rows, %6.2f s, %9.0f a second" % (name, count, took, count / took), flush=True)


def feed(given, folder):
    """Prints what feeding costs: a site, and one plant."""
    for name, tags, parts in (("%d tags in %d parts" % (given.tags, given.parts), given.tags, given.parts),
                              ("%d tags in one plant" % (given.tags // given.parts), given.tags // given.parts, 1)):
        place = os.path.join(folder, str(parts))
        lay(place, tags, parts)
        write(os.path.join(place, "inbox", "a.csv"), rows(given.values, tags, 1000 // min(tags, 1000)))
        words = ["site.py", "feed", "--site"] if parts > 1 else ["feed.py"]
        clock, processors = timed([sys.executable, os.path.join(TOOLS, words[0]), *words[1:], place, "--program", given.program])
        print("feed: %-40s %9d values, %6.2f s, %9.0f a second, %6.2f s of processors" % (
            name, given.values, clock, given.values / clock, processors), flush=True)


def ask(given, folder):
    """Prints how long the newest values of many tags take."""
    lay(folder, given.asked, 10)
    write(os.path.join(folder, "inbox", "a.csv"), rows(given.asked, given.asked, 1))
    base = ["--site", folder, "--program", given.program]
    timed([sys.executable, os.path.join(TOOLS, "site.py"), "feed", *base])
    clock, processors = timed([sys.executable, os.path.join(TOOLS, "site.py"), "ask", "--tags", *base])
    print("ask: newest values of %d tags in 10 parts %6.2f s, %6.2f s of processors" % (given.asked, clock, processors))


def main():
    parser = argparse.ArgumentParser(description=__doc__, formatter_class=argparse.RawDescriptionHelpFormatter)
    parser.add_argument("program", nargs="?", default=os.path.join(ROOT, "crates", "historian", "out", "historian"))
    parser.add_argument("--values", type=int, default=1_000_000)
    parser.add_argument("--tags", type=int, default=4_000)
    parser.add_argument("--parts", type=int, default=4)
    parser.add_argument("--asked", type=int, default=10_000, help="of how many tags the newest values are asked for")
    parser.add_argument("--only", choices=("route", "feed", "ask"), help="measure this alone")
    given = parser.parse_args()
    given.program = os.path.abspath(given.program)
    print("load %.1f on %d processors" % (os.getloadavg()[0], os.cpu_count()))
    for measure in (route, feed, ask):
        if given.only in (None, measure.__name__):
            with tempfile.TemporaryDirectory(dir=os.environ.get("BENCH_DIR", "/var/tmp")) as folder:
                measure(given, folder)


if __name__ == "__main__":
    main()
