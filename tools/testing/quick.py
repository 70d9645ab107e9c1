"""Cases without the program: what reads rows in a quick way has to read them as the plain way does."""
import datetime
import io
import os
import random
import re

import site_router
from fields import BadField, instants
from rows import Intake, Reader
from settings import Settings
from site_parts import Site

LATEST = 1_800_000_000_000


def texts_of_times(draw):
    """Times in many forms, good and bad: in a summer night, around both changes of the clock, and of other years."""
    for _ in range(3_000):
        begin = draw.choice(((2024, 3, 31, 0, 58), (2024, 10, 26, 23, 58), (2024, 10, 27, 0, 57), (2024, 6, 1, 23, 58), (1999, 12, 31, 23, 58)))
        moment = datetime.datetime(*begin) + datetime.timedelta(microseconds=draw.randrange(240_000_000))
        text = moment.isoformat(sep=draw.choice("TT "), timespec=draw.choice(("seconds", "milliseconds", "microseconds")))
        yield text + draw.choice(("", "Z", "+00:00", "+01:00", "-05:30", "+24:00", "+01:30:15"))
        yield draw.choice((text[:17] + "60Z", text[:18], text + "x", text.replace(".", ","), text[:16], text[:10], text.replace("-", ""),
                           str(draw.randrange(3 * 10**12)), "9" * 21, text + "1Z", "\u0663" * 13))


def times_in_parts(folder, program, settings):
    """A time that is put together of its minute and its rest is the one that is read as a whole; and what is none is refused."""
    path = os.path.join(folder, "feed.toml")
    with open(path, "w") as out:
        out.write('zone = "Europe/Berlin"\n')
    plant = Settings(path)
    for given in ({}, {"time": "%Y-%m-%dT%H:%M:%S"}):
        texts = list(texts_of_times(random.Random(settings.seed)))
        intake, refused, source = Intake(plant, {"A": 1}, LATEST), set(), plant.source_from(1, {"pattern": "*"} | given)
        data = "".join("A,%s,%d\n" % (text, n) for n, text in enumerate(texts)).encode()
        Reader(intake, source, lambda tag, time, value, number, why, quality=None: refused.add(number)).read(data)
        times, values = intake.values.of("A")
        for t, n in zip(times, values):
            assert t in instants(texts[n], source.zone, source.time), (texts[n], t)
        for n in set(range(len(texts))) - set(values):
            assert n + 1 in refused and ("," in texts[n] or not is_good(texts[n], source)), texts[n]
    return "%d of %d times are good" % (len(times), len(texts))


def is_good(text, source):
    """Whether a text is one time that may be stored."""
    try:
        found = instants(text, source.zone, source.time)
    except BadField:
        return False
    return len(found) == 1 and found[0] <= LATEST


def lay_site(folder):
    """A site of a part with tags A and B, and of two parts that have C one after the other."""
    for part, tags in (("one", "AB"), ("two", "C"), ("three", "C")):
        os.makedirs(os.path.join(folder, part))
        with open(os.path.join(folder, part, "base.toml"), "w") as out:
            out.writelines('[[tag]]\nname = "%s"\n' % tag for tag in tags)
    with open(os.path.join(folder, "site.toml"), "w") as out:
        out.write('[[part]]\nfolder = "one"\n[[part]]\nfolder = "two"\nfrom = 2024-01-01T00:00:00Z\n[[part]]\nfolder = "three"\n'
                  "from = 2024-01-02T12:30:00Z\n")
    site = Site(folder, "historian")
    site.read()
    return site


def any_rows(draw, count):
    """Rows of these tags around the times at which C goes on; some are wrong, quoted, blank, or before all parts of C."""
    for _ in range(count):
        t = datetime.datetime(2023, 12, 30, tzinfo=datetime.timezone.utc) + datetime.timedelta(seconds=draw.randrange(5 * 86_400))
        tag, time = draw.choice("ABCCCD"), t.isoformat().replace("+00:00", draw.choice(("Z", "+00:00", "+01:00")))
        yield row_of(draw, tag, time)


def row_of(draw, tag, time):
    form = draw.choice(("{0},{1},{2}",) * 20 + ('"{0}",{1},"{2}"', "{0},{1}", "{0},soon {1},{2}", "", '"{0},{1},{2}', "{0},{1},{2},"))
    return form.format(tag, time, draw.randrange(99))


class Kept:
    """Refused rows."""

    def __init__(self):
        self.rows = []

    def add(self, *row):
        self.rows.append((*row[:-1], str(row[-1])))


def routed(site, folder, data, helpers):
    """What a router with so many helpers makes of a file: the parts' files, and the refused rows."""
    os.makedirs(folder)
    router, refused = site_router.Router(site, folder, 1, helpers), Kept()
    found = router.route(io.BytesIO(data), refused)[:3]
    router.close()
    texts = {}
    for lot in router.lots:
        for name, sha in lot.files():
            with open(os.path.join(folder, name)) as text:
                texts[name] = text.read(), sha
    return found, texts, refused.rows


def helpers_route_the_same(folder, program, settings):
    """A long file is routed alike with helpers and without, each row to the part of its time, and what no part takes is refused."""
    site, draw = lay_site(os.path.join(folder, "site")), random.Random(settings.seed)
    data = "\n".join(any_rows(draw, 40_000)).encode() + b"\n"
    kept, site_router.BLOCK, site_router.LONG_BYTES = (site_router.BLOCK, site_router.LONG_BYTES), 50_000, 100_000
    try:
        alone, helped = (routed(site, os.path.join(folder, str(count)), data, count) for count in (0, 3))
    finally:
        site_router.BLOCK, site_router.LONG_BYTES = kept
    assert alone == helped
    for number, first, last in ((1, "2024-01-01T00:00:00Z", "2024-01-02T12:30:00Z"), (2, "2024-01-02T12:30:00Z", "2024-01-09T00:00:00Z")):
        times = [instants(time, None)[0] for time in re.findall(r'^"?C"?,([^s,]+),', alone[1]["%d-001.csv" % number][0], re.M)]
        assert times and instants(first, None)[0] <= min(times) and max(times) < instants(last, None)[0], number
    causes = {row[-1].partition(":")[0] for row in alone[2]}
    assert {"no part has the tag", "no part has this tag before 2024-01-01T00"} <= causes, causes
    return "%d rows, %d refused" % (alone[0][2], len(alone[2]))


CASES = [times_in_parts, helpers_route_the_same]
