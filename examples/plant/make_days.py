#!/usr/bin/env python3
"""make_days.py [--iso]: writes the collectors' files of the plant into the working folder, from a fixed seed.

They hold two days from 2024-03-30 00:00 on, each of 24 hours. In the zone of the calendar 2024-03-31 has 23 hours. `flow1.csv` and
`unit1.csv` are the first day, `flow2.csv` and `unit2.csv` the second. `buffer.csv` is what a logger had kept back of the first day, and
hands over late.

With --iso it writes the same values as loggers would, for tools/feed.py. The flow has a value a line, and offsets in its times. The unit
is a wide file in UTC. The buffer is on the local clock, without an offset. Temperature and level are decimals."""
import datetime
import sys

DAY = 86_400_000
FIRST = 1_711_753_200_000  # 2024-03-30 00:00 on the local clock
SECOND = FIRST + DAY


class Noise:
    """Random numbers from a generator of 31 bits, so that they are the same everywhere."""

    def __init__(self, seed):
        self.state = seed

    def upto(self, most):
        """A number from -most to most."""
        self.state = (1_103_515_245 * self.state + 12_345) % 2**31
        return (self.state >> 16) % (2 * most + 1) - most


def along(corners, t):
    """The value at t of a line through these corners, rounded down."""
    for (t1, v1), (t2, v2) in zip(corners, corners[1:]):
        if t1 <= t <= t2:
            return v1 + (v2 - v1) * (t - t1) // (t2 - t1)
    return corners[-1][1]


def hours(corners):
    """Corners in milliseconds, from corners in minutes of the day."""
    return [(60_000 * m, v) for m, v in corners]


FLOW = hours([(0, 5000), (360, 5200), (400, 6400), (1060, 6300), (1090, 5100), (1440, 5000)])
HEAT = hours([(0, 8120), (420, 8200), (500, 8460), (560, 8690), (640, 8700), (700, 8420), (900, 8390), (950, 8650), (1000, 8640),
              (1060, 8300), (1440, 8120)])
LEVEL = hours([(0, 300), (200, 780), (240, 310), (480, 800), (520, 290), (760, 790), (800, 300), (1040, 770), (1080, 310), (1440, 640)])
PRESSURE = hours([(0, 1200), (480, 1212), (960, 1196), (1440, 1200)])
VALVE = [(0, 0), (360, 40), (400, 100), (620, 80), (700, 100), (1060, 40), (1090, 0)]


def flow_rows(begin, noise):
    """The flow every ten seconds, noisy, and the valve where it moves."""
    for second in range(0, 86_400, 10):
        t = 1000 * second
        yield t, "FIC101.PV,%d,%d" % (begin + t, along(FLOW, t) + noise.upto(12))
    for minute, value in VALVE:
        yield 60_000 * minute, "XV101.ZSO,%d,%d" % (begin + 60_000 * minute, value)


def unit_rows(begin, noise, missing):
    """The temperature every ten seconds, noisy, but where it is missing; level and pressure every minute."""
    for second in range(0, 86_400, 10):
        t = 1000 * second
        value = along(HEAT, t) + noise.upto(6)
        if not missing or not missing[0] <= t < missing[1]:
            yield t, "TIC201.PV,%d,%d" % (begin + t, value)
    for minute in range(1440):
        t = 60_000 * minute
        yield t, "LIC301.PV,%d,%d" % (begin + t, along(LEVEL, t) + noise.upto(2))
        yield t, "PIC401.PV,%d,%d" % (begin + t, along(PRESSURE, t) + noise.upto(1))


def buffered(begin, missing):
    """What a logger kept of the time in which the temperature was missing: a value a minute, each of them hot."""
    for t in range(missing[0], missing[1], 60_000):
        yield t, "TIC201.PV,%d,%d" % (begin + t, 8660 + t // 60_000 % 7)


def write(name, rows):
    """Writes rows as the program takes them, in order of time."""
    with open(name, "w") as out:
        for _, row in sorted(rows, key=lambda row: row[0]):
            out.write(row + "\n")


SCALES = {"TIC201.PV": 100, "LIC301.PV": 10}
CHANGE = 1_711_846_800_000  # 2024-03-31 02:00 on the local clock, which then shows 03:00


def plain(tag, value):
    """A value as its instrument shows it, with decimals if it has some."""
    scale = SCALES.get(tag, 1)
    return "%d.%0*d" % (value // scale, len(str(scale)) - 1, value % scale) if scale > 1 else str(value)


def iso(t, hours=0, offset="Z"):
    """A time as ISO text, on a clock so many hours ahead of UTC."""
    moment = datetime.datetime.fromtimestamp(t // 1000, datetime.timezone.utc) + datetime.timedelta(hours=hours)
    return moment.strftime("%Y-%m-%dT%H:%M:%S") + offset


def parted(rows):
    """Time, tag and value of rows, in order of time."""
    for _, row in sorted(rows, key=lambda row: row[0]):
        tag, t, v = row.split(",")
        yield int(t), tag, int(v)


def write_lines(name, rows, time):
    """Writes a file with one value a line."""
    with open(name, "w") as out:
        out.write("tag,time,value\n")
        out.writelines("%s,%s,%s\n" % (tag, time(t), plain(tag, v)) for t, tag, v in parted(rows))


def write_wide(name, rows, tags):
    """Writes a file with one time a line, and a column for each tag."""
    table = {}
    for t, tag, v in parted(rows):
        table.setdefault(t, {})[tag] = plain(tag, v)
    with open(name, "w") as out:
        out.write("time,%s\n" % ",".join(tags))
        out.writelines("%s,%s\n" % (iso(t), ",".join(values.get(tag, "") for tag in tags)) for t, values in table.items())


def with_offset(t):
    """A time as ISO text on the local clock, with its offset."""
    return iso(t, 1, "+01:00") if t < CHANGE else iso(t, 2, "+02:00")


def main():
    missing = (60_000 * 640, 60_000 * 700)
    days = [(FIRST, 11, 12, missing), (SECOND, 13, 14, None)]
    for number, (begin, flow, unit, gap) in enumerate(days, 1):
        flow, unit = flow_rows(begin, Noise(flow)), unit_rows(begin, Noise(unit), gap)
        if "--iso" in sys.argv:
            write_lines("flow%d.csv" % number, flow, with_offset)
            write_wide("unit%d.csv" % number, unit, ("TIC201.PV", "LIC301.PV", "PIC401.PV"))
        else:
            write("flow%d.csv" % number, flow)
            write("unit%d.csv" % number, unit)
    if "--iso" in sys.argv:
        write_lines("buffer.csv", buffered(FIRST, missing), lambda t: iso(t, 1, ""))
    else:
        write("buffer.csv", buffered(FIRST, missing))


main()
