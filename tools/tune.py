#!/usr/bin/env python3
"""tune.py: what a tuning of a tag would keep of a sample of its values.

    tune.py TAG SAMPLE.csv..

The sample is a file as feed.py takes it, with the settings of the plant's base.toml and feed.toml: a day or more as the instrument gives
it. From it this finds the noise: how far a value is from the line between its neighbours, as a standard deviation. Then it lets the program
compress the sample with the tuning of base.toml, and with a row of others around the noise, and prints a line for each:

    comp_dev, exc_dev   as base.toml takes them (stored units), and of how many times the noise comp_dev is
    promised, greatest  how far a raw value can be from the archive's line at most (README, The promise), and how far one was, in units
    records a day, values a record, years      until the tag is full with 1,048,576 records

A comp_dev below three times the noise archives noise: the line breaks at each larger swing. So begin with the line that is marked, of four
times the noise, and take a wider one only if what you want to see is wider. exc_dev is half of comp_dev here, and in one line 0. exc_max,
comp_min and comp_max are those of base.toml. A step tag has no noise: with a comp_dev below its smallest change it keeps each change.
Nothing is stored."""
import os
import sys
import tempfile

import bases
import reading
from clock import DAY, length_text
from devices import TAG_RECORDS
from fields import MOST_TIME, BadField, decimal_text, whole_value
from options import parsed, parser_of
from plant import UNREADABLE, Plant, Refusal, ended, step_of
from samples import late_times, left_out, values_in
from tables import printed

HEADER = ("comp_dev", "exc_dev", "x noise", "promised", "greatest", "unit", "records", "records a day", "values a record", "years", "")
TIMES_NOISE = ((1, 2), (2, 2), (3, 2), (4, 0), (4, 2), (6, 2), (10, 2))  # comp_dev over the noise; exc_dev is comp_dev over the second
BEGIN = 4, 2  # the one to begin with
LEAST = 30  # values of a sample


def noise_of(values):
    """The standard deviation of the noise in values at about equal steps, in stored units.

    Of a line the second differences are 0, of noise they are wider than the noise by the root of 6. The width is taken where 68.27 percent
    lie within, so that steps and peaks of the process count little."""
    seconds = sorted(abs(a - 2 * b + c) for a, b, c in zip(values, values[1:], values[2:]))
    return seconds[int(0.6827 * len(seconds))] / 6 ** 0.5


def smallest_step(values):
    """The smallest change between two neighbouring values; 1 if there is none."""
    return min((abs(a - b) for a, b in zip(values, values[1:]) if a != b), default=1)


def tunings(definition, noise, tried):
    """The tunings to try, as comp_dev and exc_dev with a mark: that of the base, those around the noise, and those that were asked for."""
    found = [(definition["comp_dev"], definition["exc_dev"], "as in base.toml")]
    if definition.get("step"):
        found += [(int(noise) - 1, 0, "keeps each change"), (int(noise), 0, ""), (2 * int(noise), 0, "")]
    for times, part in () if definition.get("step") else TIMES_NOISE:
        comp_dev = max(1, round(times * noise))
        found.append((comp_dev, round(comp_dev / part) if part else 0, "begin with this one" if (times, part) == BEGIN else ""))
    marks = {}
    for *tuning, mark in found + [(*tuning, "as asked") for tuning in tried]:
        marks.setdefault(tuple(tuning), []).append(mark)
    return [(tuning, "; ".join(filter(None, said))) for tuning, said in marks.items()]


def packed(plant, definition, times, values):
    """The points that the program archives of a sample, with the held one, and how many records they take."""
    if definition.get("step"):
        return packed_as_stair(plant, definition, times, values)
    words = [str(definition[key]) for key in ("exc_dev", "exc_max", "comp_dev", "comp_min", "comp_max")]
    text = plant.call("pack", *words, data="".join("%d,%d\n" % row for row in zip(times, values)).encode())
    points, records = {}, 0
    for kind, t, v in (line.split(",") for line in text.splitlines()):
        records += kind != "held"
        points[int(t)] = int(v)
    return sorted(points.items()), records


def packed_as_stair(plant, definition, times, values):
    """The same of a step tag, which `pack` does not know: `run` stores the sample in a temporary folder."""
    with tempfile.TemporaryDirectory(prefix="historian-") as folder:
        archive = reading.Archive(plant, folder, {}, {})
        archive.tags["sample"] = definition
        archive.write("sample.csv", "".join("sample,%d,%d\n" % row for row in zip(times, values)))
        archive.write("plan.toml", '[[collector]]\nfile = "sample.csv"\n')
        plant.call("run", archive.base_of(["sample"]), "plan.toml", folder=folder)
        return archive.points("sample", 0, MOST_TIME), archive.state()["sample"].records


def greatest_deviation(points, step, times, values):
    """The greatest distance of a value from the line, or the stair, through points. Late values are passed over."""
    late, corners, place, greatest = late_times(times), iter(zip(points, points[1:])), None, 0
    left, right = next(corners, (points[0], points[0]))
    for t, v in sorted((t, v) for t, v in zip(times, values) if t not in late):
        while t >= right[0] and (place := next(corners, None)):
            left, right = place
        if t >= right[0]:
            line = right[1]
        else:
            line = left[1] if step else left[1] + (right[1] - left[1]) * (t - left[0]) / (right[0] - left[0])
        greatest = max(greatest, abs(v - line))
    return greatest


def line_of(plant, tag, definition, sample, noise, comp_dev, exc_dev, mark):
    """The line of a tuning."""
    times, values = sample
    scale, unit = plant.scale(tag, definition) or 1, step_of(definition.get("engunits", ""))[1]
    points, records = packed(plant, definition | {"comp_dev": comp_dev, "exc_dev": exc_dev}, times, values)
    greatest = greatest_deviation(points, definition.get("step", False), times, values)
    a_day = records * DAY / max(1, max(times) - min(times))
    promised = comp_dev + (1 if definition.get("step") else 2) * exc_dev
    seen = "%.*f" % (len(str(scale)), greatest / scale)
    return (comp_dev, exc_dev, "%.1f" % (comp_dev / noise), decimal_text(promised, scale), seen, unit, records,
            "%.0f" % a_day, "%.1f" % (len(times) / max(1, records)), "%.1f" % (TAG_RECORDS / a_day / 365.25), mark)


def tried_of(texts, scale):
    """The tunings that a person asked for, in stored units."""
    found = []
    for text in texts:
        try:
            comp_dev, exc_dev = (whole_value(part.strip(), scale) for part in text.split(","))
        except (BadField, ValueError):
            raise Refusal(UNREADABLE, "--try takes COMPDEV,EXCDEV in the tag's units, for example 0.3,0.1, and not %s" % text) from None
        if min(comp_dev, exc_dev) < 0:
            raise Refusal(UNREADABLE, "--try: a deviation is not below 0: %s" % text)
        found.append((comp_dev, exc_dev))
    return found


def sample_of(plant, definitions, tag, files):
    """The times and the values of a tag in a sample."""
    if tag not in definitions:
        raise Refusal(UNREADABLE, "base.toml has no tag %s; it has %s" % (tag, ", ".join(definitions)))
    values, refused = values_in(plant, definitions, files)
    times, numbers = values.of(tag)
    if left_out(refused, tag):
        print("tune.py: %s" % left_out(refused, tag), file=sys.stderr)
    if len(times) < LEAST or max(times) == min(times):
        raise Refusal(UNREADABLE, "the sample has %d values of %s: too few to say anything. A day of them is good" % (len(times), tag))
    return times, numbers


def main():
    parser = parser_of(__doc__)
    parser.add_argument("tag", metavar="TAG")
    parser.add_argument("sample", nargs="+", metavar="SAMPLE.csv")
    parser.add_argument("--try", dest="tried", action="append", default=[], metavar="COMPDEV,EXCDEV", help="another tuning, in the tag's"
                        " units")
    given = parsed(parser)
    plant = Plant(given.plant, given.program)
    wrong = bases.wrong_in(plant.path("base.toml"))
    if wrong:
        raise Refusal(UNREADABLE, "base.toml: %s" % wrong)
    definitions = plant.base()[0]
    times, values = sample_of(plant, definitions, given.tag, given.sample)
    definition = definitions[given.tag]
    scale, found = plant.scale(given.tag, definition) or 1, 0 if definition.get("step") else noise_of(values)
    noise = found or smallest_step(values)
    print("%s: %d values in %s; %s %.*f %s" % (
        os.path.basename(given.sample[0]), len(times), length_text(max(times) - min(times)),
        "noise (standard deviation)" if found else "no noise; the smallest change is", len(str(scale)), noise / scale,
        step_of(definition.get("engunits", ""))[1]), file=sys.stderr)
    printed(HEADER, [line_of(plant, given.tag, definition, (times, values), noise, *tuning, mark)
                     for tuning, mark in tunings(definition, noise, tried_of(given.tried, scale))])


if __name__ == "__main__":
    ended(main, "Nothing was changed.")
