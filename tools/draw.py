#!/usr/bin/env python3
"""draw.py: a picture of tags, as SVG or PNG, from what the archive answers.

    draw.py TAG.. FROM TO [options] OUT.svg

For each tag it draws the archive's line (of a step tag its stair) through its points, around it the band of CompDev and the wider one in
which the program promises every raw value that came in order, and a legend. Where there are more points than the picture can show, it
draws the lowest, the highest and the mean value of each pixel. Optional: the raw values, from the files that were fed; an alarm's limit;
times in which a tag was bad or silent; below, as bars, the windows in which a calculation is true, its frames, and a calendar's shifts.

The picture is in the person's units: values divided by the tag's scale, the unit from the base's `engunits`, times on the clock of
feed.toml's `zone` (UTC without one). FROM and TO are times as ask.py takes them: 2024-03-30, today, -8h, now, newest.

It asks copies of the devices, as ask.py does. OUT.png needs rsvg-convert (Debian's package librsvg2-bin)."""
import datetime
import os
import shutil
import subprocess

import reading
from answers import calendar_of, measured_in, quotient_text, said, time_in
from clock import DAY
from fields import BadField, whole_value
from options import parsed, parser_of
from picture import LEFT, RIGHT, WIDTH, Times, picture
from plant import UNREADABLE, Plant, Refusal, ended
from samples import late_times, left_out, values_in

COLUMNS = WIDTH - LEFT - RIGHT  # pixels of the picture between its axes
DENSE = COLUMNS // 3            # more points than this are drawn pixel by pixel


class Trend:
    """What the archive has of a tag in a span of time, and what the files say of its raw values. picture.py says what it needs."""

    def __init__(self, archive, tag, first, last, given):
        self.tag, self.step, self.scale = tag, archive.definition(tag).get("step", False), archive.scale(tag)
        self.title = ": ".join(filter(None, (tag, archive.descriptor(tag))))
        self.unit, self.held = archive.unit(tag), archive.held(tag)
        self.raw, self.late, self.left_out = raw_values(archive, tag, given.raw)
        self.narrow = archive.definition(tag)["comp_dev"]
        self.wide = self.narrow + (1 if self.step else 2) * archive.definition(tag)["exc_dev"]
        self.limit = limit_of(given.limit, tag, self.scale)
        self.silent = silent_spans(archive, quality_of(archive, tag, given), first, last)
        self.points, self.line, self.columns, self.values = [], [], [], []
        self.words = words_about(archive, tag, first, last)
        if not self.words:
            self.read(archive, max(first, archive.first(tag)[0]), min(last, self.held[0]))

    def read(self, archive, first, last):
        """Asks for the line in a span in which the archive has values: by its points, or by pixels where there are too many."""
        if count_of(archive, self.tag, first, last) > DENSE:
            self.columns = columns(archive, self.tag, first, last)
            self.values = [value for column in self.columns for value in column[1:3]]
            return
        start, end = self.with_neighbours(archive, first, last)
        points = archive.points(self.tag, start, end)
        edges = {t: value_at(archive, self.tag, t) for t in (first, last, start, end)}
        self.line = sorted((edges | dict(points)).items())
        self.points = [point for point in points if first <= point[0] <= last]
        self.values = [v for t, v in self.line if first <= t <= last]

    def with_neighbours(self, archive, first, last):
        """A longer span if there are late points: a stretch that leaves the picture has no band if it goes to a late one."""
        start, end = max(archive.first(self.tag)[0], 2 * first - last), min(self.held[0], 2 * last - first)
        return (start, end) if self.late and count_of(archive, self.tag, start, end) <= 10 * DENSE else (first, last)


def count_of(archive, tag, first, last):
    """How many points a tag has from one time to before another, between its first and its newest one."""
    return archive.measures("count", tag, (first, last))[0] if first < last else 1


def value_at(archive, tag, t):
    """The value of a tag at a time that is not before its first point."""
    return int(archive.replies(["at,%s,%d" % (tag, t)])[0].split()[-1])


def columns(archive, tag, first, last):
    """The time, the lowest, the highest and the mean value of so many equal parts of a span as the picture has pixels."""
    edges = [first + (last - first) * place // COLUMNS for place in range(COLUMNS + 1)]
    found = [archive.measures(measure, tag, edges) for measure in ("low", "high", "avg")]
    return [((start + end) / 2, *values) for start, end, *values in zip(edges, edges[1:], *found)]


def words_about(archive, tag, first, last):
    """Why there is no value in a span; empty if there is one."""
    held = archive.held(tag)
    if held is None:
        return "no value of %s was ever fed" % tag
    if held[0] < first:
        return "no value here: the newest is of %s" % said(archive, held[0])
    start = archive.first(tag)[0]
    return "no value here: the first is of %s" % said(archive, start) if start > last else ""


def quality_of(archive, tag, given):
    """The step tag that says when a tag was good: as it was asked for, or as feed.toml has it."""
    return given.quality or archive.plant.settings.tag.get(tag, {}).get("quality_tag")


def silent_spans(archive, quality, first, last):
    """The spans of time in which a tag was bad or silent: in which its quality tag is 0."""
    held = quality and archive.held(quality)
    if not held or last < archive.first(quality)[0] or held[0] < first:
        return []
    start = max(first, archive.first(quality)[0])
    points = sorted(({start: value_at(archive, quality, start)} | dict(archive.points(quality, start, last))).items())
    return [(t, end) for (t, v), end in zip(points, [t for t, _ in points[1:]] + [last]) if v == 0]


def raw_values(archive, tag, files):
    """The raw values of a tag in the files that were fed, in the order in which they are given, the times of those that came late, and what is
    to be said of rows that could not be read."""
    found, refused = values_in(archive.plant, archive.tags, files)
    times, values = found.of(tag)
    return list(zip(times, values)), late_times(times), left_out(refused, tag)


def calculation_bars(archive, times, group, calculation, least):
    """The windows in which a calculation is true, and its frames of at least so many windows."""
    start, period = archive.groups[group]["start"], archive.groups[group]["period"]
    if calculation not in [known["name"] for known in archive.groups[group]["calc"]]:
        raise Refusal(UNREADABLE, "the group %s has no calculation %s" % (group, calculation))
    windows = range(max(0, (times.first - start) // period), max(0, -(-(times.last - start) // period)))
    values = archive.replies(["row,%s,%s,%d" % (group, calculation, k) for k in windows])
    bars = [(calculation, [(start + k * period, start + (k + 1) * period, ()) for k, value in zip(windows, values)
                           if value not in ("0", "none") and not value.startswith("bad")])]
    if least:
        bars.append(("frames", [(start, end, ()) for what, start, end, _ in archive.frames(group, calculation, least) if what == "frame"]))
    return bars


def shift_bars(archive, times, tags, calendar):
    """The shifts of a calendar, with the figure of each tag that the calendar has, longer and shorter as it has room."""
    day = datetime.date.fromtimestamp(times.first // 1000) - datetime.timedelta(days=2)
    days = min(366, (times.last - times.first) // DAY + 5)
    measure, shown = calendar["measure"], {}
    for _, _, start, end, tag, figure in archive.shifts(calendar, day.isoformat(), days):
        scale, unit = measured_in(archive, tag, measure)
        value = "none" if figure is None else quotient_text(figure, scale)
        name = tag + " " if len(tags) > 1 else ""
        texts = ("%s%s %s %s" % (name, measure, value, "" if figure is None else unit), "%s %s" % (measure, value), value)
        shown.setdefault(tag, []).append((start, end, [text.strip() for text in texts]))
    return [("shifts", shown[tag]) for tag in tags if tag in shown]


def limit_of(texts, tag, scale):
    """The limit of a tag, in stored units, with its text: of TAG=VALUE, or VALUE for each; None if there is none."""
    found = None
    for text in texts:
        name, equals, value = text.rpartition("=")
        if not equals or name == tag:
            try:
                found = whole_value(value, scale), value
            except BadField as why:
                raise Refusal(UNREADABLE, "--limit: %s" % why) from None
    return found


def draw(plant, given):
    """The picture that is asked for, as a text; and what there is to say about it."""
    calendar = calendar_of(plant, given.shifts) if given.shifts else None
    quality = [plant.settings.tag.get(tag, {}).get("quality_tag") for tag in given.tag] + [given.quality]
    tags = given.tag + (calendar["tags"] if calendar else []) + list(filter(None, quality))
    with reading.opened(plant, tags, given.group[:1] if given.group else (), given.wait) as archive:
        archive.look_up(list(dict.fromkeys(tags)))
        first, last = (time_in(archive, text, given.tag) for text in (given.first, given.last))
        if first >= last:
            raise Refusal(UNREADABLE, "FROM must be before TO")
        times = Times(first, last)
        trends = [Trend(archive, tag, first, last, given) for tag in given.tag]
        bars = calculation_bars(archive, times, *given.group, given.frames) if given.group else []
        bars += shift_bars(archive, times, given.tag, calendar) if calendar else []
    return picture(times, trends, bars, plant.settings.zone), [words for trend in trends for words in (trend.words, trend.left_out) if words]


def write_png(text, path):
    """Has rsvg-convert make a PNG file of a picture."""
    child = subprocess.run(["rsvg-convert", "--zoom", "2", "--output", path], input=text.encode(), stderr=subprocess.PIPE)
    if child.returncode:
        raise Refusal(UNREADABLE, "rsvg-convert made no %s: %s" % (path, child.stderr.decode("utf-8", "replace").strip()))


def require_form(path):
    """Ends with a refusal unless a picture of this name can be made."""
    end = os.path.splitext(path)[1].lower()
    if end not in (".svg", ".png"):
        raise Refusal(UNREADABLE, "the picture's name ends in .svg or .png, not as %s: nothing was drawn" % path)
    if end == ".png" and not shutil.which("rsvg-convert"):
        raise Refusal(UNREADABLE, "a PNG needs rsvg-convert, which is not here: apt-get install librsvg2-bin. Or name the picture .svg")


def main():
    parser = parser_of(__doc__)
    parser.add_argument("tag", nargs="+", metavar="TAG")
    parser.add_argument("first", metavar="FROM")
    parser.add_argument("last", metavar="TO")
    parser.add_argument("out", metavar="OUT.svg")
    parser.add_argument("--raw", action="append", default=[], metavar="FILE", help="a file that was fed (from done/), in its order")
    parser.add_argument("--limit", action="append", default=[], metavar="VALUE", help="a line at this value, or for one tag: TAG=VALUE")
    parser.add_argument("--quality", metavar="TAG", help="a step tag that is 0 where the values are bad or missing: such times are hatched")
    parser.add_argument("--group", nargs=2, metavar=("GROUP", "CALC"), help="show the windows in which a calculation is true")
    parser.add_argument("--frames", type=int, default=0, metavar="LEAST", help="with --group: its frames of at least so many windows")
    parser.add_argument("--shifts", metavar="CALENDAR", help="show the shifts of a calendar, and the tags' figures")
    given = parsed(parser)
    given.out = given.out.strip()
    require_form(given.out)
    text, words = draw(Plant(given.plant, given.program), given)
    if given.out.lower().endswith(".png"):
        write_png(text, given.out)
    else:
        with open(given.out, "w", encoding="utf-8") as out:
            out.write(text)
    for line in words:
        print("draw.py: %s" % line)


if __name__ == "__main__":
    ended(main, "Nothing was changed.")
