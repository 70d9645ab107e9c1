"""tables.py: how ask.py prints: CSV, columns on a terminal, and tables of tags, also for a spreadsheet."""
import bisect
import csv
import sys
import types

import clock
from answers import measured_in, quotient_text
from devices import TAG_RECORDS
from fields import decimal_text, iso_text
from progress import Progress

ROWS = 4_096  # of a table that are asked for at once


def printed(header, rows):
    """Prints a header and rows: as CSV, or on a terminal in columns."""
    if not sys.stdout.isatty():
        csv.writer(sys.stdout, lineterminator="\n").writerows([header, *rows])
        return
    lines = [header] + [tuple(map(str, row)) for row in rows]
    wide = [max(len(line[place]) for line in lines) for place in range(len(header))]
    for line in lines:
        print("  ".join(field.ljust(width) for field, width in zip(line, wide)).rstrip())


class Table:
    """A table of tags over times: which tags, how times and numbers are written, and whether the header has the units."""

    def __init__(self, archive, tags, measure, excel, units):
        self.archive, self.tags, self.excel = archive, tags, excel
        self.measure, _, self.divisor = (measure or "").partition("/")
        self.settings = archive.plant.settings
        self.scales, names = {}, []
        for tag in tags:
            self.scales[tag], unit = measured_in(archive, tag, self.measure, self.divisor)
            names.append("%s (%s)" % (tag, unit) if units and unit else tag)
        self.header = (["time", "clock"] if excel else ["time"]) + names
        if excel:
            print("\ufeff", end="")  # so that a spreadsheet reads the text as UTF-8
        self.out = csv.writer(sys.stdout, delimiter=self.settings.separator if excel else ",", lineterminator="\n")

    def time(self, t):
        """The fields of a time."""
        zone = self.settings.zone
        if self.excel:
            return [clock.spreadsheet_text(t, zone, self.settings.decimal), clock.offset_text(t, zone)]
        return [iso_text(t, zone)]

    def number(self, tag, value):
        """A value of a tag as it is written; None is an empty field."""
        text = "" if value is None else quotient_text(value, self.scales[tag])
        return text.replace(".", self.settings.decimal) if self.excel else text

    def points(self, first, last):
        """Writes the points of all tags: a line for each time at which a tag has one, and an empty field where it has none then."""
        self.out.writerow(self.header)
        found = {tag: dict(self.archive.points(tag, first, last)) for tag in self.tags}
        for t in sorted(set().union(*found.values())):
            self.out.writerow(self.time(t) + [self.number(tag, found[tag].get(t)) for tag in self.tags])

    def steps(self, times, last):
        """Writes the values at equal steps, or a measure of the windows that begin there. Behind the newest value, where it would only go
        on, the field is empty. Answers the tags whose newest value is before the last time."""
        self.out.writerow(self.header)
        progress = Progress("export", len(times))
        for place in range(0, len(times), ROWS):
            some = times[place:place + ROWS]
            ends = (list(times[place + 1:place + ROWS + 1]) + [last])[:len(some)]
            columns = [self.measured(tag, some, ends) if self.measure else self.values(tag, some) for tag in self.tags]
            self.out.writerows(self.time(t) + list(row) for t, *row in zip(some, *columns))
            progress.add(len(some))
        progress.end()
        return [tag for tag in self.tags if self.archive.held(tag) is None or self.archive.held(tag)[0] < times[-1]] if times else []

    def values(self, tag, times):
        """The values of a tag at these times, as they are written."""
        held = self.archive.held(tag)
        within = bisect.bisect_right(times, held[0]) if held else 0
        texts = self.archive.replies(["at,%s,%d" % (tag, t) for t in times[:within]])
        return [self.number(tag, None if text == "none" else int(text.split()[-1])) for text in texts] + [""] * (len(times) - within)

    def measured(self, tag, starts, ends):
        """A measure of a tag in these windows, as it is written."""
        windows = [window for window in zip(starts, ends) if window[0] < window[1]]
        texts = self.archive.replies(["%s,%s,%d,%d" % (self.measure, tag, *window) for window in windows])
        return [self.number(tag, None if text == "none" else int(text)) for text in texts] + [""] * (len(starts) - len(texts))


def export(archive, tag, first, last, times, units):
    """Writes the points of a tag as CSV, or its values at these times with what each is: exact, line, flat or none."""
    zone, scale, unit = archive.plant.settings.zone, archive.scale(tag), archive.unit(tag)
    out, name = csv.writer(sys.stdout, lineterminator="\n"), "%s (%s)" % (tag, unit) if units and unit else tag
    out.writerow(("time", name) if times is None else ("time", name, "kind"))
    if times is None:
        out.writerows((iso_text(t, zone), decimal_text(v, scale)) for t, v in archive.points(tag, first, last))
        return
    progress = Progress("export", len(times))
    for start in range(0, len(times), ROWS):
        some = times[start:start + ROWS]
        for t, text in zip(some, archive.replies(["at,%s,%d" % (tag, t) for t in some])):
            words = text.split()
            out.writerow((iso_text(t, zone), "" if text == "none" else decimal_text(int(words[-1]), scale), words[0]))
        progress.add(len(some))
    progress.end()


NOTHING = types.SimpleNamespace(taken=0, records=0, late=0, held=None)  # that a tag has which was never fed
TAGS = ("tag", "descriptor", "value", "unit", "newest", "age", "records", "full %", "full at", "late", "taken", "note")


def tag_lines(archive, words, at):
    """A line for each tag whose name or descriptor has one of the words: the archive's newest value, when the newest raw value came, which
    differs from it by at most ExcDev, how old that is, and how full the tag is."""
    state = archive.state()
    found = [tag for tag in archive.tags if not words or any(
        word.lower() in (tag + " " + archive.descriptor(tag)).lower() for word in words)]
    archive.look_up(found)
    for tag in found:
        yield tag_line(archive, tag, state.get(tag, NOTHING), at)
    for name, what in archive.refused.items():
        yield (name.rpartition("historian.d/")[2].removesuffix(".tag"), *[""] * (len(TAGS) - 2), what.partition(":")[0])


def tag_line(archive, tag, state, at):
    """The line of a tag."""
    zone, held = archive.plant.settings.zone, archive.held(tag)
    value, time, age, full = "", "", "", ""
    if held:
        value, time = decimal_text(held[1], archive.scale(tag)), clock.short_text(archive.newest[tag], zone)
        age, full = clock.length_text(at - archive.newest[tag]), full_at(archive, tag, state)
    note = "" if held else "no value was ever fed"
    return (tag, archive.descriptor(tag), value, archive.unit(tag), time, age, state.records, "%.1f" % (100 * state.records / TAG_RECORDS),
            full, state.late, state.taken, note)


def full_at(archive, tag, state):
    """The day on which a tag is full if its records go on at their pace so far; empty if that cannot be said, or is after 9999."""
    first = archive.first_on_device(tag)
    if not first or state.records < 2 or state.held[0] <= first[0]:
        return ""
    t = state.held[0] + (TAG_RECORDS - state.records) * (state.held[0] - first[0]) // state.records
    return "" if t > 253_370_764_800_000 else clock.local(t, archive.plant.settings.zone).date().isoformat()
