"""answers.py: what a person asks about tags and calculations, and what the answers say: a value in its unit, or why there is none."""
import decimal
import fractions
import json

import clock
from fields import MOST_TIME, BadField, decimal_text, iso_text
from formulas import PER, Quantity, quantity_of, total_over, total_unit
from plant import UNREADABLE, Refusal, read_toml
from reading import held_in, points_of

MEASURES = ("area", "avg", "total", "low", "high", "count", "first", "last")
HEADER = ("query", "of", "from", "to", "value", "unit", "note")
BAD = {"nodata": "a tag has no value in this window", "divzero": "a division by 0", "range": "a number beyond 10^18"}
FORMS = "at,TAG,T  points,TAG,FROM,TO  avg,TAG,FROM,TO (and area total low high count first last)  snap,TAG  row,GROUP,CALC,T"


def refusal(why):
    return Refusal(UNREADABLE, str(why))


def time_in(archive, text, tags=()):
    """A time that a person gave, in milliseconds; `newest` is the time of the newest value of these tags."""
    try:
        return clock.time_of(text, archive.plant.settings.zone, newest=(lambda: newest(archive, tags)) if tags else None)
    except BadField as why:
        raise refusal("%s\n  A time is %s" % (why, clock.FORMS)) from None


def newest(archive, tags):
    """The time of the newest value of tags."""
    times = [archive.held(tag)[0] for tag in tags if archive.held(tag)]
    if not times:
        raise BadField("no value of %s was ever fed, so none is the newest" % ", ".join(tags))
    return max(times)


class Query:
    """One question: its verb, what it is about, and by what a total is divided. Its times are texts until `at` has an archive."""

    def __init__(self, text):
        self.text = text
        fields = [field.strip() for field in text.split(",")]
        self.verb, _, self.divisor = fields[0].partition("/")
        wanted = {"at": 3, "snap": 2, "points": 4, "row": 4} | dict.fromkeys(MEASURES, 4)
        if len(fields) != wanted.get(self.verb) or "/" in fields[0] and (self.verb != "total" or not seconds_of(self.divisor)):
            raise refusal("no query: %s\n  The forms are %s  total/h,TAG,FROM,TO (or min, s, d, or a number of seconds)" % (text, FORMS))
        self.name, self.calculation = fields[1], fields[2] if self.verb == "row" else None
        self.times = fields[3:] if self.verb == "row" else fields[2:]

    def at(self, archive):
        """The same query with its times in milliseconds, of a row with the number of its window."""
        if self.verb == "row":
            self.times = [window_of(archive, self)]
        else:
            self.times = [time_in(archive, text, [self.name]) for text in self.times]
        return self

    def line(self):
        """The query as the program takes it."""
        parts = [self.verb, self.name] + ([self.calculation] if self.calculation else [])
        return ",".join(parts + [str(t) for t in self.times])


def seconds_of(divisor):
    """How many seconds a total is divided by; None if that is no divisor."""
    if divisor in PER:
        return PER[divisor]
    return int(divisor) if divisor.isascii() and divisor.isdigit() and 0 < int(divisor[:12]) and len(divisor) <= 12 else None


def window_of(archive, query):
    """The number of the window of a row: a number as it stands, or that of the window in which a time lies."""
    group, text = archive.groups[query.name], query.times[0]
    if query.calculation not in [calculation["name"] for calculation in group["calc"]]:
        raise refusal("the group %s has no calculation %s; it has %s" % (
            query.name, query.calculation, ", ".join(calculation["name"] for calculation in group["calc"])))
    if text.isdigit():
        return int(text)
    t = time_in(archive, text)
    if t < group["start"]:
        raise refusal("the group %s begins at %s" % (query.name, said(archive, group["start"])))
    return (t - group["start"]) // group["period"]


def said(archive, t):
    """A time as words name it, on the plant's clock."""
    return clock.short_text(t, archive.plant.settings.zone)


def subjects(texts):
    """The queries in texts, and the tags and the groups that they are about."""
    queries = [Query(text) for text in texts]
    return (queries, [query.name for query in queries if query.verb != "row"], [query.name for query in queries if query.verb == "row"])


def answers(archive, queries):
    """The lines of all answers, as HEADER names their fields."""
    asked = [query.at(archive) for query in queries]
    texts = archive.replies([query.line() for query in asked if query.verb != "points"])
    archive.look_up(list({query.name for query in asked if query.verb not in ("row", "points", "snap")}))
    texts = iter(texts)
    for query in asked:
        if query.verb == "points":
            yield from point_lines(archive, query)
        elif query.verb == "row":
            yield row_line(archive, query, next(texts))
        elif query.verb == "snap":
            yield snap_line(archive, query, next(texts))
        else:
            yield value_line(archive, query, next(texts).split())


def iso(archive, t):
    return iso_text(t, archive.plant.settings.zone)


def point_lines(archive, query):
    """A line for each point."""
    for t, v in archive.points(query.name, *query.times):
        yield "point", query.name, iso(archive, t), "", decimal_text(v, archive.scale(query.name)), archive.unit(query.name), ""


def snap_line(archive, query, text):
    """The newest value of a tag, and how many events it took."""
    name, held = query.name, held_in(text)
    time, value = (iso(archive, held[0]), decimal_text(held[1], archive.scale(name))) if held else ("", "")
    return "snap", name, time, "", value, archive.unit(name), "taken=" + text.split()[1]


def value_line(archive, query, words):
    """The line of a value at a time, or of a measure of a window."""
    name, scale, unit = query.name, *measured_in(archive, query.name, query.verb, query.divisor)
    times = [iso(archive, t) for t in query.times] + [""]
    verb = query.verb + ("/" + query.divisor if query.divisor else "")
    value = "" if words[0] == "none" else quotient_text(int(words[-1]), scale)
    note = words[0] if query.verb == "at" else "twice the area" if query.verb == "area" and value else ""
    missing = why_none(archive, query, not value)
    return verb, name, *times[:2], value, unit, "; ".join(filter(None, (note, missing)))


def measured_in(archive, tag, measure, divisor=""):
    """By what a measure of a tag is divided to be in its unit, and that unit. A value at a time is measured as the tag itself."""
    unit = archive.unit(tag)
    if measure == "count":
        return 1, "points"
    if measure == "area":
        return archive.scale(tag), unit and unit + "*ms"
    if measure != "total":
        return archive.scale(tag), unit
    if not divisor:
        return archive.scale(tag), total_unit(unit)
    return archive.scale(tag) * seconds_of(divisor), total_over(unit, divisor)


def quotient_text(value, divisor):
    """A whole number divided, with as many decimals as the divisor has digits behind its first."""
    if 10 ** (len(str(divisor)) - 1) == divisor:
        return decimal_text(value, divisor)
    places = decimal.Decimal(1).scaleb(1 - len(str(divisor)))
    with decimal.localcontext(decimal.Context(prec=60)):
        return str((decimal.Decimal(value) / divisor).quantize(places, decimal.ROUND_HALF_UP))


def why_none(archive, query, is_none):
    """Why there is no value, or why a value is only the newest one going on; empty if neither is so."""
    start, end = query.times[0], query.times[-1]
    if not is_none and query.verb != "at":
        return ""
    held = archive.held(query.name)
    if held is None:
        return "no value was ever fed"
    if end > held[0]:
        return "the newest value is of %s" % said(archive, held[0])
    first = archive.first(query.name) if is_none else None
    return "the first value is of %s" % said(archive, first[0]) if first and start < first[0] else ""


def row_line(archive, query, text):
    """The line of a calculation's value in a window."""
    group, words = archive.groups[query.name], text.split()
    start = group["start"] + query.times[0] * group["period"]
    end, number = start + group["period"], words[0] if len(words) == 1 and words[0] != "none" else ""
    found = quantities(archive, query.name)[query.calculation]
    note = "" if found else "in stored units: the formula mixes scales"
    if words[0] == "bad":
        note = "bad %s: %s" % (words[1], BAD[words[1]])
    elif not number:
        note = incomplete(archive, group, end)
    value = number and (fraction_text(int(number), found.scale) if found else number)
    return "row", query.name + "/" + query.calculation, iso(archive, start), iso(archive, end), value, found.unit if found else "", note


def quantities(archive, group):
    """The quantity of each calculation of a group; None of one that mixes scales."""
    def of_tag(name):
        return Quantity(fractions.Fraction(archive.scale(name)), archive.unit(name))
    found = {}
    for calculation in archive.groups[group]["calc"]:
        found[calculation["name"]] = quantity_of(calculation["formula"], of_tag, found)
    return found


def fraction_text(value, scale):
    """A stored value divided by a scale that may be a fraction."""
    return quotient_text(value * scale.denominator, scale.numerator)


def incomplete(archive, group, end):
    """Why a window has no value yet: the tag that has no kept value at its end or later."""
    for tag in group["tags"]:
        points = points_of(archive.replies(["points,%s,%d,%d" % (tag, end, MOST_TIME)])[0])
        if not [point for point in points if point != archive.held(tag)]:
            return "the window is not complete: %s has no kept value at %s or later yet" % (tag, said(archive, end))
    return "none"


def calendar_of(plant, path):
    """A calendar as its text has it."""
    text = read_toml(plant.path(path))
    try:
        json.dumps(text)
        if not all(type(tag) is str for tag in text["tags"]) or type(text["measure"]) is not str:
            raise TypeError
    except (KeyError, TypeError):
        raise refusal("%s: a calendar has zone, starts, tags and measure (docs/FORMATS.md, The calendar of a plant)" % path) from None
    return text


def shift_lines(archive, calendar, day, days):
    """The lines of a calendar's shifts. A shift in which the newest value lies has its figure until then."""
    measure = calendar["measure"]
    for date, number, start, end, tag, value in archive.shifts(calendar, day, days):
        scale, unit = measured_in(archive, tag, measure)
        note, held = "%s shift %d" % (date, number), archive.held(tag)
        if value is None and held and start < held[0] < end:
            value = archive.measures(measure, tag, (start, held[0]))[0]
            note += ", until %s, the newest value" % said(archive, held[0])
        elif value is None:
            note += ", " + no_figure(archive, tag, start, end)
        yield (measure, tag, iso(archive, start), iso(archive, end), "" if value is None else quotient_text(value, scale), unit, note)


def no_figure(archive, tag, start, end):
    """Why a shift has no figure."""
    query = Query("avg,%s,%d,%d" % (tag, start, end))
    query.times = [start, end]
    return "it does not end after its start" if start >= end else why_none(archive, query, True)


def frame_lines(archive, group, calculation, least, first, last):
    """The lines of a calculation's frames that have something in common with a span of time."""
    for what, start, end, is_open in archive.frames(group, calculation, least):
        if end > first and start < last:
            yield (what, "%s/%s" % (group, calculation), iso(archive, start), iso(archive, end), clock.length_text(end - start), "",
                   "still open" if is_open else "")
