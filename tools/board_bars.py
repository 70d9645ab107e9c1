"""board_bars.py: the shifts and the frames that stand below a tag's trend on a board. The program answers, as for ask.py.

feed.toml names them: `calendar = "calendar.toml"`, and `frames = [["unit1", "hot", 2]]` for the frames of a calculation of at least so many
windows."""
import json

import clock
import reading
from answers import calendar_of, measured_in, quotient_text
from plant import UNREADABLE, Refusal

DAYS = 366  # that are shown, and that the program answers at once


def asked_for(plant):
    """The calendar of feed.toml, and the calculations whose frames are shown: group, calculation, least windows."""
    calendar = calendar_of(plant, plant.settings.calendar) if plant.settings.calendar else None
    tags, groups = plant.base(plant.fed_base())
    for group, calculation, _ in plant.settings.frames:
        if calculation not in [each["name"] for each in groups.get(group, {"calc": ()})["calc"]]:
            raise Refusal(UNREADABLE, "feed.toml: frames: the base has no calculation %s of a group %s" % (calculation, group))
    return calendar, plant.settings.frames, groups


def tags_with_bars(plant):
    """The tags below whose trends bars stand."""
    calendar, frames, groups = asked_for(plant)
    return set(calendar["tags"] if calendar else ()) | {name for group, _, _ in frames for name in groups[group]["tags"]}


def bars_of(plant, wait):
    """The bars of each tag: lists of a title, and of from when to when each goes, with its text."""
    calendar, frames, groups = asked_for(plant)
    tags, bars = tags_with_bars(plant), {}
    with reading.opened(plant, tags, {group for group, _, _ in frames}, wait) as archive:
        for group, calculation, least in frames:
            spans = [[start, end, "still open" if is_open else ""] for what, start, end, is_open in archive.frames(group, calculation, least)
                     if what == "frame"]
            for name in groups[group]["tags"]:
                bars.setdefault(name, []).append({"title": "%s/%s" % (group, calculation), "spans": spans})
        for name, spans in (shift_spans(archive, calendar) if calendar else {}).items():
            bars.setdefault(name, []).append({"title": "shifts, %s" % calendar["measure"], "spans": spans})
    return bars


def shift_spans(archive, calendar):
    """The shifts of the last days, for each tag of a calendar with its figure."""
    newest = max((held[0] for held in map(archive.held, calendar["tags"]) if held), default=None)
    found = {name: [] for name in calendar["tags"]}
    if newest is None:
        return found
    first = min(point[0] for point in map(archive.first, calendar["tags"]) if point)
    zone, measure = archive.plant.settings.zone, calendar["measure"]
    day = clock.local(max(newest - (DAYS - 3) * clock.DAY, first - clock.DAY), zone).date()
    days = min(DAYS, (clock.local(newest, zone).date() - day).days + 2)
    for _, _, start, end, tag, value in archive.shifts(calendar, day.isoformat(), days):
        scale, unit = measured_in(archive, tag, measure)
        held, text = archive.held(tag), ""
        if value is None and held and start < held[0] < end:
            value, text = archive.measures(measure, tag, (start, held[0]))[0], ", until the newest value"
        if start < end and held and start < held[0]:
            found[tag].append([start, end, "" if value is None else ("%s %s" % (quotient_text(value, scale), unit)).strip() + text])
    return found


def write_bars(pages, bars):
    """Writes the bars of a tag, if there are any."""
    pages.write("bars.js", "board.bars(%s)\n" % json.dumps(bars, separators=(",", ":")))
