"""samples.py: the values of tags in files that were fed, or are about to be: as feed.py reads them, for pictures and for tuning."""
import json
import os

from fields import MOST_TIME
from plant import UNREADABLE, Refusal
from rows import Values, read_values
from turns import TOLD


def values_in(plant, definitions, files):
    """The values of tags in files, in the order in which they are given, and what could not be read of each tag."""
    values, refused = Values(), []
    scales = {name: plant.scale(name, definition) for name, definition in definitions.items()}
    for name in files:
        source, place = source_and_place(plant.settings, name)
        try:
            with open(name, "rb") as data:
                refused += read_values(data.read(), scales, plant.settings, MOST_TIME, values, source, place)
        except OSError as why:
            raise Refusal(UNREADABLE, "%s cannot be read: %s" % (name, why.strerror)) from None
    return values, refused


def source_and_place(settings, path):
    """How a file is read; and if it has lines of a growing file, as a turn left them in done/, what the lines before them said."""
    name = os.path.basename(path)
    try:
        with open(os.path.join(os.path.dirname(path), TOLD)) as text:
            known = [file for file in json.load(text)["files"] if file["name"] == name and "grows" in file]
        growing = [source for source in settings.source if known and source.grows and source.fits(os.path.basename(known[0]["grows"]))]
        if growing:
            return growing[0], {"lines": 1, "header": known[0]["place"]["header"]} if known[0]["from"] else None
    except (OSError, ValueError, KeyError, TypeError):
        pass  # it stands elsewhere
    return settings.source_of(name), None


def left_out(refused, tag):
    """What is to be said of the rows of a tag that could not be read; empty if all could."""
    own = [row for row in refused if row[0] in (tag, "")]
    return "%d rows cannot be read and are left out; row %s: %s" % (len(own), own[0][3], own[0][4]) if own else ""


def late_times(times):
    """The times of the values that come late: not after one that came before."""
    late, newest = set(), -1
    for t in times:
        if t <= newest:
            late.add(t)
        newest = max(newest, t)
    return late
