#!/usr/bin/env python3
"""audit.py: compares the rows that were fed with the archive on the devices, without the program.

    audit.py [TAG..] [--since TIME]

It reads the rows of done/, and the bytes of the devices by docs/FORMATS.md. For each tag it prints the greatest distance of a value from
the archive's line or stair and what is promised there, how many values it looked at, how many came late and whether each of these reads
back exactly, and how many lie where nothing is promised: between late values, and across values that CompMin dropped. With --since it
looks at the turns since that time alone. The last figures stand in feed.d/audit.json, and the board shows them.

Exit status: 0 each value is as promised; 2 wrong words; 20 another process works on the plant; 22 a text or a file cannot be read;
23 a value lies outside, and its row is printed."""
import argparse
import array
import fractions
import json
import os
import sys
import time

from clock import time_of
from compression import LATE, State, Tuning, raw_deviation
from device_reader import Damaged, content, read_device, span_of
from devices import TUNING
from fed_rows import fed_rows, turns_since
from fields import BadField, decimal_text, iso_text
from files import OUTSIDE
from options import parsed
from plant import UNREADABLE, Plant, Refusal, ended, step_of, write_whole
from reading import WAIT, require_devices, shared_locks
from tunings import noted_tunings, tuning_at
from turns import require_scales
from version import version_text

SHOWN = 5         # rows of a tag that are printed
RESULT = ("feed.d", "audit.json")


class Findings:
    """What was found of a tag: how many values were looked at, late, and without a promise; the greatest deviation, and what lies
    outside, each as a line in words."""

    def __init__(self):
        self.looked_at = self.late = self.unpromised = self.more = 0  # numbers of values, and of findings that are not printed
        self.seen, self.promised = fractions.Fraction(0), None
        self.outside = []

    def deviates(self, deviation, promised):
        """A value in order is so far from the line, and so much is promised. Whether it is outside."""
        self.looked_at += 1
        if self.promised is None or deviation * max(1, self.promised) > self.seen * max(1, promised):
            self.seen, self.promised = deviation, promised
        return deviation > promised

    def add(self, text):
        if len(self.outside) < SHOWN:
            self.outside.append(text)
        else:
            self.more += 1


class Told:
    """How numbers of a tag are printed: its values divided by its scale, and times in the plant's zone."""

    def __init__(self, plant, scale):
        self.zone, self.scale = plant.settings.zone, scale

    def value(self, number):
        """A whole value, or a fraction to a thousandth of a stored unit."""
        if fractions.Fraction(number).denominator == 1:
            return decimal_text(int(number), self.scale)
        return decimal_text(round(number * 1000), 1000 * self.scale)

    def row(self, place, t, v):
        return "%s: %s,%s" % (place, iso_text(t, self.zone), self.value(v))


def deviation(left, right, t, v, step):
    """How far a value is from the line between two points, or from the stair of the first: exactly."""
    if t == right[0]:
        return fractions.Fraction(abs(v - right[1]))
    if step or t == left[0]:
        return fractions.Fraction(abs(v - left[1]))
    width = right[0] - left[0]
    return fractions.Fraction(abs((v - left[1]) * width - (right[1] - left[1]) * (t - left[0])), width)


def replayed(device, rows):
    """A tag's state after all of its rows, if it took just these: the times of what CompMin dropped stand there. None if it took others
    too, such as a retuning or rows that are not here."""
    if device.state.taken != len(rows) or not device.made.comp_min:
        return None
    state = State(device.made, device.state.step)
    for t, v in zip(rows.times, rows.values):
        state.take(t, v)
    return state


def late_records(device):
    """The late values that a device has. If the rows before a tag's first one here are not read, they tell which of the first ones came
    late."""
    kinds, times, values = device.all_records()
    return {(t, v) for kind, t, v in zip(kinds, times, values) if kind == LATE}


class Audit:
    """The rows of a tag against its device."""

    def __init__(self, device, notes, rows, told):
        self.device, self.tuning_at, self.rows, self.told = device, tuning_at(device, notes), rows, told
        self.retunings = max(0, len(notes) - 1)
        self.times, self.values, self.is_late = content(device)
        self.found = Findings()
        state = replayed(device, rows) if rows.are_all else None
        self.passed = None if state is None else array.array("q", state.passed)

    def is_clean(self, place):
        """Whether something is promised between a point and the next one."""
        if self.is_late[place] or self.is_late[place + 1]:
            return False
        left, right = self.times[place], self.times[place + 1]
        if self.passed is None:
            return not self.tuning_at(right).comp_min
        first = span_of(self.passed, left) + 1
        return not (first < len(self.passed) and self.passed[first] < right)

    def look(self):
        """Looks at all rows of the tag."""
        newest, last_late = -1 if self.rows.are_all else None, {}
        known = set() if self.rows.are_all else late_records(self.device)
        for place, (t, v) in enumerate(zip(self.rows.times, self.rows.values)):
            if (t, v) in known if newest is None else t <= newest:
                self.found.late += 1
                last_late[t] = place
            else:
                newest = t
                self.look_at(place, t, v)
        self.look_at_late(last_late)
        self.look_at_points()
        return self.found

    def look_at(self, place, t, v):
        """A value that came in order."""
        span = span_of(self.times, t)
        if span < 0:
            self.outside(place, "lies before the first point of the archive")
        elif span == len(self.times) - 1 and t > self.times[-1]:
            self.look_behind(place, t, v)
        elif self.times[span] == t:
            self.look_at_point(place, span, t, v)
        elif not self.is_clean(span):
            self.found.unpromised += 1
        else:
            left, right = ((self.times[k], self.values[k]) for k in (span, span + 1))
            far = deviation(left, right, t, v, self.device.state.step)
            promised = raw_deviation(self.tuning_at(right[0]), self.device.state.step)
            if self.found.deviates(far, promised):
                self.outside(place, "is %s from the archive's %s, and %s is promised" % (
                    self.told.value(far), "stair" if self.device.state.step else "line", self.told.value(promised)))

    def look_at_point(self, place, span, t, v):
        """A value at whose time a point stands: it is that point, unless a late one came for the same time."""
        if self.is_late[span]:
            self.found.unpromised += 1
            return
        self.found.looked_at += 1
        if v != self.values[span]:
            self.outside(place, "is in the archive as %s" % self.told.value(self.values[span]))

    def look_behind(self, place, t, v):
        """A value after the held point."""
        far, promised = abs(v - self.values[-1]), self.device.state.tuning.exc_dev
        if self.is_late[-1]:
            self.found.unpromised += 1
            return
        self.found.looked_at += 1
        if far > promised:
            self.outside(place, "is %s from the newest point of the archive, and %s is promised" % (
                self.told.value(far), self.told.value(promised)))

    def look_at_late(self, last_late):
        """The last late value of each time reads back exactly."""
        for t, place in last_late.items():
            span = span_of(self.times, t)
            there = span >= 0 and self.times[span] == t and self.is_late[span]
            if not (there and self.values[span] == self.rows.values[place]):
                self.outside(place, "came late, and the archive has %s there" % (
                    self.told.value(self.values[span]) if there else "no late value"))

    def look_at_points(self):
        """If the rows are all that the tag took, each point is one of them."""
        if not self.rows.are_all or self.device.state.taken != len(self.rows) + self.retunings:
            return
        rows = set(zip(self.rows.times, self.rows.values))
        for t, v in zip(self.times, self.values):
            if (t, v) not in rows:
                self.found.add("%s: the archive has %s,%s, and none of the rows" % (
                    self.device.name, iso_text(t, self.told.zone), self.told.value(v)))

    def outside(self, place, what):
        self.found.add("%s %s" % (self.told.row(self.rows.place(place), self.rows.times[place], self.rows.values[place]), what))


# What the tool is asked for

def devices_of(plant, names):
    """The devices of tags as they stand now, by name; in place of one that breaks a rule or is missing, the text of a finding."""
    found = {}
    for name in names:
        try:
            found[name] = read_device(plant.path("historian.d", name + ".tag"), name)
        except Damaged as why:
            found[name] = "%s: its device is damaged %s" % (name, why)
        except FileNotFoundError:
            found[name] = "%s: it has no device" % name
    return found


def audited(device, definition, notes, rows, told):
    """What is found of a tag with its device, its rows and the tunings that were noted."""
    name, wanted = definition["name"], Tuning(*(definition[key] for key in TUNING))
    found = Audit(device, notes, rows, told).look()
    for key, has, base in zip(TUNING, device.state.tuning, wanted):
        if has != base:
            found.add("%s: its device has %s = %d in force, and the base of the last feed has %d" % (name, key, has, base))
    if device.state.step != bool(definition.get("step")):
        found.add("%s: its device is of another kind than the base says (lines or steps)" % name)
    if rows.are_all and device.state.taken < len(rows):
        found.add("%s: %d rows were fed, and its device took %d" % (name, len(rows), device.state.taken))
    return found


def line_of(name, found, told, unit):
    """What is printed of a tag."""
    parts = ["%d values" % (found.looked_at + found.late + found.unpromised)]
    if found.promised is not None:
        parts.append("greatest deviation %s of %s%s promised" % (told.value(found.seen), told.value(found.promised), unit and " " + unit))
    if found.late:
        parts.append("%d late" % found.late)
    if found.unpromised:
        parts.append("%d where nothing is promised" % found.unpromised)
    return "%s: %s%s" % (name, ", ".join(parts), "" if not found.outside else ". NOT AS PROMISED:")


def result_of(found, told):
    """What is kept of a tag for the board: its figures as texts and numbers."""
    return {"seen": told.value(found.seen), "promised": None if found.promised is None else told.value(found.promised),
            "values": found.looked_at + found.late + found.unpromised, "late": found.late, "unpromised": found.unpromised,
            "outside": len(found.outside) + found.more, "first": found.outside[0] if found.outside else ""}


def put_result(plant, results):
    """Keeps the figures for the board. Those of other tags stay as they were. Who may not write there audits all the same."""
    try:
        with open(plant.path(*RESULT)) as text:
            kept = json.load(text)
    except (OSError, ValueError):
        kept = {}
    now = int(time.time() * 1000)
    kept.update({name: dict(result, at=now) for name, result in results.items()})
    try:
        os.makedirs(plant.path(RESULT[0]), exist_ok=True)
        write_whole(plant.path(*RESULT), json.dumps(kept, indent=1).encode())
    except OSError as why:
        print("audit.py: the figures are not kept for the board: %s" % why, file=sys.stderr)


def audit(plant, names, since, wait):
    """Audits tags, and prints a line for each and its findings: how many tags are not as promised."""
    require_devices(plant)
    with shared_locks(plant, wait):
        tags, notes = plant.base(plant.fed_base())[0], noted_tunings(plant)
        strange = [name for name in names if name not in tags]
        if strange:
            raise Refusal(UNREADABLE, "the base has no tag %s; it has %s" % (strange[0], ", ".join(tags)))
        require_scales(plant, tags)
        names = names or list(tags)
        devices, turns = devices_of(plant, names), turns_since(plant, since)
    rows = fed_rows(plant, turns, names)
    results, values = {}, 0
    for name in names:
        told = Told(plant, plant.scale(name, tags[name]) or 1)
        found = Findings()
        if isinstance(devices[name], str):
            found.add(devices[name])
        else:
            found = audited(devices[name], tags[name], notes.get(name, ()), rows.of(name), told)
        print("\n  ".join([line_of(name, found, told, step_of(tags[name].get("engunits", ""))[1])] + found.outside
                          + ["and %d more" % found.more] * bool(found.more)), flush=True)
        count = found.looked_at + found.late + found.unpromised
        values += count
        if count or found.outside:
            results[name] = result_of(found, told)
    put_result(plant, results)
    wrong = sum(result["outside"] > 0 for result in results.values())
    print("%d tags, %d values: %s" % (len(names), values, "%d tags are NOT as promised" % wrong if wrong else "each as promised"))
    return wrong


def main():
    parser = argparse.ArgumentParser(description=__doc__, formatter_class=argparse.RawDescriptionHelpFormatter)
    parser.add_argument("tag", nargs="*", help="only these tags")
    parser.add_argument("--since", metavar="TIME", help="only the rows of turns since then (ISO time, today, -8h, ..)")
    parser.add_argument("--plant", default=".", metavar="FOLDER", help="the plant's folder (default: this one)")
    parser.add_argument("--program", metavar="PATH", help="taken as by the other tools, and never called")
    parser.add_argument("--wait", type=float, default=WAIT, metavar="SECONDS", help="for the feeder's turn to end (60)")
    parser.add_argument("--version", action="version", version=version_text("audit.py"))
    given = parsed(parser)
    plant = Plant(given.plant, "historian")
    try:
        since = 0 if given.since is None else time_of(given.since, plant.settings.zone)
    except BadField as why:
        raise Refusal(UNREADABLE, "--since: %s" % why) from None
    return OUTSIDE if audit(plant, given.tag, since, given.wait) else 0


if __name__ == "__main__":
    ended(main)
