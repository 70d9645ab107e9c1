"""clock.py: times and lengths of time as people say them, and the local clock.

A time is ISO 8601, a whole number of milliseconds since 1970, or one of `now`, `today` and `yesterday` (midnight), `newest` (of the newest
value of the tag that is asked about), `14:30` (today). Behind a word may stand lengths: `today+6h`, `newest-30min`; `-8h` is `now-8h`. A
length is a number with ms, s, min (or m), h, d or w; without a unit it is milliseconds. A day and a week go by the local clock: `-1d` is
the same time yesterday, also in a night in which the clock changes."""
import re
import time
import zoneinfo

import fields
from fields import EPOCH, MILLISECOND, BadField

SECOND, MINUTE, HOUR, DAY = 1_000, 60_000, 3_600_000, 86_400_000
UNITS = {"": 1, "ms": 1, "s": SECOND, "min": MINUTE, "m": MINUTE, "h": HOUR, "d": DAY, "w": 7 * DAY}
LENGTH = re.compile(r"(\d{1,15})(ms|s|min|m|h|d|w|)")
SPOKEN = re.compile(r"(now|today|yesterday|newest|\d\d:\d\d(?::\d\d)?|)((?:[+-]\d{1,15}(?:ms|s|min|m|h|d|w))*)")
FORMS = "an ISO time, milliseconds, now, today, yesterday, newest, 14:30, -8h or today+6h"


def now():
    """The time on this machine's clock, in milliseconds."""
    return int(time.time() * 1000)


def local(t, zone):
    """A time on the local clock, or on that of UTC without a zone."""
    moment = EPOCH + t * MILLISECOND
    return moment.astimezone(zoneinfo.ZoneInfo(zone)) if zone else moment


def offset(t, zone):
    """How many milliseconds the local clock is ahead of UTC."""
    return local(t, zone).utcoffset() // MILLISECOND


def midnight(t, zone):
    """When the day of a time began on the local clock."""
    return milliseconds_of(local(t, zone).replace(hour=0, minute=0, second=0, microsecond=0))


def milliseconds_of(moment):
    """A moment in milliseconds."""
    return (moment - EPOCH) // MILLISECOND


def later(t, count, unit, zone):
    """A time so many units later, or earlier if the count is below 0. Days and weeks go by the local clock."""
    if unit not in ("d", "w"):
        return t + count * UNITS[unit]
    try:
        return milliseconds_of(local(t, zone) + count * UNITS[unit] * MILLISECOND)
    except OverflowError:
        raise BadField("a time before 1970 or after 9999") from None


def time_of(text, zone, at=None, newest=None):
    """The time that a person means, in milliseconds. `at` is taken for now; `newest` is called for the time of the newest value."""
    text, at = text.strip(), now() if at is None else at
    match = SPOKEN.fullmatch(text)
    if not text or not match:
        return fields.milliseconds(text, zone)
    word, lengths = match.groups()
    t = beginning(word, zone, at, newest)
    for sign, count, unit in re.findall(r"([+-])(\d+)([a-z]+)", lengths):
        t = later(t, int(sign + count), unit, zone)
    return fields.within_time(t, text)


def beginning(word, zone, at, newest):
    """The time of a word."""
    if word == "newest":
        if newest is None:
            raise BadField("`newest` is the time of a tag's newest value, and here is no tag")
        return newest()
    if word in ("", "now"):
        return at
    if word in ("today", "yesterday"):
        return later(midnight(at, zone), -1 if word == "yesterday" else 0, "d", zone)
    clock = [int(part) for part in (word + ":00").split(":")[:3]]
    if clock[0] > 23 or max(clock) > 59:
        raise BadField("no time of a clock: %r" % word)
    return fields.milliseconds("%sT%02d:%02d:%02d" % (local(at, zone).date(), *clock) + ("" if zone else "Z"), zone)


class Step:
    """A step from time to time: how many, and of which unit."""

    def __init__(self, text):
        match = LENGTH.fullmatch(text.strip())
        if not match or not int(match[1]):
            raise BadField("no length of time: %r (for example 500ms, 10s, 15min, 1h, 1d)" % text)
        self.count, self.unit = int(match[1]), match[2]

    def times(self, first, last, zone):
        """The times from the first to the last, a step apart. Those of days and weeks are at the same time of the local clock each."""
        if self.unit not in ("d", "w"):
            return range(first, last + 1, self.count * UNITS[self.unit])
        found = []
        while (t := later(first, len(found) * self.count, self.unit, zone)) <= last:
            found.append(t)
        return found


def spreadsheet_text(t, zone, decimal):
    """A time on the local clock as a spreadsheet reads it: without an offset, and with milliseconds only if there are some."""
    moment = local(t, zone).replace(tzinfo=None)
    return moment.strftime("%Y-%m-%d %H:%M:%S") + ("%s%03d" % (decimal, t % 1000) if t % 1000 else "")


def offset_text(t, zone):
    """How far the local clock is ahead of UTC: +01:00."""
    minutes = offset(t, zone) // MINUTE
    return "%s%02d:%02d" % ("-" if minutes < 0 else "+", *divmod(abs(minutes), 60))


def short_text(t, zone):
    """A time as words name it: without milliseconds if there are none, with the offset."""
    moment = local(t, zone)
    text = moment.replace(tzinfo=None).isoformat(sep=" ", timespec="milliseconds" if t % 1000 else "seconds")
    return text + (offset_text(t, zone) if zone else "Z")


def length_text(milliseconds):
    """A length of time in the two largest units that it has: 3d 4h."""
    left, words = abs(milliseconds), []
    for unit, size in (("d", DAY), ("h", HOUR), ("min", MINUTE), ("s", SECOND)):
        count, left = divmod(left, size)
        if count or words:
            words.append("%d%s" % (count, unit) if count else "")
        if len(words) == 2:
            break
    return ("-" if milliseconds < 0 else "") + (" ".join(filter(None, words)) or "0s")
