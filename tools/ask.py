#!/usr/bin/env python3
"""ask.py: asks a plant's archive, and prints CSV (on a terminal columns), with times on the plant's clock and values in their units.

    ask.py QUERY..                                one line for each answer
    ask.py --tags [WORD..]                        a line for each tag: newest value, age, how full it is; WORDs are parts of its name or
                                                  descriptor
    ask.py --csv TAG FROM TO [--every STEP]       the points of a tag, or its values at equal steps
    ask.py --table TAG.. FROM TO [--every STEP]   the same of several tags, with a column for each; with --measure AVG or another
                                                  measure, the measure of each step
    ask.py --shifts CALENDAR DAY [DAYS]           the figures of a calendar's shifts, of the running one until the newest value
    ask.py --frames GROUP CALC LEAST [FROM TO]    when a calculation was true for LEAST windows or more

A query is at,TAG,T  points,TAG,FROM,TO  snap,TAG  avg,TAG,FROM,TO (and area total low high count first last; docs/FORMATS.md)  or
row,GROUP,CALC,T. `total` is value times seconds; total/h is divided by the seconds of an hour, so that of m3/h it is m3 (also /min, /s, /d,
or a number). `area` is twice the area, in value times milliseconds.

A time is ISO 8601, milliseconds, `now`, `today`, `yesterday`, `14:30`, `newest` (the tag's newest value), -8h (before now), today+6h or
newest-1d. A STEP is 500ms, 10s, 15min, 1h, 1d; a number alone is milliseconds.

It asks copies of the devices, which it takes while no turn of the feeder runs. So it changes nothing, and needs no right to write."""
import sys

import answers
import clock
import reading
from fields import MOST_TIME, BadField
from options import parsed, parser_of
from plant import UNREADABLE, Plant, Refusal, ended
from tables import TAGS, Table, export, printed, tag_lines

MODES = {"tags": (0, None), "csv": (3, 3), "table": (3, None), "shifts": (2, 3), "frames": (3, 5)}  # how many words each takes


def step_of(text):
    """A step that a person gave."""
    try:
        return clock.Step(text)
    except BadField as why:
        raise Refusal(UNREADABLE, "--every: %s" % why) from None


def times_of(archive, tags, words):
    """Two times that a person gave, the first before the second or the same."""
    first, last = (answers.time_in(archive, word, tags) for word in words)
    if first > last:
        raise Refusal(UNREADABLE, "FROM is behind TO: %s" % " ".join(words))
    return first, last


def ask_queries(plant, given):
    queries, tags, groups = answers.subjects(given.words)
    with given.opened(plant, tags, groups, given.wait) as archive:
        printed(answers.HEADER, list(answers.answers(archive, queries)))


def ask_tags(plant, given):
    with given.opened(plant, None, (), given.wait, lenient=True) as archive:
        lines = list(tag_lines(archive, given.words, clock.now()))
    if given.words and not lines:
        raise Refusal(UNREADABLE, "no tag has %s in its name or descriptor" % " or ".join(given.words))
    printed(TAGS, lines)


def ask_csv(plant, given):
    tag = given.words[0]
    with given.opened(plant, [tag], (), given.wait) as archive:
        first, last = times_of(archive, [tag], given.words[1:])
        times = given.every and given.every.times(first, last, plant.settings.zone)
        export(archive, tag, first, last, times, given.units)


def ask_table(plant, given):
    *tags, first, last = given.words
    with given.opened(plant, tags, (), given.wait) as archive:
        first, last = times_of(archive, tags, (first, last))
        table = Table(archive, tags, given.measure, given.excel, given.units)
        if not given.every:
            table.points(first, last)
            return
        for tag in table.steps(given.every.times(first, last, plant.settings.zone), last):
            held = archive.held(tag)
            print("%s: %s" % (tag, "the newest value is of %s; fields behind it are empty" % answers.said(archive, held[0]) if held
                              else "no value was ever fed"), file=sys.stderr)


def ask_shifts(plant, given):
    calendar = answers.calendar_of(plant, given.words[0])
    days = int(given.words[2]) if given.words[2:] and given.words[2].isdigit() else 1 if not given.words[2:] else 0
    with given.opened(plant, calendar["tags"], (), given.wait) as archive:
        day = clock.local(answers.time_in(archive, given.words[1]), plant.settings.zone).date()
        if not 1 <= days <= 366:
            raise Refusal(UNREADABLE, "DAYS is a number from 1 to 366, and not %s" % given.words[2])
        printed(answers.HEADER, list(answers.shift_lines(archive, calendar, day.isoformat(), days)))


def ask_frames(plant, given):
    group, calculation, least, *times = given.words
    if not least.isdigit() or not 1 <= int(least) <= 1_000_000 or len(times) == 1:
        raise Refusal(UNREADABLE, "--frames takes GROUP CALC LEAST, LEAST being a number of windows from 1, and optionally FROM and TO")
    with given.opened(plant, [], [group], given.wait) as archive:
        span = times_of(archive, [], times) if times else (0, MOST_TIME)
        printed(answers.HEADER, list(answers.frame_lines(archive, group, calculation, int(least), *span)))


def add_words(parser):
    """Adds what says what is asked."""
    parser.add_argument("words", nargs="*", metavar="WORD", help="queries, or what the option takes")
    one = parser.add_mutually_exclusive_group()
    for mode, about in (("tags", "a line for each tag"), ("csv", "export a tag"), ("table", "export several tags"),
                        ("shifts", "figures of shifts"), ("frames", "frames of a calculation")):
        one.add_argument("--" + mode, dest="mode", action="store_const", const=mode, help=about)
    parser.add_argument("--every", metavar="STEP", help="with --csv or --table: values at equal steps in place of points")
    parser.add_argument("--measure", metavar="MEASURE", help="with --table and --every: avg, low, high, total/h .. of each step")
    parser.add_argument("--excel", action="store_true", help="with --table: local times without an offset, which stands beside them; the"
                        " separator and the decimal mark of feed.toml")
    parser.add_argument("--no-units", dest="units", action="store_false", help="with --csv or --table: no units in the header, so that"
                        " feed.py takes the file")


def answer(plant, parser, given, opened):
    """Prints what is asked of a plant, which `opened` opens as reading.opened does."""
    least, most = MODES.get(given.mode, (1, None))
    if len(given.words) < least or most is not None and len(given.words) > most:
        parser.error("look at the forms above: so many words are too few or too many")
    if given.every is not None and given.mode not in ("csv", "table") or given.excel and given.mode != "table" or (
            given.measure and not (given.every and given.mode == "table")):
        parser.error("--every goes with --csv or --table, --excel with --table, --measure with --table and --every")
    if given.measure:
        answers.Query("%s,TAG,0,1" % given.measure)
    given.every, given.opened = given.every and step_of(given.every), opened
    asked = {None: ask_queries, "tags": ask_tags, "csv": ask_csv, "table": ask_table, "shifts": ask_shifts, "frames": ask_frames}
    return asked[given.mode](plant, given)


def main():
    parser = parser_of(__doc__)
    add_words(parser)
    given = parsed(parser)
    return answer(Plant(given.plant, given.program), parser, given, reading.opened)


if __name__ == "__main__":
    ended(main, "Nothing was changed.")
