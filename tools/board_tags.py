"""board_tags.py: what a board has of a tag: its points in files of a month each, its windows for long times, and its row in the table.

A tag's folder on the board has `head.js`, with all but the points, and a file of points for each month. A month with very many points is
parted into ten days, days or hours. A tag with very many points has finer windows too (fine_windows.py). A tag that has nothing new is not
written again, and of another one only what is new is read and written, as long as its points go on in order. A late value may change any
window, so its tag is written anew."""
import bisect
import calendar
import collections
import datetime
import json
import operator
import os
import shutil

from compression import LATE, State, Tuning, raw_deviation
from device_reader import content, read_device
from devices import TAG_RECORDS
from fine_windows import FineWindows, fine_width, read_fine
from line_windows import Windows, width_for
from tunings import stretches

FORM = 2                    # of the files of a board; a board of another form is written anew
SMALL, MONTHS = 20_000, 36  # points, and files of points: a tag with more gets windows
WINDOWS = 2_000             # of a tag's whole time, at most
SPARK, SPARKS = 1_200_000, 72  # the windows of the last day in the table: how wide, how many
PART = 50_000               # points in a file; where a month, ten days or a day have more, they are parted
LENGTHS = (7, 9, 10, 13)    # of 2024-03, 2024-03-0 (its days until the 9th), 2024-03-05, 2024-03-05T07
DAYS = 30                   # by whose records the table tells when a device is full
HOUR, DAY = 3_600_000, 86_400_000


class TagPages:
    """The folder of a tag on a board, and what stands there of the tag."""

    def __init__(self, board, name):
        self.name, self.folder = name, os.path.join(board, "tags", name + ".d")
        self.known = self.windows = self.fine = self.spark = None
        self.parts, self.unclean, self.days, self.late = [], [], {}, 0

    # What stands there

    def read(self, step):
        """Reads what an earlier writing left; whether it can be gone on with."""
        try:
            with open(os.path.join(self.folder, "head.js")) as text:
                head = json.loads(text.read().removeprefix("board.head(").removesuffix(")\n"))
            if head["form"] != FORM:
                return False
            self.known = state_of(head["state"], step)
            self.windows = Windows(step=step, **head["kept"]) if head["kept"] else None
            self.fine = read_fine(self.folder, step, head["fine"]) if head["fine"] else None
            self.spark = Windows(step=step, **head["spark"])
            self.parts, self.unclean, self.days, self.late = head["parts"], head["unclean"], dict(head["days"]), head["late"]
        except (OSError, ValueError, KeyError, TypeError):
            return False
        return True

    def write(self, name, text):
        """Puts a file of the tag in its place, whole."""
        path = os.path.join(self.folder, name)
        with open(path + ".new", "w") as out:
            out.write(text)
        os.replace(path + ".new", path)

    # The points

    def begin(self):
        """Removes the points that stand there: all are written anew."""
        shutil.rmtree(self.folder, ignore_errors=True)
        os.makedirs(self.folder)
        self.known, self.parts, self.unclean = None, [], []

    def put_points(self, times, values, is_late):
        """Writes points that come after those that stand there."""
        start = 0
        for key, end in keys_of(times, self.parts[-1][0] if self.parts else ""):
            late = [place for place in range(start, end) if is_late[place]] if is_late else []
            self.put_part(key, times[start:end], values[start:end], [place - start for place in late])
            start = end

    def put_part(self, key, times, values, late):
        """Writes points into the file of their month, behind those that are there: how much later each is than the one before, and the
        values."""
        goes_on = bool(self.parts) and self.parts[-1][0] == key
        later = [times[0] - (self.parts[-1][4] if goes_on else 0), *map(operator.sub, times[1:], times)]
        numbers = [str(list(column))[1:-1].replace(" ", "") for column in (later, values)]
        if goes_on:
            part = self.parts[-1]
            with open(os.path.join(self.folder, key + ".js")) as text:
                numbers = [first_numbers(there[1:-2], part[1]) + "," + new for there, new in zip(text.read().split("\n")[1:3], numbers)]
            part[1], part[4], part[5], part[6] = part[1] + len(times), times[-1], values[-1], 0
        else:
            ends = [times[0], values[0], times[-1], values[-1], int(late[-1:] == [len(times) - 1])]
            self.parts.append([key, len(times), *ends])
        self.write(key + ".js", 'board.part("%s",%s,\n"%s",\n"%s")\n' % (key, json.dumps(late), *numbers))

    def fits(self, times, held):
        """Whether points go on where those stand that are there: behind the last one, which did not come late, in a file that does not
        become too large, and in few enough windows, the held one too."""
        if not self.parts:
            return False
        last = self.parts[-1]
        if times and (times[0] <= last[4] or last[6] or last[1] + len(times) > PART):
            return False
        if self.windows is None:
            return not self.is_large(len(times))
        width = fine_width(self.windows.width, WINDOWS, self.count() + len(times))
        return held[0] // self.windows.width - self.windows.first < WINDOWS and width == (self.fine and self.fine.width)

    def is_large(self, more=0):
        """Whether the page would have to load too much to show the whole time from points. Then it gets windows."""
        return self.count() + more > SMALL or len(self.parts) > MONTHS

    def count(self):
        """How many points the files have."""
        return sum(part[1] for part in self.parts)

    def go_on(self, device):
        """Adds what is new of a device; whether that was possible."""
        kinds, times, values = device.all_records()
        if LATE in kinds or not self.fits(times, device.state.held):
            return False
        self.put_points(times, values, None)
        for windows in filter(None, (self.windows, self.fine, self.spark)):
            windows.add(times, values)
        if self.fine:
            self.fine.put(self, device.state.held, [])
        self.spark.forget(SPARKS)
        self.count_days(times)
        return True

    def write_anew(self, device):
        """Writes all points of a device."""
        times, values, is_late = content(device, with_held=False)
        held, step = device.state.held, device.state.step
        self.begin()
        self.write("bars.js", "board.bars([])\n")
        self.put_points(times, values, is_late if 1 in is_late else None)
        self.windows, self.fine, self.spark, self.days = None, None, Windows(SPARK, step), {}
        if self.is_large():
            self.windows = Windows(width_for(held[0] - times[0], WINDOWS), step)
            self.windows.add(times, values)
            self.unclean = unclean_windows(times, is_late, held, self.windows.width) if 1 in is_late else []
            self.put_fine(times, values, is_late, held)
        before = times[-1] - DAY - 2 * SPARK if times else 0  # the first windows are forgotten: all that stay are whole
        since = max(0, bisect.bisect_left(times, before) - 1)
        self.spark.add(times[since:], values[since:])
        self.spark.forget(SPARKS)
        self.count_days([t for t in device.all_records()[1] if t >= held[0] - (DAYS + 1) * DAY] if held else [])

    def put_fine(self, times, values, is_late, held):
        """Writes the finer windows of all points, if these are many enough."""
        width = fine_width(self.windows.width, WINDOWS, len(times))
        if width:
            self.fine = FineWindows(width, self.windows.step)
            self.fine.add(times, values)
            self.fine.put(self, held, unclean_windows(times, is_late, held, width) if 1 in is_late else [])

    def count_days(self, times):
        """Counts the records of each of the last days."""
        for day, count in collections.Counter(t // DAY for t in times).items():
            self.days[day] = self.days.get(day, 0) + count
        for day in [day for day in self.days if day < max(self.days) - DAYS]:
            del self.days[day]

    def rate(self, held):
        """How many records a day the tag got of late; None if it is too young to tell."""
        span = min(DAYS * DAY, held[0] - self.parts[0][2]) if held and self.parts else 0
        if span < HOUR:
            return None
        since = (held[0] - span) // DAY
        return sum(count for day, count in self.days.items() if day >= since) * DAY / span

    def head(self, device, notes):
        """All but the points, as the tag's page takes it."""
        state = device.state
        windows = self.windows
        return {"form": FORM, "state": kept_state(state), "kept": windows and windows.kept(), "tail": windows and windows.tail(state.held),
                "fine": self.fine and self.fine.about(), "spark": self.spark.kept(), "parts": self.parts,
                "unclean": self.unclean, "days": sorted(self.days.items()), "held": state.held, "newest": state.newest(),
                "promises": promises(device, notes)}


def first_numbers(text, count):
    """The first of the numbers in a text. A board that was stopped may have left more of them than its head counts."""
    return text if text.count(",") < count else ",".join(text.split(",", count)[:count])


def unclean_windows(times, is_late, held, width):
    """The windows between late points, where nothing is promised: the first and the last one of each stretch of them."""
    found, ends = [], list(times[1:]) + ([held[0]] if held[0] > times[-1] else [])
    for place, end in enumerate(ends):
        if is_late[place] or place + 1 < len(times) and is_late[place + 1]:
            first, last = times[place] // width, end // width
            if found and first <= found[-1][1] + 1:
                found[-1][1] = last
            else:
                found.append([first, last])
    return found


def state_of(kept, step):
    """The state of a tag as an earlier writing kept it."""
    state = State(Tuning(*kept["tuning"]), step)
    for key in ("taken", "records"):
        setattr(state, key, kept[key])
    for key in ("held", "pending", "hinge", "upper", "lower"):
        setattr(state, key, kept[key] and tuple(kept[key]))
    return state


def kept_state(state):
    """The state of a tag as it is kept for the next writing."""
    kept = {key: getattr(state, key) for key in ("taken", "records", "held", "pending", "hinge", "upper", "lower")}
    return dict(kept, tuning=list(state.tuning))


def moment(t):
    """A time as ISO text in UTC, without what is finer than an hour."""
    return datetime.datetime.fromtimestamp(t // 1000, datetime.timezone.utc).strftime("%Y-%m-%dT%H")


def next_begin(key):
    """When the month, the ten days, the day or the hour after a key begin, in milliseconds."""
    if len(key) >= 10:
        begin = datetime.datetime.strptime(key, "%Y-%m-%dT%H"[:8 if len(key) == 10 else None]).replace(tzinfo=datetime.timezone.utc)
        return int(begin.timestamp()) * 1000 + (DAY if len(key) == 10 else HOUR)
    year, month, day = int(key[:4]), int(key[5:7]), 10 * int(key[8:] or 9) + 10
    if day > calendar.monthrange(year, month)[1]:
        year, month, day = year + month // 12, month % 12 + 1, 1
    return 10**15 if year > 9999 else int(datetime.datetime(year, month, day, tzinfo=datetime.timezone.utc).timestamp()) * 1000


def keys_of(times, last):
    """The files into which points go, and up to which place: a month each, or less where a file would be too large. `last` is the newest
    file that is there, which may be one of a day already."""
    start = 0
    while start < len(times):
        text, length = moment(times[start]), 0
        if last and text.startswith(last[:7]):
            length = LENGTHS.index(len(last))
        while True:
            key = text[:LENGTHS[length]]
            end = bisect.bisect_left(times, next_begin(key), start)
            if end - start <= PART or length == len(LENGTHS) - 1:
                break
            length += 1
        yield key, end
        start, last = end, key


def promises(device, notes):
    """After which time which deviations are promised: the time, CompDev, the wider one of raw values, and 0 where CompMin may have dropped
    values, so that nothing is promised."""
    return [[after, tuning.comp_dev, raw_deviation(tuning, device.state.step), int(tuning.comp_min == 0)]
            for after, tuning in stretches(device, notes)]


def written(board, name, path, notes, anew, about):
    """Writes what is new of a tag into its folder: its row for the table. With `anew` all is written. `about` is what the base and feed.toml
    say of the tag, for its page."""
    pages = TagPages(board, name)
    device = None
    if not anew and pages.read(bool(about["step"])) and pages.parts:
        device = read_device(path, name, pages.known)
    if device is None or not pages.go_on(device):
        device = read_device(path, name)
        pages.write_anew(device)
    head, state = pages.head(device, notes), device.state
    late = late_count(device, pages)
    row = dict(about, name=name, taken=state.taken, records=state.records, late=late, held=state.held, newest=state.newest(),
               rate=pages.rate(state.held), limit=TAG_RECORDS, spark=pages.spark.whole(state.held))
    head.update({key: value for key, value in row.items() if key != "spark"})
    pages.write("head.js", "board.head(%s)\n" % json.dumps(head, separators=(",", ":")))
    return row


def late_count(device, pages):
    """How many late records a tag has. Where only new records were read, none of these is late."""
    return device.all_records()[0].count(LATE) if device.first == 0 else pages.late
