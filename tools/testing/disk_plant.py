"""disk_plant.py: a plant of three tags and a group for the tests of the disk.

The tests read its devices by the rules of docs/FORMATS.md, without the program. All values of a tag come from one collector, so whatever
a stop leaves of a tag has to be the first rows of its file. `pack` finds the line of `check` for those rows, without a device."""
import copy
import os
import random
import shlex
import shutil
import struct
import subprocess

from devices import OPEN, events_in, number
from trial import check_same

TAGS = ("T1", "T2", "T3")
FILES = {"T1": "c1.csv", "T2": "c1.csv", "T3": "c2.csv"}
EXC_DEV, EXC_MAX, COMP_DEV, COMP_MAX = 2, 600_000, 5, 28_800_000
PERIOD, WINDOWS = 60_000, 18
ROWS = 320  # of each tag: several batches of 64, and with a short lane several checkpoints
TAG = '[[tag]]\nname = "%s"\nexc_dev = %d\nexc_max = %d\ncomp_dev = %d\ncomp_min = 0\ncomp_max = %d\n\n'
GROUP = """[[group]]
name = "shift"
tags = ["T1", "T3"]
start = 0
period = %d

[[group.calc]]
name = "mean"
formula = "avg('T1')"

[[group.calc]]
name = "gap"
formula = "avg('T3') - calc('mean')"
""" % PERIOD
PLAN = ('[[collector]]\nfile = "c1.csv"\n\n[[collector]]\nfile = "c2.csv"\n\n[[reader]]\nfile = "asks.csv"\n\n'
        '[[refresher]]\ngroup = "shift"\nturns = 3\n')
ASKS = "".join("snap,%s\n" % name for name in TAGS) + "".join(
    "row,shift,%s,%d\n" % (calc, window) for calc in ("mean", "gap") for window in range(0, WINDOWS, 2))
COMMANDS = {"run": ("run", "base.toml", "plan.toml"), "log": ("log", "base.toml", "plan.toml"),
            "check": ("check", "base.toml"), "trend": ("trend", "base.toml", "plan.toml"), "rows": ("log", "base.toml", "empty.toml"),
            "frames": ("frames", "base.toml", "shift", "mean", "1"),
            "shifts": ("shifts", "base.toml", "calendar.toml", "1971-01-01", "1"), "retune": ("check", "retuned.toml")}
UNITS = {"T1.tag": "tag 1", "T2.tag": "tag 2", "T3.tag": "tag 3", "shift.grp": "group 1", "plant.log": "log"}
KNOWN = {}  # lines and replies that were found already


def base_text(comp_dev=COMP_DEV, names=TAGS):
    """The text of the base; another comp_dev retunes each tag."""
    return "".join(TAG % (name, EXC_DEV, EXC_MAX, comp_dev, COMP_MAX) for name in names) + GROUP


def rows_of(name):
    """The rows of a tag, as times and values; some come late."""
    draw, rows, value = random.Random(name), [], 500
    for step in range(ROWS):
        value += draw.randint(-6, 6)
        late = 9_000 if step % 37 == 20 else 0
        rows.append((3_000 * step - late + draw.randint(10, 900) if step > 4 else 3_000 * step, value))
    return rows


ALL = {name: rows_of(name) for name in TAGS}


NOTHING, HALF, WHOLE = ({name: count for name in TAGS} for count in (0, ROWS // 2, ROWS))


def file_text(file, stored, until):
    """The text of a collector's file without the first rows of each tag that are stored already. Tags in one file take turns."""
    rows = [(place, name, ALL[name][place]) for name in TAGS if FILES[name] == file for place in range(stored[name], until)]
    return "".join("%s,%d,%d\n" % (name, t, v) for _, name, (t, v) in sorted(rows))


def rows_on_log(data):
    """The rows in the bytes of a log: tag, collector, row of its file, time and value."""
    rows, at = [], 9 + number(data, 5, 4)
    while len(data) > 1 and data[0] == OPEN and at < len(data) and data[at] == OPEN:
        count = number(data, at + 9, 4)
        rows += struct.iter_unpack(">IIQQq", data[at + 13:at + 13 + 32 * count])
        at += 13 + 32 * count
    return rows


def new_device(name, slots):
    """The bytes of a tag's new device with so many lane slots; the program itself makes 64."""
    head = b"PHT1" + bytes([len(name)]) + name.encode().ljust(64, b"\0")
    tuning = struct.pack(">5Q", EXC_DEV, EXC_MAX, COMP_DEV, 0, COMP_MAX)
    return (bytes([OPEN]) + head + tuning + struct.pack(">I", slots)).ljust(400 + 1035 * slots, b"\0")


class Plant:
    """The folder of a test's plant, and the program."""

    def __init__(self, folder, program):
        self.folder, self.program = folder, program
        os.makedirs(folder)
        self.write("base.toml", base_text().encode())
        self.write("retuned.toml", base_text(COMP_DEV + 1).encode())
        self.write("plan.toml", PLAN.encode())
        self.write("empty.toml", b"")
        self.write("asks.csv", ASKS.encode())
        self.deliver(NOTHING)

    def copy(self, folder):
        """The same plant in another folder."""
        shutil.copytree(self.folder, folder)
        other = copy.copy(self)
        other.folder = folder
        return other

    def deliver(self, stored, until=ROWS):
        """Writes the collectors' files, up to some row of each tag, without the first rows that are stored already."""
        for file in set(FILES.values()):
            self.write(file, file_text(file, stored, until).encode())

    def path(self, *names):
        """The path of a file in the plant's folder."""
        return os.path.join(self.folder, *names)

    def device(self, name):
        """The path of a device."""
        return self.path("historian.d", name)

    def write(self, name, data):
        with open(self.path(name), "wb") as out:
            out.write(data)

    def read(self, name):
        """The bytes of a file; none if it is missing."""
        try:
            with open(self.path(name), "rb") as data:
                return data.read()
        except FileNotFoundError:
            return b""

    def make_lanes(self, draw):
        """Makes some of the devices with short lanes, so that a session has many checkpoints."""
        os.makedirs(self.path("historian.d"), exist_ok=True)
        for name in TAGS:
            slots = draw.choice((None, 1, 2, 4))
            if slots:
                self.write("historian.d/%s.tag" % name, new_device(name, slots))

    def start(self, *words, under=(), **more):
        """Starts the program, under another one such as strace if asked to: the process."""
        words = [*under, *shlex.split(self.program), *words]
        return subprocess.Popen(words, cwd=self.folder, stdout=subprocess.PIPE, stderr=subprocess.PIPE, text=True, **more)

    def call(self, *words, under=(), **more):
        """Runs the program to its end: exit status, and what it printed."""
        child = self.start(*words, under=under, **more)
        text, told = child.communicate(timeout=120)
        return child.returncode, text + told

    def told(self, verb):
        """Runs a command that has to end well: what it printed."""
        status, text = self.call(*COMMANDS[verb])
        assert status == 0, "%s ends with %d: %s" % (verb, status, text[-2000:])
        return text

    def events(self):
        """How many events each tag's device has."""
        return {name: events_in(self.read("historian.d/%s.tag" % name)) for name in TAGS}

    def lines(self, events):
        """What `check` has to print if each tag took so many first rows."""
        return "".join(self.line(name, events[name]) for name in TAGS)

    def line(self, name, count):
        """The line that `check` has to print for a tag after so many first rows. `pack` finds it."""
        if (name, count) not in KNOWN:
            text = "".join("%d,%d\n" % row for row in ALL[name][:count])
            words = ["pack", *map(str, (EXC_DEV, EXC_MAX, COMP_DEV, 0, COMP_MAX))]
            words = [*shlex.split(self.program), *words]
            told = subprocess.run(words, input=text, capture_output=True, text=True, check=True).stdout
            kept, late = told.count("kept,"), told.count("late,")
            held = told.splitlines()[-1].removeprefix("held,") if count else "none"
            KNOWN[name, count] = "tag %s taken=%d records=%d kept=%d late=%d held=%s\n" % (name, count, kept + late, kept, late, held)
        return KNOWN[name, count]

    def whole(self):
        """The lines of `check` and the replies of `trend` of a plant that nobody stopped."""
        if "whole" not in KNOWN:
            other = Plant(self.path("whole"), self.program)
            other.told("run")
            KNOWN["whole"] = other.told("check"), other.told("trend")
            shutil.rmtree(other.folder)
            assert KNOWN["whole"][0] == self.lines(WHOLE), KNOWN["whole"]
        return KNOWN["whole"]

    def audit(self, least):
        """Fails unless a stop left the first rows of each tag, and at least so many: how many values there are."""
        events = self.events()
        for name in TAGS:
            assert least[name] <= events[name] <= ROWS, "%s has %d of %d acknowledged values" % (name, events[name], least[name])
        check_same(self.told("check"), self.lines(events), "check after a stop")
        replies = self.told("trend").splitlines()
        for place, name in enumerate(TAGS):
            held = self.line(name, events[name]).split("held=")[1].strip()
            wanted = "reply 1 %d snap %d %s" % (place + 1, events[name], held)
            assert replies[place] == wanted, "trend after a stop: %s in place of %s" % (replies[place], wanted)
        return sum(events.values())

    def finish(self):
        """Stores the other rows by another session. Fails unless the plant is then as one that nobody stopped."""
        self.deliver(self.events())
        self.told("run")
        check, trend = self.whole()
        check_same(self.told("check"), check, "check at the end")
        check_same(self.told("trend"), trend, "trend at the end")

    def logged(self):
        """How many rows of each tag the log has. Fails unless they are the first ones of its file."""
        rows = {name: [] for name in TAGS}
        for tag, _, _, t, v in rows_on_log(self.read("historian.d/plant.log")):
            rows[TAGS[tag]].append((t, v))
        for name, mine in rows.items():
            assert mine == ALL[name][:len(mine)], "the rows of %s on the log are not the first ones of its file" % name
        return {name: len(mine) for name, mine in rows.items()}

    def audit_log(self, least):
        """Fails unless a stop of `log` left the first rows of each tag, and at least so many: how many rows there are."""
        counts = self.logged()
        assert all(least[name] <= counts[name] for name in TAGS), "%s rows of %s acknowledged ones" % (counts, least)
        check_same(self.told("rows"), self.lines(counts), "log after a stop")
        return sum(counts.values())

    def finish_log(self):
        """Puts the other rows into the log by another session. Fails unless it then has all."""
        self.deliver(self.logged())
        check_same(self.told("log"), self.lines(WHOLE), "log at the end")
