"""trial.py: a generated plant for the tests of the tools, and ways to stop a feed.

The plant has eight tags, whose values come in files as loggers write them. What it has to answer is found without the tools: the program
takes the same rows as whole numbers from one collector's file."""
import contextlib
import datetime
import fcntl
import io
import os
import random
import re
import shlex
import shutil
import signal
import subprocess
import sys
import threading
import time
import types

HERE = os.path.dirname(os.path.abspath(__file__))
TOOLS = os.path.dirname(HERE)
START, MINUTE, HOUR = 1_711_670_400_000, 60_000, 3_600_000  # 2024-03-29 00:00 UTC; clocks go forward on the 31st
ZONE = datetime.timezone(datetime.timedelta(hours=1))
LINES = {"FIC1.PV": 100, "FIC2.PV": 100, "TIC3.PV": 1000, "LIC4.PV": 1, "PIC5.PV": 10, "QIC6.PV": 100}
STAMP = re.compile(r"^\d{4}-\d\d-\d\d \d\d:\d\d:\d\d[+-]\d{4} ", re.M)  # what a line of a log begins with
REFUSED = 24  # the exit status of a feed that stored the good rows alone
STEPS = {"XV7.ZSO": 1, "XV8.ZSO": 1}
WIDE = ("TIC3.PV", "LIC4.PV", "XV8.ZSO")  # these come in wide files, the others in files of one value a line
TAG = '[[tag]]\nname = "%s"\nexc_dev = %d\nexc_max = 600_000\ncomp_dev = %d\ncomp_min = 0\ncomp_max = 28_800_000\n%s\n'
GROUP = """[[group]]
name = "unit"
tags = ["FIC1.PV", "TIC3.PV"]
start = %d
period = 900_000

[[group.calc]]
name = "flow"
formula = "avg('FIC1.PV')"

[[group.calc]]
name = "hot"
formula = "avg('TIC3.PV') > 20100"
""" % START


def base_text(comp_dev=30, names=(*LINES, *STEPS), group=GROUP):
    """The text of a base with these tags."""
    return "".join(TAG % (name, 10, comp_dev, "step = true\n" if name in STEPS else "") for name in names) + group


def feed_text(rows_a_run=4_000_000):
    """The text of a feed.toml that gives each tag its scale."""
    scales = "".join('[tag."%s"]\nscale = %d\n' % item for item in (LINES | STEPS).items())
    return "rows_a_run = %d\nsettle_seconds = 0\n%s" % (rows_a_run, scales)


def block_rows(block, hours=6, every=3 * MINUTE):
    """The rows of a block of hours, as time, tag and whole value, in the order in which loggers hand them over; some are late."""
    draw, rows, late = random.Random(1000 + block), [], []
    for step in range(hours * HOUR // every):
        t = START + block * hours * HOUR + step * every
        for place, name in enumerate(LINES):
            row = t + place, name, 20_000 + 150 * ((step // 20 + place) % 5) + draw.randint(-14, 14)
            (late if place < 2 and step % 41 == 7 else rows).append(row)
        if step % 30 == block % 30:
            rows += [(t + 10, "XV7.ZSO", draw.choice((0, 50, 100))), (t + 11, "XV8.ZSO", draw.choice((0, 1)))]
    return rows + late


def decimal(value, scale):
    """A whole value as a logger writes it."""
    digits = len(str(scale)) - 1
    return "%d.%0*d" % (value // scale, digits, value % scale) if digits else str(value)


def iso(t):
    """A time as a logger writes it, with an offset."""
    return datetime.datetime.fromtimestamp(t / 1000, ZONE).isoformat(timespec="milliseconds")


def block_files(block, hours=6, every=3 * MINUTE):
    """The two files of a block, as names with texts; and their rows in the order in which they are fed."""
    rows = block_rows(block, hours, every)
    scales = LINES | STEPS
    long = [row for row in rows if row[1] not in WIDE]
    wide = [row for row in rows if row[1] in WIDE]
    first = "".join("%s,%s,%s\n" % (name, iso(t), decimal(v, scales[name])) for t, name, v in long)
    second = "time,%s\n" % ",".join(WIDE) + "".join(
        iso(t) + "".join("," + (decimal(v, scales[name]) if name == tag else "") for tag in WIDE) + "\n" for t, name, v in wide)
    return {"%02d-a.csv" % block: first, "%02d-b.csv" % block: second}, long + wide


class Folder:
    """The folder of a test, in `folder`."""

    def path(self, *names):
        """The path of a file in the plant's folder."""
        return os.path.join(self.folder, *names)

    def write(self, name, text):
        with open(self.path(name), "w") as out:
            out.write(text)

    def read(self, name):
        with open(self.path(name)) as text:
            return text.read()


class Trial(Folder):
    """The folder of a test's plant, and the program."""

    def __init__(self, folder, program, rows_a_run=4_000_000):
        self.folder, self.program = folder, program
        os.makedirs(os.path.join(folder, "inbox"))
        self.write("base.toml", base_text())
        self.write("feed.toml", feed_text(rows_a_run))
        self.rows, self.blocks = [], []

    def deliver(self, block, **sizes):
        """Puts the files of a block into the inbox, and notes its rows."""
        files, rows = block_files(block, **sizes)
        for name, text in files.items():
            self.write(os.path.join("inbox", name), text)
        self.rows += rows
        self.blocks.append(block)

    def words(self, *given, how=None):
        """The command that runs feed.py. `how` names what stopper.py does to the program's `run`."""
        stopper = [] if how is None else [sys.executable, os.path.join(HERE, "stopper.py"), how]
        program = shlex.join(stopper + shlex.split(self.program))
        return [sys.executable, os.path.join(TOOLS, "feed.py"), *given, "--wait", "0.3", "--program", program, self.folder]

    def feed(self, *given, how=None, under=()):
        """Runs feed.py to its end, under another program such as strace if asked to: exit status, and what it printed."""
        child = subprocess.run([*under, *self.words(*given, how=how)], capture_output=True, text=True)
        return child.returncode, without_stamps(child.stdout + child.stderr)

    def fed(self, *given, ends=0):
        """Runs feed.py, which has to end well, or with the given status: what it printed."""
        status, text = self.feed(*given)
        assert status == ends, "feed.py %s ends with %d: %s" % (given, status, text)
        return text

    def tool(self, name, *given):
        """Runs another tool in the plant's folder: exit status, and what it printed."""
        words = [sys.executable, os.path.join(TOOLS, name), "--program", self.program, *given]
        child = subprocess.run(words, cwd=self.folder, capture_output=True, text=True)
        return child.returncode, child.stdout + child.stderr

    def by_hand(self, *words):
        """Runs the program by hand, which has to end well: what it printed."""
        child = subprocess.run([*shlex.split(self.program), *words], cwd=self.folder, capture_output=True, text=True)
        if child.returncode:
            raise AssertionError("%s: exit %d, %s" % (words, child.returncode, child.stdout + child.stderr))
        return child.stdout

    def store_by_hand(self, rows):
        """Stores rows by the program alone."""
        self.write("mine.csv", "".join("%s,%d,%d\n" % (name, t, v) for t, name, v in rows))
        self.write("mine.toml", '[[collector]]\nfile = "mine.csv"\n')
        self.by_hand("run", "base.toml", "mine.toml")

    def answers(self, base="base.toml"):
        """The lines of `check`, and the replies of `trend` to questions about each tag and each seventh window of the group."""
        last = START + 73 * HOUR
        asks = []
        for name in (*LINES, *STEPS):
            asks += ["points,%s,%d,%d" % (name, START + h * HOUR, START + h * HOUR + 6 * HOUR) for h in range(0, 73, 6)]
            asks += ["avg,%s,%d,%d" % (name, START + HOUR, START + 5 * HOUR), "at,%s,%d" % (name, last), "snap,%s" % name]
        for calc in ("flow", "hot") if "[[group]]" in self.read(base) else ():
            asks += ["row,unit,%s,%d" % (calc, k) for k in range(0, 290, 7)]
        self.write("questions.csv", "\n".join(asks) + "\n")
        self.write("questions.toml", '[[reader]]\nfile = "questions.csv"\n')
        return self.by_hand("check", base) + self.by_hand("trend", base, "questions.toml")


def without_stamps(text):
    """What was printed, without the date and the time before each line of a log."""
    return STAMP.sub("", text)


INSIDE = threading.Lock()  # a case holds it while it calls functions of the tools itself


@contextlib.contextmanager
def printed():
    """Catches what functions of the tools print. One case at a time, because there is one standard output."""
    with INSIDE, contextlib.redirect_stdout(io.StringIO()) as said:
        yield types.SimpleNamespace(getvalue=lambda: without_stamps(said.getvalue()))


KNOWN = {}  # the answers of plants that took some rows, found already


def expected(folder, program, rows):
    """The answers of a plant in which the program alone took these rows, from one collector."""
    if tuple(rows) in KNOWN:
        return KNOWN[tuple(rows)]
    plant = Trial(folder, program)
    plant.store_by_hand(rows)
    KNOWN[tuple(rows)] = plant.answers()
    shutil.rmtree(folder)
    return KNOWN[tuple(rows)]


def children(process):
    """The processes that another one started."""
    found = []
    for name in filter(str.isdigit, os.listdir("/proc")):
        try:
            with open("/proc/%s/stat" % name) as text:
                if int(text.read().rsplit(")", 1)[1].split()[1]) == process:
                    found.append(int(name))
        except OSError:
            pass
    return found


def kill(process):
    """Kills a process, if it is still there."""
    try:
        os.kill(process, signal.SIGKILL)
    except ProcessLookupError:
        pass


def storing(process):
    """The processes of `run` among those that a feeder started."""
    found = []
    for child in children(process):
        try:
            with open("/proc/%d/cmdline" % child, "rb") as text:
                found += [child] if b"\0run\0" in text.read() else []
        except OSError:
            pass
    return found


def feed_and_kill(trial, delay, whom, waits):
    """Starts a feed, waits until the program stores rows if asked to, and after a delay kills the feeder, its program, or both. Returns
    whether the feeder still ran, and whether the program stored rows just then."""
    child = subprocess.Popen(trial.words(), stdout=subprocess.DEVNULL, stderr=subprocess.DEVNULL)
    while waits and child.poll() is None and not storing(child.pid):
        time.sleep(0.001)
    time.sleep(delay)
    running, program, stores = child.poll() is None, children(child.pid), bool(storing(child.pid))
    if whom != "program" or not program:
        kill(child.pid)
    if whom != "feeder":
        for process in program:
            kill(process)
    child.wait()
    return running, running and stores


def wait_for_orphans(trial):
    """Waits until a program that outlived its feeder ends: it holds the lock until then. Without a lock file no program was started."""
    try:
        lock = open(trial.path("historian.d", "feed.lock"), "a")
    except FileNotFoundError:
        return
    with lock:
        fcntl.flock(lock, fcntl.LOCK_EX)


def two_blocks(folder, program, hours=3):
    """A plant that was fed a block, with the next one in its inbox; and what it has to answer after both."""
    trial = Trial(os.path.join(folder, "two"), program)
    trial.deliver(0, hours=hours)
    trial.fed()
    trial.deliver(1, hours=hours)
    return trial, expected(os.path.join(folder, "hand"), program, trial.rows)


def check_same(got, wanted, what):
    """Fails with the first line that differs, if one does."""
    if got != wanted:
        pairs = [(a, b) for a, b in zip(got.splitlines(), wanted.splitlines()) if a != b]
        raise AssertionError("%s: %r in place of %r" % (what, *(pairs or [(got[-200:], wanted[-200:])])[0]))


def check_put_away(trial, count):
    """Fails unless so many files lie in done/, none in the inbox or in refused/, and feed.d has nothing of an unfinished turn."""
    assert os.listdir(trial.path("inbox")) == [], os.listdir(trial.path("inbox"))
    done = [name for turn in os.listdir(trial.path("done")) for name in os.listdir(trial.path("done", turn)) if name.endswith(".csv")]
    assert len(done) == len(set(done)) == count, sorted(done)
    assert not os.path.exists(trial.path("refused")), os.listdir(trial.path("refused"))
    assert sorted(os.listdir(trial.path("feed.d"))) == ["base.toml", "fed", "looked", "scales", "seals", "tunings"], os.listdir(trial.path("feed.d"))
