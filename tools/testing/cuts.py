"""cuts.py: tests of the feeder when the power is cut; test_tools.py runs them.

strace records the calls of a feed, the feeder's and the program's, with their moments. A test then makes plants as a cut at a random
moment may leave them, and feeds each to the end. It has to be the plant of an undisturbed feed.

A file has all that was synced by that moment. A later write is missing, whole, in part, or zeros. Names are made, moved and
removed in the order of the calls: all those before the last sync of their folder, and some of the later ones."""
import json
import os
import random
import re
import shutil

from again import lived_in, long_growing
from kills import edited_blocks
from plant import bytes_of
from trial import Trial, check_put_away, check_same, expected, two_blocks, wait_for_orphans

NAMES = ("rename", "link", "unlink", "unlinkat", "rmdir", "mkdir")
TRACED = "openat,write,pwrite64,sendfile,ftruncate,fsync,fdatasync," + ",".join(NAMES)
LINE = re.compile(r"(\d+\.\d+) (\w+)\((.*)\) += (\d+)(?:<(.*?)>)? <([\d.]+)>$")
HEXES = re.compile(r'[<"]((?:\\x..)*)[>"]')
PARTS = {False: ("none", "all", "first", "zeros"), True: ("none", "all")}  # of a write, by whether it is a single byte


class File:
    """A file: the bytes that it had at first, what was written to it and when, and when it was synced."""

    def __init__(self, data=b""):
        self.first, self.writes, self.syncs = data, [], []

    def known(self, moment):
        """The bytes that were synced by a moment, and the later writes that had begun by then."""
        sync = max((begin for begin, end in self.syncs if end <= moment), default=0)
        data = self.first
        for _, end, at, text in self.writes:
            if end <= sync:
                data = written(data, at, text)
        return data, [(at, text) for begin, end, at, text in self.writes if end > sync and begin <= moment]

    def image(self, moment, draw):
        """Bytes that a cut at a moment may leave."""
        data, later = self.known(moment)
        whole = draw.random() < 0.3
        for at, text in later:
            part = "all" if whole else draw.choice(PARTS[text is not None and len(text) == 1])
            if part != "none":
                data = written(data, at, torn(text, part, draw))
        return data


def torn(text, part, draw):
    """The bytes that a write leaves if it is made in part. A text of None cuts the whole file to nothing, and has no parts."""
    if text is None or part == "all":
        return text
    return bytes(len(text)) if part == "zeros" else text[:draw.randrange(len(text) + 1)]


def written(data, at, text):
    """The bytes once a write is made at a place; None stands for the end. A text of None cuts all bytes off."""
    if text is None:
        return b""
    at = len(data) if at is None else at
    return data[:at].ljust(at, b"\0") + text + data[at + len(text):]


class Disk:
    """A plant's folder as it was before a feed, and all that the feed did to it."""

    def __init__(self, folder):
        self.folder, self.now, self.first, self.moves, self.syncs, self.calls = folder, {}, {}, [], [], 0
        for place, _, names in os.walk(folder):
            self.first[self.short(place)] = None
            for name in names:
                with open(os.path.join(place, name), "rb") as data:
                    self.first[self.short(os.path.join(place, name))] = File(data.read())
        self.now = dict(self.first)

    def short(self, path):
        """The path as seen from the plant's folder."""
        return os.path.relpath(path, self.folder)

    def take(self, begin, end, kind, given, answer, opened):
        """Notes what a call does to files and names."""
        paths = [bytes.fromhex(text.replace("\\x", "")).decode("utf-8", "replace") for text in HEXES.findall(given)]
        if kind == "openat":
            paths = [bytes.fromhex(opened.replace("\\x", "")).decode()]
        elif kind == "unlinkat":
            paths = [os.path.join(*paths[:2])]
        if not paths or not os.path.abspath(paths[0]).startswith(self.folder):
            return
        names, self.calls = [self.short(path) for path in paths], self.calls + 1
        file = self.now.get(names[0])
        if kind == "openat" and "O_CREAT" in given and names[0] not in self.now:
            self.move(begin, "make", names[0], File())
        elif kind == "openat" and "O_TRUNC" in given:
            file.writes.append((begin, end, 0, None))
        elif kind in NAMES:
            self.move(begin, kind, names[0], names[1] if kind in ("rename", "link") else None)
        elif kind in ("fsync", "fdatasync"):
            (self.syncs if file is None else file.syncs).append((begin, end) if file else (names[0], begin, end))
        elif kind in ("write", "pwrite64"):
            data = bytes.fromhex(given.split('"')[1].replace("\\x", ""))[:answer]
            file.writes.append((begin, end, int(given.rsplit(", ", 1)[1]) if kind == "pwrite64" else None, data))
        elif kind == "sendfile" and answer:
            source, more = self.now[names[1]].known(end)
            for at, text in more:
                source = written(source, at, text)
            file.writes.append((begin, end, None, source))

    def move(self, begin, kind, name, what):
        """Notes a change of names and its moment, and makes it."""
        self.moves.append((begin, kind, name, what))
        change(self.now, kind, name, what)

    def synced_moves(self, moment):
        """How many changes of names were synced by a moment."""
        count = 0
        for folder, begin, end in self.syncs:
            if end <= moment:
                count = max([count] + [place + 1 for place, (at, _, name, what) in enumerate(self.moves) if at < begin and folder in (
                    os.path.dirname(name) or ".", os.path.dirname(what) or "." if isinstance(what, str) else None)])
        return count

    def build(self, folder, draw):
        """Writes a folder as a cut at a random moment may leave it."""
        moment = draw.choice([at for at, *_ in self.moves] + [end for *_, end in self.syncs]
                             + [write[1] for file in self.now.values() if file for write in file.writes]) + draw.choice((-1e-6, 1e-6))
        begun = sum(at <= moment for at, *_ in self.moves)
        tree, least = dict(self.first), min(begun, self.synced_moves(moment))
        for _, kind, name, what in self.moves[:draw.choice((least, begun, draw.randint(least, begun)))]:
            change(tree, kind, name, what)
        images = {}  # by the file: one with two names has the same bytes under both
        for name in sorted(tree):
            file = tree[name]
            if file is None:
                os.makedirs(os.path.join(folder, name), exist_ok=True)
                continue
            if id(file) not in images:
                images[id(file)] = file.image(moment, draw)
            with open(os.path.join(folder, name), "wb") as out:
                out.write(images[id(file)])


def change(tree, kind, name, what):
    """Makes a change of names: `what` is a new file, None for a new folder, or the name that another one gets."""
    if kind == "rename":
        tree[what] = tree.pop(name)
    elif kind == "link":
        tree[what] = tree[name]
    elif kind in ("make", "mkdir"):
        tree[name] = what
    else:
        del tree[name]


def recorded(trial, *words):
    """Runs a feed, or what these words ask for, under strace; it has to end well: all that it did."""
    disk, trace = Disk(trial.folder), trial.folder + ".trace"
    os.makedirs(trace)
    under = ["strace", "-ff", "-ttt", "-T", "-y", "-xx", "-s", "10000000", "-e", "trace=" + TRACED, "-o", os.path.join(trace, "of")]
    status, text = trial.feed(*words, under=under)
    assert status == 0, (status, text)
    calls = []
    for name in os.listdir(trace):
        with open(os.path.join(trace, name)) as lines:
            calls += [found.groups() for found in map(LINE.match, lines) if found]
    for begin, kind, given, answer, opened, took in sorted(calls, key=lambda call: float(call[0])):
        disk.take(float(begin), float(begin) + float(took), kind, given, int(answer), opened)
    shutil.rmtree(trace)
    return disk


def new_plant(folder, program):
    """A plant that was never fed, with files in its inbox; and what has to come of them."""
    trial = Trial(os.path.join(folder, "new"), program)
    trial.deliver(0, hours=3)
    return trial, expected(os.path.join(folder, "hand"), program, trial.rows)


def cut(folder, program, settings, make):
    """Makes plants as cuts leave them, and feeds each to the end: it has to be the plant of an undisturbed feed."""
    if not shutil.which("strace"):
        return "no strace here: not tried"
    trial, wanted = make(folder, program)
    disk, draw = recorded(trial), random.Random(settings.seed)
    check_same(trial.answers(), wanted, "recorded")
    for place in range(max(4, settings.kills // 3)):
        shutil.rmtree(trial.folder)
        disk.build(trial.folder, draw)
        wait_for_orphans(trial)
        trial.fed()
        check_same(trial.answers(), wanted, "cut %d (seed %d)" % (place, settings.seed))
        check_put_away(trial, 2 * len(trial.blocks))
    return "%d cuts of a feed with %d calls" % (place + 1, disk.calls)


def power_cut(folder, program, settings):
    """The power is cut while the second block is fed."""
    return cut(folder, program, settings, two_blocks)


def power_cut_on_new_plant(folder, program, settings):
    """The power is cut while a plant is fed for the first time."""
    return cut(folder, program, settings, new_plant)


def power_cut_while_retuning(folder, program, settings):
    """The power is cut while the feeder takes an edited base over."""
    return cut(folder, program, settings, edited_blocks)


def cuts_of(trial, settings, *words):
    """Makes plants as cuts leave them while a feed, or what these words ask for, is done: gives the number of each, and what was done."""
    disk, draw = recorded(trial, *words), random.Random(settings.seed)
    for place in range(max(4, settings.kills // 3)):
        shutil.rmtree(trial.folder)
        disk.build(trial.folder, draw)
        wait_for_orphans(trial)
        yield place + 1, disk


def power_cut_while_put_back(folder, program, settings):
    """The power is cut while a plant is put back. The next feed goes on with it, the archive is that from before, and what stood there is
    still there."""
    if not shutil.which("strace"):
        return "no strace here: not tried"
    trial, wanted, copy = lived_in(folder, program)
    old = {name: bytes_of(trial.path("historian.d", name)) for name in os.listdir(trial.path("historian.d")) if name != "feed.lock"}
    begun = 0
    for number, disk in cuts_of(trial, settings, "--restore", copy):
        what = "cut %d (seed %d)" % (number, settings.seed)
        begun += os.path.exists(trial.path("feed.d/restore.json"))
        trial.fed()
        check_same(trial.answers("feed.d/base.toml"), wanted, what)
        assert "each as the last turn left it" in trial.fed("--verify") and not os.path.exists(trial.path("feed.d/restore.json")), what
        place = "replaced/000001/historian.d" if os.path.exists(trial.path("replaced/000001/historian.d/FIC1.PV.tag")) else "historian.d"
        assert {name: bytes_of(trial.path(place, name)) for name in old} == old, what
    assert begun, "no cut met the restore"
    return "%d cuts of a restore with %d calls, %d left it unfinished" % (number, disk.calls, begun)


def power_cut_while_it_grows(folder, program, settings):
    """The power is cut while the new lines of a growing file are fed. Each line is stored once, and what is taken of the file is synced before
    it counts as taken: so the file still begins with it."""
    if not shutil.which("strace"):
        return "no strace here: not tried"
    trial, wanted = long_growing(folder, program)
    name, size = "inbox/log1.csv", os.path.getsize(trial.path("inbox/log1.csv"))
    for number, disk in cuts_of(trial, settings):
        what = "cut %d (seed %d)" % (number, settings.seed)
        trial.fed()
        check_same(trial.answers(), wanted, what)
        assert trial.fed() == "" and json.loads(trial.read("feed.d/grown"))[name]["bytes"] == os.path.getsize(trial.path(name)) == size, what
    begins = min(begin for begin, kind, _, target in disk.moves if kind == "rename" and target == "feed.d/turn.json")
    assert [end for _, end in disk.first[name].syncs if end < begins], "the growing file was not synced"
    return "%d cuts of a feed with %d calls" % (number, disk.calls)


CASES = [power_cut, power_cut_on_new_plant, power_cut_while_retuning, power_cut_while_put_back, power_cut_while_it_grows]
