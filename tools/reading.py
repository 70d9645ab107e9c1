"""reading.py: asks a plant's archive without changing anything in the plant.

The devices of the tags that are asked about are copied into a temporary folder, and the program answers there. The locks of the plant are
held only while the copies are made, and together with others who read: several ask at once, and the feeder waits for none of them longer
than that. No right to write is needed, so it works for an account that may only read, and on a disk that is mounted read-only.

Of a tag the kind and the tuning are those on its device. So the program never retunes a copy, whatever was edited in base.toml meanwhile.

    with reading.opened(plant, ["FIC101.PV"]) as archive:
        archive.points("FIC101.PV", first, last)

A device that is not as the last turn left it is refused, and so is one that is missing: the program would begin it anew, and answer that
there are no values."""
import contextlib
import errno
import hashlib
import json
import os
import shutil
import tempfile
import time

import seals
from devices import TUNING, begins_in, definition_in, newest_in
from fields import MOST_TIME
from plant import BUSY, CHANGED, UNREADABLE, Refusal, bytes_of, open_lock, step_of, try_lock
from turns import require_scales

READERS, QUERIES = 16, 4_096   # of a plan; of a reader's file
POINT_QUERIES = 4_096          # queries of points that are asked at once: their replies may have 256 points each
REPLY = 256                    # points in a reply
MOST_BYTES = 120_000_000       # of the devices that one call of the program opens: 17 bytes a record, and 8,388,608 records at most
MEMORY, SPARE = "/dev/shm", 8  # a folder in memory; so many times the copies have to fit there
COPIES = "historian-"          # how folders of copies are named
WAIT = 60                      # seconds for the feeder's turn to end, if --wait does not say otherwise


class Archive:
    """Copies of some devices of a plant, and the program that answers from them.

    `tags` has what the base and the device say of each tag, `newest` the time of the newest raw value that it took, `groups` the groups of
    the base that may be asked about, `new` the tags whose device was not made yet, and `refused` what is wrong with each device, by its
    name, that is not as the last turn left it."""

    def __init__(self, plant, folder, groups, refused):
        self.plant, self.folder, self.groups, self.refused = plant, folder, groups, refused
        self.tags, self.newest, self.new, self.ends = {}, {}, set(), {}

    def add(self, tag, definition, about):
        """A tag, unless its device is refused. `about` is what the copy of that says of it, or None if there is none."""
        if "historian.d/%s.tag" % tag not in self.refused:
            told, self.newest[tag] = about or ({}, None)
            self.tags[tag] = definition | told
            if about is None:
                self.new.add(tag)

    # What stands in the base

    def definition(self, tag):
        if tag not in self.tags:
            raise Refusal(UNREADABLE, "the base has no tag %s; it has %s" % (tag, ", ".join(self.tags)))
        return self.tags[tag]

    def scale(self, tag):
        """By what a stored value of a tag is divided."""
        return self.plant.scale(tag, self.definition(tag)) or 1

    def unit(self, tag):
        """The unit of a tag's values, as the base has it; empty if it has none."""
        return step_of(self.definition(tag).get("engunits", ""))[1]

    def descriptor(self, tag):
        return self.definition(tag).get("descriptor", "")

    # What the program answers

    def replies(self, queries):
        """The text of each reply, in the order of the queries. They are rows of a reader's file (docs/FORMATS.md)."""
        texts = [None] * len(queries)
        for tags, groups, places in self.shares(queries):
            most = POINT_QUERIES if any(queries[place].startswith("points,") for place in places) else READERS * QUERIES
            for first in range(0, len(places), most):
                some = places[first:first + most]
                for place, text in zip(some, self.asked(tags, groups, [queries[place] for place in some])):
                    texts[place] = text
        return texts

    def shares(self, queries):
        """The queries' places, parted by what the program opens for them: a group with its tags, or as many tags as go together."""
        subjects, found, size = {}, [], MOST_BYTES + 1
        for place, query in enumerate(queries):
            verb, name = query.split(",", 2)[:2]
            subjects.setdefault((verb == "row", name), []).append(place)
        for (is_group, name), places in subjects.items():
            if is_group:
                found.append((list(self.groups[name]["tags"]), [name], places))
                size = MOST_BYTES + 1
                continue
            size += self.size(name)
            if size > MOST_BYTES:
                found.append(([], [], []))
                size = self.size(name)
            found[-1][0].append(name)
            found[-1][2].extend(places)
        return found

    def size(self, tag):
        """The bytes of a tag's copy."""
        path = os.path.join(self.folder, "historian.d", tag + ".tag")
        return os.path.getsize(path) if os.path.exists(path) else 0

    def asked(self, tags, groups, queries):
        """The texts of the replies to queries about these tags and groups, which go to the program at once."""
        base, names = self.base_of(tags, groups), []
        for first in range(0, len(queries), QUERIES):
            names.append("ask%d.csv" % len(names))
            self.write(names[-1], "".join(query + "\n" for query in queries[first:first + QUERIES]))
        self.write("plan.toml", "".join('[[reader]]\nfile = "%s"\n' % name for name in names))
        text = self.plant.call("trend", base, "plan.toml", folder=self.folder)
        return [line.split(" ", 3)[3] for line in text.splitlines() if line.startswith("reply ")]

    def base_of(self, tags, groups=()):
        """The name of a base with these tags and groups alone, which is written. So the program opens no other device, and a group that is
        too large or damaged does not keep tags from being asked about."""
        lines = [tag_text(name, self.tags[name]) for name in tags] + [group_text(self.groups[name]) for name in groups]
        self.write("base.toml", "".join(lines))
        return "base.toml"

    def write(self, name, text):
        """Writes a text into the folder of the copies."""
        with open(os.path.join(self.folder, name), "w") as out:
            out.write(text)

    def state(self):
        """What `check` says of each tag, by name."""
        found = {}
        for tags, _, _ in self.shares(["snap," + name for name in self.tags]):
            found |= self.plant.tags_of(self.plant.call("check", self.base_of(tags), folder=self.folder))
        return found

    def look_up(self, tags):
        """Asks at once for the first and the newest points of many tags, which `first` and `held` then know."""
        texts = self.replies([query for tag in tags for query in ("snap," + tag, "points,%s,0,%d" % (tag, MOST_TIME))])
        for tag, snap, points in zip(tags, texts[::2], texts[1::2]):
            self.ends[tag] = first_of(points), held_in(snap)

    def held(self, tag):
        """The newest point of a tag, as time and value; None if it has none."""
        if tag not in self.ends:
            self.look_up([tag])
        return self.ends[tag][1]

    def first(self, tag):
        """The first point of a tag; None if it has none."""
        if tag not in self.ends:
            self.look_up([tag])
        return self.ends[tag][0]

    first_on_device = first

    def points(self, tag, first, last):
        """All points of a tag from one time to another, both included, as times with values.

        A reply has at most 256: a stretch that has more is divided behind its 256th point, and all open stretches are asked at once."""
        found, stretches = {}, [(first, last)]
        while stretches:
            texts, rest = self.replies(["points,%s,%d,%d" % (tag, *stretch) for stretch in stretches]), []
            for (start, end), text in zip(stretches, texts):
                points = points_of(text)
                found.update(points)
                if text.endswith("more"):
                    rest += divided(points[-1][0] + 1, end, points[-1][0] + 1 - start)
            stretches = rest
        return sorted(found.items())

    def measures(self, measure, tag, edges):
        """A measure of a tag in the windows between neighbouring times, as whole numbers; None where a window has no value."""
        texts = self.replies(["%s,%s,%d,%d" % (measure, tag, *window) for window in zip(edges, edges[1:])])
        return [None if text == "none" else int(text) for text in texts]

    def frames(self, group, calculation, least):
        """The frames of a calculation, of at least so many windows: what each line begins with, from when, to when, and whether it is
        still open."""
        base = self.base_of(self.groups[group]["tags"], [group])
        text = self.plant.call("frames", base, group, calculation, str(least), folder=self.folder)
        return [(words[0], int(words[1]), int(words[2]), len(words) > 3) for words in map(str.split, text.splitlines())]

    def shifts(self, calendar, day, days):
        """The figures of a calendar's shifts: day, number, from when, to when, tag and whole number, or None if there is none."""
        base = self.base_of(calendar["tags"])
        self.write("calendar.toml", calendar_text(calendar))
        text = self.plant.call("shifts", base, "calendar.toml", day, str(days), folder=self.folder)
        return [(words[1], int(words[2]), int(words[3]), int(words[4]), words[5], None if words[6] == "none" else int(words[6]))
                for words in map(str.split, text.splitlines())]


def points_of(text):
    """The points of a reply."""
    return [point_of(word) for word in text.split()[:-1]]


def first_of(text):
    """The first point of a reply; None if it has none."""
    words = text.split(" ", 1)
    return point_of(words[0]) if len(words) > 1 else None


def point_of(word):
    t, v = word.split(",")
    return int(t), int(v)


def held_in(text):
    """The held point in the reply of a `snap`; None if there is none."""
    word = text.split()[2]
    return None if word == "none" else point_of(word)


def divided(first, last, pace):
    """A stretch of time in parts: as many as hold some 200 points each if those go on at the pace of the last 256, in milliseconds."""
    if first > last:
        return []
    width = max(1, min(max(pace * 3 // 4, (last - first) // POINT_QUERIES + 1), last - first + 1))
    return [(start, min(last, start + width - 1)) for start in range(first, last + 1, width)]


def tag_text(name, definition):
    """A tag as a base has it."""
    lines = ["[[tag]]", 'name = "%s"' % name, "step = %s" % ("true" if definition.get("step") else "false")]
    return "\n".join(lines + ["%s = %d" % (key, definition[key]) for key in TUNING]) + "\n"


def group_text(group):
    """A group as a base has it. A JSON text is a TOML text too."""
    lines = ["[[group]]", "name = %s" % json.dumps(group["name"]), "tags = %s" % json.dumps(group["tags"]),
             "start = %d" % group["start"], "period = %d" % group["period"]]
    for calculation in group["calc"]:
        lines += ["[[group.calc]]"] + ["%s = %s" % (key, json.dumps(calculation[key])) for key in ("name", "formula")]
    return "\n".join(lines) + "\n"


def calendar_text(calendar):
    """A calendar as the program reads it."""
    return "".join("%s = %s\n" % (key, json.dumps(calendar[key])) for key in calendar)


# The copies

@contextlib.contextmanager
def opened(plant, tags=None, groups=(), wait=WAIT, lenient=False):
    """What can be asked about these tags and groups of a plant, or about all tags. The copies are removed at the end.

    With `lenient` a device that cannot be asked about refuses nothing: its tag is left out, and stands in `archive.refused` with why."""
    require_devices(plant)
    base = plant.fed_base()
    definitions, all_groups = plant.base(base)
    tags, groups = list(definitions if tags is None else dict.fromkeys(tags)), list(dict.fromkeys(groups))
    for kind, asked, known in (("tag", tags, definitions), ("group", groups, all_groups)):
        for name in asked:
            if name not in known:
                raise Refusal(UNREADABLE, "the base has no %s %s; it has %s" % (kind, name, ", ".join(known) or "none"))
    tags = list(dict.fromkeys(tags + [name for group in groups for name in all_groups[group]["tags"]]))
    require_scales(plant, {name: definitions[name] for name in tags})
    names = ["historian.d/%s.tag" % tag for tag in tags] + ["historian.d/%s.grp" % group for group in groups]
    with folder_of_copies(place_of_copies(plant, names)) as folder:
        os.mkdir(os.path.join(folder, "historian.d"))
        with shared_locks(plant, wait):
            kept, exempt = sealed(plant, names)
            for name in names:
                copy(plant, name, folder)
        found, about = changed(folder, names, kept, exempt)
        if found and not lenient:
            refuse(plant, found)
        archive = Archive(plant, folder, {name: all_groups[name] for name in groups}, found)
        for tag in tags:
            archive.add(tag, definitions[tag], about.get("historian.d/%s.tag" % tag))
        yield archive


def require_devices(plant):
    """A folder without devices is no plant that was fed: the program would make empty ones there, and answer `none`."""
    folder = plant.path("historian.d")
    if not os.path.isdir(folder) or not any(name.endswith(".tag") for name in os.listdir(folder)):
        raise Refusal(UNREADABLE, "there are no devices in %s: is this the plant's folder, and was it fed?" % folder)


@contextlib.contextmanager
def shared_locks(plant, wait):
    """Holds the locks of the tools and of the program, together with others who read. If a process that writes has one of them for longer
    than `wait` seconds, that is a refusal."""
    end = time.monotonic() + wait
    with contextlib.ExitStack() as held:
        for path in (plant.path("historian.d", "feed.lock"), plant.path("historian.d")):
            handle = os.open(path, os.O_RDONLY) if os.path.isdir(path) else open_lock(os.path.dirname(path), True)
            if handle is None:  # the plant was fed by hand alone
                continue
            held.callback(os.close, handle)
            while not try_lock(handle, True):
                if time.monotonic() > end:
                    raise Refusal(BUSY, "another process works on this plant (%s is locked), and did not end within %g seconds: nothing was"
                                  " read. --wait SECONDS waits longer." % (path, wait))
                time.sleep(0.02)
        yield


def sealed(plant, names):
    """The sha256 of each device as the last turn left it, and those of these devices that may have changed since: in an unfinished turn the
    devices of its tags and of groups, and all while an edited base is taken over. It is read while the locks are held."""
    kept = seals.sealed(plant) or {}
    if os.path.exists(plant.path("feed.d", "base.new.toml")):
        return kept, set(names)
    tags = seals.tags_of_turn(plant)
    return kept, {name for name in names if tags and (name.endswith(".grp") or name[len("historian.d/"):-len(".tag")] in tags)}


def place_of_copies(plant, names):
    """Where copies of these devices go: into memory where there is plenty of it, because the program syncs each device that it opens, twice.
    Else, or if TMPDIR is set, where temporary files go."""
    size = 0
    for name in names:
        with contextlib.suppress(OSError):
            size += os.stat(plant.path(name)).st_size
    try:
        disk, free = os.statvfs(MEMORY), os.sysconf("SC_AVPHYS_PAGES") * os.sysconf("SC_PAGE_SIZE")
    except (OSError, ValueError):
        return None
    fits = SPARE * size < min(free, disk.f_bavail * disk.f_frsize) and os.access(MEMORY, os.W_OK | os.X_OK)
    return MEMORY if fits and "TMPDIR" not in os.environ else None


@contextlib.contextmanager
def folder_of_copies(place):
    """A locked folder for copies, which is removed at the end. In memory those are removed first that a killed process left there."""
    if place:
        remove_left_over(place)
    with tempfile.TemporaryDirectory(prefix=COPIES, dir=place) as folder:
        handle = os.open(folder, os.O_RDONLY)
        try:
            try_lock(handle, True)
            yield folder
        finally:
            os.close(handle)


def remove_left_over(place):
    for name in os.listdir(place):
        with contextlib.suppress(OSError):
            path = os.path.join(place, name)
            about = os.lstat(path)
            if not name.startswith(COPIES) or about.st_uid != os.getuid() or time.time() < about.st_mtime + WAIT:
                continue
            handle = os.open(path, os.O_RDONLY | os.O_NOFOLLOW | os.O_DIRECTORY)
            try:
                if try_lock(handle):
                    shutil.rmtree(path, ignore_errors=True)
            finally:
                os.close(handle)


def copy(plant, name, folder):
    """Copies a device that is there."""
    try:
        shutil.copyfile(plant.path(name), os.path.join(folder, name))
    except FileNotFoundError:
        pass
    except IsADirectoryError:
        raise Refusal(UNREADABLE, "%s is a folder and no device" % name) from None
    except OSError as why:
        if why.errno not in (errno.ENOSPC, errno.EDQUOT, errno.EFBIG):
            raise
        raise Refusal(UNREADABLE, "there is no room in %s for copies of the devices, so nothing was read: free some, or set TMPDIR to a"
                      " folder with more" % os.path.dirname(folder)) from None


def changed(folder, names, kept, exempt):
    """What each copied device is that is not as it was sealed, by name; and what each other one says of its tag. Each copy is read once.

    A device that was never sealed may be missing: its tag is new. A group's that is missing is made anew from its tags."""
    found, about = {}, {}
    for name in names:
        path, is_tag = os.path.join(folder, name), name.endswith(".tag")
        data = bytes_of(path) if os.path.exists(path) else None
        if name in kept and name not in exempt:
            if data is not None and hashlib.sha256(data).hexdigest() != kept[name]:
                found[name] = seals.CHANGED_SINCE
            elif is_tag and data is None:
                found[name] = "is missing"
        elif is_tag and (data is not None or name in kept) and not begins_in(data or b""):
            found[name] = seals.NO_DEVICE
        elif is_tag and data is not None and kept and name not in exempt:
            found[name] = seals.BY_NO_TURN
        if is_tag and data is not None and name not in found:
            about[name] = definition_in(data), newest_in(data)
    return found, about


def refuse(plant, found):
    """Ends with a refusal of devices that are not as they were sealed."""
    for name, what in found.items():
        if what == seals.NO_DEVICE:
            raise Refusal(CHANGED, "%s %s: nothing was read, and no file was changed. Put the plant back from a backup (docs/RUNNING.md,"
                          " Backup)." % (name, what))
    seals.refuse_changed(plant, found)
