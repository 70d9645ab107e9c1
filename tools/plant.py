"""plant.py: what the tools share of a plant: its folder and texts, the lock, and the program with its lines explained.

Whoever calls the program through `Plant.call` holds the lock on `historian.d/feed.lock`, and so does the program as long as it runs,
even if the tool that started it is killed. So no two of these processes ever work on the devices at once: that would lose values."""
import contextlib
import errno
import fcntl
import os
import re
import resource
import shlex
import shutil
import stat
import subprocess
import sys
import time
import traceback

import bases
from files import (BUSY, CHANGED, MEMORY, OUTPUT, REFUSED, UNREADABLE, Refusal, bytes_of, copied, read_toml, sha256_of,  # noqa: F401
                   shown, sync_folder, write_whole)
from settings import Settings  # noqa: F401

TAG_LINE = re.compile(r"tag (\S+) taken=(\d+) records=(\d+) kept=(\d+) late=(\d+) held=(\S+)")
ADVICE = {
    2: "The tool and the program are of different versions.",
    3: "Correct the text: docs/FORMATS.md lists the rules of a base by their numbers. Nothing was stored.",
    4: "`name` is no tag, group or calculation of the base; `range` is a number out of its range, or FROM behind TO. Nothing was stored.",
    5: "That file is missing or cannot be read: look at its name and at who may read it. Nothing was stored.",
    6: "The program could not write its output. What it stored stays stored.",
    7: "A call on that device failed, or its file was refused and left as it is (docs/TOUR.md, exit 7): look at the disk, its room, who"
       " may write to historian.d, and `ulimit -n`. What is stored stays stored, and the next feed goes on from there.",
    8: "Copy that file away and put a good copy in its place (docs/RUNNING.md, Backup). Nothing is read or stored until then.",
    9: "That file belongs to a tag of another name or kind. Put the right file there, or give the tag the `step` it was made with.",
    11: "The file of a tag of a group is missing, emptied, damaged or an older one; or the program has a bug. Stop feeding, and compare"
        " each `taken` of `check` with feed.d/seals: docs/PROMISE.md (\"Refusals\") says what is left, and what to do.",
    12: "The program stopped a worker.",
    13: "The program found no memory: free some, or set rows_a_run lower in feed.toml. What is stored stays stored.",
    16: "The base has no such group or calculation.",
}
LIMITS = {
    "records": "A tag is at its most records (1,048,576) and takes no more values.",
    "store_records": "The tags of the base together hold more records (8,388,608) than the program opens: split the base in two.",
    "cells": "A group has too many windows: give it a later start, a longer period or fewer calculations in base.toml, and feed. Values"
             " are stored all the same, and tags can be asked; only groups can not.",
    "copies": "The tags of a group together have too many records (2,097,152): split the group in base.toml, and feed. Values are stored"
              " all the same, and tags can be asked; only groups can not.",
}


class Tag:
    """What a tag's line of `check` and `run` says."""

    def __init__(self, match):
        self.name = match[1]
        self.taken, self.records, self.kept, self.late = (int(n) for n in match.groups()[1:5])
        self.held = None if match[6] == "none" else tuple(int(n) for n in match[6].split(","))


class Plant:
    """A plant's folder: base.toml, feed.toml, the devices in historian.d, and what the feeder keeps in feed.d."""

    def __init__(self, folder, program):
        self.folder = os.path.abspath(folder)
        self.program = shlex.split(program)
        if os.sep in self.program[0]:
            self.program[0] = os.path.abspath(self.program[0])
        self.settings = Settings(self.path("feed.toml"))
        self.lock, self.troubles, self.shown_progress, self.looked = None, [], 0, {}

    def path(self, *names):
        return os.path.join(self.folder, *names)

    def say(self, text):
        """Prints lines. In a log each begins with date and time. If nothing can be printed, the work goes on, and the exit status says so
        at the end."""
        self.progress("")
        for line in text.splitlines():
            put_line(sys.stdout, stamp(sys.stdout) + shown(line, len(line)))

    def trouble(self, text):
        """Prints a line that somebody should see: the exit status says so too, and on_trouble of feed.toml is called."""
        self.troubles.append(text)
        self.say(text)

    def progress(self, text, is_new=False):
        """Shows on a terminal how far a long work is, a few times a second, and each time at which a new one begins; nothing in a log."""
        if sys.stderr.isatty() and (text or self.shown_progress) and (is_new or not text or time.monotonic() > self.shown_progress + 0.2):
            self.shown_progress = time.monotonic() if text else 0
            put_line(sys.stderr, "\r\x1b[K" + text, end="")

    def base(self, name="base.toml"):
        """The tags and the groups of a base, by name and in their order."""
        tags, groups = self.tables(name)
        return {tag["name"]: tag for tag in tags}, {group["name"]: group for group in groups}

    def tables(self, name):
        """The tables of the tags and of the groups of a base, as they stand there."""
        text = read_toml(self.path(name))
        tags, groups = text.get("tag"), text.get("group", [])
        if any(type(tables) is not list or any(type(table) is not dict or type(table.get("name")) is not str for table in tables)
               for tables in (tags, groups)):
            raise Refusal(UNREADABLE, "%s: a base has [[tag]] tables, each with a name in quotes" % self.path(name))
        return tags, groups

    def fed_base(self):
        """The name of the base with which the devices were opened last: the feeder's copy, or base.toml if nothing was fed yet.

        Who reads with this one never retunes a tag, and so changes no device, even when base.toml was edited meanwhile."""
        return "feed.d/base.toml" if os.path.exists(self.path("feed.d", "base.toml")) else "base.toml"

    def scale(self, tag, definition):
        """By what a person's value is multiplied to be stored: from feed.toml, or from `engunits = "0.01 degC"`, or None."""
        given = self.settings.of_tag(tag)["scale"]
        told = step_of(definition.get("engunits", ""))[0]
        if given and told and given != told:
            raise Refusal(UNREADABLE, "the scale of %s is %d in feed.toml, and `engunits` of base.toml says %d: make them agree, and nothing"
                          " was done" % (tag, given, told))
        return given or told

    @contextlib.contextmanager
    def locked(self, who, wait):
        """Holds the plant's lock; if another process has it for longer than `wait` seconds, that is a refusal."""
        if not os.path.isfile(self.path("base.toml")):
            raise Refusal(UNREADABLE, "there is no base.toml in %s: is this the plant's folder?" % self.folder)
        handle = open_lock(self.path("historian.d"), False)
        try:
            end = time.monotonic() + wait
            while not try_lock(handle):
                if time.monotonic() > end:
                    raise Refusal(BUSY, "another process works on this plant (%s holds historian.d/feed.lock): nothing was done" % holder(
                        handle))
                time.sleep(0.05)
            os.ftruncate(handle, 0)
            os.pwrite(handle, ("%s, process %d\n" % (who, os.getpid())).encode(), 0)
            self.lock = handle
            yield
        finally:
            self.lock = None
            os.close(handle)

    def call(self, *words, folder=None, data=None):
        """What the program prints, in the plant's folder or in another one, with this data as its standard input. It inherits the lock, so
        that nothing else starts while it runs, whatever becomes of the tool."""
        raise_open_files()
        folder, given = folder or self.folder, {"stdin": subprocess.DEVNULL} if data is None else {"input": data}
        try:
            child = subprocess.run(self.program + list(words), cwd=folder, **given, stdout=subprocess.PIPE,
                                   pass_fds=() if self.lock is None else (self.lock,), restore_signals=False)
        except OSError as why:
            raise Refusal(127, "%s does not start: %s. Give the program with --program PATH." % (self.program[0], why)) from None
        text = child.stdout.decode("utf-8", "replace")
        if child.returncode == 7 and is_taken(self.path("historian.d")):
            raise Refusal(BUSY, "another historian, which no tool started, works in historian.d: wait until it ends")
        if child.returncode:
            raise Refusal(*self.explained(words, child.returncode, text, folder))
        return text

    def tags_of(self, text):
        """The tag lines of an output, by name."""
        return {match[1]: Tag(match) for match in map(TAG_LINE.fullmatch, text.splitlines()) if match}

    def explained(self, words, status, text, folder):
        """The exit status of a refusal, and its line in words: which file, which tag, and what to do."""
        if status < 0:
            return 128 - status, "the program was ended by signal %d: what is stored stays stored, and the next feed goes on" % -status
        line = text.strip().splitlines()[-1] if text.strip() else "(no line)"
        parts = line.split()
        advice = ADVICE.get(status, "See the fault table in docs/TOUR.md.")
        if status == 10:
            advice = LIMITS.get(parts[2] if len(parts) > 2 else "", "See the limits in docs/FORMATS.md.")
        return status, "historian %s: %s%s\n  %s" % (" ".join(words), line, self.named(parts, os.path.join(folder, words[1])), advice)

    def named_formula(self, base, place):
        """The group in which a formula is wrong."""
        return "(group %s): the formula is wrong at that byte" % list(self.base(base)[1])[place]

    def named(self, parts, base):
        """The names behind the numbers of a fault line."""
        try:
            if parts[1] == "text" and parts[2] == "base":
                return " " + (bases.wrong_in(self.path(base)) or self.named_formula(base, int(parts[6]))).strip()
            tags, groups = self.tables(base)
            for kind, tables, end in (("tag", tags, "tag"), ("group", groups, "grp")):
                if kind in parts[1:-1]:
                    name = tables[int(parts[parts.index(kind) + 1]) - 1]["name"]
                    return " (%s %s: historian.d/%s.%s)" % (kind, name, name, end)
        except (Refusal, ValueError, IndexError, OSError):
            pass
        return ""


def open_lock(folder, shared):
    """The lock file of a plant's devices, opened. No link is followed. A shared lock needs no right to write, and makes no file: None if
    no tool ever fed this plant."""
    path = os.path.join(folder, "feed.lock")
    flags = os.O_NOFOLLOW | os.O_NONBLOCK | (os.O_RDONLY if shared else os.O_RDWR | os.O_CREAT)
    if not shared:
        os.makedirs(folder, exist_ok=True)
    try:
        handle = os.open(path, flags, 0o666)
    except FileNotFoundError:
        return None
    except OSError as why:
        if why.errno not in (errno.ELOOP, errno.EISDIR, errno.ENXIO):
            raise
        raise Refusal(UNREADABLE, "%s is a link or no file, and nothing was done: remove it" % path) from None
    if not stat.S_ISREG(os.fstat(handle).st_mode) or os.fstat(handle).st_nlink > 1:
        os.close(handle)
        raise Refusal(UNREADABLE, "%s has a second name or is no file, and nothing was done: remove it" % path)
    return handle


def holder(handle):
    """Who holds the lock, as far as its file tells: the tool that wrote its name there, if it still runs."""
    told = os.pread(handle, 200, 0).decode("utf-8", "replace").strip()
    match = re.fullmatch(r"([a-z_]+\.py), process ([0-9]{1,9})", told)
    try:
        if match and match[1].encode() in bytes_of("/proc/%s/cmdline" % match[2]):
            return told
    except OSError:
        pass
    return "somebody"


def try_lock(handle, shared=False):
    """Whether the lock could be taken now; with `shared` together with others who read."""
    try:
        fcntl.flock(handle, (fcntl.LOCK_SH if shared else fcntl.LOCK_EX) | fcntl.LOCK_NB)
        return True
    except BlockingIOError:
        return False


def is_taken(folder):
    """Whether another process holds the program's own lock, which is on the folder of the devices."""
    try:
        handle = os.open(folder, os.O_RDONLY | os.O_DIRECTORY)
    except OSError:
        return False
    try:
        return not try_lock(handle)
    finally:
        os.close(handle)


def raise_open_files():
    """Lets the program open 2,048 files if this account may: it holds one for each tag and group, and a few more."""
    soft, hard = resource.getrlimit(resource.RLIMIT_NOFILE)
    if 0 <= soft < 2_048:
        resource.setrlimit(resource.RLIMIT_NOFILE, (2_048 if hard == resource.RLIM_INFINITY else min(2_048, hard), hard))


def step_of(engunits):
    """The scale and the unit of `0.01 degC`: 100 and degC. Without such a number the scale is None."""
    if type(engunits) is not str:
        return None, ""
    match = re.fullmatch(r"0\.(0*)1(?: +(.*))?", engunits)
    return (10 ** (len(match[1]) + 1), match[2] or "") if match else (None, engunits)


def program_of(text):
    """The program's command with its first word as a path, or None if there is no such program."""
    words = shlex.split(text)
    found = shutil.which(words[0]) if words else None
    return shlex.join([os.path.abspath(found)] + words[1:]) if found else None


def ended(main, stays="", logs=False):
    """Runs a tool, and ends it with its status and a clear line. `stays` says what a failed call leaves as it is; `logs` that its lines go
    to a log."""
    name = os.path.basename(sys.argv[0])
    sys.stdout.reconfigure(errors="backslashreplace")
    sys.stderr.reconfigure(errors="backslashreplace")
    try:
        status, text = main() or 0, None
        sys.stdout.flush()
    except Refusal as refusal:
        status, text = refusal.status, refusal.text
    except BrokenPipeError:
        os.dup2(os.open(os.devnull, os.O_WRONLY), sys.stdout.fileno())
        status, text = 141, None
    except OSError as why:
        status, text = UNREADABLE, "%s. %s" % (why, stays)
    except MemoryError:
        status, text = MEMORY, "there is no memory. %s" % stays
    except KeyboardInterrupt:
        status, text = 130, None
    except Exception:
        status, text = 1, "%sThis is a fault of the tool: please report it. %s" % (traceback.format_exc(), stays)
    if text is not None:
        put_line(sys.stderr, "%s%s: %s" % (stamp(sys.stderr) if logs else "", name, text.strip()))
    leave(status)


def stamp(stream):
    """Date and time for the beginning of a line of a log; nothing on a terminal."""
    return "" if stream.isatty() else time.strftime("%Y-%m-%d %H:%M:%S%z ")


LOST = []  # streams that could not be written


def put_line(stream, text, end="\n"):
    """Prints a line. A stream that cannot be written, as on a full disk, is given up."""
    try:
        print(text, file=stream, end=end, flush=True)
    except OSError:
        give_up(stream)


def give_up(stream):
    """Lets what is still printed to a stream go nowhere."""
    LOST.append(stream)
    nowhere = os.open(os.devnull, os.O_WRONLY)
    os.dup2(nowhere, stream.fileno())
    os.close(nowhere)


def leave(status):
    """Ends the process. If what it said could not be written, the status says so instead of a good one."""
    try:
        sys.stdout.flush()
    except OSError:
        give_up(sys.stdout)
    sys.exit(status or (OUTPUT if sys.stdout in LOST else 0))
