"""seals.py: the sha256 of each device as the last turn left it, and copies of the whole plant.

The program's files have no checksums. So a flipped bit, another program that wrote, or a file that was put back wrongly would go
unseen. The program refuses a device in use whose first byte was damaged. But it begins a device anew if its file is missing or is
cut to one byte at most, and most devices that begin with a sector of zeros: what it held is gone then. The feeder compares these seals
before it lets the program open anything. `sha256sum -c feed.d/seals` in the plant's folder compares them too.

The plant's log only grows, and the feeder never opens it. So of it the part that stood at the last seal is sealed, and a `log` that was
run by hand since changes none of that. Its line, and a line for each tag of how many events it had, begin with # in feed.d/seals."""
import collections
import hashlib
import json
import os
import re
import time

from devices import TUNING, begins, events_in, events_on, log_end, sha256_of_first  # noqa: F401
from files import CHANGED, Refusal, bytes_of, sha256_of, write_whole

LINE = re.compile(r"([0-9a-f]{64}|# \d+ events|# [0-9a-f]{64} of the first \d+ bytes)  (historian\.d/.+)\n")
LOG = "historian.d/plant.log"
CHANGED_SINCE = "is not as the last turn left it: a bit flipped, another program wrote to it, or a wrong file was put there"
BY_NO_TURN = "was made by no turn: another program ran here"
NO_DEVICE = "is missing or does not begin as a device"
SHOWN = 20  # devices that a line tells of
JUST_BEFORE = 20_000_000  # nanoseconds in which a disk may give two changes of a file the same time
COPY = re.compile(r"([0-9]{6,})\.([0-9]{4}-[0-9]{2}-[0-9]{2}T[0-9]{6}Z)")  # the name of a copy: its number and time


def devices(plant):
    """The names of all devices of tags and groups, from the plant's folder."""
    folder = plant.path("historian.d")
    names = sorted(os.listdir(folder)) if os.path.isdir(folder) else []
    return ["historian.d/" + name for name in names if name.endswith((".tag", ".grp"))]


Look = collections.namedtuple("Look", "stamp sha events")  # what a device was as this process read it


def looked(plant, name):
    """The sha256 of a device, and how many events it has if it is a tag's. A device that this process has read since it last waited is not
    read again if it is the same file by its number, size and times, and was not written to just before it was read."""
    path, now = plant.path(name), time.time_ns()
    info = os.stat(path)
    stamp = info.st_ino, info.st_size, info.st_mtime_ns, info.st_ctime_ns
    known = plant.looked.get(name)
    if known is None or known.stamp != stamp:
        known = Look(stamp, *(read_through(path) if name.endswith(".tag") else (sha256_of(path), None)))
        plant.looked.pop(name, None)
        if max(stamp[2:]) < now - JUST_BEFORE:
            plant.looked[name] = known
    return known


def read_through(path):
    """The sha256 of a tag's device, and how many events stand on it."""
    data = bytes_of(path)
    return hashlib.sha256(data).hexdigest(), events_in(data)


def seal(plant):
    """Writes the seals of the devices as they stand now."""
    found = {name: looked(plant, name) for name in devices(plant)}
    lines = ["%s  %s\n" % (look.sha, name) for name, look in found.items()]
    lines += ["# %d events  %s\n" % (look.events, name) for name, look in found.items() if name.endswith(".tag")]
    put_seals(plant, lines)


def put_seals(plant, lines):
    """Writes lines as the seals, and behind them that of the log as it stands now."""
    if os.path.isfile(plant.path(LOG)):
        size = log_end(plant.path(LOG))
        lines = lines + ["# %s of the first %d bytes  %s\n" % (sha256_of_first(plant.path(LOG), size), size, LOG)]
    write_whole(plant.path("feed.d", "seals"), "".join(lines).encode())


def seal_lines(plant):
    """The lines of the seals, each as what stands there of a device and the device's name; None if there are no seals yet."""
    try:
        with open(plant.path("feed.d", "seals"), errors="replace") as text:
            found = [LINE.fullmatch(line) for line in text]
    except FileNotFoundError:
        return None
    if None in found:
        raise Refusal(CHANGED, "feed.d/seals is damaged, and nothing was done. Compare the devices with a backup, then call"
                      " feed.py --seal.")
    return [match.groups() for match in found]


def sealed(plant):
    """The sha256 of each device of a tag or a group, by name; None if there are no seals yet."""
    lines = seal_lines(plant)
    return None if lines is None else {name: sha for sha, name in lines if not sha.startswith("#")}


def sealed_log(plant):
    """The sha256 of the sealed part of the plant's log, and how many bytes it has; None if there was no log."""
    for what, name in seal_lines(plant) or ():
        if name == LOG:
            words = what.split()
            return words[1], int(words[5])
    return None


def sealed_events(plant):
    """How many events each tag's device had when it was sealed, by the device's name."""
    return {name: int(what.split()[1]) for what, name in seal_lines(plant) or () if what.startswith("#") and name != LOG}


def differences(plant, but=()):
    """What each device is that is not as it was sealed, by name; the names in `but` are passed over.

    A group's file that is missing is none: its rows are made anew from the tags."""
    kept, log = sealed(plant), sealed_log(plant)
    found = {}
    for name, sha in (kept or {}).items():
        if name in but:
            continue
        if not os.path.isfile(plant.path(name)):
            if name.endswith(".tag"):
                found[name] = "is missing"
        elif looked(plant, name).sha != sha:
            found[name] = CHANGED_SINCE
    if log and not os.path.isfile(plant.path(LOG)):
        found[LOG] = "is missing"
    elif log and sha256_of_first(plant.path(LOG), log[1]) != log[0]:
        found[LOG] = "no longer begins with the rows that it had: a bit flipped, or a wrong file was put there"
    for name in devices(plant) if kept is not None else ():
        if name.endswith(".tag") and name not in kept and name not in but:
            found[name] = BY_NO_TURN
    return found


def require_sealed(plant, but=()):
    """Ends with a refusal if a device is not as it was sealed. Nothing was opened or changed by then."""
    refuse_changed(plant, differences(plant, but))


def refuse_changed(plant, found):
    """Ends with a refusal if there are devices, by name, that are not as they were sealed."""
    if found:
        kept = sealed(plant)
        lines = ["%s %s.\n    %s" % (name, what, copy_of(plant, name, kept.get(name))) for name, what in found.items()]
        lines.append("If you know the change and want it (you ran the program by hand), accept it with feed.py --seal.")
        raise Refusal(CHANGED, "nothing was done:\n  " + "\n  ".join(lines))


def require_known(plant):
    """Ends with a refusal if a device is not as it was sealed, or if there are no seals, but values. Somebody stored those by hand, and
    may be about to feed the same rows again, which would all come late."""
    require_sealed(plant)
    names = [name for name in devices(plant) if name.endswith(".tag")] if sealed(plant) is None else []
    events = [(name, events_on(plant.path(name))) for name in names]
    lines = ["%s has %d events" % (name, count) for name, count in events if count]
    if lines:
        lines[SHOWN:] = ["and %d more" % (len(lines) - SHOWN)] if len(lines) > SHOWN else []
        lines.append("A row that is stored must not be fed again: of each tag remove so many of the first rows from your files (an event is"
                     " a row or a retuning). Then accept the devices with feed.py --seal.")
        raise Refusal(CHANGED, "no turn stored what is in historian.d, and nothing was done:\n  " + "\n  ".join(lines))


def verified(plant):
    """Looks at all devices; what is said if they are good."""
    if sealed(plant) is None:
        raise Refusal(CHANGED, "there are no seals yet: the first turn writes them, or feed.py --seal")
    require_sealed(plant)
    return "%s, each as the last turn left it" % counted(plant)


def counted(plant):
    """How many devices are sealed, in words."""
    return "%d devices" % len(sealed(plant)) + (" and the first %d bytes of the log" % sealed_log(plant)[1] if sealed_log(plant) else "")


def require_good(plant):
    """Ends with a refusal if a device is not as it was sealed. Of those that an unfinished turn may have changed only the first bytes are
    looked at."""
    tags = tags_of_turn(plant)
    groups = [name for name in devices(plant) if name.endswith(".grp")] if tags else []
    require_sealed(plant, ["historian.d/%s.tag" % name for name in tags] + groups)
    require_begun(plant, tags)


def tags_of_turn(plant):
    """The tags of an unfinished turn; none if there is no such turn."""
    try:
        with open(plant.path("feed.d", "turn.json")) as text:
            return list(json.load(text)["tags"])
    except FileNotFoundError:
        return []
    except (ValueError, KeyError, TypeError):
        raise Refusal(CHANGED, "feed.d/turn.json is damaged, so nobody can say what is stored, and nothing was done: run feed.py") from None


def copy_of(plant, name, sha):
    """Where a good copy of a device stands, and whether that one file or the whole plant has to be put back."""
    log = sealed_log(plant) if name == LOG else None
    copies = [path for path in (os.path.join(copy, name) for copy in copies_of(plant)) if os.path.isfile(plant.path(path))]
    for path in copies:
        if sha and sha256_of(plant.path(path)) == sha or log and sha256_of_first(plant.path(path), log[1]) == log[0]:
            return "The bytes of the last turn stand in %s: copy that file back, and no other." % path
    if log:
        return "No backup has them all. Nothing else reads the log: put an older one back or move it away, then call feed.py --seal."
    if name.endswith(".grp"):
        return "No backup has the bytes of the last turn. Move the file away: its rows are made anew by the next feed."
    if not sha:
        return "If nobody is to have made it, move it away."
    if copies:
        copy = os.path.dirname(os.path.dirname(copies[0]))
        return ("No backup has the bytes of the last turn, and an older copy of one file does not fit the others: put the whole plant"
                " back from %s: feed.py --restore %s." % (copy, os.path.basename(copy)))
    return "No backup has this device. If done/ has all turns, all of them can be made again: feed.py --restore nothing."


def require_begun(plant, names):
    """Ends with a refusal if one of these devices of tags no longer begins as one: the program would refuse it, or begin it anew."""
    for name in names:
        if not begins(plant.path("historian.d", name + ".tag")):
            raise Refusal(CHANGED, "historian.d/%s.tag %s: nothing was done, and no file was changed. Put the plant back from a backup:"
                          " feed.py --restore last." % (name, NO_DEVICE))


def copies_of(plant):
    """The whole copies of the plant that the feeder made, the newest first: by their numbers, because a clock may be wrong."""
    folder = plant.path(plant.settings.backups)
    found = [match for match in map(COPY.fullmatch, os.listdir(folder)) if match] if os.path.isdir(folder) else []
    found.sort(key=lambda match: (int(match[1]), match[2]), reverse=True)
    return [os.path.join(plant.settings.backups, match[0]) for match in found]
