"""disk_cuts.py: tests of the program when the power is cut; test_disk.py runs them.

strace records the calls of a session with their moments. A test then makes folders as a cut at a random moment may leave them, and the
program opens them.

A file has all that was synced by that moment. A later write is missing, whole, in part, or other bytes; a single byte is there or not. A
file whose name was not synced is empty or missing."""
import os
import random
import re
import shutil
from collections import namedtuple

from devices import events_in
from disk_plant import COMMANDS, HALF, NOTHING, ROWS, TAGS, Plant, rows_on_log

Call = namedtuple("Call", "name kind at data begin end")
TRACED = "openat,pwrite64,ftruncate,fdatasync,fsync"
LINE = re.compile(r'(\d+\.\d+) (\w+)\((.*)\) = (-?\d+)(?:<(.*?)>)?.* <([\d.]+)>$')


def recorded(plant, verb):
    """Runs a session under strace, which has to end well: its calls on the files of the folder, in the order of their moments."""
    trace = plant.path("trace")
    os.makedirs(trace)
    under = ["strace", "-ff", "-ttt", "-T", "-y", "-xx", "-s", "1000000", "-e", "trace=" + TRACED, "-o", os.path.join(trace, "of")]
    status, text = plant.call(*COMMANDS[verb], under=under)
    assert status == 0, "%s under strace ends with %d: %s" % (verb, status, text)
    calls = []
    for name in os.listdir(trace):
        with open(os.path.join(trace, name)) as lines:
            calls += filter(None, map(call_of, lines))
    shutil.rmtree(trace)
    return sorted(calls, key=lambda call: call.begin)


def call_of(line):
    """The call in a line of strace, if it makes, writes or syncs a file of the folder of devices, or syncs the folder; else None."""
    found = LINE.match(line.strip())
    if not found:
        return None
    begin, kind, given, answer, opened, took = found.groups()
    path = text_of(opened or "" if kind == "openat" else given.split("<")[1].split(">")[0])
    if int(answer) < 0 or "/historian.d" not in path or kind == "openat" and "O_CREAT" not in given:
        return None
    assert kind != "ftruncate", "no session cuts a file"
    at, data = 0, b""
    if kind == "pwrite64":
        at, data = int(given.rsplit(", ", 1)[1]), bytes.fromhex(given.split('"')[1].replace("\\x", ""))
    return Call(os.path.basename(path), kind, at, data, float(begin), float(begin) + float(took))


def text_of(hexes):
    """The text that strace prints as hexadecimal bytes."""
    return bytes.fromhex(hexes.replace("\\x", "")).decode()


class Session:
    """A session: the files that were in the folder before it, and its calls."""

    def __init__(self, plant, verb):
        self.first = files_of(plant)
        self.calls = recorded(plant, verb)
        self.names = set(self.first) | {call.name for call in self.calls} - {"historian.d"}

    def moment(self, draw):
        """A random moment in a call, at its end, or just after it."""
        call = draw.choice(self.calls)
        return draw.choice((draw.uniform(call.begin, call.end), call.end, call.end + 1e-6))

    def known(self, name, moment):
        """The bytes of a file that were synced by a moment, or None if its name was not; and the later calls on it."""
        data, since, is_named = self.first.get(name, b""), [], name in self.first
        for call in self.calls:
            if call.begin > moment or call.name not in (name, "historian.d"):
                continue
            if call.kind not in ("fsync", "fdatasync"):
                assert is_named or call.kind == "openat", "%s is written to before its name is synced" % name
                since.append(call)
            elif call.end <= moment and call.name == "historian.d":
                is_named = is_named or any(made.kind == "openat" for made in since)
            elif call.end <= moment:
                data, since = written(data, since), [made for made in since if not is_named]
        return (data if is_named else None), since

    def image(self, name, moment, draw):
        """Bytes that a cut at a moment may leave of a file, or None if the file is not there."""
        data, since = self.known(name, moment)
        if data is None:
            return b"" if since and draw.random() < 0.5 else None
        how = draw.choice(("none", "all", "some", "some"))
        if how == "some":
            for call in since:
                data = torn(data, call, draw)
            return data
        return written(data, since) if how == "all" else data


def written(data, calls):
    """The bytes once these writes are made."""
    data = bytearray(data)
    for call in calls:
        data += b"\0" * (call.at + len(call.data) - len(data))
        data[call.at:call.at + len(call.data)] = call.data
    return bytes(data)


def torn(data, call, draw):
    """The bytes once a write is made as a cut may leave it: not, whole, its first bytes, some sectors, or other bytes."""
    size = len(call.data)
    how = draw.choice(("none", "all", "first", "sectors", "zeros", "others", "open") if size > 1 else ("none", "all"))
    if how == "none":
        return data
    if how == "first":
        return written(data, [call._replace(data=call.data[:draw.randrange(size)])])
    if how == "sectors":
        pieces = [call._replace(at=call.at + at, data=call.data[at:at + 512]) for at in range(0, size, 512)]
        return written(data, [piece for piece in pieces if draw.random() < 0.5])
    others = {"all": call.data, "zeros": bytes(size), "others": draw.randbytes(size), "open": b"\xa5" * size}
    return written(data, [call._replace(data=others[how])])


def files_of(plant):
    """The bytes of the files in the folder of devices, by name."""
    folder = plant.path("historian.d")
    return {name: plant.read("historian.d/" + name) for name in os.listdir(folder)} if os.path.isdir(folder) else {}


def build(folder, program, session, moment, draw):
    """Writes a plant's folder as a cut at a moment may leave it."""
    plant = Plant(folder, program)
    os.makedirs(plant.path("historian.d"))
    for name in session.names:
        data = session.image(name, moment, draw)
        if data is not None:
            plant.write("historian.d/" + name, data)
    return plant


def cuts(folder, program, settings, verb, kinds, look):
    """Checks images of sessions of these kinds, half as many as asked for."""
    if not shutil.which("strace"):
        return "no strace here: not tried"
    draw, values, count = random.Random(settings.seed), 0, settings.count // 2
    sessions = [traced(os.path.join(folder, str(place)), program, verb, draw, *kind) for place, kind in enumerate(kinds)]
    for place in range(count):
        session = sessions[place % len(sessions)]
        moment = session.moment(draw)
        plant = build(os.path.join(folder, "cut%d" % place), program, session, moment, draw)
        values += look(plant, session, moment, place % 3 == 0)
        shutil.rmtree(plant.folder)
    calls = sum(len(session.calls) for session in sessions)
    return "%d images of %d sessions with %d calls, %d values looked at" % (count, len(sessions), calls, values)


def traced(folder, program, verb, draw, is_new, has_lanes):
    """A session over devices that are new or have half of the rows already, with short lanes or not."""
    plant = Plant(folder, program)
    if has_lanes:
        plant.make_lanes(draw)
    if not is_new:
        plant.deliver(NOTHING, ROWS // 2)
        plant.told(verb)
        plant.deliver(HALF)
    return Session(plant, verb)


def look_at_run(plant, session, moment, goes_on):
    """Checks what `check` and `trend` find, and what the next session leaves if asked to: how many values there are."""
    least = {name: events_in(session.known(name + ".tag", moment)[0] or b"") for name in TAGS}
    found = plant.audit(least)
    if goes_on:
        plant.finish()
    return found


def look_at_log(plant, session, moment, goes_on):
    """Checks what `log` finds, and what the next session leaves if asked to: how many values there are."""
    known = rows_on_log(session.known("plant.log", moment)[0] or b"")
    found = plant.audit_log({name: sum(TAGS[row[0]] == name for row in known) for name in TAGS})
    if goes_on:
        plant.finish_log()
    return found


def cuts_of_run(folder, program, settings):
    """The power is cut in `run`, over new devices and over old ones, each with lanes as usual and with short ones."""
    kinds = [(is_new, has_lanes) for is_new in (True, False) for has_lanes in (False, True)]
    return cuts(folder, program, settings, "run", kinds, look_at_run)


def cuts_of_log(folder, program, settings):
    """The power is cut in `log`, into a new log and into one that has rows."""
    return cuts(folder, program, settings, "log", [(True, False), (False, False)], look_at_log)


CASES = [cuts_of_run, cuts_of_log]
