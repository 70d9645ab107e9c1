"""disk_calls.py: tests of calls of the system that fail or are interrupted; test_disk.py runs them. strace makes a call fail.

After a failed call the session ends with the fault of that device, and neither writes nor syncs it again. Each tag then has the first
rows of its file, with all that were acknowledged, and the next session stores the others. After an interrupted call the session ends as
if nothing had happened."""
import os
import random
import re
import shutil

from disk_cuts import text_of
from disk_plant import COMMANDS, HALF, NOTHING, ROWS, UNITS, Plant
from trial import check_same

NAMED = ("openat", "mkdir", "statx", "rename", "renameat", "renameat2", "unlink", "unlinkat")
TRACED = "pread64,pwrite64,ftruncate,fsync,fdatasync,read,write,flock," + ",".join(NAMED)
CHANGES = ("pwrite64", "fdatasync", "ftruncate")
FAILING = {"pwrite64": 10, "fdatasync": 10, "fsync": 1, "openat": 2, "pread64": 1}  # of a thread's first so many calls, one fails
FOLDER = {"openat": 2, "flock": 1, "fsync": 5, "mkdir": 1}  # the same on the folder
DEVICE = ("openat", "statx", "fsync", "fdatasync", "pread64", "pwrite64")
INTERRUPTED = [(kind, "historian.d/T1.tag") for kind in DEVICE] + [
    ("mkdir", "historian.d"), ("statx", "historian.d"), ("openat", "historian.d"), ("fsync", "historian.d"),
    ("openat", "base.toml"), ("read", "base.toml"), ("read", "plan.toml"), ("read", "c1.csv"), ("read", "asks.csv"), ("write", "")]


def watched(plant, verb, errors=(), paths=()):
    """Runs a command in which calls have errors, on these paths or on all. An error is given as strace takes it, such as
    `fdatasync:error=EIO:when=2`. Returns the exit status, what it printed, and the lines of strace in the order of their moments."""
    trace = plant.path("trace")
    os.makedirs(trace)
    under = ["strace", "-ff", "-ttt", "-y", "-xx", "-qq", "-o", os.path.join(trace, "of"), "-e", "trace=" + TRACED]
    for error in errors:
        under += ["-e", "inject=" + error]
    for path in paths:  # as the program writes it, and as the system does
        under += ["-P", path, "-P", plant.path(path)]
    status, text = plant.call(*COMMANDS[verb], under=under)
    text = "".join(line for line in text.splitlines(True) if not line.startswith("strace: "))
    calls = []
    for name in os.listdir(trace):
        with open(os.path.join(trace, name)) as lines:
            calls += lines
    shutil.rmtree(trace)
    return status, text, sorted(calls)


def injected(plant, verb, errors, paths=()):
    """The same. Returns the calls after the first error as their kinds and names, or None if no call had an error, in place of the
    lines."""
    status, text, calls = watched(plant, verb, errors, paths)
    places = [place for place, line in enumerate(calls) if "(INJECTED)" in line]
    return status, text, list(map(kind_and_names, calls[places[0] + 1:])) if places else None


def kind_and_names(line):
    """The kind of the call in a line of strace, and the names of its files."""
    kind = re.sub(r"^[\d.]+ (\w*).*", r"\1", line.strip())
    paths = re.findall(r'"((?:\\x..)+)"' if kind in NAMED else r"<((?:\\x..)+)>", line)
    return kind, [os.path.basename(text_of(path)) for path in paths]


def stood(folder, program, verb):
    """A plant in which a session stored half of the rows, with the other half in its files."""
    plant = Plant(folder, program)
    plant.deliver(NOTHING, ROWS // 2)
    plant.told(verb)
    plant.deliver(HALF)
    return plant


def failing(folder, program, settings, verb, devices, audit):
    """Makes calls fail on a device or on the folder, with old devices and with new ones, until there were enough."""
    if not shutil.which("strace"):
        return "no strace here: not tried"
    draw, count, tried = random.Random(settings.seed), 0, 0
    old, new = stood(os.path.join(folder, "old"), program, verb), Plant(os.path.join(folder, "new"), program)
    while count < settings.count // 2:
        source, device = draw.choice((old, new)), draw.choice(devices + (None,))
        kind, most = draw.choice(list((FAILING if device else FOLDER).items()))
        path = "historian.d/" + device if device else "historian.d"
        given = "%s:error=%s:when=%d" % (kind, draw.choice(("EIO", "ENOSPC", "EDQUOT")), draw.randint(1, most))
        plant, tried = source.copy(os.path.join(folder, str(tried))), tried + 1
        status, text, later = injected(plant, verb, [given], [path])
        check_failure(status, text, later, device, given + " of " + path)
        count += later is not None
        audit(plant, HALF if source is old else NOTHING, tried % 3 == 0)
        shutil.rmtree(plant.folder)
        assert tried < 20 * settings.count, "no call fails"
    return "%d failed calls in %d sessions" % (count, tried)


def check_failure(status, text, later, device, given):
    """Fails unless the session names the device and makes no call that changes it after the one that failed."""
    if later is None:
        assert status == 0, "%s was not met, but the session ends with %d: %s" % (given, status, text)
        return
    wanted = "fault: device %s" % UNITS.get(device, "")
    assert status == 7 and text.startswith(wanted) and text.count("\n") == 1, "%s ends with %d: %s" % (given, status, text)
    more = [kind for kind, names in later if kind in CHANGES and names[:1] == [device]]
    assert not more, "%s is followed by %s" % (given, more)


def audit_run(plant, least, goes_on):
    """Checks what a session of `run` left, and what the next session leaves if asked to."""
    plant.audit(least)
    if goes_on:
        plant.finish()


def audit_log(plant, least, goes_on):
    """Checks what a session of `log` left, and what the next session leaves if asked to."""
    plant.audit_log(least)
    if goes_on:
        plant.finish_log()


def failing_calls_of_run(folder, program, settings):
    """`run` names the device that has failed. Nothing that was acknowledged is lost, and the next session goes on."""
    return failing(folder, program, settings, "run", ("T1.tag", "T2.tag", "T3.tag", "shift.grp"), audit_run)


def failing_calls_of_log(folder, program, settings):
    """`log` names its device. Nothing that was acknowledged is lost, and the next session goes on."""
    return failing(folder, program, settings, "log", ("plant.log",), audit_log)


def interrupted_calls(folder, program, settings):
    """`run` makes a call again if a signal interrupts it, and leaves the whole plant, with old devices and with new ones."""
    if not shutil.which("strace"):
        return "no strace here: not tried"
    count, refused = 0, []
    old, new = stood(os.path.join(folder, "old"), program, "run"), Plant(os.path.join(folder, "new"), program)
    check, trend = old.whole()
    for kind, path in INTERRUPTED:
        for source in (old, new):
            plant = source.copy(os.path.join(folder, "interrupted"))
            status, text, later = injected(plant, "run", [kind + ":error=EINTR:when=1"], [path] if path else [])
            count += later is not None
            if status:
                refused.append("%s of %s: exit %d, %s" % (kind, path, status, text.strip()))
            else:
                check_same(text[:len(check)] + plant.told("trend"), check + trend, kind)
            shutil.rmtree(plant.folder)
    assert not refused, "\n".join(["interrupted:"] + refused)
    assert count > len(INTERRUPTED), "only %d of %d calls were interrupted" % (count, 2 * len(INTERRUPTED))
    return "%d interrupted calls" % count


CASES = [failing_calls_of_run, failing_calls_of_log, interrupted_calls]
