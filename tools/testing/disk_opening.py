"""disk_opening.py: tests of how the program opens the folder of devices; test_disk.py runs them.

It locks the folder, syncs each device and reads it whole, then syncs the names in the folder. If the sync of a device fails, it gets a
mark, and the next run writes it anew. A device that is replaced between its reading and its opening is refused."""
import os
import shutil
import time

from disk_calls import audit_log, audit_run, injected, kind_and_names, stood, watched
from disk_files import full_plant
from disk_plant import COMMANDS, HALF, NOTHING, UNITS, Plant
from disk_renew import left_over, node

SESSIONS = (("run", "T1.tag", audit_run), ("log", "plant.log", audit_log))
NEW, MARK = ".new", ".fault"
PARTS = [("openat:error=ENOSPC:when=1", NEW), ("write:error=ENOSPC:when=1", NEW), ("fsync:error=EIO:when=1", NEW),
         ("rename:error=EIO:when=1", NEW), ("fsync:error=EIO:when=1", "")]  # calls that write a device anew: on the new file, on the folder
AFTER_READING = 4  # the number of the call of statx on a device that comes first after its reading
SECONDS = 3


def names_are_synced(folder, program, settings):
    """A session syncs the working folder after it made the folder of devices, and each session the folder of devices, before it writes."""
    if not shutil.which("strace"):
        return "no strace here: not tried"
    for verb, device, _ in SESSIONS:
        plant = Plant(os.path.join(folder, verb), program)
        plant.deliver(NOTHING, HALF["T1"])
        begun = calls_before_writing(plant, verb)
        made = begun[begun.index(("mkdir", ["historian.d"])):]
        assert ("fsync", [os.path.basename(plant.folder)]) in made, "the working folder is not synced: %s" % made
        assert ("fsync", ["historian.d"]) in made, "the folder of devices is not synced: %s" % made
        plant.deliver(HALF)
        assert ("fsync", ["historian.d"]) in calls_before_writing(plant, verb), "an old folder of devices is not synced"
    return "%d sessions" % (2 * len(SESSIONS))


def calls_before_writing(plant, verb):
    """Runs a session, which has to end well: its calls before the first one that writes to a device, as kinds and names."""
    status, text, lines = watched(plant, verb)
    assert status == 0, text
    calls = list(map(kind_and_names, lines))
    return calls[:[kind for kind, _ in calls].index("pwrite64")]


def failed_sync_leaves_mark(folder, program, settings):
    """If the sync of a device fails as it is opened, the device is refused and gets a mark. The next command writes it anew,
    and nothing is lost."""
    if not shutil.which("strace"):
        return "no strace here: not tried"
    count = 0
    for verb, device, audit in SESSIONS:
        old = stood(os.path.join(folder, verb), program, verb)
        plant = old.copy(os.path.join(folder, verb + str(count)))
        before = node(plant, device)
        paths = ["historian.d", "historian.d/" + device]
        status, text, _ = injected(plant, verb, ["fsync:error=EIO:when=1"], paths)
        assert (status, text) == (7, "fault: device %s\n" % UNITS[device]), (status, text)
        assert left_over(plant) == [device + MARK] and node(plant, device) == before, left_over(plant)
        audit(plant, HALF, True)
        assert not left_over(plant) and node(plant, device) != before, left_over(plant)
        count += 1
    return "%d devices" % count


def failed_renewal_keeps_mark(folder, program, settings):
    """If a marked device cannot be written anew, it is refused and keeps its mark. The next command writes it anew."""
    if not shutil.which("strace"):
        return "no strace here: not tried"
    count = 0
    for verb, device, audit in SESSIONS:
        old = stood(os.path.join(folder, verb), program, verb)
        old.write("historian.d/" + device + MARK, b"")
        for error, behind in PARTS:
            plant = old.copy(os.path.join(folder, verb + str(count)))
            path = "historian.d/" + device + behind if behind else "historian.d"
            status, text, _ = injected(plant, verb, [error], [path])
            assert (status, text) == (7, "fault: device %s\n" % UNITS[device]), (error, status, text)
            assert device + MARK in left_over(plant), "%s of %s: the mark is gone" % (error, path)
            audit(plant, HALF, True)
            assert not left_over(plant), left_over(plant)
            count += 1
    return "%d failed calls" % count


def replaced_devices(folder, program, settings):
    """A device that is replaced by a file of its length, after the program read it, is refused and stays as it is."""
    if not shutil.which("strace"):
        return "no strace here: not tried"
    for verb, device, _ in SESSIONS:
        plant = full_plant(os.path.join(folder, verb), program)
        data = plant.read("historian.d/" + device)
        child, trace = delayed(plant, verb, device)
        shutil.copy(plant.device(device), plant.path("copy"))
        while "pread64(" not in plant.read(trace).decode(errors="replace") and child.poll() is None:
            time.sleep(0.01)
        os.replace(plant.path("copy"), plant.device(device))
        text = "".join(line for part in child.communicate() for line in part.splitlines(True) if not line.startswith("strace: "))
        assert (child.returncode, text) == (7, "fault: device %s\n" % UNITS[device]), (child.returncode, text)
        assert plant.read("historian.d/" + device) == data, "%s has changed" % device
        plant.told("check" if verb == "run" else "rows")
    return "%d devices" % len(SESSIONS)


def delayed(plant, verb, device):
    """Starts a session that waits after it read a device. Returns the process and the file with the calls on the device."""
    under = ["strace", "-f", "-qq", "-o", "trace", "-e", "trace=statx,pread64",
             "-e", "inject=statx:delay_enter=%d:when=%d" % (SECONDS * 1_000_000, AFTER_READING)]
    for path in ("historian.d/" + device, plant.device(device)):
        under += ["-P", path]
    return plant.start(*COMMANDS[verb], under=under), "trace"


CASES = [names_are_synced, failed_sync_leaves_mark, failed_renewal_keeps_mark, replaced_devices]
