"""disk_renew.py: tests of what becomes of a device on which a write or a sync has failed; test_disk.py runs them.

After a failure the system may show bytes that never came to the disk. So the program writes the whole file anew: it syncs a new file,
gives it the old one's name, and syncs the folder. If that fails after a failed sync, it leaves a mark, the file `NAME.fault`. Then the
next run that can do it writes the device anew before it trusts what it reads."""
import os
import random
import shutil
import stat

from disk_calls import audit_log, audit_run, injected, stood
from disk_files import READS, for_everybody, full_plant, may_only_be_read, reader, state
from disk_plant import COMMANDS, HALF, UNITS

RENEWALS = {"openat": 4, "write": 1, "fsync": 3, "rename": 1}  # which call of its kind, on the folder and the files, writes the device anew
ORDER = ["write", "fsync", "rename", "fsync", "unlink", "fsync"]  # of the calls that write a device anew and remove its mark


def left_over(plant):
    """The names in the folder of devices that are no devices."""
    return sorted(name for name in os.listdir(plant.path("historian.d")) if name not in UNITS)


def node(plant, device):
    """The number of the file that has a device's name."""
    return os.stat(plant.device(device)).st_ino


def renewal(calls, device):
    """The kinds of the calls on a device's new file, its mark and the folder, in order. Several of a kind in a row are one."""
    kinds = []
    for kind, names in calls:
        is_folder = kind == "fsync" and names[:1] == ["historian.d"]
        if (is_folder or {device + ".new", device + ".fault"} & set(names)) and kinds[-1:] != [kind] or kind == "rename":
            kinds.append(kind)
    return kinds


def fail(plant, verb, device, errors):
    """Runs a session in which calls on a device and its new file have errors: the calls after the first one."""
    paths = ["historian.d", "historian.d/" + device, "historian.d/" + device + ".new", "historian.d/" + device + ".fault"]
    status, text, later = injected(plant, verb, errors, paths)
    assert later is not None and (status, text) == (7, "fault: device %s\n" % UNITS[device]), (device, errors, status, text)
    return later


def each_failure(folder, program, settings, look):
    """Makes a write or a sync of a device fail in session after session, calls `look` for each, and checks what is left: how many."""
    draw, count = random.Random(settings.seed), 0
    for verb, devices, audit in (("run", ("T1.tag", "T2.tag", "T3.tag", "shift.grp"), audit_run), ("log", ("plant.log",), audit_log)):
        old = stood(os.path.join(folder, verb), program, verb)
        for place in range(max(2, settings.count // 10)):
            plant = old.copy(os.path.join(folder, verb + str(place)))
            error = "%s:error=EIO:when=%d" % (draw.choice(("pwrite64", "fdatasync")), draw.randint(1, 3))
            look(plant, verb, draw.choice(devices), error)
            audit(plant, HALF, True)
            assert not left_over(plant), left_over(plant)
            count += 1
            shutil.rmtree(plant.folder)
    return count


def written_anew(folder, program, settings):
    """After a failed write or sync the device is another file, with all that was acknowledged. No other file is left."""
    if not shutil.which("strace"):
        return "no strace here: not tried"

    def look(plant, verb, device, error):
        before = node(plant, device)
        later = fail(plant, verb, device, [error])
        assert node(plant, device) != before, "%s is the same file as before" % device
        assert not left_over(plant), left_over(plant)
        kinds = renewal(later, device)
        assert kinds[kinds.index("write"):] == ORDER, "%s: %s" % (error, kinds)
    return "%d devices" % each_failure(folder, program, settings, look)


def marked(folder, program, settings):
    """If writing the device anew fails too, a mark is left after a failed sync, and none after a failed write. The next command that may
    write writes the marked device anew, and removes the mark."""
    if not shutil.which("strace"):
        return "no strace here: not tried"
    draw = random.Random(settings.seed)

    def look(plant, verb, device, error):
        kind, number = draw.choice(list(RENEWALS.items()))
        before = node(plant, device)
        fail(plant, verb, device, [error, "%s:error=ENOSPC:when=%d" % (kind, number)])
        is_marked = error.startswith("fdatasync")
        assert (device + ".fault" in left_over(plant)) == is_marked and node(plant, device) == before, (error, kind, left_over(plant))
        plant.told("check" if verb == "run" else "rows")
        if kind == "rename" and not is_marked:
            # A new file that could not be renamed stays until another one is written.
            os.remove(plant.device(device + ".new"))
        assert not left_over(plant) and (node(plant, device) != before) == is_marked, "%s: %s" % (kind, left_over(plant))
    return "%d devices" % each_failure(folder, program, settings, look)


def marked_and_read_only(folder, program, settings):
    """A marked device is refused and stays as it is if the user may not write. Once another user may, all commands answer."""
    plant = full_plant(os.path.join(folder, "plant"), for_everybody(folder, program))
    wanted = {verb: plant.told(verb) for verb in READS}
    plant.write("historian.d/T1.tag.fault", b"")
    may_only_be_read(plant)
    before = state(plant)
    try:
        for verb in READS:
            assert plant.call(*COMMANDS[verb], **reader()) == (7, "fault: device tag 1\n"), plant.call(*COMMANDS[verb], **reader())
        assert state(plant) == before
    finally:
        os.chmod(plant.path("historian.d"), 0o755)
    for verb in READS:
        assert plant.told(verb) == wanted[verb]
    assert left_over(plant) == []
    return "%d commands" % (2 * len(READS))


def renewal_follows_no_link(folder, program, settings):
    """The program does not follow a link that has the name of the new file: the file behind it stays as it is."""
    plant = full_plant(os.path.join(folder, "plant"), program)
    plant.write("outside", b"somebody's text\n")
    plant.write("historian.d/T1.tag.fault", b"")
    os.symlink("../outside", plant.device("T1.tag.new"))
    status, text = plant.call(*COMMANDS["check"])
    assert plant.read("outside") == b"somebody's text\n", "what is behind the link is overwritten (exit %d, %s)" % (status, text)
    return "1 link"


def renewal_keeps_rights(folder, program, settings):
    """A device that is written anew keeps its rights; its owner too, which only root can try."""
    plant = full_plant(os.path.join(folder, "plant"), program)
    os.chmod(plant.device("T1.tag"), 0o600)
    if os.getuid() == 0:
        os.chown(plant.device("T1.tag"), 1, 1)
    before = os.stat(plant.device("T1.tag"))
    plant.write("historian.d/T1.tag.fault", b"")
    plant.told("check")
    after = os.stat(plant.device("T1.tag"))
    assert stat.S_IMODE(after.st_mode) == 0o600, "rights are %o now" % stat.S_IMODE(after.st_mode)
    assert (after.st_uid, after.st_gid) == (before.st_uid, before.st_gid), "the owner is %d now" % after.st_uid
    return "1 device"


CASES = [written_anew, marked, marked_and_read_only, renewal_follows_no_link, renewal_keeps_rights]
