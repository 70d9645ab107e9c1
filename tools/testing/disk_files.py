"""disk_files.py: tests of files that are damaged or of another kind; test_disk.py runs them.

The program reads a folder that it may not write to. Within seconds it refuses a link, a file with two names, what is no file, a file of
more than 1 GB, and a file whose first byte is damaged. These stay as they are. It refuses a record of many fields in little memory."""
import os
import random
import shlex
import shutil
import socket
import stat
import subprocess
import time

from disk_plant import COMMANDS, OPEN, TAGS, UNITS, Plant, base_text
from trial import check_same

NOBODY = 65534
MOST_SECONDS = 20
OPENS = {"T1.tag": ("check", "trend", "run", "frames", "shifts"), "T3.tag": ("check", "trend", "run", "frames", "shifts"),
         "shift.grp": ("trend", "run", "frames"), "plant.log": ("log",)}
READS = ("check", "trend", "frames", "shifts")
CALENDAR = b'zone = "CET-1"\nstarts = ["06:00", "18:00"]\ntags = ["T1"]\nmeasure = "avg"\n'


def full_plant(folder, program):
    """A plant whose tags, group and log have devices with all rows."""
    plant = Plant(folder, program)
    plant.write("calendar.toml", CALENDAR)
    plant.write("more.toml", base_text(names=TAGS + ("T4",)).encode())
    for verb in ("run", "log"):
        plant.told(verb)
    return plant


def state(plant):
    """The names in the folder of devices, each with kind and rights, length, number, time of change, and the target of a link."""
    found = {}
    for name in sorted(os.listdir(plant.path("historian.d"))):
        seen = os.lstat(plant.device(name))
        target = os.readlink(plant.device(name)) if stat.S_ISLNK(seen.st_mode) else None
        found[name] = seen.st_mode, seen.st_size, seen.st_ino, seen.st_mtime_ns, target
    return found


def refused(plant, name):
    """Fails unless each command that opens a device refuses it within seconds and changes nothing: how many commands."""
    before = state(plant)
    for verb in OPENS[name]:
        start = time.monotonic()
        status, text = plant.call(*COMMANDS[verb])
        took = time.monotonic() - start
        assert (status, text) == (7, "fault: device %s\n" % UNITS[name]), "%s of %s: exit %d, %s" % (verb, name, status, text)
        assert took < MOST_SECONDS, "%s of %s takes %.1f seconds" % (verb, name, took)
        assert state(plant) == before, "%s beside a bad %s changes the folder" % (verb, name)
    return len(OPENS[name])


def unknown_word(folder, program, settings):
    """With words that are no command, and for `pack` and `drill`, the program opens no device, and writes no marked one anew."""
    plant = full_plant(os.path.join(folder, "plant"), program)
    plant.write("historian.d/T1.tag.fault", b"")
    before = state(plant)
    for words in (("chek", "base.toml"), ("--help",), ()):
        assert plant.call(*words) == (2, "fault: words\n"), words
    for words in (("pack", "0", "1000000", "1", "0", "1000000"), ("drill", "1", "1", "4")):
        assert plant.call(*words, stdin=subprocess.DEVNULL)[0] == 0, words
    assert state(plant) == before, "a command without devices changes the folder"


def damaged_first_bytes(folder, program, settings):
    """A device whose first byte is neither 00 nor an open gate is refused. Once the byte is put back, the program reads it."""
    draw, count = random.Random(settings.seed), 0
    plant = full_plant(os.path.join(folder, "plant"), program)
    wanted = plant.told("trend")
    for name in OPENS:
        good = plant.read("historian.d/" + name)
        bits = [OPEN ^ 1 << bit for bit in range(8)]
        for byte in draw.sample(bits, 2) + [draw.choice([b for b in range(1, 256) if b != OPEN])]:
            plant.write("historian.d/" + name, bytes([byte]) + good[1:])
            count += refused(plant, name)
            assert plant.read("historian.d/" + name) == bytes([byte]) + good[1:]
        plant.write("historian.d/" + name, good)
    check_same(plant.told("trend"), wanted, "once the byte is put back")
    return "%d refusals" % count


def closed_first_bytes(folder, program, settings):
    """A tag's device or the log is refused if its first byte is 00 and a later gate is open. A device without one begins anew."""
    count, plant = 0, full_plant(os.path.join(folder, "plant"), program)
    for name in ("T1.tag", "plant.log"):
        good = plant.read("historian.d/" + name)
        plant.write("historian.d/" + name, b"\0" + good[1:])
        count += refused(plant, name)
        plant.write("historian.d/" + name, good)
    good = plant.read("historian.d/T1.tag")
    plant.write("historian.d/T1.tag", b"\0" + good[1:384] + bytes(len(good) - 384))
    assert plant.told("check").startswith("tag T1 taken=0 ")
    return "%d refusals" % count


def zeroed_first_sectors(folder, program, settings):
    """A tag's device with records behind its lane is refused if its first sector is zeros: one that is being made is shorter."""
    plant = full_plant(os.path.join(folder, "plant"), program)
    plant.told("retune")  # this puts the records behind the lane
    good = plant.read("historian.d/T1.tag")
    plant.write("historian.d/T1.tag", bytes(512) + good[512:])
    return "%d refusals" % refused(plant, "T1.tag")


def links_and_names(folder, program, settings):
    """Links (to a device, to a text, to nothing, to themselves), files with two names, and what is no file are refused."""
    count = 0
    plant = full_plant(os.path.join(folder, "plant"), program)
    for name in OPENS:
        for place, make in enumerate(KINDS):
            path = plant.device(name)
            shutil.move(path, plant.path("kept"))
            outside = plant.path("outside%d" % place)
            shutil.copy(plant.path("kept"), outside)
            make(path, outside)
            seen = plant.read(outside)
            count += refused(plant, name)
            assert plant.read(outside) == seen, "what stands behind %s was changed" % make.__name__
            assert not os.path.exists(plant.path("nothing")), "a link to nothing made a file"
            shutil.rmtree(path) if os.path.isdir(path) else os.remove(path)
            shutil.move(plant.path("kept"), path)
    plant.told("check")
    return "%d refusals" % count


def link_to_device(path, outside):
    os.symlink(outside, path)


def link_to_text(path, outside):
    with open(outside, "w") as text:
        text.write("no device\n")
    os.symlink(outside, path)


def link_to_nothing(path, outside):
    os.symlink(os.path.join(os.path.dirname(outside), "nothing"), path)


def link_to_itself(path, outside):
    os.symlink(os.path.basename(path), path)


def second_name(path, outside):
    os.link(outside, path)


def pipe(path, outside):
    os.mkfifo(path)


def end_point(path, outside):
    with socket.socket(socket.AF_UNIX) as listener:
        listener.bind(path)


def subfolder(path, outside):
    os.mkdir(path)


KINDS = [link_to_device, link_to_text, link_to_nothing, link_to_itself, second_name, pipe, end_point, subfolder]


def large_files(folder, program, settings):
    """Files of 10 GB that take no room on the disk are refused, with less than 500 MB of memory: zeros, or a device and zeros."""
    count, most = 0, 0
    plant = full_plant(os.path.join(folder, "plant"), program)
    for name in OPENS:
        good = plant.read("historian.d/" + name)
        for begin in (b"", good):
            plant.write("historian.d/" + name, begin)
            os.truncate(plant.device(name), 10 << 30)
            most = max(most, memory_of(plant, COMMANDS[OPENS[name][-1]]))
            count += refused(plant, name)
            assert os.stat(plant.device(name)).st_blocks < 1000, "the file takes room now"
        plant.write("historian.d/" + name, good)
    assert most < 500_000, "%d KB of memory" % most
    return "%d refusals, at most %d MB of memory" % (count, most // 1000)


def wide_records(folder, program, settings):
    """A record of eight million fields is refused, with less than 40 MB of memory: commas alone, or behind a row, quotes and line ends."""
    count, most = 0, 0
    plant = Plant(os.path.join(folder, "plant"), program)
    for name, first in (("c1.csv", b"T1,0,500\n"), ("asks.csv", b"snap,T1\n")):
        good = plant.read(name)
        for row, begin in ((1, b""), (2, first + b'"a\n,""b"'), (3, first + first + b'\r\n\n"",x')):
            plant.write(name, begin)
            with open(plant.path(name), "ab") as out:  # in pieces, because a child counts the memory of its parent
                for _ in range(1000):
                    out.write(b"," * 8000)
            for verb in ("run", "log") if name == "c1.csv" else ("run", "trend"):
                status, text = plant.call(*COMMANDS[verb])
                assert status == 4 and text.endswith(" %d fields\n" % row), (verb, name, status, text)
                most = max(most, memory_of(plant, COMMANDS[verb]))
                count += 1
        plant.write(name, good)
    assert most < 40_000, "%d KB of memory" % most
    return "%d refusals, at most %d MB of memory" % (count, most // 1000)


def memory_of(plant, words):
    """Runs a command: its peak memory in KB."""
    child = plant.start(*words)
    used = os.wait4(child.pid, 0)[2].ru_maxrss
    child.communicate()
    return used


def strangers(folder, program, settings):
    """Files in the folder that no command needs change nothing. The folder may be a link, but no file, and no link to nothing."""
    plant = full_plant(os.path.join(folder, "plant"), program)
    wanted = {verb: plant.told(verb) for verb in READS}
    os.symlink("nothing", plant.device("a.tag"))
    os.mkdir(plant.device("b.grp"))
    os.mkfifo(plant.device("c.tag"))
    plant.write("historian.d/d.tag", b"no device")
    plant.write("historian.d/e.tag", b"")
    os.truncate(plant.device("e.tag"), 10 << 30)
    with open(os.fsencode(plant.path("historian.d")) + b"/\xff.tag", "wb") as out:
        out.write(b"a name that is no text")
    os.rename(plant.path("historian.d"), plant.path("elsewhere"))
    os.symlink("elsewhere", plant.path("historian.d"))
    for verb in READS:
        check_same(plant.told(verb), wanted[verb], verb + " beside strangers")
    os.remove(plant.path("historian.d"))
    plant.write("historian.d", b"no folder")
    assert plant.call(*COMMANDS["check"]) == (7, "fault: device tag 1\n") and plant.read("historian.d") == b"no folder"
    os.remove(plant.path("historian.d"))
    os.symlink("nothing", plant.path("historian.d"))
    assert plant.call(*COMMANDS["check"]) == (7, "fault: device tag 1\n") and not os.path.exists(plant.path("nothing"))
    return "%d commands" % len(READS)


def reads_what_it_may(plant, wanted, **user):
    """Fails unless commands that read answer as before, those that have to write end with a fault, and nothing changes."""
    before = state(plant)
    for verb in READS:
        assert plant.call(*COMMANDS[verb], **user) == (0, wanted[verb]), "%s: %s" % (verb, plant.call(*COMMANDS[verb], **user))
    faults = {COMMANDS["run"]: "tag 1", COMMANDS["log"]: "log", COMMANDS["retune"]: "tag 1", ("check", "more.toml"): "tag 4"}
    for words, unit in faults.items():
        assert plant.call(*words, **user) == (7, "fault: device %s\n" % unit), (words, plant.call(*words, **user))
    assert state(plant) == before


def for_everybody(folder, program):
    """Copies the program so that each user may run it, and opens the folder to each user: the command of the copy."""
    os.chmod(folder, 0o755)
    first, *others = shlex.split(program)
    copy = os.path.join(folder, "program")
    # A process of its own writes the copy: no program can be run that this process may still write to.
    subprocess.run(["cp", first, copy], check=True)
    os.chmod(copy, 0o755)
    return shlex.join([copy, *others])


def reader():
    """Settings that start a process as a user who owns nothing, if this process is root's."""
    return {"user": NOBODY, "group": NOBODY, "extra_groups": []} if os.getuid() == 0 else {}


def may_only_be_read(plant):
    """Takes the right to write to the devices and their folder from all but root."""
    for name in os.listdir(plant.path("historian.d")):
        os.chmod(plant.device(name), 0o444)
    os.chmod(plant.path("historian.d"), 0o555)


def read_only_files(folder, program, settings):
    """A user who may read the folder and write nothing in it gets answers. A device that he may not read is a fault."""
    plant = full_plant(os.path.join(folder, "plant"), for_everybody(folder, program))
    wanted = {verb: plant.told(verb) for verb in READS}
    may_only_be_read(plant)
    try:
        reads_what_it_may(plant, wanted, **reader())
        os.chmod(plant.device("T1.tag"), 0)
        assert plant.call(*COMMANDS["check"], **reader()) == (7, "fault: device tag 1\n")
    finally:
        os.chmod(plant.path("historian.d"), 0o755)
    return "8 commands"


def read_only_mount(folder, program, settings):
    """The program answers on a file system that is mounted for reading alone, if one may be mounted here."""
    place = os.path.join(folder, "small")
    os.makedirs(place)
    if subprocess.run(["mount", "-t", "tmpfs", "tmpfs", place], stderr=subprocess.DEVNULL).returncode:
        return "no file system may be mounted here: not tried"
    try:
        plant = full_plant(os.path.join(place, "plant"), program)
        wanted = {verb: plant.told(verb) for verb in READS}
        subprocess.run(["mount", "-o", "remount,ro", place], check=True)
        reads_what_it_may(plant, wanted)
    finally:
        subprocess.run(["umount", place], check=True)
    return "8 commands"


CASES = [unknown_word, damaged_first_bytes, closed_first_bytes, zeroed_first_sectors, links_and_names, large_files, wide_records, strangers,
         read_only_files, read_only_mount]
