"""told.py: tests of what the tools print of rare things: late and rounded values, files without values, backups within a second and
backups that were stopped."""
import os
import re
import shutil

import fields
import backups
from daily import refused
from plant import Plant
from trial import REFUSED, Trial, two_blocks


def folder_of(folder, name):
    """A folder for a plant of its own."""
    place = os.path.join(folder, name)
    os.makedirs(place)
    return place


def turn_line(text):
    """The line of a turn."""
    return next(line for line in text.splitlines() if line.startswith("turn ") and " files, " in line)


def late_by_program(trial):
    """How many late values the program counts."""
    return sum(int(count) for count in re.findall(r" late=(\d+) ", trial.by_hand("check", "base.toml")))


def late_values_are_counted(folder, program, settings):
    """The line of a turn says how many values came late, and only then; so does that of a turn that was stopped before, within or after
    the storing. A value is late too if the newer one before it was set aside."""
    for how in (None, "before", "half", "after"):
        trial = Trial(folder_of(folder, str(how)), program)
        trial.write("inbox/1.csv", "LIC4.PV,1000,5\nLIC4.PV,2000,60\nFIC1.PV,2000,1\nLIC4.PV,3000,5\n")
        assert turn_line(trial.fed()) == "turn 1: 1 files, 4 values of 2 tags stored, 0 refused"
        trial.write("inbox/2.csv", "LIC4.PV,3500,8\nLIC4.PV,3200,6\nFIC1.PV,2000,2\nFIC1.PV,1000,2\nLIC4.PV,4000,90\nXV7.ZSO,5,1\n")
        if how:
            assert trial.feed(how=how)[0] == 137
        line = turn_line(trial.fed())
        assert line == "turn 2: 1 files, 6 values of 3 tags stored, 0 refused, 3 late" and late_by_program(trial) == 3, line
        trial.write("inbox/3.csv", "LIC4.PV,3999,1\nLIC4.PV,soon,1\n")
        assert turn_line(trial.fed(ends=REFUSED)) == "turn 3: 1 files, 1 values of 1 tags stored, 1 refused, 1 late"
    two, _ = two_blocks(folder, program)
    before = late_by_program(two)
    assert turn_line(two.fed()).endswith(" refused, %d late" % (late_by_program(two) - before)) and late_by_program(two) > before


def rounded_values_are_counted(folder, program, settings):
    """Zeros behind the point change nothing, also without a scale. What is rounded is counted, also if the turn is stopped; without a
    scale it is refused."""
    for how in (None, "half", "after"):
        trial = Trial(folder_of(folder, str(how)), program)
        trial.write("feed.toml", 'settle_seconds = 0\n[tag."FIC1.PV"]\nscale = 100\n')
        trial.write("inbox/1.csv", "LIC4.PV,1,4.0\nLIC4.PV,2,7.00\nLIC4.PV,3,1.25E2\nFIC1.PV,1,1.5000\n")
        assert turn_line(trial.fed()) == "turn 1: 1 files, 4 values of 2 tags stored, 0 refused"
        assert "held=3,125\n" in trial.by_hand("check", "base.toml") and "held=1,150\n" in trial.by_hand("check", "base.toml")
        trial.write("inbox/2.csv", "FIC1.PV,2,48.705\nFIC1.PV,3,48.70\nFIC1.PV,4,-2.345\nLIC4.PV,4,7.5\nFIC1.PV,1,1.2300\n")
        if how:
            assert trial.feed(how=how)[0] == 137
        text = trial.fed(ends=REFUSED)
        assert turn_line(text) == "turn 2: 1 files, 4 values of 1 tags stored, 1 refused, 1 late, 2 rounded", text
        assert "2.csv row 4: LIC4.PV: a decimal, and no scale for this tag in feed.toml: '7.5'" in text, text
        assert "held=4,-235\n" in trial.by_hand("check", "base.toml")


def exact_or_rounded(folder, program, settings):
    """Each text as it is stored, and whether it was rounded; or why it is refused."""
    for text, scale, wanted in [
            ("4.0", None, (4, False)), ("7.00", None, (7, False)), ("-0.000", None, (0, False)), ("1.25E2", None, (125, False)),
            ("70e-1", None, (7, False)), ("4.0", 1, (4, False)), ("4.10", 10, (41, False)), ("4.1000", 10, (41, False)),
            ("4.11", 10, (41, True)), ("4.15", 10, (42, True)), ("-4.15", 10, (-42, True)), ("0.001", 100, (0, True)),
            ("0.5", 3, (2, True)), ("1.5", 2, (3, False))]:
        assert fields.value_and_rounding(text, scale) == wanted, (text, fields.value_and_rounding(text, scale))
    for text in ("7.5", "7.000000000000000000001", "5e-1"):
        why = refused(fields.value_and_rounding, text, None)
        assert "a decimal, and no scale for this tag in feed.toml" in why, (text, why)


EMPTY = "stays in the inbox: it is empty, so its first row is still to come, or was cut off. If nothing writes to it any more, remove it"
NOTHING = {"b.csv": ("tag,time,value\n", "a header, and no row"), "c.csv": ("time,LIC4.PV\r\n", "a header, and no row"),
           "e.csv": ("\n\r\n", "blank lines alone"), "f.csv": ("time,LIC4.PV\n1000,\n2000,\n", "rows, and no value in any")}


def files_without_values(folder, program, settings):
    """An empty file stays in the inbox. One with a header alone goes to done/ as it is. Each is said in exact words, and an empty file
    is fed once it has rows."""
    trial = Trial(os.path.join(folder, "a"), program)
    for name, text in {"a.csv": "", "d.csv": "\ufeff"}.items() | {name: text for name, (text, _) in NOTHING.items()}.items():
        trial.write("inbox/" + name, text)
    text = trial.fed(ends=REFUSED)
    for name in ("a.csv", "d.csv"):
        assert "inbox/%s %s\n" % (name, EMPTY) in text, text
    assert turn_line(text) == "turn 1: 4 files, 0 values of 0 tags stored, 0 refused", text
    for name, (held, what) in NOTHING.items():
        assert "  %s has %s: nothing of it is stored, and it goes to done/000001\n" % (name, what) in text, text
        with open(trial.path("done/000001", name), newline="") as kept:
            assert kept.read() == held, name
    assert sorted(os.listdir(trial.path("inbox"))) == ["a.csv", "d.csv"]
    trial.write("inbox/a.csv", "tag,time,value\nLIC4.PV,1000,5\n")
    trial.write("inbox/b.csv", NOTHING["b.csv"][0])  # the same header again, as the next day brings it
    text = trial.fed(ends=REFUSED)
    assert "turn 2: 2 files, 1 values of 1 tags stored, 0 refused\n  b.csv has a header, and no row" in text, text


def part_in_the_inbox(folder, program, settings):
    """A file *.part is left alone. If it is an hour old, that is said, each time."""
    trial = Trial(os.path.join(folder, "a"), program)
    for name in ("x.csv.part", "y.csv.part"):
        trial.write("inbox/" + name, "LIC4.PV,1000,5\n")
    assert trial.fed() == ""
    old = os.path.getmtime(trial.path("inbox/y.csv.part")) - 3_601
    os.utime(trial.path("inbox/y.csv.part"), (old, old))
    for _ in range(2):
        text = trial.fed(ends=REFUSED)
        assert text == ("inbox/y.csv.part stays in the inbox: its name ends in .part, so copying it was stopped. Copy it again, or take"
                        " .part off its name if it is whole\n"), text
    os.rename(trial.path("inbox/y.csv.part"), trial.path("inbox/y.csv"))
    assert turn_line(trial.fed()) == "turn 1: 1 files, 1 values of 1 tags stored, 0 refused"


def backups_within_a_second(folder, program, settings):
    """Each of several backups within a second is whole, and has a name of its own."""
    trial, _ = two_blocks(folder, program)
    plant, names = Plant(trial.folder, program), []
    with plant.locked("test", 5):
        for _ in range(3):
            names.append(backups.back_up(plant))
    assert sorted(os.listdir(trial.path("backup"))) == sorted({os.path.basename(name) for name in names}) and len(set(names)) == 3, names
    for name in names:
        assert sorted(os.listdir(trial.path(name, "historian.d"))) == sorted(set(os.listdir(trial.path("historian.d"))) - {"feed.lock"})
        assert trial.read(os.path.join(name, "feed.d/seals")) == trial.read("feed.d/seals")


def backups_that_were_stopped(folder, program, settings):
    """What stops left of two backups is removed, and that is said. A file of such a name is left alone, and the backup is made."""
    trial, _ = two_blocks(folder, program)
    first = trial.fed("--backup").strip()
    for name in ("000001.2020-01-01T000000Z.part", "000002.2020-01-02T000000Z.part"):
        shutil.copytree(trial.path(first, "feed.d"), trial.path("backup", name, "feed.d"))
    os.makedirs(trial.path("backup/mine.part"))
    for name in ("000003.2020-01-03T000000Z.part", "mine.part/mine"):
        trial.write("backup/" + name, "mine")
    os.symlink(trial.path(first), trial.path("backup/000004.2020-01-04T000000Z.part"))
    text = trial.fed("--backup")
    for name in ("000001.2020-01-01T000000Z.part", "000002.2020-01-02T000000Z.part"):
        assert "backup/%s, a copy that was stopped, is removed\n" % name in text, text
    for name in ("000003.2020-01-03T000000Z.part", "000004.2020-01-04T000000Z.part"):
        assert "backup/%s is no folder, so feed.py did not make it: it stays as it is\n" % name in text, text
    second = re.search(r"^backup/\S+Z$", text, re.M)[0]
    assert sorted(os.listdir(trial.path("backup"))) == sorted([os.path.basename(first), os.path.basename(second), "mine.part"] + [
        "000003.2020-01-03T000000Z.part", "000004.2020-01-04T000000Z.part"]), os.listdir(trial.path("backup"))
    assert trial.read("backup/000003.2020-01-03T000000Z.part") == trial.read("backup/mine.part/mine") == "mine"
    assert os.path.exists(trial.path(first, "feed.d/seals"))


CASES = [late_values_are_counted, rounded_values_are_counted, exact_or_rounded, files_without_values, part_in_the_inbox,
         backups_within_a_second, backups_that_were_stopped]
