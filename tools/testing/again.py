"""again.py: tests of a plant that is put back from a backup, of growing files, and of what they do if they are stopped; test_tools.py
runs them."""
import json
import os
import random
import shutil
import subprocess
import time

from kills import stop_at_each, strace
from trial import (LINES, REFUSED, STEPS, Trial, base_text, block_rows, check_same, children, decimal, expected, feed_text, iso, kill,
                   wait_for_orphans)

FEEDER_CALLS = ("fsync", "rename", "unlink", "unlinkat", "rmdir", "mkdir", "ftruncate", "link", "sendfile")


def lived_in(folder, program, hours=1):
    """A plant with a backup after its first turn, and with turns since: blocks, refused rows that were corrected later, a tag that was
    added later, an edited base, a file that came twice. Its answers, and the copy's name."""
    trial = Trial(os.path.join(folder, "a"), program)
    names = [name for name in ("FIC1.PV", "FIC2.PV", "TIC3.PV", "LIC4.PV", "PIC5.PV", "QIC6.PV", "XV7.ZSO", "XV8.ZSO")]
    trial.write("base.toml", base_text(names=names[:6]))
    trial.write("feed.toml", feed_text().replace('[tag."XV7.ZSO"]\nscale = 1\n[tag."XV8.ZSO"]\nscale = 1\n', ""))
    trial.deliver(0, hours=hours)
    trial.fed(ends=REFUSED)  # the rows of the two step tags
    copy = os.path.basename(trial.fed("--backup").strip())
    trial.write("inbox/r.csv", "FIC1.PV,2024-03-29T09:00:00Z,1.25\nLIC4.PV,soon,7\n")
    trial.fed(ends=REFUSED)
    trial.write("base.toml", base_text(names=names))
    trial.write("feed.toml", feed_text())
    for number, names in enumerate(sorted(os.listdir(trial.path("refused")))):
        for name in os.listdir(trial.path("refused", names)):
            corrected = trial.read(os.path.join("refused", names, name)).replace("soon", "2024-03-29T09:01:00Z")
            trial.write("inbox/c%d-%s" % (number, name), corrected)
    trial.fed()
    trial.write("base.toml", base_text(comp_dev=4))
    shutil.copy(trial.path("done/000001/00-a.csv"), trial.path("inbox/twice.csv"))
    trial.deliver(1, hours=hours)
    trial.fed()
    trial.deliver(2, hours=hours)
    trial.fed()
    return trial, trial.answers(), copy


def damage(trial):
    """Flips a bit of a device that the feeder has sealed."""
    with open(trial.path("historian.d/FIC1.PV.tag"), "r+b") as device:
        device.seek(75)
        byte = device.read(1)
        device.seek(75)
        device.write(bytes([byte[0] ^ 1]))


def put_back(folder, program, settings):
    """A plant is put back: the archive is that from before, whatever happened between, and goes on. Each way to name the copy is good."""
    trial, wanted, copy = lived_in(folder, program)
    files = sorted(os.path.join(place, name) for top in ("done", "refused") for place, _, names in os.walk(trial.path(top)) for name in names)
    for asked in (copy, "1", "last", copy.split(".")[1], "nothing"):
        damage(trial)
        assert trial.feed()[0] == 21
        text = trial.fed("--restore", asked)
        assert "turns up to turn 5 are made again" in text and "the plant is put back from" in text, text
        check_same(trial.answers("feed.d/base.toml"), wanted, "put back from " + asked)
        assert trial.fed() == "" and "each as the last turn left it" in trial.fed("--verify")
    assert files == sorted(os.path.join(place, name) for top in ("done", "refused") for place, _, names in os.walk(trial.path(top))
                           for name in names)
    shutil.copy(trial.path("done/000005/02-a.csv"), trial.path("inbox/again.csv"))
    assert "none of its rows is stored again" in trial.fed()
    assert len(os.listdir(trial.path("replaced"))) == 5


def feed_undone(trial, turns):
    """Feeds the files of undone turns, with the base that they had."""
    trial.write("base.toml", base_text(comp_dev=4))
    for turn in turns:
        for name in os.listdir(trial.path("undone", turn)):
            if name.endswith(".csv"):
                shutil.copy(trial.path("undone", turn, name), trial.path("inbox", name))
        assert "none of its rows" not in trial.fed()


def put_back_until(folder, program, settings):
    """With --until later turns are not made again; they go to undone/, from where their files can be fed."""
    trial, wanted, copy = lived_in(folder, program)
    assert trial.feed("--restore", copy, "--until", "0")[0] == 22 and trial.feed("--until", "3")[0] == 2
    text = trial.fed("--restore", copy, "--until", "3")
    assert "2 turns up to turn 3 are made again" in text and sorted(os.listdir(trial.path("undone"))) == ["000004", "000005"], text
    feed_undone(trial, ("000004", "000005"))
    check_same(trial.answers(), wanted, "after the undone turns were fed")
    assert sorted(os.listdir(trial.path("done"))) == ["000001", "000002", "000003", "000006", "000007"]


def refuses_to_put_back(folder, program, settings):
    """A damaged copy, a missing turn, a turn without its record, no such copy: said, and nothing is changed. What the line advises puts the
    plant back."""
    trial, wanted, copy = lived_in(folder, program)
    state = trial.path("feed.d/restore.json")
    assert "there is no copy 7" in trial.feed("--restore", "7")[1] and trial.feed("--restore", "7")[0] == 22
    device = trial.path("backup", copy, "historian.d/LIC4.PV.tag")
    good = open(device, "rb").read()
    with open(device, "wb") as out:
        out.write(good[:-1] + b"Q")
    status, text = trial.feed("--restore", copy)
    assert status == 21 and "LIC4.PV.tag is damaged or missing, and nothing was done: choose another copy" in text, text
    with open(device, "wb") as out:
        out.write(good)
    os.rename(trial.path("done/000003"), trial.path("kept"))
    status, text = trial.feed("--restore", copy)
    assert status == 21 and "done/000003 is not there, so what turn 3 stored cannot be stored again" in text, text
    os.rename(trial.path("kept"), trial.path("done/000003"))
    os.rename(trial.path("done/000004/turn.json"), trial.path("kept"))
    status, text = trial.feed("--restore", copy)
    assert status == 21 and "so nobody can say what turn 4 stored, and nothing was done" in text and "restore with --until 3," in text, text
    assert not os.path.exists(state)
    check_same(trial.answers(), wanted, "after refused restores")
    trial.fed("--restore", copy, "--until", "3")
    feed_undone(trial, ("000004", "000005"))
    check_same(trial.answers(), wanted, "after what the line advises")


def put_back_elsewhere(folder, program, settings):
    """The plant's disk is lost but for done/. A copy on another disk and done/ make the plant again in an empty folder."""
    trial, wanted, _ = lived_in(folder, program)
    trial.write("calendar.toml", "zone")
    trial.write("feed.toml", 'calendar = "calendar.toml"\n' + trial.read("feed.toml"))
    copy = os.path.basename(trial.fed("--backup").strip())
    trial.write("inbox/x.csv", "LIC4.PV,2024-03-30T00:00:00Z,1\n")
    trial.fed()
    wanted = trial.answers()
    other = Trial(os.path.join(folder, "b"), program)
    for name in ("base.toml", "feed.toml"):
        os.remove(other.path(name))
    os.rmdir(other.path("inbox"))
    shutil.copytree(trial.path("done"), other.path("done"))
    assert "1 turns up to turn 6 are made again" in other.fed("--restore", trial.path("backup", copy))
    assert other.read("calendar.toml") == "zone" and other.fed() == ""
    other.write("base.toml", base_text(comp_dev=4))
    check_same(other.answers(), wanted, "put back in another folder")


def verified_copy_is_put_back(folder, program, settings):
    """A copy is verified in its own folder, which leaves a lock there. It can be put back, and the plant's lock stays the one that is
    held."""
    trial, wanted, copy = lived_in(folder, program)
    place = trial.path("backup", copy)
    status, text = trial.tool("feed.py", "--verify", place)
    assert status == 0 and "each as the last turn left it" in text, text
    lock = os.stat(trial.path("historian.d/feed.lock")).st_ino
    assert "turns up to turn 5 are made again" in trial.fed("--restore", copy)
    assert os.stat(trial.path("historian.d/feed.lock")).st_ino == lock, "another file took the name of the lock that was held"
    check_same(trial.answers("feed.d/base.toml"), wanted, "put back from a copy that was verified")
    with open(os.path.join(place, "historian.d/LIC4.PV.tag"), "ab") as device:
        device.write(b"Q")
    assert trial.tool("feed.py", "--verify", place)[0] == 21


def by_hand_is_not_made_again(folder, program, settings):
    """Values that were stored by hand and sealed are in no turn. A restore says which tag lacks them, and its exit status does."""
    trial, _, copy = lived_in(folder, program)
    trial.store_by_hand([(1_711_900_000_000, "LIC4.PV", 5), (1_711_900_001_000, "LIC4.PV", 50)])
    trial.fed("--seal")
    trial.write("inbox/x.csv", "LIC4.PV,2024-04-02T00:00:00Z,1\n")
    trial.fed()
    trial.write("feed.toml", 'on_trouble = "sh -c \'echo \\"$0\\" > called\'"\n' + trial.read("feed.toml"))
    text, told = trial.fed("--restore", copy, ends=21), "after turn 6 LIC4.PV has "
    assert told in text and "somebody stored values by hand then" in text and "the plant is put back from" in text, text
    assert text.count("somebody stored") == 1 and trial.read("called").startswith(told), (text, trial.read("called"))


def stopped_while_put_back(folder, program, settings):
    """The feeder is killed at its calls while it puts a plant back. The next feed goes on with it, and the archive is that from before."""
    trial, wanted, copy = lived_in(folder, program)
    if not shutil.which("strace"):
        return "no strace here: not tried"
    some = [("rename", [2]), ("fsync", [9]), ("mkdir", [2])]
    each = [(call, range(1, 1000)) for call in FEEDER_CALLS] if settings.long else some
    stood, kills = trial.folder + ".stood", 0
    os.rename(trial.folder, stood)
    for call, numbers in each:
        for number in numbers:
            shutil.copytree(stood, trial.folder, symlinks=True)
            status, text = trial.feed("--restore", copy, under=strace(call, number))
            assert status in (0, 137, -9), (call, number, status, text)
            if status:
                kills += 1
                wait_for_orphans(trial)
                trial.fed(*(() if os.path.exists(trial.path("feed.d/restore.json")) else ("--restore", copy)))
                trial.fed()
            check_same(trial.answers("feed.d/base.toml"), wanted, "stopped at %s %d" % (call, number))
            assert not os.path.exists(trial.path("feed.d/restore.json"))
            shutil.rmtree(trial.folder)
            if not status:
                break
    return "%d kills" % kills


def killed_while_put_back(folder, program, settings):
    """Feeder, program or both are killed at random moments while a plant is put back."""
    trial, wanted, copy = lived_in(folder, program)
    return killed_at_random(trial, wanted, settings, settings.kills if settings.long else 4, ["--restore", copy])


def killed_at_random(trial, wanted, settings, most, first):
    """Kills a feed, and the feeds that go on with it, at random moments; then the archive has to be the wanted one."""
    draw, kills = random.Random(settings.seed), 0
    stood = trial.folder + ".stood"
    os.rename(trial.folder, stood)
    while kills < most:
        shutil.copytree(stood, trial.folder, symlinks=True)
        words, begun = first, time.monotonic()
        while kills < most and time.monotonic() < begun + 20:
            child = subprocess.Popen(trial.words(*words), stdout=subprocess.DEVNULL, stderr=subprocess.DEVNULL)
            time.sleep(draw.uniform(0.05, 0.8))
            running, programs = child.poll() is None, children(child.pid)
            whom = draw.choice(("feeder", "program", "both"))
            for process in ([child.pid] if whom != "program" or not programs else []) + (programs if whom != "feeder" else []):
                kill(process)
            child.wait()
            wait_for_orphans(trial)
            kills += running
            if not running:
                break
            words = first if first and not os.path.exists(trial.path("feed.d/restore.json")) else []
        trial.fed(*(first if first and not os.path.exists(trial.path("feed.d/restore.json")) else []))
        trial.fed()
        check_same(trial.answers("feed.d/base.toml"), wanted, "after %d kills (seed %d)" % (kills, settings.seed))
        shutil.rmtree(trial.folder)
    return "%d kills" % kills


def backups_and_turns_are_pruned(folder, program, settings):
    """Copies go to a folder of feed.toml. Old ones and old turns go by their numbers; none that a copy which stays needs."""
    trial = Trial(os.path.join(folder, "a"), program)
    trial.write("feed.toml", 'backups = "%s/else where"\nkeep_backups = 2\nkeep_turns = 1\n' % folder + trial.read("feed.toml"))
    status, text = trial.feed("--backup")
    assert status == 22 and "there is no folder" in text and "mount its disk" in text, text
    os.makedirs(os.path.join(folder, "else where/000001.2038-01-01T000000Z.part"))
    for number in range(1, 5):
        trial.write("inbox/x.csv", "LIC4.PV,%d,5\n" % (1000 * number))
        trial.fed()
        trial.fed("--backup")
    copies = sorted(os.listdir(os.path.join(folder, "else where")))
    assert [name.split(".")[0] for name in copies] == ["000003", "000004"], copies
    assert sorted(os.listdir(trial.path("done"))) == ["000004"], os.listdir(trial.path("done"))
    os.rename(os.path.join(folder, "else where", copies[0]), os.path.join(folder, "else where", "000003.2038-01-01T000000Z"))
    damage_and_restore = trial.fed("--restore", "last")
    assert "000004." in damage_and_restore and "no later turn had to be made again" in damage_and_restore, damage_and_restore
    assert "1 turns up to turn 4 are made again" in trial.fed("--restore", "3")


GROWS = '[[source]]\npattern = "log*.csv"\ngrows = true\n'


def grown_plant(folder, program):
    """A plant with a growing file that has some lines."""
    trial = Trial(os.path.join(folder, "a"), program)
    trial.write("feed.toml", trial.read("feed.toml") + GROWS)
    return trial


def append(trial, text, name="inbox/log1.csv"):
    with open(trial.path(name), "a") as out:
        out.write(text)


def grows(folder, program, settings):
    """Each whole line of a growing file is taken once, with its header, and the file stays where it is. A refused line has its number."""
    trial = grown_plant(folder, program)
    append(trial, "time,LIC4.PV,PIC5.PV\n1000,5,1.5\n2000,6")
    assert "turn 1: 1 files, 2 values of 2 tags stored, 0 refused\n" == trial.fed() and trial.fed() == ""
    append(trial, "0,1.5\nsoon,1,1\n3000,5,")
    text = trial.fed(ends=REFUSED)
    assert "turn 2: 1 files, 2 values of 2 tags stored, 2 refused" in text and "log1.csv: 2 rows, first row 4" in text, text
    assert "all 2 are in refused/000002/again-log1.csv; correct them there" in text, text
    append(trial, "1.7\n")
    assert "turn 3: 1 files, 2 values" in trial.fed()
    assert os.listdir(trial.path("inbox")) == ["log1.csv"] and trial.read("done/000003/log1.csv") == "3000,5,1.7\n"
    os.rename(trial.path("refused/000002/again-log1.csv"), trial.path("inbox/again-log1.csv"))
    assert "turn 4: 1 files, 0 values of 0 tags stored, 2 refused" in trial.fed(ends=REFUSED)
    check_same(trial.by_hand("check", "base.toml").split("LIC4.PV ")[1][:8], "taken=3 ", "a growing file")


def folder_is_missing(folder, program, settings):
    """A growing file may stand elsewhere. If its folder is not there, the feeder says so each time, and feeds what there is."""
    trial = Trial(os.path.join(folder, "a"), program)
    trial.write("feed.toml", trial.read("feed.toml") + GROWS + 'folder = "%s/share"\n' % folder)
    trial.write("inbox/x.csv", "LIC4.PV,1000,5\n")
    for _ in range(2):
        text = trial.fed(ends=REFUSED)
        assert "there is no folder %s/share, so nothing is taken of log*.csv: mount its disk" % folder in text, text
    assert "turn 1: 1 files, 1 values" not in text and "1 files stay in the inbox" in trial.feed("--status")[1]
    os.mkdir(os.path.join(folder, "share"))
    trial.write(os.path.join(folder, "share/log1.csv"), "LIC4.PV,2000,50\n")
    assert trial.fed() == "turn 2: 1 files, 1 values of 1 tags stored, 0 refused\n"


def beginning_has_changed(folder, program, settings):
    """A growing file whose beginning has changed, or that is shorter, is refused in words, each time; other files are fed."""
    for number, text in enumerate(("LIC4.PV,1000,6\nLIC4.PV,2000,50\n", "LIC4.PV,9000,5\n", "")):
        trial = grown_plant(os.path.join(folder, str(number)), program)
        append(trial, "LIC4.PV,1000,5\nLIC4.PV,2000,50\n")
        trial.fed()
        trial.write("inbox/log1.csv", text)
        trial.write("inbox/x.csv", "PIC5.PV,1000,5\n")
        for _ in range(2):
            said = trial.fed(ends=REFUSED)
            assert "inbox/log1.csv: it no longer begins with the 31 bytes that were taken of it" in said, said
        os.rename(trial.path("inbox/log1.csv"), trial.path("inbox/log2.csv"))
        assert ("turn 3: 1 files" in trial.fed()) == bool(text)


def grown_files(trial, texts):
    """Makes growing files be these, each with a new inode if it has other bytes now, and feeds them: what the feeder says."""
    for name in [name for name in os.listdir(trial.path("inbox")) if name.startswith("log")]:
        if name not in texts or trial.read("inbox/" + name) != texts[name]:
            os.remove(trial.path("inbox", name))
    for name, text in texts.items():
        if not os.path.exists(trial.path("inbox", name)):
            trial.write("inbox/" + name, text)
    return trial.feed()[1]


def files_that_get_other_names(folder, program, settings):
    """A program begins a new file and gives the old one another name, once or in a chain, by renaming or by copying. Each line is stored once,
    and in its order. A copy of a file that is still there is refused."""
    lines = ["time,LIC4.PV\n"] + ["%d,%d\n" % (1000 * n, n % 9 * 10) for n in range(1, 100)]

    def text(first, last):
        return "".join(lines[:1] + lines[first:last])
    for old in ("log0.csv", "log9.csv"):  # in the order of names before and behind the new one
        trial = grown_plant(os.path.join(folder, old), program)
        assert "19 values" in grown_files(trial, {"log5.csv": text(1, 20)})
        said = grown_files(trial, {old: text(1, 30), "log5.csv": text(30, 40)})
        assert "inbox/%s is the file that was inbox/log5.csv: it goes on there\n" % old in said, said
        assert "20 values of 1 tags stored, 0 refused\n" in said, said
        assert grown_files(trial, {old: text(1, 30), "log5.csv": text(30, 40)}) == ""
    said = grown_files(trial, {"log7.csv": text(1, 30), "log9.csv": text(30, 45), "log5.csv": text(45, 60)})
    assert said.count("it goes on there") == 2 and "20 values of 1 tags stored, 0 refused\n" in said, said
    with open(trial.path("inbox/log8.csv"), "w") as out:  # the old file is copied, and then cut to nothing
        out.write(text(45, 61))
    with open(trial.path("inbox/log5.csv"), "r+") as log:
        log.truncate(0)
    said = trial.fed()
    assert "inbox/log8.csv is the file that was inbox/log5.csv" in said and "1 values of 1 tags stored, 0 refused\n" in said, said
    append(trial, text(61, 99), "inbox/log5.csv")
    assert "38 values of 1 tags stored, 0 refused\n" in trial.fed() and trial.fed() == ""
    shutil.copy(trial.path("inbox/log5.csv"), trial.path("inbox/log6.csv"))
    for count in (0, 1):  # it stays a copy also when the file goes on
        append(trial, "%d,7\n" % (400_000 + count) * count, "inbox/log5.csv")
        said = trial.fed(ends=REFUSED)
        assert "inbox/log6.csv: it is a copy of inbox/log5.csv, so its rows would be stored twice: remove it" in said, said
    os.remove(trial.path("inbox/log6.csv"))
    for name, begin in (("log3.csv", ""), ("log4.csv", lines[0])):  # no bytes, or the same header alone are no sign
        trial.write("inbox/" + name, begin)
        said = trial.fed()
        assert "copy" not in said and "it goes on there" not in said, said
    append(trial, "500000,7\n", "inbox/log4.csv")
    assert "1 values of 1 tags stored" in trial.fed()
    check_same(trial.by_hand("check", "base.toml").split("LIC4.PV ")[1].split(" ", 1)[0], "taken=100", "files with other names")
    assert " late=0 " in trial.by_hand("check", "base.toml").split("LIC4.PV ")[1]


def renamed_and_stopped(folder, program, settings):
    """The feeder is killed at its calls in the turn that finds a growing file under another name, which has nothing new."""
    if not shutil.which("strace"):
        return "no strace here: not tried"
    trial, kills = grown_plant(os.path.join(folder, "a"), program), 0
    append(trial, "LIC4.PV,1000,5\n")
    trial.fed()
    os.rename(trial.path("inbox/log1.csv"), trial.path("inbox/log2.csv"))
    wanted = trial.answers()

    def goes_on():
        append(trial, "LIC4.PV,2000,5\n")
        append(trial, "LIC4.PV,3000,5\n", "inbox/log2.csv")
        assert "2 values of 1 tags stored, 0 refused" in trial.fed() and trial.fed() == ""
    for call, numbers in [(call, range(1, 1000)) for call in FEEDER_CALLS] if settings.long else [("fsync", [3]), ("rename", [2])]:
        kills += stop_at_each(trial, wanted, numbers, lambda number: trial.feed(under=strace(call, number)), goes_on)
    return "%d kills" % kills


def long_growing(folder, program):
    """A plant with a growing file of rows of one value, of which a part was fed; and what it has to answer once the rest is."""
    trial, scales = grown_plant(folder, program), LINES | STEPS
    for block in (0, 1):
        rows = block_rows(block, hours=1)
        append(trial, "".join("%s,%s,%s\n" % (name, iso(t), decimal(v, scales[name])) for t, name, v in rows))
        trial.rows += rows
        if block == 0:
            trial.fed()
    return trial, expected(os.path.join(folder, "hand"), program, trial.rows)


def growing_stopped_at_its_calls(folder, program, settings):
    """The feeder is killed at its calls while it takes the new lines of a growing file."""
    if not shutil.which("strace"):
        return "no strace here: not tried"
    trial, wanted = long_growing(folder, program)
    each, kills = [(call, range(1, 1000)) for call in FEEDER_CALLS], 0
    for call, numbers in each if settings.long else [("fsync", [7]), ("rename", [3])]:
        kills += stop_at_each(trial, wanted, numbers, lambda number: trial.feed(under=strace(call, number)), lambda: None)
    return "%d kills" % kills


def growing_killed_at_random(folder, program, settings):
    """Feeder, program or both are killed at random moments while a growing file is fed."""
    trial, wanted = long_growing(folder, program)
    return killed_at_random(trial, wanted, settings, settings.kills if settings.long else 4, [])


def growing_is_put_back(folder, program, settings):
    """A plant with a growing file is put back: its lines are taken once, before and after."""
    trial, wanted = long_growing(folder, program)
    copy = os.path.basename(trial.fed("--backup").strip())
    trial.fed()
    trial.fed("--restore", copy)
    check_same(trial.answers(), wanted, "a growing file, put back")
    assert trial.fed() == ""
    trial.fed("--restore", "nothing")
    append(trial, "LIC4.PV,2024-03-30T00:00:00Z,7\n")
    assert "1 values of 1 tags" in trial.fed()
    assert json.loads(trial.read("feed.d/grown"))["inbox/log1.csv"]["bytes"] == os.path.getsize(trial.path("inbox/log1.csv"))


CASES = [put_back, put_back_until, refuses_to_put_back, put_back_elsewhere, verified_copy_is_put_back, by_hand_is_not_made_again,
         stopped_while_put_back, killed_while_put_back, backups_and_turns_are_pruned, grows, folder_is_missing, beginning_has_changed,
         files_that_get_other_names, renamed_and_stopped, growing_stopped_at_its_calls, growing_killed_at_random, growing_is_put_back]
