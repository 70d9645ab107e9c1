"""strange.py: tests of what others put into the inbox; test_tools.py runs them.

The inbox belongs to others: a name, a cell, a link, a pipe, a size or a bad sector may stop no feeder and forge nothing that it notes. What
can not be taken stays, with a word and exit status 24, and the files beside it are fed."""
import json
import os
import random
import shutil
import subprocess
import sys
import time

import inbox
import turns
from plant import Plant
from trial import REFUSED, TOOLS, Trial, check_same, expected, printed

GOOD = "LIC4.PV,1000,5\nLIC4.PV,2000,60\n"


def fresh(folder, program, name="a"):
    """A plant in a folder of its own."""
    return Trial(os.path.join(folder, name), program)


def taken_of(trial, tag="LIC4.PV"):
    """How many events a tag has taken."""
    return int(trial.by_hand("check", "base.toml").split("tag %s taken=" % tag)[1].split()[0])


def names_forge_nothing(folder, program, settings):
    """A file's name is text: it ends no line of what the feeder notes or prints, makes no turn's number, and keeps no other file out."""
    trial = fresh(folder, program)
    trial.write("inbox/victim.csv", GOOD.replace("LIC4", "PIC5"))
    sha = subprocess.run(["sha256sum", trial.path("inbox/victim.csv")], capture_output=True, text=True, check=True).stdout[:64]
    os.rename(trial.path("inbox/victim.csv"), trial.path("victim.csv"))
    names = ["a\r\u00b2 %064d b.csv" % 0, "a\r999999999 %s b.csv" % sha, "a\n{\"turn\": 999999999}.csv", "\x1b[2J.csv", "a\u2028b.csv",
             os.fsdecode(b"\xff\xfe.csv"), "turn 7.csv\nturn 7: 1 files, 5 values of 1 tags stored, 0 refused.csv", "no-room.csv", "-rf.csv"]
    for number, name in enumerate(sorted(names)):
        trial.write("inbox/" + name, "LIC4.PV,%d,5\nLIC4.PV,soon,1\n" % (1000 * number + 1))
    text = trial.fed(ends=REFUSED)
    assert "turn 1: 9 files, 9 values of 1 tags stored, 9 refused\n" in text and "\x1b" not in text and "\r" not in text, text
    assert not [line for line in text.splitlines() if line.startswith("turn 7")], text
    assert sorted(os.listdir(trial.path("refused/000001"))) == sorted(names)
    os.rename(trial.path("victim.csv"), trial.path("inbox/victim.csv"))
    assert "turn 2: 1 files, 2 values of 1 tags stored, 0 refused\n" == trial.fed()
    for name in names:
        os.rename(trial.path("done/000001", name), trial.path("inbox", name))
    text = trial.fed()
    assert "turn 3: 9 files, 0 values" in text and text.count("none of its rows is stored again") == 9, text


def fed_list_is_damaged(folder, program, settings):
    """A line of feed.d/fed that is none is passed over."""
    trial = fresh(folder, program)
    trial.write("inbox/x.csv", GOOD)
    trial.fed()
    for line in ("\u00b2 %064d b.csv\n" % 1, "[1, 2]\n", '{"turn": "x"}\n', "{\n", "7\n", '{"turn": 99999999999999999999}\n', "1 %064d torn" % 5):
        with open(trial.path("feed.d/fed"), "a") as out:
            out.write(line)
    trial.write("inbox/y.csv", GOOD)
    assert "x.csv, which was fed in turn 1" in trial.fed()
    trial.write("inbox/z.csv", "LIC4.PV,3000,5\n")
    assert trial.fed().startswith("turn 3: 1 files, 1 values")


def longest_name(folder, program, settings):
    """The longest name that a file may have is no hindrance, whether its rows are stored, refused or come while it is fed."""
    trial = fresh(folder, program)
    name = "n" * 251 + ".csv"
    trial.write("inbox/" + name, GOOD + "LIC4.PV,soon,1\n")
    trial.write("inbox/x.csv", "PIC5.PV,1000,5\n")
    status, text = trial.feed(how="append")
    assert status == REFUSED and "turn 1: 2 files, 3 values of 2 tags stored, 1 refused" in text, text
    assert os.listdir(trial.path("done/000001")).count(name) == 1 and name in os.listdir(trial.path("refused/000001"))
    assert os.listdir(trial.path("inbox")) == []


def what_is_no_file(folder, program, settings):
    """A link, a pipe, a folder, a device, a file of another name, UTF-16, one that is too large or without a last line end: each stays, and
    a line says why. What a link leads to is not read."""
    trial = fresh(folder, program)
    trial.write("secret", "root:secret:1\n")
    os.symlink(trial.path("secret"), trial.path("inbox/a.csv"))
    os.symlink("nowhere", trial.path("inbox/b.csv"))
    os.mkfifo(trial.path("inbox/c.csv"))
    os.mkdir(trial.path("inbox/d.csv"))
    trial.write("inbox/e.txt", GOOD)
    with open(trial.path("inbox/f.csv"), "wb") as out:
        out.write(GOOD.encode("utf-16"))
    with open(trial.path("inbox/g.csv"), "wb") as out:
        out.truncate(10**12)
        out.seek(10**12 - 1)
        out.write(b"\n")
    trial.write("inbox/h.csv", GOOD[:-1])
    trial.write("inbox/x.csv", GOOD)
    os.mkdir(trial.path("inbox/.hidden"))
    text = trial.fed(ends=REFUSED)
    whys = {"a.csv": "it is a link", "b.csv": "it is a link", "c.csv": "it is no plain file", "d.csv": "it is a folder", "e.txt": "does not end in .csv",
            "f.csv": "it is UTF-16", "g.csv": "it has 1000000000000 bytes, and a file may have 67108864: split it", "h.csv": "its last line has no end"}
    for name, why in whys.items():
        assert "inbox/%s stays in the inbox: " % name in text and why in text.split("inbox/%s stays" % name)[1].splitlines()[0], (name, text)
    assert "turn 1: 1 files, 2 values" in text and "secret" not in text and text.count("stays") == len(whys), text
    assert sorted(os.listdir(trial.path("inbox"))) == sorted([*whys, ".hidden"]) and not os.path.exists(trial.path("refused"))
    assert trial.feed("--status")[0] == 1 and "8 files stay in the inbox" in trial.feed("--status")[1]


def many_refused_rows(folder, program, settings):
    """A file of refused rows takes little memory, and one line says what is wrong; so does a wide file of unknown tags. What is written of a
    file's refused rows has a bound."""
    trial = fresh(folder, program)
    rows = 1_000_000 if settings.long else 100_000
    trial.write("inbox/a.csv", "x\n" * rows + "NOBODY,1000,1\n")
    trial.write("inbox/b.csv", "time," + ",".join("N%d" % n for n in range(100)) + ",LIC4.PV\n" + ("1000" + ",1" * 101 + "\n") * 2_000)
    trial.write("inbox/z.csv", "PIC5.PV,1000,5\n")
    limit = "import os, resource, sys; resource.setrlimit(resource.RLIMIT_AS, (400_000_000, -1)); os.execv(sys.argv[1], sys.argv[1:])"
    status, text = trial.feed(under=[sys.executable, "-c", limit])
    assert status == REFUSED and "a.csv: %s rows, first row 2: x: 1 fields, not 3" % format(rows - 1, ",") in text, (status, text)
    assert "b.csv: 2,000 rows, first row 2: N0: the base has no tag 'N0'" in text and len(text.splitlines()) < 20, text
    assert "2001 values of 2 tags stored" in text, text
    small = fresh(folder, program, "b")
    small.write("inbox/a.csv", "NOBODY,1000,1\n" + "x\n" * 50_000)
    with printed() as said, unittest_patch(turns, "REFUSED_BYTES", 10_000):
        import feed
        assert feed.feed(Plant(small.folder, program), None, 5) == REFUSED
    assert os.path.getsize(small.path("refused/000001/a.csv")) < 60_000, said.getvalue()
    assert "all of them are in done/000001/a.csv, and the first " in said.getvalue(), said.getvalue()


def unittest_patch(module, name, value):
    """Replaces a number of a module for a while."""
    import unittest.mock
    return unittest.mock.patch.object(module, name, value)


def becomes_something_else(folder, program, settings):
    """A file that becomes a pipe, a folder, a link or gone between the look at it and its reading stops nothing."""
    for number, become in enumerate((os.mkfifo, os.mkdir, lambda path: os.symlink("/etc/passwd", path), lambda path: None)):
        trial = fresh(folder, program, str(number))
        trial.write("inbox/a.csv", GOOD)
        trial.write("inbox/b.csv", "PIC5.PV,1000,5\n")
        plant, look = Plant(trial.folder, program), inbox.whole_files

        def changed(*given):
            found = look(*given)
            if found[0] == ["a.csv", "b.csv"]:
                os.remove(trial.path("inbox/a.csv"))
                become(trial.path("inbox/a.csv"))
            return found
        import feed
        with printed() as said, unittest_patch(feed, "whole_files", changed):
            status = feed.feed(plant, None, 5)
        assert status == (REFUSED if number < 3 else 0) and "turn 1: 1 files, 1 values" in said.getvalue(), (number, said.getvalue())
        assert os.listdir(trial.path("inbox")) == (["a.csv"] if number < 3 else []), os.listdir(trial.path("inbox"))


def bad_sector(folder, program, settings):
    """A file whose reading fails behind its first bytes, as on a bad sector, stays and is named, each time; the others are fed."""
    if not shutil.which("strace"):
        return "no strace here: not tried"
    trial = fresh(folder, program)
    for number in range(2):
        trial.write("inbox/a.csv", GOOD)
        trial.write("inbox/b.csv", "PIC5.PV,%d,5\n" % (1000 + number))
        stood = os.path.join(folder, "stood")
        shutil.copytree(trial.folder, stood)
        for call in range(1, 12):  # the look at a file reads its first bytes and its last; then it is read whole
            status, text = trial.feed(under=["strace", "-qq", "-o", "/dev/null", "-e", "trace=pread64,read", "-P", trial.path("inbox/a.csv"),
                                             "-e", "inject=pread64:error=EIO:when=%d+" % call])
            if status == REFUSED:
                assert "inbox/a.csv stays in the inbox: it cannot be read (Input/output error)" in text and "turn" in text, text
                assert os.listdir(trial.path("inbox")) == ["a.csv"], (call, os.listdir(trial.path("inbox")), text)
            shutil.rmtree(trial.folder)
            shutil.copytree(stood, trial.folder)
            if status == 0:
                break
        assert call > 2, "the file was read without a fault at call %d" % call
        shutil.rmtree(stood)
    plant, plain = Plant(trial.folder, program), os.fstat
    import feed
    with printed() as said, unittest_patch(inbox, "stamp_of", fault_at(plain)):
        assert feed.feed(plant, None, 5) == REFUSED
    assert said.getvalue().count("it cannot be read (Input/output error)") == 2, said.getvalue()
    assert sorted(os.listdir(trial.path("inbox"))) == ["a.csv", "b.csv"] and "2 files, 3 values" in trial.fed()


def fault_at(plain):
    """Something that fails as a disk does."""
    def fails(*given):
        raise OSError(5, os.strerror(5))
    return fails if plain else plain


def rights_are_taken_away(folder, program, settings):
    """An account that may not read a file, or not move it, says so; and a file that becomes unreadable while it is fed ends its turn."""
    if os.geteuid() != 0 or not shutil.which("setpriv"):
        return "only root may try this: not tried"
    os.chmod(folder, 0o755)
    trial = fresh(folder, program)
    trial.write("inbox/a.csv", GOOD)
    trial.write("inbox/b.csv", "PIC5.PV,1000,5\n")
    for place, folders, names in os.walk(trial.folder):
        for name in ["."] + names:
            os.chown(os.path.join(place, name), 65534, 65534)
    os.chown(trial.path("inbox/a.csv"), 0, 0)
    os.chmod(trial.path("inbox/a.csv"), 0o600)
    under = ["setpriv", "--reuid=65534", "--regid=65534", "--clear-groups"]
    if subprocess.run([*under, sys.executable, "-c", "open(%r)" % os.path.join(TOOLS, "feed.py")], stderr=subprocess.DEVNULL).returncode:
        return "another account may not read the tools here: not tried"
    status, text = trial.feed(under=under)
    assert status == REFUSED and "inbox/a.csv stays in the inbox: it cannot be read (Permission denied)" in text, (status, text)
    assert "turn 1: 1 files, 1 values" in text, text
    os.chmod(trial.path("inbox/a.csv"), 0o644)
    os.chown(trial.path("inbox"), 0, 0)
    os.chmod(trial.path("inbox"), 0o1777)
    status, text = trial.feed(under=under)
    assert status == REFUSED and "it cannot be taken (Operation not permitted): who may move files there?" in text, (status, text)
    assert "a.csv" in os.listdir(trial.path("inbox"))


def replaced_at_any_moment(folder, program, settings):
    """A producer moves a new file over the old one at random moments. Each is fed once: as what it was, and as what it became."""
    trial, draw = fresh(folder, program), random.Random(settings.seed)
    count = 40 if settings.long else 6
    for number in range(count):
        replace(trial, 2 * number)
        child = subprocess.Popen(trial.words(), stdout=subprocess.DEVNULL, stderr=subprocess.DEVNULL)
        time.sleep(draw.uniform(0.0, 0.5))
        replace(trial, 2 * number + 1)
        assert child.wait() in (0, REFUSED)
        trial.feed()
        left = [name for name in os.listdir(trial.path("inbox"))]
        assert left == [], left
        missed = 2 * number + 2 - taken_of(trial)
        trial.rows += [(1000 + n, "LIC4.PV", n % 90) for n in (2 * number, 2 * number + 1)]
        assert missed in (0, 1), missed  # 1: it was replaced before the feeder took it, so nobody ever had its bytes
        if missed:
            trial.rows.pop(-2)
            replace(trial, 2 * number, "late.csv")
            trial.rows.append((1000 + 2 * number, "LIC4.PV", 2 * number % 90))
            trial.fed()
    check_same(trial.answers(), expected(os.path.join(folder, "hand"), program, trial.rows), "after files were replaced")


def replace(trial, number, name="latest.csv"):
    """Moves a file with one row into the inbox, over an older one."""
    trial.write("new.csv", "LIC4.PV,%d,%d\n" % (1000 + number, number % 90))
    os.rename(trial.path("new.csv"), trial.path("inbox", name))


def changed_in_place(folder, program, settings):
    """If a file's bytes are overwritten while it is fed, its values are stored, and what it became goes to refused/, as the feeder says."""
    trial = fresh(folder, program)
    trial.write("inbox/a.csv", GOOD)
    trial.write("writer.sh", '#!/bin/sh\nif [ "$1" = run ]; then for f in inbox/.taken-*; do printf "LIC4.PV,9000,7\\n" > "$f"; done; fi\n'
                'exec %s "$@"\n' % program)
    os.chmod(trial.path("writer.sh"), 0o755)
    trial.program = trial.path("writer.sh")
    status, text = trial.feed()
    assert status == REFUSED and "a.csv was changed while it was fed. The 2 values that it had are stored; what it has now is not" in text, text
    assert trial.read("refused/000001/changed-0.csv") == "LIC4.PV,9000,7\n" and not os.listdir(trial.path("inbox"))
    trial.program = program
    assert taken_of(trial) == 2 and trial.read("done/000001/stored.rows") == "LIC4.PV,1000,5\nLIC4.PV,2000,60\n"


def written_after_its_turn(folder, program, settings):
    """A program that still has its file open writes to it after the turn. The next feed finds these rows, once."""
    trial = fresh(folder, program)
    with open(trial.path("inbox/a.csv"), "w") as writer:
        writer.write(GOOD)
        writer.flush()
        trial.fed()
        writer.write("LIC4.PV,3000,7\n")
    text = trial.fed(ends=REFUSED)
    assert "a.csv was written to after it was taken: its first 2 values are stored" in text, text
    os.rename(trial.path("refused/000001/later-0-31.csv"), trial.path("inbox/later.csv"))
    assert trial.fed() == "turn 2: 1 files, 1 values of 1 tags stored, 0 refused\n" and trial.fed() == ""


def carriage_returns(folder, program, settings):
    """A carriage return within a refused row stops nothing, and the row can be put back."""
    trial = fresh(folder, program)
    trial.write("inbox/a.csv", "LIC4.PV,1000,6\nQ\rx,1,2\nLIC4.PV,2000,1\r8\n")
    text = trial.fed(ends=REFUSED)
    assert "turn 1: 1 files, 1 values of 1 tags stored, 2 refused" in text and "\r" not in text, text
    with open(trial.path("refused/000001/a.csv"), newline="") as kept:
        assert '"Q\rx","1","2","2"' in kept.read()
    os.rename(trial.path("refused/000001/a.csv"), trial.path("inbox/a.csv"))
    assert "0 values of 0 tags stored, 2 refused" in trial.fed(ends=REFUSED)


def cells_are_no_formulas(folder, program, settings):
    """A refused cell that a spreadsheet would take for a formula is written down as text; a negative number stays one."""
    trial = fresh(folder, program)
    trial.write("inbox/a.csv", '=cmd|x,1000,5\nLIC4.PV,@sum,-5\nLIC4.PV,soon,-5\n')
    trial.fed(ends=REFUSED)
    text = trial.read("refused/000001/a.csv")
    assert "\n'=cmd|x,1000,5,1," in text and "\nLIC4.PV,'@sum,-5,2," in text and "\nLIC4.PV,soon,-5,3," in text, text


def flood_of_late_rows(folder, program, settings):
    """No more late rows of a tag are stored in a turn than late_rows says. The others can be fed once the setting is higher."""
    trial = fresh(folder, program)
    trial.write("feed.toml", "late_rows = 10\n" + trial.read("feed.toml"))
    trial.write("inbox/a.csv", "LIC4.PV,9000,5\n" + "".join("LIC4.PV,%d,1\nPIC5.PV,%d,1.5\n" % (n, n + 1) for n in range(100)) + "LIC4.PV,9001,5\n")
    text = trial.fed(ends=REFUSED)
    assert "112 values of 2 tags stored, 90 refused, 10 late" in text, text
    assert "a.csv: 90 rows came late, more than late_rows of feed.toml lets a tag take in a turn" in text, text
    trial.write("feed.toml", trial.read("feed.toml").replace("late_rows = 10\n", "late_rows = 90\n"))
    os.rename(trial.path("refused/000001/late-rows.csv"), trial.path("inbox/late-rows.csv"))
    assert "turn 2: 1 files, 90 values of 1 tags stored, 0 refused, 90 late" in trial.fed()
    assert taken_of(trial) == 102 and taken_of(trial, "PIC5.PV") == 100


def lock_follows_no_link(folder, program, settings):
    """feed.lock may be no link: its target is not touched. The holder is named only if it runs."""
    trial = fresh(folder, program)
    os.makedirs(trial.path("historian.d"))
    trial.write("precious", "precious\n")
    os.symlink("../precious", trial.path("historian.d/feed.lock"))
    status, text = trial.feed()
    assert status == 22 and "feed.lock is a link or no file, and nothing was done: remove it" in text, (status, text)
    os.remove(trial.path("historian.d/feed.lock"))
    os.link(trial.path("precious"), trial.path("historian.d/feed.lock"))
    assert trial.feed()[0] == 22 and trial.read("precious") == "precious\n"
    os.remove(trial.path("historian.d/feed.lock"))
    trial.write("historian.d/feed.lock", "feed.py, process 4000000\n")
    with subprocess.Popen(["flock", trial.path("historian.d/feed.lock"), "sleep", "30"]) as child:
        try:
            while trial.feed()[0] != 20:
                assert child.poll() is None
            assert "(somebody holds historian.d/feed.lock)" in trial.feed()[1]
        finally:
            child.kill()


def stopped_after_taking(folder, program, settings):
    """After a stop between taking files and writing the turn down the files are fed, under their names and before newer ones of the same
    names."""
    trial = fresh(folder, program)
    trial.write("inbox/a.csv", GOOD)
    trial.fed()
    for name, text in {"b.csv": "LIC4.PV,3000,5\n", "a.csv": "LIC4.PV,4000,50\n"}.items():
        trial.write("inbox/" + name, text)
    plant = Plant(trial.folder, program)
    with printed():
        files = inbox.take(plant, ["a.csv", "b.csv"], {})
    assert sorted(file["name"] for file in files) == ["a.csv", "b.csv"] and all(name.startswith(".taken-") for name in os.listdir(trial.path("inbox")))
    assert [file["name"] for file in json.loads(trial.read("feed.d/taken"))] == ["a.csv", "b.csv"]
    trial.write("inbox/a.csv", "LIC4.PV,5000,5\n")
    text = trial.fed()
    assert "turn 2: 2 files, 2 values" in text and "turn 3: 1 files, 1 values" in text, text
    assert trial.read("done/000002/a.csv") == "LIC4.PV,4000,50\n" and trial.read("done/000003/a.csv") == "LIC4.PV,5000,5\n"
    assert not os.path.exists(trial.path("feed.d/taken")) and not os.listdir(trial.path("inbox"))


CASES = [names_forge_nothing, fed_list_is_damaged, longest_name, what_is_no_file, many_refused_rows, becomes_something_else, bad_sector,
         rights_are_taken_away, replaced_at_any_moment, changed_in_place, written_after_its_turn, carriage_returns, cells_are_no_formulas,
         flood_of_late_rows, lock_follows_no_link, stopped_after_taking]
