"""stops.py: tests of the lock, of a full disk, and of turns that are stopped half way; test_tools.py runs them.

A program may outlive its feeder. Before a stopped turn is finished, the base may be edited, the program may be run by hand, or a file may
be damaged."""
import fcntl
import os
import signal
import subprocess
import sys
import time

from plant import bytes_of
from trial import Trial, base_text, check_put_away, check_same, children, expected, kill, two_blocks, wait_for_orphans


def second_feeder(folder, program, settings):
    """A feeder that finds the lock taken, by another feeder or by a script, ends with a clear line and does nothing."""
    trial, wanted = two_blocks(folder, program)
    with open(trial.path("historian.d", "feed.lock"), "a") as lock:
        fcntl.flock(lock, fcntl.LOCK_EX)
        status, text = trial.feed()
    assert status == 20 and "another process works on this plant" in text, text
    first = waiting_feed(trial)
    status, text = trial.feed()
    assert status == 20 and "feed.py, process %d" % first.pid in text, text
    trial.write("go", "")
    assert first.wait() == 0
    check_same(trial.answers(), wanted, "with a second feeder")


def program_outlives_its_feeder(folder, program, settings):
    """If a feeder is killed and its program goes on, the program keeps the lock, so no other feed begins until it ends."""
    trial, wanted = two_blocks(folder, program)
    first = waiting_feed(trial)
    kill(first.pid)
    first.wait()
    status, text = trial.feed()
    assert status == 20, (status, text)
    trial.write("go", "")
    wait_for_orphans(trial)
    for asked in ("--verify", "--backup", "--seal"):
        status, text = trial.feed(asked)
        assert status == 20 and "a turn is unfinished" in text, (status, text)
    assert "turn 2 was stopped" in trial.fed()
    check_same(trial.answers(), wanted, "after the program outlived its feeder")
    check_put_away(trial, 4)


def waiting_feed(trial):
    """Starts a feed whose program waits for a file `go`: the process of the feeder."""
    process = subprocess.Popen(trial.words(how="wait"), stdout=subprocess.DEVNULL, stderr=subprocess.DEVNULL)
    wait_for(lambda: os.path.exists(trial.path("feed.d", "turn.json")) and children(process.pid))
    return process


def wait_for(holds):
    """Waits until something holds. Fails after five minutes."""
    end = time.monotonic() + 300
    while not holds():
        assert time.monotonic() < end, "waited too long"
        time.sleep(0.01)


def damaged_while_unfinished(folder, program, settings):
    """While a turn is unfinished, a device has a damaged first byte, a first sector of zeros, no bytes, or is missing. feed.py, and ask.py
    about that tag, refuse before the program opens anything, and the file stays as it is."""
    trial, wanted = two_blocks(folder, program)
    assert trial.feed(how="half")[0] == 137
    good = bytes_of(trial.path("historian.d/FIC1.PV.tag"))
    for bad in (b"\xa4" + good[1:], b"\0" * 512 + good[512:], b"", None):
        if bad is None:
            os.remove(trial.path("historian.d/FIC1.PV.tag"))
        else:
            put_bytes(trial.path("historian.d/FIC1.PV.tag"), bad)
        assert trial.tool("ask.py", "snap,LIC4.PV")[0] == 0
        for status, text in (trial.feed(), trial.tool("ask.py", "snap,FIC1.PV")):
            assert status == 21 and "FIC1.PV.tag is missing or does not begin as a device" in text, (status, text)
        assert bad is None or bytes_of(trial.path("historian.d/FIC1.PV.tag")) == bad
    put_bytes(trial.path("historian.d/FIC1.PV.tag"), good)
    trial.fed()
    check_same(trial.answers(), wanted, "after the device was put back")


def put_bytes(path, data):
    with open(path, "wb") as out:
        out.write(data)


def polite_stop(folder, program, settings):
    """SIGTERM, and in the long form Ctrl-C too, stop a feeder as a kill does."""
    for number in (signal.SIGTERM, signal.SIGINT)[:2 if settings.long else 1]:
        place = os.path.join(folder, str(int(number)))
        os.makedirs(place)
        trial, wanted = two_blocks(place, program)
        first = waiting_feed(trial)
        first.send_signal(number)
        assert first.wait() in (-number, 130)
        trial.write("go", "")
        wait_for_orphans(trial)
        trial.fed()
        check_same(trial.answers(), wanted, "after signal %d" % number)


def full_disk(folder, program, settings):
    """No file may grow beyond a size, as on a full disk. The feeder ends with a clear line; once there is room it stores all."""
    trial = Trial(os.path.join(folder, "new"), program)
    trial.deliver(0, hours=3)
    wanted = expected(os.path.join(folder, "hand"), program, trial.rows)
    told = []
    for size in (10, 3_000, 60_000):
        limit = "import os, resource, sys; resource.setrlimit(resource.RLIMIT_FSIZE, (%d, -1)); os.execv(sys.argv[1], sys.argv[1:])" % size
        status, text = trial.feed(under=[sys.executable, "-c", limit])
        assert status in (7, 22) and "stays stored" in text, "at %d bytes: exit %d, %s" % (size, status, text)
        told.append(status)
    assert set(told) == {7, 22}, "both the feeder and the program were to meet the limit, not %s" % told
    trial.fed()
    check_same(trial.answers(), wanted, "after a full disk")
    check_put_away(trial, 2)


def full_file_system(folder, program, settings):
    """A file system is full, if one may be mounted here. The feeder ends with 7 or 22; once there is room it stores all."""
    place = os.path.join(folder, "small")
    os.makedirs(place)
    if subprocess.run(["mount", "-t", "tmpfs", "-o", "size=900k", "tmpfs", place], stderr=subprocess.DEVNULL).returncode:
        return "no file system may be mounted here: not tried"
    try:
        trial = Trial(os.path.join(place, "plant"), program)
        trial.deliver(0)
        wanted = expected(os.path.join(folder, "hand"), program, trial.rows)
        room = os.statvfs(place)
        trial.write("filler", "x" * (room.f_bavail * room.f_bsize - 50_000))
        statuses = []
        for _ in range(30):
            status, text = trial.feed()
            statuses.append(status)
            if status == 0:
                break
            assert status in (7, 22), (status, text)
            os.truncate(trial.path("filler"), max(0, os.path.getsize(trial.path("filler")) - 60_000))
        assert statuses[-1] == 0 and len(statuses) > 1, statuses
        check_same(trial.answers(), wanted, "after a full file system")
    finally:
        subprocess.run(["umount", place], check=True)
    return "full %d times" % (len(statuses) - 1)


def stopped_half_way(folder, program, settings):
    """A turn stored half of the rows, all, or none, and then `check` is run by hand. The next feed stores the others."""
    for how in ("half", "after", "before"):
        place = os.path.join(folder, how)
        os.makedirs(place)
        trial, wanted = two_blocks(place, program)
        status, text = trial.feed(how=how)
        assert status == 137 and "signal 9" in text, (status, text)
        trial.by_hand("check", "base.toml")
        assert "turn 2 was stopped" in trial.fed()
        check_same(trial.answers(), wanted, "stopped: " + how)
        check_put_away(trial, 4)


def edited_base(folder, program, settings):
    """The base is edited between a stop and the next start. The feeder finishes the turn with the base that it began with. Then it takes
    the edited one over, which retunes each tag once."""
    trial, wanted = two_blocks(folder, program)
    assert trial.feed(how="half")[0] == 137
    trial.write("base.toml", base_text(comp_dev=4))
    asked = trial.tool("ask.py", "snap,FIC2.PV")  # asks with the turn's base, so it retunes nothing
    assert asked[0] == 0 and "snap,FIC2.PV" in asked[1], asked
    trial.fed()
    hand = Trial(os.path.join(folder, "hand"), program)
    hand.store_by_hand(trial.rows)
    hand.write("base.toml", base_text(comp_dev=4))
    hand.by_hand("check", "base.toml")
    check_same(trial.answers(), hand.answers(), "with an edited base")
    check_put_away(trial, 4)


def edited_and_run_by_hand(folder, program, settings):
    """The program is run by hand with an edited base before the turn is finished, so nobody can say which rows are stored. The feeder
    says so, names the tag, and touches nothing."""
    trial, _ = two_blocks(folder, program)
    assert trial.feed(how="half")[0] == 137
    trial.write("base.toml", base_text(comp_dev=4))
    trial.by_hand("check", "base.toml")
    before = trial.by_hand("check", "base.toml")
    status, text = trial.feed()
    assert status == 21 and "FIC1.PV was retuned" in text and "feed.py --restore last" in text, (status, text)
    check_same(trial.by_hand("check", "base.toml"), before, "a refused turn")


def foreign_rows(folder, program, settings):
    """Somebody stores rows by hand between a stop and the next start. The feeder notices it by the value that the tag holds."""
    trial, _ = two_blocks(folder, program)
    assert trial.feed(how="before")[0] == 137
    trial.store_by_hand([(1711800000000, "FIC1.PV", 5), (1711800060000, "FIC1.PV", 5000)])
    status, text = trial.feed()
    assert status == 21 and "FIC1.PV holds a value that is none of the turn's" in text, (status, text)


def late_row_frees_what_was_set_aside(folder, program, settings):
    """A late row makes its tag hold a pending value of an earlier turn. The feeder does not take that for a value stored by hand."""
    trial = Trial(os.path.join(folder, "a"), program)
    trial.write("inbox/1.csv", "LIC4.PV,1000,5\nLIC4.PV,30000,9\n")
    trial.fed()
    trial.write("inbox/2.csv", "LIC4.PV,20000,7\n")
    assert trial.feed(how="after")[0] == 137
    assert "1 values of 1 tags stored" in trial.fed()
    assert "taken=3 records=2 kept=1 late=1 held=30000,9" in trial.by_hand("check", "base.toml")


def turn_is_damaged(folder, program, settings):
    """If a file of an unfinished turn in feed.d is damaged or of another form, the feeder says so and stores nothing."""
    trial, _ = two_blocks(folder, program)
    assert trial.feed(how="half")[0] == 137
    before = trial.by_hand("check", "base.toml")
    good = trial.read("feed.d/turn/rows.csv"), trial.read("feed.d/turn.json")
    forms = ["[]", "3", '{"turn": 2, "files": [], "tags": []}', '{"turn": 2, "files": [], "tags": {"FIC1.PV": 5}}',
             '{"turn": 2, "files": [], "tags": {}}', good[1].replace('"files": [', '"files": 5, "more": ['), good[1].replace('"held"', '"taken"')]
    for name, text in (("turn/rows.csv", good[0][:-30]), ("turn/rows.csv", good[0][:-5]), *(("turn.json", text) for text in forms),
                       ("turn.json", good[1][:50])):
        trial.write("feed.d/turn/rows.csv", good[0])
        trial.write("feed.d/" + name, text)
        status, said = trial.feed()
        assert status == 21 and "feed.d of an unfinished turn is damaged" in said, (status, said)
    for text in (good[1][:50], forms[0], forms[1]):
        trial.write("feed.d/turn.json", text)
        status, said = trial.tool("ask.py", "snap,LIC4.PV")
        assert status == 21 and "turn.json is damaged" in said, (status, said)
    check_same(trial.by_hand("check", "base.toml"), before, "a damaged turn")


CASES = [second_feeder, program_outlives_its_feeder, damaged_while_unfinished, polite_stop, full_disk, full_file_system,
         stopped_half_way, edited_base, edited_and_run_by_hand, foreign_rows, late_row_frees_what_was_set_aside, turn_is_damaged]
