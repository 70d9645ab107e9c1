"""daily.py: tests of what comes into a plant each day; test_tools.py runs them.

These are times and decimals, refused rows, files that are not whole, wrong clocks, and files that come twice. The tests look at the words
too in which the tools say what is wrong."""
import csv
import fcntl
import itertools
import os
import re
import shlex
import shutil
import subprocess
import tempfile
import time
import types
import unittest.mock
import zoneinfo

import bases
import feed
import inbox
import fields
from plant import Plant, program_of
from trial import GROUP, REFUSED, Trial, base_text, check_same, expected, feed_text, printed, two_blocks, without_stamps


NOW = 1000 * int(time.time())
TAG_FORM = 'a tag is written as [tag."NAME"], with its scale'
WRONG_SETTINGS = [('inbocks = "x"', "no setting 'inbocks'"), ("[[tag]]\nscale = 1", TAG_FORM), ("tag = 3", TAG_FORM),
                  ('[tag]\n"X" = 5', TAG_FORM), ('[tag]\n"X" = ["scale"]', TAG_FORM),
                  ('[tag."X"]\nscale = 0', "[tag.'X']: scale must be a whole number from 1"),
                  ('[tag."X"]\nlow = 5\nhigh = 4', "[tag.'X']: low is above high"),
                  ('[tag."X"]\nhigh = "5"', "low and high are numbers"), ("board = 3", "board is a folder, and calendar a file"),
                  ("stale_ms = 0", "stale_ms must be a whole number from 1"),
                  ('frames = ["unit"]', 'frames is written as [["GROUP", "CALC", 2]]'),
                  ("rows_a_run = 0", "rows_a_run must be a whole number from 1"),
                  ("future_ms = -1", "future_ms must be a whole number from 0"),
                  ("settle_seconds = 0.5", "settle_seconds must be a whole number from 0")]


def refused(do, *given):
    """The reason for which a field is refused, or how it is taken."""
    try:
        return "taken as %r" % (do(*given),)
    except fields.BadField as why:
        return str(why)


def times_and_decimals(folder, program, settings):
    """Each text is stored as the right number, or refused for the right reason."""
    zones = zoneinfo.available_timezones()  # none where the machine has no time zones
    for text, zone, wanted in [
            ("2024-03-30T10:00:00+01:00", None, 1_711_789_200_000), ("2024-03-30 09:00:00.1239Z", None, 1_711_789_200_123),
            ("2024-03-30T10:00", "Europe/Berlin", 1_711_789_200_000), ("1711789200000", None, 1_711_789_200_000), ("0", None, 0),
            ("2024-10-27T02:59:59+02:00", "Europe/Berlin", 1_729_990_799_000)]:
        assert zone and zone not in zones or fields.milliseconds(text, zone) == wanted, text
    for text, zone, why in [
            ("2024-03-30T10:00", None, "without an offset"), ("2024-10-27T02:30", "Europe/Berlin", "shows this time twice"),
            ("2024-03-31T02:30", "Europe/Berlin", "never shows this time"), ("yesterday", None, "no ISO time"), ("-5", None, "no ISO time"),
            ("1969-12-31T23:59:59Z", None, "before 1970"), ("9" * 20, None, "after 9999"), ("0" * 20 + "1711789200000", None, "it has 33 digits"), ("", None, "no ISO time")]:
        assert zone and zone not in zones or why in refused(fields.milliseconds, text, zone), text
    for text, scale, wanted in [("48.703", 100, 4870), ("48.705", 100, 4871), ("-48.705", 100, -4871), ("0.004", 100, 0), (".5", 10, 5),
                                ("7", None, 7), ("7.", None, 7), ("7.00", None, 7), ("7.00", 1, 7), ("1.25E2", 1, 125), ("5e-1", 1, 1),
                                ("-0.5", 1, -1), ("+3.", 1, 3)]:
        assert fields.whole_value(text, scale) == wanted, (text, fields.whole_value(text, scale))
    for text, scale, why in [("7.5", None, "no scale"), ("7.01", None, "no scale"), ("Bad", 1, "no number"), ("", 1, "no number"),
                             ("1,5", 1, "no number"),
                             ("nan", 1, "no number"), ("1e16", 1, "too large"), ("9" * 400, 1, "no number")]:
        assert why in refused(fields.whole_value, text, scale), (text, refused(fields.whole_value, text, scale))
    assert fields.whole_value("48,7", 10, ",") == 487 and "no number" in refused(fields.whole_value, "1.048", 10, ",")
    for value, scale, wanted in [(-4870, 100, "-48.70"), (5, 1000, "0.005"), (7, 1, "7"), (3, 8, "0.375"), (-8, 4, "-2"), (0, 3, "0"),
                                 (1_234_567_890_123_457, 2, "617283945061728.5"), (2, 200_000, "1e-05"), (3 * 10**16, 3, "1e+16")]:
        assert fields.decimal_text(value, scale) == wanted, fields.decimal_text(value, scale)
    for value, scale in itertools.product((1, -7, 999_999_999_999_999, -10**15), (2, 3, 7, 60, 1000, 30_000_000, 10**16 + 1)):
        assert fields.whole_value(fields.decimal_text(value, scale), scale) == value, (value, scale, fields.decimal_text(value, scale))
    assert fields.iso_text(1_711_789_200_123, None) == "2024-03-30T09:00:00.123Z"
    assert not zones or fields.iso_text(1_711_789_200_123, "Europe/Berlin") == "2024-03-30T10:00:00.123+01:00"


def refused_rows(folder, program, settings):
    """Bad rows go to refused/ with number and reason, and all others are stored. The refused rows can be corrected and fed."""
    trial = Trial(os.path.join(folder, "a"), program)
    trial.write("inbox/x.csv", "FIC1.PV,2024-03-29T00:00:00Z,1.50\nNOBODY,2024-03-29T00:00:00Z,1\nFIC1.PV,2024-03-29T00:01:00Z\n\n"
                "LIC4.PV,soon,4\nLIC4.PV,2024-03-29T00:02:00Z,\"4\nFIC1.PV,2024-03-29T00:03:00Z,\"2.50\"\n"
                "TIC3.PV,2024-03-29T00:03:00Z,Bad\n")
    trial.write("inbox/y.csv", "time,TIC3.PV,LIC4.PV\r\n2024-03-29T00:00:00Z,1.5,\r\n2024-03-29T00:01:00Z,I/O,7\r\n"
                "2024-03-29T00:02:00Z,1\r\n")
    text = trial.fed(ends=REFUSED)
    assert "4 values of 3 tags stored, 7 refused" in text and "x.csv row 2: NOBODY: the base has no tag" in text, text
    with open(trial.path("refused/000001/x.csv"), newline="") as kept:
        reasons = {int(row[3]): row[4] for row in list(csv.reader(kept))[1:]}
    for number, why in {2: "no tag", 3: "2 fields", 5: "no ISO time", 6: "a quote is not closed", 8: "no number"}.items():
        assert why in reasons[number], (number, reasons)
    taken = dict(re.findall(r"tag (\S+) taken=(\d+)", trial.by_hand("check", "base.toml")))
    assert (taken["FIC1.PV"], taken["TIC3.PV"], taken["LIC4.PV"]) == ("2", "1", "1"), taken
    corrected = trial.read("refused/000001/y.csv").replace("I/O", "1.625")
    trial.write("inbox/y-corrected.csv", "".join(line + "\n" for line in corrected.splitlines() if "fields" not in line))
    assert "1 values of 1 tags stored, 0 refused" in trial.fed()
    assert "tag TIC3.PV taken=2 records=1 kept=1 late=0 held=1711670460000,1625" in trial.by_hand("check", "base.toml")


def no_scale_no_decimals(folder, program, settings):
    """A decimal of a tag without a scale is refused and not rounded. `engunits = "0.01 degC"` in the base is a scale."""
    trial = Trial(os.path.join(folder, "a"), program)
    trial.write("base.toml", base_text(names=("FIC1.PV",)).replace("exc_dev", 'engunits = "0.01 degC"\nexc_dev', 1).replace(GROUP, "")
                + base_text(names=("LIC4.PV",), group=""))
    trial.write("feed.toml", "settle_seconds = 0\n")
    trial.write("inbox/x.csv", "FIC1.PV,5,1.239\nLIC4.PV,5,1.2\nLIC4.PV,6,3\n")
    assert "2 values of 2 tags stored, 1 refused" in trial.fed(ends=REFUSED)
    assert "held=5,124\n" in trial.by_hand("check", "base.toml") and "held=6,3\n" in trial.by_hand("check", "base.toml")


def scale_stays(folder, program, settings):
    """Each tool refuses another scale of a tag that has values, and stores nothing. Other tags may be asked about. A turn that was stopped
    keeps its own scales."""
    trial = Trial(os.path.join(folder, "a"), program)
    trial.write("feed.toml", "settle_seconds = 0\n")
    trial.write("inbox/x.csv", "LIC4.PV,5,12\nLIC4.PV,6,50.04\nFIC1.PV,6,7\n")
    assert "2 values of 2 tags stored, 1 refused" in trial.fed(ends=REFUSED)
    before = trial.by_hand("check", "base.toml")
    shutil.move(trial.path("refused/000001/x.csv"), trial.path("inbox/y.csv"))
    trial.write("feed.toml", 'settle_seconds = 0\n[tag."LIC4.PV"]\nscale = 100\n')
    assert trial.tool("ask.py", "snap,FIC1.PV")[0] == 0
    for status, text in (trial.feed(), trial.tool("ask.py", "snap,LIC4.PV"), trial.tool("draw.py", "LIC4.PV", "0", "9", "x.svg")):
        assert status == 22 and "the values of LIC4.PV are stored with scale 1" in text and "has 100 now" in text, (status, text)
    assert trial.by_hand("check", "base.toml") == before and os.listdir(trial.path("inbox")) == ["y.csv"]
    trial.write("feed.toml", 'settle_seconds = 0\n[tag."LIC4.PV"]\nscale = 1\n')
    assert trial.feed(how="half")[0] == 137
    trial.write("feed.toml", 'settle_seconds = 0\n[tag."XV7.ZSO"]\nscale = 10\n')
    assert "turn 2: 1 files, 1 values of 1 tags stored" in trial.fed() and "held=6,50\n" in trial.by_hand("check", "base.toml")


def half_written_file(folder, program, settings):
    """A file whose last line has no end and a file of another name stay in the inbox. Once the first is whole, it is fed."""
    trial = Trial(os.path.join(folder, "a"), program)
    trial.write("feed.toml", trial.read("feed.toml").replace("settle_seconds = 0", "settle_seconds = 3600"))
    trial.write("inbox/x.csv", "LIC4.PV,1000,5\nLIC4.PV,2000,6")
    os.utime(trial.path("inbox/x.csv"), (1, 1))
    trial.write("inbox/y.csv.part", "LIC4.PV,1000,5\n")
    text = trial.fed(ends=REFUSED)
    assert "x.csv stays in the inbox" in text and sorted(os.listdir(trial.path("inbox"))) == ["x.csv", "y.csv.part"], text
    assert not os.path.exists(trial.path("historian.d", "LIC4.PV.tag"))
    trial.write("inbox/x.csv", "LIC4.PV,1000,5\nLIC4.PV,2000,61\n")
    os.utime(trial.path("inbox/x.csv"), (1, 1))
    assert "2 values of 1 tags stored" in trial.fed()
    assert "held=2000,61" in trial.by_hand("check", "base.toml")


def written_to_while_fed(folder, program, settings):
    """Rows that are added to a file while it is fed are not lost: they go to refused/, and the feeder says so. Moved back they are fed."""
    trial = Trial(os.path.join(folder, "a"), program)
    trial.write("inbox/x.csv", "tag,time,value\nFIC1.PV,1000,5\nFIC1.PV,2000,6\n")
    status, text = trial.feed(how="append")
    assert status == REFUSED and "x.csv was written to after it was taken: its first 2 values are stored" in text, text
    assert trial.read("refused/000001/later-0-45.csv") == "tag,time,value\nFIC1.PV,2024-03-29T23:59:59Z,1.00\n"
    assert not os.listdir(trial.path("inbox"))
    os.rename(trial.path("refused/000001/later-0-45.csv"), trial.path("inbox/later-0.csv"))
    assert "turn 2: 1 files, 1 values of 1 tags stored, 0 refused" in trial.fed()


def inbox_on_another_disk(folder, program, settings):
    """Files of an inbox on another disk are copied to done/ and then removed, also if the feeder is killed in between."""
    if not os.path.isdir("/dev/shm") or os.stat("/dev/shm").st_dev == os.stat(folder).st_dev:
        return "there is one disk here: not tried"
    trial = Trial(os.path.join(folder, "a"), program)
    with tempfile.TemporaryDirectory(dir="/dev/shm", prefix="tools-") as inbox:
        trial.write("feed.toml", 'inbox = "%s"\n%s' % (inbox, feed_text()))
        os.rmdir(trial.path("inbox"))
        os.symlink(inbox, trial.path("inbox"))
        trial.write("inbox/x.csv", "LIC4.PV,1000,5\nLIC4.PV,2000,60\n")
        if shutil.which("strace"):
            status, text = trial.feed(under=["strace", "-qq", "-o", "/dev/null", "-e", "inject=unlink:signal=KILL:when=1", "-e",
                                             "trace=unlink"])
            assert status in (137, -9) and os.listdir(trial.path("done/000001")) == ["x.csv"], (status, text)
            assert len(os.listdir(inbox)) == 1
        assert "2 values of 1 tags stored" in trial.fed() and os.listdir(inbox) == [], os.listdir(inbox)
        assert trial.read("done/000001/x.csv").startswith("LIC4.PV,1000,5\n")
        assert "taken=2 " in trial.by_hand("check", "base.toml").split("LIC4.PV")[1]


def wrong_clock(folder, program, settings):
    """A value from the future is refused, so those that come after it are not late. A value from before `not_before` is refused too,
    such as one whose time is in seconds."""
    trial = Trial(os.path.join(folder, "a"), program)
    stamps = [NOW - 120_000, NOW + 20_000, NOW + 600_000, 253_402_300_799_999, NOW + 21_000]
    trial.write("inbox/x.csv", "".join("LIC4.PV,%d,%d\n" % (t, 10 * n) for n, t in enumerate(stamps)))
    text = trial.fed(ends=REFUSED)
    assert "3 values of 1 tags stored, 2 refused" in text and "later than the clock by more than 60000 ms" in text, text
    assert "taken=3 " in trial.by_hand("check", "base.toml").split("LIC4.PV")[1]
    assert "late=0 held=%d,40" % stamps[-1] in trial.by_hand("check", "base.toml")
    for given in ("2000-01-01T00:00:00Z", '"2000-01-01T00:00:00Z"', "946_684_800_000"):
        trial.write("feed.toml", "not_before = %s\nsettle_seconds = 0\n" % given)
        trial.write("inbox/y.csv", "LIC4.PV,946684799999,%s\nLIC4.PV,%d,60\nLIC4.PV,946684800000,70\n" % (given[1], NOW // 1000))
        text = trial.fed(ends=REFUSED)
        assert "1 values of 1 tags stored, 2 refused" in text, text
        assert "earlier than not_before in feed.toml (a whole number is milliseconds): '946684799999'" in text, text
    trial.write("feed.toml", "not_before = 2000-01-01\n")
    assert trial.feed()[0] == 22 and "not_before: a time without an offset" in trial.feed()[1]


def same_file_twice(folder, program, settings):
    """The bytes of a file are fed once, whatever its name is the second time. The feeder says so, also after a stopped turn."""
    trial, _ = two_blocks(folder, program)
    trial.fed()
    shutil.copy(trial.path("done/000001/00-a.csv"), trial.path("inbox/00-a.csv"))
    shutil.copy(trial.path("done/000002/01-b.csv"), trial.path("inbox/again.csv"))
    trial.write("inbox/zz.csv", "FIC1.PV,1,1\n")
    assert trial.feed(how="before")[0] == 137
    text = trial.fed()
    assert "again.csv has the bytes of 01-b.csv, which was fed in turn 2: none of its rows is stored again" in text, text
    assert "3 files, 1 values" in text and "it goes to refused/000003" in text, text
    trial.rows.append((1, "FIC1.PV", 100))
    check_same(trial.answers(), expected(os.path.join(folder, "more"), program, trial.rows), "after the same files came again")
    assert sorted(os.listdir(trial.path("refused/000003"))) == ["00-a.csv", "again.csv"]


def taken_away_meanwhile(folder, program, settings):
    """A file that somebody renames or removes while the feeder looks at the inbox is passed over. Without another one no turn is made."""
    trial = Trial(os.path.join(folder, "a"), program)
    trial.write("inbox/x.csv", "LIC4.PV,1000,5\n")
    trial.fed()
    plant = Plant(trial.folder, program)

    def clock():
        """The time, and the file is gone behind it."""
        os.remove(trial.path("inbox/y.csv"))
        return time.time()

    def fed_with(*names):
        """What a feed prints that finds these names in the inbox, and then none."""
        found = [(names, False), ([], False)]
        with printed() as said, unittest.mock.patch.object(feed, "whole_files", side_effect=found):
            assert feed.feed(plant, None, 5) == 0
        assert not os.path.exists(trial.path("feed.d/turn.json"))
        return said.getvalue()

    trial.write("inbox/y.csv", "LIC4.PV,2000,6")
    with printed() as said, unittest.mock.patch.object(inbox, "time", types.SimpleNamespace(time=clock, monotonic=time.monotonic)):
        assert inbox.whole_files(plant, {}) == ([], False) and said.getvalue() == ""
    assert fed_with("gone.csv") == "" and os.listdir(trial.path("done")) == ["000001"]
    trial.write("inbox/z.csv", "LIC4.PV,2000,60\n")
    assert fed_with("gone.csv", "z.csv").startswith("turn 2: 1 files, 1 values of 1 tags stored, 0 refused\n")
    trial.write("base.toml", base_text(comp_dev=4))
    assert fed_with("gone.csv").startswith("the edited base.toml is taken over: FIC1.PV is retuned; FIC2.PV is retuned; ")


def said_each_time(folder, program, settings):
    """Each call says that a file stays in the inbox; a feeder with --every says it again after a while. It names UTF-16."""
    trial = Trial(os.path.join(folder, "a"), program)
    trial.write("inbox/x.csv", "LIC4.PV,1000,5")
    with open(trial.path("inbox/y.csv"), "wb") as out:
        out.write("LIC4.PV,1000,5\n".encode("utf-16"))
    for _ in range(2):
        text = trial.fed(ends=REFUSED)
        assert "x.csv stays in the inbox: its last line has no end" in text and "y.csv stays in the inbox: it is UTF-16" in text, text
    plant, said = Plant(trial.folder, program), {}
    with printed() as first:
        inbox.whole_files(plant, said)
        inbox.whole_files(plant, said)
    with printed() as later:
        said["x.csv"] -= inbox.AGAIN + 1
        inbox.whole_files(plant, said)
    assert first.getvalue().count("stays") == 2 and later.getvalue().count("stays") == 1, (first.getvalue(), later.getvalue())


def no_csv_at_all(folder, program, settings):
    """Bytes that are no text are refused row by row. A file with another separator or another header goes to refused/ as it is. A hint says
    why."""
    trial = Trial(os.path.join(folder, "a"), program)
    with open(trial.path("inbox/a.csv"), "wb") as out:
        out.write(b"\0\xff" + b"x" * 300_000 + b'\n"' + b"y" * 300_000 + b'"\nLIC4.PV,1000,5\n')
    whole = {"b.csv": "tag;time;value\nLIC4.PV;2000;5\n", "c.csv": "DateTime,LIC4.PV\n2024-03-29T00:00:00Z,5\n"}
    for name, rows in whole.items():
        trial.write("inbox/" + name, rows)
    text = trial.fed(ends=REFUSED)
    assert "1 values of 1 tags stored, 4 refused" in text and "all 1 rows of b.csv" in text, text
    assert {name: trial.read("refused/000001/" + name) for name in whole} == whole
    assert "1 fields, not 3: is `separator` in feed.toml right?" in text and "A wide file's header begins with `time`" in text, text
    assert max(map(len, text.splitlines())) < 400, text


def faults_in_words(folder, program, settings):
    """A refused base, a missing program, an unknown setting, a folder that is no plant: a clear line, and nothing is touched."""
    trial = Trial(os.path.join(folder, "a"), program)
    trial.deliver(0)
    trial.write("base.toml", base_text().replace("exc_dev = 10", "exc_dev = -10", 2).replace("exc_dev = -10", "exc_dev = 10", 1))
    status, text = trial.feed()
    assert status == 3 and "rule 5 place 1" in text and "(tag FIC2.PV): exc_dev = -10 is no whole number from 0 to" in text, (status, text)
    assert len(os.listdir(trial.path("inbox"))) == 2 and not os.path.exists(trial.path("feed.d/base.new.toml"))
    trial.write("base.toml", base_text())
    program, trial.program = trial.program, "/nowhere/historian"
    status, text = trial.feed()
    assert status == 127 and "--program" in text, (status, text)
    trial.program = program
    trial.folder = os.path.join(folder, "empty")
    os.makedirs(trial.folder)
    status, text = trial.feed()
    assert status == 22 and "no base.toml" in text and os.listdir(trial.folder) == [], (status, text)
    for tool in ("ask.py", "draw.py"):
        status, text = trial.tool(tool, *["snap,FIC1.PV"] if tool == "ask.py" else ["FIC1.PV", "0", "1", "x.svg"])
        assert status == 22 and "there are no devices" in text, (status, text)


def base_in_words(folder, program, settings):
    """Each rule of a base that is broken is told by its tag or group, its attribute and what belongs there; the program refuses each too."""
    trial, good = Trial(os.path.join(folder, "a"), program), base_text()
    for old, new, why in [
            ("comp_dev = 30", "comp_dev = 0.6", "(tag FIC1.PV): comp_dev = 0.6 is no whole number from 0 to 1000000000000000, in stored units"),
            ("exc_max = 600_000", "exc_max = -1", "(tag FIC1.PV): exc_max = -1 is no whole number from 0 to 253402300799999, in milliseconds"),
            ('name = "FIC2.PV"', 'name = "FIC1.PV"', "(tag FIC1.PV): its name stands twice"), ("exc_dev", "excdev", "exc_dev is missing; is excdev"),
            ('name = "FIC2.PV"', 'name = "FIC 2"', "(tag FIC 2): name = 'FIC 2' is no name"), ("step = true", 'step = "yes"', "step = yes is neither"),
            ("comp_min = 0", "comp_min = 0\nunit = 3", "(tag FIC1.PV): nothing is called unit; did you mean engunits?"), ("[[tag]]", "[[tag]", "base.toml is no TOML: "),
            ("period = 900_000", "period = 0", "(group unit): period is 0"), ('tags = ["FIC1.PV"', 'tags = ["FIC9.PV"', "tags has FIC9.PV: no tag has"),
            ('tags = ["FIC1.PV"', 'tags = ["XV7.ZSO"', "(group unit): tags has XV7.ZSO: a group takes no step tag"),
            ('name = "hot"', 'name = "flow"', "(group unit): (calculation flow): its name stands twice"), ("avg('TIC3.PV') >", "avg('TIC3.PV' >",
                                                                                                      "(group unit): the formula is wrong")]:
        trial.write("base.toml", good.replace(old, new, 1))
        child = subprocess.run([*shlex.split(program), "check", "base.toml"], cwd=trial.folder, capture_output=True, text=True)
        assert child.returncode == 3 and child.stdout.startswith("fault: text base rule "), (new, child.stdout)
        said = Plant(trial.folder, program).explained(("check", "base.toml"), 3, child.stdout, trial.folder)[1]
        assert why in said, (new, said)
    trial.write("base.toml", good)
    assert bases.wrong_in(trial.path("base.toml")) == "" and "line 3" in wrong_toml(trial, good)


def wrong_toml(trial, good):
    """What is said of a base with a broken third line."""
    trial.write("base.toml", good.replace("exc_dev = 10", "exc_dev = = 10", 1))
    return bases.wrong_in(trial.path("base.toml"))


def settings_in_words(folder, program, settings):
    """Each tool refuses a feed.toml that is wrong, and says why."""
    trial = Trial(os.path.join(folder, "a"), program)
    for text, why in WRONG_SETTINGS:
        trial.write("feed.toml", text + "\n")
        status, said = trial.feed()
        assert status == 22 and why in said, (text, status, said)
    status, said = trial.tool("ask.py", "snap,FIC1.PV")
    assert status == 22 and WRONG_SETTINGS[-1][1] in said, (status, said)
    assert not os.path.exists(trial.path("historian.d"))


def program_with_a_blank(folder, program, settings):
    """The program may stand in a folder whose name has a blank."""
    first, *others = shlex.split(program)
    place = os.path.join(folder, "a b", os.path.basename(first))
    os.makedirs(os.path.dirname(place))
    os.symlink(first, place)
    trial = Trial(os.path.join(folder, "a"), program_of(shlex.join([place, *others])))
    trial.write("inbox/x.csv", "LIC4.PV,1000,5\nLIC4.PV,2000,60\n")
    assert trial.feed(how="half")[0] == 137
    assert "2 values of 1 tags stored" in trial.fed() and "held=2000,60\n" in trial.by_hand("check", "base.toml")


def begins_with_init(folder, program, settings):
    """--init writes a feed.toml with which the plant can be fed, and never overwrites one."""
    trial = Trial(os.path.join(folder, "a"), program)
    os.remove(trial.path("feed.toml"))
    os.rmdir(trial.path("inbox"))
    trial.write("base.toml", trial.read("base.toml").replace("exc_dev", 'engunits = "0.01 l/h"\nexc_dev', 1))
    assert "feed.toml and inbox/ are made" in trial.fed("--init")
    assert '[tag."FIC1.PV"]  # 0.01 l/h\nscale = 100\n# [tag."FIC2.PV"]' in trial.read("feed.toml"), trial.read("feed.toml")
    assert trial.feed("--init")[0] == 22
    trial.write("inbox/x.csv", "tag,time,value\nFIC1.PV,2024-03-29T00:00:00Z,1.25\n")
    os.utime(trial.path("inbox/x.csv"), (1, 1))
    assert "1 values of 1 tags stored" in trial.fed()


def goes_on_every_second(folder, program, settings):
    """With --every the feeder feeds what comes while it runs, also after it waited for another process. A time of 0 or less is refused."""
    trial = Trial(os.path.join(folder, "a"), program)
    for every in ("-1", "nan", "inf", "1e300", "0"):
        status, text = trial.feed("--every", every)
        assert status == 2 and "--every takes more than 0 seconds" in text, (every, status, text)
    child = subprocess.Popen(trial.words("--every", "0.2"), stdout=subprocess.PIPE, text=True)
    try:
        for number in (1, 2, 3):
            if number == 3:
                with open(trial.path("historian.d", "feed.lock"), "a") as lock:
                    fcntl.flock(lock, fcntl.LOCK_EX)
                    assert "another process works on this plant" in child.stdout.readline(), "it does not wait"
            trial.write("x%d.part" % number, "LIC4.PV,%d,5\n" % (1000 * number))
            os.rename(trial.path("x%d.part" % number), trial.path("inbox/x%d.csv" % number))
            while "another process" in (line := child.stdout.readline()):
                pass
            assert without_stamps(line).startswith("turn %d: 1 files, 1 values" % number) and line != without_stamps(line), line
    finally:
        child.kill()
        child.communicate()


CASES = [times_and_decimals, refused_rows, no_scale_no_decimals, scale_stays, half_written_file, written_to_while_fed,
         inbox_on_another_disk, wrong_clock, same_file_twice, taken_away_meanwhile, said_each_time, no_csv_at_all, faults_in_words,
         settings_in_words, base_in_words, program_with_a_blank, begins_with_init, goes_on_every_second]
