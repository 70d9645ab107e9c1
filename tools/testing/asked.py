"""asked.py: tests of what ask.py answers, in a person's times and units, and of asking without any right but to read."""
import contextlib
import csv
import fcntl
import fractions
import hashlib
import os
import re
import shutil
import subprocess
import sys
import tempfile
import time
import zoneinfo

import clock
import formulas
import fields
from stops import wait_for
from trial import HOUR, START, TOOLS, Trial, base_text, check_same, two_blocks

BERLIN = "Europe/Berlin"
NOON = 1_711_882_800_000  # 2024-03-31 13:00 in Berlin, whose clock went forward at 02:00
DOCS = os.path.join(os.path.dirname(TOOLS), "docs")
EXAMPLE = os.path.join(os.path.dirname(TOOLS), "examples", "plant")


def refused_time(text, zone, at=NOON):
    """The reason for which a time is refused, or what it is taken for."""
    try:
        return "taken as %r" % clock.time_of(text, zone, at)
    except fields.BadField as why:
        return str(why)


def spoken_times(folder, program, settings):
    """Each text is the time that a person means, also on a day of 23 hours; what is no time is refused. The wanted times come from `date`."""
    if BERLIN not in zoneinfo.available_timezones():
        return "no time zones here: not tried"
    for text, zone, wanted in [
            ("now", None, NOON), ("-8h", BERLIN, NOON - 8 * HOUR), ("now-90min", None, NOON - 5_400_000), ("-15m", None, NOON - 900_000),
            ("today", BERLIN, 1_711_839_600_000), ("yesterday", BERLIN, 1_711_753_200_000), ("today", None, 1_711_843_200_000),
            ("today+6h", BERLIN, 1_711_861_200_000), ("-1d", BERLIN, 1_711_800_000_000), ("-1w", BERLIN, 1_711_281_600_000),
            ("06:30", BERLIN, 1_711_859_400_000), ("06:30:15", None, 1_711_866_615_000), ("1711789200000", None, 1_711_789_200_000),
            ("2024-03-30", BERLIN, 1_711_753_200_000), ("2024-03-30T10:00+01:00", None, 1_711_789_200_000), ("newest", BERLIN, 77),
            ("newest+1s", None, 1_077), (" -2h ", BERLIN, NOON - 2 * HOUR), ("today-1d+2h-30min", BERLIN, 1_711_758_600_000)]:
        got = clock.time_of(text, zone, NOON, newest=lambda: 77)
        assert got == wanted, (text, got)
    for text, zone, why in [("soon", None, "no ISO time"), ("", None, "no ISO time"), ("24:00", BERLIN, "no time of a clock"), ("-8", None, "no ISO"),
                            ("02:30", BERLIN, "never shows this time"), ("newest", None, "here is no tag"), ("2024-03-30", None, "without an offset"),
                            ("now-999999999d", BERLIN, "before 1970"), ("now-9999999999999h", None, "before 1970"), ("now - 8h", None, "no ISO")]:
        assert why in refused_time(text, zone), (text, refused_time(text, zone))


def steps_and_lengths(folder, program, settings):
    """A step of a day is at the same time of the local clock, one of hours is not. Lengths are said in their two largest units."""
    if BERLIN not in zoneinfo.available_timezones():
        return "no time zones here: not tried"
    first, last = 1_711_753_200_000, 1_711_922_400_000  # 2024-03-30 00:00 to 2024-04-01 00:00
    assert list(clock.Step("1d").times(first, last, BERLIN)) == [first, first + 24 * HOUR, last]
    assert len(clock.Step("1h").times(first, last, BERLIN)) == 48 and len(clock.Step("1d").times(first, last, None)) == 2
    assert list(clock.Step("500").times(0, 1000, None)) == list(clock.Step("500ms").times(0, 1000, None)) == [0, 500, 1000]
    for text in ("0h", "h", "-1h", "1.5h", "1 h", "1y", ""):
        try:
            raise AssertionError(clock.Step(text).count)
        except fields.BadField as why:
            assert "no length of time" in str(why)
    for length, wanted in ((0, "0s"), (999, "0s"), (61_000, "1min 1s"), (7_200_000, "2h"), (90_000_000, "1d 1h"), (-5_400_000, "-1h 30min")):
        assert clock.length_text(length) == wanted, (length, clock.length_text(length))
    assert clock.spreadsheet_text(1_711_789_200_000, BERLIN, ",") == "2024-03-30 10:00:00"
    assert clock.spreadsheet_text(1_711_789_200_005, BERLIN, ",") == "2024-03-30 10:00:00,005"
    assert clock.offset_text(1_711_789_200_000, BERLIN) == "+01:00" and clock.offset_text(NOON, "America/St_Johns") == "-02:30"


def units_of_formulas(folder, program, settings):
    """The scale and the unit of each formula follow from those of its tags; a formula that mixes scales has none."""
    tags = {"F": (100, "m3/h"), "G": (100, "m3/h"), "T": (10, "degC"), "N": (1, "")}
    known = {"mean": formulas.Quantity(fractions.Fraction(100), "m3/h"), "wild": None}

    def of_tag(name):
        return formulas.Quantity(fractions.Fraction(tags[name][0]), tags[name][1])
    for formula, scale, unit in [
            ("avg('F')", 100, "m3/h"), ("high('T') - low('T')", 10, "degC"), ("avg('F')+avg('G')", 100, "m3/h"), ("avg('T') > 1850", 1, ""),
            ("total('F')", 100, "m3/h*s"), ("total('F') / 3600", 100, ""), ("count('F')", 1, ""), ("-avg('T')", 10, "degC"),
            ("abs(avg('T') - 500)", 10, "degC"), ("max(avg('F'), 0)", 100, "m3/h"), ("if(avg('T') > 007, avg('F'), 0)", 100, "m3/h"),
            ("calc('mean') * 2", 100, ""), ("avg('F') * avg('T')", 1000, "m3/h*degC"), ("avg('F') / avg('G')", 1, ""),
            ("avg('T') / avg('F')", fractions.Fraction(1, 10), "degC/(m3/h)"), ("avg('F') % 50", 100, "m3/h"), ("5", 1, ""),
            ("avg('F') <> 1 ", 1, ""), ("(avg('F') = 0) + (avg('T') >= 1)", 1, ""), ("last('N')", 1, "")]:
        found = formulas.quantity_of(formula, of_tag, known)
        assert found and (found.scale, found.unit) == (scale, unit), (formula, found and (found.scale, found.unit))
    for formula in ("avg('F') + avg('T')", "if(1, avg('F'), avg('T'))", "calc('wild')", "avg('F') > avg('T')", "min(avg('T'), calc('mean'))"):
        assert formulas.quantity_of(formula, of_tag, known) is None, formula


def asked(trial, *words):
    """What ask.py answers, as rows without the header."""
    status, text = trial.tool("ask.py", *words)
    assert status == 0, (words, status, text)
    return list(csv.reader(text.splitlines()))[1:]


def prints_of(folder):
    """The sha256 of each file below a folder, by name."""
    found = {}
    for place, _, names in os.walk(folder):
        for name in names:
            with open(os.path.join(place, name), "rb") as data:
                found[os.path.join(place, name)] = hashlib.sha256(data.read()).hexdigest()
    return found


def python_of_a_reader():
    """A Python that an account without any rights can start, with the words by which to start it; None if there is none here."""
    reader = {"user": 65_534, "group": 65_534, "extra_groups": []} if os.geteuid() == 0 else {}
    for python in (sys.executable, "/usr/bin/python3"):
        with contextlib.suppress(OSError):
            words = [python, "-c", "import sys, tomllib; open(sys.argv[1])", os.path.join(TOOLS, "ask.py")]
            if subprocess.run(words, capture_output=True, **reader).returncode == 0:
                return python, reader
    return None


def asks_with_a_right_to_read(folder, program, settings):
    """An account that may only read asks, lists and draws, in a plant whose base was edited. Not a byte of the plant changes."""
    trial, _ = two_blocks(folder, program)
    trial.write("base.toml", base_text(comp_dev=4))
    before, wanted, out = prints_of(trial.folder), trial.tool("ask.py", "snap,FIC1.PV", "row,unit,flow,3")[1], os.path.join(folder, "out")
    found = python_of_a_reader()
    if not found:
        return "Python or the tools are where another account may not read: not tried"
    os.chmod(folder, 0o755)
    os.mkdir(out)
    os.chmod(out, 0o777)
    subprocess.run(["chmod", "-R", "a-w,a+rX", trial.folder], check=True)
    try:
        for name, *words in (("ask.py", "snap,FIC1.PV", "row,unit,flow,3"), ("ask.py", "--tags"),
                             ("draw.py", "FIC1.PV", str(START), "newest", os.path.join(out, "x.svg"))):
            command = [found[0], os.path.join(TOOLS, name), "--program", trial.program, *words]
            child = subprocess.run(command, cwd=trial.folder, capture_output=True, text=True, **found[1],
                                   env=dict(os.environ, TMPDIR=out, HOME=out, PYTHONDONTWRITEBYTECODE="1"))
            assert child.returncode == 0, (name, child.returncode, child.stdout + child.stderr)
            assert "snap,FIC1.PV" not in words or child.stdout == wanted, (child.stdout, wanted)
    finally:
        subprocess.run(["chmod", "-R", "u+w", trial.folder], check=True)
    assert prints_of(trial.folder) == before and os.listdir(out) == ["x.svg"], "left: %s" % os.listdir(out)


def several_ask_at_once(folder, program, settings):
    """Others who read keep nobody from asking; who writes does, and ask.py says so. While the program answers, the feeder feeds."""
    trial, _ = two_blocks(folder, program)
    for name, flag, wanted in (("feed.lock", fcntl.LOCK_SH, 0), ("", fcntl.LOCK_SH, 0), ("feed.lock", fcntl.LOCK_EX, 20), ("", fcntl.LOCK_EX, 20)):
        handle = os.open(trial.path("historian.d", name).rstrip("/"), os.O_RDONLY)
        fcntl.flock(handle, flag)
        status, text = trial.tool("ask.py", "--wait", "0.2", "snap,LIC4.PV")
        assert status == wanted and (wanted == 0 or "another process works on this plant" in text), (name, flag, status, text)
        os.close(handle)
    before = asked(trial, "snap,LIC4.PV")
    slow = trial.path("slow.sh")
    trial.write("slow.sh", '#!/bin/sh\ntouch "%s"\nwhile ! [ -e "%s" ]; do sleep 0.02; done\nexec %s "$@"\n' % (
        trial.path("asking"), trial.path("go"), program))
    os.chmod(slow, 0o755)
    command = [sys.executable, os.path.join(TOOLS, "ask.py"), "--program", slow, "snap,LIC4.PV"]
    first = subprocess.Popen(command, cwd=trial.folder, stdout=subprocess.PIPE, text=True)
    wait_for(lambda: os.path.exists(trial.path("asking")))
    assert "turn 2" in trial.fed()
    trial.write("go", "")
    assert list(csv.reader(first.communicate()[0].splitlines()))[1:] == before != asked(trial, "snap,LIC4.PV")


def copies_in_memory(folder, program, settings):
    """Copies of devices lie in memory only while they are asked. What a killed process left there is removed, and nothing else."""
    if "TMPDIR" in os.environ or not os.access("/dev/shm", os.W_OK):
        return "no /dev/shm, or TMPDIR is set: not tried"
    trial, _ = two_blocks(folder, program)
    left, held, other = (tempfile.mkdtemp(prefix=prefix, dir="/dev/shm") for prefix in ("historian-", "historian-", "historia-"))
    for path in (left, held, other):
        os.mkdir(os.path.join(path, "historian.d"))
        os.utime(path, (1_000, 1_000))
    handle = os.open(held, os.O_RDONLY)
    fcntl.flock(handle, fcntl.LOCK_SH)
    try:
        assert len(asked(trial, "snap,FIC1.PV")) == 1
        assert [os.path.exists(path) for path in (left, held, other)] == [False, True, True]
    finally:
        os.close(handle)
        for path in (held, other):
            shutil.rmtree(path)


def asks_while_a_base_is_refused(folder, program, settings):
    """The base is edited so that the program would refuse a tag's device, and the feeder stops; an older one left the edited base behind.
    ask.py answers about that tag as before, and about the others too: it takes kind and tuning from the devices."""
    trial, _ = two_blocks(folder, program)
    words = ["points,XV7.ZSO,0,%d" % (START + 9 * HOUR), "at,XV7.ZSO,%d" % (START + HOUR), "snap,XV7.ZSO"]
    before = asked(trial, *words)
    trial.write("base.toml", base_text().replace("step = true\n", "", 1))
    status, text = trial.feed()
    assert status == 22 and "the `step` of XV7.ZSO was edited" in text and not os.path.exists(trial.path("feed.d/base.new.toml")), text
    trial.write("feed.d/base.new.toml", trial.read("base.toml"))
    check_same(str(asked(trial, *words)), str(before), "while a base is refused")
    assert len(before) > 3 and asked(trial, "snap,FIC1.PV", "row,unit,hot,2")[0][4], before


def reasons_for_no_value(folder, program, settings):
    """Where there is no value ask.py says why; a value that only goes on has the time of the newest one behind it."""
    trial = Trial(os.path.join(folder, "a"), program)
    trial.write("feed.toml", 'zone = "UTC"\n' + trial.read("feed.toml"))
    trial.write("inbox/x.csv", "".join("%s,%s,%s\n" % (tag, fields.iso_text(START + 60_000 * n, None), 5 * (n % 2))
                                       for tag in ("FIC1.PV", "TIC3.PV") for n in range(60)))
    trial.fed()
    newest, first = "the newest value is of 2024-03-29 00:59:00+00:00", "the first value is of 2024-03-29 00:00:00+00:00"
    lines = asked(trial, "avg,FIC1.PV,2024-03-29,2024-03-29T02:00", "avg,FIC1.PV,2024-03-28,2024-03-29T00:30", "at,FIC1.PV,2024-03-30",
                  "at,FIC1.PV,2024-03-28", "at,FIC1.PV,2024-03-29T00:30", "snap,LIC4.PV", "at,LIC4.PV,now", "avg,LIC4.PV,-1h,now",
                  "row,unit,flow,2024-03-29T00:20", "row,unit,flow,2024-03-29T00:50", "avg,FIC1.PV,2024-03-29,newest")
    notes = [line[6] for line in lines]
    assert notes[:5] == [newest, first, "flat; " + newest, "none; " + first, "exact"], notes
    assert notes[5:8] == ["taken=0", "none; no value was ever fed", "no value was ever fed"], notes
    assert notes[8] == "" and lines[8][4] == "2.50" and lines[8][2] == "2024-03-29T00:15:00.000+00:00", lines[8]
    assert notes[9] == "the window is not complete: FIC1.PV has no kept value at 2024-03-29 01:00:00+00:00 or later yet", notes[9]
    assert lines[10][3:5] == ["2024-03-29T00:59:00.000+00:00", "2.50"] and notes[10] == "", lines[10]
    for query, why in (("avg,FIC1.PV,1", "no query: avg,FIC1.PV,1"), ("avg/h,FIC1.PV,1,2", "The forms are"), ("total/x,FIC1.PV,1,2", "The forms"),
                       ("total/0,FIC1.PV,1,2", "The forms are"), ("at,NOBODY,1", "has no tag NOBODY; it has FIC1.PV, FIC2.PV"),
                       ("row,none,flow,1", "has no group none; it has unit"), ("row,unit,none,1", "no calculation none; it has flow, hot"),
                       ("row,unit,flow,2024-03-28", "the group unit begins at 2024-03-29 00:00:00"), ("at,LIC4.PV,newest", "no value of LIC4.PV was"),
                       ("at,FIC1.PV,soon", "no ISO time")):
        status, text = trial.tool("ask.py", query)
        assert status == 22 and why in text and "stored" not in text, (query, status, text)


def units_and_totals(folder, program, settings):
    """Values have their units, calculations too. A total of m3/h is divided by hours to be m3, or by any number of seconds."""
    trial = Trial(os.path.join(folder, "a"), program)
    text = base_text().replace("exc_dev", 'engunits = "0.01 m3/h"\nexc_dev', 1)
    trial.write("base.toml", text.replace("avg('TIC3.PV') > 20100", "avg('FIC1.PV') + avg('TIC3.PV')"))
    trial.write("feed.toml", 'settle_seconds = 0\n[tag."TIC3.PV"]\nscale = 1000\n')
    end = START + 3 * HOUR
    trial.write("inbox/x.csv", "".join("FIC1.PV,%d,42.33\nTIC3.PV,%d,20.25\n" % (t, t) for t in range(START, end + 1, 600_000))
                + "".join("FIC1.PV,%d,%d\nTIC3.PV,%d,%d\n" % (end + n * HOUR, 50 * n, end + n * HOUR, 9 * n) for n in (1, 2, 5)))
    trial.fed()
    lines = asked(trial, "avg,FIC1.PV,%d,%d" % (START, end), "total,FIC1.PV,%d,%d" % (START, end), "total/h,FIC1.PV,%d,%d" % (START, end),
                  "total/60,FIC1.PV,%d,%d" % (START, end), "row,unit,flow,2", "row,unit,hot,2", "count,FIC1.PV,%d,%d" % (START, end),
                  "area,TIC3.PV,%d,%d" % (START, START + 1000))
    assert [line[4:6] for line in lines[:3]] == [["42.33", "m3/h"], ["457164.00", "m3/h*s"], ["126.99000", "m3"]], lines
    assert lines[3][4:6] == ["7619.400", ""] and lines[4][4:] == ["42.33", "m3/h", ""], lines
    assert lines[5][4:] == [str(4233 + 20_250), "", "in stored units: the formula mixes scales"], lines[5]
    assert lines[6][5] == "points" and lines[7][4:] == ["40500.000", "", "twice the area"], lines


def lay_example(folder, program):
    """A copy of examples/plant that was fed its first day."""
    trial = Trial(os.path.join(folder, "plant"), program)
    for name in ("base.toml", "feed.toml", "calendar.toml", "make_days.py"):
        with open(os.path.join(EXAMPLE, name)) as text:
            trial.write(name, text.read())
    subprocess.run([sys.executable, "make_days.py", "--iso"], cwd=trial.folder, check=True)
    for name in ("flow1.csv", "unit1.csv"):
        os.rename(trial.path(name), trial.path("inbox", name))
    assert "19807 values of 5 tags stored" in trial.fed()
    return trial


def shifts_and_frames(folder, program, settings):
    """Shifts and frames of the example are those of TOUR, in a person's times and units. The running shift has its figure until the newest
    value. In a folder that is no plant nothing is made."""
    trial = lay_example(folder, program)
    lines = asked(trial, "--shifts", "calendar.toml", "2024-03-30", "2")
    assert lines[0] == ["avg", "FIC101.PV", "2024-03-30T06:00:00.000+01:00", "2024-03-30T18:00:00.000+01:00", "6298", "l/h", "2024-03-30 shift 1"]
    until = asked(trial, "avg,FIC101.PV,2024-03-30T18:00,newest")[0][4]
    assert lines[2][3:] == ["2024-03-31T06:00:00.000+02:00", until, "l/h",
                            "2024-03-30 shift 2, until 2024-03-30 23:58:50+01:00, the newest value"] and until, lines[2]
    assert lines[4][4:] == ["", "l/h", "2024-03-31 shift 1, the newest value is of 2024-03-30 23:58:50+01:00"], lines[4]
    frames = asked(trial, "--frames", "unit1", "hot", "2")
    assert frames == [["frame", "unit1/hot", "2024-03-30T09:00:00.000+01:00", "2024-03-30T11:00:00.000+01:00", "2h", "", ""],
                      ["frame", "unit1/hot", "2024-03-30T15:45:00.000+01:00", "2024-03-30T16:45:00.000+01:00", "1h", "", ""]], frames
    assert asked(trial, "--frames", "unit1", "hot", "2", "2024-03-30T12:00", "now") == frames[1:]
    for words, why in ((["--shifts", "calendar.toml", "soon"], "no ISO time"), (["--shifts", "nothing.toml", "today"], "cannot be read"),
                       (["--shifts", "calendar.toml", "today", "400"], "from 1 to 366"), (["--frames", "unit1", "hot", "two"], "number of windows"),
                       (["--frames", "unit1", "hot", "0"], "number of windows from 1"),
                       (["--shifts", "base.toml", "today"], "a calendar has zone, starts, tags and measure"),
                       (["--frames", "unit1", "hot", "2", "now", "today"], "FROM is behind TO")):
        status, text = trial.tool("ask.py", *words)
        assert status == 22 and why in text, (words, status, text)
    trial.folder = os.path.join(folder, "elsewhere")
    os.mkdir(trial.folder)
    trial.write("base.toml", base_text())
    for words in (["--shifts", "calendar.toml", "today"], ["--frames", "unit", "hot", "2"], ["--tags"], ["snap,FIC1.PV"]):
        status, text = trial.tool("ask.py", *words)
        assert status == 22 and os.listdir(trial.folder) == ["base.toml"], (words, status, text)


def tables_of_tags(folder, program, settings):
    """A table has a column for each tag with its unit, values at steps as `at` gives them, nothing behind the newest value, and for a
    spreadsheet local times in a night in which the clock goes back. A file without units can be fed again."""
    if BERLIN not in zoneinfo.available_timezones():
        return "no time zones here: not tried"
    night = 1_729_983_600_000  # 2024-10-27 01:00 in Berlin
    trial, other = Trial(os.path.join(folder, "a"), program), Trial(os.path.join(folder, "b"), program)
    for plant in (trial, other):
        plant.write("base.toml", base_text().replace("exc_dev", 'engunits = "0.01 m³/h"\nexc_dev', 1))
        plant.write("feed.toml", 'zone = "%s"\nseparator = ";"\ndecimal = ","\nsettle_seconds = 0\n' % BERLIN)
    trial.write("inbox/x.csv", "".join("FIC1.PV;%d;%d,5\n" % (night + n * HOUR // 2, 10 * n) for n in range(9))
                + "".join("LIC4.PV;%d;%d\n" % (night + n * HOUR, n % 2 * 100) for n in range(4)))
    trial.fed()
    span = [fields.iso_text(night, None), fields.iso_text(night + 4 * HOUR, None)]
    status, text = trial.tool("ask.py", "--table", "FIC1.PV", "LIC4.PV", *span, "--every", "1h", "--excel")
    lines = text.splitlines()
    assert status == 0 and lines[0] == "\ufefftime;clock;FIC1.PV (m³/h);LIC4.PV", text
    assert lines[1:6] == ["2024-10-27 01:00:00;+02:00;0,50;0", "2024-10-27 02:00:00;+02:00;20,50;100",
                          "2024-10-27 02:00:00;+01:00;40,50;0", "2024-10-27 03:00:00;+01:00;60,50;100", "2024-10-27 04:00:00;+01:00;80,50;"], text
    assert lines[6] == "LIC4.PV: the newest value is of 2024-10-27 03:00:00+01:00; fields behind it are empty", text
    status, text = trial.tool("ask.py", "--table", "FIC1.PV", "LIC4.PV", *span, "--every", "2h", "--measure", "avg")
    assert text.splitlines()[1:3] == ["2024-10-27T01:00:00.000+02:00,20.50,50", "2024-10-27T02:00:00.000+01:00,60.50,"], text
    got = asked(trial, "--table", "FIC1.PV", *span)
    assert [row[1] for row in got] == [row[4] for row in asked(trial, "points,FIC1.PV,%s,%s" % tuple(span))], got
    text = trial.tool("ask.py", "--table", "FIC1.PV", "LIC4.PV", *span, "--no-units")[1]
    other.write("feed.toml", 'zone = "%s"\nsettle_seconds = 0\n' % BERLIN)
    other.write("inbox/again.csv", text)
    other.fed()
    check_same(asked(other, "points,LIC4.PV,0,now"), asked(trial, "points,LIC4.PV,0,now"), "after an export was fed")
    for words, why in ((["--csv", "FIC1.PV", "now", "today"], "FROM is behind TO"), (["--csv", "FIC1.PV", "today", "now", "--every", "1y"], "1y"),
                       (["--table", "FIC1.PV", "NOBODY", "today", "now"], "no tag NOBODY")):
        status, text = trial.tool("ask.py", *words)
        assert status == 22 and why in text, (words, status, text)
    for words in (["--csv", "FIC1.PV", "now"], ["snap,FIC1.PV", "--every", "1h"], ["--csv", "FIC1.PV", "0", "1", "--excel"], [], ["--measure", "avg"]):
        assert trial.tool("ask.py", *words)[0] == 2, words


def tags_at_a_glance(folder, program, settings):
    """--tags has a line for each tag: newest value, age, records, late and taken as `check` has them. A damaged device spoils its own line
    alone. Words choose tags by name and descriptor."""
    trial = Trial(os.path.join(folder, "a"), program)
    trial.write("base.toml", base_text().replace("exc_dev", 'descriptor = "Feed water"\nengunits = "0.01 m3/h"\nexc_dev', 1))
    now = 1000 * int(time.time())
    trial.write("inbox/x.csv", "".join("FIC1.PV,%d,%d\n" % (now - n * HOUR, n % 2) for n in range(49, 0, -1))
                + "FIC1.PV,%d,1.05\nLIC4.PV,5000,7\nLIC4.PV,4000,7\n" % (now - HOUR + 300_000))  # 1.05 is set aside
    trial.fed()
    lines = {line[0]: line for line in asked(trial, "--tags")}
    checked = {match[1]: match.groups()[1:] for match in re.finditer(r"tag (\S+) taken=(\d+) records=(\d+) kept=\d+ late=(\d+)",
                                                                    trial.by_hand("check", "feed.d/base.toml"))}
    assert {name: (line[10], line[6], line[9]) for name, line in lines.items()} == checked, (lines, checked)
    line = lines["FIC1.PV"]
    assert line[1:4] == ["Feed water", "1.00", "m3/h"] and re.match("5[5-9]min|1h", line[5]), line
    assert line[4] == clock.short_text(now - HOUR + 300_000, None), line
    assert lines["FIC2.PV"][11] == "no value was ever fed" and lines["LIC4.PV"][9] == "1", lines
    full = now - HOUR + (1_048_576 - int(line[6])) * 48 * HOUR // int(line[6])
    assert line[8] == fields.iso_text(full, None)[:10] and line[7] == "0.0", (line, full)
    assert [row[0] for row in asked(trial, "--tags", "WATER", "xv7")] == ["FIC1.PV", "XV7.ZSO"]
    assert "no tag has kiln in its name" in trial.tool("ask.py", "--tags", "kiln")[1]
    with open(trial.path("historian.d/LIC4.PV.tag"), "r+b") as out:
        out.seek(70)
        out.write(b"Q")
    damaged = {line[0]: line for line in asked(trial, "--tags")}
    assert damaged["LIC4.PV"][11] == "is not as the last turn left it" and damaged["FIC1.PV"][2] == "1.00" and len(damaged) == 8, damaged


def points_at_uneven_paces(folder, program, settings):
    """All points come, and none twice, also where thousands stand close together and others far apart."""
    trial = Trial(os.path.join(folder, "a"), program)
    trial.write("base.toml", base_text().replace("exc_dev = 10", "exc_dev = 0").replace("comp_dev = 30", "comp_dev = 0"))
    times = [START + 3_600_000 * n for n in range(300)] + [START + 300 * HOUR + 10 * n for n in range(4_000)]
    times += [times[-1] + 7_000_001 * n for n in range(1, 500)]
    points = [(t, str(n % 2 * 100)) for n, t in enumerate(times)]
    trial.write("inbox/x.csv", "".join("LIC4.PV,%d,%s\n" % point for point in points))
    trial.fed()
    got = [(fields.milliseconds(t, None), v) for t, v in asked(trial, "--csv", "LIC4.PV", "0", str(times[-1]))]
    assert got == points, (len(got), len(points))


def help_and_version(folder, program, settings):
    """Each tool prints its version, and with --help what its exit statuses mean."""
    for name in ("ask.py", "draw.py", "feed.py", "tune.py", "package.py"):
        for word, wanted in (("--version", "%s of historian 1." % name), ("--help", "xit status")):
            child = subprocess.run([sys.executable, os.path.join(TOOLS, name), word], capture_output=True, text=True)
            assert child.returncode == 0 and wanted in child.stdout, (name, word, child.stdout[:200], child.stderr)


def pandas_reads_a_table(folder, program, settings):
    """What RUNNING shows of pandas runs, where it is installed: the table of the example as a frame with times."""
    pythons = [python for python in (sys.executable, "/usr/bin/python3")
               if os.path.exists(python) and subprocess.run([python, "-c", "import pandas"], capture_output=True).returncode == 0]
    with open(os.path.join(DOCS, "RUNNING.md")) as text:
        shown = [line[4:] for line in text if line.startswith("    ") and ("pandas" in line or line.startswith("    frame"))]
    assert len(shown) >= 2, shown
    if not pythons:
        return "no pandas here: not tried"
    trial = lay_example(folder, program)
    status, text = trial.tool("ask.py", "--table", "FIC101.PV", "TIC201.PV", "2024-03-30", "2024-03-31", "--every", "1h")
    trial.write("day.csv", text[:text.index("FIC101.PV: ")] if "\nFIC101.PV: " in text else text)
    code = "".join(shown) + "print(frame.index[1].isoformat(), len(frame), round(frame['TIC201.PV (degC)'].max(), 2))\n"
    child = subprocess.run([pythons[0], "-c", code], cwd=trial.folder, capture_output=True, text=True)
    highest = max(float(row[4]) for row in asked(trial, *["at,TIC201.PV,2024-03-30T%02d:00" % hour for hour in range(24)]))
    assert child.stdout.split() == ["2024-03-30T01:00:00+01:00", "25", str(highest)], (child.stdout, child.stderr, highest)


CASES = [spoken_times, steps_and_lengths, units_of_formulas, asks_with_a_right_to_read, several_ask_at_once, copies_in_memory,
         asks_while_a_base_is_refused, reasons_for_no_value, units_and_totals, shifts_and_frames, tables_of_tags, tags_at_a_glance,
         points_at_uneven_paces, help_and_version, pandas_reads_a_table]
