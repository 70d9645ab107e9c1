"""keeping.py: tests of what the archive keeps and of the tools that read it; test_tools.py runs them.

These are seals and backups, an archive and a group without room for more, questions, and pictures."""
import csv
import os
import re
import shutil
import unittest.mock
import xml.etree.ElementTree

import feed
import fields
import seals
import status
import turns
from plant import Plant
from trial import GROUP, HOUR, LINES, START, STEPS, Trial, base_text, check_same, expected, printed, two_blocks

SPREAD = 3_000_000


def found_by_seals(folder, program, settings):
    """Each tool names a device with a flipped bit before the program opens anything, and the feeder names a missing one. It names the
    copy in backup/, with which all goes on. Other tags may be asked about meanwhile."""
    trial, wanted = two_blocks(folder, program)
    copy = trial.fed("--backup").strip()
    device, good = trial.path("historian.d/LIC4.PV.tag"), trial.path(copy, "historian.d/LIC4.PV.tag")
    for place in (0, 75, 401, os.path.getsize(device) - 1):
        flipped = bytearray(open(good, "rb").read())
        flipped[place] ^= 1
        with open(device, "wb") as out:
            out.write(flipped)
        for asked in ((), ("--verify",), ("--backup",)):
            status, text = trial.feed(*asked)
            assert status == 21 and "historian.d/LIC4.PV.tag is not as the last turn left it" in text, (place, text)
            assert "stand in %s/historian.d/LIC4.PV.tag: copy that file back, and no other" % copy in text, text
        assert trial.tool("ask.py", "snap,FIC1.PV")[0] == 0
        for tool, asked in (("ask.py", ["snap,LIC4.PV"]), ("draw.py", ["LIC4.PV", "1711670400000", "1711680000000", "x.svg"])):
            status, text = trial.tool(tool, *asked)
            assert status == 21 and "LIC4.PV.tag is not as the last turn left it" in text, (place, text)
        assert open(device, "rb").read() == flipped, "the damaged device was changed"
    os.remove(device)
    assert "LIC4.PV.tag is missing" in trial.feed()[1]
    shutil.copy(good, device)
    trial.fed()
    check_same(trial.answers(), wanted, "after a device was put back")


def which_copy(folder, program, settings):
    """The feeder says what to do: put the whole plant back, move a group's file away, or feed all files again. Without seals, or with
    damaged ones, --verify says so."""
    trial, _ = two_blocks(folder, program)
    device, first = trial.path("historian.d/LIC4.PV.tag"), trial.fed("--backup").strip()
    trial.fed()
    shutil.copytree(trial.path(first), trial.path("backup/of-mine"))  # a folder that the feeder did not make
    with open(device, "r+b") as out:
        out.seek(401)
        out.write(b"Q")
    assert "an older copy of one file does not fit the others: put the whole plant back from %s: feed.py --restore %s." % (first, os.path.basename(first)) in trial.feed()[1]
    shutil.copy(trial.path(first, "historian.d/LIC4.PV.tag"), device)  # put back wrongly
    assert "historian.d/LIC4.PV.tag is not as the last turn left it" in trial.feed()[1]
    shutil.rmtree(trial.path("backup"))
    text = trial.feed()[1]
    assert "No backup has this device. If done/ has all turns, all of them can be made again: feed.py --restore nothing." in text, text
    trial.fed("--seal")
    with open(trial.path("historian.d/unit.grp"), "ab") as out:
        out.write(b"Q")
    assert "Move the file away: its rows are made anew by the next feed" in trial.feed()[1]
    good = trial.read("feed.d/seals")
    trial.write("feed.d/seals", good.replace("  historian.d/FIC2", " !historian.d/FIC2", 1))
    for asked in ((), ("--verify",), ("--backup",)):
        status, text = trial.feed(*asked)
        assert status == 21 and "feed.d/seals is damaged" in text, (status, text)
    assert "9 devices are sealed" in trial.fed("--seal")
    os.remove(trial.path("feed.d/seals"))
    assert trial.feed("--verify")[0] == 21 and "there are no seals yet" in trial.feed("--verify")[1]
    assert trial.feed("--verify", "--backup")[0] == 2 and trial.feed("--every", "1", "--backup")[0] == 2


def log_is_sealed(folder, program, settings):
    """The plant's log is sealed and copied too. Rows that `log` adds to it by hand are no damage. A flipped bit among the sealed ones is
    damage, and so is a missing log."""
    trial, _ = two_blocks(folder, program)
    log, rows = trial.path("historian.d/plant.log"), trial.rows
    trial.write("mine.toml", '[[collector]]\nfile = "mine.csv"\n')
    for block, part in ((1, rows[:100]), (2, rows[100:200])):
        trial.write("mine.csv", "".join("%s,%d,%d\n" % (name, t, v) for t, name, v in part))
        trial.by_hand("log", "base.toml", "mine.toml")
        trial.deliver(block, hours=1)
        trial.fed()
    size = seals.sealed_log(Plant(trial.folder, program))[1]
    assert size == os.path.getsize(log) - 1 and size > 200 * 32, (size, os.path.getsize(log))
    assert "9 devices and the first %d bytes of the log, each as" % size in trial.fed("--verify")
    trial.by_hand("log", "base.toml", "mine.toml")
    copy = trial.fed("--backup").strip()
    good = open(trial.path(copy, "historian.d/plant.log"), "rb").read()
    assert open(log, "rb").read() == good
    for place in (0, 30, size + 40, len(good) - 2):
        with open(log, "wb") as out:
            out.write(good[:place] + bytes([good[place] ^ 1]) + good[place + 1:])
        for asked in ((), ("--verify",), ("--backup",)):
            status, text = trial.feed(*asked)
            assert status == 21 and "historian.d/plant.log no longer begins with the rows that it had" in text, (place, text)
            assert "stand in %s/historian.d/plant.log: copy that file back, and no other" % copy in text, text
    os.remove(log)
    assert "plant.log is missing" in trial.feed()[1]
    shutil.copy(trial.path(copy, "historian.d/plant.log"), log)
    trial.fed()


def run_by_hand(folder, program, settings):
    """The feeder reports rows that were stored by hand between two turns. --seal accepts them. A group's file may be removed."""
    trial, _ = two_blocks(folder, program)
    trial.store_by_hand([(1711800000000, "LIC4.PV", 5)])
    status, text = trial.feed()
    assert status == 21 and "LIC4.PV.tag" in text and "--seal" in text, text
    text = trial.fed("--seal")
    assert "9 devices are sealed" in text and text.count("it has") == 1, text
    assert "historian.d/LIC4.PV.tag is not as the last turn left it" in text and "it has 61 events now, and had 60" in text, text
    os.remove(trial.path("historian.d/unit.grp"))
    assert "turn 2" in trial.fed() and "9 devices, each as" in trial.fed("--verify")


def killed_by_hand(folder, program, settings):
    """The program was run by hand on half of the rows, as after a kill, before the feeder was ever used. The feeder says how many rows
    of each tag are stored, and feeds nothing until --seal. ask.py answers."""
    trial = Trial(os.path.join(folder, "a"), program)
    trial.deliver(0, hours=3)
    wanted = expected(os.path.join(folder, "hand"), program, trial.rows)
    half = trial.rows[:150]
    trial.store_by_hand(half)
    for asked in (("--backup",), ()):
        status, text = trial.feed(*asked)
        assert status == 21 and "no turn stored what is in historian.d" in text and "feed.py --seal" in text, (status, text)
    stored = dict(re.findall(r"historian.d/(\S+).tag has (\d+) events", text))
    assert stored == {name: str(sum(row[1] == name for row in half)) for _, name, _ in half}, stored
    assert trial.tool("ask.py", "snap,FIC1.PV")[0] == 0 and len(os.listdir(trial.path("inbox"))) == 2
    trial.fed("--seal")
    for name in os.listdir(trial.path("inbox")):
        os.remove(trial.path("inbox", name))
    trial.write("inbox/rest.csv", "".join("%s,%d,%s\n" % (name, t, fields.decimal_text(v, (LINES | STEPS)[name]))
                                          for t, name, v in trial.rows[150:]))
    trial.fed()
    check_same(trial.answers(), wanted, "after the rest was fed")


def archive_is_full(folder, program, settings):
    """Rows for which a tag has no room go to refused/, in a file of their own, and the other tags go on. The test lowers the limit."""
    trial = Trial(os.path.join(folder, "a"), program)
    lines = ["FIC1.PV,%d,%d\nLIC4.PV,%d,5\n" % (1000 * n, n % 2 * 100, 1000 * n) for n in range(100)]
    trial.write("inbox/no-room.csv", "".join(lines) + "LIC4.PV,soon,5\n")
    with printed() as said, unittest.mock.patch.object(feed, "RECORDS", 40):
        feed.feed(Plant(trial.folder, program), None, 5)
    tags = {m[1]: (int(m[2]), int(m[3])) for m in re.finditer(r"tag (\S+) taken=(\d+) records=(\d+)", trial.by_hand("check", "base.toml"))}
    with open(trial.path("refused/000001/again-no-room.csv")) as text:
        rest = list(csv.reader(text))[1:]
    assert "all %d are in refused/000001/again-no-room.csv" % len(rest) in said.getvalue(), said.getvalue()
    assert "no-room.csv row 201: LIC4.PV: no ISO time" in said.getvalue(), said.getvalue()
    assert tags["LIC4.PV"][0] == 100 and tags["FIC1.PV"][1] <= 40 and tags["FIC1.PV"][0] + len(rest) == 100 and len(rest) > 40, tags
    assert rest[0][1:3] == ["1970-01-01T00:00:%02d.000Z" % tags["FIC1.PV"][0], "%d.00" % (tags["FIC1.PV"][0] % 2)], rest[0]


def nearly_full_is_a_warning(folder, program, settings):
    """--status warns when a tag, or all tags together, have more than nine tenths of the records that they may have, and not before; also
    after a restore. The test lowers the limits."""
    trial = Trial(os.path.join(folder, "a"), program)
    trial.write("inbox/x.csv", "".join("FIC1.PV,%d,%d\nLIC4.PV,%d,5\n" % (1000 * n, n % 2 * 100, 1000 * n) for n in range(100)))
    trial.fed()
    records = [int(count) for count in re.findall(r" records=(\d+) ", trial.by_hand("check", "base.toml"))]
    tag, plant = (-(-10 * count // 9) for count in (max(records), sum(records)))  # the least limits that are not nearly reached
    cases = (((tag, plant), 0, "FEED OK: turn 1, "),
             ((tag - 1, plant), 1, "FEED WARNING: tag FIC1.PV is 90 % full: begin a new folder; turn 1, "),
             ((tag, plant - 1), 1, "FEED WARNING: the plant is 90 % full: begin a new folder; turn 1, "))
    for restored in (False, True):
        if restored:
            trial.fed("--restore", "nothing")
        for (tag, plant), ends, said in cases:
            with printed() as line, unittest.mock.patch.multiple(status, TAG_RECORDS=tag, PLANT_RECORDS=plant):
                assert status.tell_status(trial.folder, program, 900) == ends, (tag, plant, restored, line.getvalue())
            full = "full=%.1f%%\n" % max(100 * max(records) / tag, 100 * sum(records) / plant)
            assert line.getvalue().startswith(said) and line.getvalue().endswith(full), (full, restored, line.getvalue())


def rows_without_room_come_again(folder, program, settings):
    """Another plant takes the rows that went to refused/ for want of room, each with its value, whatever the scale and the decimal mark."""
    text = 'settle_seconds = 0\nseparator = ";"\ndecimal = ","\n[tag."FIC1.PV"]\nscale = 7\n'
    trial, other = Trial(os.path.join(folder, "a"), program), Trial(os.path.join(folder, "b"), program)
    for plant in (trial, other):
        plant.write("feed.toml", text)
    trial.write("inbox/x.csv", "".join("FIC1.PV;%d;%d,5\n" % (1000 * n, n % 2 * 100) for n in range(100)))
    with printed(), unittest.mock.patch.object(feed, "RECORDS", 40):
        feed.feed(Plant(trial.folder, program), None, 5)
    os.rename(trial.path("refused/000001/no-room.csv"), other.path("inbox/rest.csv"))
    assert " values of 1 tags stored, 0 refused" in other.fed()
    taken = [int(re.search(r"tag FIC1.PV taken=(\d+)", plant.by_hand("check", "base.toml"))[1]) for plant in (trial, other)]
    assert sum(taken) == 100 and taken[1] > 40, taken
    assert "held=99000,704\n" in other.by_hand("check", "base.toml"), other.by_hand("check", "base.toml")


def files_are_not_too_long(folder, program, settings):
    """A tag with more rows than fit into a collector's file gets them in several runs. The test lowers the limit."""
    trial = Trial(os.path.join(folder, "a"), program)
    trial.deliver(0, hours=3)
    wanted = expected(os.path.join(folder, "hand"), program, trial.rows)
    plant, runs, sizes = Plant(trial.folder, program), [], []

    def call(*words):
        """Notes the runs and the sizes of their files, and calls the program."""
        if words[0] == "run":
            runs.append(words)
            sizes.extend(os.path.getsize(trial.path("feed.d/turn", name)) for name in os.listdir(trial.path("feed.d/turn"))
                         if name[:-4].isdigit())
        return Plant.call(plant, *words)
    plant.call = call
    with printed(), unittest.mock.patch.object(turns, "TAG_BYTES", 1_000):
        feed.feed(plant, None, 5)
    check_same(trial.answers(), wanted, "in several runs")
    assert len(runs) > 2 and max(sizes) <= 1_000, (len(runs), sizes)
    assert turns.TAG_BYTES + 4_000_000 * turns.row_bytes("N" * 64) // turns.COLLECTORS < 67_108_864


def group_is_too_large(folder, program, settings):
    """A group with too many windows does not keep rows from being stored, and the feeder explains the limit."""
    trial = Trial(os.path.join(folder, "a"), program)
    trial.write("base.toml", base_text(group=GROUP.replace("900_000", "7")))
    trial.deliver(0)
    status, text = trial.feed()
    assert status == 10 and "fault: limit cells" in text and "too many windows" in text, (status, text)
    assert not os.listdir(trial.path("inbox")) and not os.path.exists(trial.path("feed.d/turn.json"))
    status, text = trial.tool("ask.py", "snap,XV7.ZSO")
    assert status == 0 and "taken=4" in text, text
    assert trial.tool("ask.py", "row,unit,flow,0")[0] == 10
    trial.write("base.toml", base_text())
    trial.deliver(1)
    trial.fed()
    check_same(trial.answers(), expected(os.path.join(folder, "hand"), program, trial.rows), "after the group was corrected")


def questions(folder, program, settings):
    """ask.py prints all points of a tag, however many, and what the program answers, with ISO times and decimals."""
    trial = Trial(os.path.join(folder, "a"), program)
    points = [(START + 1000 * n, 100 * (n % 2) + n % 7) for n in range(SPREAD // 1000)]
    trial.write("base.toml", base_text().replace("exc_dev = 10", "exc_dev = 0").replace("comp_dev = 30", "comp_dev = 0"))
    lines = ["FIC1.PV,%d,%s\nTIC3.PV,%d,20.2%d\n" % (t, fields.decimal_text(v, 100), t, t // 1000 % 2) for t, v in points]
    trial.write("inbox/x.csv", "".join(lines))
    trial.fed()
    status, text = trial.tool("ask.py", "--csv", "FIC1.PV", fields.iso_text(START, None), str(START + SPREAD))
    assert status == 0, text
    got = [(fields.milliseconds(t, None), fields.whole_value(v, 100)) for t, v in list(csv.reader(text.splitlines()))[1:]]
    assert got == points, (len(got), len(points))
    middle = fields.iso_text(START + 500, None)
    status, text = trial.tool("ask.py", "at,FIC1.PV," + middle, "avg,FIC1.PV,%d,%d" % (START, START + 2000), "snap,TIC3.PV",
                              "row,unit,hot," + middle, "at,FIC1.PV,0", "points,FIC1.PV,%d,%d" % (START, START + 1000))
    first = trial.by_hand("check", "base.toml").splitlines()[0]
    lines = list(csv.reader(text.splitlines()))
    assert status == 0 and lines[1] == ["at", "FIC1.PV", "2024-03-29T00:00:00.500Z", "", "0.51", "", "line"], text
    assert lines[2][4:] == ["0.51", "", ""] and lines[3][4:] == ["20.210", "", "taken=%d" % len(points)], text
    assert lines[4] == ["row", "unit/hot", "2024-03-29T00:00:00.000Z", "2024-03-29T00:15:00.000Z", "1", "", ""], text
    assert lines[5][4:] == ["", "", "none; the first value is of 2024-03-29 00:00:00Z"], text
    assert [line[4] for line in lines[6:]] == ["0.00", "1.01"], text
    status, text = trial.tool("ask.py", "--csv", "FIC1.PV", str(START), str(START + 2000), "--every", "500")
    assert [line.split(",")[1:] for line in text.splitlines()[1:]][:3] == [["0.00", "exact"], ["0.51", "line"], ["1.01", "exact"]], text
    assert trial.by_hand("check", "base.toml").splitlines()[0] == first and "each as" in trial.fed("--verify")
    assert trial.tool("ask.py", "avg,NOBODY,1,2")[0] == 22 and trial.tool("ask.py", "mean,FIC1.PV,1,2")[0] == 22


def pictures(folder, program, settings):
    """draw.py draws what the archive has, in a well-formed SVG: late points, a legend, units, round ticks and the limit."""
    trial = Trial(os.path.join(folder, "a"), program)
    trial.write("base.toml", base_text().replace("exc_dev", 'descriptor = "flow < 3"\nengunits = "0.01 l/h"\nexc_dev', 1))
    trial.deliver(0)
    trial.fed()
    raw = [word for name in ("00-a.csv", "00-b.csv") for word in ("--raw", "done/000001/" + name)]
    times = [fields.iso_text(START, None), fields.iso_text(START + 6 * HOUR, None)]
    status, text = trial.tool("draw.py", "FIC1.PV", *times, "x.svg", *raw, "--limit", "201.5", "--group", "unit", "flow", "--frames", "1")
    assert status == 0, text
    svg = trial.read("x.svg")
    texts = [node.text for node in xml.etree.ElementTree.fromstring(svg).iter("{http://www.w3.org/2000/svg}text")]
    for wanted in ("FIC1.PV: flow < 3", "l/h", "archive", "kept", "came late", "held (the newest)", "raw values", "limit 201.5",
                   "flow", "frames",
                   "clock: UTC", "00:00", "03:00", "2024-03-29", "200", "202"):
        assert wanted in texts, (wanted, texts)
    late = trial.by_hand("check", "base.toml").splitlines()[0].split("late=")[1].split()[0]
    assert svg.count('r="2.5" fill="#fff"') == int(late) + 1, (late, svg.count('r="2.5" fill="#fff"'))
    assert trial.tool("draw.py", "XV7.ZSO", *times, "y.svg")[0] == 0 and "point of the archive" in trial.read("y.svg")
    assert trial.tool("draw.py", "NOBODY", *times, "z.svg")[0] == 22 and not os.path.exists(trial.path("z.svg"))


CASES = [found_by_seals, which_copy, log_is_sealed, run_by_hand, killed_by_hand, archive_is_full, nearly_full_is_a_warning,
         rows_without_room_come_again, files_are_not_too_long, group_is_too_large, questions, pictures]
