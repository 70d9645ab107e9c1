"""boarded.py: tests of board.py without a browser: what it writes, what it writes again, and what it says where something is wrong.

tools/test_board.py opens the pages in a browser."""
import datetime
import glob
import json
import os
import re
import shutil
import unittest.mock

import board
import board_tags
from device_maker import START, batch_put, device_bytes, tag_text, walk
from fine_windows import EACH, FineWindows, columns, read_fine
from line_windows import Windows
from plant import Plant, Refusal
from trial import LINES, REFUSED, STEPS, Trial, iso


def without_library(trial, name="board"):
    """Stands in for dygraphs, so that the pages are written on any machine. They are not opened here."""
    os.makedirs(trial.path(name), exist_ok=True)
    for file in board.LIBRARY:
        trial.write(os.path.join(name, file), "/* none */")


def data_of(path):
    """What a file of data hands to its page."""
    with open(path) as text:
        return json.loads(re.fullmatch(r"board\.\w+\((.*)\)\n", text.read(), re.S)[1])


def files_of(folder):
    """The bytes of all files of tags, by name."""
    found = {}
    for path in glob.glob(os.path.join(folder, "tags", "**"), recursive=True):
        if os.path.isfile(path):
            with open(path, "rb") as data:
                found[os.path.relpath(path, folder)] = data.read()
    return found


def written(trial, *words):
    """Runs board.py, which has to end well: what it printed."""
    status, text = trial.tool("board.py", *words)
    assert status == 0, (status, text)
    return text


def points_on(folder, name):
    """The points of a tag in the files of a board."""
    found, t = [], 0
    for path in sorted(glob.glob(os.path.join(folder, "tags", glob.escape(name) + ".d", "[0-9]*.js"))):
        with open(path) as text:
            _, later, values = text.read().split("\n")[:3]
        t = 0
        for step, value in zip(later.strip('",').split(","), values.strip('")').split(",")):
            t += int(step)
            found.append((t, int(value)))
    return found


def board_goes_on(folder, program, settings):
    """What is written after each turn is what is written at once of the same devices, byte for byte, and the points are those that the
    program prints. A tag without news is left alone. The feeder writes the board after each turn."""
    trial = Trial(os.path.join(folder, "a"), program)
    trial.write("feed.toml", 'board = "pages"\n' + trial.read("feed.toml"))
    without_library(trial, "pages")
    without_library(trial)
    for block in range(3):
        trial.deliver(block)
        assert "the board" not in trial.fed()
    trial.write("inbox/x.csv", "XV7.ZSO,%s,40\n" % iso(START + 80 * 3_600_000))
    before = {path: os.stat(path).st_mtime_ns for path in glob.glob(trial.path("pages/tags/*.d/head.js"))}
    trial.fed()
    changed = {path for path, when in before.items() if os.stat(path).st_mtime_ns != when}
    assert changed == {trial.path("pages/tags/XV7.ZSO.d/head.js")}, changed
    assert "8 tags, 8 of them with news" in written(trial, "--out", "board")
    assert files_of(trial.path("pages")) == files_of(trial.path("board"))
    assert "8 tags, 0 of them with news" in written(trial, "--out", "board")
    for name in (*LINES, *STEPS):
        trial.write("ask.csv", "".join("points,%s,%d,%d\n" % (name, t, t + 1_800_000 - 1) for t in range(START, START + 85 * 3_600_000, 1_800_000)))
        trial.write("ask.toml", '[[reader]]\nfile = "ask.csv"\n')
        words = " ".join(line.split(" ", 3)[3] for line in trial.by_hand("trend", "base.toml", "ask.toml").splitlines()).split()
        points = [tuple(map(int, word.split(","))) for word in words if "," in word]
        head = data_of(trial.path("pages/tags", name + ".d/head.js"))
        assert sorted(set(points_on(trial.path("pages"), name)) | {tuple(head["held"])}) == points, name
        check = re.search(r"tag %s taken=(\d+) records=(\d+) kept=\d+ late=(\d+) held=(\d+),(-?\d+)" % re.escape(name),
                          trial.by_hand("check", "base.toml"))
        assert [head["taken"], head["records"], head["late"], *head["held"]] == [int(number) for number in check.groups()], name
        assert head["newest"] == list(max((row[0], row[2]) for row in trial.rows + [(START + 80 * 3_600_000, "XV7.ZSO", 40)] if row[1] == name))


def slow_windows(points, step, width):
    """The lowest, the highest and the mean value of a line in each window, found in small steps of whole milliseconds."""
    found = {}
    for (t, v), (end, w) in zip(points, points[1:]):
        for at in range(t, end):
            here, there = ((v, v) if step else (v + (w - v) * (k - t) / (end - t) for k in (at, at + 1)))
            found.setdefault(at // width, []).append((here, there))
    return {number: (min(map(min, parts)), max(map(max, parts)), sum(map(sum, parts)) / 2 / len(parts)) for number, parts in found.items()}


def windows_of_a_line(folder, program, settings):
    """Windows that get points in several goes are those of the line in small steps."""
    points = [(17, 5), (19, 90), (40, -7), (41, 0), (64, 64), (200, 3), (320, 11), (333, 10)]
    for step in (False, True):
        for parts in ((8,), (1, 4, 8), (2, 3, 5, 8)):
            windows, start = Windows(32, step), 0
            for end in parts:
                windows.add(*zip(*points[start:end]))
                start = end
            held, wanted = (400, 50), slow_windows(points + [(400, 50)], step, 32)
            tail, whole = windows.tail(held), windows.whole(held)
            mean = windows.mean + tail["mean"]
            for number, (low, high, middle) in wanted.items():
                at = number - windows.first
                if number < 400 // 32:  # in the last one the held point itself counts too
                    assert whole["low"][at] <= low < whole["low"][at] + 1 + 1e-9 or step and whole["low"][at] <= low, (step, number)
                    assert whole["high"][at] - 1 - 1e-9 < high <= whole["high"][at] or step and whole["high"][at] >= high, (step, number)
                    assert abs(mean[at] - middle) <= 0.5 + 1e-9, (step, number, mean[at], middle)


def files_of_points(folder, program, settings):
    """Points go into files of a month; where these would have too many, into files of ten days, of a day or of an hour. Each point is in the
    file whose name its time begins with, and points that come later go on in files as long as the newest one."""
    for step, count, length in ((60, 100_800, 7), (20, 172_800, 9), (10, 216_000, 10), (1, 172_800, 13)):
        times = [START + 1_000 * step * n for n in range(count)]
        texts = [datetime.datetime.fromtimestamp(t // 1000, datetime.timezone.utc).isoformat() for t in times]
        start, keys = 0, list(board_tags.keys_of(times, ""))
        assert max(len(key) for key, _ in keys) == length, (step, keys)
        for key, end in keys:
            assert 0 < end - start <= board_tags.PART and all(text.startswith(key) for text in texts[start:end]), (step, key)
            assert not any(text.startswith(key) for text in texts[end:]), (step, key)
            start = end
        assert start == count, (step, keys)
        assert list(board_tags.keys_of(times[-2:], keys[-1][0])) == [(keys[-1][0], 2)], (step, keys[-1])


def large_tags(folder, program, settings):
    """A tag with many points is parted into files of ten days, gets windows, and goes on in them. So does one without windows that grows.
    Finer windows are a fifth of the points' bytes at most, and only the last file of them is written anew. A board that was stopped between
    the points and the head of a tag has no point twice once it is written again."""
    trial = Trial(os.path.join(folder, "a"), program)
    without_library(trial)
    trial.write("base.toml", tag_text("LONG") + tag_text("GROWS"))
    os.makedirs(trial.path("historian.d"))
    lines = {"LONG": walk(120_000, 20_000, 1), "GROWS": walk(19_999, 60_000, 2)}
    for name, line in lines.items():
        with open(trial.path("historian.d", name + ".tag"), "wb") as out:
            out.write(device_bytes(name, line, 2 * len(line)))
    written(trial)
    heads = {name: data_of(trial.path("board/tags", name + ".d/head.js")) for name in lines}
    assert heads["GROWS"]["kept"] is None and 1_000 <= len(heads["LONG"]["kept"]["low"]) < 2_000
    assert [part[:2] for part in heads["LONG"]["parts"]][-2:] == [["2024-04-1", 43_200], ["2024-04-2", 24_960]], heads["LONG"]["parts"]
    fine = finer_files(trial)
    points = sum(map(os.path.getsize, glob.glob(trial.path("board/tags/LONG.d/[0-9]*.js"))))
    assert len(fine) == 2 and 0 < sum(map(len, fine.values())) <= points / 5 and heads["GROWS"]["fine"] is None, (len(fine), points)
    stood = {path: trial.read(path) for path in ("board/tags/LONG.d/head.js", "board/data/rows.json")}
    for name, line in lines.items():
        t, v = line[-1]
        values = [(t + 60_000 * (n + 1), v + 300 * (n % 2 * 2 - 1)) for n in range(6)]
        batch_put(trial.path("historian.d", name + ".tag"), 0, 2 * len(line), values)
        line += values
    assert "2 tags, 2 of them with news" in written(trial)
    heads = {name: data_of(trial.path("board/tags", name + ".d/head.js")) for name in lines}
    assert heads["GROWS"]["kept"] is not None
    for name, line in lines.items():
        assert points_on(trial.path("board"), name) == line[:-1] and tuple(heads[name]["held"]) == line[-1], name
    changed = [path for path, data in finer_files(trial).items() if fine.get(path) != data]
    assert changed == [max(fine)] and heads["LONG"]["fine"]["last"] == lines["LONG"][-1][0] // heads["LONG"]["fine"]["width"], changed
    went_on = files_of(trial.path("board"))
    for path, text in stood.items():
        trial.write(path, text)
    written(trial)
    assert files_of(trial.path("board")) == went_on
    shutil.rmtree(trial.path("board/tags"))
    os.remove(trial.path("board/data/rows.json"))
    written(trial)
    assert files_of(trial.path("board")) == went_on


def finer_files(trial):
    """The files of finer windows on a board."""
    return {path: data for path, data in files_of(trial.path("board")).items() if "/fine" in path}


def finer_windows(folder, program, settings):
    """Finer windows that get points in several goes lie in files as those of all points at once, and these are the windows of the line. A
    stretch beside late points is told in each file into which it goes."""
    pages, line = board_tags.TagPages(folder, "X"), walk(60_000, 1_000, 7)
    os.makedirs(pages.folder)
    for step in (False, True):
        found = []
        for parts in ((60_000,), (1, 20_000, 20_001, 60_000), tuple(range(5_000, 60_001, 5_000))):
            for path in glob.glob(os.path.join(pages.folder, "*")):
                os.remove(path)
            fine, start = FineWindows(4_096, step), 0
            for end in parts:
                fine.add(*zip(*line[start:end]))
                fine.put(pages, (line[end - 1][0] + 9_000, 5), [])
                fine, start = read_fine(pages.folder, step, fine.about()), end
            found.append(files_of(folder))
        assert found[0] == found[1] == found[2] and len(found[0]) > 3, (step, [len(each) for each in found])
        wanted = Windows(4_096, step)
        wanted.add(*zip(*line))
        tail = wanted.tail((line[-1][0] + 9_000, 5))
        lists = [[], [], []]
        for _, data in sorted(found[0].items()):
            for place, column in enumerate(columns(data.decode().split("\n")[1:4])):
                lists[place] += column
        assert lists == [wanted.low + tail["low"], wanted.high + tail["high"], wanted.mean + tail["mean"]], step
    first = fine.begin_at
    edge = first // EACH * EACH + EACH
    whole = FineWindows(4_096, True)
    whole.add(*zip(*line))
    whole.put(pages, line[-1], [[first, first + 1], [edge - 2, edge + 3]])
    told = [json.loads("[%s]" % files_of(folder)["tags/X.d/fine%d.js" % (number // EACH)].decode().split("\n")[0][len("board.fine("):-1])[2]
            for number in (first, edge)]
    assert told == [[[first, first + 1], [edge - 2, edge - 1]], [[edge, edge + 3]]], told


def trouble_on_the_board(folder, program, settings):
    """A device that is damaged or missing, values that CompMin dropped, a retuning, a tag that left the base: each is told in its row or on
    its page, and the others are written."""
    trial = Trial(os.path.join(folder, "a"), program)
    without_library(trial)
    trial.write("base.toml", trial.read("base.toml").replace('name = "LIC4.PV"\nexc_dev = 10\nexc_max = 600_000\ncomp_dev = 30\ncomp_min = 0',
                                                             'name = "LIC4.PV"\nexc_dev = 10\nexc_max = 600_000\ncomp_dev = 30\ncomp_min = 5'))
    trial.deliver(0)
    trial.fed()
    trial.write("base.toml", trial.read("base.toml").replace("comp_dev = 30", "comp_dev = 50"))
    trial.fed()
    trial.deliver(1)
    trial.fed()
    written(trial)
    promises = {name: data_of(trial.path("board/tags", name + ".d/head.js"))["promises"] for name in LINES}
    held = max(t for t, name, _ in trial.rows[:len(trial.rows) // 2] if name == "TIC3.PV")
    (never, *old), (after, *new) = promises["TIC3.PV"]
    assert (never, old, new) == (-1, [30, 50, 1], [50, 70, 1]) and held - 600_000 < after <= held, promises
    assert [each[3] for each in promises["LIC4.PV"]] == [0, 0], promises
    with open(trial.path("historian.d/FIC2.PV.tag"), "r+b") as device:
        device.write(b"Q")
    os.rename(trial.path("historian.d/PIC5.PV.tag"), trial.path("away"))
    written(trial)
    table = data_of(trial.path("board/data/plant.js"))
    rows = {row["name"]: row for row in table["tags"]}
    assert rows["FIC2.PV"]["broken"].startswith("damaged at byte 0") and rows["PIC5.PV"]["broken"] == "no device yet", rows
    assert table["feed"]["seals"]["good"] is False and "historian.d/PIC5.PV.tag is missing" in table["feed"]["seals"]["what"], table["feed"]
    assert "broken" not in rows["FIC1.PV"] and rows["FIC1.PV"]["taken"] > 0
    text = trial.read("feed.d/base.toml")
    trial.write("feed.d/base.toml", text[:text.index('[[tag]]\nname = "XV8.ZSO"')] + text[text.index("[[group]]"):])
    assert "7 tags" in written(trial) and not glob.glob(trial.path("board/tags/XV8*")) and glob.glob(trial.path("board/tags/XV7*"))


def feed_on_the_board(folder, program, settings):
    """The board tells the last turn, refused rows, an unfinished turn, the backup and the audit."""
    trial = Trial(os.path.join(folder, "a"), program)
    without_library(trial)
    trial.deliver(0, hours=2)
    trial.write("inbox/bad.csv", "NOBODY,5,5\nFIC1.PV,soon,5\nFIC1.PV,5,5\n")
    trial.fed(ends=REFUSED)
    shutil.copy(trial.path("done/000001/00-a.csv"), trial.path("inbox/again.csv"))
    trial.fed()
    trial.write("feed.toml", trial.read("feed.toml") + '[[source]]\npattern = "lab*.csv"\nseparator = ";"\n')
    trial.write("inbox/lab.csv", "tag;time;value;quality\nLIC4.PV;1000;5;Bad\nFIC1.PV;2000;5;Bad\n")
    trial.fed(ends=REFUSED)
    backup = trial.fed("--backup").strip()
    assert trial.tool("audit.py")[0] == 0
    written(trial)
    feed = data_of(trial.path("board/data/plant.js"))["feed"]
    assert feed["refused"] == {"rows": 4, "files": 1} and feed["folder"] == "../refused" and feed["turn"]["number"] == 3, feed
    assert feed["seals"]["good"] and feed["unfinished"] is None and feed["waiting"] == 0
    assert backup.endswith(re.sub(r"[:.]000|:", "", iso(feed["backup"] - 3_600_000)[:19]) + "Z"), (backup, feed["backup"])
    assert {each["tag"] for each in data_of(trial.path("board/data/audit.js"))} >= set(LINES)
    trial.deliver(1, hours=1)
    assert trial.feed(how="half")[0] == 137
    written(trial)
    feed = data_of(trial.path("board/data/plant.js"))["feed"]
    assert feed["unfinished"] is not None and feed["waiting"] == 0 and feed["seals"]["good"], feed


def board_in_words(folder, program, settings):
    """Without dygraphs no page is written, and the package is named; a feed goes on all the same. Wrong settings are told in a line, and a
    folder that is no plant is refused."""
    trial = Trial(os.path.join(folder, "a"), program)
    trial.deliver(0, hours=1)
    trial.fed()
    plant = Plant(trial.folder, program)
    with unittest.mock.patch.object(board, "DYGRAPHS", os.path.join(folder, "none")):
        try:
            board.write_board(plant, trial.path("board"))
            raise AssertionError("the board was written without dygraphs")
        except Refusal as why:
            assert why.status == 22 and "apt-get install libjs-dygraphs" in why.text, why.text
    without_library(trial)
    settings_text = trial.read("feed.toml")
    for line, said in (('calendar = "none.toml"', "none.toml cannot be read"), ('frames = [["unit", "none", 2]]', "the base has no calculation none")):
        trial.write("feed.toml", line + "\n" + settings_text)
        assert "shifts and frames are not written" in written(trial) and said in written(trial), written(trial)
    trial.write("feed.toml", 'board = "feed.toml"\n' + settings_text)
    trial.deliver(1, hours=1)
    text = trial.fed()
    assert "values of 8 tags stored" in text and "the board: " in text, text
    status, text = trial.tool("board.py", folder)
    assert status == 22 and "is this the plant's folder, and was it fed?" in text, text
    assert trial.tool("board.py", "--outt", "x")[0] == 2


CASES = [board_goes_on, windows_of_a_line, files_of_points, large_tags, finer_windows, trouble_on_the_board, feed_on_the_board, board_in_words]
