"""audited.py: tests of audit.py: what it says of a plant as it was fed, and that it finds what is not as promised."""
import json
import os
import random
import re
import shutil
from fractions import Fraction

import devices
from trial import LINES, REFUSED, START, STEPS, Trial, decimal, iso

OUTSIDE = 23
EXC_DEV, COMP_DEV = 10, 30  # of trial.py's tags
TAG_LINE = re.compile(r"^(\S+): (\d+) values(?:, greatest deviation (\S+) of (\S+) promised)?(?:, (\d+) late)?(?:, (\d+) where nothing is"
                      r" promised)?", re.M)
RECORDS = 66_640  # where the records of a device with 64 lane slots begin


def fed_blocks(folder, program, blocks=2):
    """A plant that was fed some blocks of hours, late values among them."""
    trial = Trial(os.path.join(folder, "a"), program)
    for block in range(blocks):
        trial.deliver(block)
        trial.fed()
    return trial


def audited(trial, *words):
    """Runs audit.py: exit status, what it printed, and the numbers of each tag's line."""
    status, text = trial.tool("audit.py", *words)
    return status, text, {match[1]: match.groups()[1:] for match in TAG_LINE.finditer(text)}


def greatest_deviation(trial, name):
    """The greatest distance of a raw value from the line of a tag, by the points that the program prints. Values between late points are
    left out, as are those behind the newest point. A slow search, for the test alone."""
    trial.write("ask.csv", "".join("points,%s,%d,%d\n" % (name, t, t + 3_600_000 - 1) for t in range(START, START + 18 * 3_600_000, 3_600_000)))
    trial.write("ask.toml", '[[reader]]\nfile = "ask.csv"\n')
    words = " ".join(line.split(" ", 3)[3] for line in trial.by_hand("trend", "base.toml", "ask.toml").splitlines()).split()
    points = [tuple(map(int, word.split(","))) for word in words if "," in word]
    rows, late, newest, seen = [(t, v) for t, tag, v in trial.rows if tag == name], set(), -1, Fraction(0)
    for t, _ in rows:
        late |= {t} if t <= newest else set()
        newest = max(newest, t)
    for t, v in rows:
        spans = [(left, right) for left, right in zip(points, points[1:]) if left[0] <= t <= right[0]]
        for left, right in spans[:1]:
            if not {t, left[0], right[0]} & late:
                on_line = left[1] + Fraction((right[1] - left[1]) * (t - left[0]), right[0] - left[0])
                if t < right[0]:
                    seen = max(seen, abs(v - (left[1] if name in STEPS else on_line)))
    return seen


def audit_of_a_plant(folder, program, settings):
    """Of each tag all rows are looked at, and the greatest deviation is that of the points that the program prints; the late ones are
    counted as the program counts them. The same figures stand in feed.d/audit.json."""
    trial = fed_blocks(folder, program)
    status, text, found = audited(trial)
    assert status == 0 and text.endswith("8 tags, %d values: each as promised\n" % len(trial.rows)), text
    late = dict(re.findall(r"tag (\S+) .* late=(\d+) ", trial.by_hand("check", "base.toml")))
    kept = json.loads(trial.read("feed.d/audit.json"))
    for name, scale in (LINES | STEPS).items():
        count, seen, promised, came_late, _ = found[name]
        assert int(count) == sum(tag == name for _, tag, _ in trial.rows), name
        assert (came_late or "0") == late[name], (name, came_late, late[name])
        assert promised == decimal(COMP_DEV + (1 if name in STEPS else 2) * EXC_DEV, scale), (name, promised)
        wanted = greatest_deviation(trial, name)
        assert abs(Fraction(seen) - wanted / scale) <= Fraction(1, 1000 * scale), (name, seen, float(wanted / scale))
        assert (kept[name]["seen"], kept[name]["values"], kept[name]["outside"]) == (seen, int(count), 0), kept[name]
    assert found["FIC1.PV"][4] and int(found["FIC1.PV"][4]) > 0, found  # values between late ones


def put_into_records(trial):
    """Has the feeder take over a base with another ExcMax, so that the program writes what stands in the lanes as records."""
    trial.write("base.toml", trial.read("base.toml").replace("exc_max = 600_000", "exc_max = 600_001"))
    assert trial.fed().startswith("the edited base.toml is taken over")


def patched(trial, name, at, data):
    """Writes some bytes of a tag's device, and makes its seal anew."""
    with open(trial.path("historian.d", name + ".tag"), "r+b") as device:
        device.seek(at)
        device.write(data)
    trial.fed("--seal")


def record_changed_by_hand(folder, program, settings):
    """A record whose value was changed by hand, with its seal made anew, is found with the row, whether the change is large or small. So
    is one whose time was changed, and a value of the lane."""
    trial = fed_blocks(folder, program, 1)
    patched(trial, "TIC3.PV", 464 + 10 + 16 * 30 + 8, (9_000).to_bytes(8, "big"))
    status, text, _ = audited(trial, "TIC3.PV")
    assert status == OUTSIDE and re.search(r"done/000001/stored\.rows row \d+: \S+ is ", text), text
    trial = fed_blocks(os.path.join(folder, "r"), program, 1)
    put_into_records(trial)
    assert audited(trial)[0] == 0
    path = trial.path("historian.d/LIC4.PV.tag")
    with open(path, "rb") as device:
        whole = device.read()
    count = max(devices.number(whole, at + 8, 4) for at in (128, 256))
    assert count > 5
    place = RECORDS + 17 * (count // 2)
    t, v = devices.number(whole, place + 1, 8), devices.number(whole, place + 9, 8)
    for change in (1, 500, -500):
        patched(trial, "LIC4.PV", place + 9, (v + change).to_bytes(8, "big"))
        status, text, _ = audited(trial)
        row = "%s,%d is in the archive as %d\n" % (iso_utc(t), v, v + change)
        assert status == OUTSIDE and re.search(r"done/000001/stored\.rows row \d+: " + re.escape(row), text), text
        assert "1 tags are NOT as promised" in text and text.count("NOT AS PROMISED") == 1, text
    assert "is promised" in text  # values between it and its neighbours are too far as well
    patched(trial, "LIC4.PV", place, whole[place:place + 17])
    assert audited(trial)[0] == 0
    patched(trial, "LIC4.PV", place + 1, (t + 7).to_bytes(8, "big"))
    status, text, _ = audited(trial)
    assert status == OUTSIDE and "LIC4.PV: the archive has %s,%d, and none of the rows" % (iso_utc(t + 7), v) in text, text
    patched(trial, "LIC4.PV", place, b"Q")
    status, text, _ = audited(trial)
    assert status == OUTSIDE and "LIC4.PV: its device is damaged" in text, text


def iso_utc(t):
    """A time as the tools print it without a zone."""
    return iso(t - 3_600_000)[:-6] + "Z"


def wrong_tuning(folder, program, settings):
    """A device that was retuned by hand is found, and so is one that was made with a tuning that promises less than the base: its values
    lie outside."""
    trial = fed_blocks(folder, program, 1)
    trial.write("other.toml", trial.read("base.toml").replace("comp_dev = 30", "comp_dev = 400"))
    trial.by_hand("check", "other.toml")
    trial.fed("--seal")
    status, text, _ = audited(trial, "FIC1.PV")
    assert status == OUTSIDE and "its device has comp_dev = 400 in force, and the base of the last feed has 30" in text, text
    wide = Trial(os.path.join(folder, "b"), program)
    wide.write("base.toml", wide.read("base.toml").replace("comp_dev = 30", "comp_dev = 400"))
    wide.deliver(0)
    wide.fed()
    put_into_records(wide)
    assert audited(wide)[0] == 0
    right = wide.read("base.toml").replace("comp_dev = 400", "comp_dev = 30")
    for name in ("base.toml", "feed.d/base.toml"):
        wide.write(name, right)
    os.remove(wide.path("feed.d/tunings"))
    for at in (70 + 16, 128 + 109, 256 + 109):  # CompDev in the layout and in both summaries
        width = 8 if at < 128 else 7
        patched(wide, "LIC4.PV", at, COMP_DEV.to_bytes(width, "big"))
    status, text, found = audited(wide, "LIC4.PV")
    assert status == OUTSIDE and re.search(r"done/000001/stored\.rows row \d+: \S+ is \S+ from the archive's line, and 50 is promised", text), text


def late_value_is_dropped(folder, program, settings):
    """A late value that is missing in the archive is found with its row, and so is one that reads as another."""
    rows = ["LIC4.PV,%d,%d\n" % (1000 * n, 40 * (n % 3)) for n in range(1, 40)]
    trials = []
    for name, late in (("a", "LIC4.PV,5500,77\n"), ("b", ""), ("c", "LIC4.PV,5500,78\n")):
        trials.append(Trial(os.path.join(folder, name), program))
        trials[-1].write("inbox/1.csv", "".join(rows) + late)
        trials[-1].fed()
    fed, without, other = trials
    assert audited(fed)[0] == 0 and audited(fed, "LIC4.PV")[2]["LIC4.PV"][3] == "1"
    for trial, there in ((without, "no late value"), (other, "78")):
        shutil.copy(trial.path("historian.d/LIC4.PV.tag"), fed.path("historian.d/LIC4.PV.tag"))
        fed.fed("--seal")
        status, text, _ = audited(fed)
        assert status == OUTSIDE and "done/000001/stored.rows row 40: 1970-01-01T00:00:05.500Z,77 came late, and the archive has %s there" % there in text, text


def tuned_base(draw, names):
    """A base whose tags have tunings of all kinds, CompMin among them."""
    return "".join('[[tag]]\nname = "%s"\nexc_dev = %d\nexc_max = %d\ncomp_dev = %d\ncomp_min = %d\ncomp_max = %d\nstep = %s\n' % (
        name, draw.choice((0, 1, 3, 8)), draw.choice((10, 50, 1000)), draw.choice((0, 1, 3, 8)), draw.choice((0, 0, 5, 30)),
        draw.choice((20, 100, 100_000)), "true" if place % 3 == 0 else "false") for place, name in enumerate(names))


def tunings_of_all_kinds(folder, program, settings):
    """Plants with tunings of all kinds that are fed in turns, and retuned between them, are as promised, tag by tag. Rows that a turn
    refused are none. Where CompMin dropped values and no tuning changed, just these spans are without a promise."""
    for seed in range(2):
        draw, names = random.Random(seed), ["T%d" % place for place in range(9)]
        trial = Trial(os.path.join(folder, str(seed)), program)
        trial.write("feed.toml", "settle_seconds = 0\n")
        trial.write("base.toml", tuned_base(draw, names))
        clocks, count = dict.fromkeys(names, 1_000_000), 0
        for turn in range(3):
            lines = ["NOBODY,5,5\n", "T0,soon,5\n"]
            for name in names:
                value = 0
                for _ in range(draw.choice((0, 3, 90, 300))):
                    clocks[name], value, count = clocks[name] + draw.choice((1, 2, 7, 60)), value + draw.randint(-4, 4), count + 1
                    lines.append("%s,%d,%d\n" % (name, clocks[name] - (draw.randint(0, 50) if draw.random() < 0.02 else 0), value))
            trial.write("inbox/%d.csv" % turn, "".join(lines))
            if turn == 2 and seed:
                trial.write("base.toml", tuned_base(draw, names))
            trial.fed(ends=REFUSED)
        status, text, _ = audited(trial)
        assert status == 0 and text.endswith("9 tags, %d values: each as promised\n" % count), (seed, text)
        if seed == 0:
            assert " where nothing is promised" in text


def rows_as_they_were_stored(folder, program, settings):
    """The rows that a turn left as stored are looked at: of each tag the first ones, whatever the files say. Without this record
    a turn has no rows here, and nothing is said against what it stored."""
    trial = Trial(os.path.join(folder, "a"), program)
    trial.write("inbox/1.csv", "LIC4.PV,1000,5\nLIC4.PV,2000,60\nLIC4.PV,3000,5\nFIC1.PV,7,1.50\n")
    trial.fed()
    trial.write("done/000001/1.csv", "LIC4.PV,1000,500\n")
    status, text, found = audited(trial)
    assert status == 0 and (found["LIC4.PV"][0], found["FIC1.PV"][0]) == ("3", "1"), text
    rows = trial.read("done/000001/stored.rows")
    trial.write("done/000001/stored.rows", rows + "LIC4.PV,4000,999\n")
    assert audited(trial)[0] == 0
    trial.write("done/000001/stored.rows", rows.replace("2000,60", "2000,61"))
    status, text, _ = audited(trial)
    row = rows.splitlines().index("LIC4.PV,2000,60") + 1
    assert status == OUTSIDE and "done/000001/stored.rows row %d: 1970-01-01T00:00:02.000Z,61 is in the archive as 60" % row in text, text
    trial.write("done/000001/turn.json", "{")
    status, text, _ = audited(trial)
    assert status == 21 and "done/000001/turn.json is damaged" in text, text
    os.remove(trial.path("done/000001/turn.json"))
    status, text, _ = audited(trial)
    assert status == 0 and "8 tags, 0 values" in text, text


def audit_in_words(folder, program, settings):
    """Only the tags and the turns that are asked for are looked at. Wrong words are refused in a line, and nothing is changed."""
    trial = fed_blocks(folder, program)
    os.utime(trial.path("done/000001"), (1_000, 1_000))
    status, text, found = audited(trial, "FIC1.PV", "XV7.ZSO", "--since", "-1h")
    second = [row for row in trial.rows[len(trial.rows) // 2:] if row[1] == "FIC1.PV"]
    assert status == 0 and list(found) == ["FIC1.PV", "XV7.ZSO"] and int(found["FIC1.PV"][0]) == len(second), (text, len(second))
    assert found["FIC1.PV"][3] == str(sum(k > 0 and max(row[0] for row in second[:k]) >= row[0] for k, row in enumerate(second))), found
    for words, said in (("NOPE",), "the base has no tag NOPE; it has FIC1.PV, "), (("--since", "soon"), "--since: no ISO time"):
        status, text, _ = audited(trial, *words)
        assert status == 22 and said in text, text
    os.rename(trial.path("historian.d/FIC1.PV.tag"), trial.path("away"))
    status, text, _ = audited(trial, "FIC1.PV")
    assert status == OUTSIDE and "FIC1.PV: it has no device" in text, text


CASES = [audit_of_a_plant, record_changed_by_hand, wrong_tuning, late_value_is_dropped, tunings_of_all_kinds, rows_as_they_were_stored,
         audit_in_words]
