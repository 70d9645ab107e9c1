"""drawn.py: tests of what a picture shows: raw values beside the line, bands, dense points, ticks, and texts that do not overlap."""
import os
import re
import shutil
import types
import xml.etree.ElementTree
import zoneinfo

import lettering
import picture
from asked import asked, lay_example
from picture import DAY, HOUR, MINUTE
from trial import Trial, base_text

SVG = "{http://www.w3.org/2000/svg}"
LATE_EVENING = 1_711_749_600_000  # 2024-03-29 22:00 UTC
LINE_WIDTH, MARK = 1.5, 3.5       # of the line; from the middle of a point's mark to its edge


def trend_of(points, raw=(), **others):
    """A trend whose archive has these points."""
    usual = {"title": "T1", "unit": "", "scale": 1, "step": False, "raw": list(raw), "late": set(), "points": points, "line": points,
             "held": points[-1] if points else None, "values": [v for _, v in points], "columns": [], "narrow": 2, "wide": 4, "limit": None,
             "silent": [], "words": ""}
    return types.SimpleNamespace(**usual | others)


def drawn(points, raw, first, last, zone=None, bars=(), **others):
    """The picture of a tag whose archive has these points, and the panel in which they stand."""
    times, trend = picture.Times(first, last), trend_of(points, raw, **others)
    text = picture.picture(times, [trend], list(bars), zone)
    return picture.Panel(times, trend, 0, picture.ONE), xml.etree.ElementTree.fromstring(text)


def boxes(svg):
    """From where to where each text of a picture goes, and what it says: left, right, top, bottom, text."""
    found, moved = [], [(svg, 0.0, 0.0)]
    while moved:
        node, right, down = moved.pop()
        shift = re.match(r"translate\(([\d.]+),([\d.]+)\)", node.get("transform", ""))
        right, down = (right + float(shift[1]), down + float(shift[2])) if shift else (right, down)
        moved += [(child, right, down) for child in node]
        if node.tag == SVG + "text" and node.text:
            size = float(node.get("font-size", 12))
            wide = width_in_dejavu(node.text) * size / 12
            x = right + float(node.get("x", 0)) - {"middle": wide / 2, "end": wide}.get(node.get("text-anchor"), 0)
            found.append((x, x + wide, down + float(node.get("y", 0)) - 0.75 * size, down + float(node.get("y", 0)) + 0.2 * size, node.text))
    return found


def check_texts(svg):
    """Fails if two texts overlap, or one leaves the picture."""
    found = boxes(svg)
    wide, tall = (float(part) for part in svg.get("viewBox").split()[2:])
    for place, one in enumerate(found):
        assert one[0] >= -1 and one[1] <= wide + 1 and one[2] >= 0 and one[3] <= tall + 1, one
        for other in found[place + 1:]:
            apart = one[1] <= other[0] + 0.5 or other[1] <= one[0] + 0.5 or one[3] <= other[2] + 0.5 or other[3] <= one[2] + 0.5
            assert apart, "%s runs into %s" % (one, other)


# The advance of each letter of DejaVu Sans, in hundredths of its size, as the font's own table has them.
DEJAVU = {27: "'", 28: "ijl", 29: "IJ", 32: " ,.", 34: "/:;\\|", 35: "f", 36: "-", 39: "()[]t", 40: "!²³", 41: "r", 50: "*_°", 52: "sz", 53: "?",
          55: "c", 56: "L", 58: "Fk", 59: "vxy", 60: "P", 61: "TYao", 62: "e", 63: "ESbdghnpqu", 64: "$0123456789{}µ", 66: "K", 68: "AV",
          69: "BRXZ", 70: "C", 73: "U", 75: "HN", 77: "DG", 78: "&", 79: "OQ", 82: "w", 84: "#+<=>^~±", 86: "M", 95: "%", 97: "m", 99: "W", 100: "@…"}


def width_in_dejavu(text):
    """How wide a text is in DejaVu Sans, at a size of 12 pixels."""
    return 12 * sum(next(wide for wide, letters in DEJAVU.items() if letter in letters) / 100 for letter in text)


def widths_of_texts(folder, program, settings):
    """A text is taken for as wide as it is in DejaVu Sans, or a little wider. What is too wide is cut."""
    for text, wide in (("2024-03-30", 69.7), ("00:00", 34.6), ("± (CompDev + 2 ExcDev)", 156.1), ("held (the newest)", 105.8),
                       ("avg 43.79 m3/h", 95.0), ("raw values", 64.9), ("FIC101.PV", 61.0)):  # as fontTools measures them
        assert wide - 0.1 <= lettering.width_of(text) <= 1.12 * wide and abs(width_in_dejavu(text) - wide) < 0.6, (text, lettering.width_of(text))
    assert lettering.cut("FIC101.PV", 70) == "FIC101.PV" and lettering.cut("FIC101.PV" * 9, 70).endswith("…")
    assert lettering.width_of(lettering.cut("FIC101.PV" * 9, 70)) <= 70 and lettering.cut("W", 1) == "…"


def raw_marks(svg):
    """Each raw value's mark: from where to where it goes to the right and upward, with the width of its strokes."""
    found = []
    for path in plot_of(svg).findall(SVG + "path"):
        width = float(path.get("stroke-width", 1))
        if path.get("stroke") == picture.LINE or path.get("stroke-dasharray") or path.get("fill"):
            continue
        if path.get("stroke-linecap") == "round":
            for x, low, high in re.findall(r"M(-?\d+),([\d.]+)V([\d.]+)", path.get("d")):
                found.append((int(x) - width / 2, int(x) + width / 2, float(high) - width / 2, float(low) + width / 2))
        else:
            for x, low, high, left, right in re.findall(r"M(-?\d+),([\d.]+)V([\d.]+)(?:M(-?\d+),[\d.]+h(\d+))?", path.get("d")):
                found.append((int(left or x), int(left or x) + int(right or 0), float(high), float(low)))
    return found


def raw_values_show(folder, program, settings):
    """Raw values that lie on the line or on a point show beside it: far apart on a flat line, on a steep one, on a stair's points, and
    close together. The line is drawn over them."""
    end = LATE_EVENING + 8 * HOUR
    middle = LATE_EVENING + 4 * HOUR
    steep = [(LATE_EVENING, 0), (middle, 0), (middle + 16 * MINUTE, 1000), (end, 1000)]
    stair = [(LATE_EVENING + n * HOUR, n % 3 * 50) for n in range(8)]
    for points, raw, least in ((steep, steep + [(middle + 8 * MINUTE, 500)], MARK), (stair, stair, MARK),
                               (steep, [(t, 0) for t in range(LATE_EVENING, middle, 10_000)], LINE_WIDTH / 2),
                               (steep, [(t, 0) for t in range(LATE_EVENING, middle, 3 * MINUTE)], LINE_WIDTH / 2)):
        scale, svg = drawn(points, raw, LATE_EVENING, end, step=points is stair)
        marks = raw_marks(svg)
        for t, v in raw:
            x, y = scale.x(t), scale.y(v)
            assert any(mark[0] < x - least + 0.5 and x + least - 0.5 < mark[1] and mark[2] < y - least and y + least < mark[3]
                       for mark in marks), (t, v, x, y)
        strokes = [path.get("stroke") for path in svg.iter(SVG + "path")]
        assert max(place for place, stroke in enumerate(strokes) if stroke == picture.LINE) > strokes.index(picture.RAW, 2)
    texts = [text.text for text in svg.iter(SVG + "text")]
    assert "raw values" in texts and "raw values" not in [text.text for text in drawn(steep, [], LATE_EVENING, end)[1].iter(SVG + "text")]


def texts_of(svg, form):
    """The texts of a form below the axis: from where to where each goes, and what it says."""
    found = []
    for node in svg.iter(SVG + "text"):
        if re.fullmatch(form, node.text or ""):
            x, wide = float(node.get("x")), width_in_dejavu(node.text)
            left = x - wide / 2 if node.get("text-anchor") == "middle" else x - wide
            found.append((left, left + wide, node.text))
    return found


def dates_of(svg):
    return texts_of(svg, r"(\d{4}-)?\d\d-\d\d")


def dates_have_room(folder, program, settings):
    """No two dates overlap, and none leaves the picture, however long the time is that is drawn and wherever midnight lies. The first one
    has its year. Where there is room, each has. Nor do clock times with seconds."""
    points = [(0, 0), (2 * LATE_EVENING, 100)]
    for first in (LATE_EVENING, LATE_EVENING + HOUR, LATE_EVENING + HOUR + 50 * MINUTE, LATE_EVENING - 90 * DAY):
        for hours in (*range(1, 40), *range(41, 200, 9), 240, 300, 312, 400, 600, 1_000, 3_000, 9_000):
            dates = dates_of(drawn(points, [], first, first + hours * HOUR)[1])
            assert all(left >= 0 and right <= picture.WIDTH for left, right, _ in dates), (first, hours, dates)
            assert all(left[1] < right[0] for left, right in zip(dates, dates[1:])), (first, hours, dates)
            assert not dates or len(dates[0][2]) == 10, (first, hours, dates)
    assert [text for *_, text in dates_of(drawn(points, [], LATE_EVENING, LATE_EVENING + 26 * HOUR)[1])] == ["2024-03-29", "03-30", "03-31"]
    assert [text for *_, text in dates_of(drawn(points, [], LATE_EVENING, LATE_EVENING + 7 * HOUR)[1])] == ["2024-03-29", "2024-03-30"]
    hours = texts_of(drawn(points, [], LATE_EVENING, LATE_EVENING + 12_000)[1], r"\d\d:\d\d:\d\d")
    assert len(hours) == 13 and hours[-1][1] <= picture.WIDTH and all(a[1] < b[0] for a, b in zip(hours, hours[1:])), hours
    days = [text for *_, text in dates_of(drawn(points, [], LATE_EVENING - 95 * DAY, LATE_EVENING - 82 * DAY)[1])]
    assert days[0] == "2023-12-26" and "12-31" in days and "2024-01-01" in days and days[-1] == "01-07", days


def plot_of(svg):
    """What is drawn between the axes of the first panel."""
    return next(group for group in svg.iter(SVG + "g") if group.get("clip-path"))


def paths_of(svg, colour):
    """The points of the paths between the axes that are filled with a colour, or drawn in it."""
    texts = [path.get("d") for path in plot_of(svg).iter(SVG + "path") if colour in (path.get("fill"), path.get("stroke"))]
    return [(float(x), float(y)) for text in texts for x, y in re.findall(r"(-?[\d.]+),(-?[\d.]+)", text)]


def bands_within_the_axis(folder, program, settings):
    """The axis has room for the bands, the limit and raw values, of a line, a stair and of dense points; also of a flat line."""
    points = [(1000 * n, n % 5) for n in range(10)]
    columns = [(1000 * n, n, n + 3, n + 1) for n in range(10)]
    for others in ({}, {"step": True}, {"columns": columns, "values": [v for column in columns for v in column[1:3]]}):
        for wide in (0, 4, 50):
            panel, svg = drawn(points if not others.get("columns") else [], [], 0, 10_000, narrow=wide // 2, wide=wide, limit=(70, "70"), **others)
            found = paths_of(svg, picture.WIDE_BAND) + paths_of(svg, picture.LINE) + paths_of(svg, picture.LIMIT)
            assert all(panel.top <= y <= panel.bottom for _, y in found), (others, wide)
            assert bool(paths_of(svg, picture.WIDE_BAND)) == (wide > 0)
    panel, svg = drawn([(0, 7), (9000, 7)], [(500, 90)], 0, 10_000, narrow=0, wide=0)
    assert panel.top < panel.y(90) < panel.y(7) < panel.bottom


def ticks_are_whole(folder, program, settings):
    """The axis of a valve of 0 and 1 has the ticks 0 and 1, and no value that cannot be; that of tenths has tenths."""
    def ticks(points, scale):
        svg = drawn(points, [], 0, 10_000, step=True, narrow=0, wide=0, scale=scale)[1]
        return [node.text for node in svg.iter(SVG + "text") if node.get("text-anchor") == "end" and re.fullmatch(r"-?[\d.]+", node.text or "")]
    assert ticks([(0, 0), (5000, 1), (9000, 0)], 1) == ["0", "1"]
    assert ticks([(0, 1), (9000, 1)], 1) == ["0", "1", "2"] and ticks([(0, 0), (5000, 3)], 10) == ["0.0", "0.1", "0.2", "0.3"]
    assert ticks([(0, 0), (5000, 700)], 1) == ["0", "200", "400", "600"]


def clock_goes_back(folder, program, settings):
    """Where the clock is set back or forward, a line stands there, with the offsets on both sides: so two times of 02:00 are told apart."""
    if "Europe/Berlin" not in zoneinfo.available_timezones():
        return "no time zones here: not tried"
    back, forward = 1_729_990_800_000, 1_711_846_800_000  # 2024-10-27 02:00 for the second time, 2024-03-31 03:00
    for change, offsets in ((back, ["+02:00", "+01:00"]), (forward, ["+01:00", "+02:00"])):
        points = [(change - 3 * HOUR, 0), (change + 3 * HOUR, 9)]
        panel, svg = drawn(points, [], *(t for t, _ in points), zone="Europe/Berlin")
        found = sorted((x, text) for x, _, _, _, text in boxes(svg) if re.fullmatch(r"[+-]\d\d:\d\d", text))
        x = panel.x(change)
        assert [text for _, text in found] == offsets and found[0][0] < x < found[1][0], (found, x)
        assert "M%.1f,%dV%d" % (x, panel.top, panel.bottom) in "".join(path.get("d") for path in svg.iter(SVG + "path"))
        check_texts(svg)
    hours = [text for *_, text in boxes(drawn([(back - 3 * HOUR, 0)], [], back - 3 * HOUR, back + 3 * HOUR, zone="Europe/Berlin")[1])]
    assert hours.count("02:00") == 2 and hours.count("03:00") == 1, hours
    assert not [text for *_, text in boxes(drawn([(0, 0)], [], 0, 6 * HOUR, zone="Europe/Berlin")[1]) if text.startswith("+")]


def texts_have_room(folder, program, settings):
    """No text of a picture runs into another or leaves it, however long titles, units, limits and the texts of bars are."""
    points = [(LATE_EVENING + n * HOUR, n % 7 * 100) for n in range(30)]
    bars = [("shifts", [(LATE_EVENING + n * HOUR, LATE_EVENING + (n + 1 + n // 4 % 2) * HOUR, ("avg 43.79 m3/h", "43.79")) for n in range(0, 30, 4)]),
            ("a calculation with a long name", [])]
    for unit, title, limit in (("l/h", "T1", None), ("degC", "T1: " + "a long descriptor " * 9, (600, "600")),
                               ("kilograms a second and metre", "W" * 64, (600, "123456789012345678901234567890123456789012345678901234567890"))):
        for hours in (1, 5, 13, 29):
            svg = drawn(points, points, LATE_EVENING, LATE_EVENING + hours * HOUR, zone="Europe/Berlin", bars=bars, unit=unit, title=title,
                        limit=limit, silent=[(LATE_EVENING, LATE_EVENING + HOUR)])[1]
            check_texts(svg)
            texts = [text for *_, text in boxes(svg)]
            assert "bad or silent" in texts and (limit is None or any(text.startswith("limit ") for text in texts)), texts
    shown = [text for *_, text in boxes(drawn(points, [], LATE_EVENING, LATE_EVENING + 13 * HOUR, bars=bars)[1])]
    assert "avg 43.79 m3/h" in shown and "43.79" in shown, shown


def nothing_to_draw(folder, program, settings):
    """A picture without values has a line of words and no values at its axis. draw.py says when the newest value came, and draws also a tag
    that was never fed. A file of another kind is refused, and so is a PNG where nothing can make it."""
    svg = drawn([], [], 0, 10_000, words="no value here: the newest is of yesterday")[1]
    texts = [text for *_, text in boxes(svg)]
    assert "no value here: the newest is of yesterday" in texts and "00:00:05" in texts and not [text for text in texts if re.fullmatch(r"[\d.]+", text)]
    assert not list(svg.iter(SVG + "circle")) and not paths_of(svg, picture.BAND)
    trial = Trial(os.path.join(folder, "a"), program)
    trial.write("inbox/x.csv", "LIC4.PV,5000,7\nLIC4.PV,90000,70\n")
    trial.fed()
    for tag, span, words in (("LIC4.PV", ("100000", "200000"), "no value here: the newest is of 1970-01-01 00:01:30Z"),
                             ("LIC4.PV", ("0", "4999"), "no value here: the first is of 1970-01-01 00:00:05Z"),
                             ("FIC1.PV", ("0", "now"), "no value of FIC1.PV was ever fed")):
        status, text = trial.tool("draw.py", tag, *span, "x.svg")
        assert status == 0 and words in text and words in trial.read("x.svg"), (status, text)
    for words, why in ((["LIC4.PV", "0", "9", "x.pdf"], "ends in .svg or .png"), (["LIC4.PV", "9", "9", "y.svg"], "FROM must be before TO"),
                       (["LIC4.PV", "0", "9", "--limit", "high", "y.svg"], "--limit: no number"),
                       (["LIC4.PV", "0", "9", "--group", "unit", "cold", "y.svg"], "no calculation cold")):
        status, text = trial.tool("draw.py", *words)
        assert status == 22 and why in text and not os.path.exists(trial.path("y.svg")), (words, status, text)
    status, text = trial.tool("draw.py", "LIC4.PV", "0", "now", "x.png")
    if shutil.which("rsvg-convert"):
        with open(trial.path("x.png"), "rb") as data:
            assert status == 0 and data.read(8) == b"\x89PNG\r\n\x1a\n", (status, text)
    else:
        assert status == 22 and "apt-get install librsvg2-bin" in text, (status, text)


def dense_points(folder, program, settings):
    """Where there are more points than pixels the picture has no dots: it has the lowest and the highest value of each pixel, which are those
    of the points. Of few points each has its dot. The file stays small."""
    trial = Trial(os.path.join(folder, "a"), program)
    trial.write("base.toml", base_text().replace("exc_dev = 10", "exc_dev = 0").replace("comp_dev = 30", "comp_dev = 0"))
    values = [(n * 7919) % 211 * 100 for n in range(6_000)]
    trial.write("inbox/x.csv", "".join("LIC4.PV,%d,%d\n" % (1000 * n, v) for n, v in enumerate(values)))
    trial.fed()
    assert trial.tool("draw.py", "LIC4.PV", "0", "newest", "x.svg")[0] == 0
    text = trial.read("x.svg")
    svg = xml.etree.ElementTree.fromstring(text)
    assert not list(svg.iter(SVG + "circle")) and len(text) < 100_000, len(text)
    spans = paths_of(svg, picture.SPAN)
    ticks = {node.text: float(node.get("y")) - 4 for node in svg.iter(SVG + "text") if re.fullmatch(r"\d+", node.text or "")}
    unit = (ticks["0"] - ticks["20000"]) / 20_000
    low, high = max(y for _, y in spans), min(y for _, y in spans)
    assert abs((ticks["0"] - high) / unit - max(values)) < 100 and abs((ticks["0"] - low) / unit - min(values)) < 100, (ticks, low, high)
    assert len(spans) == 2 * 792 and trial.tool("draw.py", "LIC4.PV", "0", "100000", "y.svg")[0] == 0
    few = xml.etree.ElementTree.fromstring(trial.read("y.svg"))
    wanted = asked(trial, "points,LIC4.PV,0,100000")
    assert len(list(plot_of(few).iter(SVG + "circle"))) == len(wanted) > 80 and not paths_of(few, picture.SPAN)


def several_tags_and_silence(folder, program, settings):
    """Several tags stand in panels one below the other, with a limit of one of them, the shifts' figures of each, and hatched where a quality
    tag is 0. No text runs into another."""
    trial = lay_example(folder, program)
    status, text = trial.tool("draw.py", "TIC201.PV", "FIC101.PV", "XV101.ZSO", "2024-03-30", "2024-03-31", "--limit", "TIC201.PV=86",
                              "--shifts", "calendar.toml", "--group", "unit1", "hot", "--quality", "XV101.ZSO", "x.svg")
    assert status == 0, text
    svg = xml.etree.ElementTree.fromstring(trial.read("x.svg"))
    check_texts(svg)
    texts = [text for *_, text in boxes(svg)]
    for wanted in ("TIC201.PV: temperature of the reactor", "XV101.ZSO: position of the feed valve", "FIC101.PV avg 6298 l/h",
                   "XV101.ZSO avg 93 %", "degC", "l/h", "hot"):
        assert wanted in texts, (wanted, texts)
    assert texts.count("limit 86") == 1 and texts.count("clock: Europe/Berlin") == 1 and texts.count("06:00") == 1
    hatched = [(float(node.get("x")), float(node.get("width"))) for node in svg.iter(SVG + "rect")
               if node.get("fill") == "url(#h)" and node.get("height") == "170"]
    closed = picture.Times(0, 86_400_000)  # the valve is closed from 0:00 to 6:00, and from 18:10 on, when its newest value came
    wanted = [(closed.x(0), closed.x(6 * HOUR) - closed.x(0)), (closed.x(18 * HOUR + 10 * MINUTE), closed.x(24 * HOUR) - closed.x(18 * HOUR + 10 * MINUTE))]
    assert len(hatched) == 6 and all(abs(a - b) < 0.2 for got, want in zip(sorted(hatched)[::3], wanted) for a, b in zip(got, want)), hatched


CASES = [raw_values_show, dates_have_room, widths_of_texts, bands_within_the_axis, ticks_are_whole, clock_goes_back, texts_have_room,
         nothing_to_draw, dense_points, several_tags_and_silence]
