#!/usr/bin/env python3
"""test_board.py [--program PATH] [--only NAME ..]: opens the pages of boards in headless Chromium, and looks at them as a person does.

It takes a minute at most. It needs chromium-driver, python3-selenium and libjs-dygraphs (Debian). Without them it says so in a line, and
ends with 0. What the pages have to show comes from the rows that were fed, from the program and from ask.py. The script prints a line for
each case, and last `N passed, N failed`; the exit status is 1 if a case fails."""
import argparse
import csv
import glob
import io
import json
import os
import re
import sys
import tempfile
import time
import traceback
from decimal import Decimal

sys.dont_write_bytecode = True
HERE = os.path.dirname(os.path.abspath(__file__))
sys.path[:0] = [HERE, os.path.join(HERE, "testing")]
import browser  # noqa: E402
from browser import go, require_no_errors, wait_for  # noqa: E402
from device_maker import TUNING, device_bytes, tag_text, walk  # noqa: E402
from fields import milliseconds  # noqa: E402
from line_windows import Windows  # noqa: E402
from plant import program_of  # noqa: E402
from site_trial import TURN_OF_TIME, SiteTrial  # noqa: E402
from trial import LINES, REFUSED, START, STEPS, Trial, decimal  # noqa: E402

HOUR = 3_600_000
MONTH = 720 * HOUR
CELLS = "return [...document.querySelectorAll('#tags tbody tr:not([hidden])')].map(row => [...row.cells].map(cell => cell.innerText))"
HACK = "<script>window.hacked = 1</script><img src=x onerror='window.hacked = 1'>&amp;\"'"
STRANGE = [".", "..", "-", "_", ".hidden", "a.b-c_D9", "A.d", "A", "x" * 64, "head.js", "index.html", "0", "__proto__", "constructor"]
TAG = '[[tag]]\nname = "%s"\nexc_dev = 0\nexc_max = 600000\ncomp_dev = 2\ncomp_min = 0\ncomp_max = 28800000\n'


def written(trial):
    """Writes the board: its folder."""
    status, text = trial.tool("board.py")
    assert status == 0, text
    return trial.path("board")


def fed_plant(folder, program):
    """A plant that was fed two blocks of hours, with late values, limits and an age that is old; and its board."""
    trial = Trial(os.path.join(folder, "a"), program)
    trial.write("feed.toml", trial.read("feed.toml").replace("scale = 1000\n", "scale = 1000\nlow = 20.1\nhigh = 20.2\n"))
    for block in range(2):
        trial.deliver(block)
        trial.fed()
    return trial, written(trial)


def newest_of(trial, name):
    """The newest value of a tag, as its logger wrote it."""
    return decimal(max((t, v) for t, tag, v in trial.rows if tag == name)[1], (LINES | STEPS)[name])


def cells(driver):
    """The texts of the rows that the table shows, by tag."""
    return {row[0].split("\n")[0]: row for row in driver.execute_script(CELLS)}


def press(driver, title):
    """Presses the head of a column."""
    driver.execute_script("[...document.querySelectorAll('#tags th button')].find(each => each.textContent === arguments[0]).click()", title)


def type_in(driver, text):
    """Types into the filter, letter by letter."""
    from selenium.webdriver.common.by import By
    field = driver.find_element(By.ID, "filter")
    field.clear()
    driver.execute_script("document.getElementById('filter').dispatchEvent(new Event('input'))")
    field.send_keys(text)


def table_of_tags(driver, trial, board):
    """The table has a row for each tag, with the newest value that was fed, and the counts of the program. It sorts by a column, both ways,
    and filters while one types."""
    go(driver, os.path.join(board, "index.html"))
    rows = cells(driver)
    assert list(rows) == sorted(LINES | STEPS), list(rows)
    for line in trial.by_hand("check", "base.toml").splitlines():
        name, taken, records, late = re.fullmatch(r"tag (\S+) taken=(\d+) records=(\d+) kept=\d+ late=(\d+) held=\S+", line).groups()
        assert rows[name][1].split()[0] == newest_of(trial, name), rows[name]
        assert [rows[name][place].replace("\u202f", "") for place in (5, 6, 8)] == [taken, records, late], rows[name]
    state = rows["TIC3.PV"][3]
    assert ("above 20.2" in state) == (Decimal(newest_of(trial, "TIC3.PV")) > Decimal("20.2")), state
    press(driver, "value")
    wanted = sorted(LINES | STEPS, key=lambda name: (Decimal(newest_of(trial, name)), name))
    assert list(cells(driver)) == wanted, (list(cells(driver)), wanted)
    press(driver, "value")
    assert [Decimal(newest_of(trial, name)) for name in cells(driver)] == sorted((Decimal(newest_of(trial, name)) for name in wanted), reverse=True)
    type_in(driver, "ic")
    assert set(cells(driver)) == {name for name in rows if "ic" in name.lower()}
    type_in(driver, "XV7")
    assert list(cells(driver)) == ["XV7.ZSO"] and "1 of 8 tags" in driver.page_source
    type_in(driver, "no such tag")
    assert not cells(driver) and "No tag fits the filter." in driver.find_element("id", "empty").text
    type_in(driver, "")
    assert len(cells(driver)) == 8
    require_no_errors(driver)


def zoomed(driver, first, last):
    """Zooms the page of a tag to a span of time, and waits until it is drawn."""
    driver.execute_async_script("show(arguments[0], arguments[1], arguments[2])", first, last)


def shown_points(driver, first, last):
    """The points that a page draws in a span of time, as time and text, with how each is marked."""
    return driver.execute_script("""return page.drawn.points.filter(each => !each.beyond && each.t >= arguments[0] && each.t <= arguments[1])
        .map(each => [each.t, valueText(each.v, page.head.scale), each.late ? 'late' : each.held ? 'held' : 'kept'])""", first, last)


def day_of_points(driver, trial, board):
    """A trend that is zoomed to some hours draws just the points that ask.py prints there, of lines and of stairs. Late ones and the newest
    one are marked. A button shows more, and a drag zooms."""
    for name in ("FIC1.PV", "TIC3.PV", "XV7.ZSO"):
        go(driver, os.path.join(board, "tags", name + ".html"))
        for first, last in ((START + HOUR, START + 3 * HOUR), (START, START + 13 * HOUR)):
            zoomed(driver, first, last)
            status, text = trial.tool("ask.py", "--csv", name, str(first), str(last))
            asked = [row["value" if "value" in row else name] for row in csv.DictReader(io.StringIO(text))]
            points = shown_points(driver, first, last)
            assert status == 0 and [value for _, value, _ in points] == asked and asked, (name, points, text)
        late = {t for t, tag, v in late_rows(trial) if tag == name}
        assert {t for t, _, kind in points if kind == "late"} == late, (name, late)
        assert [kind for _, _, kind in points].count("held") == 1 and points[-1][2] == "held", points[-1]
        require_no_errors(driver)
    before = driver.execute_script("return page.to - page.from")
    drag(driver, 0.3, 0.6)
    wait_for(driver, "return page.to - page.from < arguments[0] / 2", before)
    driver.execute_script("[...document.querySelectorAll('#spans button')].find(each => each.textContent === 'all').click()")
    wait_for(driver, "return page.to - page.from > 10 * 3600000")
    assert driver.execute_script("return page.from <= ends()[0] && page.to >= ends()[1]")
    require_no_errors(driver)


def late_rows(trial):
    """The rows of a plant that came late."""
    newest = {}
    for t, tag, v in trial.rows:
        if t <= newest.get(tag, -1):
            yield t, tag, v
        newest[tag] = max(t, newest.get(tag, -1))


def drag(driver, start, end):
    """Drags over the trend, from one share of its width to another."""
    from selenium.webdriver import ActionChains
    chart = driver.find_element("id", "chart")
    at = lambda share: round(chart.size["width"] * (share - 0.5))
    ActionChains(driver).move_to_element_with_offset(chart, at(start), -60).click_and_hold().move_by_offset(at(end) - at(start), 0).release().perform()


def pointed(driver, t):
    """What the page says where the pointer stands at a time."""
    from selenium.webdriver import ActionChains
    chart = driver.find_element("id", "chart")
    x = driver.execute_script("return page.graph.toDomXCoord(arguments[0])", t)
    ActionChains(driver).move_to_element_with_offset(chart, round(x - chart.size["width"] / 2), -50).perform()
    return driver.find_element("id", "readout").text


def band_under_the_pointer(driver, trial, board):
    """Where the pointer stands on a point the band goes from its value less to its value more than the tuning's, CompDev and CompDev with
    ExcDev once or twice. On the line it is the value that the program reads there. Beside late values and behind the newest one nothing is
    promised, and no band is drawn."""
    comp_dev, exc_dev = 30, 10
    for name, scale in (("FIC1.PV", 100), ("TIC3.PV", 1000), ("XV7.ZSO", 1)):
        go(driver, os.path.join(board, "tags", name + ".html"))
        zoomed(driver, START, START + 13 * HOUR)
        points = [(t, value) for t, value, kind in shown_points(driver, START, START + 13 * HOUR)]
        late = {t for t, tag, _ in late_rows(trial) if tag == name}
        clean = [k for k in range(1, len(points)) if not {points[k - 1][0], points[k][0]} & late and points[k][0] - points[k - 1][0] > HOUR // 3]
        place = clean[len(clean) // 2]
        (before, _), (t, value) = points[place - 1], points[place]
        wide = comp_dev + (1 if name in STEPS else 2) * exc_dev
        text = pointed(driver, t)
        for by in (comp_dev, wide):
            low, high = (Decimal(value) + sign * Decimal(by) / scale for sign in (-1, 1))
            assert "%s to %s" % (low, high) in text, (name, text, low, high)
        row = driver.execute_script("return page.drawn.rows.find(row => row[0] === arguments[0])", t)
        for band, by in ((row[1], wide), (row[2], comp_dev)):
            assert abs(band[0] - (float(value) - by / scale)) < 1e-9 and abs(band[2] - (float(value) + by / scale)) < 1e-9, (row, value)
        text = pointed(driver, (before + t) // 2)
        there = driver.execute_script("return under(arguments[0], 0).t", (before + t) // 2)
        read = trial.tool("ask.py", "at,%s,%d" % (name, there))[1].splitlines()[-1].split(",")
        assert driver.execute_script("return valueText(under(arguments[0], 0).value, page.head.scale)", there) == read[4], (text, read)
        assert ("stair" if name in STEPS else "line") in text and "CompDev" in text, text
        assert "nothing is promised" in pointed(driver, points[-1][0] + 600_000)
    go(driver, os.path.join(board, "tags", "FIC1.PV.html"))
    t = next(t for t, tag, _ in late_rows(trial) if tag == "FIC1.PV")
    zoomed(driver, t - HOUR // 4, t + HOUR // 4)
    assert "came late; nothing is promised here" in pointed(driver, t)
    assert driver.execute_script("return page.drawn.rows.find(row => row[0] === arguments[0])", t)[1:3] == [None, None]
    require_no_errors(driver)


def strange_plants(driver, folder, program):
    """Names of all kinds, tags without values or with one, and markup in texts: each page opens, and what looks like markup is text."""
    trial = Trial(os.path.join(folder, "strange"), program)
    trial.write("base.toml", "".join(TAG % name for name in STRANGE) + TAG % "HACK" + "descriptor = %s\nengunits = %s\n" % (
        json.dumps(HACK), json.dumps(HACK)) + TAG % "EMPTY" + TAG % "ONE")
    trial.write("feed.toml", "settle_seconds = 0\n")
    trial.write("inbox/1.csv", "".join("%s,%d,%d\n" % (name, START + n * 60_000, n % 4 * 10) for name in STRANGE + ["HACK"] for n in range(5))
                + "ONE,%d,-7\n%s,5,5\n" % (START, HACK))
    trial.fed(ends=REFUSED)
    trial.write("feed.d/audit.json", json.dumps({"HACK": {"seen": HACK, "promised": HACK, "values": 1, "late": 0, "unpromised": 0, "outside": 1, "first": HACK,
                                                          "at": 0}}))
    board = written(trial)
    go(driver, os.path.join(board, "index.html"))
    rows = cells(driver)
    assert set(rows) == {*STRANGE, "HACK", "EMPTY", "ONE"} and HACK in rows["HACK"][0] and "no value" in rows["EMPTY"][3], rows["EMPTY"]
    assert HACK in driver.find_element("id", "feed").text
    for name in [*STRANGE, "HACK", "EMPTY", "ONE"]:
        link = driver.execute_script("return [...document.querySelectorAll('#tags a')].find(each => each.textContent === arguments[0]).href", name)
        driver.get(link)
        wait_for(driver, "return board.shown !== undefined")
        assert driver.find_element("tag name", "h1").text == name and driver.execute_script("return window.hacked") is None
        require_no_errors(driver)
        text = driver.find_element("tag name", "body").text
        assert name != "HACK" or text.count(HACK) >= 4, text
        assert name != "EMPTY" or "No value was stored yet" in text, text
        assert name != "ONE" or "-7" in driver.find_element("id", "value").text and shown_points(driver, 0, 10**15) == [[START, "-7", "held"]]
        driver.back()
        wait_for(driver, "return board.shown !== undefined")
    assert driver.execute_script("return window.hacked") is None


def thousand_tags(driver, folder, program):
    """A board of 1,000 tags, one of them with 120,000 points, shows all of them; the long one from windows, and zoomed from points."""
    trial = Trial(os.path.join(folder, "thousand"), program)
    names, line = ["T%d" % place for place in range(999)] + ["LONG"], walk(120_000, 20_000, 3)
    trial.write("base.toml", "".join(map(tag_text, names)))
    os.makedirs(trial.path("historian.d"))
    for place, name in enumerate(names):
        with open(trial.path("historian.d", name + ".tag"), "wb") as out:
            points = line if name == "LONG" else walk(2, 60_000, place)
            out.write(device_bytes(name, points, 3 * len(points)))
    board = written(trial)
    go(driver, os.path.join(board, "index.html"))
    assert len(cells(driver)) == 1_000 and "1\u202f000 tags" in driver.find_element("id", "count").text, (len(cells(driver)), driver.find_element("id", "count").text)
    assert list(cells(driver)) == ["LONG"] + names[:-1]  # T2 before T10
    type_in(driver, "T99")
    assert len(cells(driver)) == 10  # T99 and T990 to T998
    go(driver, os.path.join(board, "tags", "LONG.html"))
    zoomed(driver, START - HOUR, START + 700 * HOUR)
    assert driver.execute_script("return page.drawn.points") is None and 900 < driver.execute_script("return page.drawn.rows.length") < 4_000
    low, high = driver.execute_script("return [Math.min(...page.drawn.rows.map(row => row[3][0])), Math.max(...page.drawn.rows.map(row => row[3][2]))]")
    assert (round(10 * low), round(10 * high)) == (min(v for _, v in line), max(v for _, v in line)), (low, high)
    zoomed(driver, line[60_000][0], line[60_100][0])
    assert shown_points(driver, line[60_000][0], line[60_100][0]) == [[t, decimal(v, 10), "kept"] for t, v in line[60_000:60_101]]
    require_no_errors(driver)


def dense_plant(folder, program):
    """A plant with a line and a stair of 400,000 points each, in which lies one late point, and in a month one peak and one hollow: the two
    lines, when that month begins, and the late point."""
    trial, lines = Trial(os.path.join(folder, "dense"), program), {}
    os.makedirs(trial.path("historian.d"))
    trial.write("base.toml", tag_text("LINE") + tag_text("STAIR", step=True))
    for place, name in enumerate(("LINE", "STAIR")):
        line = lines[name] = walk(400_000, 30_000, 5 + place)
        for at, by in ((171_111, 90_000), (188_888, -90_000)):
            line[at] = line[at][0], line[at][1] + by
        late = line[180_000][0] + 15_000, line[180_000][1] + 7
        with open(trial.path("historian.d", name + ".tag"), "wb") as out:
            out.write(device_bytes(name, line, 2 * len(line), name == "STAIR", [late]))
        line.insert(180_001, late)
    return trial, lines, line[150_000][0] + 12_345, late[0]


def month_of_many_points(driver, folder, program):
    """A month, and a week, with too many points to draw each are drawn from finer windows, and no point is loaded. The lowest and the highest
    value are those that ask.py gives, of a line and of a stair. Each row has the lowest and the highest value of its own time, and the band
    around these, but beside a late point, where nothing is promised. A shorter span is drawn from points. Where finer windows are of another
    writing than the page, the windows of the whole time are drawn."""
    trial, lines, month, late = dense_plant(folder, program)
    board = written(trial)
    for name, line in lines.items():
        go(driver, os.path.join(board, "tags", name + ".html"))
        driver.execute_script("page.pieces[0].files.clear()")
        for first, last in ((month, month + MONTH), (late - 60 * HOUR, late + 108 * HOUR)):
            zoomed(driver, first, last)
            assert driver.execute_script("return [page.drawn.points, page.pieces[0].files.size]") == [None, 0], (name, first)
            rows = driver.execute_script("return page.drawn.rows.filter(row => row[0] >= arguments[0] && row[0] < arguments[1])", first, last)
            assert 900 < len(rows) <= 2_000, (name, len(rows))
            shown = min(row[3][0] for row in rows), max(row[3][2] for row in rows)
            if last - first == MONTH:  # else the edges may be lower or higher, and windows go beyond them
                asked = trial.tool("ask.py", *("%s,%s,%d,%d" % (what, name, first, last) for what in ("low", "high")))[1]
                assert shown == tuple(float(row["value"]) for row in csv.DictReader(io.StringIO(asked))), (name, shown, asked)
            rows_are_of_the_line(rows, line, name == "STAIR", late)
        zoomed(driver, month, month + HOUR)
        assert shown_points(driver, month, month + HOUR) == [[t, decimal(v, 10), "kept"] for t, v in line if month <= t <= month + HOUR]
        require_no_errors(driver)
    nothing_in_a_gap(driver, month + MONTH // 3, month + MONTH // 2, month)
    of_another_writing(driver, board, month)


def of_another_writing(driver, board, first):
    """Fails unless a page draws the windows of the whole time where finer ones are narrower than its head says."""
    go(driver, os.path.join(board, "tags", "LINE.html"))
    width, whole = driver.execute_script("return [page.head.fine.width, page.head.kept.width]")
    for path in glob.glob(os.path.join(board, "tags", "LINE.d", "fine*")):
        with open(path) as text:
            there = text.read()
        with open(path, "w") as out:
            out.write(there.replace("board.fine(%d," % width, "board.fine(%d," % (width // 2)))
    zoomed(driver, first, first + MONTH)
    rows = driver.execute_script("return page.drawn.rows.filter(row => row[0] > arguments[0] && row[0] < arguments[1])", first, first + MONTH)
    assert len(rows) > 200 and {b[0] - a[0] for a, b in zip(rows, rows[1:])} == {whole}, (len(rows), whole)
    require_no_errors(driver)


def rows_are_of_the_line(rows, line, step, late):
    """Fails unless each row has the lowest and the highest value that the line has in the row's time, and its bands are the tuning's around
    these; at a late point a few rows have none."""
    width = round(rows[1][0] - rows[0][0])
    windows = Windows(width, step)
    windows.add(*zip(*line))
    wide, bare = TUNING[2] + (1 if step else 2) * TUNING[0], []
    for t, outer, inner, (low, mean, high) in rows:
        place = int(t // width) - windows.first
        assert abs(10 * low - windows.low[place]) < 1.01 and abs(10 * high - windows.high[place]) < 1.01 and low <= mean <= high, (step, t, low, high)
        if outer is None:
            assert inner is None
            bare.append(t)
            continue
        for band, by in ((outer, wide), (inner, TUNING[2])):
            assert abs(10 * (low - band[0]) - by) < 1e-6 and abs(10 * (band[2] - high) - by) < 1e-6, (step, t, band)
    assert 1 <= len(bare) <= 3 and all(abs(t - late) <= 2 * width for t in bare), (bare, late)


def nothing_in_a_gap(driver, until, since, first):
    """Parts the time of the page's tag, as a site does, and fails if something is drawn from finer windows between the two parts."""
    driver.execute_script("""const head = page.head, name = page.name;
        page.pieces = [{folder: "", until: arguments[0]}, {folder: "", from: arguments[1]}].map(given => Object.assign(new Piece(name, given), {head}))""",
                          until, since)
    zoomed(driver, first, first + MONTH)
    assert driver.execute_script("return page.pieces.map(piece => piece.fine.size > 0 && piece.files.size)") == [0, 0]
    rows = driver.execute_script("return page.drawn.rows")
    before, after = [row[0] for row in rows if row[0] < until and row[3]], [row[0] for row in rows if row[0] >= since and row[3]]
    between = [row for row in rows if before[-1] < row[0] < after[0]]
    assert len(between) == 1 and between[0][1:] == [None, None, None], between
    assert until - before[-1] < 2 * HOUR and after[0] - since < 2 * HOUR, (before[-1], after[0])
    require_no_errors(driver)


def tags_of_a_site(driver, folder, program):
    """The board of a site has one page for each tag. A tag whose values lie in two parts by time has the points of both, as site.py tells
    them, from points and from windows, and no line, no band and no promise between the last one of a part and the first one of the next."""
    trial = SiteTrial(os.path.join(folder, "site"), program)
    for block in range(3):
        trial.deliver(block)
    trial.fed()
    for _ in range(2):  # the second time nothing is new
        status, text = trial.site("board")
        assert status == 0 and text.endswith("8 tags of 3 parts\n"), (status, text)
    board = trial.path("board")
    pages = sorted(os.path.relpath(os.path.join(place, name), board) for place, _, names in os.walk(board) for name in names if name.endswith(".html"))
    assert pages == ["index.html"] + ["tags/%s.html" % name for name in sorted(LINES | STEPS)], pages
    go(driver, os.path.join(board, "index.html"))
    rows = cells(driver)
    assert list(rows) == sorted(LINES | STEPS) and "east: " in driver.find_element("id", "feed").text
    for name, row in rows.items():
        assert row[5] == str(sum(tag == name for _, tag, _ in trial.rows)) and row[1].split()[0] == newest_of(trial, name), row
    for name in ("FIC1.PV", "XV7.ZSO", "LIC4.PV"):
        points = points_over_parts(driver, trial, board, name)
        if name != "LIC4.PV":
            nothing_between_parts(driver, points)
        require_no_errors(driver)


def points_over_parts(driver, trial, board, name):
    """Opens the page of a tag of a site, which has to draw the points that site.py prints, one by one and in windows: those points."""
    go(driver, os.path.join(board, "tags", name + ".html"))
    zoomed(driver, START, START + 19 * HOUR)
    status, text = trial.site("ask", "--csv", name, str(START), str(START + 19 * HOUR))
    assert status == 0, text
    points, asked = shown_points(driver, START, START + 19 * HOUR), list(csv.DictReader(io.StringIO(text)))
    assert [(t, v) for t, v, _ in points] == [(milliseconds(row["time"], None), row[name]) for row in asked] and asked, (points, asked)
    lows = driver.execute_script("return page.pieces.map(piece => Math.min(...piece.windowRows(windowsOf(piece.pointsIn(piece.needed(piece.first,"
                                 "piece.last).keys, piece.first, piece.last), piece.first, piece.last, piece.head.step), piece.first, piece.last)"
                                 ".map(row => row[3][0])))")
    assert min(lows) == min(float(v) for _, v, _ in points), (lows, points)
    assert driver.find_element("id", "facts").text.count("from 2024-03-29 09:00:00 on") == (name != "LIC4.PV")
    return points


def nothing_between_parts(driver, points):
    """Fails if something is drawn or promised between the last point before the parts' boundary and the first one behind it."""
    before, after = max(t for t, _, _ in points if t < TURN_OF_TIME), min(t for t, _, _ in points if t >= TURN_OF_TIME)
    between = driver.execute_script("return page.drawn.rows.filter(row => row[0] > arguments[0] && row[0] < arguments[1])", before, after)
    assert between and all(row[1:] == [None, None, None] for row in between), between
    zoomed(driver, before - HOUR // 2, after + HOUR // 2)
    text = pointed(driver, (before + after) // 2)
    assert "going on to the next part; nothing is promised here" in text, text


def cases_of(folder, program, only):
    """Runs the cases with one browser: a name and what went wrong, or nothing, for each."""
    fed = [table_of_tags, day_of_points, band_under_the_pointer]
    own = [strange_plants, thousand_tags, month_of_many_points, tags_of_a_site]
    chosen = [case for case in fed + own if not only or case.__name__.startswith(tuple(only))]
    given = fed_plant(folder, program) if set(chosen) & set(fed) else None
    with browser.opened() as driver:
        for case in chosen:
            start = time.monotonic()
            try:
                case(driver, *(given if case in fed else (folder, program)))
                yield case.__name__, "", time.monotonic() - start
            except Exception:
                yield case.__name__, traceback.format_exc(), time.monotonic() - start


def main():
    parser = argparse.ArgumentParser(description=__doc__, formatter_class=argparse.RawDescriptionHelpFormatter)
    parser.add_argument("--program", default="historian", help="the built historian (default: on the path)")
    parser.add_argument("--only", nargs="+", default=[], metavar="NAME", help="only the cases whose names begin so")
    settings = parser.parse_args()
    missing = browser.missing()
    if missing:
        print("test_board.py: the pages of boards are not tried: %s" % missing)
        return 0
    program, results = program_of(settings.program), []
    if program is None:
        print("there is no program %r: build it with `rt run` in crates/historian, or give its path with --program" % settings.program)
        return 1
    with tempfile.TemporaryDirectory(prefix="board-") as folder:
        for name, wrong, took in cases_of(folder, program, settings.only):
            results.append(not wrong)
            print("%s FAILED:\n%s" % (name, wrong) if wrong else "%-34s %6.1f s" % (name, took), flush=True)
    print("%d passed, %d failed" % (results.count(True), results.count(False)))
    return 0 if results and all(results) else 1


if __name__ == "__main__":
    browser.with_selenium()
    sys.exit(main())
