"""site_asks.py: tests of what a site answers over the boundaries of its parts; test_tools.py runs them.

The points of each part are asked of the program. What the site has to answer is found from them here, in exact fractions, by the rules of
docs/FORMATS.md and of RUNNING ("More than one plant"), without anything of the tools."""
import bisect
import csv
import fractions
import os
import random
import shlex
import subprocess

import fields
from site_answers import as_plant, opener
from site_machines import Machines
from site_parts import Site
from site_trial import PARTS, TURN_OF_TIME, SiteTrial, part_base
from trial import GROUP, LINES, START, STEPS, TAG

DAY, BEGIN, END = 86_400_000, 1_700_000_000_000, 253_402_300_799_999
TAGS = {"LINE": "", "STEP": "step = true\n", "RARE": "", "LATER": ""}
MEASURES = ("area", "avg", "total", "low", "high", "count", "first", "last")


def rounded(value):
    """The nearest whole number; a half goes up."""
    return (2 * value.numerator + value.denominator) // (2 * value.denominator)


class Piece:
    """What a part has of a tag: its points, and from when to when it has the tag."""

    def __init__(self, points, start, end, step):
        self.points, self.step = points, step
        self.first, self.last = max(start, points[0][0]), min(end, points[-1][0])

    def at(self, t):
        """The exact value at a time between the first and the last point."""
        place = bisect.bisect_right(self.points, (t, 10**18)) - 1
        (t1, v1), after = self.points[place], self.points[place + 1:place + 2]
        if t == t1 or self.step or not after:
            return fractions.Fraction(v1)
        (t2, v2), = after
        return v1 + fractions.Fraction((t - t1) * (v2 - v1), t2 - t1)


class Curve:
    """What a site has of a tag: pieces, and between two of them the last value of the first."""

    def __init__(self, parts, step):
        """`parts` has of each part its points, and from when to when it has the tag."""
        self.step = step
        pieces = [Piece(points, start, end, step) for points, start, end in parts if points]
        self.pieces = [piece for piece in pieces if piece.first <= piece.last]

    def at(self, t):
        """The rounded value at a time; None before the first."""
        before = [piece for piece in self.pieces if piece.first <= t]
        return rounded(before[-1].at(min(t, before[-1].last))) if before else None

    def knots(self, first, last):
        """The times at which the curve bends or jumps, and both ends of a window."""
        inner = {t for piece in self.pieces for t, _ in piece.points if piece.first <= t <= piece.last}
        inner |= {t for piece in self.pieces for t in (piece.first, piece.last)}
        return sorted({first, last} | {t for t in inner if first < t < last})

    def is_line(self, t):
        """Whether a line leads on from a time."""
        return not self.step and any(piece.first <= t < piece.last for piece in self.pieces)

    def measure(self, measure, first, last):
        if not self.pieces or first < self.pieces[0].first or last > self.pieces[-1].last:
            return "none"
        knots = self.knots(first, last)
        spans = [(t1, t2, self.at(t1), self.at(t2) if self.is_line(t1) else self.at(t1)) for t1, t2 in zip(knots, knots[1:])]
        area = sum((t2 - t1) * (v1 + v2) for t1, t2, v1, v2 in spans)
        seen = [v for _, _, v1, v2 in spans for v in (v1, v2)] + ([] if self.step else [self.at(last)])
        points = [t for piece in self.pieces for t, _ in piece.points if piece.first <= t <= piece.last and first <= t < last]
        return str({"area": area, "total": rounded(fractions.Fraction(area, 2_000)), "avg": rounded(fractions.Fraction(area, 2 * (last - first))),
                    "low": min(seen), "high": max(seen), "count": len(points), "first": self.at(first), "last": self.at(last)}[measure])


def lay_site(folder, program, draw, count):
    """A site of so many parts of the same tags, each a day long, some with values beyond their day: of each part its points."""
    found = []
    with open(os.path.join(folder, "site.toml"), "w") as out:
        for place in range(count):
            out.write('[[part]]\nfolder = "p%04d"\n%s' % (place, "from = %d\n" % (BEGIN + place * DAY) if place else ""))
    for place in range(count):
        part = os.path.join(folder, "p%04d" % place)
        os.makedirs(part)
        rows = []
        for tag in TAGS:
            rows += values_of(draw, tag, place)
        write(part, "base.toml", "".join(TAG % (tag, 0, 1, kind) for tag, kind in TAGS.items()))
        write(part, "rows.csv", "".join("%s,%d,%d\n" % row for row in rows))
        write(part, "plan.toml", '[[collector]]\nfile = "rows.csv"\n')
        write(part, "ask.csv", "".join("points,%s,0,%d\n" % (tag, END) for tag in TAGS))
        write(part, "ask.toml", '[[reader]]\nfile = "ask.csv"\n')
        for words in (["run", "base.toml", "plan.toml"], ["trend", "base.toml", "ask.toml"]):
            child = subprocess.run([*shlex.split(program), *words], cwd=part, capture_output=True, text=True)
            assert child.returncode == 0, child.stdout
        texts = [line.split(" ", 3)[3] for line in child.stdout.splitlines()]
        assert all(text.endswith("end") for text in texts)
        found.append({tag: [tuple(map(int, word.split(","))) for word in text.split()[:-1]] for tag, text in zip(TAGS, texts)})
    return found


def values_of(draw, tag, place):
    """The rows of a tag in a part. RARE has none in most parts, LATER none in the first ones; each seventh part has values before and behind
    its day."""
    if tag == "RARE" and place % 5 or tag == "LATER" and place < 3:
        return []
    start, length = (BEGIN + place * DAY, DAY) if place % 7 else (BEGIN + place * DAY - DAY // 9, DAY + DAY // 4)
    times = sorted(draw.sample(range(start, start + length), 1 if tag == "RARE" else draw.randint(1, 9)))
    return [(tag, t, draw.randint(-1_000, 1_000)) for t in times]


def write(folder, name, text):
    with open(os.path.join(folder, name), "w") as out:
        out.write(text)


def curves_of(points):
    """The curve of each tag of a site, from the points of its parts."""
    count = len(points)
    spans = [(BEGIN + place * DAY if place else 0, BEGIN + (place + 1) * DAY - 1 if place + 1 < count else END) for place in range(count)]
    return {tag: Curve([(part[tag], *span) for part, span in zip(points, spans)], bool(kind)) for tag, kind in TAGS.items()}


def edges_of(curve):
    """Windows that begin or end just where a piece does."""
    for piece, after in zip(curve.pieces, curve.pieces[1:]):
        yield from ((piece.last, after.first), (piece.first, after.first), (piece.last, after.last), (piece.last, piece.last + 1))


def questions_of(draw, curves, count, each):
    """Random questions, with what has to be answered; and how many boundaries of parts lie in their windows."""
    asked, over = [], 0
    for tag, curve in curves.items():
        knots = curve.knots(BEGIN, BEGIN + count * DAY)
        windows = [sorted(draw.choice((draw.choice(knots), draw.randrange(BEGIN - DAY, BEGIN + (count + 1) * DAY))) for _ in range(2))
                   for _ in range(each)]
        for first, last in windows + list(edges_of(curve)):
            if first < last:
                asked += [("%s,%s,%d,%d" % (measure, tag, first, last), curve.measure(measure, first, last)) for measure in MEASURES]
                over += last // DAY - first // DAY
            asked.append(("at,%s,%d" % (tag, first), "none" if curve.at(first) is None else str(curve.at(first))))
    return asked, over


def answers_over_boundaries(folder, program, settings):
    """Measures, values and points over the boundaries of parts are those of the parts' points in exact fractions: lines, steps, tags
    without a value in a part, and parts that have values beyond their time."""
    draw, count = random.Random(settings.seed), 400 if settings.long else 25
    curves = curves_of(lay_site(folder, program, draw, count))
    asked, over = questions_of(draw, curves, count, 40)
    assert over >= 1_000, over
    site = Site(folder, program)
    site.read()
    with opener(Machines(program, 10, 4))(as_plant(site)) as archive:
        for (query, wanted), text in zip(asked, archive.replies([query for query, _ in asked])):
            assert (text.split()[-1] if query.startswith("at,") else text) == wanted, (query, text, wanted)
        for tag, curve in curves.items():
            every = [point for piece in curve.pieces for point in piece.points if piece.first <= point[0] <= piece.last]
            first, last = sorted(draw.randrange(BEGIN, BEGIN + count * DAY) for _ in range(2))
            assert archive.points(tag, 0, END) == every
            assert archive.points(tag, first, last) == [point for point in every if first <= point[0] <= last]
            assert archive.held(tag)[0] == curve.pieces[-1].last
    return "%d answers over %d boundaries" % (len(asked), over)


PERIOD = 900_000  # of the group of trial.py
CALENDAR = 'zone = "UTC0"\nstarts = ["06:00", "14:00", "22:00"]\ntags = ["FIC1.PV", "XV7.ZSO", "LIC4.PV"]\nmeasure = "%s"\n'


def site_with_a_group(folder, program):
    """A fed site of which both western parts have a group, each from its own beginning on."""
    trial = SiteTrial(os.path.join(folder, "site"), program)
    for part in PARTS:
        trial.write(part + "/feed.toml", 'zone = "UTC"\n' + trial.read(part + "/feed.toml"))
    for part, start in (("west-1", START), ("west-2", TURN_OF_TIME)):
        trial.write(part + "/base.toml", part_base(PARTS[part]) + GROUP.replace("start = %d" % START, "start = %d" % start))
    for block in range(3):
        trial.deliver(block)
    trial.fed()
    return trial


def replies_of(trial, part, queries):
    """What the program replies to questions in a part."""
    trial.write(part + "/by-hand.csv", "".join(query + "\n" for query in queries))
    trial.write(part + "/by-hand.toml", '[[reader]]\nfile = "by-hand.csv"\n')
    return [line.split(" ", 3)[3] for line in said_by_hand(trial, part, "trend", "base.toml", "by-hand.toml")]


def said_by_hand(trial, part, *words):
    child = subprocess.run([*shlex.split(trial.program), *words], cwd=trial.path(part), capture_output=True, text=True)
    assert child.returncode == 0, child.stdout
    return child.stdout.splitlines()


def curve_over(trial, tag):
    """The curve of a tag from the points that the program has in its parts."""
    parts = [part for part, tags in PARTS.items() if tag in tags]
    spans = [(0, TURN_OF_TIME - 1), (TURN_OF_TIME, END)] if len(parts) == 2 else [(0, END)]
    texts = [replies_of(trial, part, ["points,%s,0,%d" % (tag, END)])[0] for part in parts]
    assert all(text.endswith("end") for text in texts), tag
    return Curve([([tuple(map(int, word.split(","))) for word in text.split()[:-1]], *span) for text, span in zip(texts, spans)], tag in STEPS)


def asked(trial, *words):
    """The lines that `site.py ask` prints, without the header."""
    status, text = trial.site("ask", *words)
    assert status == 0, (words, status, text)
    return list(csv.reader(text.splitlines()))[1:]


def calculations_over_parts(folder, program, settings):
    """A row of a calculation is that of the part whose group has its window, counted from the oldest part's first one. The frames are those
    of the parts, one after the other, and none is open in a part that has ended. A number has the unit of its tag."""
    trial, before = site_with_a_group(folder, program), (TURN_OF_TIME - START) // PERIOD
    count = 18 * 3_600_000 // PERIOD
    wanted = replies_of(trial, "west-1", ["row,unit,flow,%d" % number for number in range(before)])
    wanted += replies_of(trial, "west-2", ["row,unit,flow,%d" % number for number in range(count - before)])
    lines = asked(trial, *["row,unit,flow,%d" % number for number in range(count)])
    assert len({text for text in wanted if text.isdigit()}) > 20, wanted
    for number, (text, line) in enumerate(zip(wanted, lines, strict=True)):
        assert fields.milliseconds(line[2], None) == START + number * PERIOD, (number, line)
        assert line[4] == (fields.decimal_text(int(text), 100) if text.lstrip("-").isdigit() else ""), (number, text, line)
    frames = [[words[0], int(words[1]), int(words[2]), part == "west-2" and len(words) > 3] for part in ("west-1", "west-2")
              for words in map(str.split, said_by_hand(trial, part, "frames", "base.toml", "unit", "hot", "2"))]
    got = asked(trial, "--frames", "unit", "hot", "2")
    assert [[line[0], *(fields.milliseconds(text, None) for text in line[2:4])] for line in got] == [frame[:3] for frame in frames], (got, frames)
    assert {frame[1] < TURN_OF_TIME for frame in frames if frame[0] == "frame"} == {True, False}, frames
    assert ["open" in " ".join(line) for line in got] == [is_open for *_, is_open in frames], (got, frames)


def shifts_over_parts(folder, program, settings):
    """The figure of a shift that goes over the boundary of two parts is that of the points of both, in exact fractions; one that is not over
    yet has its figure until the newest value, or none."""
    trial = site_with_a_group(folder, program)
    curves, scales = {tag: curve_over(trial, tag) for tag in ("FIC1.PV", "XV7.ZSO", "LIC4.PV")}, LINES | STEPS
    for measure in ("avg", "low", "high", "first"):
        trial.write("calendar.toml", CALENDAR % measure)
        lines = asked(trial, "--shifts", "calendar.toml", "2024-03-28", "2")
        assert len(lines) == 2 * 3 * len(curves), lines
        over = 0
        for _, tag, start, end, value, *_, note in lines:
            first, last = (fields.milliseconds(text, None) for text in (start, end))
            is_cut = "until" in note
            wanted = curves[tag].measure(measure, first, curves[tag].pieces[-1].last if is_cut else last)
            assert value == ("" if wanted == "none" else fields.decimal_text(int(wanted), scales[tag])), (measure, tag, start, end, value, wanted, note)
            over += first < TURN_OF_TIME < last and value != ""
        assert over == len(curves), (measure, lines)


CASES = [answers_over_boundaries, calculations_over_parts, shifts_over_parts]
