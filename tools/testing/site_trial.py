"""site_trial.py: a generated site of three plants for the tests of site.py.

Its tags are those of trial.py. `west-1` and `west-2` have three of them, one until a time and the other from then on; `east` has the others.
What each part has to answer is found without the tools: the program takes the part's rows from one collector's file."""
import os
import re
import shlex
import shutil
import subprocess
import sys

from trial import HOUR, LINES, START, STEPS, TAG, TOOLS, Folder, Trial, block_files

WEST = ("FIC1.PV", "TIC3.PV", "XV7.ZSO")
EAST = tuple(name for name in (*LINES, *STEPS) if name not in WEST)
TURN_OF_TIME = START + 9 * HOUR  # from then on west-2 has the tags of the west
PARTS = {"west-1": WEST, "west-2": WEST, "east": EAST}
SITE = """settle_seconds = 0
[[part]]
folder = "west-1"
[[part]]
folder = "west-2"
from = 2024-03-29T09:00:00Z
[[part]]
folder = "east"
"""


def part_base(names):
    """The base of a part."""
    return "".join(TAG % (name, 10, 30, "step = true\n" if name in STEPS else "") for name in names)


def part_of(t, name):
    """The part to which a row belongs."""
    return "east" if name in EAST else "west-2" if t >= TURN_OF_TIME else "west-1"


class SiteTrial(Folder):
    """The folder of a test's site, and the program."""

    def __init__(self, folder, program):
        self.folder, self.program, self.rows = folder, program, []
        os.makedirs(self.path("inbox"))
        self.write("site.toml", SITE)
        for part, names in PARTS.items():
            os.makedirs(self.path(part, "inbox"))
            self.write(part + "/base.toml", part_base(names))
            scales = "".join('[tag."%s"]\nscale = %d\n' % (name, (LINES | STEPS)[name]) for name in names)
            self.write(part + "/feed.toml", "settle_seconds = 0\n" + scales)

    def deliver(self, block, **sizes):
        """Puts the files of a block into the inbox, and notes its rows."""
        files, rows = block_files(block, **sizes)
        for name, text in files.items():
            self.write("inbox/" + name, text)
        self.rows += rows

    def words(self, *given):
        """The command that runs site.py."""
        return [sys.executable, os.path.join(TOOLS, "site.py"), *given, "--program", self.program, "--site", self.folder]

    def site(self, *given, under=(), how=None):
        """Runs site.py to its end, under another program if asked to: exit status, and what it printed."""
        child = subprocess.run([*under, *self.words(*given)], capture_output=True, text=True)
        return child.returncode, child.stdout + child.stderr

    def fed(self, *given):
        """Feeds the site, which has to end well: what it printed."""
        status, text = self.site("feed", *given)
        assert status == 0, "site.py feed %s ends with %d: %s" % (given, status, text)
        return text

    def archive(self, part):
        """What the program says of a part: the lines of `check`, and all points of each tag."""
        return archive_of(self.path(part), self.program, PARTS[part])

    def archives(self):
        return "".join("%s:\n%s" % (part, self.archive(part)) for part in PARTS)


def archive_of(folder, program, names):
    """The lines of `check` and the points of each tag, hour by hour, of a plant with these tags."""
    asks = ["points,%s,%d,%d" % (name, START + h * HOUR, START + (h + 1) * HOUR - 1) for name in names for h in range(-12, 84)]
    for name, lines in (("ask.csv", asks), ("ask.toml", ['[[reader]]\nfile = "ask.csv"'])):
        with open(os.path.join(folder, name), "w") as out:
            out.write("\n".join(lines) + "\n")
    text = ""
    for words in (["check", "base.toml"], ["trend", "base.toml", "ask.toml"]):
        child = subprocess.run([*shlex.split(program), *words], cwd=folder, capture_output=True, text=True)
        assert child.returncode == 0, child.stdout
        text += child.stdout
    return text


KNOWN = {}  # the archives of some rows, found already


def wanted(folder, program, rows):
    """The archives of all parts for these rows: each part's rows are given to the program alone."""
    if tuple(rows) not in KNOWN:
        KNOWN[tuple(rows)] = "".join("%s:\n%s" % (part, wanted_of(os.path.join(folder, "hand-" + part), program, part, rows)) for part in PARTS)
    return KNOWN[tuple(rows)]


def wanted_of(folder, program, part, rows):
    plant = Trial(folder, program)
    plant.write("base.toml", part_base(PARTS[part]))
    plant.store_by_hand([row for row in rows if part_of(row[0], row[1]) == part])
    text = archive_of(folder, program, PARTS[part])
    shutil.rmtree(folder)
    return text


def taken(text):
    """How many rows the archives have taken together."""
    return sum(int(count) for count in re.findall(r" taken=(\d+) ", text))


def check_site(trial, folder, what):
    """Fails unless each part has the archive of its rows, each row is in one part, and nothing is left over."""
    got, rows = trial.archives(), trial.rows
    expected = wanted(folder, trial.program, rows)
    differs = [pair for pair in zip(got.splitlines(), expected.splitlines()) if pair[0] != pair[1]]
    assert got == expected, "%s: %r in place of %r" % (what, *(differs or [(got[-200:], expected[-200:])])[0])
    assert taken(got) == len(rows), (what, taken(got), len(rows))
    check_clean(trial, what)


def check_clean(trial, what):
    """Fails unless no inbox has a file, and no turn is unfinished."""
    for folder in ("", *PARTS):
        assert os.listdir(trial.path(folder, "inbox")) == [], (what, folder, os.listdir(trial.path(folder, "inbox")))
    for part in PARTS:
        assert not os.path.exists(trial.path(part, "feed.d", "turn.json")), (what, part)
    assert os.listdir(trial.path("feed.d", "turns")) == [], what
