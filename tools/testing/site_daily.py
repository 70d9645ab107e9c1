"""site_daily.py: tests of what happens to a site from day to day; test_tools.py runs them.

Files that come twice or have rows of several parts, names and files of somebody else's making, parts that fail, a next part, wrong texts."""
import csv
import fcntl
import html
import io
import json
import os
import re
import shutil
import subprocess
import sys
import tomllib
from decimal import Decimal

import clock
from browser import DYGRAPHS
from site_trial import PARTS, SITE, SiteTrial, archive_of, check_clean, check_site, part_base, taken
from stops import put_bytes
from trial import HERE, LINES, START, TOOLS

A_ROW = "FIC1.PV,1711670400000,5.00\n"
WRONG_SITES = (  # what stands in site.toml, and what is said
    ("x = 1\n", "has no setting 'x'"),
    ("inbox = 5\n" + SITE, "inbox is a folder's name"),
    ("settle_seconds = 0\n", "a site has [[part]] tables"),
    ("[[part]]\nfrom = 0\n", "a part has a folder"),
    (SITE + 'color = "red"\n', "a part has a folder"),
    (SITE + '[[part]]\nfolder = "west-1"\n', "west-1 is the folder of another part"),
    (SITE + '[[part]]\nfolder = "."\n', "is the folder of the site itself"),
    (SITE + '[[part]]\nfolder = "nowhere"\n', "the part nowhere has no base.toml"),
    (SITE + '[[part]]\nfolder = "other"\n', "east and other both have LIC4.PV at all times"),
    (SITE + '[[part]]\nfolder = "copy"\nfrom = 2024-03-29T09:00:00Z\n', "west-2 and copy both have FIC1.PV from 2024-03-29T09:00:00.000Z"),
    (SITE + '[[part]]\nfolder = "copy"\nfrom = "yesterday"\n', "`from` of copy: no ISO time"),
    (SITE + '[[part]]\nfolder = "far"\nworker = "host2"\n', "far of host2 was never seen: give --scheduler ADDRESS"),
    (SITE + "[[part]\n", "is no TOML"),
)


def wrong_sites(folder, program, settings):
    """A site.toml that is wrong is refused with the names, and so are parts that do not agree; nothing is done."""
    trial = SiteTrial(os.path.join(folder, "site"), program)
    for name, text in (("other", part_base(("LIC4.PV",))), ("copy", part_base(("FIC1.PV",)))):
        os.makedirs(trial.path(name))
        trial.write(name + "/base.toml", text)
        trial.write(name + "/feed.toml", '[tag."FIC1.PV"]\nscale = 100\n' * (name == "copy"))
    trial.write("inbox/a.csv", A_ROW)
    for text, why in WRONG_SITES:
        trial.write("site.toml", text)
        status, said = trial.site("feed")
        assert status == 22 and why in said, (text, status, said)
    trial.write("site.toml", SITE + '[[part]]\nfolder = "copy"\nfrom = 2025-01-01T00:00:00Z\n')
    for text, why in (('separator = ";"\n', "`separator` in feed.toml is ',' and ';'"), ('zone = "Europe/Berlin"\n', "`zone`"),
                      ("", "FIC1.PV is of scale 100 and a tag of lines in west-2, but of scale 1 and of lines in copy"),
                      ('[tag."FIC1.PV"]\nscale = 100\n[tag."FIC9.PV"]\nscale = 10\n', "a table for FIC9.PV, and no part has that tag")):
        trial.write("copy/feed.toml", text)
        status, said = trial.site("feed")
        assert status == 22 and why in said, (text, status, said)
    assert os.listdir(trial.path("inbox")) == ["a.csv"] and not os.path.exists(trial.path("west-1", "historian.d"))
    os.remove(trial.path("site.toml"))
    status, said = trial.site("feed")
    assert status == 22 and "there is no site.toml" in said, (status, said)


def rows_of_three_parts(folder, program, settings):
    """One file has rows of three parts, a late row of an old part, one of no tag and one that is none. It comes again with the next feed."""
    trial = SiteTrial(os.path.join(folder, "site"), program)
    new = START + 10 * 3_600_000
    rows = [(new, "FIC1.PV", 700), (START, "FIC1.PV", 500), (new, "LIC4.PV", 8), (new + 1, "TIC3.PV", 9_000), (START + 1, "FIC1.PV", 600)]
    trial.write("inbox/a.csv", "FIC1.PV,%d,7\nFIC1.PV,%d,5\nLIC4.PV,%d,8\nTIC3.PV,%d,9\n\"FIC1.PV\",\"%d\",\"6\"\nNIX.PV,%d,1\nFIC1.PV,x,1\n;\n" % (
        new, START, new, new + 1, START + 1, new))
    shutil.copy(trial.path("inbox/a.csv"), trial.path("b.csv"))
    status, said = trial.site("feed")
    assert status == 24 and "turn 1: 1 files, 5 rows for 3 parts, 3 refused" in said, (status, said)
    for text in ("a.csv row 6: NIX.PV: no part has the tag: 'NIX.PV'", "a.csv row 7: FIC1.PV: no ISO time", "a.csv row 8: ;: 1 fields, not 3"):
        assert text in said, said
    trial.rows = rows
    check_site(trial, folder, "rows of three parts")
    assert trial.read("refused/000001/a.csv").splitlines()[1] == "NIX.PV,%d,1,6,no part has the tag: 'NIX.PV'" % new
    os.rename(trial.path("b.csv"), trial.path("inbox/b.csv"))
    status, said = trial.site("feed")
    assert status == 24 and "b.csv has the bytes of a.csv, which was fed in turn 1: none of its rows is stored again" in said, (status, said)
    check_site(trial, folder, "the same file again")
    assert os.listdir(trial.path("refused/000002")) == ["b.csv"]
    late = START + 5_000
    trial.write("inbox/c.csv", "FIC1.PV,%d,4\n" % late)
    trial.fed()
    trial.rows.append((late, "FIC1.PV", 400))
    check_site(trial, folder, "a late row of an old part")


def same_rows_in_two_files(folder, program, settings):
    """Two files with the same rows of a part and others of another: all of them are stored, as one plant would store them."""
    trial = SiteTrial(os.path.join(folder, "site"), program)
    for number in (1, 2, 3):
        value = 5 if number != 2 else 6
        trial.write("inbox/%d.csv" % number, "FIC1.PV,%d,%d\nLIC4.PV,%d,%d\n" % (START, value, START + number, number))
        trial.rows += [(START, "FIC1.PV", 100 * value), (START + number, "LIC4.PV", number)]
        trial.fed()
    check_site(trial, folder, "the same rows in two files")
    assert " taken=3 " in trial.archive("west-1")


def wide_files(folder, program, settings):
    """Wide files over a boundary, with another order, blanks, quotes, an unknown column; a long file with columns in another order."""
    trial = SiteTrial(os.path.join(folder, "site"), program)
    t, new = START, START + 9 * 3_600_000
    trial.write("inbox/a.csv", "\ufefftime,LIC4.PV,FIC1.PV,NIX\r\n%d,1,2,\r\n%d, ,3,\r\n2024-03-29 09:00:00Z,4,5,9\r\n\r\n%d,\"6\",\"7\",\r\n" % (
        t, t + 1, new + 1))
    trial.write("inbox/b.csv", "value,reason,time,tag\n8,x,%d,FIC1.PV\n\"9\",\"a,b\",%d, FIC1.PV \n" % (new + 2, t + 2))
    status, said = trial.site("feed")
    assert status == 24 and "2 files, 9 rows for 3 parts, 1 refused" in said and "a.csv row 4: NIX: no part has the tag: 'NIX'" in said, (status, said)
    trial.rows = [(t, "LIC4.PV", 1), (t, "FIC1.PV", 200), (t + 1, "FIC1.PV", 300), (new, "LIC4.PV", 4), (new, "FIC1.PV", 500),
                  (new + 1, "LIC4.PV", 6), (new + 1, "FIC1.PV", 700), (new + 2, "FIC1.PV", 800), (t + 2, "FIC1.PV", 900)]
    check_site(trial, folder, "wide files")


def files_of_somebody_else(folder, program, settings):
    """Whatever stands in the inbox, the other files are fed: names with line ends, long names, links, FIFOs, folders, files that cannot be
    read, and one without a line end that is larger than the disk."""
    trial = SiteTrial(os.path.join(folder, "site"), program)
    names = ["a\r\u00b2 %064d b.csv" % 0, "b\n9 %064d x.csv" % 0, "\u2028\x1b[31m.csv", "n" * 251 + ".csv"]
    for number, name in enumerate(sorted(names)):
        trial.write("inbox/" + name, "FIC1.PV,%d,5\nNIX,1,1\n" % (START + number))
        trial.rows.append((START + number, "FIC1.PV", 500))
    os.symlink("/etc/hostname", trial.path("inbox/link.csv"))
    os.mkfifo(trial.path("inbox/fifo.csv"))
    os.mkdir(trial.path("inbox/folder.csv"))
    with open(trial.path("inbox/sparse.csv"), "wb") as out:
        out.truncate(1 << 40)
        out.seek(1 << 40)
        out.write(b"\n")
    status, said = trial.site("feed")
    assert status == 24 and said.count("no part has the tag: 'NIX'") == 4, (status, said)
    assert "sparse.csv stays in the inbox: it has 1099511627777 bytes" in said and "link.csv stays in the inbox: it is a link" in said, said
    assert "\x1b" not in said and "\r" not in said and "\u2028" not in said, said
    trial.write("inbox/z.csv", "FIC1.PV,%d,5\n" % (START + 9))
    trial.rows.append((START + 9, "FIC1.PV", 500))
    trial.site("feed")
    for name in ("link.csv", "fifo.csv", "folder.csv", "sparse.csv"):
        assert os.path.lexists(trial.path("inbox", name)), name
        (os.rmdir if name == "folder.csv" else os.remove)(trial.path("inbox", name))
    check_site(trial, folder, "files of somebody else")
    assert sorted(os.listdir(trial.path("done/000001"))) == sorted(names)


def replaced_meanwhile(folder, program, settings):
    """A file that comes under the name of one that is being routed is none of that turn's: both are fed."""
    trial = SiteTrial(os.path.join(folder, "site"), program)
    trial.write("inbox/latest.csv", "FIC1.PV,%d,5\n" % START)
    words = ["-e", "trace=rename", "-e", "inject=rename:delay_exit=300000"]
    if shutil.which("strace"):
        process = subprocess.Popen(["strace", "-qq", "-o", "/dev/null", *words, *trial.words("feed")], stdout=subprocess.DEVNULL)
        while os.path.exists(trial.path("inbox/latest.csv")):
            assert process.poll() is None
        trial.write("latest.csv", "FIC1.PV,%d,6\n" % (START + 1))
        os.rename(trial.path("latest.csv"), trial.path("inbox/latest.csv"))
        process.wait()
    trial.write("inbox/more.csv", "FIC1.PV,%d,7\n" % (START + 2))
    trial.fed()
    trial.rows = [(START + number, "FIC1.PV", 500 + 100 * number) for number in (0, 1, 2) if number != 1 or shutil.which("strace")]
    check_site(trial, folder, "a file was replaced")


def two_routers(folder, program, settings):
    """A second site.py, and anything else that takes the site's lock, ends with a clear line and does nothing."""
    trial = SiteTrial(os.path.join(folder, "site"), program)
    trial.deliver(0)
    trial.site("check")
    os.makedirs(trial.path("feed.d"), exist_ok=True)
    with open(trial.path("feed.d", "site.lock"), "a") as lock:
        fcntl.flock(lock, fcntl.LOCK_EX)
        for words in (["feed"], ["next", "east", "--from", "2025-01-01T00:00Z"], ["backup"]):
            status, said = trial.site(*words, "--wait", "0.3")
            assert status == 20 and "another process works on this site" in said, (words, status, said)
    assert len(os.listdir(trial.path("inbox"))) == 2
    both = [subprocess.Popen(trial.words("feed", "--wait", "60"), stdout=subprocess.PIPE, text=True) for _ in range(2)]
    texts = [process.communicate()[0] for process in both]
    assert [process.returncode for process in both] == [0, 0], texts
    check_site(trial, folder, "two routers")


def part_on_a_full_disk(folder, program, settings):
    """A part whose disk is full stops alone, turn after turn; once there is room it gets all of its rows, in their order."""
    trial = SiteTrial(os.path.join(folder, "site"), program)
    kept, place = os.path.join(folder, "kept"), trial.path("east")
    shutil.copytree(place, kept)
    if subprocess.run(["mount", "-t", "tmpfs", "-o", "size=900k", "tmpfs", place], stderr=subprocess.DEVNULL).returncode:
        return "no file system may be mounted here: not tried"
    try:
        shutil.copytree(kept, place, dirs_exist_ok=True)
        room = os.statvfs(place)
        trial.write("east/filler", "x" * (room.f_bavail * room.f_bsize))
        for block in (0, 1):
            trial.deliver(block, hours=6)
            status, said = trial.site("feed")
            assert status == 22 and "east stopped with 22, and the other parts went on: No space left" in said, (status, said)
            assert taken(trial.archive("west-1")) == sum(row[1] in PARTS["west-1"] and row[0] < START + 9 * 3_600_000 for row in trial.rows)
        assert "west-2: turn 1: 1 files" in said and len(os.listdir(trial.path("feed.d/turns"))) == 2, said
        assert not os.path.exists(trial.path("done"))
        os.remove(trial.path("east/filler"))
        trial.fed()
        check_site(trial, folder, "after a full disk")
    finally:
        subprocess.run(["umount", place], check=True)


def part_that_is_refused(folder, program, settings):
    """A part whose device was damaged, or whose base is wrong, stops alone and is named last; its rows wait in its inbox."""
    trial = SiteTrial(os.path.join(folder, "site"), program)
    trial.deliver(0)
    trial.fed()
    good = trial.path("east/historian.d/LIC4.PV.tag")
    with open(good, "rb") as data:
        bytes_ = data.read()
    put_bytes(good, bytes_[:100] + b"\1" + bytes_[101:])
    trial.deliver(1)
    status, said = trial.site("feed")
    assert status == 21 and "east stopped with 21, and the other parts went on: nothing was done:" in said.splitlines()[-1], said
    assert "west-2: turn 1: 1 files" in said and os.listdir(trial.path("east/inbox")) == ["site-000000002-001.csv"], said
    assert trial.site("verify")[0] == 21
    put_bytes(good, bytes_)
    trial.write("east/base.toml", "[[tag]\n")
    status, said = trial.site("feed")
    assert status == 22 and "east stopped with 22, and the other parts went on" in said and "is no TOML" in said, (status, said)
    trial.write("east/base.toml", part_base(PARTS["east"]))
    trial.fed()
    check_site(trial, folder, "after a refused device")


def next_part(folder, program, settings):
    """`next` begins a part with the base and the settings of the old one, whose groups begin at their first window from then on. It refuses
    what would hide values, while rows are on their way, and while a turn of the router is unfinished."""
    trial = SiteTrial(os.path.join(folder, "site"), program)
    group = '\n[[group]]  # a remark\nname = "g"\ntags = ["LIC4.PV"]\nstart = %d\nperiod = 900_000\n[[group.calc]]\nname = "m"\nformula = "avg(\'LIC4.PV\')"\n'
    trial.write("east/base.toml", part_base(PARTS["east"]) + group % START)
    trial.deliver(0)
    trial.fed()
    status, said = trial.site("next", "east", "--from", "2024-03-29T00:00:00Z")
    assert status == 22 and "already, and would have to give it up: nothing was made" in said, (status, said)
    trial.write("east/inbox/mine.csv", "LIC4.PV,%d,5\n" % (START + 7 * 3_600_000))
    status, said = trial.site("next", "east", "--from", "2024-03-29T06:10:00Z")
    assert status == 20 and "files that are not fed yet" in said, (status, said)
    os.remove(trial.path("east/inbox/mine.csv"))
    trial.write("east/base.toml", trial.read("east/base.toml") + "\n")
    status, said = trial.site("next", "east", "--from", "2024-03-29T06:10:00Z")
    assert status == 20 and "was edited and is not in force yet" in said, (status, said)
    trial.fed()
    assert sorted(os.listdir(trial.folder)) == ["done", "east", "feed.d", "inbox", "site.toml", "west-1", "west-2"]
    text = trial.read("site.toml")
    trial.deliver(1)
    assert trial.site("feed", under=stopped_at("rename", 3))[0] in (137, -9)
    status, said = trial.site("next", "east", "--from", "2024-03-29T06:10:00Z")
    assert status == 20 and "a turn is unfinished, and nothing was done" in said and trial.read("site.toml") == text, (status, said)
    trial.fed()
    status, said = trial.site("next", "east", "--from", "2024-03-29T12:10:00Z")
    assert status == 0 and "east-2024-03-29 is made, and has the values of 5 tags from 2024-03-29 12:10:00Z on" in said, (status, said)
    started = tomllib.loads(trial.read("east-2024-03-29/base.toml"))["group"][0]["start"]
    assert started == START + 12 * 3_600_000 + 900_000 and "# a remark" in trial.read("east-2024-03-29/base.toml")
    assert trial.read("east-2024-03-29/feed.toml") == trial.read("east/feed.toml")
    assert trial.read("site.toml").startswith(text.rstrip("\n"))
    trial.deliver(2)
    trial.fed()
    old, new = (archive_of(trial.path(part), program, PARTS["east"]) for part in ("east", "east-2024-03-29"))
    at = START + 12 * 3_600_000 + 600_000
    for archive, is_mine in ((old, lambda t: t < at), (new, lambda t: t >= at)):
        assert taken(archive) == sum(row[1] in PARTS["east"] and is_mine(row[0]) for row in trial.rows)
    check_clean(trial, "after a next part")


def stopped_at(call, number):
    """The words of strace that kill a command at its n-th call of this kind; without strace those of a command that is killed at once."""
    if not shutil.which("strace"):
        return [sys.executable, "-c", "import os; os.kill(os.getpid(), 9)"]
    return ["strace", "-qq", "-o", "/dev/null", "-e", "trace=" + call, "-e", "inject=%s:signal=KILL:when=%d" % (call, number)]


def asked_as_one(folder, program, settings):
    """`ask`, `check`, `verify` and `backup` work over all parts, also before a part was fed; a backup waits for no unfinished turn."""
    trial = SiteTrial(os.path.join(folder, "site"), program)
    status, said = trial.site("ask", "snap,FIC1.PV")
    assert status == 0 and "snap,FIC1.PV,,,,,taken=0" in said, (status, said)
    trial.deliver(0)
    trial.fed()
    status, said = trial.site("check")
    lines = {line.split(",")[0]: line.split(",") for line in said.splitlines()}
    assert status == 0 and lines["LIC4.PV"][1] == "east" and lines["FIC1.PV"][1] == "west-2", (status, said)
    wanted = sum(name == "LIC4.PV" for _, name, _ in trial.rows)
    assert lines["LIC4.PV"][2] == str(wanted) and lines["FIC1.PV"][2:4] == ["0", "0"] and lines["FIC1.PV"][6] != "", said
    status, said = trial.site("ask", "--tags")
    tags = {line["tag"]: line for line in csv.DictReader(io.StringIO(said))}
    for name in ("FIC1.PV", "LIC4.PV"):
        t, v = max((t, v) for t, tag, v in trial.rows if tag == name)
        assert status == 0 and tags[name]["newest"] == clock.short_text(t, None), (status, tags[name], t)
        assert abs(Decimal(tags[name]["value"]) * LINES[name] - v) <= 10, (tags[name], v)  # it is within ExcDev
    assert tags["LIC4.PV"]["taken"] == str(wanted) and (tags["FIC1.PV"]["taken"], tags["FIC1.PV"]["note"]) == ("0", ""), tags
    for words, text in ((["verify"], "each as the last turn left it"), (["backup"], "site.toml: backup/")):
        status, said = trial.site(*words)
        assert status == 0 and said.count("east: ") == 1 and text in said, (words, status, said)
    copy, = os.listdir(trial.path("backup"))
    assert trial.read("backup/%s/site.toml" % copy) == SITE and trial.read("backup/%s/feed.d/fed" % copy) == trial.read("feed.d/fed")
    status, said = trial.site("ask", "at,NIX,0")
    assert status == 22 and "no part has the tag NIX; there are" in said, (status, said)
    status, said = trial.site("ask", "--table", "FIC1.PV", "LIC4.PV", "2024-03-29T00:00Z", "2024-03-29T06:00Z", "--every", "1h")
    assert status == 0 and len(said.splitlines()) == 8 + 2 and said.startswith("time,FIC1.PV,LIC4.PV\n"), (status, said)


def board_without_some_parts(folder, program, settings):
    """The board of a site says of a part that was never fed, or is on another machine, why nothing is there; the tags of the others stand
    there all the same. A tag of two parts of which one has values shows these."""
    if not os.path.exists(DYGRAPHS):
        return "no dygraphs here: not tried"
    trial = SiteTrial(os.path.join(folder, "site"), program)
    trial.deliver(0, hours=2)
    trial.fed()
    for worker in ("", 'worker = "m3"\n'):
        trial.write("site.toml", SITE.replace('folder = "east"\n', 'folder = "east"\n' + worker))
        if worker:
            shutil.copytree(trial.path("east"), trial.path("feed.d/parts/east@m3"))
            shutil.rmtree(trial.path("board"))
        status, said = trial.site("board")
        assert status == (25 if worker else 0) and "8 tags of 3 parts" in said, (worker, status, said)
        table = json.loads(trial.read("board/data/plant.js").removeprefix("board.plant(").removesuffix(")\n"))
        tags, parts = ({each["name"]: each for each in table[key]} for key in ("tags", "parts"))
        assert tags["FIC1.PV"]["taken"] == sum(name == "FIC1.PV" for _, name, _ in trial.rows) and tags["FIC1.PV"]["newest"], tags["FIC1.PV"]
        assert parts["west-2"]["text"] == "was never fed" and "feed" in parts["west-1"], parts
        assert (parts["east"].get("text"), tags["LIC4.PV"].get("elsewhere")) == (("its pages are on m3", "on m3") if worker else (None, None))
        pieces = re.search('data-pieces="([^"]*)"', trial.read("board/tags/LIC4.PV.html"))[1]
        assert json.loads(html.unescape(pieces)) == ([] if worker else [{"folder": "../3/tags/", "name": "east", "from": None, "until": None}])


def hides_no_module(folder, program, settings):
    """A tool that is called by its path leaves Python's own module `site` alone, and no tool imports it."""
    script = "import sys; sys.path.insert(0, %r); import site_answers, site_turns, feed, ask; import site; print(site.getsitepackages)" % TOOLS
    child = subprocess.run([sys.executable, "-c", script], capture_output=True, text=True)
    assert child.returncode == 0 and "getsitepackages" in child.stdout, child.stderr
    for place in (TOOLS, HERE):
        for name in filter(lambda name: name.endswith(".py"), os.listdir(place)):
            with open(os.path.join(place, name)) as text:
                lines = [line.strip() for line in text]
            assert not [line for line in lines if line == "import site" or line.startswith("from site import")], name


CASES = [wrong_sites, rows_of_three_parts, same_rows_in_two_files, wide_files, files_of_somebody_else, replaced_meanwhile, two_routers,
         part_on_a_full_disk, part_that_is_refused, next_part, asked_as_one, board_without_some_parts, hides_no_module]
