"""watched.py: tests of a plant that nobody watches: the command that is called when something is wrong, what long work shows on a terminal,
the quality of a tag through whole feeds, and long questions while the feeder feeds."""
import contextlib
import json
import os
import pty
import re
import subprocess
import sys
import time
import unittest.mock
import xml.etree.ElementTree

import feed
import picture
import telling
from asked import asked
from drawn import SVG
from plant import Plant
from stops import wait_for
from trial import HOUR, MINUTE, REFUSED, START, TAG, TOOLS, Trial, base_text, feed_text, printed, two_blocks

ALARM = """printf '%s\\n' "$#" "$@" >> alarms
flock --nonblock historian.d/feed.lock true || echo locked >> alarms
"""
UTF_16 = "\ufeffLIC4.PV,1000,5\n".encode("utf-16")


def alarmed(folder, program, command):
    """A plant with this command as on_trouble, and with a script alarm.sh, which notes the words that it gets and whether the plant is
    locked."""
    trial = Trial(folder, program)
    trial.write("feed.toml", "on_trouble = %s\n" % json.dumps(command) + feed_text())
    trial.write("alarm.sh", ALARM)
    return trial


def alarms(trial):
    """The words that alarm.sh got since the last look, call by call."""
    if not os.path.exists(trial.path("alarms")):
        return []
    lines = trial.read("alarms").splitlines()
    os.remove(trial.path("alarms"))
    found = []
    while lines:
        count = int(lines.pop(0))
        found.append(lines[:count])
        del lines[:count]
    return found


def let_pass(trial, seconds):
    """Makes what the feeder noted of its calls older."""
    known = json.loads(trial.read("feed.d/troubles"))
    trial.write("feed.d/troubles", json.dumps({line: at - seconds for line, at in known.items()}))


def trouble_calls_a_command(folder, program, settings):
    """on_trouble is called once for a turn with trouble, with its own words and the line; not for a good one. A trouble that lasts is told
    again an hour later. So are a device that changed, and a copy that could not be made. The plant is not locked meanwhile."""
    trial = alarmed(os.path.join(folder, "a"), program, "sh alarm.sh 'to the shift'")
    trial.write("inbox/1.csv", "LIC4.PV,1000,5\nLIC4.PV,2000,60\n")
    assert "turn 1: 1 files" in trial.fed() and alarms(trial) == []
    for turn in (2, 3):
        trial.write("inbox/%d.csv" % turn, "LIC4.PV,soon,%d\nLIC4.PV,%d000,5\nNOBODY,1,1\n" % (turn, turn + 1))
        assert "turn %d: 1 files, 1 values of 1 tags stored, 2 refused" % turn in trial.fed(ends=REFUSED)
        told = ("turn %d: 1 files, 1 values of 1 tags stored, 2 refused; %d.csv row 1: LIC4.PV: no ISO time and no whole milliseconds: 'soon'"
                % (turn, turn))
        assert alarms(trial) == [["to the shift", told]]
    with open(trial.path("inbox/u.csv"), "wb") as out:
        out.write(UTF_16)
    stays = ["to the shift", "inbox/u.csv stays in the inbox: it is UTF-16: save it as UTF-8"]
    for wanted in ([stays], [], []):
        trial.fed(ends=REFUSED)
        assert alarms(trial) == wanted
    let_pass(trial, 3_601)
    trial.fed(ends=REFUSED)
    assert alarms(trial) == [stays]
    trial.write("feed.toml", 'backups = "nowhere"\n' + trial.read("feed.toml"))
    assert trial.feed("--backup")[0] == 22
    assert [words[1].startswith("there is no folder %s, and no copy was made" % trial.path("nowhere")) for words in alarms(trial)] == [True]
    with open(trial.path("historian.d/LIC4.PV.tag"), "ab") as out:
        out.write(b"Q")
    assert trial.feed()[0] == 21
    told = alarms(trial)
    assert len(told) == 1 and told[0][1].startswith("nothing was done: historian.d/LIC4.PV.tag is not as the last turn left it"), told


def many_troubles(folder, program, settings):
    """Of many troubles in a turn on_trouble gets the first ones, and then how many more there are. They count as told too."""
    trial = alarmed(os.path.join(folder, "a"), program, "sh alarm.sh")
    for number in range(30):
        with open(trial.path("inbox/u%02d.csv" % number), "wb") as out:
            out.write(UTF_16)
    trial.fed(ends=REFUSED)
    told = [line for line, in alarms(trial)]
    assert len(told) == 10 and told[8].startswith("inbox/u08.csv stays in the inbox: it is UTF-16"), told
    assert told[9].startswith("21 more troubles, which the log has; the first: inbox/u09.csv stays in the inbox: it is UTF-16"), told
    trial.fed(ends=REFUSED)
    assert alarms(trial) == []


def trouble_of_a_full_disk(folder, program, settings):
    """on_trouble is called too if the feeder can write no file, as on a full disk, and cannot even note that it was called."""
    trial = alarmed(os.path.join(folder, "a"), program, "mkdir")
    trial.write("inbox/1.csv", "".join("LIC4.PV,%d,5\n" % (1000 * n) for n in range(1000)))
    limit = "import os, resource, sys; resource.setrlimit(resource.RLIMIT_FSIZE, (10, -1)); os.execv(sys.argv[1], sys.argv[1:])"
    status, text = trial.feed(under=[sys.executable, "-c", limit])
    assert status == 22 and "File too large" in text and "on_trouble" not in text, (status, text)
    assert [name for name in os.listdir(trial.folder) if "File too large" in name], os.listdir(trial.folder)


def command_fails(folder, program, settings):
    """If on_trouble fails or is not there, the feeder says so, has stored the rows, and calls it again a minute later, if the trouble lasts.
    A command that no shell would understand is refused before."""
    for command, why in (("sh -c 'exit 3'", "the command ended with status 3"), ("sh -c 'kill -9 $$'", "the command ended with status 137"),
                         ("./alarm", "No such file or directory"), ("./alarm.sh", "Permission denied")):
        trial = alarmed(os.path.join(folder, str(len(os.listdir(folder)))), program, command)
        trial.write("inbox/1.csv", "LIC4.PV,1000,5\nLIC4.PV,soon,60\n")
        with open(trial.path("inbox/u.csv"), "wb") as out:
            out.write(UTF_16)
        for wanted in (2, 0, 1):
            text = trial.fed(ends=REFUSED)
            assert text.count("on_trouble of feed.toml failed: ") == wanted and (why in text) == (wanted > 0), text
            assert ("1 values of 1 tags stored, 1 refused" in text) == (wanted == 2), text
            if wanted == 0:
                let_pass(trial, 61)
        trial.write("feed.toml", trial.read("feed.toml").replace(json.dumps(command), '"sh alarm.sh"'))
        let_pass(trial, 61)
        trial.fed(ends=REFUSED)
        assert [words[0].startswith("inbox/u.csv stays") for words in alarms(trial)] == [True]
    trial.write("feed.toml", 'on_trouble = "mail -s \'trouble"\n')
    assert "on_trouble: No closing quotation in mail -s 'trouble" in trial.fed(ends=22)


def command_hangs(folder, program, settings):
    """A command that does not end is ended, with all that it started. The feeder goes on, and calls it no second time within a minute. The
    test lowers the minute that it may take."""
    trial = alarmed(os.path.join(folder, "a"), program, "sh hang.sh")
    trial.write("hang.sh", "echo $$ >> pids\nsleep 900 &\necho $! >> pids\nwait\n")
    for name in ("u.csv", "v.csv"):
        with open(trial.path("inbox", name), "wb") as out:
            out.write(UTF_16)
    trial.write("inbox/1.csv", "LIC4.PV,1000,5\n")
    with printed() as said, unittest.mock.patch.object(telling, "PATIENCE", 4):
        assert feed.feed(Plant(trial.folder, program), None, 5) == REFUSED
    text, pids = said.getvalue(), trial.read("pids").split()
    assert text.count("on_trouble of feed.toml failed: the command did not end within 4 seconds, and was ended") == 1, text
    assert "1 values of 1 tags stored, 0 refused" in text and len(pids) == 2, (text, pids)
    wait_for(lambda: not any(is_running(process) for process in pids))


def is_running(process):
    """Whether a process is there, and has not ended."""
    try:
        with open("/proc/%s/stat" % process) as text:
            return text.read().rsplit(")", 1)[1].split()[0] != "Z"
    except OSError:
        return False


# On a terminal

def on_terminal(words, folder, out=None):
    """Runs a command whose standard error is a terminal, and its output too if no file is given: exit status, and what the terminal got."""
    mine, theirs = pty.openpty()
    child = subprocess.Popen(words, cwd=folder, stdin=subprocess.DEVNULL, stdout=out or theirs, stderr=theirs)
    os.close(theirs)
    data = b""
    with contextlib.suppress(OSError):  # the terminal ends with its last writer
        while piece := os.read(mine, 65_536):
            data += piece
    os.close(mine)
    return child.wait(), data.decode().replace("\r\n", "\n")


def lines_left(text):
    """What stays on a terminal: what was not cleared."""
    return "\n".join(line.rpartition("\r\x1b[K")[2] for line in text.split("\n"))


def progress_on_a_terminal(folder, program, settings):
    """While a feed reads and stores, a line on the terminal says how far it is; the line of the turn takes its place. So does a copy and a
    restore. In a log there is nothing of it."""
    trial = Trial(os.path.join(folder, "a"), program)
    for name in ("1.csv", "2.csv"):
        trial.write("inbox/" + name, "".join("LIC4.PV,%s%d,%d\n" % (name[0], 1_000_000_000 + n, n % 3) for n in range(120_000)))
    status, text = on_terminal(trial.words(), trial.folder)
    assert status == 0 and lines_left(text) == "turn 1: 2 files, 240000 values of 1 tags stored, 0 refused\n", text
    assert re.search(r"\r\x1b\[K1\.csv: \d+ % read", text) and "\r\x1b[Kturn 1: storing 240000 values" in text, text
    status, text = on_terminal(trial.words("--backup"), trial.folder)
    assert status == 0 and re.search(r"\r\x1b\[K1 of \d+ files are copied", text) and re.fullmatch(r"backup/\S+\n", lines_left(text)), text
    status, text = on_terminal(trial.words("--restore", "nothing"), trial.folder)
    assert status == 0 and "\r\x1b[Kturn 1 of 1 is made again" in text and lines_left(text).startswith("the plant is put back from"), text
    assert lines_left(text).count("\n") == 1
    trial.write("inbox/3.csv", "LIC4.PV,soon,1\n")
    child = subprocess.run(trial.words(), capture_output=True, text=True)
    assert child.returncode == REFUSED and "\r" not in child.stdout + child.stderr and "storing" not in child.stdout + child.stderr


SLOW = """#!/bin/sh
if [ "$1" = trend ]; then
    echo >> "{calls}"
    sleep 0.4
    while [ "$(wc -l < "{calls}")" = 2 ] && ! [ -e "{go}" ]; do sleep 0.02; done
fi
exec {program} "$@"
"""


def steps_outlast_the_lock(folder, program, settings):
    """A question for many steps asks the program several times, while the feeder feeds. It answers as the plant was when it was asked, and
    shows on the terminal how far it is."""
    trial, _ = two_blocks(folder, program)
    words = ["--csv", "FIC1.PV", str(START), str(START + 5 * HOUR), "--every", "1s"]
    before = trial.tool("ask.py", *words)
    trial.write("slow.sh", SLOW.format(calls=trial.path("calls"), go=trial.path("go"), program=program))
    os.chmod(trial.path("slow.sh"), 0o755)
    command = [sys.executable, os.path.join(TOOLS, "ask.py"), "--program", trial.path("slow.sh"), *words]
    mine, theirs = pty.openpty()
    with open(trial.path("answer.csv"), "w") as out:
        first = subprocess.Popen(command, cwd=trial.folder, stdout=out, stderr=theirs)
    os.close(theirs)
    wait_for(lambda: os.path.exists(trial.path("calls")) and trial.read("calls").count("\n") == 2)
    assert "turn 2" in trial.fed()
    trial.write("go", "")
    assert first.wait() == 0 and (0, trial.read("answer.csv")) == before
    assert before[1].count("\n") == 5 * 3600 + 2 and trial.read("calls").count("\n") == 5
    assert trial.tool("ask.py", *words) != before
    text = os.read(mine, 65_536).decode()
    os.close(mine)
    assert re.search(r"\r\x1b\[K?export: \d+ %|\rexport: \d+ %\x1b\[K", text) and text.endswith("\r\x1b[K"), text


# The quality of a tag

BAD = [*range(10, 15), 30]  # minutes with a bad value
SILENT = range(41, 55)      # minutes without a value


def quality_rows(first, last):
    """Rows of minutes, with their quality."""
    return "".join("TIC3.PV,%d,20.%03d,%s\n" % (START + n * MINUTE, n % 7 * 100, ("Bad" if n < 20 else "uncertain") if n in BAD else "Good")
                   for n in range(first, last) if n not in SILENT)


def was_good(half):
    """What the quality tag says at a half minute: the tag may be silent for ten minutes, and its last value is of minute 80."""
    minute = half / 2
    return not (10 <= minute < 15 or 30 <= minute < 31 or 50 <= minute < 55 or minute >= 90)


def quality_plant(folder, program):
    """A plant in which TIC3.PV has a quality tag."""
    trial = Trial(folder, program)
    trial.write("base.toml", base_text() + TAG % ("TIC3.OK", 0, 0, "step = true\n"))
    trial.write("feed.toml", feed_text().replace('[tag."TIC3.PV"]\n', '[tag."TIC3.PV"]\nquality_tag = "TIC3.OK"\nsilent_ms = 600_000\n'))
    return trial


def check_quality(trial):
    """Fails unless the quality tag is 1 and 0 where it has to be, and the tag itself has the good values alone."""
    halves = range(0, 200)
    found = [line[4] for line in asked(trial, *["at,TIC3.OK,%d" % (START + half * MINUTE // 2) for half in halves])]
    assert found == ["1" if was_good(half) else "0" for half in halves], [(half / 2, v) for half, v in zip(halves, found)
                                                                         if v != ("1" if was_good(half) else "0")]
    good = 81 - len(BAD) - len(SILENT)
    assert asked(trial, "snap,TIC3.PV")[0][6] == "taken=%d" % good, asked(trial, "snap,TIC3.PV")


def quality_through_feeds(folder, program, settings):
    """The quality tag is the same whether the rows come at once, in turns, in a growing file, or in a turn that is stopped; also once the plant
    is put back. A late row changes nothing, and nobody else may feed the tag. draw.py hatches what was bad or silent."""
    header = "tag,time,value,quality\n"
    for how in ("once", "turns", "grows", "half"):
        trial = quality_plant(os.path.join(folder, how), program)
        cuts = [0, 81] if how in ("once", "half") else [0, 13, 45, 81]
        if how == "grows":
            trial.write("feed.toml", trial.read("feed.toml") + '[[source]]\npattern = "log*.csv"\ngrows = true\n')
        texts = []
        for place, (first, last) in enumerate(zip(cuts, cuts[1:])):
            if how == "grows":
                with open(trial.path("inbox/log1.csv"), "a") as out:
                    out.write(header * (place == 0) + quality_rows(first, last))
            else:
                trial.write("inbox/%d.csv" % place, header + quality_rows(first, last))
            assert how != "half" or trial.feed(how="half")[0] == 137
            texts.append(trial.fed())
        assert sum(int(count) for count in re.findall(r"stored, 0 refused(?:, \d+ late)?, (\d+) bad\n", "".join(texts))) == len(BAD), texts
        check_quality(trial)
    before = trial.answers()
    trial.fed("--restore", "nothing")
    assert trial.answers() == before
    trial.write("inbox/l.csv", header + "TIC3.PV,%d,20.1,Good\nTIC3.OK,%d,1,Good\n" % (START + 12 * MINUTE + 5, START + 92 * MINUTE))
    text = trial.fed(ends=REFUSED)
    assert "1 values of 1 tags stored, 1 refused, 1 late" in text and "the feeder keeps TIC3.OK itself, as the quality_tag of TIC3.PV" in text, text
    span = [str(START), str(START + 100 * MINUTE)]
    assert asked(trial, "at,TIC3.OK,%d" % (START + 12 * MINUTE + 5))[0][4] == "0"
    assert trial.tool("draw.py", "TIC3.PV", *span, "x.svg")[0] == 0
    svg, times = xml.etree.ElementTree.fromstring(trial.read("x.svg")), picture.Times(0, 100)
    hatched = sorted((float(node.get("x")), float(node.get("width"))) for node in svg.iter(SVG + "rect") if node.get("fill") == "url(#h)"
                     and float(node.get("height")) > 50)
    wanted = [(times.x(start), times.x(end) - times.x(start)) for start, end in ((10, 15), (30, 31), (50, 55), (90, 100))]
    assert len(hatched) == 4 and all(abs(a - b) < 0.2 for got, want in zip(hatched, wanted) for a, b in zip(got, want)), (hatched, wanted)
    assert "bad or silent" in [node.text for node in svg.iter(SVG + "text")]


def quality_from_now_on(folder, program, settings):
    """A tag that has values already gets a quality tag. Of the time before nothing is said, whatever rows come late; from the next value on
    it is good."""
    trial = quality_plant(os.path.join(folder, "a"), program)
    text = trial.read("feed.toml")
    trial.write("feed.toml", feed_text())
    trial.write("inbox/1.csv", "tag,time,value,quality\n" + quality_rows(0, 20))
    assert "15 values of 1 tags stored, 5 refused" in trial.fed(ends=REFUSED)
    trial.write("feed.toml", text)
    os.rename(trial.path("refused/000001/1.csv"), trial.path("inbox/2.csv"))
    assert "0 values of 0 tags stored, 0 refused, 5 bad" in trial.fed()
    trial.write("inbox/3.csv", "tag,time,value,quality\n" + quality_rows(20, 40))
    trial.fed()
    points = [(int(line[2][14:16]), line[4]) for line in asked(trial, "points,TIC3.OK,0,now")]
    assert points == [(20, "1"), (30, "0"), (31, "1"), (49, "0")], points


def silence_without_files(folder, program, settings):
    """A tag that falls silent is said to be so by a feed that finds nothing in the inbox, once; and no longer once values come."""
    trial = quality_plant(os.path.join(folder, "a"), program)
    trial.write("feed.toml", trial.read("feed.toml").replace("600_000", "3_000"))
    last = int(1000 * time.time())
    trial.write("inbox/1.csv", "TIC3.PV,%d,20\n" % last)
    trial.fed()
    wait_for(lambda: time.time() * 1000 > last + 3_100)
    texts = [trial.fed() for _ in range(2)]
    assert "".join(texts) in ("", "turn 2: 0 files, 1 values of 1 tags stored, 0 refused\n"), texts  # "" if the first feed was slow
    assert [line[4] for line in asked(trial, "points,TIC3.OK,0,now+1d")] == ["1", "0"]
    trial.write("inbox/2.csv", "TIC3.PV,%d,20\n" % int(1000 * time.time()))
    trial.fed()
    assert [line[4] for line in asked(trial, "points,TIC3.OK,0,now+1d")][:3] == ["1", "0", "1"], asked(trial, "points,TIC3.OK,0,now+1d")


# Settings that were forgotten

def settings_are_corrected(folder, program, settings):
    """Settings that were forgotten are set one after the other, and each time the refused file goes back to the inbox as it is. At last all
    is stored as if they had been right from the first; a value of bad quality never is."""
    lines = ["Stelle;Zeit;Wert;Status\n"] + ["LIC4.PV;29.03.2024 10:%02d:00;%d,0;%s\n" % (n, 5 * n, "Bad" if n == 7 else "Good") for n in range(30)]
    source = '[[source]]\npattern = "lab*.csv"\ncolumns = {tag = "Stelle", time = "Zeit", value = "Wert", quality = "Status"}\n'
    trial = Trial(os.path.join(folder, "a"), program)
    trial.write("inbox/lab.csv", "".join(lines))
    for turn, (key, why) in enumerate((("", "; with the `separator` ',' it has 'Stelle;Zeit;Wert;Status'"),
                                       ('separator = ";"\n', "no ISO time and no whole milliseconds (`time` of a source in feed.toml"),
                                       ('time = "%d.%m.%Y %H:%M:%S"\n', "a time without an offset: set `zone` in feed.toml"),
                                       ('zone = "Etc/GMT-1"\n', "no number: '0,0'"), ('decimal = ","\n', "its quality is not good: 'Bad'")), 1):
        source += key
        trial.write("feed.toml", feed_text() + source)
        text = trial.fed(ends=REFUSED)
        assert why in text and ("29 values of 1 tags stored, 1 refused" in text) == (turn == 5), text
        assert ("its quality is not good: 'Bad'" in text) == (turn > 3), text
        os.rename(trial.path("refused/%06d/lab.csv" % turn), trial.path("inbox/lab.csv"))
    text = trial.fed(ends=REFUSED)
    assert "0 values of 0 tags stored, 1 refused" in text and "lab.csv row 2: LIC4.PV: its quality is not good: 'Bad'" in text, text
    assert trial.read("refused/000006/lab.csv") == ("tag;time;value;quality;row;reason\n"
                                                    "LIC4.PV;29.03.2024 10:07:00;35,0;Bad;2;its quality is not good: 'Bad'\n")
    assert "taken=29 " in trial.by_hand("check", "base.toml").split("LIC4.PV ")[1]
    trial.write("inbox/lab.csv", trial.read("refused/000006/lab.csv").replace("35,0;Bad", "35,0;Good"))
    assert "1 values of 1 tags stored, 0 refused, 1 late" in trial.fed()


CASES = [settings_are_corrected, trouble_calls_a_command, many_troubles, trouble_of_a_full_disk, command_fails, command_hangs,
         progress_on_a_terminal, steps_outlast_the_lock, quality_through_feeds, quality_from_now_on, silence_without_files]
