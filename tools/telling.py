"""telling.py: what feed.py prints of a turn, and whom it calls when something is wrong."""
import contextlib
import json
import os
import signal
import subprocess
import time

from files import shown, write_whole
from turns import refused_name

SHOWN = 5  # causes of a file that are printed
AGAIN = 3_600  # seconds after which on_trouble is called again for a trouble that lasts
PATIENCE = 60  # seconds that its command may take
CALLS = 10  # of it in a turn: whoever may write to the inbox can put any number of files there
LATE_ROWS = "late-rows.csv"  # the file of the rows that came late beyond late_rows


def tell(plant, turn, state, without_room):
    """One line for the turn, and lines for each file of which something is not stored: a line for a cause."""
    name, count = without_room
    refused = count + sum(file["refused"] + file["late"] for file in turn.files)
    if not turn.files and not turn.values.count:
        return
    line = "turn %d: %d files, %d values of %d tags stored, %d refused%s" % (
        turn.number, len(turn.files), turn.values.count - count, len(turn.tags), refused, besides(turn, state))
    plant.say(line)
    told = [text for file in turn.files for text in lines_of(turn, file)]
    if count:
        told += ["  %d values find no room: no tag takes more records than docs/RUNNING.md says" % count,
                 "  all %d are in %s; begin a new folder for them" % (count, os.path.join(turn.folder("refused"), name))]
    for text in told:
        plant.say(text)
    if refused:
        plant.troubles.append("%s; %s" % (line, told[0].strip()))


def besides(turn, state):
    """How many of the turn's stored values came late, how many of its values were rounded, and how many were bad; nothing of a kind that is
    not there.

    The program counts the late ones of each tag. What it has counted since the turn began is exact also after a stop, because turn.json
    has the numbers from before."""
    late = sum(state[name].late - before["late"] for name, before in turn.tags.items())
    rounded = sum(file["rounded"] for file in turn.files)
    bad = turn.notes["bad"]
    return "".join(", %d %s" % (count, what) for count, what in ((late, "late"), (rounded, "rounded"), (bad, "bad")) if count)


def lines_of(turn, file):
    """The lines about a file of which something is not stored, and what to do. Of a file of a site less is known."""
    name, folder, lines = shown(file["name"], 255), turn.folder("refused"), []
    if file["twice"]:
        lines.append("  %s has the bytes of %s: none of its rows is stored again, and it goes to %s" % (
            name, shown(file["twice"], 300), folder))
    if file.get("spoilt"):
        lines += ["  all %s rows of %s: %s" % (format(file["refused"], ","), name, file["spoilt"]),
                  "  it goes to %s; correct it there, or what the reason names, and move it to the inbox" % folder]
    if file.get("nothing"):
        lines.append("  %s has %s: nothing of it is stored, and it goes to %s" % (name, file["nothing"], turn.folder(file["goes"])))
    if file["causes"]:
        lines += causes_of(file, name) + ["  %s %s; correct them there and move that file to the inbox" % (
            where_refused(turn, file), os.path.join(folder, shown(refused_name(file), 255)))]
    if file.get("late"):
        lines.append("  %s: %s rows came late, more than late_rows of feed.toml lets a tag take in a turn. Each would cost a record for ever. They"
                     " are in %s; if they are right, raise late_rows, and move that file to the inbox" % (
                         name, format(file["late"], ","), os.path.join(folder, LATE_ROWS)))
    return lines


def where_refused(turn, file):
    """How many of a file's refused rows are written down, as the begin of a line. So many may be refused that the list of them ends."""
    if file.get("written", file["refused"]) == file["refused"]:
        return "all %d are in" % file["refused"]
    return "all of them are in %s, and the first %d in" % (os.path.join(turn.folder(file["goes"]), shown(file["name"], 255)), file["written"])


def causes_of(file, name):
    """A line for each cause for which rows of a file are refused, the most frequent ones first."""
    lines, causes = [], sorted(file["causes"], key=lambda cause: -cause[1])
    for cause, count, number, tag, reason in causes[:SHOWN]:
        if count == 1:
            lines.append("  %s row %d: %s: %s" % (name, number, shown(tag, 80), reason))
        elif count == file["refused"] and not file["rows"]:
            lines.append("  all %s rows of %s: %s" % (format(count, ","), name, reason if len(reason) < 200 else cause))
        else:
            lines.append("  %s: %s rows, first row %d: %s: %s" % (name, format(count, ","), number, shown(tag, 80), reason))
    if len(causes) > SHOWN:
        lines.append("  %s: %s rows for %d other reasons" % (name, format(sum(cause[1] for cause in causes[SHOWN:]), ","),
                                                             len(causes) - SHOWN))
    return lines


def call_for_help(plant):
    """Calls the command on_trouble of feed.toml with each line about a trouble; again only an hour later, if the trouble lasts. If the command
    fails, it is called again a minute later. Of many lines it gets the first ones, and how many more there are."""
    if not plant.settings.on_trouble:
        return
    path, hangs = plant.path("feed.d", "troubles"), False
    try:
        with open(path) as text:
            known = {line: at for line, at in json.load(text).items() if abs(time.time() - at) < AGAIN}
    except (OSError, ValueError, AttributeError, TypeError):
        known = {}
    new = [line for line in dict.fromkeys(plant.troubles) if line not in known]
    first, rest = (new, []) if len(new) <= CALLS else (new[:CALLS - 1], new[CALLS - 1:])
    for lines in [[line] for line in first] + [rest] * bool(rest):
        why, more = None, "" if len(lines) == 1 else "%d more troubles, which the log has; the first: " % len(lines)
        if not hangs:  # if it did not end, the feeder does not wait for each of the other lines too
            why, hangs = called_with(plant, more + lines[0])
        if why is not None:
            plant.say("on_trouble of feed.toml failed: %s" % why)
        known |= dict.fromkeys(lines, time.time() - (AGAIN - PATIENCE if hangs or why is not None else 0))
    if new and os.path.isfile(plant.path("base.toml")):
        with contextlib.suppress(OSError):  # where the disk is full; then it is called again sooner
            os.makedirs(plant.path("feed.d"), exist_ok=True)
            write_whole(path, json.dumps(known).encode())


def called_with(plant, line):
    """Calls on_trouble with a line: why that failed, or None; and whether the command did not end, so that it was ended, with all that it
    started."""
    try:
        child = subprocess.Popen(plant.settings.on_trouble + [line], cwd=plant.folder, stdin=subprocess.DEVNULL, start_new_session=True)
    except (OSError, ValueError) as why:
        return shown(str(why), 200), False
    try:
        status = child.wait(PATIENCE)
    except subprocess.TimeoutExpired:
        os.killpg(child.pid, signal.SIGKILL)
        child.wait()
        return "the command did not end within %d seconds, and was ended" % PATIENCE, True
    return "the command ended with status %d" % (status if status > 0 else 128 - status) if status else None, False
