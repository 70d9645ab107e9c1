#!/usr/bin/env python3
"""feed.py: feeds the CSV files of a plant's inbox to the archive, each row exactly once, whatever is stopped at whatever moment.

It works in turns. A turn takes the files of the inbox, writes their rows down in feed.d as the program takes them, grouped by tag,
lets `historian run` store them, and moves the files to done/. After a stop of this tool, of the program or of the machine the next
start finds the turn: `historian check` prints how many of its rows each tag has stored, which are the first ones, and the others are
stored then. A row that cannot be read goes to refused/ with its number and the reason; all others go on.

Exit status: 0 all is stored; 1 a fault of this tool; 2 wrong words; 3 to 16 the program's own (docs/TOUR.md); 6 also if this tool's lines
could not be written; 20 another process works on the plant, or a turn is unfinished; 21 the devices are not as the last turn left them;
22 a text or a file cannot be read or written; 24 rows were refused, or a file of the inbox is not taken, and all other rows are stored;
127 no program; above that, the program was killed. With --status: 0 good, 1 a warning, 2 critical, 3 unknown."""
import argparse
import contextlib
import os
import shlex
import shutil
import sys
import tempfile
import time

import accept
import backups
import restore
import seals
import status
import turns
from devices import retuned
from fields import decimal_text, iso_text
from growing import have_grown, read_growing
from inbox import (fed_before, fed_by, fed_lines, forget_taken, fullness, look_back, note_fed, put_file, read_files, take, taken_before,
                   whole_files)
from plant import (BUSY, CHANGED, REFUSED, UNREADABLE, Plant, Refusal, bytes_of, ended, sha256_of, shown, step_of, sync_folder,
                   write_whole)
from quality import add_quality
from rows import Intake
from settings import AGAIN, require_names
from telling import LATE_ROWS, call_for_help, tell
from tunings import note_tunings
from turns import (Turn, end, note_kept, note_scales, prepare, put_piece, put_record, put_refused, require_scales, unfinished, write_down,
                   write_plan, write_refused)
from version import version_text

RECORDS, ALL_RECORDS = 1_048_560, 8_380_000  # of a tag, of all tags: a little below the limits, so that a retuning still has room
BASE, NEW_BASE = "feed.d/base.toml", "feed.d/base.new.toml"
LONGEST = 1e9  # seconds of --every; Python cannot wait for much longer
NO_ROOM = "no-room.csv"  # the file of the rows for which there is no room, if no file of the turn has that name
DEVICE, FAULTS = 7, 5  # the program's status if a call on a device failed; how often in a row --every outlasts it


# A turn begins

def begin(plant, names, growing, edited, said):
    """A turn of these files of the inbox and of the new lines of growing files, written down, and the tag lines of `check` from just
    before. None if there is nothing to store and no edited base was taken over."""
    os.makedirs(plant.path("feed.d"), exist_ok=True)
    sync_folder(plant.path())
    require_names(plant.settings, plant.base()[0], [os.path.basename(name)[:-len(".tag")] for name in seals.devices(plant)])
    state = open_devices(plant)
    tags = plant.base(BASE)[0]
    require_scales(plant, tags)
    prepare(plant)
    now = int(time.time() * 1000)
    scales = {name: plant.scale(name, definition) for name, definition in tags.items()}
    newest = {name: tag.held[0] for name, tag in state.items() if tag.held}
    intake = Intake(plant.settings, scales, now + plant.settings.future_ms, newest)
    turn = Turn(fed_before(plant)[0] + 1, [], {}, intake.values, base_notes(plant))
    read_files(plant, turn, intake, take(plant, names, said), said)
    turn.notes["grown"] = read_growing(plant, turn, intake, growing, said)
    turn.notes["quality"] = add_quality(plant, intake, now, newest)
    turn.notes["bad"] = sum(map(len, intake.bad.values()))
    turn.values.tags = {name: arrays for name, arrays in turn.values.tags.items() if len(arrays[0])}
    if not turn.files and not turn.values.count and not turn.notes["grown"] and not edited:
        return None
    for name in (name for name in tags if name in turn.values.tags):
        turn.tags[name] = {"taken": state[name].taken, "late": state[name].late, "held": state[name].held,
                           "rows": len(turn.values.of(name)[0]), "scale": scales[name] or 1}
    if intake.over.count:
        write_refused(plant, free_name(turn, LATE_ROWS), list(readable_rows(plant, turn, intake.over, {}, "late, beyond late_rows")),
                      plant.settings.separator)
    write_down(plant, turn)
    return turn, state


def base_notes(plant):
    """What a turn notes of its base: the sha256, and whether it is another one than that of the turn before."""
    sha, told = sha256_of(plant.path(BASE)), [line["base"] for line in fed_lines(plant) if "base" in line]
    return {"base": sha, "new_base": told[-1:] != [sha]}


def open_devices(plant):
    """The tag lines of `check`, with base.toml as it is now. If it was edited, its tags are retuned or made here, and counted,
    before any row is taken. A stop in between leaves feed.d/base.new.toml, and the next start does it again."""
    if not is_base_new(plant) and seals.sealed(plant) is not None:
        return plant.tags_of(plant.call("check", BASE))
    edits = edits_of(plant) if os.path.exists(plant.path(BASE)) else None
    write_whole(plant.path(NEW_BASE), bytes_of(plant.path("base.toml")))
    try:
        state = plant.tags_of(plant.call("check", NEW_BASE))
    except Refusal as refusal:
        if refusal.status in (3, 5, 127):  # of the base itself, or no program: no device was opened
            os.remove(plant.path(NEW_BASE))
        raise
    take_over(plant, state)
    if edits is not None:
        plant.say("the edited base.toml is taken over%s" % (edits and ": " + "; ".join(edits)))
    return state


def take_over(plant, state):
    """Seals the devices as the new base left them, notes their tunings, and makes it the base of the last turn. `state` has the tag lines
    of `check` with it."""
    seals.seal(plant)
    note_tunings(plant, plant.base(NEW_BASE)[0], state)
    os.replace(plant.path(NEW_BASE), plant.path(BASE))
    sync_folder(plant.path("feed.d"))


def edits_of(plant):
    """What an edited base.toml changes, by names. A tag that would be another kind is a refusal here, before any device is opened."""
    old, new = plant.base(BASE), plant.base()
    said = []
    for name in new[0]:
        if name not in old[0]:
            said.append("%s is %s" % (name, "read again" if os.path.exists(plant.path("historian.d", name + ".tag")) else "new and empty"))
        elif bool(old[0][name].get("step")) != bool(new[0][name].get("step")):
            raise Refusal(UNREADABLE, "base.toml: the `step` of %s was edited, and a tag stays what it was made as: put it back. Nothing was"
                          " done" % name)
        elif any(old[0][name].get(key) != new[0][name].get(key) for key in seals.TUNING):
            said.append("%s is retuned" % name)
    said += ["%s is no longer read, and keeps its device" % name for name in old[0] if name not in new[0]]
    said += ["group %s is no longer made" % name for name in old[1] if name not in new[1]]
    said += ["group %s is %s" % (name, "made anew" if name in old[1] else "new") for name in new[1] if old[1].get(name) != new[1][name]]
    return said[:20] + (["and %d more" % (len(said) - 20)] if len(said) > 20 else [])


def is_base_new(plant):
    """Whether base.toml is another one than that of the last turn, or was being taken over as the feeder was stopped."""
    if os.path.exists(plant.path(NEW_BASE)) or not os.path.exists(plant.path(BASE)):
        return True
    return bytes_of(plant.path(BASE)) != bytes_of(plant.path("base.toml"))


# A turn that a stop left

def stored_by_now(plant, turn):
    """The tag lines of `check` with the turn's base, after looking that nobody else used the devices since the stop."""
    seals.require_good(plant)
    tags = plant.base(BASE)[0]
    for name in turn.tags:
        if retuned(plant.path("historian.d", name + ".tag"), tags[name], turn.tags[name]["taken"]):
            raise foreign(turn, name, "was retuned, because somebody ran the program with another base")
    state = plant.tags_of(plant.call("check", BASE))
    for name, before in turn.tags.items():
        count, held = turn.stored(name, state), state[name].held
        if not 0 <= count <= before["rows"]:
            raise foreign(turn, name, "has %d events more than before the turn, which has %d rows of it" % (count, before["rows"]))
        times, values = turn.values.of(name)
        if held and held not in zip(times[:count], values[:count]) and not held_before(before["held"], held, tags[name]):
            raise foreign(turn, name, "holds a value that is none of the turn's")
    return state


def held_before(last, held, definition):
    """Whether a tag held this value before the turn, or may have set it aside then: a late row makes it hold what was set aside."""
    if last is None or list(held) == last:
        return last is not None
    return last[0] < held[0] < last[0] + definition["exc_max"] and abs(held[1] - last[1]) <= definition["exc_dev"]


def foreign(turn, name, what):
    """The refusal of a turn in which another program wrote."""
    return Refusal(CHANGED, "turn %d was stopped, and since then %s %s. So nobody can say which rows are stored, and nothing was done."
                   " Put the plant back from a backup: feed.py --restore last." % (turn.number, name, what))


# A turn is finished

def finish(plant, turn, state):
    """Stores what is not stored yet of a turn, and puts its files away. If its base is new, at least one run is made, for the groups."""
    refusal, ran = None, not turn.notes["new_base"]
    while True:
        part = next_part(plant, turn, state)
        if ran and not part:
            break
        plan, ran = write_plan(plant, turn, part), True
        due = {name: turn.stored(name, state) + part.get(name, (0, 0))[1] for name in turn.tags}
        plant.progress("turn %d: storing %d values" % (turn.number, sum(count for _, count in part.values())), is_new=True)
        try:
            state = plant.tags_of(plant.call("run", BASE, plan))
        except Refusal as why:
            if why.status > 128:
                raise
            refusal, state = why, plant.tags_of(plant.call("check", BASE))
        for name in turn.tags:
            if turn.stored(name, state) != due[name]:
                raise refusal or Refusal(CHANGED, "%s took another number of rows than it was given: does another program run here?"
                                         % name)
    put_away(plant, turn, state)
    if refusal:  # of a group: the rows are stored all the same
        raise refusal


def next_part(plant, turn, state):
    """The rows of the next run, by tag: the first one and how many; no more than one run may have or than the archive has room for."""
    room = min(plant.settings.rows_a_run, (ALL_RECORDS - sum(tag.records for tag in state.values())) // 2)
    part = {}
    for name, wanted in turn.tags.items():
        first = turn.stored(name, state)
        count = min(wanted["rows"] - first, (RECORDS - state[name].records) // 2, room, turns.TAG_BYTES // turns.row_bytes(name))
        if count > 0:
            part[name] = first, count
            room -= count
    return part


def put_away(plant, turn, state):
    """Seals the devices, moves the files, notes what was stored and ends the turn. After a stop in between all of it is repeated."""
    without_room = refuse_rest(plant, turn, state)
    seals.seal(plant)
    note_scales(plant, turn)
    note_kept(plant, turn)
    now = time.strftime("%Y-%m-%dT%H:%M:%SZ", time.gmtime())
    if not turn.notes.get("again"):
        put_refused(plant, turn)
        for place, file in enumerate(turn.files):
            (put_piece if "grows" in file else put_file)(plant, turn, place, file)
        put_record(plant, turn, state, now)
        forget_taken(plant, turn)
    told = turn.notes.get("again") or fed_by(turn, counts_of(turn, state, without_room[1]) | {"time": now})
    note_fed(plant, told[:-1] + [told[-1] | fullness(state)])
    end(plant, turn)
    if not turn.notes.get("again"):
        tell(plant, turn, state, without_room)


def counts_of(turn, state, without_room):
    """What feed.d/fed says of a turn."""
    late = sum(state[name].late - before["late"] for name, before in turn.tags.items())
    refused = without_room + sum(file["refused"] + file["late"] for file in turn.files)
    return {"files": len(turn.files), "values": turn.values.count - without_room, "refused": refused, "late": late,
            "base": turn.notes["base"]}


def refuse_rest(plant, turn, state):
    """Rows for which the archive has no room go to refused/; answers their file and how many they are."""
    first = {name: turn.stored(name, state) for name in turn.tags}
    rows = list(readable_rows(plant, turn, turn.values, first, "the archive has no room for more records of this tag"))
    name = free_name(turn, NO_ROOM)
    if rows:
        write_refused(plant, name, rows, plant.settings.separator)
    return name, len(rows)


def readable_rows(plant, turn, values, first, reason):
    """Values as rows that a person can read and that can be fed again; of each tag from the `first` one on."""
    for name, (times, numbers) in values.tags.items():
        scale = turn.tags.get(name, {}).get("scale") or plant.scale(name, plant.base(BASE)[0][name]) or 1
        for t, v in zip(times[first.get(name, 0):], numbers[first.get(name, 0):]):
            yield name, iso_text(t, None), decimal_text(v, scale).replace(".", plant.settings.decimal), "", reason


def free_name(turn, name):
    """A name for a file of refused/ that no file of the turn has."""
    while name in [file["name"] for file in turn.files]:
        name = AGAIN + name
    return name


# What the tool is asked for

def one_turn(plant, said, wait):
    """Finishes the turn that a stop left, or makes one of the inbox's files. Answers whether there was one, and whether a file of
    the inbox is still too new to be taken."""
    with plant.locked("feed.py", wait):
        turn = unfinished(plant)
        if turn:
            plant.say("turn %d was stopped: it is finished now" % turn.number)
            finish(plant, turn, stored_by_now(plant, turn))
            return True, False
        if restore.is_unfinished(plant):
            plant.say(restore.go_on(plant, made_again))
            return True, False
        if os.path.exists(plant.path(NEW_BASE)):  # stopped while an edited base was taken over
            names = [name for name in seals.sealed(plant) or () if name.endswith(".tag")]
            seals.require_begun(plant, [os.path.basename(name)[:-len(".tag")] for name in names])
        else:
            seals.require_known(plant)
        look_back(plant)
        names, waiting = whole_files(plant, said)
        growing, silent = have_grown(plant, said), any(table.get("silent_ms") for table in plant.settings.tag.values())
        edited = os.path.exists(plant.path(BASE)) and is_base_new(plant)  # then a turn without files takes it over
        begun = None
        if names or growing or edited or taken_before(plant) or silent and os.path.exists(plant.path(BASE)):
            begun = begin(plant, names, growing, edited, said)
        if begun:
            finish(plant, *begun)
        status.note_look(plant)
        return begun is not None, waiting


def show(plant):
    """Writes the board, if feed.toml names one. What goes wrong there is said, and keeps nothing from being fed."""
    if plant.settings.board is None:
        return
    import board  # only here: who has no board needs none of its files
    try:
        trouble = board.write_board(plant, board.folder_of(plant))[2]
    except (Refusal, OSError) as why:
        trouble = "%s" % (why.text if isinstance(why, Refusal) else why)
    if trouble:
        plant.say("the board: %s" % trouble)


def note_refusal(plant, why):
    """Notes as a trouble why nothing was done; not if another process works on the plant, which may take its time."""
    if not isinstance(why, Refusal) or why.status != BUSY:
        plant.troubles.append(" ".join((str(why) or type(why).__name__).split()))


@contextlib.contextmanager
def calling_for_help(plant):
    """Calls on_trouble of feed.toml if what is done meanwhile is refused, or fails."""
    try:
        yield
    except Exception as why:
        note_refusal(plant, why)
        call_for_help(plant)
        raise


def feed(plant, every, wait):
    """Turns until the inbox is empty; with `every` it then looks again and again, and outlasts another process that has the plant. Answers
    the exit status."""
    said, patience, faults, troubles = {}, 3, 0, False
    while True:
        try:
            made, waiting = one_turn(plant, said, wait)
            faults = 0
        except Refusal as refusal:
            faults += refusal.status == DEVICE
            if every is None or refusal.status != BUSY and not 0 < faults < FAULTS:
                raise
            note_refusal(plant, refusal)
            plant.say(refusal.text)
            made, waiting = False, False
        troubles = troubles or bool(plant.troubles)
        call_for_help(plant)
        plant.troubles.clear()
        if made:
            show(plant)
            continue
        plant.looked.clear()
        if every is None and not (waiting and patience):
            return REFUSED if troubles else 0
        time.sleep(every if every is not None else plant.settings.settle_seconds)
        patience -= 1


def made_again(plant, turn):
    """Stores the rows of a turn that is made again, after its base is taken over if that is new."""
    if os.path.exists(plant.path(NEW_BASE)):
        take_over(plant, plant.tags_of(plant.call("check", NEW_BASE)))
    state = plant.tags_of(plant.call("check", BASE))
    for name, known in turn.tags.items():
        known.update(taken=state[name].taken, late=state[name].late, held=state[name].held)
    prepare(plant)
    write_down(plant, turn)
    finish(plant, turn, state)


def init(plant):
    """Writes feed.toml for a base, and makes the inbox."""
    if os.path.exists(plant.path("feed.toml")):
        raise Refusal(UNREADABLE, "feed.toml is there already: nothing was written")
    text = ['inbox = "inbox"           # CSV files are taken from here; write them elsewhere, then move them here\n',
            'future_ms = 60_000        # a value that is later than the clock by more is refused\n',
            'not_before = 2000-01-01T00:00:00Z  # an earlier one is refused: a clock that was reset, seconds for milliseconds\n',
            '# zone = "Europe/Berlin"  # for times without an offset\n# separator = ";"         # between the fields of a line\n'
            '# decimal = ","           # in place of the point\n# rows_a_run = 1_000_000  # each takes the program 155 bytes of memory\n'
            '# settle_seconds = 2      # how long a file has to be unchanged before it is taken\n'
             '# late_rows = 10_000      # so many late rows a tag takes in a turn; each costs a record for ever\n'
             '# backups = "/mnt/other/plant"  # where --backup puts its copies: better another disk\n'
             '# keep_backups = 30       # how many copies stay; 0: all\n'
             '# keep_turns = 50_000     # how many turns stay in done/; 0: all; none goes that a copy needs\n'
             '# on_trouble = "/usr/local/bin/alarm"  # a command that is called with a line when something is wrong\n'
             '# board = "board"         # a folder of pages, which is written after each turn\n'
             '# stale_ms = 900_000      # on the board a newest value that is older is marked\n'
             '\n# [[source]]              # how files of such names are read, if they are other than above (docs/RUNNING.md)\n'
             '# pattern = "unit*.csv"\n',
            '\n# By what a value is multiplied to be stored: with scale = 100, 48.703 is stored as 4870. A tag without it takes whole'
            ' numbers alone.\n']
    for name, tag in plant.base()[0].items():
        told = [shown(str(tag[key]), 80) for key in ("descriptor", "engunits") if key in tag]
        scale = step_of(tag.get("engunits", ""))[0]
        mark = "" if scale else "# "
        text.append('%s[tag."%s"]%s\n%sscale = %d\n' % (mark, name, told and "  # " + " ".join(told) or "", mark, scale or 100))
    require_good_base(plant)
    write_whole(plant.path("feed.toml"), "".join(text).encode())
    os.makedirs(plant.path("inbox"), exist_ok=True)
    plant.say("feed.toml and inbox/ are made: look feed.toml over, then move CSV files into inbox/ and run feed.py")
    return 0


def require_good_base(plant):
    """Ends with a refusal if the program refuses base.toml. It is tried in a folder of its own, so no device is made."""
    with tempfile.TemporaryDirectory(prefix="feed-") as folder:
        shutil.copy(plant.path("base.toml"), os.path.join(folder, "base.toml"))
        Plant(folder, shlex.join(plant.program)).call("check", "base.toml")


def at_rest(plant, do, wait):
    """Does something with the devices while nothing runs and no turn is unfinished."""
    with plant.locked("feed.py", wait):
        if unfinished(plant) or os.path.exists(plant.path(NEW_BASE)) or restore.is_unfinished(plant):
            raise Refusal(BUSY, "a turn is unfinished, and nothing was done: run feed.py first")
        plant.say(do(plant))
    return 0


def put_back(plant, asked, until, wait):
    """Puts a backup back, and makes the later turns again. The exit status says whether the archive is that from before."""
    with plant.locked("feed.py", wait):
        turn = plant.path("feed.d", turns.TOLD)
        if restore.is_unfinished(plant) and os.path.exists(turn):
            again = unfinished(plant)
            finish(plant, again, stored_by_now(plant, again))
        elif not restore.is_unfinished(plant):
            restore.begin(plant, asked, until)
        plant.say(restore.go_on(plant, made_again))
    call_for_help(plant)
    return CHANGED if plant.troubles else 0


def done(plant, given):
    """Does what the tool is asked for: the exit status."""
    if given.restore is not None:
        return put_back(plant, given.restore, given.until, given.wait)
    for asked, do in ((given.verify, seals.verified), (given.backup, backups.back_up), (given.seal, accept.sealed_anew),
                      (given.anew, lambda plant: accept.begun_anew(plant, given.anew))):
        if asked:
            return at_rest(plant, do, given.wait)
    return feed(plant, given.every, given.wait)


def main():
    parser = argparse.ArgumentParser(description=__doc__, formatter_class=argparse.RawDescriptionHelpFormatter)
    parser.add_argument("plant", nargs="?", default=".", help="the plant's folder, with base.toml and feed.toml (default: this one)")
    parser.add_argument("--program", default="historian", metavar="PATH", help="the historian (default: on the path)")
    parser.add_argument("--wait", type=float, default=10, metavar="SECONDS", help="for another process on this plant to end (10)")
    parser.add_argument("--version", action="version", version=version_text(os.path.basename(sys.argv[0])))
    one = parser.add_mutually_exclusive_group()
    one.add_argument("--every", type=float, metavar="SECONDS", help="feed, and look into the inbox again each so many seconds")
    one.add_argument("--init", action="store_true", help="feed nothing: write a feed.toml for the plant's base, and make the inbox")
    one.add_argument("--verify", action="store_true", help="feed nothing: compare the devices with the seals of the last turn")
    one.add_argument("--status", action="store_true", help="one line and an exit status for monitoring, as Nagios has them")
    one.add_argument("--backup", action="store_true", help="feed nothing: copy texts, devices and seals to the folder `backups`")
    one.add_argument("--restore", metavar="COPY", help="put a backup back (its name, its number, a path, or `last`; `nothing` begins empty),"
                     " and make all later turns again from what they stored")
    one.add_argument("--seal", action="store_true", help="feed nothing: accept the devices as they stand, after a change that you know")
    one.add_argument("--anew", action="append", metavar="TAG", help="feed nothing: begin a tag anew, empty, whose device is missing")
    parser.add_argument("--until", type=int, metavar="TURN", help="with --restore: only the turns up to this one; later ones go to undone/")
    parser.add_argument("--age", type=float, default=900, metavar="SECONDS", help="with --status: a feed that is older is critical (900)")
    given = parser.parse_args()
    if given.every is not None and not 0 < given.every < LONGEST:
        parser.error("--every takes more than 0 seconds, and less than 10^9")
    if given.until is not None and (given.restore is None or given.until < 0):
        parser.error("--until takes the number of a turn, and goes with --restore")
    if given.status:
        return status.tell_status(given.plant, given.program, given.age)
    if given.restore is not None:
        restore.lay_texts(given.plant, given.restore)
    plant = Plant(given.plant, given.program)
    if given.init:
        return init(plant)
    with calling_for_help(plant):
        return done(plant, given)


if __name__ == "__main__":
    ended(main, "What is stored stays stored; the next feed goes on from there.", logs=True)
