"""restore.py: puts a backup back, and makes the later turns again from what they stored, so that the archive is that from before.

`feed.d/restore.json` says how far that is; while it is there, the next feed.py goes on with it. What stood in the plant before is moved to
replaced/NUMBER/, and nothing of it is removed. Turns beyond `--until` go from done/ to undone/."""
import json
import os

from devices import sha256_of_first
from files import CHANGED, UNREADABLE, Refusal, bytes_of, copied, moved, removed, sha256_of, sync_folder, write_whole
from inbox import NUMBER, last_turn_in
from seals import COPY, LINE, LOG, copies_of, require_sealed
from turns import STORED, TOLD, Turn, read_rows, record_of

STATE = "restore.json"
STAY = (STATE, "taken", "looked", "told", "troubles")  # files of feed.d that are of the present, whatever the archive has
NOTHING = "nothing"


def is_unfinished(plant):
    """Whether a stop left a restore in the middle."""
    return os.path.exists(plant.path("feed.d", STATE))


def lay_texts(folder, asked):
    """Puts base.toml, feed.toml and the calendar of a copy into a plant's folder that has none, as after the loss of its disk."""
    for name in os.listdir(asked) if os.sep in asked and os.path.isdir(asked) else ():
        source, target = os.path.join(asked, name), os.path.join(folder, name)
        if name.endswith(".toml") and os.path.isfile(source) and not os.path.exists(target):
            copied(source, target)


def find_copy(plant, asked):
    """The folder of a copy, by its name, its number, its time, its path, or as the last one; None for no copy at all."""
    if asked == NOTHING:
        return None
    if os.sep in asked:
        found = [os.path.abspath(asked)] if os.path.isdir(os.path.join(asked, "historian.d")) else []
    else:
        copies = copies_of(plant)
        parts = {copy: COPY.fullmatch(os.path.basename(copy)) for copy in copies}
        found = [copy for copy in copies if asked in ("last", *parts[copy].group(0, 2)) or
                 NUMBER.fullmatch(asked) and int(parts[copy][1]) == int(asked)]
    if not found:
        raise Refusal(UNREADABLE, "there is no copy %s, and nothing was done; there are %s" % (
            asked, ", ".join(map(os.path.basename, copies_of(plant))) or "none in " + plant.settings.backups))
    return found[0]


def begin(plant, asked, until):
    """Looks whether a copy is good and all later turns are there, and notes what is to be done. Nothing is changed before."""
    copy = find_copy(plant, asked)
    if copy is not None:
        require_good_copy(plant.path(copy))
    last = last_turn_in(plant.path(copy, "feed.d", "fed")) if copy else 0
    if until is not None and until < last:
        raise Refusal(UNREADABLE, "%s has turn %d already, and nothing was done: choose an older copy" % (copy, last))
    settle_unfinished(plant)
    turns = later_turns(plant, last, until)
    os.makedirs(plant.path("feed.d"), exist_ok=True)
    if not os.path.isabs(plant.settings.inbox):  # on a new disk it is not there
        os.makedirs(plant.path(plant.settings.inbox), exist_ok=True)
    put_state(plant, {"copy": copy, "asked": asked, "last": last, "turns": turns, "until": until, "away": free_folder(plant), "phase": "away"})


def require_good_copy(copy):
    """Ends with a refusal if a copy's devices are not as its seals say."""
    with open(os.path.join(copy, "feed.d", "seals"), errors="replace") as text:
        lines = [LINE.fullmatch(line) for line in text]
    for what, name in (match.groups() for match in lines if match):
        path, words = os.path.join(copy, name), what.split()
        if name == LOG:
            good = os.path.isfile(path) and sha256_of_first(path, int(words[5])) == words[1]
        else:
            good = words[0] == "#" or os.path.isfile(path) and sha256_of(path) == what
        if not good:
            raise Refusal(CHANGED, "%s is damaged or missing, and nothing was done: choose another copy" % path)
    if None in lines:
        raise Refusal(CHANGED, "%s/feed.d/seals is damaged, and nothing was done: choose another copy" % copy)


def later_turns(plant, last, until):
    """The numbers of the turns that were made after the copy. Of those up to `until`, or of all, what they stored has to be there."""
    folder = plant.path("done")
    numbers = sorted(int(name) for name in os.listdir(folder) if NUMBER.fullmatch(name)) if os.path.isdir(folder) else []
    most, turns = max(numbers, default=0) if until is None else until, []
    for number in (number for number in numbers if number > last):
        if number > most or record_of(plant, number) is not None:
            turns.append(number)
        elif os.listdir(plant.path("done", "%06d" % number)):
            raise Refusal(CHANGED, "done/%06d has no %s, so nobody can say what turn %d stored, and nothing was done. Put that file back, or"
                          " restore with --until %d, and then feed the files of that turn and of the later ones, which are in undone/, the"
                          " lowest first" % (number, TOLD, number, number - 1))
    others = {int(name) for place in ("refused", "undone") if os.path.isdir(plant.path(place)) for name in os.listdir(plant.path(place))
              if NUMBER.fullmatch(name)}
    missing = [number for number in range(last + 1, min(most + 1, max(turns, default=0))) if number not in turns and number not in others]
    if missing:
        raise Refusal(CHANGED, "done/%06d is not there, so what turn %d stored cannot be stored again, and nothing was done. Choose a newer"
                      " copy" % (missing[0], missing[0]))
    return turns


def settle_unfinished(plant):
    """Undoes a turn that a stop left: its files are fed again by the next turn. If it was put away already, it is one that is made again."""
    path = plant.path("feed.d", TOLD)
    try:
        with open(path) as text:
            turn = json.load(text)
        number, files = int(turn["turn"]), list(turn["files"])
    except FileNotFoundError:
        return
    except (ValueError, TypeError, KeyError):
        number, files = None, []
    if number is not None and record_of(plant, number) is None:
        for file in files:
            put = plant.path("done", "%06d" % number, file["name"])
            if os.path.isfile(put):
                if "grows" in file:
                    os.remove(put)
                else:
                    moved(put, plant.path(plant.settings.inbox, file["as"]))
    elif files:
        others = {file.get("as") for file in files}
        from inbox import note_taken, taken_before
        note_taken(plant, [file for file in taken_before(plant) if file["as"] not in others])
    removed(path)
    sync_folder(plant.path("feed.d"))


def free_folder(plant):
    """The folder to which what stands there is moved."""
    taken = [int(name) for name in os.listdir(plant.path("replaced")) if NUMBER.fullmatch(name)] if os.path.isdir(plant.path("replaced")) else []
    return os.path.join("replaced", "%06d" % (max(taken, default=0) + 1))


def put_state(plant, state):
    write_whole(plant.path("feed.d", STATE), json.dumps(state).encode())


def go_on(plant, made_again):
    """Does what is left of a restore, and answers what to say of it."""
    try:
        with open(plant.path("feed.d", STATE)) as text:
            state = json.load(text)
        phases = {"away": move_away, "copy": copy_back, "turns": None}[state["phase"]]
    except (ValueError, KeyError, TypeError):
        raise Refusal(CHANGED, "feed.d/%s is damaged, and nothing was done: remove it, and call feed.py --restore again" % STATE) from None
    while state["phase"] != "turns":
        phases(plant, state)
        put_state(plant, state)
        phases = {"copy": copy_back, "turns": None}[state["phase"]]
    count = make_turns(plant, state, made_again)
    undo_turns(plant, state)
    removed(plant.path("feed.d", STATE))
    sync_folder(plant.path("feed.d"))
    turns = [turn for turn in state["turns"] if state["until"] is None or turn <= state["until"]]
    said = "the plant is put back from %s" % (state["copy"] or NOTHING)
    said += "; %d turns up to turn %d are made again" % (len(turns), turns[-1]) if turns else "; no later turn had to be made again"
    return "%s, %d values. What stood there before is in %s" % (said, count, state["away"])


def is_log_good(plant, state):
    """Whether the plant's log still has all that the copy has of it. The feeder never writes to it, so it then stays as it is."""
    if not os.path.isfile(plant.path(LOG)):
        return False
    copy = state["copy"] and plant.path(state["copy"], LOG)
    if not copy or not os.path.isfile(copy):
        return True
    with open(plant.path(state["copy"], "feed.d", "seals")) as text:
        told = [match[1].split() for match in map(LINE.fullmatch, text) if match and match[2] == LOG]
    return bool(told) and sha256_of_first(plant.path(LOG), int(told[0][5])) == told[0][1]


def move_away(plant, state):
    """Moves the devices and what the feeder knows of them away."""
    for folder, stay in (("historian.d", ("feed.lock", "plant.log") if is_log_good(plant, state) else ("feed.lock",)), ("feed.d", STAY)):
        away = plant.path(state["away"], folder)
        os.makedirs(away, exist_ok=True)
        os.makedirs(plant.path(folder), exist_ok=True)
        for name in sorted(set(os.listdir(plant.path(folder))) - set(stay)):
            if not name.endswith(".new"):
                os.rename(plant.path(folder, name), os.path.join(away, name))
        for made in (away, plant.path(folder), plant.path(state["away"]), plant.path("replaced"), plant.path()):
            sync_folder(made)
    state["phase"] = "copy"


def copy_back(plant, state):
    """Copies the devices of a copy back, and what the feeder knew then. What was taken of growing files stays what it is. The lock that
    --verify leaves in a copy stays there: in the plant it would take the place of the one that is held."""
    for folder in ("historian.d", "feed.d") if state["copy"] else ():
        source = plant.path(state["copy"], folder)
        for name in sorted(os.listdir(source) if os.path.isdir(source) else ()):
            target = plant.path(folder, name)
            if name != "feed.lock" and not (name == "plant.log" and os.path.isfile(target)):
                plant.progress("%s is put back" % name)
                copied(os.path.join(source, name), target + ".new")
                os.replace(target + ".new", target)
    state["keeps_grown"] = os.path.isfile(plant.path(state["away"], "feed.d", "grown"))
    if state["keeps_grown"]:
        copied(plant.path(state["away"], "feed.d", "grown"), plant.path("feed.d", "grown"))
    for folder in ("historian.d", "feed.d"):
        sync_folder(plant.path(folder))
    state["phase"] = "turns"


def make_turns(plant, state, made_again):
    """Makes the turns after the copy again; several at once if they had the same base. Answers how many values were stored."""
    if not os.path.exists(plant.path("feed.d", "base.new.toml")):
        require_sealed(plant)
    count = 0
    while True:
        done = max(state["last"], last_turn_in(plant.path("feed.d", "fed")))
        left = [turn for turn in state["turns"] if turn > done and (state["until"] is None or turn <= state["until"])]
        if not left:
            return count
        turn, after = turn_again(plant, left, state["keeps_grown"])
        plant.progress("turn %d of %d is made again" % (turn.number, left[-1]))
        count += turn.values.count
        made_again(plant, turn)
        compare(plant, turn, after)


def turn_again(plant, numbers, keeps_grown):
    """A turn with the rows of the first ones of these turns, as many as had the same base and as go into a run; and how many events each
    tag had after them."""
    turn, after, told = Turn(0, [], {}, None, {"grown": {}, "quality": {}}), {}, []
    for number in numbers:
        folder, record = plant.path("done", "%06d" % number), record_of(plant, number)
        base = os.path.join(folder, "base.toml")
        is_new = os.path.isfile(base)
        stored = {name: known["stored"] for name, known in record.tags.items()}
        if told and (is_new or turn.values.count + sum(stored.values()) > plant.settings.rows_a_run):
            break
        if is_new and bytes_of(base) != base_in_force(plant):
            write_whole(plant.path("feed.d", "base.new.toml"), bytes_of(base))
        rows = read_rows(os.path.join(folder, STORED), stored) if sum(stored.values()) else None
        if turn.values is None:
            turn.values = rows
        elif rows is not None:
            for name, (times, values) in rows.tags.items():
                for mine, more in zip(turn.values.arrays(name), (times, values)):
                    mine.extend(more)
        turn.number = number
        after |= {name: known["after"] for name, known in record.tags.items()}
        for key in ("grown", "quality"):
            turn.notes[key] |= record.notes[key]
        turn.notes |= {"base": record.notes["base"], "new_base": turn.notes.get("new_base", False) or is_new}
        told += told_of(record)
        scales = {name: known["scale"] for name, known in record.tags.items()}
        turn.tags |= {name: {"scale": scales[name]} for name in scales if stored[name]}
    finished(turn, told, keeps_grown)
    return turn, after


def finished(turn, told, keeps_grown):
    """Completes a turn that is made again."""
    from rows import Values
    turn.values = turn.values or Values()
    for name, known in turn.tags.items():
        known["rows"] = len(turn.values.of(name)[0])
    turn.notes["again"] = told
    if keeps_grown:
        turn.notes["grown"] = {}


def base_in_force(plant):
    """The bytes of the base of the last turn; none before the first one."""
    path = plant.path("feed.d", "base.toml")
    return bytes_of(path) if os.path.isfile(path) else None


def told_of(record):
    """What feed.d/fed said of a turn."""
    files = [{"turn": record.number, "file": file["name"], "sha256": file["sha256"], "rows": file["rows"]} for file in record.files
             if file["rows"]]
    refused = sum(file["refused"] + file["late"] for file in record.files) + sum(
        known["rows"] - known["stored"] for known in record.tags.values())
    values = sum(known["stored"] for known in record.tags.values())
    return files + [{"turn": record.number, "files": len(record.files), "values": values, "refused": refused, "late": 0,
                     "base": record.notes["base"], "time": record.time}]


def compare(plant, turn, after):
    """Says which tags have another number of events now than they had after these turns: what was stored or retuned by hand is not made
    again."""
    from seals import sealed_events
    now = sealed_events(plant)
    for name, count in after.items():
        has = now.get("historian.d/%s.tag" % name)
        if has != count:
            plant.trouble("after turn %d %s has %s events, and it had %d: somebody stored values by hand then, or began it anew, and no turn has"
                          " that" % (turn.number, name, has, count))


def undo_turns(plant, state):
    """Moves the turns beyond --until out of done/."""
    later = [turn for turn in state["turns"] if state["until"] is not None and turn > state["until"]]
    for turn in later:
        os.makedirs(plant.path("undone"), exist_ok=True)
        moved(plant.path("done", "%06d" % turn), plant.path("undone", "%06d" % turn))
    for folder in ("undone", "done") if later else ():
        sync_folder(plant.path(folder))
