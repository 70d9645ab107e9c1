"""status.py: feed.py --status, one line and an exit status for monitoring, by the convention of Nagios: 0 good, 1 a warning, 2 critical,
3 unknown. It changes nothing in the archive, and needs no right to write; but who may write is not told of the same refused rows twice."""
import json
import os
import time

import restore
import seals
from devices import PLANT_RECORDS, TAG_RECORDS
from files import Refusal, shown
from inbox import fed_lines
from plant import Plant, open_lock, try_lock

WORDS = ("OK", "WARNING", "CRITICAL", "UNKNOWN")
FULL = 90  # per cent of the records that may be: more than that is a warning


def note_look(plant):
    """Notes that a feed looked at the inbox just now, and how many files of it stay there."""
    if os.path.isdir(plant.path("feed.d")):
        with open(plant.path("feed.d", "looked"), "w") as out:
            json.dump({"time": time.time(), "stays": len(plant.troubles)}, out)


def noted(plant, name):
    """What stands in a note of feed.d; nothing if it is missing or torn."""
    try:
        with open(plant.path("feed.d", name)) as text:
            return dict(json.load(text))
    except (OSError, ValueError, TypeError):
        return {}


def tell_status(folder, program, age):
    """Prints the line, and answers the exit status."""
    try:
        plant = Plant(folder, program)
        found, figures, line = looked_at(plant, age)
    except (Refusal, OSError) as why:
        found, figures, line = [(3, " ".join(str(why).split()))], "", ""
    worst = max((status for status, _ in found), default=0)
    told = "; ".join([text for status, text in sorted(found, reverse=True)] + [line] * bool(line))
    print("FEED %s: %s%s" % (WORDS[worst], shown(told, 1000), figures and " | " + figures))
    return worst


def looked_at(plant, age):
    """What is wrong, each with its status; the figures; and what is to be said in any case."""
    if not os.path.isfile(plant.path("base.toml")):
        return [(3, "there is no base.toml in %s" % plant.folder)], "", ""
    turns = {told["turn"]: told for told in fed_lines(plant) if "values" in told}
    told, now, looked = noted(plant, "told").get("turn", 0), time.time(), noted(plant, "looked")
    since = [turns[number] for number in turns if number > told]
    refused, late = (sum(int(turn.get(key, 0)) for turn in since) for key in ("refused", "late"))
    last = max(turns, default=0)
    turn_age, look_age = (now - moment if moment else None for moment in (time_of(turns.get(last, {}).get("time")), looked.get("time")))
    found, running = state_of(plant)
    if not running and (look_age is None or abs(look_age) > age):
        found.append((2, "no feed for %s" % in_words(look_age)))
    if turn_age is not None and turn_age > age:
        found.append((1, "no turn for %s" % in_words(turn_age)))
    for count, words in ((refused, "%d rows refused since the last look"), (late, "%d rows late since the last look"),
                         (looked.get("stays", 0), "%d files stay in the inbox")):
        if count:
            found.append((1, words % count))
    shares = shares_of(turns.get(last, {}))
    found += [(1, "%s is %d %% full: begin a new folder" % (what, share)) for what, share in shares.items() if share > FULL]
    note_told(plant, last)
    figures = "turn=%d age=%ds refused=%d late=%d stays=%d" % (last, turn_age or 0, refused, late, looked.get("stays", 0))
    figures += " full=%.1f%%" % max(shares.values()) if shares else ""
    return found, figures, "turn %d, %s ago" % (last, in_words(turn_age)) if last else "nothing was fed yet"


def state_of(plant):
    """What is unfinished or changed, each with its status; and whether a tool works on the plant just now."""
    if not os.path.isdir(plant.path("historian.d")):
        return [], False
    lock = open_lock(plant.path("historian.d"), True)
    try:
        if lock is not None and not try_lock(lock, True):
            return [], True
        unfinished = [name for name in ("turn.json", "base.new.toml") if os.path.exists(plant.path("feed.d", name))]
        if restore.is_unfinished(plant):
            return [(2, "a restore is unfinished: run feed.py")], False
        if unfinished:
            return [(2, "a turn is unfinished: run feed.py")], False
        changed = seals.differences(plant) if seals.sealed(plant) is not None else {}
        return [(2, "%s %s" % (name, what)) for name, what in list(changed.items())[:3]], False
    finally:
        if lock is not None:
            os.close(lock)


def shares_of(turn):
    """How full the plant and its fullest tag were after a turn, in per cent, by what a line calls them."""
    shares = {"the plant": 100 * turn["records"] / PLANT_RECORDS} if "records" in turn else {}
    return shares | ({"tag " + turn["fullest"][0]: 100 * turn["fullest"][1] / TAG_RECORDS} if turn.get("fullest") else {})


def note_told(plant, last):
    """Notes up to which turn the refused rows were told. Who may not write is told of them again."""
    try:
        with open(plant.path("feed.d", "told"), "w") as out:
            json.dump({"turn": last}, out)
    except OSError:
        pass


def time_of(text):
    """A turn's time, in seconds since 1970; None if it has none."""
    try:
        return time.mktime(time.strptime(text, "%Y-%m-%dT%H:%M:%SZ")) - time.timezone if text else None
    except (ValueError, TypeError):
        return None


def in_words(seconds):
    """A span of time for people."""
    if seconds is None:
        return "ever"
    for size, unit in ((86_400, "days"), (3_600, "hours"), (60, "minutes")):
        if abs(seconds) >= 2 * size:
            return "%d %s" % (seconds // size, unit)
    return "%d s" % seconds
