"""board_feed.py: what a board says of the feed, above its table: the last turn, what waits, refused rows, seals, the last backup, the audit."""
import datetime
import json
import os
import re

import audit
import seals
from inbox import fed_before
from plant import Refusal
from rows import REFUSED_HEADER, REFUSED_QUALITY


def feed_state(plant, board):
    """What is known of the feed, each as the page takes it; times in milliseconds."""
    return {"turn": last_turn(plant), "waiting": waiting(plant), "refused": refused_rows(plant), "folder": link_to_refused(plant, board),
            "unfinished": unfinished_turn(plant), "seals": seal_state(plant), "backup": last_backup(plant), "audit": last_audit(plant)}


def milliseconds_of_file(path):
    """When a file was changed last; None without one."""
    try:
        return int(os.path.getmtime(path) * 1000)
    except OSError:
        return None


def last_turn(plant):
    """The number of the last turn, and when it ended."""
    return {"number": fed_before(plant)[0], "at": milliseconds_of_file(plant.path("feed.d", "seals"))}


def waiting(plant):
    """How many files wait in the inbox; None if there is no inbox."""
    try:
        return sum(name.lower().endswith(".csv") and not name.startswith(".") for name in os.listdir(plant.path(plant.settings.inbox)))
    except OSError:
        return None


def refused_rows(plant):
    """How many rows stand in refused/, and how many files that were refused whole."""
    rows, files, headers = 0, 0, [[word.encode() for word in header] for header in (REFUSED_HEADER, REFUSED_QUALITY)]
    for folder, _, names in os.walk(plant.path("refused")):
        for name in names:
            with open(os.path.join(folder, name), "rb") as text:
                if re.split(rb"[^a-z]", text.readline(100).rstrip()) in headers:  # with the separator of its source
                    rows += sum(chunk.count(b"\n") for chunk in iter(lambda: text.read(1 << 20), b""))
                else:
                    files += 1
    return {"rows": rows, "files": files}


def link_to_refused(plant, board):
    """Where the folder of refused rows is from the board's pages; None if the two have nothing in common."""
    link = os.path.relpath(plant.path("refused"), board)
    return link.replace(os.sep, "/") if os.path.isdir(plant.path("refused")) else None


def unfinished_turn(plant):
    """Since when a turn is unfinished; None if none is."""
    return milliseconds_of_file(plant.path("feed.d", "turn.json"))


def seal_state(plant):
    """Whether the devices are as the last turn left them, and what is not."""
    try:
        if seals.sealed(plant) is None:
            return {"good": None, "what": []}
        tags = seals.tags_of_turn(plant)
        groups = [name for name in seals.devices(plant) if name.endswith(".grp")] if tags else []
        found = seals.differences(plant, ["historian.d/%s.tag" % name for name in tags] + groups)
    except Refusal as why:
        return {"good": False, "what": [why.text]}
    return {"good": not found, "what": ["%s %s" % item for item in sorted(found.items())[:seals.SHOWN]]}


def last_backup(plant):
    """When the last backup was made; None if there is none."""
    copies = seals.copies_of(plant)
    if not copies:
        return None
    made = datetime.datetime.strptime(seals.COPY.fullmatch(os.path.basename(copies[0]))[2], "%Y-%m-%dT%H%M%SZ")
    return int(made.replace(tzinfo=datetime.timezone.utc).timestamp()) * 1000


def last_audit(plant):
    """The last figures of audit.py, a table for each tag; empty if there are none."""
    try:
        with open(plant.path(*audit.RESULT)) as text:
            return [{"tag": name} | {key: result[key] for key in ("seen", "promised", "values", "late", "unpromised", "outside", "first", "at")}
                    for name, result in json.load(text).items()]
    except (OSError, ValueError, KeyError, TypeError, AttributeError):
        return []
