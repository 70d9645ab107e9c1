#!/usr/bin/env python3
"""site_work.py: what site.py has done in the folder of one part, here or on the machine that has it.

    site_work.py texts FOLDER                  the part's texts, as JSON
    site_work.py put FOLDER NAME SHA256 TIME   puts a file into the part's inbox, from standard input; not if the part has it already
    site_work.py ask FOLDER                    what reading.py answers to a call, both as JSON: on standard input and output
    site_work.py next FOLDER NEW TIME          makes the folder of the part's next part, from that time on

A person has no need of it: site.py calls it. Its exit statuses are those of feed.py."""
import argparse
import contextlib
import hashlib
import json
import os
import sys

import inbox
import reading
from reading import WAIT
from site_next import made_beside
from plant import UNREADABLE, Plant, Refusal, ended, sha256_of, sync_folder

TEXTS = ("base.toml", "feed.toml", "feed.d/base.toml")
WORDS = {"texts": 0, "put": 3, "ask": 0, "next": 2}  # and how many each takes behind the folder
CALLS = ("replies", "state", "frames", "shifts")
NEWEST = 200  # folders of done/ and of refused/ in which a file is looked for


def texts(folder):
    """The texts of a part, by name; those that are not there are left out."""
    found = {}
    for name in TEXTS:
        try:
            with open(os.path.join(folder, name)) as text:
                found[name] = text.read()
        except FileNotFoundError:
            pass
    if "base.toml" not in found:
        raise Refusal(UNREADABLE, "there is no base.toml in %s: is this the part's folder?" % os.path.abspath(folder))
    return found


def put(plant, name, sha, when, data):
    """Puts a file into a part's inbox whole and synced, with a time of change that is `when`; not if the part has it already."""
    if has(plant, name, sha):
        return
    folder = plant.path(plant.settings.inbox)
    new = os.path.join(folder, "." + name + ".new")
    try:
        os.unlink(new)
    except FileNotFoundError:
        pass
    handle = os.open(new, os.O_WRONLY | os.O_CREAT | os.O_EXCL | os.O_NOFOLLOW, 0o666)
    with open(handle, "wb") as out:
        came = sha256_of_copy(data, out)
        out.flush()
        os.utime(out.fileno(), (when, when))
        os.fsync(out.fileno())
    if came != sha:
        raise Refusal(UNREADABLE, "%s came with other bytes than it was sent with: is the disk good? It is not fed" % name)
    if os.path.lexists(os.path.join(folder, name)):
        raise Refusal(UNREADABLE, "%s in its inbox is not the file of site.py: somebody put another one there. Move it away" % name)
    os.rename(new, os.path.join(folder, name))
    sync_folder(folder)


def sha256_of_copy(data, out):
    """Copies what is still to be read of an open file, and answers its sha256."""
    sha = hashlib.sha256()
    while piece := data.read(1 << 20):
        sha.update(piece)
        out.write(piece)
    return sha.hexdigest()


def has(plant, name, sha):
    """Whether a part has a file: in its inbox, in a turn that is unfinished, fed or put away. A file goes this way and never back, and
    in this order they are looked at, so a feeder that works meanwhile does not hide it."""
    return any(look(plant, name, sha) for look in (in_inbox, in_turn, was_fed, is_away))


def in_inbox(plant, name, sha):
    folder = plant.path(plant.settings.inbox)
    if not os.path.isdir(folder):
        raise Refusal(UNREADABLE, "there is no folder %s: make it, or look at `inbox` in feed.toml" % folder)
    found = [os.path.join(folder, other) for other in os.listdir(folder) if other == name or other.startswith(".taken-")]
    return any(is_same(path, sha) for path in found)


def in_turn(plant, name, sha):
    try:
        with open(plant.path("feed.d", "turn.json")) as text:
            return any(file["sha256"] == sha for file in json.load(text)["files"])
    except (OSError, ValueError, KeyError, TypeError):  # none, or damaged: the feeder says so
        return False


def was_fed(plant, name, sha):
    return sha in inbox.fed_before(plant)[1]


def is_away(plant, name, sha):
    places = []
    for folder in ("done", "refused"):
        if os.path.isdir(plant.path(folder)):
            places += [plant.path(folder, turn, name) for turn in sorted(os.listdir(plant.path(folder)))[-NEWEST:]]
    return any(is_same(path, sha) for path in places)


def is_same(path, sha):
    """Whether a plain file has these bytes."""
    return os.path.isfile(path) and not os.path.islink(path) and sha256_of(path) == sha


def begin_next(plant, wait, new, t):
    """Makes the folder of a part's next part."""
    with opened(plant, list(plant.base(plant.fed_base())[0]), (), wait, False) as archive:
        made_beside(plant, archive, new, t)


class Empty:
    """What can be asked of a plant that was never fed: its tags have no values."""

    def __init__(self, tags):
        self.tags, self.refused, self.newest = tags, {}, {}

    def held(self, tag):
        return None

    def replies(self, queries):
        return [{"snap": "snap 0 none", "points": "end"}.get(query.split(",")[0], "none") for query in queries]

    def state(self):
        return {}

    def frames(self, group, calculation, least):
        return []

    def shifts(self, calendar, day, days):
        raise Refusal(UNREADABLE, "it was never fed, so nobody can say when its shifts begin")


def is_new(plant):
    """Whether a part was never fed: it has no devices."""
    folder = plant.path("historian.d")
    return not os.path.isdir(folder) or not any(name.endswith(".tag") for name in os.listdir(folder))


@contextlib.contextmanager
def opened(plant, tags, groups, wait, lenient):
    """What can be asked of a part: as reading.opened opens it, and nothing of one that was never fed."""
    if is_new(plant):
        definitions = plant.base(plant.fed_base())[0]
        yield Empty({tag: definitions[tag] for tag in tags})
        return
    with reading.opened(plant, tags, groups, wait, lenient) as archive:
        yield archive


def asked(plant, wait, call):
    """What a call of reading.Archive answers, as what JSON has."""
    with opened(plant, call["tags"], call["groups"], wait, call["lenient"]) as archive:
        return answered(archive, call["call"], call["words"])


def answered(archive, what, words):
    """What an opened part answers to a call."""
    if what == "about":
        return {"tags": archive.tags, "refused": archive.refused, "newest": archive.newest}
    found = getattr(archive, {name: name for name in CALLS}[what])(*words)
    return {name: vars(tag) for name, tag in found.items()} if what == "state" else found


def main():
    parser = argparse.ArgumentParser(description=__doc__, formatter_class=argparse.RawDescriptionHelpFormatter)
    parser.add_argument("what", choices=WORDS)
    parser.add_argument("folder")
    parser.add_argument("more", nargs="*", help="of `put`: name, sha256, time of change; of `next`: the new folder, milliseconds")
    parser.add_argument("--program", default="historian", metavar="PATH", help="the historian (default: on the path)")
    parser.add_argument("--wait", type=float, default=WAIT, metavar="SECONDS", help="for another process on this part to end")
    given = parser.parse_args()
    if len(given.more) != WORDS[given.what]:
        parser.error("%s takes %d words behind the folder" % (given.what, WORDS[given.what]))
    if given.what == "texts":
        print(json.dumps(texts(given.folder)))
        return 0
    plant = Plant(given.folder, given.program)
    if given.what == "put":
        put(plant, given.more[0], given.more[1], float(given.more[2]), sys.stdin.buffer)
    elif given.what == "next":
        begin_next(plant, given.wait, given.more[0], int(given.more[1]))
    else:
        print(json.dumps(asked(plant, given.wait, json.load(sys.stdin))))
    return 0


if __name__ == "__main__":
    ended(main)
