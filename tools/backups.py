"""backups.py: copies of the whole plant in the folder `backups` of feed.toml, which had better be on another disk; and what of old copies
and old turns is removed. A copy has a number, and is newer than another one if its number is higher: the clock does not count."""
import os
import re
import shutil
import sys
import time

from devices import sha256_of_first
from files import CHANGED, UNREADABLE, Refusal, copied, sha256_of, sync_folder
from inbox import NUMBER, fed_before, last_turn_in
from plant import put_line, stamp
from seals import COPY, LOG, copies_of, put_seals, require_known, seal, seal_lines, sealed, sealed_log

TEXTS = ["base.toml", "feed.toml", "feed.d/base.toml", "feed.d/seals", "feed.d/fed", "feed.d/scales", "feed.d/grown", "feed.d/quality",
         "feed.d/tunings"]
UNFINISHED = re.compile(COPY.pattern + r"\.part")


def back_up(plant):
    """Copies texts, devices, seals and the list of fed files, compares the devices with the seals, and answers the copy's name."""
    require_known(plant)
    folder = plant.path(plant.settings.backups)
    if not os.path.isdir(folder):
        if plant.settings.backups != "backup":
            raise Refusal(UNREADABLE, "there is no folder %s, and no copy was made: make it, mount its disk, or look at `backups` in"
                          " feed.toml" % folder)
        os.makedirs(folder)
    if sealed(plant) is None:
        os.makedirs(plant.path("feed.d"), exist_ok=True)
        seal(plant)
    put_seals(plant, ["%s  %s\n" % (what, name) for what, name in seal_lines(plant) if name != LOG])
    remove_unfinished(plant, folder)
    name = new_name(plant)
    copy_all(plant, os.path.join(folder, name + ".part"))
    os.replace(os.path.join(folder, name + ".part"), os.path.join(folder, name))
    for made in (folder, os.path.dirname(folder)):
        sync_folder(made)
    prune(plant, folder)
    return os.path.join(plant.settings.backups, name)


def copy_all(plant, part):
    """Copies the plant, and compares the copies of the devices with the seals."""
    kept, log = sealed(plant), sealed_log(plant)
    calendar = plant.settings.calendar or ""
    texts = TEXTS + [calendar] * (calendar == os.path.basename(calendar))  # if it stands in the plant's folder
    files = [file for file in texts + list(kept) + [LOG] if os.path.isfile(plant.path(file))]
    for number, file in enumerate(files, 1):
        target = os.path.join(part, file)
        plant.progress("%d of %d files are copied" % (number, len(files)))
        os.makedirs(os.path.dirname(target), exist_ok=True)
        copied(plant.path(file), target)
        if file in kept and sha256_of(target) != kept[file] or file == LOG and sha256_of_first(target, log[1]) != log[0]:
            raise Refusal(CHANGED, "the copy of %s differs from it: is the disk good? The unfinished copy is %s" % (file, part))
    for folder in ("historian.d", "feed.d", ""):
        if os.path.isdir(os.path.join(part, folder)):
            sync_folder(os.path.join(part, folder))


def new_name(plant):
    """The name of the next copy: its number, and the time by the clock for people."""
    last = max((int(COPY.fullmatch(os.path.basename(copy))[1]) for copy in copies_of(plant)), default=0)
    return "%06d.%s" % (last + 1, time.strftime("%Y-%m-%dT%H%M%SZ", time.gmtime()))


def remove_unfinished(plant, folder):
    """Removes the copies of this tool that a stop left unfinished, and says so. Nobody else makes one now, because the lock is held. What
    has such a name and is no folder was made by somebody else, and stays."""
    for name in sorted(os.listdir(folder)):
        path = os.path.join(folder, name)
        if UNFINISHED.fullmatch(name) and os.path.isdir(path) and not os.path.islink(path):
            shutil.rmtree(path)
            note("%s/%s, a copy that was stopped, is removed" % (plant.settings.backups, name))
        elif UNFINISHED.fullmatch(name):
            note("%s/%s is no folder, so feed.py did not make it: it stays as it is" % (plant.settings.backups, name))


def note(text):
    """Says something besides the answer."""
    put_line(sys.stderr, stamp(sys.stderr) + text)


def prune(plant, folder):
    """Removes copies beyond `keep_backups`, the oldest first, and turns of done/ beyond `keep_turns`. No turn goes that a copy which stays
    does not have, since it would be needed if that copy is put back."""
    copies = copies_of(plant)
    for copy in copies[plant.settings.keep_backups:] if plant.settings.keep_backups else ():
        path = plant.path(copy)
        os.rename(path, path + ".part")
        shutil.rmtree(path + ".part")
        note("%s is removed: keep_backups is %d" % (copy, plant.settings.keep_backups))
        copies.remove(copy)
    if not plant.settings.keep_turns or not os.path.isdir(plant.path("done")):
        return
    first = min([fed_before(plant)[0] - plant.settings.keep_turns] + [last_turn_in(plant.path(copy, "feed.d", "fed")) for copy in copies])
    old = [name for name in os.listdir(plant.path("done")) if NUMBER.fullmatch(name) and int(name) <= first]
    for name in old:
        shutil.rmtree(plant.path("done", name))
    if old:
        note("%d turns up to turn %d are removed from done/: keep_turns is %d" % (len(old), first, plant.settings.keep_turns))
