"""growing.py: files that stay where they are written, and of which each whole line is taken once: those of a source with `grows = true`.

What was taken of each stands in feed.d/grown: how many bytes, their sha256, and what its next lines need of these (rows.Reader). A file
that no longer begins with those bytes is refused in words: nobody can say which of its lines are new. But if another file begins with them
now, the file got that name, as a program does that begins a new one each day: then it goes on there, and under the old name is a new
file."""
import contextlib
import hashlib
import json
import os
import stat

from files import CHANGED, Refusal, sha256_of_next, shown, sync_read
from inbox import MOST_BYTES, NOT_FOLLOWED, Piece, Unfit, fed_before, read_piece, say_hourly


def grown_of(plant):
    """What was taken of each growing file, by its path."""
    try:
        with open(plant.path("feed.d", "grown")) as text:
            return {str(path): dict(known) for path, known in json.load(text).items()}
    except FileNotFoundError:
        return {}
    except (ValueError, AttributeError, TypeError):
        raise Refusal(CHANGED, "feed.d/grown, which says what was taken of growing files, is damaged, and nothing was done. Put it back"
                      " from the newest backup: feed.py --restore last.") from None


def growing_files(plant):
    """The growing files that there are, each with its source: its path, from the plant's folder."""
    files = {}
    for source in plant.settings.source:
        folder = source.folder or plant.settings.inbox
        if source.grows and os.path.isdir(plant.path(folder)):
            for name in sorted(os.listdir(plant.path(folder))):
                path = os.path.join(folder, name)
                if source.fits(name) and not name.startswith(".") and path not in files:
                    if source.folder is not None or plant.settings.source_of(name) is source:
                        files[path] = source
    return files


def have_grown(plant, said):
    """The growing files that have bytes which were not looked at yet, with their sources."""
    grown, found = grown_of(plant), []
    for source in plant.settings.source:
        if source.folder is not None and not os.path.isdir(plant.path(source.folder)):
            say_hourly(plant, said, source.folder, "there is no folder %s, so nothing is taken of %s: mount its disk, or look at `folder` in"
                       " feed.toml" % (shown(source.folder, 255), shown(source.pattern)))
    for path, source in growing_files(plant).items():
        try:
            info = os.lstat(plant.path(path))
        except OSError:
            continue
        known = grown.get(path, {})
        if not stat.S_ISREG(info.st_mode):
            not_taken(plant, said, path, "it is no plain file")
        elif [info.st_ino, info.st_size, info.st_mtime_ns] != known.get("seen"):
            found.append((path, source))
    return found


def not_taken(plant, said, path, why):
    """Says that of a growing file nothing is taken."""
    say_hourly(plant, said, path, "%s: %s. Nothing more is taken of it" % (shown(path, 255), why))


NEW = {"bytes": 0, "sha256": hashlib.sha256().hexdigest(), "place": None}  # what is known of a file of which nothing was taken


def begins_as(path, grown):
    """The files of which a file begins with what was taken, in the order of how much that is."""
    found, sha, done = [], hashlib.sha256(), 0
    with contextlib.suppress(OSError), open(os.open(path, NOT_FOLLOWED), "rb") as opened:
        for name, known in sorted(grown.items(), key=lambda item: item[1]["bytes"]):
            if not stat.S_ISREG(os.fstat(opened.fileno()).st_mode) or sha256_of_next(opened, known["bytes"] - done, sha) is None:
                break
            done = known["bytes"]
            found += [name] if sha.hexdigest() == known["sha256"] else []
    return found


def has_rows(known, source, lines=None):
    """Whether more was taken of a file than its header, which other files have too; or whether so many lines are more."""
    place = known.get("place") or {}
    return (place.get("lines", 0) if lines is None else lines) > (source.skip + 1 if place.get("header") else 0)


def lines_in(path):
    """How many whole lines a file has."""
    with contextlib.suppress(OSError), open(os.open(path, NOT_FOLLOWED), "rb") as opened:
        return sum(part.count(b"\n") for part in iter(lambda: opened.read(1 << 20), b""))
    return 0


def has_all_of(path, other):
    """Whether a file begins with all bytes of another one."""
    with contextlib.suppress(OSError), open(os.open(path, NOT_FOLLOWED), "rb") as longer, open(os.open(other, NOT_FOLLOWED), "rb") as shorter:
        while part := shorter.read(1 << 20):
            if longer.read(len(part)) != part:
                return False
        return True
    return False


def renamed(plant, grown, files):
    """The files that have the bytes which were taken under another name: their old names, by the new ones; and of those that are copies of
    another file, or of its beginning, that file's name. Without a file that is not known yet there are none, and no file is read for it."""
    if all(path in grown for path, _ in files):
        return {}, {}
    present, begins, moves, copies = growing_files(plant), {path: begins_as(plant.path(path), grown) for path, _ in files}, {}, {}
    gone = {name for name in grown if name not in present or name in begins and name not in begins[name]}
    for path, source in (file for file in files if file[0] not in grown or file[0] in gone):
        old = [name for name in begins[path] if name != path and has_rows(grown[name], source)]
        free = [name for name in old if name in gone and name not in moves.values()]
        if free:
            moves[path] = free[-1]
            continue
        lines = lines_in(plant.path(path)) if path not in grown else 0
        old += [name for name in grown if name in present and name not in gone and has_rows(grown[name], source, lines)
                and has_all_of(plant.path(name), plant.path(path))]
        if old:
            copies[path] = old[-1]
    return moves, copies


def read_growing(plant, turn, intake, files, said):
    """Reads the whole lines of growing files that were not taken yet. Answers what is known of the files then."""
    grown, before = grown_of(plant), fed_before(plant)[1]
    moves, copies = renamed(plant, grown, files)
    changed = {old: NEW for old in moves.values()}
    for path, old in moves.items():
        plant.say("%s is the file that was %s: it goes on there" % (shown(path, 255), shown(old, 255)))
        changed[path] = grown[old]
    for path, source in sorted(files, key=lambda file: file[0] not in moves):
        if intake.values.count >= plant.settings.rows_a_run:
            break
        if path in copies:
            not_taken(plant, said, path, "it is a copy of %s, so its rows would be stored twice: remove it" % shown(copies[path], 255))
            continue
        try:
            known = taken_of_next(plant, turn, intake, (path, source), changed.get(path) or grown.get(path, NEW), before)
        except Unfit as why:
            not_taken(plant, said, path, str(why))
            continue
        if known:
            changed[path] = known
    return changed


def taken_of_next(plant, turn, intake, file, known, before):
    """Reads the whole lines of a growing file behind those that are known. Answers what is known of it then; None if there are none."""
    path, source = file
    data, sha, seen = lines_behind(plant.path(path), known)
    if not data:
        return None
    place, size = len(turn.files), known["bytes"] + len(data)
    more, name = {"grows": path, "from": known["bytes"], "to": size}, os.path.basename(path)
    name = "%d.csv" % place if name in [other["name"] for other in turn.files] else name
    read_piece(plant, turn, intake, Piece(name, data, source, more, known["place"]), before)
    if turn.files[place]["spoilt"]:  # its header can not be read: nothing is taken, so that it can be corrected
        raise Unfit(turn.files.pop()["spoilt"])
    write_piece(plant, place, data)
    return {"bytes": size, "sha256": sha, "place": turn.files[place]["place"], "seen": seen if size == seen[1] else None}


def lines_behind(path, known):
    """The whole lines of a growing file behind those that were taken; the sha256 of all of its bytes up to their end; and what the file
    was as it was opened. It takes no more at once than a file may have."""
    try:
        handle = os.open(path, NOT_FOLLOWED)
    except OSError as why:
        raise Unfit("it cannot be read (%s)" % why.strerror) from None
    with open(handle, "rb") as opened:
        info = os.fstat(handle)
        if not stat.S_ISREG(info.st_mode):
            raise Unfit("it is no plain file")
        try:
            sha = sha256_of_next(opened, known["bytes"])
            if sha is None or sha.hexdigest() != known["sha256"]:
                raise Unfit("it no longer begins with the %d bytes that were taken of it. If it is a new file, give it a new name that fits its"
                            " pattern; if its lines were edited, undo that" % known["bytes"])
            data = opened.read(MOST_BYTES)
            sync_read(handle)  # or a power cut could take away what counts as taken, and the file would begin otherwise
        except OSError as why:
            raise Unfit("it cannot be read (%s)" % why.strerror) from None
    data = data[:data.rfind(b"\n") + 1]
    if not data and info.st_size > known["bytes"] + MOST_BYTES:
        raise Unfit("it has a line of more than %d bytes" % MOST_BYTES)
    sha.update(data)
    return data, sha.hexdigest(), [info.st_ino, info.st_size, info.st_mtime_ns]


def write_piece(plant, place, data):
    """Keeps the lines that a turn takes of a growing file, for done/."""
    with open(plant.path("feed.d", "turn", "piece-%d" % place), "wb") as out:
        out.write(data)
        out.flush()
        os.fsync(out.fileno())
