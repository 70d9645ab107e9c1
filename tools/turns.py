"""turns.py: a turn as it stands in feed.d, so that it can be finished after a stop at any moment, and as it stands in done/, so that it
can be made again.

`feed.d/turn/rows.csv` has all its rows as the program takes them, grouped by tag; `feed.d/turn.json`, which is put there last of all,
has its files and how many events each tag had taken before. While turn.json is there the turn is unfinished, and none begins.

`done/NUMBER/` has the files that were fed, as they came, and what was stored of them: `stored.rows` has the rows (tag, milliseconds,
stored value), and `turn.json` how many of each tag are stored (the first ones), its scale, and how many events it had before and after.
`base.toml` is there if the turn was the first one with that base."""
import collections
import csv
import io
import json
import os
import shutil

from fields import NUMBER
from files import CHANGED, UNREADABLE, Refusal, bytes_of, copied, json_text, moved, removed, sync_folder, write_whole
from rows import REFUSED_HEADER, REFUSED_QUALITY, Values
from settings import AGAIN

WORK = "feed.d/turn"
KNOWN = {"taken", "late", "held", "rows", "scale"}  # what is written down of a tag of a turn
COLLECTORS = 16  # of a plan, at most
TAG_BYTES = 33_000_000  # of a tag's rows in a run: so each collector's file is shorter than the 67,108,864 bytes that the program takes
REFUSED_BYTES = 67_108_864  # of the refused rows of a file that are written down: a longer file would not be taken again
FIELD = 1_000  # characters of a field that are written down
CAUSES = 50  # of a file that are told apart
STORED, TOLD = "stored.rows", "turn.json"  # what a turn leaves in done/NUMBER beside its files; no file of the inbox has such a name


class Turn:
    """The files of a turn, their rows by tag, and how many events each tag had taken before. `notes` has what else has to be known after a
    stop: the base's sha256, and what the feeder keeps of growing files and of the quality of tags. `spans` has where the rows of each tag
    stand in rows.csv, if this process wrote them there."""

    def __init__(self, number, files, tags, values, notes=None):
        self.number, self.files, self.tags, self.values, self.notes, self.spans = number, files, tags, values, notes or {}, {}

    def folder(self, name):
        """Where its files go: done/000012 or refused/000012."""
        return os.path.join(name, "%06d" % self.number)

    def stored(self, name, state):
        """How many of its rows a tag has stored: the first ones."""
        return state[name].taken - self.tags[name]["taken"]


class Refused:
    """The refused rows of a file of a turn, which go to the disk as they come, and why they are refused."""

    def __init__(self, plant, place, separator):
        self.path, self.separator, self.found = plant.path(WORK, "refused", str(place)), separator, {}
        self.count = self.written = 0
        self.out = self.plain = self.quoted = None
        self.is_full = False

    def add(self, tag, time, value, number, why, quality=None):
        """A row that is not stored; in a form that can be corrected and put into the inbox again."""
        self.count += 1
        cause = why.cause if why.cause in self.found or len(self.found) < CAUSES else "other reasons"
        known = self.found.setdefault(cause, [0, number, tag[:80], str(why)])
        known[0] += 1
        if self.out is None:
            self.out = open(self.path, "w", newline="", encoding="utf-8", errors="surrogateescape")
            self.plain = csv.writer(self.out, delimiter=self.separator, lineterminator="\n")
            self.quoted = csv.writer(self.out, delimiter=self.separator, lineterminator="\n", quoting=csv.QUOTE_ALL)
            self.plain.writerow(REFUSED_HEADER if quality is None else REFUSED_QUALITY)
        if self.count % 1000 == 0:
            self.is_full = self.out.tell() >= REFUSED_BYTES
        if not self.is_full:
            self.written += 1
            row = [harmless(field) for field in (tag, time, value, quality) if field is not None]
            (self.quoted if "\r" in "".join(row) else self.plain).writerow(row + [number, str(why)])

    def causes(self):
        """Each cause: how many rows have it, and of the first one the number, the tag and the reason."""
        return [[cause, *known] for cause, known in self.found.items()]

    def close(self):
        """Makes the rows durable."""
        if self.out is not None:
            self.out.flush()
            os.fsync(self.out.fileno())
            self.out.close()

    def drop(self):
        """Forgets the rows."""
        if self.out is not None:
            self.out.close()
            removed(self.path)


def harmless(field):
    """A field as it is written down: not longer than a field may be, and with a quote before what a spreadsheet would take for a
    formula."""
    field = field[:FIELD]
    return "'" + field if field[:1] in ("=", "@", "+", "-", "\t") and not NUMBER.fullmatch(field.replace(",", ".")) else field


def prepare(plant):
    """Makes an empty place for a turn that is read."""
    shutil.rmtree(plant.path(WORK), ignore_errors=True)
    os.makedirs(plant.path(WORK, "refused"))


def write_down(plant, turn):
    """Makes a turn durable. A stop before turn.json is there leaves the files as they were, and no turn."""
    with open(plant.path(WORK, "rows.csv"), "wb") as out:
        for name, wanted in turn.tags.items():
            begin = out.tell()
            write_rows(out, name, turn.values, 0, wanted["rows"])
            turn.spans[name] = begin, out.tell()
        out.flush()
        os.fsync(out.fileno())
    for folder in (os.path.join(WORK, "refused"), WORK):
        sync_folder(plant.path(folder))
    text = json_text({"turn": turn.number, "files": turn.files, "tags": turn.tags, "notes": turn.notes})
    write_whole(plant.path("feed.d", TOLD), text.encode())


def write_rows(out, name, values, first, count):
    """Rows of a tag as a collector's file has them."""
    times, numbers = values.of(name)
    for start in range(first, first + count, 100_000):
        end = min(first + count, start + 100_000)
        out.write("".join([f"{name},{t},{v}\n" for t, v in zip(times[start:end], numbers[start:end])]).encode())


def write_refused(plant, name, rows, separator):
    """Rows that are read, but not stored, as a file of refused/."""
    text = io.StringIO(newline="")
    csv.writer(text, delimiter=separator, lineterminator="\n").writerows([REFUSED_HEADER] + rows)
    with open(plant.path(WORK, "refused", name), "w", newline="") as out:
        out.write(text.getvalue())
        out.flush()
        os.fsync(out.fileno())


def unfinished(plant):
    """The turn that a stop left, or None. What a stop left of a turn before it began or after it ended is removed."""
    if not os.path.exists(plant.path("feed.d", TOLD)):
        shutil.rmtree(plant.path(WORK), ignore_errors=True)
        return None
    try:
        with open(plant.path("feed.d", TOLD)) as text:
            kept = json.load(text)
        turn = Turn(kept["turn"], kept["files"], kept["tags"], read_rows(plant.path(WORK, "rows.csv")), kept["notes"])
        whole = is_whole(turn)
    except (ValueError, KeyError, TypeError, AttributeError, FileNotFoundError):
        whole = False
    if not whole:
        raise Refusal(CHANGED, "what stands in feed.d of an unfinished turn is damaged, so nobody can say which rows are stored, and"
                      " nothing was done. Put the plant back from a backup: feed.py --restore last.")
    return turn


def is_whole(turn):
    """Whether a turn that was written down has a list of files, and of each tag what is known of it and all of its rows."""
    return (type(turn.files) is list and set(turn.tags) == set(turn.values.tags)
            and all(KNOWN <= set(known) and len(turn.values.of(name)[0]) == known["rows"] for name, known in turn.tags.items()))


def read_rows(path, most=None):
    """The rows of a collector's file; with `most`, the first ones of each tag and how many these are."""
    values, left = Values(), dict(most or {})
    with open(path) as rows:
        for row in rows:
            name, t, v = row.split(",")
            if most is None or left.get(name, 0) > 0:
                values.add(name, int(t), int(v))
                left[name] = left.get(name, 0) - 1
    return values


def row_bytes(name):
    """How long a row of a tag may be: its name, a time before the year 10000, a value within 10^15, two commas and the line's end."""
    return len(name.encode()) + 15 + 17 + 3


def write_plan(plant, turn, part):
    """The collectors' files and the plan of a run; the part has of each tag the first row and how many. All rows of a tag go to one
    collector, one tag behind the other: a collector syncs each tag that it took twice for 64 rows, so rows in order of time would
    cost some thirty times as many syncs."""
    shares = [[] for _ in range(min(COLLECTORS, len(part)))]
    size = {name: row_bytes(name) * count for name, (_, count) in part.items()}
    sums = [0] * len(shares)
    for name in sorted(part, key=lambda name: -size[name]):
        least = sums.index(min(sums))
        shares[least].append(name)
        sums[least] += size[name]
    for number, share in enumerate(shares):
        with open(plant.path(WORK, "%d.csv" % number), "wb") as out, open(plant.path(WORK, "rows.csv"), "rb") as written:
            for name in share:
                if name in turn.spans and part[name] == (0, turn.tags[name]["rows"]):
                    begin, end = turn.spans[name]
                    written.seek(begin)
                    out.write(written.read(end - begin))
                else:
                    write_rows(out, name, turn.values, *part[name])
    with open(plant.path(WORK, "plan.toml"), "w") as out:
        out.writelines('[[collector]]\nfile = "%s/%d.csv"\n' % (WORK, number) for number in range(len(shares)))
    return WORK + "/plan.toml"


def stored_scales(plant):
    """With what scale the values of each tag are stored."""
    try:
        with open(plant.path("feed.d", "scales")) as text:
            return {str(name): int(scale) for name, scale in json.load(text).items()}
    except FileNotFoundError:
        return {}
    except (ValueError, AttributeError, TypeError):
        raise Refusal(CHANGED, "feed.d/scales is damaged, and nothing was done. Put it back from the newest backup.") from None


def require_scales(plant, tags):
    """Ends with a refusal if a tag has another scale now than that of its values: all of them would be read wrongly."""
    for name, scale in stored_scales(plant).items():
        now = plant.scale(name, tags[name]) or 1 if name in tags else scale
        if now != scale:
            raise Refusal(UNREADABLE, "the values of %s are stored with scale %d, and feed.toml (or `engunits` in base.toml) has %d now, so"
                          " all of them would be read wrongly. Nothing was done. Put the old scale back; who needs another one gives the tag"
                          " another name in base.toml, which begins empty." % (name, scale, now))


def note_scales(plant, turn):
    """Notes with what scale the values of a turn were stored."""
    scales = stored_scales(plant) | {name: wanted["scale"] for name, wanted in turn.tags.items()}
    write_whole(plant.path("feed.d", "scales"), json_text(scales).encode())


def put_refused(plant, turn):
    """Moves the refused rows to refused/, each under the name of its file."""
    for name in os.listdir(plant.path(WORK, "refused")):
        os.makedirs(plant.path(turn.folder("refused")), exist_ok=True)
        own = refused_name(turn.files[int(name)]) if name.isascii() and name.isdigit() else name
        moved(plant.path(WORK, "refused", name), plant.path(turn.folder("refused"), own))


def refused_name(file):
    """The name of the file of a file's refused rows. A growing file is still there under its own name, which must not be taken."""
    return (AGAIN + file["name"])[:250] if "grows" in file else file["name"]


def put_piece(plant, turn, place, file):
    """Moves the lines that were taken of a growing file to done/."""
    os.makedirs(plant.path(turn.folder("done")), exist_ok=True)
    moved(plant.path(WORK, "piece-%d" % place), plant.path(turn.folder("done"), file["name"]))


def note_kept(plant, turn):
    """Notes what the turn found out of growing files and of the quality of tags."""
    for key in ("grown", "quality"):
        if turn.notes.get(key):
            path = plant.path("feed.d", key)
            known = json.loads(bytes_of(path)) if os.path.exists(path) else {}
            write_whole(path, json_text(known | turn.notes[key]).encode())


def put_record(plant, turn, state, time):
    """Puts into done/ what the turn stored. The files are moved there apart."""
    folder = plant.path(turn.folder("done"))
    os.makedirs(folder, exist_ok=True)
    tags = {name: {"rows": known["rows"], "stored": turn.stored(name, state), "scale": known["scale"], "taken": known["taken"],
                   "after": state[name].taken} for name, known in turn.tags.items()}
    kept = {key: turn.notes[key] for key in ("base", "grown", "quality")}
    if turn.notes["new_base"]:
        copied(plant.path("feed.d", "base.toml"), os.path.join(folder, "base.toml"))
    if turn.tags:
        linked(plant.path(WORK, "rows.csv"), os.path.join(folder, STORED))
    write_record(plant, Record(turn.number, time, turn.files, tags, kept))


def linked(source, target):
    """Gives a file a second name; on another disk, a synced copy."""
    removed(target)
    try:
        os.link(source, target)
    except OSError:
        copied(source, target)


Record = collections.namedtuple("Record", "number time files tags notes")  # what done/NUMBER/turn.json says


def write_record(plant, record):
    """Writes what a turn leaves in done/ about itself."""
    text = json_text({"form": 1, "turn": record.number, "time": record.time, "files": record.files, "tags": record.tags,
                      "notes": record.notes})
    write_whole(plant.path("done", "%06d" % record.number, TOLD), text.encode())


def record_of(plant, number):
    """What a turn left in done/ about itself, or None if that is not there."""
    path = plant.path("done", "%06d" % number, TOLD)
    try:
        with open(path) as text:
            told = json.load(text)
        return Record(told["turn"], told["time"], told["files"], told["tags"], told["notes"])
    except FileNotFoundError:
        return None
    except (ValueError, KeyError, TypeError):
        raise Refusal(CHANGED, "%s is damaged, and nothing was done" % path) from None


def end(plant, turn):
    """Makes durable where the files of a turn went, and ends it."""
    for folder in ("", "done", "refused", turn.folder("done"), turn.folder("refused"), plant.settings.inbox):
        if os.path.isdir(plant.path(folder)):
            sync_folder(plant.path(folder))
    removed(plant.path("feed.d", TOLD))
    sync_folder(plant.path("feed.d"))
    shutil.rmtree(plant.path(WORK), ignore_errors=True)
