"""inbox.py: the files of the inbox: which are whole, how they are taken out of the hands of others, and where they go once their values
are stored.

The inbox belongs to others: whoever may write there can put anything under any name, and replace it at any moment. So a turn begins by
giving each file a name that nobody knows (feed.d/taken says which), and from then on only that one is looked at. It is opened once, read
once, and moved to done/NUMBER/, the number being that of its turn; or to refused/NUMBER/ if its bytes were fed before or nobody can tell
its columns. What can not be taken or read is a word about that file, and the others are fed."""
import codecs
import collections
import errno
import hashlib
import json
import os
import re
import secrets
import stat
import time

from fields import BadField
from files import UNREADABLE, Refusal, moved, removed, sha256_of, shown, sync_folder, sync_read, write_whole
from rows import Reader
from turns import Refused, Turn, record_of, write_record

AGAIN = 3_600  # seconds after which a file that stays in the inbox is told of again
MOST_BYTES = 67_108_864  # of a file, as the program has it for its own files
BATCH = 2 * MOST_BYTES  # of the files that are taken at once
NOT_FOLLOWED = os.O_RDONLY | os.O_NOFOLLOW | os.O_NONBLOCK | os.O_CLOEXEC
PART = "its name ends in .part, so copying it was stopped. Copy it again, or take .part off its name if it is whole"
GIVEN_UP = (errno.EACCES, errno.EPERM, errno.EIO, errno.EISDIR, errno.ENOTDIR, errno.ELOOP)  # faults of a file, not of the plant's disk
NUMBER = re.compile(r"[0-9]{1,18}")


class Unfit(Exception):
    """Why a file is not read: the words for it."""


# What lies there

def whole_files(plant, said):
    """The files of the inbox that are whole, in order of name, and whether another one was changed just now.

    What is empty or has a last line without an end is still being written, or was cut off: it stays where it is. So does what is no plain
    file *.csv. A file *.part is left to the program that copies it; if it is an hour old, that was stopped. Each call of feed.py says why
    something stays, and with --every it is said again each hour; `said` has when it was said last."""
    folder, names, waiting = inbox_of(plant), [], False
    for name in sorted(name for name in os.listdir(folder) if not name.startswith(".")):
        try:
            info = os.lstat(os.path.join(folder, name))
            if plant.settings.source_of(name).grows and stat.S_ISREG(info.st_mode):
                continue
            age, is_part = time.time() - info.st_mtime, name.lower().endswith(".part")
            if stat.S_ISREG(info.st_mode) and abs(age) < plant.settings.settle_seconds:
                waiting = waiting or not is_part
                continue
            if is_part and age < AGAIN:
                continue
            why = PART if is_part else why_not_taken(os.path.join(folder, name), info)
        except FileNotFoundError:  # somebody renamed or removed it just now
            continue
        if why is None:
            names.append(name)
        else:
            stays(plant, said, name, why)
    return names, waiting


def inbox_of(plant):
    """The path of the inbox."""
    folder = plant.path(plant.settings.inbox)
    if not os.path.isdir(folder):
        raise Refusal(UNREADABLE, "there is no folder %s: make it, or look at `inbox` in feed.toml" % folder)
    return folder


def stays(plant, said, name, why):
    """Says that a file stays where it is."""
    say_hourly(plant, said, name, "%s/%s stays in the inbox: %s" % (plant.settings.inbox, shown(name, 255), why))


def say_hourly(plant, said, name, line):
    """Says a line about a file, unless that was done within the hour; it is a trouble either way."""
    plant.troubles.append(line)
    if name not in said or time.monotonic() > said[name] + AGAIN:
        said[name] = time.monotonic()
        plant.say(line)


def why_not_taken(path, info):
    """Why a file is not taken, or None. Fails if the file is gone."""
    kinds = ((stat.S_ISLNK, "it is a link, and links are not followed: put the file itself there"),
             (stat.S_ISDIR, "it is a folder; files in it are not taken"))
    for is_kind, why in kinds:
        if is_kind(info.st_mode):
            return why
    if not stat.S_ISREG(info.st_mode):
        return "it is no plain file, but a pipe, a socket or a device"
    if not path.lower().endswith(".csv"):
        return "its name does not end in .csv"
    try:
        handle = os.open(path, NOT_FOLLOWED)
    except FileNotFoundError:
        raise
    except OSError as why:
        return "it cannot be read (%s)" % why.strerror
    try:
        return why_not_whole(handle)
    except OSError as why:
        return "it cannot be read (%s)" % why.strerror
    finally:
        os.close(handle)


def why_not_whole(handle):
    """Why an open file is not taken, by its size, its first bytes and its last one; None if it may be."""
    info = os.fstat(handle)
    if not stat.S_ISREG(info.st_mode):
        return "it is no plain file"
    if info.st_size > MOST_BYTES:
        return "it has %d bytes, and a file may have %d: split it" % (info.st_size, MOST_BYTES)
    first = os.pread(handle, 3, 0)
    if first[:2] in (codecs.BOM_UTF16_LE, codecs.BOM_UTF16_BE):
        return "it is UTF-16: save it as UTF-8"
    if first in (b"", codecs.BOM_UTF8) and info.st_size <= len(codecs.BOM_UTF8):
        return "it is empty, so its first row is still to come, or was cut off. If nothing writes to it any more, remove it"
    if os.pread(handle, 1, info.st_size - 1) != b"\n":
        return ("its last line has no end, so it is still being written, or was cut off. If nothing writes to it any more, complete"
                " or remove that line, and end the file with a line end")
    return None


# A turn takes files

def take(plant, names, said):
    """Takes files of the inbox: each gets a name there that nobody knows. Answers all that are taken and not fed yet, the ones that a
    stopped turn took first. So many are taken that the turn surely has enough."""
    folder, new, size, files = plant.path(plant.settings.inbox), [], 0, taken_before(plant)
    taken = {file["name"] for file in files}  # a new file of such a name waits for the next turn
    for name in names:
        if size > BATCH:
            break
        if name in taken:
            continue
        try:
            size += os.lstat(os.path.join(folder, name)).st_size
        except OSError:
            continue
        new.append({"as": ".taken-" + secrets.token_hex(8), "name": name})
    if new:
        note_taken(plant, files + new)
    for file in new:
        try:
            os.rename(os.path.join(folder, file["name"]), os.path.join(folder, file["as"]))
            files.append(file)
        except FileNotFoundError:
            pass
        except OSError as why:
            stays(plant, said, file["name"], "it cannot be taken (%s): who may move files there?" % why.strerror)
    if new:
        sync_folder(folder)
    return files


def note_taken(plant, files):
    """Notes under which names files are taken."""
    write_whole(plant.path("feed.d", "taken"), json.dumps(files, indent=0).encode())


def taken_before(plant):
    """The files that were taken, but not fed."""
    try:
        with open(plant.path("feed.d", "taken")) as text:
            files = [{"as": str(file["as"]), "name": str(file["name"])} for file in json.load(text)]
    except FileNotFoundError:
        return []
    except (ValueError, TypeError, KeyError):
        raise Refusal(UNREADABLE, "feed.d/taken is damaged, and nothing was done. Files of the inbox that a turn had taken are there as"
                      " .taken-*: give them back their names (*.csv), remove feed.d/taken, and run feed.py") from None
    folder = plant.path(plant.settings.inbox)
    return [file for file in files if os.path.lexists(os.path.join(folder, file["as"]))]


def forget_taken(plant, turn):
    """Forgets which files a turn had taken."""
    done = {file.get("as") for file in turn.files}
    files = [file for file in taken_before(plant) if file["as"] not in done]
    if files:
        note_taken(plant, files)
    else:
        removed(plant.path("feed.d", "taken"))


def give_back(plant, file):
    """Gives a taken file back the name that it had, unless another file has that name by now; then it stays taken."""
    folder = plant.path(plant.settings.inbox)
    source, target = os.path.join(folder, file["as"]), os.path.join(folder, file["name"])
    try:
        if not os.path.lexists(target):
            os.rename(source, target)
    except OSError:
        pass  # it stays taken, and the next turn tries again


Piece = collections.namedtuple("Piece", "name data source more place")  # bytes that are read, how, and what the turn notes of them


def read_taken(plant, file):
    """The bytes of a taken file, which is opened once."""
    try:
        handle = os.open(plant.path(plant.settings.inbox, file["as"]), NOT_FOLLOWED)
    except OSError as why:
        raise Unfit("it cannot be read (%s)" % why.strerror) from None
    try:
        why = why_not_whole(handle)
        data = b"" if why else synced_bytes(handle)
        stamp = stamp_of(os.fstat(handle))
    except OSError as fault:
        raise Unfit("it cannot be read (%s)" % fault.strerror) from None
    except MemoryError:
        raise Unfit("there is no memory for it: split it") from None
    finally:
        os.close(handle)
    if why or len(data) > MOST_BYTES or not data.endswith(b"\n"):
        raise Unfit(why or "it was written to just now")
    return Piece(file["name"], data, plant.settings.source_of(file["name"]), {"as": file["as"], "stamp": stamp}, None)


def synced_bytes(handle):
    """All bytes of an open file, or a byte more than a file may have. They are on the disk then: who wrote them may not have seen to that, and
    done/ is to have them after a power cut too."""
    with open(handle, "rb", buffering=0, closefd=False) as opened:
        data = opened.read(MOST_BYTES + 1)
    sync_read(handle)
    return data


def stamp_of(info):
    """What tells whether a file was written to: its number, size and times."""
    return [info.st_ino, info.st_size, info.st_mtime_ns, info.st_ctime_ns]


# What the files hold

def read_files(plant, turn, intake, taken, said):
    """Reads taken files until there are as many values as one run may have, and notes in the turn what is to be known of each."""
    _, before = fed_before(plant)
    for file in taken:
        if intake.values.count >= plant.settings.rows_a_run:
            break
        try:
            read_piece(plant, turn, intake, read_taken(plant, file), before)
        except Unfit as why:
            give_back(plant, file)
            stays(plant, said, file["name"], str(why))


def read_piece(plant, turn, intake, piece, before):
    """Adds the values of a file's bytes, and notes in the turn what is to be known of it. Without memory for it nothing is added."""
    values, source = intake.values, piece.source
    sizes, rounded, over = values.sizes(), values.rounded, intake.over.count
    sha = hashlib.sha256(piece.data).hexdigest()
    file = {"name": piece.name, "sha256": sha, "bytes": len(piece.data), "rows": 0, "refused": 0, "late": 0, "rounded": 0, "causes": [],
            "nothing": "", "spoilt": "", "twice": "", "goes": "done"} | piece.more
    if sha in before and not source.grows:
        file.update(goes="refused", twice="%s, which was fed in turn %d" % before[sha][::-1])
        turn.files.append(file)
        return
    refused = Refused(plant, len(turn.files), source.separator)
    try:
        reader = Reader(intake, source, refused.add, piece.place)
        reader.read(piece.data, lambda done, size: plant.progress("%s: %d %% read" % (shown(piece.name), 100 * done // size)))
    except BadField as why:
        refused.drop()
        file.update(goes="refused", spoilt=str(why), refused=max(1, lines_in(piece.data) - 1))
    except MemoryError:
        values.cut(sizes)
        refused.drop()
        raise Unfit("there is no memory for it: split it") from None
    else:
        refused.close()
        file.update(rows=values.count - sum(sizes.values()), refused=refused.count, written=refused.written, causes=refused.causes(),
                    late=intake.over.count - over, rounded=values.rounded - rounded, place=reader.place())
        if not file["rows"] and not file["refused"] and not file["late"]:
            file["nothing"] = kind_of_nothing(piece.data)
    if file["rows"]:
        before[sha] = turn.number, piece.name
    turn.files.append(file)


def lines_in(data):
    """How many lines are not blank."""
    return sum(bool(line.strip()) for line in data.removeprefix(codecs.BOM_UTF8).split(b"\n"))


def kind_of_nothing(data):
    """What a file has that has neither values nor refused rows."""
    return ("blank lines alone", "a header, and no row", "rows, and no value in any")[min(lines_in(data), 2)]


# What was fed

def fed_lines(plant):
    """What the end of feed.d/fed says, line by line: of each file that had values its turn, sha256 and name, and of each turn its counts."""
    return lines_told(plant.path("feed.d", "fed"))


def last_turn_in(path):
    """The number of the last turn in a list of what was fed; 0 if there is none."""
    return max((told["turn"] for told in lines_told(path)), default=0)


def lines_told(path):
    """The lines at the end of a list of what was fed. A line that is none is passed over."""
    try:
        with open(path, "rb") as text:
            text.seek(max(0, text.seek(0, os.SEEK_END) - 3_000_000))
            lines = text.read().split(b"\n")
    except FileNotFoundError:
        lines = []
    for line in lines:
        try:
            told = json.loads(line)
        except ValueError:
            continue
        if type(told) is dict and type(told.get("turn")) is int and 0 <= told["turn"] < 10**18:
            yield told


def fed_before(plant):
    """The number of the last turn, and the files that had values (the last ten thousand or so): sha256 to turn and name."""
    folders = [plant.path(folder) for folder in ("done", "refused", "undone") if os.path.isdir(plant.path(folder))]
    number = max((int(name) for folder in folders for name in os.listdir(folder) if NUMBER.fullmatch(name)), default=0)
    files = {}
    for told in fed_lines(plant):
        number = max(number, told["turn"])
        if "sha256" in told:
            files[told["sha256"]] = told["turn"], str(told.get("file"))
    return number, files


def fed_by(turn, counts):
    """What feed.d/fed says of a turn: a line for each file that had values, and one for the turn."""
    return [{"turn": turn.number, "file": file["name"], "sha256": file["sha256"], "rows": file["rows"]} for file in turn.files
            if file["rows"]] + [{"turn": turn.number} | counts]


def fullness(state):
    """How many records all tags have together, and which tag has the most, by the tag lines of all tags."""
    most = max(state.values(), key=lambda tag: tag.records, default=None)
    return {"records": sum(tag.records for tag in state.values()), "fullest": most and [most.name, most.records]}


def note_fed(plant, told):
    """Adds lines to feed.d/fed, so that the same bytes are not fed twice. A line twice in the list does no harm."""
    with open(plant.path("feed.d", "fed"), "a+b") as out:
        out.seek(max(0, out.seek(0, os.SEEK_END) - 1))
        torn = out.read() not in (b"", b"\n")
        out.write(("\n" * torn + "".join(json.dumps(line) + "\n" for line in told)).encode())
        out.flush()
        os.fsync(out.fileno())
    sync_folder(plant.path("feed.d"))


# Where files go

def put_file(plant, turn, place, file):
    """Moves a file of a finished turn out of the inbox. Repeated after a stop it finds the file moved. One that cannot be moved is said,
    and no turn waits for it."""
    source, folder = plant.path(plant.settings.inbox, file["as"]), turn.folder(file["goes"])
    if not os.path.lexists(source):
        return
    os.makedirs(plant.path(folder), exist_ok=True)
    try:
        if put_changes(plant, turn, place, file, source):
            moved(source, plant.path(folder, file["name"]))
    except OSError as why:
        if why.errno not in GIVEN_UP:
            raise
        plant.trouble("%s cannot be moved to %s (%s). Its values are stored; remove %s" % (
            shown(file["name"], 255), folder, why.strerror, shown(source, 255)))
    for made in (folder, os.path.dirname(folder), ""):
        sync_folder(plant.path(made))


def put_changes(plant, turn, place, file, source):
    """Looks whether a file was written to since it was read. What came later goes to refused/, because it is not stored; and so does the
    whole file if it has other bytes now. Answers whether the file is still to be moved."""
    if stamp_of(os.lstat(source)) == file["stamp"]:
        return True
    with open(os.open(source, NOT_FOLLOWED), "rb") as opened:
        first, later = opened.read(file["bytes"]), opened.read(MOST_BYTES)
    name, folder = shown(file["name"], 255), turn.folder("refused")
    if hashlib.sha256(first).hexdigest() == file["sha256"]:
        if later:
            put_later(plant, turn, place, file, later)
        return True
    os.makedirs(plant.path(folder), exist_ok=True)
    moved(source, plant.path(folder, "changed-%d.csv" % place))
    sync_folder(plant.path(folder))
    plant.trouble("%s was changed while it was fed. The %d values that it had are stored; what it has now is not, and is %s/changed-%d.csv" % (
        name, file["rows"], folder, place))
    return False


def put_later(plant, turn, place, file, later):
    """Puts what was written to a file after it was read into refused/, with the file's header, so that it can be fed. Notes of the file how
    far it was looked at."""
    folder, seen = turn.folder("refused"), file.get("seen", file["bytes"])
    name = "later-%d-%d.csv" % (place, seen)
    os.makedirs(plant.path(folder), exist_ok=True)
    header = (file.get("place") or {}).get("header") or ""
    write_whole(plant.path(folder, name), header.encode() + b"\n" * bool(header) + later)
    file["seen"] = seen + len(later)
    plant.trouble("%s was written to after it was taken: its first %d values are stored. What came later is not, and is %s/%s; move that file"
                  " to the inbox" % (shown(file["name"], 255), file["rows"], folder, name))


def look_back(plant):
    """Looks whether a program went on to write to a file after its turn: the rows of the last turn's files that came so are not stored, and
    go to refused/."""
    last = max((told["turn"] for told in fed_lines(plant)), default=0)
    record = record_of(plant, last) if last else None
    for place, file in enumerate(record.files if record else ()):
        turn, path = Turn(last, [], {}, None), plant.path("done", "%06d" % last, file["name"])
        try:
            size = os.lstat(path).st_size
        except OSError:
            continue
        if file["goes"] == "done" and "grows" not in file and size > file.get("seen", file["bytes"]):
            with open(os.open(path, NOT_FOLLOWED), "rb") as opened:
                opened.seek(file.get("seen", file["bytes"]))
                put_later(plant, turn, place, file, opened.read(MOST_BYTES))
            write_record(plant, record)
