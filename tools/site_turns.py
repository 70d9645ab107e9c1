"""site_turns.py: a turn of the router as it stands in feed.d/turns, so that it can be finished after a stop at any moment.

A turn takes files of the site's inbox. It writes their names down (taking.json), takes them by a rename, so that nobody can put another
file in their place, and routes their rows into files for the parts, which lie in the turn's folder. Once these are synced it writes
turn.json: from then on they alone count. Each part is given its files, turn after turn; a part that has one already is passed over. When
all parts have theirs, the files of the inbox go to done/, and the turn ends. So a part that takes nothing holds up no other one."""
import contextlib
import errno
import json
import os
import re
import shutil

from inbox import fed_before, note_fed
from files import json_text
from plant import CHANGED, Refusal, copied, shown, sync_folder, write_whole
from site_router import Refused, Router, Unroutable, opened
from telling import lines_of

TURNS = os.path.join("feed.d", "turns")
TURN_BYTES, TURN_FILES = 256_000_000, 5_000  # of a turn, but at least one file
NUMBER = re.compile(r"\d{9}")


class Turn:
    """A turn that is written down: its files, and what each part is given."""

    def __init__(self, site, number, files, parcels):
        self.site, self.number, self.files, self.parcels = site, number, files, parcels

    def path(self, *names):
        return turn_path(self.site, self.number, *names)

    def folder(self, name):
        """Where its files go: done/000012 or refused/000012."""
        return os.path.join(name, "%06d" % self.number)


def turn_path(site, number, *names):
    return site.path(TURNS, "%09d" % number, *names)


def taken_name(number, place):
    """The name of a file of the inbox while it is routed. Names with a point in front are taken by nobody."""
    return ".site-%09d-%04d" % (number, place)


def numbers(site):
    """The numbers of the turns that are unfinished."""
    folder = site.path(TURNS)
    return sorted(int(name) for name in os.listdir(folder) if NUMBER.fullmatch(name)) if os.path.isdir(folder) else []


def unfinished(site):
    """The turns that are written down and not ended. One that was stopped before it was written down is made anew from the files that it
    took; what is left of one that was ended is removed."""
    found = []
    for number in numbers(site):
        if os.path.exists(turn_path(site, number, "turn.json")):
            found.append(read(site, number))
        elif os.path.exists(turn_path(site, number, "taking.json")):
            found.append(made(site, number, found))
        else:
            shutil.rmtree(turn_path(site, number))
    return found


def read(site, number):
    """A turn as it was written down."""
    with contextlib.suppress(FileNotFoundError):
        os.remove(turn_path(site, number, "taking.json"))
        sync_folder(turn_path(site, number))
    try:
        with open(turn_path(site, number, "turn.json")) as text:
            kept = json.load(text)
        return Turn(site, number, kept["files"], kept["parcels"])
    except (OSError, ValueError, KeyError, TypeError):
        raise Refusal(CHANGED, "%s is damaged, and nothing was done. Its files stand in the inbox under the names %s: give them their names"
                      " of taking.json again, and move that folder away; of a part that has its file already the rows come twice then"
                      % (turn_path(site, number, "turn.json"), taken_name(number, 0)[:-4] + "*")) from None


def begun(site, names, before):
    """A turn of the first of these files of the inbox."""
    number = max([fed_before(site)[0], *numbers(site)]) + 1
    os.makedirs(turn_path(site, number))
    for folder in ("feed.d", TURNS):
        sync_folder(site.path(folder))
    write_json(turn_path(site, number, "taking.json"), {"turn": number, "names": list(some(site, names))})
    return made(site, number, before)


def some(site, names):
    """As many files of the inbox as a turn takes."""
    size = 0
    for count, name in enumerate(names):
        with contextlib.suppress(OSError):
            size += os.lstat(site.path(site.settings.inbox, name)).st_size
        if count and (size > TURN_BYTES or count >= TURN_FILES):
            return
        yield name


def write_json(path, what):
    write_whole(path, json_text(what).encode())


def made(site, number, before):
    """Takes the files of a turn, routes them, and writes the turn down."""
    folder = turn_path(site, number)
    names = names_of(folder)
    for name in set(os.listdir(folder)) - {"taking.json"}:
        os.remove(os.path.join(folder, name))
    take_files(site, number, names)
    router = Router(site, folder, number, site.jobs - 1)
    fed = fed_before(site)[1] | {file["sha256"]: (turn.number, file["name"]) for turn in before for file in turn.files if file["rows"]}
    files = [file for place, name in enumerate(names) if (file := routed(site, router, number, place, name, fed))]
    router.close()
    parcels = [parcel(site.parts[lot.place], number, *file) for lot in router.lots for file in lot.files()]
    sync_folder(folder)
    write_json(os.path.join(folder, "turn.json"), {"turn": number, "files": files, "parcels": parcels})
    os.remove(os.path.join(folder, "taking.json"))
    sync_folder(folder)
    return Turn(site, number, files, parcels)


def names_of(folder):
    """The names that a turn takes."""
    try:
        with open(os.path.join(folder, "taking.json")) as text:
            return list(json.load(text)["names"])
    except (ValueError, KeyError, TypeError):
        raise Refusal(CHANGED, "%s/taking.json is damaged, and nothing was done: move that folder away. The files that it took stand in the"
                      " inbox under names that begin with .site-: give them names *.csv again" % folder) from None


def take_files(site, number, names):
    """Takes files of the inbox by a rename. One that somebody renamed or removed meanwhile is passed over."""
    inbox = site.path(site.settings.inbox)
    for place, name in enumerate(names):
        if not os.path.lexists(os.path.join(inbox, taken_name(number, place))):
            with contextlib.suppress(FileNotFoundError):
                os.rename(os.path.join(inbox, name), os.path.join(inbox, taken_name(number, place)))
    sync_folder(inbox)


def routed(site, router, number, place, name, fed):
    """Routes a file that was taken: what is to be known of it, or None if it is gone. What is wrong with it concerns it alone."""
    path = site.path(site.settings.inbox, taken_name(number, place))
    file = {"name": name, "place": place, "sha256": "", "rows": 0, "refused": 0, "causes": [], "goes": "done", "twice": "", "why": ""}
    refused = Refused(site, turn_path(site, number, "refused-%04d.csv" % place), router.separator)
    try:
        with opened(path) as data:
            sha, _, rows, marks = router.route(data, refused)
            status = os.fstat(data.fileno())
        refused.close()
    except FileNotFoundError:
        return None
    except (Unroutable, OSError, MemoryError) as why:
        if isinstance(why, OSError) and why.errno in (errno.ENOSPC, errno.EDQUOT):
            raise
        refused.drop()
        return file | {"goes": "refused", "why": getattr(why, "strerror", None) or str(why) or "there is too little memory for it"}
    if sha in fed:
        router.back_to(marks)
        refused.drop()
        return file | {"goes": "refused", "twice": "%s, which was fed in turn %d" % fed[sha][::-1]}
    if rows:
        fed[sha] = number, name
    return file | {"sha256": sha, "rows": rows, "refused": refused.count, "causes": refused.causes(), "size": status.st_size,
                   "changed": status.st_mtime_ns}


def parcel(part, number, name, sha):
    """What is to be known of a file for a part."""
    return {"folder": part.folder, "worker": part.worker, "file": name, "name": "site-%09d-%s" % (number, name.split("-")[1]), "sha256": sha}


def ended(turn):
    """Notes the files of a turn as fed, puts them away, and ends the turn. After a stop in between all of it is repeated."""
    site = turn.site
    note_fed(site, [{"turn": turn.number, "file": file["name"], "sha256": file["sha256"], "rows": file["rows"]} for file in turn.files
                    if file["rows"]])
    for file in turn.files:
        put_away(site, turn, file)
    for folder in ("", "done", "refused", turn.folder("done"), turn.folder("refused"), site.settings.inbox):
        if os.path.isdir(site.path(folder)):
            sync_folder(site.path(folder))
    os.remove(turn.path("turn.json"))
    sync_folder(turn.path())
    shutil.rmtree(turn.path())


def put_away(site, turn, file):
    """Moves a file to done/ or refused/, and copies its refused rows. A file that was written to since it was routed goes to refused/."""
    source, goes = site.path(site.settings.inbox, taken_name(turn.number, file["place"])), file["goes"]
    if file["refused"]:
        os.makedirs(site.path(turn.folder("refused")), exist_ok=True)
        copied(turn.path("refused-%04d.csv" % file["place"]), site.path(turn.folder("refused"), file["name"]))
    if not os.path.lexists(source):
        return
    name = file["name"]
    if goes == "done" and was_changed(source, file):
        goes, name = "refused", name[:200] + ".changed"
        site.say("  %s was written to after its rows were taken: its first %d rows are stored, later ones are not. It goes to %s/%s" % (
            shown(file["name"], 255), file["rows"], turn.folder(goes), shown(name, 255)))
    os.makedirs(site.path(turn.folder(goes)), exist_ok=True)
    move(source, site.path(turn.folder(goes), name))


def was_changed(source, file):
    status = os.lstat(source)
    return (status.st_size, status.st_mtime_ns) != (file["size"], file["changed"])


def move(source, target):
    """Moves a file, also to another disk. What is no plain file stays on its disk."""
    try:
        os.rename(source, target)
    except OSError as why:
        if why.errno != errno.EXDEV:
            raise
        if os.path.isfile(source) and not os.path.islink(source):
            copied(source, target)
            sync_folder(os.path.dirname(target))
            os.remove(source)


def tell(turn):
    """A line for a turn, and lines for each file of which something is not routed: whether there is one."""
    parts = {(parcel["folder"], parcel["worker"]) for parcel in turn.parcels}
    if turn.files:
        turn.site.say("turn %d: %d files, %d rows for %d parts, %d refused" % (
            turn.number, len(turn.files), sum(file["rows"] for file in turn.files), len(parts), sum(file["refused"] for file in turn.files)))
    for file in turn.files:
        if file["why"]:
            turn.site.say("  %s: %s. Nothing of it is stored, and it goes to %s" % (shown(file["name"], 255), file["why"], turn.folder("refused")))
        for line in lines_of(turn, file):
            turn.site.say(line)
    return any(file["refused"] or file["why"] or file["twice"] for file in turn.files)
