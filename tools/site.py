#!/usr/bin/env python3
"""site.py: feeds and asks several plants as one: more tags, more years or more machines than one plant has.

A site is a folder with a site.toml that lists its parts, each the folder of a plant (docs/RUNNING.md, "More than one plant"). `feed` takes
the CSV files of the site's inbox, gives each part its rows, each exactly once whatever is stopped at whatever moment, and then feeds all
parts beside each other. A part that fails stops alone: the others go on, and the last lines name it.

Exit status: 0 all is well; else that of the first part that failed (feed.py --help), or of this tool: 2 wrong words; 20 another process
works on the site, or a turn is unfinished; 21 what a turn wrote down is damaged; 22 a text or a file cannot be read or written; 24 rows
were refused; 25 a worker or the scheduler is away; 127 no Dask."""
import argparse
import os
import re
import sys
import time
import types

import answers
import ask
import clock
import site_board
import site_turns
from devices import PLANT_RECORDS, TAG_RECORDS
from fields import decimal_text
from inbox import whole_files
from options import plain_words
from plant import BUSY, CHANGED, REFUSED, UNREADABLE, Refusal, bytes_of, copied, ended, sync_folder, write_whole
from site_answers import as_plant, opener
from site_machines import Machines, copy_texts
from site_next import name_of_next, with_part
from site_parts import Site
from site_work import is_new
from tables import printed

STAMP = re.compile(r"\d{4}-\d\d-\d\d \d\d:\d\d:\d\d[+-]\d{4} ")  # with which a tool begins its lines in a log
PATIENCE = 3  # looks into an inbox in which a file was changed just now


# Feeding

def feed(site, machines, given):
    """Routes all files of the inbox, and then feeds all parts beside each other."""
    said = {}
    while True:
        with site.locked("site.py", given.wait):
            copy_texts(site, machines)
            site.read()
            status = routed_and_fed(site, machines, given, said)
        if given.every is None:
            return status
        time.sleep(given.every)


def routed_and_fed(site, machines, given, said):
    """One feed: the exit status."""
    troubles, patience, refused, turns = {}, PATIENCE, False, site_turns.unfinished(site)
    if turns:
        site.say("%d turns were stopped: they are finished now" % len(turns))
    while True:
        turns = [turn for turn in turns if not given_to_all(turn, machines, troubles)]
        names, waiting = whole_files(site, said)
        if names:
            turns.append(site_turns.begun(site, names, turns))
            refused = site_turns.tell(turns[-1]) or refused
        elif waiting and patience:
            time.sleep(site.settings.settle_seconds)
            patience -= 1
        else:
            break
    if not given.route_only:
        troubles |= fed(site, machines, troubles)
    return told(site, troubles, refused)


def given_to_all(turn, machines, troubles):
    """Gives each part its files of a turn, and ends the turn if all have theirs: whether it did. A part that failed once is passed over,
    so that its files come in their order."""
    parts = {(part.folder, part.worker): part for part in turn.site.parts}
    waiting = {}
    for parcel in turn.parcels:
        waiting.setdefault(parts.get((parcel["folder"], parcel["worker"]), parcel["folder"]), []).append(parcel)
    for gone in [part for part in waiting if isinstance(part, str)]:
        troubles[gone] = 22, "site.toml does not list it any more, and it has rows of turn %d to come: put it back" % turn.number
    when = min([file["changed"] / 1e9 for file in turn.files if "changed" in file], default=0)
    for number in range(max(map(len, waiting.values()), default=0)):
        give(turn, machines, {part: parcels[number] for part, parcels in waiting.items() if number < len(parcels)}, when, troubles)
    if any(part in troubles for part in waiting):
        return False
    site_turns.ended(turn)
    return True


def give(turn, machines, parcels, when, troubles):
    """Gives each of these parts a file, and notes why one did not get it."""
    files = {part: (turn.path(parcel["file"]), parcel["name"], parcel["sha256"]) for part, parcel in parcels.items() if part not in troubles}
    for part, done in machines.put(files, when).items():
        if done.status:
            troubles[part] = done.status, done.why()


def fed(site, machines, troubles):
    """Runs feed.py for each part, all beside each other, and prints what each says: of each that failed the exit status and why."""
    found = {}
    results = machines.all([(part, "feed.py", [folder_of(part)], b"") for part in site.parts],
                           progress_of("%d of %d parts are fed"))
    for part, done in results.items():
        for line in done.out.splitlines():
            site.say("%s: %s" % (part.folder, STAMP.sub("", line, 1)))
        if done.status:
            found[part] = done.status, done.why()
    return {part: why for part, why in found.items() if part not in troubles}


def told(site, troubles, refused):
    """Prints of each part that failed why, and answers the exit status."""
    stopped = {part: trouble for part, trouble in troubles.items() if trouble[0] != REFUSED}
    for part, (status, why) in stopped.items():
        site.say("%s stopped with %d, and the other parts went on: %s" % (getattr(part, "folder", part), status, why))
    if stopped:
        return next(iter(stopped.values()))[0]
    return REFUSED if refused or troubles else 0


def progress_of(text):
    """What prints a line of progress on a terminal, and nothing in a log."""
    if not sys.stderr.isatty():
        return None

    def progress(count, of):
        sys.stderr.write("\r" + text % (count, of) + ("\n" if count == of else ""))
        sys.stderr.flush()
    return progress


# Asking

def ask_site(site, machines, given):
    """Answers questions as ask.py does, over all parts."""
    copy_texts(site, machines)
    site.read()
    return ask.answer(as_plant(site), given.parser, given, opener(machines))


# Looking after the parts

CHECK = ("tag", "part", "taken", "records", "full %", "full at", "newest", "value", "unit", "age", "note")
END_OF_DATES = 253_370_764_800_000


def check(site, machines, given):
    """Prints a line for each tag: the part that has its values now, how full that is, and the newest value."""
    copy_texts(site, machines)
    site.read()
    with opener(machines)(as_plant(site), None, (), given.wait, lenient=True) as archive:
        archive.look_up(list(archive.tags))
        state, parts = archive.state(), {}
        for tag in archive.tags:
            parts.setdefault(archive.spans[tag][-1], []).append(tag)
        lines = []
        for part, tags in parts.items():
            lines += part_lines(archive, part, tags, state)
        lines += [(name, *[""] * (len(CHECK) - 2), what) for name, what in archive.refused.items()]
        printed(CHECK, lines)
        return CHANGED if archive.refused else 0


def part_lines(archive, part, tags, state):
    """The lines of the tags whose newest values a part has."""
    now, zone = clock.now(), archive.plant.settings.zone
    paces = {tag: pace_of(archive, part, tag, state) for tag in tags}
    records = sum(state[tag].records for tag in tags if tag in state)
    whole = full_at(now, PLANT_RECORDS - records, sum(paces.values()))
    for tag in tags:
        held, mine = archive.held(tag), state[tag].records if tag in state else 0
        full = min(filter(None, (whole, full_at(now, TAG_RECORDS - mine, paces[tag]))), default=None)
        value = (clock.short_text(held[0], zone), decimal_text(held[1], archive.scale(tag)), archive.unit(tag),
                 clock.length_text(now - held[0]), "") if held else ("", "", archive.unit(tag), "", "no value was ever fed")
        yield (tag, part.folder, state[tag].taken if tag in state else 0, mine, "%.1f" % (100 * max(mine / TAG_RECORDS, records / PLANT_RECORDS)),
               clock.local(full, zone).date().isoformat() if full else "", *value)


def pace_of(archive, part, tag, state):
    """How many records a tag makes in a millisecond, by those that it has in the part."""
    piece = next((piece for piece in archive.pieces[tag] if piece.part is part), None)
    return state[tag].records / (piece.last - piece.first) if piece and tag in state and piece.first < piece.last else 0


def full_at(now, room, pace):
    """When so much room is used up, or None if nobody can say, or if that is after the year 9998."""
    t = now + room / pace if pace else END_OF_DATES
    return int(t) if t < END_OF_DATES else None


def verify(site, machines, given):
    """Has each part compare its devices with their seals."""
    copy_texts(site, machines)
    site.read()
    return done_in_all(site, machines, "--verify")


def back_up(site, machines, given):
    """Has each part make a copy of itself, and copies what the site has besides."""
    with site.locked("site.py", given.wait):
        copy_texts(site, machines)
        site.read()
        require_rest(site)
        status = done_in_all(site, machines, "--backup")
        if status:
            return status
        name = time.strftime("%Y-%m-%dT%H%M%SZ", time.gmtime())
        os.makedirs(site.path("backup", name, "feed.d"), exist_ok=True)
        for text in ("site.toml", "feed.d/fed"):
            if os.path.exists(site.path(text)):
                copied(site.path(text), site.path("backup", name, text))
        for folder in ("backup/%s/feed.d" % name, "backup/%s" % name, "backup", ""):
            sync_folder(site.path(folder))
        site.say("site.toml: backup/%s" % name)
    return 0


def require_rest(site):
    """Ends with a refusal if a turn of the router is unfinished."""
    if site_turns.numbers(site):
        raise Refusal(BUSY, "a turn is unfinished, and nothing was done: run site.py feed first")


def done_in_all(site, machines, option):
    """Has the feeder of each part do something that is no feeding: the exit status of the first that failed. A part that was never fed has
    nothing yet."""
    new = [part for part in site.parts if not part.worker and is_new(part.plant)]
    calls = [(part, "feed.py", [folder_of(part), option], b"") for part in site.parts if part not in new]
    troubles = {}
    for part, done in machines.all(calls, progress_of("%d of %d parts are done")).items():
        for line in done.out.splitlines():
            site.say("%s: %s" % (part.folder, STAMP.sub("", line, 1)))
        if done.status:
            troubles[part] = done.status, done.why()
    for part in new:
        site.say("%s: was never fed" % part.folder)
    return told(site, troubles, False)


def begin_next(site, machines, given):
    """Begins the next part of a part."""
    with site.locked("site.py", given.wait):
        copy_texts(site, machines)
        site.read()
        require_rest(site)
        part = next((part for part in site.parts if part.folder == given.folder), None)
        if part is None:
            raise Refusal(UNREADABLE, "site.toml has no part %s; there are %s" % (given.folder, ", ".join(part.folder for part in site.parts)))
        t = answers.time_in(types.SimpleNamespace(plant=as_plant(site)), given.start)
        name = given.new or name_of_next(part.folder, t)
        if name in [part.folder for part in site.parts]:
            raise Refusal(UNREADABLE, "site.toml has a part %s already: nothing was made" % name)
        text = with_part(bytes_of(site.path("site.toml")).decode(), name, t, part.worker)
        place = name if part.worker else site.path(name)
        done = machines.all([(part, "site_work.py", ["next", folder_of(part), place, str(t)], b"")])[part]
        if done.status:
            raise Refusal(done.status, "%s: %s" % (part.folder, done.why()))
        write_whole(site.path("site.toml"), text.encode())
    copy_texts(Site(given.site, given.program), machines)
    site.say("%s is made, and has the values of %d tags from %s on: look its base.toml over" % (
        name, len(part.tags), clock.short_text(t, site.common.zone)))
    return 0


def board(site, machines, given):
    """Writes the pages of the site. Each part writes its data, or its own pages if it is on another machine."""
    copy_texts(site, machines)
    site.read()
    out = os.path.abspath(given.out or site.path("board"))
    calls = [(part, "board.py", [folder_of(part)] + ([] if part.worker else ["--data", "--out", site_board.folder_of(out, part)]), b"")
             for part in site.parts if part.worker or not is_new(part.plant)]
    troubles = {part: (done.status, done.why()) for part, done in machines.all(calls, progress_of("%d of %d parts are written")).items() if done.status}
    count = site_board.write_pages(site, out, {part: why for part, (_, why) in troubles.items()})
    site.say("%s: %d tags of %d parts" % (os.path.join(out, "index.html"), count, len(site.parts)))
    return told(site, troubles, False)


def folder_of(part):
    """A part's folder as its machine knows it."""
    return part.folder if part.worker else part.plant.folder


def main():
    parser = argparse.ArgumentParser(description=__doc__, formatter_class=argparse.RawDescriptionHelpFormatter)
    common = argparse.ArgumentParser(add_help=False)
    common.add_argument("--site", default=".", metavar="FOLDER", help="the site's folder, with site.toml (default: this one)")
    common.add_argument("--program", default="historian", metavar="PATH", help="the historian (default: on the path)")
    common.add_argument("--wait", type=float, default=10, metavar="SECONDS", help="for another process to end (10)")
    common.add_argument("--jobs", type=int, default=os.cpu_count() or 1, metavar="N", help="how many processes work at once (as many as processors)")
    common.add_argument("--scheduler", metavar="ADDRESS", help="of Dask, for parts on other machines, as tcp://HOST:8786")
    verbs = parser.add_subparsers(dest="verb", required=True, metavar="VERB")
    verb = verbs.add_parser("feed", parents=[common], help="route the inbox's rows to the parts, and feed them")
    verb.add_argument("--every", type=float, metavar="SECONDS", help="look into the inbox again each so many seconds")
    verb.add_argument("--route-only", action="store_true", help="give the parts their files, and feed none: each feeds itself")
    verb.set_defaults(do=feed)
    verb = verbs.add_parser("ask", parents=[common], help="ask as ask.py does, over all parts", description=ask.__doc__,
                            formatter_class=argparse.RawDescriptionHelpFormatter)
    ask.add_words(verb)
    verb.set_defaults(do=ask_site, parser=verb)
    for name, do, about in (("check", check, "print how full each tag's device is, and its newest value"),
                            ("verify", verify, "compare the devices of all parts with their seals"),
                            ("backup", back_up, "copy all parts, each to a backup of its own")):
        verbs.add_parser(name, parents=[common], help=about).set_defaults(do=do)
    verb = verbs.add_parser("board", parents=[common], help="write the pages of all parts (board.py)")
    verb.add_argument("--out", metavar="FOLDER", help="where the pages go (default: board/ in the site)")
    verb.set_defaults(do=board)
    verb = verbs.add_parser("next", parents=[common], help="begin the next part of a part")
    verb.add_argument("folder", help="the part that is to go on in another folder")
    verb.add_argument("new", nargs="?", help="the new folder (default: the name of the part, with the date of TIME)")
    verb.add_argument("--from", dest="start", required=True, metavar="TIME", help="from when on the new part has the values")
    verb.set_defaults(do=begin_next)
    given = parser.parse_args(plain_words())
    if os.sep in given.program:
        given.program = os.path.abspath(given.program)
    site = Site(given.site, given.program, max(1, given.jobs))
    machines = Machines(given.program, given.wait, given.jobs, given.scheduler)
    try:
        return given.do(site, machines, given)
    finally:
        machines.close()


if __name__ == "__main__":
    ended(main, "What is stored stays stored; the next feed goes on from there.", logs=True)
