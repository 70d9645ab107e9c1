#!/usr/bin/env python3
"""board.py: writes the pages of a plant: a table of all tags at a glance, and a page for each tag with its trend and the proved band.

    board.py [--out FOLDER] [PLANT]

FOLDER gets index.html, which any browser opens, from the disk or from a web server. It needs no other file. Without --out it is `board` of
feed.toml, or board/ in the plant's folder. If feed.toml has `board = "FOLDER"`, feed.py writes it after each turn. A tag without news is
not written again. The devices are read by docs/FORMATS.md; only shifts and frames are asked of the program.

The trend is drawn by dygraphs (apt-get install libjs-dygraphs), which is copied into FOLDER.

Exit status: 0 the pages are written; 2 wrong words; 20 another process writes to the plant; 22 a text or a file is wrong."""
import argparse
import html
import json
import os
import re
import shutil
import time
import zlib

import board_bars
import board_feed
import board_tags
from device_reader import Damaged
from devices import events_on
from fields import decimal_text
from plant import UNREADABLE, Plant, Refusal, ended, step_of
from progress import Progress
from reading import WAIT, require_devices, shared_locks
from tunings import noted_tunings
from turns import require_scales
from version import version_text

PAGES = os.path.join(os.path.dirname(os.path.abspath(__file__)), "pages")
DYGRAPHS = "/usr/share/javascript/dygraphs"
LIBRARY = ("dygraph.min.js", "dygraph.min.css")
OWN = ("board.css", "common.js", "plot.js", "trend.js", "index.js", "tag.js", "index.html")


def put_file(path, data):
    """Puts a file of the board in its place whole, unless it is there already."""
    try:
        with open(path, "rb") as there:
            if there.read() == data:
                return
    except FileNotFoundError:
        pass
    with open(path + ".new", "wb") as out:
        out.write(data)
    os.replace(path + ".new", path)


def put_library(board):
    """Copies dygraphs into the board, unless it is there."""
    for name in LIBRARY:
        if not os.path.exists(os.path.join(board, name)):
            try:
                shutil.copyfile(os.path.join(DYGRAPHS, name), os.path.join(board, name))
            except FileNotFoundError:
                raise Refusal(UNREADABLE, "no page was written: the trends need dygraphs, which is not on this machine. Install Debian's"
                              " package: apt-get install libjs-dygraphs") from None


def put_folders(board):
    for folder in ("", "tags", "data"):
        os.makedirs(os.path.join(board, folder), exist_ok=True)


def put_pages(board):
    """Copies what is the same on each board."""
    put_folders(board)
    put_library(board)
    for name in OWN:
        with open(os.path.join(PAGES, name), "rb") as page:
            put_file(os.path.join(board, name), page.read())


def about_tag(plant, definition):
    """What the base and feed.toml say of a tag, for its row and its page."""
    table = plant.settings.tag.get(definition["name"], {})
    texts = [definition.get(key, "") for key in ("descriptor", "engunits")]
    return {"descriptor": str(texts[0]), "unit": step_of(str(texts[1]))[1], "scale": plant.scale(definition["name"], definition) or 1,
            "step": bool(definition.get("step")), "low": table.get("low"), "high": table.get("high"), "zone": plant.settings.zone or "UTC",
            "stale": plant.settings.stale_ms, "plant": os.path.basename(plant.folder),
            "comp_dev": decimal_text(definition["comp_dev"], plant.scale(definition["name"], definition) or 1),
            "exc_dev": decimal_text(definition["exc_dev"], plant.scale(definition["name"], definition) or 1)}


def read_rows(board):
    """The rows that an earlier writing left, each with what it was written of."""
    try:
        with open(os.path.join(board, "data", "rows.json")) as text:
            kept = json.load(text)
        return kept if type(kept) is dict else {}
    except (OSError, ValueError):
        return {}


def page_of(name, descriptor, pieces):
    """The page of a tag. `pieces` says where its data are, from the page's folder on: a table for each plant that has some."""
    texts = {"NAME": name, "ABOUT": descriptor, "PIECES": json.dumps(pieces)}
    with open(os.path.join(PAGES, "tag.html")) as page:
        return re.sub("|".join(texts), lambda found: html.escape(texts[found[0]]), page.read()).encode()


def write_tag(plant, board, name, about, notes, known, wait, with_pages):
    """Writes what is new of a tag: what is kept of it for the next time, its row among it, and whether there was something new."""
    path, page = plant.path("historian.d", name + ".tag"), page_of(name, about["descriptor"], [{"folder": ""}])
    marks = json.dumps([board_tags.FORM, zlib.crc32(page), about, notes])
    with shared_locks(plant, wait):
        try:
            events = events_on(path)
            if known and known["events"] == events and known["marks"] == marks:
                return known, False
            anew = not known or known["marks"] != marks
            row = board_tags.written(board, name, path, notes, anew, about)
        except FileNotFoundError:
            events, row = None, dict(about, name=name, broken="no device yet")
        except Damaged as why:
            events, row = None, dict(about, name=name, broken="damaged %s" % why)
    if with_pages:
        put_file(os.path.join(board, "tags", name + ".html"), page)
    return {"events": events, "marks": marks, "row": row}, True


def write_tags(plant, board, wait, with_pages):
    """Writes what is new of all tags: their rows, and the names of those with news."""
    tags, notes, rows, kept, news = plant.base(plant.fed_base())[0], noted_tunings(plant), read_rows(board), {}, set()
    require_scales(plant, tags)
    progress = Progress("tags", len(tags))
    for name, definition in tags.items():
        about = about_tag(plant, definition)
        kept[name], is_new = write_tag(plant, board, name, about, notes.get(name, []), rows.get(name), wait, with_pages)
        news |= {name} if is_new else set()
        progress.add(1)
    progress.end()
    for name in set(rows) - set(tags):
        shutil.rmtree(os.path.join(board, "tags", name + ".d"), ignore_errors=True)
        if os.path.exists(os.path.join(board, "tags", name + ".html")):
            os.remove(os.path.join(board, "tags", name + ".html"))
    put_file(os.path.join(board, "data", "rows.json"), json.dumps(kept).encode())
    return [kept[name]["row"] for name in tags], news


def write_bars(plant, board, news, wait):
    """Writes shifts and frames anew if one of their tags has news. Returns why not, if the program does not answer."""
    try:
        if news & board_bars.tags_with_bars(plant):
            for name, bars in board_bars.bars_of(plant, wait).items():
                board_bars.write_bars(board_tags.TagPages(board, name), bars)
    except Refusal as why:
        return "shifts and frames are not written: %s" % why.text
    return ""


def write_board(plant, board, wait=WAIT, with_pages=True):
    """Writes the board of a plant, or its data alone: how many tags had news, and how many there are."""
    require_devices(plant)
    put_pages(board) if with_pages else put_folders(board)
    rows, news = write_tags(plant, board, wait, with_pages)
    trouble = write_bars(plant, board, news, wait)
    state = board_feed.feed_state(plant, board)
    table = {"plant": os.path.basename(plant.folder), "zone": plant.settings.zone or "UTC", "stale": plant.settings.stale_ms, "feed": state,
             "written": int(time.time() * 1000), "trouble": trouble, "tags": rows}
    put_file(os.path.join(board, "data", "plant.js"), ("board.plant(%s)\n" % json.dumps(table, separators=(",", ":"))).encode())
    audit = json.dumps(state["audit"], separators=(",", ":"))
    put_file(os.path.join(board, "data", "audit.js"), ("board.audit(%s)\n" % audit).encode())
    return len(news), len(rows), trouble


def folder_of(plant, out=None):
    """Where the board of a plant stands."""
    return os.path.abspath(out) if out else plant.path(plant.settings.board or "board")


def main():
    parser = argparse.ArgumentParser(description=__doc__, formatter_class=argparse.RawDescriptionHelpFormatter)
    parser.add_argument("plant", nargs="?", default=".", help="the plant's folder (default: this one)")
    parser.add_argument("--out", metavar="FOLDER", help="where the pages go (default: `board` of feed.toml, or board/ in the plant)")
    parser.add_argument("--data", action="store_true", help="write the data without pages, for the board of a site (site.py board)")
    parser.add_argument("--program", default="historian", metavar="PATH", help="the historian, for shifts and frames (default: on the path)")
    parser.add_argument("--wait", type=float, default=WAIT, metavar="SECONDS", help="for the feeder's turn to end (60)")
    parser.add_argument("--version", action="version", version=version_text("board.py"))
    given = parser.parse_args()
    plant = Plant(given.plant, given.program)
    board = folder_of(plant, given.out)
    news, count, trouble = write_board(plant, board, given.wait, not given.data)
    print("%s: %d tags, %d of them with news%s" % (os.path.join(board, "index.html"), count, news, trouble and "\n  " + trouble))
    return 0


if __name__ == "__main__":
    ended(main)
