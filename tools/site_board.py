"""site_board.py: the pages of a site: a table of the tags of all parts, and one page for each tag, over all parts that have its values.

Each part's data stand in a folder of the board, whose name is the part's number in site.toml. A tag's page draws the pieces of its parts one
behind the other, with nothing between two of them. A part on another machine has its data and pages there."""
import json
import os
import time

import board
import board_feed
from plant import write_whole
from site_parts import spans_of


def folder_of(out, part):
    """Where the data of a part stand on the board."""
    return os.path.join(out, str(part.place + 1))


def read_table(out, part):
    """What the board's table has of a part: its tags, and the state of its feed; None if it has no data here."""
    try:
        with open(os.path.join(folder_of(out, part), "data", "plant.js")) as text:
            return json.loads(text.read().removeprefix("board.plant(").removesuffix(")\n"))
    except (FileNotFoundError, ValueError):
        return None


def write_pages(site, out, troubles):
    """Writes the table and the pages of all tags: how many there are. `troubles` says of a part why its data are not as they should be."""
    board.put_pages(out)
    tables = {part: table for part in site.parts if not part.worker and (table := read_table(out, part))}
    rows = {part: {row["name"]: row for row in table["tags"]} for part, table in tables.items()}
    spans = spans_of(site.parts, lambda part: part.tags)
    tags = [row_of(site, name, parts, rows) for name, parts in spans.items()]
    for row in tags:
        parts = spans[row["name"]]
        page = board.page_of(row["name"], row["descriptor"], [piece_of(part, parts) for part in parts if row["name"] in rows.get(part, ())])
        board.put_file(os.path.join(out, "tags", row["name"] + ".html"), page)
    remove_others(os.path.join(out, "tags"), spans)
    put_script(out, "plant", {"plant": os.path.basename(site.folder), "zone": site.common.zone or "UTC", "stale": None, "written": now(),
                              "trouble": "", "tags": tags, "parts": [state_of(out, part, tables.get(part), troubles) for part in site.parts]})
    put_script(out, "audit", audits(tables))
    return len(tags)


def now():
    return int(time.time() * 1000)


def put_script(out, name, what):
    write_whole(os.path.join(out, "data", name + ".js"), ("board.%s(%s)\n" % (name, json.dumps(what, separators=(",", ":")))).encode())


def remove_others(folder, spans):
    """Removes the pages of tags that no part has any more."""
    for name in os.listdir(folder):
        if name.endswith(".html") and name.removesuffix(".html") not in spans:
            os.remove(os.path.join(folder, name))


def piece_of(part, parts):
    """Where a tag's data of a part are, from the tag's page on, and from when until when they count."""
    after = parts[parts.index(part) + 1:]
    return {"folder": "../%d/tags/" % (part.place + 1), "name": part.folder, "from": part.start or None, "until": after[0].start if after else None}


def row_of(site, name, parts, rows):
    """A tag's row in the table: the newest values are those of the newest part that has some; counts are those of all parts."""
    mine = [rows[part][name] for part in parts if name in rows.get(part, ())]
    about = board.about_tag(parts[-1].plant, parts[-1].tags[name])
    if not mine:
        what = {"elsewhere": "on %s" % parts[-1].worker} if parts[-1].worker else {"taken": 0, "records": 0, "late": 0}
        return dict(about, name=name, newest=None, held=None, rate=None, limit=1, spark=None, **what)
    newest = next((row for row in reversed(mine) if row.get("newest")), mine[-1])
    sums = {key: sum(row.get(key) or 0 for row in mine) for key in ("taken", "records", "late")}
    broken = [row["broken"] for row in mine if row.get("broken")]
    return dict(newest, **sums, filled=newest.get("records", 0), **({"broken": broken[0]} if broken else {}))


def state_of(out, part, table, troubles):
    """What the board says of a part above the table."""
    if table is None:
        return {"name": part.folder, "text": "its pages are on %s" % part.worker if part.worker else troubles.get(part, "was never fed")}
    feed = dict(table["feed"], folder=board_feed.link_to_refused(part.plant, out))
    return {"name": part.folder, "feed": feed, "stale": table["stale"], "trouble": troubles.get(part, table["trouble"])}


def audits(tables):
    """The last audit of each tag over its parts: the greatest deviation compared with what is promised, and sums."""
    found = {}
    for table in tables.values():
        for result in table["feed"]["audit"]:
            before = found.get(result["tag"])
            found[result["tag"]] = both(before, result) if before else result
    return list(found.values())


def share_of(result):
    """How much of what is promised was used up."""
    try:
        return float(result["seen"]) / max(float(result["promised"]), 1e-9)
    except (TypeError, ValueError):
        return -1


def both(one, other):
    worse = max(one, other, key=share_of)
    return dict(worse, values=one["values"] + other["values"], outside=one["outside"] + other["outside"], first=one["first"] or other["first"],
                at=max(one["at"], other["at"]))
