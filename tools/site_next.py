"""site_next.py: how the next part of a part begins: a folder with the same base and feed.toml, whose groups begin at their first window from
a time on, and a [[part]] more in site.toml."""
import json
import os
import re
import shutil
import tomllib

import fields
from plant import BUSY, UNREADABLE, Refusal, bytes_of, sync_folder, write_whole

START = re.compile(r"^([ \t]*start[ \t]*=[ \t]*)[0-9_]+", re.M)
DATED = re.compile(r"-\d{4}(-\d\d(-\d\d)?)?$")


def name_of_next(folder, t):
    """The name of the next folder: that of the part, with the date in place of one at its end."""
    return DATED.sub("", folder) + "-" + fields.iso_text(t, None)[:10]


def made_beside(plant, archive, new, t):
    """Makes the folder of the next part, from a time on. If it is there already with the same texts, and was never fed, it stays."""
    require_rest(plant)
    for tag in archive.tags:
        require_before(plant, tag, archive.held(tag), t)
    if os.path.isabs(plant.settings.inbox) or ".." in plant.settings.inbox.split("/"):
        raise Refusal(UNREADABLE, "the inbox %s of feed.toml is outside of its folder, so two parts would share it: nothing was made"
                      % plant.settings.inbox)
    texts = {"base.toml": base_from(bytes_of(plant.path("base.toml")).decode(), t).encode()}
    if os.path.exists(plant.path("feed.toml")):
        texts["feed.toml"] = bytes_of(plant.path("feed.toml"))
    if os.path.exists(new):
        if not all(os.path.isfile(os.path.join(new, name)) and bytes_of(os.path.join(new, name)) == text for name, text in texts.items()):
            raise Refusal(UNREADABLE, "%s is there already, and is another one: give a name that is free" % new)
        return
    shutil.rmtree(new + ".part", ignore_errors=True)
    os.makedirs(os.path.join(new + ".part", plant.settings.inbox))
    for name, text in texts.items():
        write_whole(os.path.join(new + ".part", name), text)
    os.rename(new + ".part", new)
    sync_folder(os.path.dirname(os.path.abspath(new)))


def require_rest(plant):
    """Ends with a refusal if rows or a base of the part are still to be fed: they belong before the next part."""
    inbox = plant.path(plant.settings.inbox)
    waiting = [name for name in os.listdir(inbox) if name.lower().endswith(".csv") or name.startswith(".taken-")] if os.path.isdir(inbox) else []
    fed = plant.path("feed.d", "base.toml")
    if waiting or any(os.path.exists(plant.path("feed.d", name)) for name in ("turn.json", "base.new.toml")):
        raise Refusal(BUSY, "it has files that are not fed yet, and nothing was made: run site.py feed first")
    if os.path.exists(fed) and bytes_of(fed) != bytes_of(plant.path("base.toml")):
        raise Refusal(BUSY, "its base.toml was edited and is not in force yet, and nothing was made: run site.py feed first")


def require_before(plant, tag, held, t):
    if held and held[0] >= t:
        raise Refusal(UNREADABLE, "%s has a value of %s already, and would have to give it up: nothing was made. Give a --from behind it" % (
            tag, fields.iso_text(held[0], plant.settings.zone)))


def base_from(text, t):
    """The text of a base whose groups begin at their first window from a time on."""
    wanted = tomllib.loads(text)
    starts = []
    for group in wanted.get("group", ()):
        group["start"] += max(0, -(-(t - group["start"]) // group["period"])) * group["period"]
        starts.append(group["start"])
    left = iter(starts)
    found = START.sub(lambda match: match[1] + str(next(left, 0)), text)
    try:
        if tomllib.loads(found) == wanted:
            return found
    except tomllib.TOMLDecodeError:
        pass
    return "".join(table_text(kind, table) for kind in ("tag", "group") for table in wanted.get(kind, ()))


def table_text(kind, table):
    """A table of a base. A JSON text is a TOML text too."""
    lines = ["[[%s]]" % kind] + ["%s = %s" % (key, json.dumps(value)) for key, value in table.items() if key != "calc"]
    for calculation in table.get("calc", ()):
        lines += ["[[group.calc]]"] + ["%s = %s" % (key, json.dumps(value)) for key, value in calculation.items()]
    return "\n".join(lines) + "\n\n"


def with_part(text, folder, t, worker):
    """The text of a site.toml with one part more."""
    part = '\n[[part]]\nfolder = %s\nfrom = "%s"\n' % (json.dumps(folder, ensure_ascii=False), fields.iso_text(t, None))
    return text.rstrip("\n") + "\n" + part + ("worker = %s\n" % json.dumps(worker, ensure_ascii=False) if worker else "")
