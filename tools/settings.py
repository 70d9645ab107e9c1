"""settings.py: feed.toml, which says how the files of a plant are read, and what the feeder keeps. Each wrong setting is a refusal that
names it; nothing is guessed."""
import copy
import fnmatch
import os
import shlex
import zoneinfo

import fields
from files import UNREADABLE, Refusal, nearest, read_toml, shown

PLANT = {"inbox": "inbox", "future_ms": 60_000, "not_before": None, "zone": None, "separator": ",", "decimal": ".",
         "rows_a_run": 4_000_000, "late_rows": 10_000, "settle_seconds": 2, "backups": "backup", "keep_backups": 0, "keep_turns": 0,
         "on_trouble": "", "board": None, "stale_ms": None, "calendar": None, "frames": [], "tag": {}, "source": []}
SOURCE = {"pattern": None, "folder": None, "zone": None, "separator": None, "decimal": None, "time": None, "columns": {}, "tags": {},
          "ignore": [], "good": ["good", "192"], "skip": 0, "grows": False}
TAG = {"scale": None, "quality_tag": None, "silent_ms": None, "low": None, "high": None, "stale_ms": None}
COLUMNS = ("tag", "time", "value", "quality")
PLAIN = ("no-room", "late-rows")  # how names of files begin that the feeder wrote itself of rows that it had read
AGAIN = "again-"  # before the name of a file that the feeder wrote of the refused rows of another one, if that one may still be there


class Source:
    """How the files of one source are read: those whose names fit its pattern."""

    def __init__(self, where, given, zone, separator, decimal):
        require_keys(where, given, SOURCE)
        for key, usual in SOURCE.items():
            setattr(self, key, given.get(key, usual))
        self.where = where
        self.zone, self.separator, self.decimal = self.zone or zone, self.separator or separator, self.decimal or decimal
        texts = {"pattern": self.pattern, "folder": self.folder, "zone": self.zone, "time": self.time}
        for key, value in texts.items():
            if value is not None and type(value) is not str:
                raise wrong(where, "%s is a text" % key)
        require_marks(where, self.separator, self.decimal)
        require_zone(where, self.zone)
        self.require_columns()
        if type(self.tags) is not dict or any(type(name) is not str for name in self.tags.values()):
            raise wrong(where, 'tags is a table of names in the files to tags of the base, as tags = {"TI-101 (degC)" = "TI-101"}')
        for key in ("ignore", "good"):
            if type(getattr(self, key)) is not list or any(type(text) not in (str, int) for text in getattr(self, key)):
                raise wrong(where, "%s is a list of texts" % key)
        self.good = frozenset(str(text).strip().lower() for text in self.good)
        if type(self.grows) is not bool or not is_whole(self.skip, 0):
            raise wrong(where, "grows is true or false, and skip a whole number of lines")
        if self.folder is not None and not self.grows:
            raise wrong(where, "folder goes with grows = true alone; other files are put into the inbox")

    def require_columns(self):
        """Ends with a refusal unless the columns are a table of names, or a list of their meanings in order."""
        if type(self.columns) is list and all(word in COLUMNS + ("",) for word in self.columns):
            if all(self.columns.count(word) == 1 for word in COLUMNS[:3]) and self.columns.count("quality") <= 1:
                return
        elif type(self.columns) is dict and all(type(name) is str for name in self.columns.values()):
            strange = [word for word in self.columns if word not in COLUMNS]
            if not strange:
                return
        raise wrong(self.where, 'columns is a table of names in the header, as columns = {time = "Zeit", value = "Wert"}, or for files without'
                    ' a header the list of their columns, as columns = ["time", "tag", "value", ""]; the words are %s' % ", ".join(COLUMNS))

    def not_growing(self):
        """The same source, of a file that is put into the inbox whole."""
        same = copy.copy(self)
        same.grows, same.skip = False, 0
        return same

    def fits(self, name):
        """Whether it is the source of a file of this name."""
        return fnmatch.fnmatchcase(name, self.pattern)


class Settings:
    """feed.toml. Without the file each setting has its usual value."""

    def __init__(self, path):
        given = read_toml(path) if os.path.exists(path) else {}
        self.path = path
        unknown = sorted(set(given) - set(PLANT))
        if unknown:
            raise Refusal(UNREADABLE, "%s has no setting %r%s; there are %s" % (path, unknown[0], nearest(unknown[0], PLANT),
                                                                               ", ".join(PLANT)))
        for key, usual in PLANT.items():
            setattr(self, key, given.get(key, usual))
        self.require_numbers()
        if any(type(getattr(self, key)) is not str for key in ("inbox", "backups", "on_trouble")):
            raise wrong(path, "inbox and backups are names of folders, and on_trouble is a command")
        self.on_trouble = words_of(path, self.on_trouble)
        if any(type(text) not in (str, type(None)) for text in (self.board, self.calendar)):
            raise wrong(path, "board is a folder, and calendar a file")
        if type(self.frames) is not list or not all(map(is_frame, self.frames)):
            raise wrong(path, 'frames is written as [["GROUP", "CALC", 2]]: a calculation, and how many windows')
        self.rows_a_run = min(self.rows_a_run, PLANT["rows_a_run"])
        require_tags(path, self.tag)
        require_marks(path, self.separator, self.decimal)
        require_zone(path, self.zone)
        self.default = Source(path, {"pattern": "*"}, self.zone, self.separator, self.decimal)
        if type(self.source) is not list or any(type(table) is not dict for table in self.source):
            raise wrong(path, 'a source is written as [[source]], with its pattern, as pattern = "unit*.csv"')
        self.source = [self.source_from(number, table) for number, table in enumerate(self.source, 1)]
        try:
            self.not_before = 0 if self.not_before is None else fields.milliseconds(str(self.not_before), self.zone)
        except fields.BadField as why:
            raise wrong(path, "not_before: %s" % why) from None

    def require_numbers(self):
        """Ends with a refusal if a number is out of its range."""
        for key, least in (("future_ms", 0), ("rows_a_run", 1), ("late_rows", 0), ("settle_seconds", 0), ("keep_backups", 0),
                           ("keep_turns", 0)):
            if not is_whole(getattr(self, key), least):
                raise wrong(self.path, "%s must be a whole number from %d" % (key, least))
        if self.stale_ms is not None and not is_whole(self.stale_ms, 1):
            raise wrong(self.path, "stale_ms must be a whole number from 1")

    def source_from(self, number, table):
        """A source from its table."""
        where = "%s: [[source]] %d" % (self.path, number)
        if type(table.get("pattern")) is not str:
            raise wrong(where, 'it needs a pattern of file names, as pattern = "unit*.csv"')
        return Source("%s (%s)" % (where, shown(table["pattern"])), table, self.zone, self.separator, self.decimal)

    def source_of(self, name):
        """The first source whose pattern fits a file's name. A file that the feeder wrote itself of rows that it had read is read by the
        settings of the plant; one of refused rows as the file that they came from."""
        plain = name
        while plain.startswith(AGAIN):
            plain = plain[len(AGAIN):]
        if plain.startswith(PLAIN):
            return self.default
        for source in self.source:
            if source.fits(plain) and (source.folder is None or plain != name):
                return source if plain == name else source.not_growing()
        return self.default

    def of_tag(self, name):
        """The settings of a tag: scale, quality_tag, silent_ms, low, high, stale_ms, each None if it is not given."""
        return TAG | self.tag.get(name, {})


def words_of(path, command):
    """The words of the command on_trouble, as a shell would have them; none if it is empty."""
    try:
        return shlex.split(command)
    except ValueError as why:
        raise wrong(path, "on_trouble: %s in %s" % (why, shown(command, 200))) from None


def wrong(where, what):
    return Refusal(UNREADABLE, "%s: %s" % (where, what))


def is_whole(value, least):
    return type(value) is int and value >= least


def is_frame(entry):
    """Whether an entry of `frames` names a calculation of a group, and how many windows."""
    return type(entry) is list and list(map(type, entry)) == [str, str, int] and 1 <= entry[2] <= 1_000_000


def require_keys(where, given, known):
    """Ends with a refusal that names a key which there is not."""
    for key in given:
        if key not in known:
            raise wrong(where, "no key %r%s; there are %s" % (key, nearest(key, known), ", ".join(known)))


def require_marks(where, separator, decimal):
    """Ends with a refusal unless fields and decimals can be told apart."""
    for mark, name in ((separator, "separator"), (decimal, "decimal")):
        if type(mark) is not str or len(mark) != 1 or mark in '"\r\n+-_' or mark.isalnum():
            raise wrong(where, "inbox is a folder's name, separator and decimal are one character each, no letter, digit, sign, quote or"
                        " line end: not %s = %r" % (name, mark))
    if separator == decimal:
        raise wrong(where, "separator and decimal are both %r, so 5%s1 could be one value or two. Set the other one too, for example"
                    ' separator = ";"' % (decimal, decimal))


def require_zone(where, zone):
    """Ends with a refusal if this machine does not know a zone."""
    if zone is None:
        return
    try:
        zoneinfo.ZoneInfo(zone)
    except (ValueError, OSError, KeyError, TypeError):
        raise wrong(where, "this machine knows no zone %r" % (zone,)) from None


def require_tags(path, tables):
    """Ends with a refusal if a table of a tag is wrong."""
    if type(tables) is not dict or any(type(table) is not dict for table in tables.values()):
        raise wrong(path, 'a tag is written as [tag."NAME"], with its scale')
    for name, table in tables.items():
        where = "%s: [tag.%r]" % (path, name)
        require_keys(where, table, TAG)
        for key in ("scale", "silent_ms", "stale_ms"):
            if key in table and not is_whole(table[key], 1):
                raise wrong(path, "[tag.%r]: %s must be a whole number from 1" % (name, key))
        if any(key in table and (type(table[key]) not in (int, float)) for key in ("low", "high")):
            raise wrong(where, "low and high are numbers, in the tag's unit")
        if {"low", "high"} <= set(table) and table["low"] > table["high"]:
            raise wrong(where, "low is above high")
        if "quality_tag" in table and type(table["quality_tag"]) is not str or "silent_ms" in table and "quality_tag" not in table:
            raise wrong(where, 'quality_tag is the name of a step tag, and silent_ms goes with it')


def require_names(settings, tags, known=()):
    """Ends with a refusal if feed.toml names a tag that neither the base has nor is known from before: a misspelt name would leave the
    right tag without its scale."""
    for name in settings.tag:
        if name not in tags and name not in known:
            raise wrong(settings.path, "[tag.%r]: the base has no such tag%s; it has %s" % (name, nearest(name, tags), some(tags)))
    for source in settings.source:
        for theirs, name in source.tags.items():
            if name not in tags and name not in known:
                raise wrong(source.where, "tags: %r is to be %r, and the base has no such tag%s; it has %s" % (
                    theirs, name, nearest(name, tags), some(tags)))
    for name, table in settings.tag.items():
        kept = table.get("quality_tag") if name in tags else None
        if kept is not None and (kept not in tags or tags[kept].get("step") is not True or kept in settings.tag and settings.tag[kept].get(
                "quality_tag") or [other.get("quality_tag") for other in settings.tag.values()].count(kept) > 1):
            raise wrong(settings.path, "[tag.%r]: quality_tag = %r must be a step tag of the base (step = true) that belongs to this tag"
                        " alone%s" % (name, kept, "" if kept in tags else nearest(kept, tags)))
        if kept is not None and (tags[kept].get("exc_dev") or tags[kept].get("comp_dev") or tags[kept].get("comp_min")):
            raise wrong(settings.path, "[tag.%r]: quality_tag = %r: its exc_dev, comp_dev and comp_min must be 0 in the base, or changes"
                        " between 0 and 1 would be dropped" % (name, kept))


def some(names, most=20):
    """The first names of a list, in words."""
    names = list(names)
    return ", ".join(names[:most]) + (" and %d more" % (len(names) - most) if len(names) > most else "")
