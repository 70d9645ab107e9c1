"""site_parts.py: a site: the plants that its site.toml lists, and which of them has a tag's values of a time.

A part is one plant's folder. A part that is on another machine has a `worker`, and the site keeps a copy of its texts in
feed.d/parts, so that it can route rows while that machine is away."""
import contextlib
import os
import time
import types

import fields
from plant import BUSY, UNREADABLE, Plant, Refusal, read_toml, try_lock

SETTINGS = {"inbox": "inbox", "settle_seconds": 2, "part": None}
PART = {"folder", "from", "worker"}
ROUTED = "site-000000001-001.csv"  # how a file for a part is named
SAME = ("separator", "decimal", "zone")  # settings that all parts share, because one file may have rows of several parts


class Part:
    """One plant of a site: its folder, the time from which it has its tags, the machine that has it, and its tags and groups."""

    def __init__(self, place, table):
        self.place, self.folder, self.worker = place, table["folder"], table.get("worker")
        self.given, self.start = table.get("from"), 0  # as site.toml has it; in milliseconds
        self.plant, self.tags, self.groups, self.fed = None, {}, {}, ({}, {})

    def read(self, folder, program):
        """Reads the texts of the part from a folder."""
        self.plant = Plant(folder, program)
        self.tags, self.groups = self.base_of("base.toml", "feed.d/base.toml")
        self.fed = self.base_of("feed.d/base.toml", "base.toml")
        if self.given is not None:
            try:
                self.start = fields.milliseconds(str(self.given), self.plant.settings.zone)
            except fields.BadField as why:
                raise Refusal(UNREADABLE, "site.toml: `from` of %s: %s" % (self.folder, why)) from None

    def base_of(self, first, second):
        """The tags and groups of one text, or of the other if the first cannot be read: a part's edited base that is wrong stops its own
        feed, and not that of the others."""
        try:
            return self.plant.base(first)
        except Refusal:
            if not os.path.exists(self.plant.path(second)):
                raise
            return self.plant.base(second)

    def scale(self, tag):
        """By what a value of a tag is multiplied to be stored."""
        return self.plant.scale(tag, self.tags.get(tag) or self.fed[0][tag]) or 1


class Settings:
    """site.toml: the inbox of the site, and its parts."""

    def __init__(self, path):
        given = read_toml(path)
        unknown = sorted(set(given) - set(SETTINGS))
        if unknown:
            raise Refusal(UNREADABLE, "%s has no setting %r; there are %s" % (path, unknown[0], ", ".join(SETTINGS)))
        self.inbox, self.settle_seconds = (given.get(key, SETTINGS[key]) for key in ("inbox", "settle_seconds"))
        if type(self.inbox) is not str or type(self.settle_seconds) is not int or self.settle_seconds < 0:
            raise Refusal(UNREADABLE, "%s: inbox is a folder's name, settle_seconds a whole number from 0" % path)
        self.source_of = lambda name: types.SimpleNamespace(grows=False)  # a file of the site's inbox is read as it stands
        self.tables = given.get("part")
        if type(self.tables) is not list or not self.tables or any(type(table) is not dict for table in self.tables):
            raise Refusal(UNREADABLE, "%s: a site has [[part]] tables, each with the folder of a plant" % path)
        for table in self.tables:
            texts = [table[key] for key in ("folder", "worker") if key in table]
            if "folder" not in table or set(table) - PART or any(type(text) is not str or not text for text in texts):
                raise Refusal(UNREADABLE, "%s: a part has a folder, and may have `from` and `worker`, and nothing else: %s" % (path, table))


class Site:
    """A site's folder: site.toml, the inbox, done/ and refused/ as a plant has them, and in feed.d what the router keeps. So many `jobs` work
    beside each other."""

    def __init__(self, folder, program, jobs=1):
        self.folder, self.program, self.jobs = os.path.abspath(folder), program, jobs
        if not os.path.isfile(self.path("site.toml")):
            raise Refusal(UNREADABLE, "there is no site.toml in %s: is this the site's folder?" % self.folder)
        self.settings = Settings(self.path("site.toml"))
        self.parts = [Part(place, table) for place, table in enumerate(self.settings.tables)]
        self.spans, self.troubles, self.shown_progress = {}, [], 0

    say, progress = Plant.say, Plant.progress

    def path(self, *names):
        return os.path.join(self.folder, *names)

    def home(self, part):
        """Where the texts of a part are read: in its folder, or in the copy of what its worker has."""
        return self.path("feed.d", "parts", "%s@%s" % (part.folder.replace("/", "%"), part.worker)) if part.worker else self.path(part.folder)

    def read(self):
        """Reads the texts of all parts, and settles which part has a tag's values of a time. What does not agree is a refusal."""
        require_different(self)
        for part in self.parts:
            if not os.path.isfile(os.path.join(self.home(part), "base.toml")):
                raise Refusal(UNREADABLE, "site.toml: " + ("%s of %s was never seen: give --scheduler ADDRESS while that worker is there" % (
                    part.folder, part.worker) if part.worker else "the part %s has no base.toml: is it a plant's folder?" % part.folder))
            part.read(self.home(part), self.program)
        require_same(self.parts)
        self.spans = spans_of(self.parts, lambda part: part.tags)
        require_known(self.parts, self.spans)

    @property
    def common(self):
        """The settings that all parts share: separator, decimal and zone."""
        return self.parts[0].plant.settings

    @contextlib.contextmanager
    def locked(self, who, wait):
        """Holds the site's lock; if another process has it for longer than `wait` seconds, that is a refusal."""
        os.makedirs(self.path("feed.d"), exist_ok=True)
        handle = os.open(self.path("feed.d", "site.lock"), os.O_RDWR | os.O_CREAT | os.O_NOFOLLOW | os.O_NONBLOCK, 0o666)
        try:
            end = time.monotonic() + wait
            while not try_lock(handle):
                if time.monotonic() > end:
                    raise Refusal(BUSY, "another process works on this site (it holds feed.d/site.lock): nothing was done")
                time.sleep(0.05)
            yield
        finally:
            os.close(handle)


def require_different(site):
    """Ends with a refusal if a folder is listed twice, or is the site's own."""
    seen = {os.path.realpath(site.path()): "the site itself"}
    for part in site.parts:
        key = os.path.realpath(site.home(part))
        if key in seen:
            raise Refusal(UNREADABLE, "site.toml: %s is the folder of %s: each part is a plant of its own" % (part.folder, seen[key]))
        seen[key] = "another part"


def require_same(parts):
    """Ends with a refusal if two parts read a file differently."""
    for part in parts[1:]:
        for key in SAME:
            mine, first = getattr(part.plant.settings, key), getattr(parts[0].plant.settings, key)
            if mine != first:
                raise Refusal(UNREADABLE, "%s and %s read files differently, and one file may have rows of both: `%s` in feed.toml is %r and %r"
                              % (parts[0].folder, part.folder, key, first, mine))


def spans_of(parts, tags_of):
    """Of each tag its parts, in the order of the times from which they have it. Two parts from one time are a refusal, and so are two of
    another kind or scale: their values could not be read as those of one tag."""
    spans = {}
    for part in sorted(parts, key=lambda part: part.start):
        for tag in tags_of(part):
            before = spans.setdefault(tag, [])
            if before and before[-1].start == part.start:
                raise Refusal(UNREADABLE, "site.toml: %s and %s both have %s %s: give one of them another `from`, or take the tag out of its"
                              " base" % (before[-1].folder, part.folder, tag, "from " + fields.iso_text(part.start, None)
                                         if part.given is not None else "at all times"))
            if before and (before[-1].scale(tag), kind_of(before[-1], tag)) != (part.scale(tag), kind_of(part, tag)):
                raise Refusal(UNREADABLE, "%s is of scale %d and a tag of %s in %s, but of scale %d and of %s in %s: make them the same" % (
                    tag, before[-1].scale(tag), kind_of(before[-1], tag), before[-1].folder, part.scale(tag), kind_of(part, tag), part.folder))
            before.append(part)
    return spans


def kind_of(part, tag):
    return "steps" if (part.tags.get(tag) or part.fed[0][tag]).get("step") else "lines"


def require_known(parts, spans):
    """Ends with a refusal if a feed.toml has the scale of a tag that no part has: its name is misspelt, here or in a base."""
    for part in parts:
        if part.plant.settings.source_of(ROUTED) is not part.plant.settings.default:
            raise Refusal(UNREADABLE, "a [[source]] in feed.toml of %s fits the files that site.py puts into its inbox (%s), and would read them"
                          " differently: give it another pattern" % (part.folder, ROUTED))
        strange = [tag for tag in part.plant.settings.tag if tag not in spans and tag not in part.fed[0]]
        if strange:
            raise Refusal(UNREADABLE, "feed.toml of %s has a table for %s, and no part has that tag: correct the name, or remove the table"
                          % (part.folder, ", ".join(strange)))
