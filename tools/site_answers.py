"""site_answers.py: asks all parts of a site as if they were one plant. It opens what reading.py opens of each part, and answers as that does.

A tag reads in each part as that part's archive reads, from the part's first point of it (or its `from`) to the last one before the next part
begins. From there to the next part's first point it reads as behind the newest point of a plant: flat. So a measure of a window is made of
those of the parts, which are whole numbers, and of the flat stretches between them; it is rounded once, at the end."""
import bisect
import concurrent.futures
import contextlib
import json
import multiprocessing
import signal
import types

import reading
import site_work
from fields import MOST_TIME
from plant import UNREADABLE, Refusal
from reading import Archive, first_of, held_in
from site_machines import done_well
from site_parts import spans_of

SUMS = ("area", "avg", "total")
ENDS = {"first": 0, "last": 1}  # which end of a window each asks about
FORK = multiprocessing.get_context("fork")


class Piece:
    """A part's stretch of a tag: from when to when it reads, the value at the end, and whether a point stands there."""

    def __init__(self, part, first, last, value, is_point):
        self.part, self.first, self.last, self.value, self.is_point = part, first, last, value, is_point


class SiteArchive(Archive):
    """The opened parts of a site. It answers what reading.Archive answers of one plant."""

    def __init__(self, site, spans, groups, archives, pool):
        refused = {"%s/%s" % (part.folder, name): what for part, archive in archives.items() for name, what in archive.refused.items()}
        super().__init__(as_plant(site), None, {name: group_of(name, parts) for name, parts in groups.items()}, refused)
        self.site, self.spans, self.group_parts, self.archives, self.pool = site, spans, groups, archives, pool
        self.pieces, self.taken = {}, {}
        for tag, parts in spans.items():
            self.tags[tag] = parts[-1].fed[0][tag] | archives[parts[-1]].tags.get(tag, {})

    def scale(self, tag):
        self.definition(tag)
        return self.spans[tag][-1].scale(tag)

    def ask(self, requests):
        """The reply of each part to each query, all parts beside each other."""
        by_part = {}
        for place, (part, query) in enumerate(requests):
            by_part.setdefault(part, []).append((place, query))
        futures = {part: self.pool.submit(self.archives[part].replies, [query for _, query in asked]) for part, asked in by_part.items()}
        texts = [None] * len(requests)
        for part, asked in by_part.items():
            with named(part):
                for (place, _), text in zip(asked, futures[part].result()):
                    texts[place] = text
        return texts

    def replies(self, queries):
        """The text of each reply, as one plant would give it."""
        fields = [query.split(",") for query in queries]
        self.look_up(list(dict.fromkeys(words[1] for words in fields if words[0] not in ("points", "row"))))
        plans = [self.plan(*words) for words in fields]
        texts, found, at = self.ask([request for requests, _ in plans for request in requests]), [], 0
        for requests, answer in plans:
            found.append(answer(texts[at:at + len(requests)]))
            at += len(requests)
        return found

    def plan(self, verb, name, *words):
        """What is asked of the parts for a query, and what makes its reply of theirs."""
        if verb == "row":
            return self.row_plan(name, words[0], int(words[1]))
        times = [int(word) for word in words]
        if verb == "snap":
            held = self.held(name)
            return [], lambda _: "snap %d %s" % (self.taken[name], "%d,%d" % held if held else "none")
        if verb == "points":
            return self.points_plan(name, *times)
        if verb == "at":
            return self.at_plan(name, times[0])
        return self.measure_plan(verb, name, *times)

    # What a tag is made of

    def look_up(self, tags):
        """Finds the pieces of tags, their first and newest points, and how many events they took."""
        tags = [tag for tag in tags if tag not in self.ends]
        asked = [(tag, part) for tag in tags for part in self.spans[tag]]
        texts = self.ask([(part, query) for tag, part in asked for query in ("snap," + tag, "points,%s,0,%d" % (tag, MOST_TIME))])
        clipped = []
        for tag in tags:
            self.pieces[tag], self.taken[tag], self.ends[tag] = [], 0, (None, None)
        for (tag, part), snap, points in zip(asked, texts[::2], texts[1::2]):
            self.taken[tag] += int(snap.split()[1])
            self.add_piece(tag, part, first_of(points), held_in(snap), clipped)
        for piece, text in zip([piece for piece, _ in clipped], self.ask([(piece.part, query) for piece, query in clipped])):
            piece.value, piece.is_point = int(text.split()[-1]), text.startswith("exact")
        for tag in tags:
            pieces = self.pieces[tag]
            if pieces:
                self.ends[tag] = (pieces[0].first, None), (pieces[-1].last, pieces[-1].value)
                own, end = self.archives[pieces[-1].part].newest[tag], self.span_of(tag, pieces[-1].part)[1]
                self.newest[tag] = own if own <= end else pieces[-1].last

    def first_on_device(self, tag):
        """The first point of a tag in the part of which `state` is; None if it has none there."""
        if tag not in self.ends:
            self.look_up([tag])
        last = self.pieces[tag][-1:]
        return (last[0].first, None) if last and last[0].part is self.spans[tag][-1] else None

    def add_piece(self, tag, part, first, held, clipped):
        """Adds a part's stretch of a tag, if it has one. A part that has points from the time of the next one on is read up to that."""
        start, end = self.span_of(tag, part)
        if held is None or max(start, first[0]) > min(end, held[0]):
            return
        piece = Piece(part, max(start, first[0]), min(end, held[0]), held[1], True)
        self.pieces[tag].append(piece)
        if held[0] > end:
            clipped.append((piece, "at,%s,%d" % (tag, end)))

    def span_of(self, tag, part):
        """From when to when a part has a tag's values."""
        parts = self.spans[tag]
        place = parts.index(part)
        return part.start, parts[place + 1].start - 1 if place + 1 < len(parts) else MOST_TIME

    # One query

    def at_plan(self, tag, t):
        pieces = self.pieces[tag]
        place = bisect.bisect_right([piece.first for piece in pieces], t) - 1
        if place < 0:
            return [], lambda _: "none"
        piece = pieces[place]
        if t > piece.last:
            return [], lambda _: "flat %d" % piece.value
        return [(piece.part, "at,%s,%d" % (tag, t))], lambda texts: texts[0]

    def points_plan(self, tag, first, last):
        requests = []
        for part in self.spans[tag]:
            start, end = self.span_of(tag, part)
            if max(start, first) <= min(end, last):
                requests.append((part, "points,%s,%d,%d" % (tag, max(start, first), min(end, last))))
        return requests, points_reply

    def row_plan(self, group, calculation, number):
        """A window belongs to the newest part whose group has begun by then."""
        parts = self.group_parts[group]
        t = self.groups[group]["start"] + number * self.groups[group]["period"]
        place = bisect.bisect_right([max(part.start, part.fed[1][group]["start"]) for part in parts], t) - 1
        made = parts[max(place, 0)].fed[1][group]
        window = (t - made["start"]) // made["period"]
        return [(parts[max(place, 0)], "row,%s,%s,%d" % (group, calculation, window))], lambda texts: texts[0]

    def measure_plan(self, measure, tag, first, last):
        """A measure of a window. If it lies within one piece, the part has it; else it is made of stretches."""
        pieces = self.pieces[tag]
        if not pieces or first < pieces[0].first or last > pieces[-1].last:
            return [], lambda _: "none"
        if measure in ENDS:
            requests, answer = self.at_plan(tag, (first, last)[ENDS[measure]])
            return requests, lambda texts: answer(texts).split()[-1]
        for piece in pieces:
            if piece.first <= first and last <= piece.last:
                return [(piece.part, "%s,%s,%d,%d" % (measure, tag, first, last))], lambda texts: texts[0]
        own, flat = stretches(pieces, first, last)
        if measure in SUMS:
            return self.sum_plan(measure, tag, own, flat, last - first)
        if measure == "count":
            return self.count_plan(tag, own, last)
        return self.extreme_plan(measure, tag, own, flat, last)

    def sum_plan(self, measure, tag, own, flat, length):
        requests = [(piece.part, "area,%s,%d,%d" % (tag, start, end)) for piece, start, end in own if start < end]
        between = sum(2 * value * (end - start) for value, start, end in flat)
        divisor = {"area": 1, "avg": 2 * length, "total": 2_000}[measure]
        return requests, lambda texts: str(rounded(between + sum(int(text) for text in texts), divisor))

    def count_plan(self, tag, own, last):
        """Points from the beginning of each stretch and before its end; the last one of a piece counts too, if the window goes on."""
        requests = [(piece.part, "count,%s,%d,%d" % (tag, start, end)) for piece, start, end in own if start < end]
        ends = sum(piece.is_point and end == piece.last and end < last for piece, _, end in own)
        return requests, lambda texts: str(ends + sum(int(text) for text in texts))

    def extreme_plan(self, measure, tag, own, flat, last):
        """Of lines the values at both ends of a stretch count, of steps that at the window's end does not."""
        step = self.definition(tag).get("step", False)
        requests = [(piece.part, "%s,%s,%d,%d" % (measure, tag, start, end)) for piece, start, end in own if start < end]
        requests += [(piece.part, "at,%s,%d" % (tag, end)) for piece, start, end in own if start == end and not (step and end == last)]
        values = [value for value, _, _ in flat]
        return requests, lambda texts: str({"low": min, "high": max}[measure](values + [int(text.split()[-1]) for text in texts]))

    # Other questions

    def state(self):
        """What `check` says of each tag in the part that has its newest values."""
        parts = list(dict.fromkeys(part for parts in self.spans.values() for part in parts[-1:]))
        found = dict(zip(parts, self.pool.map(lambda part: self.archives[part].state(), parts)))
        return {tag: found[parts[-1]][tag] for tag, parts in self.spans.items() if tag in found[parts[-1]]}

    def frames(self, group, calculation, least):
        """The frames of a calculation, part after part. One that is open in a part that has ended is not open any more."""
        found, parts = [], self.group_parts[group]
        for part in parts:
            with named(part):
                frames = self.archives[part].frames(group, calculation, least)
            found += [(what, start, end, is_open and part is parts[-1]) for what, start, end, is_open in frames]
        return found

    def shifts(self, calendar, day, days):
        """The figures of a calendar's shifts. The windows are those that the program finds in one part of each tag."""
        by_part, windows = {}, []
        for tag in calendar["tags"]:
            by_part.setdefault(self.spans[tag][-1], []).append(tag)
        for part, tags in by_part.items():
            with named(part):
                windows += [tuple(words[:5]) for words in self.archives[part].shifts(calendar | {"tags": tags}, day, days)]
        windows.sort(key=lambda words: (words[0], words[1], calendar["tags"].index(words[4])))
        good = [words for words in windows if words[2] < words[3]]
        texts = dict(zip(good, self.replies(["%s,%s,%d,%d" % (calendar["measure"], words[4], words[2], words[3]) for words in good])))
        return [(*words, None if texts.get(words, "none") == "none" else int(texts[words])) for words in windows]


def stretches(pieces, first, last):
    """What a window is made of: of pieces from when to when, and of flat stretches the value, from when to when."""
    own = [(piece, max(first, piece.first), min(last, piece.last)) for piece in pieces
           if max(first, piece.first) <= min(last, piece.last)]
    flat = [(piece.value, max(first, piece.last), min(last, after.first)) for piece, after in zip(pieces, pieces[1:])
            if max(first, piece.last) < min(last, after.first)]
    return own, flat


def rounded(value, divisor):
    """A quotient rounded to the nearest whole number; a half goes up."""
    return (2 * value + divisor) // (2 * divisor)


def points_reply(texts):
    """The replies of parts in their order as one. Behind a part that has more, no other one counts."""
    words = []
    for text in texts:
        words += text.split()[:-1]
        if text.endswith("more"):
            return " ".join(words + ["more"])
    return " ".join(words + ["end"])


def group_of(name, parts):
    """A group as the newest part has it, with the windows counted from the beginning of the oldest one."""
    first, newest = parts[0].fed[1][name], parts[-1].fed[1][name]
    for part in parts[1:]:
        made = part.fed[1][name]
        if made["period"] != first["period"] or (made["start"] - first["start"]) % first["period"]:
            raise Refusal(UNREADABLE, "the windows of the group %s in %s do not go on in %s: its period or its start is another one" % (
                name, parts[0].folder, part.folder))
    return newest | {"start": first["start"]}


@contextlib.contextmanager
def named(part):
    """Says of which part a refusal is."""
    try:
        yield
    except Refusal as refusal:
        raise Refusal(refusal.status, "%s: %s" % (part.folder, refusal.text)) from None


class Called:
    """A part whose devices another process opens. It answers what reading.Archive answers, by calls to that process."""

    def begin(self):
        """Has the devices opened, and asks what there is."""
        about = self.call("about")
        self.tags, self.refused, self.newest = about["tags"], about["refused"], about["newest"]

    def replies(self, queries):
        return self.call("replies", queries)

    def state(self):
        return {name: types.SimpleNamespace(**tag) for name, tag in self.call("state").items()}

    def frames(self, group, calculation, least):
        return self.call("frames", group, calculation, least)

    def shifts(self, calendar, day, days):
        return self.call("shifts", calendar, day, days)


class Distant(Called):
    """A part on another machine: each call opens its devices there."""

    def __init__(self, part, machines, tags, groups, lenient):
        self.part, self.machines, self.opened = part, machines, {"tags": tags, "groups": groups, "lenient": lenient}

    def call(self, what, *words):
        data = json.dumps(self.opened | {"call": what, "words": words}).encode()
        result = self.machines.all([(self.part, "site_work.py", ["ask", self.part.folder], data)])[self.part]
        return json.loads(done_well(self.part, result))

    def close(self):
        """Nothing is open."""


class Near(Called):
    """A part on this machine. A process of its own opens its devices once and answers all calls, so the parts work beside each other."""

    others = set()  # ends of pipes that a new process must not keep open: else the process behind each would never end

    def __init__(self, part, tags, groups, wait, lenient):
        self.pipe, there = FORK.Pipe()
        self.others.add(self.pipe)
        self.process = FORK.Process(target=self.serve, args=(there, part.plant, tags, groups, wait, lenient), daemon=True)
        self.process.start()
        there.close()

    def serve(self, pipe, *opened):
        """Answers calls until the other end of the pipe is closed, as it is if the asking process ends, in whatever way."""
        signal.signal(signal.SIGINT, signal.SIG_IGN)
        for other in self.others:
            other.close()
        with contextlib.suppress(OSError):
            try:
                with site_work.opened(*opened) as archive:
                    while True:
                        pipe.send(outcome(archive, *pipe.recv()))
            except Exception as why:  # also that nobody asks any more; then nobody is there to hear it
                pipe.send((None, why))

    def call(self, what, *words):
        try:
            self.pipe.send((what, words))
            found, why = self.pipe.recv()
        except (EOFError, OSError):
            raise Refusal(UNREADABLE, "the process that reads it was ended, and nothing was changed") from None
        if why:
            raise why
        return found

    def close(self):
        """Ends the process, which removes its copies."""
        self.others.discard(self.pipe)
        self.pipe.close()
        self.process.join()


def outcome(archive, what, words):
    """What an opened part answers to a call, and why it does not."""
    try:
        return site_work.answered(archive, what, words), None
    except Exception as why:
        return None, why


def as_plant(site):
    """What the tools that ask need to know of a site as if it were a plant: its settings, its folder, and how it is opened."""
    common = vars(site.common) | {"tag": {tag: table for part in site.parts for tag, table in part.plant.settings.tag.items()}}
    return types.SimpleNamespace(settings=types.SimpleNamespace(**common), path=site.path, folder=site.folder, site=site)


def opener(machines):
    """What opens a site as reading.opened opens a plant."""
    @contextlib.contextmanager
    def opened(plant, tags=None, groups=(), wait=reading.WAIT, lenient=False):
        site = plant.site
        spans, made = spans_of(site.parts, lambda part: part.fed[0]), groups_of(site)
        for kind, asked, known in (("tag", tags or (), spans), ("group", groups, made)):
            for name in asked:
                if name not in known:
                    raise Refusal(UNREADABLE, "no part has the %s %s; there are %s" % (kind, name, ", ".join(known) or "none"))
        groups = {name: made[name] for name in groups}
        inputs = [tag for name, parts in groups.items() for part in parts for tag in part.fed[1][name]["tags"]]
        spans = {tag: spans[tag] for tag in (spans if tags is None else dict.fromkeys([*tags, *inputs]))}
        with contextlib.ExitStack() as stack, concurrent.futures.ThreadPoolExecutor(machines.jobs) as pool:
            archives = opened_all(site, machines, spans, groups, wait, lenient, stack, pool)
            yield SiteArchive(site, spans, groups, archives, pool)
    return opened


def groups_of(site):
    """Of each group the parts that have it, in the order of the times from which they have their tags."""
    made = {}
    for part in sorted(site.parts, key=lambda part: part.start):
        for name in part.fed[1]:
            made.setdefault(name, []).append(part)
    return made


def opened_all(site, machines, spans, groups, wait, lenient, stack, pool):
    """What can be asked about in each part that has one of these tags or groups. The parts are opened beside each other."""
    wanted = {}
    for part in site.parts:
        tags = [tag for tag, parts in spans.items() if part in parts]
        names = [name for name, parts in groups.items() if part in parts]
        if tags or names:
            wanted[part] = tags, names
    found = {part: Distant(part, machines, *asked, lenient) if part.worker else Near(part, *asked, wait, lenient)
             for part, asked in wanted.items()}
    for archive in found.values():
        stack.callback(archive.close)
    futures = {part: pool.submit(archive.begin) for part, archive in found.items()}
    for part, future in futures.items():
        with named(part):
            future.result()
    return found
