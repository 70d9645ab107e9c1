"""rows.py: what stands in CSV files, as times in milliseconds and whole values of tags.

Each row is stored as what it says, or refused with its number and the reason: never guessed, and never dropped in silence. The loops
over the rows make no object a row: a text that was read once is looked up the next time."""
import array
import codecs
import csv
import itertools
import operator
import re

from fields import MOST_TIME, BadField, instants, twice, value_and_rounding
from files import nearest, shown

TIME_WORDS = ("time", "timestamp")
REFUSED_HEADER = ["tag", "time", "value", "row", "reason"]
REFUSED_QUALITY = ["tag", "time", "value", "quality", "row", "reason"]  # of a file whose values have a quality: a bad one stays bad
MINUTE = 17       # characters of a time up to its seconds: 2024-12-31T00:00:
PLAIN = re.compile(r"([0-9]{4}-[0-9]{2}-[0-9]{2}[T ][0-9]{2}:[0-9]{2}:)([0-9]{2}(?:\.[0-9]{1,3})?)(Z|[+-][0-9]{2}:[0-9]{2})?")
CHUNK = 1 << 20   # bytes whose lines are split at once
KNOWN = 200_000   # texts that are remembered of a kind
csv.field_size_limit(1 << 30)  # a line without separators in a file that is no CSV file


class Values:
    """The values of many tags: of each tag its times and its values, in the order in which they came; and how many were rounded."""

    def __init__(self):
        self.tags = {}
        self.rounded = 0

    @property
    def count(self):
        return sum(len(times) for times, _ in self.tags.values())

    def arrays(self, tag):
        """The times and the values of a tag, to which more may be added."""
        if tag not in self.tags:
            self.tags[tag] = array.array("q"), array.array("q")
        return self.tags[tag]

    def add(self, tag, t, v):
        times, values = self.arrays(tag)
        times.append(t)
        values.append(v)

    def of(self, tag):
        """The times and the values of a tag."""
        return self.tags.get(tag, ((), ()))

    def sizes(self):
        """How many values each tag has."""
        return {tag: len(times) for tag, (times, _) in self.tags.items()}

    def cut(self, sizes):
        """Takes away what was added since the sizes were these."""
        for tag, arrays in self.tags.items():
            for one in arrays:
                del one[sizes.get(tag, 0):]


class Times(dict):
    """What texts of times mean, in milliseconds. A new text is put together of its minute and of what stands behind that, if both are known
    from other texts; or it is a whole number. Any other one, and one out of the range, is a KeyError: it has to be read."""

    def __init__(self, first, last, source):
        self.first, self.last, self.zone, self.form = first, last, source.zone, source.time
        self.told, self.local, self.rests = {}, {}, {}  # minutes of texts with an offset, and without; of a rest its minutes and its length

    def __missing__(self, text):
        known = self.rests.get(text[MINUTE:]) or self.rests.get(rest_of(text))
        t = known[0][text[:MINUTE]] + known[1] if known else self.whole_number(text)
        if not self.first <= t <= self.last:
            raise KeyError(text)
        if len(self) >= KNOWN:
            self.clear()
        self[text] = t
        return t

    def whole_number(self, text):
        if self.form is None and len(text) <= 20 and text.isascii() and text.isdigit():
            return int(text)
        raise KeyError(text)

    def learn(self, text, t):
        """Notes what a text that was read means, and what its parts mean."""
        remember(self, text, t)
        match = PLAIN.fullmatch(text[:MINUTE] + rest_of(text)) if self.form is None else None
        if match:
            minute, seconds, offset = match.groups()
            begin, length = instants(minute + "00Z", None)[0], instants("1970-01-01T00:00:%sZ" % seconds, None)[0]
            if offset:
                remember(self.told, minute, begin)
                remember(self.rests, seconds + offset, (self.told, t - begin))
            elif [instants(minute + second, self.zone) for second in ("00", "59")] == [(t - length,), (t - length + 59_000,)]:
                remember(self.local, minute, t - length)
                remember(self.rests, seconds, (self.local, length))


def rest_of(text):
    """What stands behind the minute of a time, without microseconds, which are cut off."""
    rest = text[MINUTE:]
    return rest[:6] + rest[9:] if rest[6:9].isdigit() and rest[2:3] == "." else rest


class Known:
    """What is remembered while files of one source are read, so that a text is read once: names of tags, times."""

    def __init__(self, times):
        self.names, self.times = {}, times


class Intake:
    """What a turn reads: the values, and what reading has to know of the plant.

    `scales` has the tags of the base, each with its scale or None. A value later than `latest` is refused, so that one wrong clock never
    makes a tag late for ever; nor is one before `not_before` taken, which could never be removed. `newest` has the newest time of each
    tag: a row that is not newer is late, and of these each tag takes `late_rows` a turn."""

    def __init__(self, settings, scales, latest, newest=None):
        self.settings, self.scales, self.latest, self.values = settings, scales, latest, Values()
        self.newest, self.late, self.bad, self.numbers, self.known = dict(newest or {}), {}, {}, {}, {}
        self.over = Values()
        self.kept = {table.get("quality_tag"): name for name, table in settings.tag.items() if table.get("quality_tag")}

    def known_of(self, source):
        if id(source) not in self.known:
            self.known[id(source)] = Known(Times(self.settings.not_before, min(self.latest, MOST_TIME), source))
        return self.known[id(source)]

    def entry(self, text, tags):
        """Where the values of a tag go: the tag, how a time and a value are added, its numbers that are exact and that were rounded."""
        name = tags.get(text, text)
        if name not in self.scales:
            raise BadField("the base has no tag '%s'%s" % (shown(name), nearest(name, self.scales) if len(name) <= 64 else ""))
        if name in self.kept:
            raise BadField("the feeder keeps %s itself, as the quality_tag of %s" % (name, self.kept[name]))
        times, values = self.values.arrays(name)
        exact, rounded = self.numbers.setdefault(self.scales[name], ({}, {}))
        return times.append, values.append, exact, rounded, name


class Layout:
    """Where a file's columns stand: of tag, time, value and quality; or of a wide file that of the time, and the names of the others."""

    def __init__(self, width, tag, time, value, quality=None, names=None):
        self.width, self.tag, self.time, self.value, self.quality, self.names = width, tag, time, value, quality, names


def layout_of(fields, source, tags):
    """The layout that a header line tells, and whether the line is a header. A header that can be read in two ways spoils its file: that
    is a BadField."""
    plain = Layout(3, 0, 1, 2)
    if fields in (REFUSED_HEADER, REFUSED_QUALITY):
        return Layout(len(fields), 0, 1, 2, fields.index("quality") if "quality" in fields else None), True
    if type(source.columns) is list:
        places = {word: place for place, word in enumerate(source.columns)}
        return Layout(len(source.columns), places["tag"], places["time"], places["value"], places.get("quality")), False
    found = {word: places_of(word, fields, source.columns) for word in ("tag", "time", "value", "quality")}
    if not found["time"] and "time" in source.columns:
        raise BadField("the header has no column '%s', which has the time by `columns` of its source in feed.toml; with the `separator` '%s' it"
                       " has '%s'" % (shown(source.columns["time"]), source.separator, shown("', '".join(fields), 300)))
    if not found["time"]:
        return plain, False
    rest = [name for place, name in enumerate(fields) if place not in itertools.chain(*found.values())]
    doubled = [fields[places[1]] for places in found.values() if len(places) > 1]
    doubled += [name for name in rest if [source.tags.get(other, other) for other in rest].count(source.tags.get(name, name)) > 1]
    if doubled:
        raise BadField("the header has the column '%s' twice" % shown(doubled[0]))
    ignored = {str(name).lower() for name in source.ignore} | {"row", "reason"}
    first = {word: places[0] if places else None for word, places in found.items()}
    if found["tag"] and found["value"]:
        strange = [name for name in rest if name.lower() not in ignored]
        if strange:
            raise BadField("the header has a column whose meaning nothing says: '%s' (name it in `ignore` or `columns` of its source in"
                           " feed.toml)" % shown(strange[0]))
        missing = [name for word, name in source.columns.items() if not found[word]]
        if missing:
            raise BadField("the header has no column '%s', which `columns` of its source in feed.toml names" % shown(missing[0]))
        return Layout(len(fields), first["tag"], first["time"], first["value"], first["quality"]), True
    half = [word for word in ("tag", "value", "quality") if found[word] and fields[first[word]] not in tags]
    if half:
        raise BadField("the header has a column '%s', but not all of tag, time and value, so the file is neither long nor wide" % half[0])
    if first["time"] != 0 and "time" not in source.columns:
        raise BadField("the header has the time in column %d; a wide file begins with it (or name it in `columns` of its source in"
                       " feed.toml)" % (first["time"] + 1))
    names = [None if place == first["time"] or name.lower() in ignored and name not in tags else name for place, name in enumerate(fields)]
    return Layout(len(fields), None, first["time"], None, None, names), True


def places_of(word, fields, columns):
    """In which columns of a header a word stands: under the name that the source gives it, or under its own."""
    theirs = columns.get(word)
    places = [place for place, field in enumerate(fields) if theirs is not None and field.lower() == theirs.strip().lower()]
    own = TIME_WORDS if word == "time" else (word,)
    return places or [place for place, field in enumerate(fields) if field.lower() in own]


def fields_of(line, separator):
    """The fields of one line, without the blanks around them; None if a quote is not closed, which spoils its own line alone."""
    if '"' in line:
        try:
            return [field.strip() for field in next(csv.reader([line], delimiter=separator, strict=True), [])]
        except (csv.Error, StopIteration):
            return None
    return [field.strip() for field in line.split(separator)]


def lines_of(data, begin, progress):
    """The lines of a file's bytes, in pieces."""
    while begin < len(data):
        end = data.rfind(b"\n", begin, begin + CHUNK) + 1 or data.find(b"\n", begin) + 1 or len(data)
        lines = data[begin:end].decode("utf-8", "replace").replace("\r\n", "\n").split("\n")
        if not lines[-1]:
            lines.pop()
        yield lines
        begin = end
        progress(begin, len(data))


class Reader:
    """Reads the lines of one file, and adds what they say to the values of a turn. A file of which no line has the right fields is spoilt.

    `refuse(tag, time, value, number, why, quality)` takes each row that is not stored; a line without fields stands in place of its tag,
    and the quality is None if the file has none. `place` has what the lines of a growing file said that were read before: how many there
    were, their header, and of tags whose last time the clock shows twice which one it was. So its next lines are read as if all came at
    once."""

    def __init__(self, intake, source, refuse, place=None):
        self.intake, self.source, self.refuse = intake, source, refuse
        known, place = intake.known_of(source), place or {}
        self.names, self.times, self.separator, self.good = known.names, known.times, source.separator, source.good
        self.lines, self.header, self.hours = place.get("lines", 0), place.get("header"), place.get("hours", {})
        self.layout, self.skip, self.pending = None, place.get("skip", source.skip), {}
        self.fits, self.misfit = self.lines > 0, None  # whether a line had the right fields; what was wrong with the first that had not
        if self.header is not None:
            self.layout = layout_of(fields_of(self.header, self.separator) or [], source, intake.scales)[0]

    def read(self, data, progress=lambda done, size: None):
        """Adds what a file's bytes hold. A BadField says why the whole file is spoilt; then nothing of it was added."""
        sizes = self.intake.values.sizes()
        begin = len(codecs.BOM_UTF8) if self.lines == 0 and data.startswith(codecs.BOM_UTF8) else 0
        for lines in lines_of(data, begin, progress):
            number, self.lines = self.lines + 1, self.lines + len(lines)
            if self.layout is None:
                number, lines = self.behind_header(number, lines)
            if lines:
                (self.read_long if self.layout.names is None else self.read_wide)(number, lines)
        if self.misfit and not self.fits and self.intake.values.count == sum(sizes.values()):
            raise self.misfit
        self.settle_hours(sizes)
        self.limit_late(sizes)

    def place(self):
        """What the next lines of a growing file need of these."""
        return {"lines": self.lines, "header": self.header, "skip": self.skip, "hours": self.hours}

    def behind_header(self, number, lines):
        """The lines behind the header, and the number of their first one. The first line that is not blank tells the layout."""
        for place, line in enumerate(lines):
            fields = fields_of(line, self.separator)
            if not line.strip() or fields not in (REFUSED_HEADER, REFUSED_QUALITY) and self.skip:
                self.skip -= bool(line.strip())
                continue
            self.layout, is_header = layout_of(fields or [], self.source, self.intake.scales)
            self.header = line if is_header else ""
            return number + place + is_header, lines[place + is_header:]
        return number, []

    def read_long(self, number, lines):
        """Rows of one value each."""
        names, times, separator, layout, good = self.names, self.times, self.separator, self.layout, self.good
        tag, time, value, quality, width = layout.tag, layout.time, layout.value, layout.quality, layout.width
        for number, line in enumerate(lines, number):
            fields = line.split(separator)
            try:
                put_time, put_value, exact, _, _ = names[fields[tag]]
                t, v = times[fields[time]], exact[fields[value]]
                if len(fields) != width or quality is not None and fields[quality] not in good:
                    raise KeyError
            except (KeyError, IndexError):
                self.long_row(number, line, fields)
                continue
            put_time(t)
            put_value(v)

    def long_row(self, number, line, plain):
        """A row that has a text which is not known yet, or that is not stored."""
        fields, layout = fields_of(line, self.separator), self.layout
        if not line.strip():
            return
        if fields is None:
            return self.refuse_line(line, number, "a quote is not closed")
        if len(fields) != layout.width:
            hint = ("" if layout.width > 3 or number > 1 else
                    ": is `separator` in feed.toml right? A wide file's header begins with `time`")
            return self.refuse_line(line, number, "%d fields, not %d%s" % (len(fields), layout.width, hint))
        self.fits = True
        tag, time, value = fields[layout.tag], fields[layout.time], fields[layout.value]
        quality = None if layout.quality is None else fields[layout.quality]
        plain = plain if '"' not in line else [""] * layout.width
        try:
            entry = self.entry(tag, plain[layout.tag])
            found = self.time(time, plain[layout.time])
            if quality is not None and quality.lower() not in self.good:
                return self.bad_value(entry[4], found, (tag, time, value), number, quality)
            v = self.number(entry, value, plain[layout.value])
        except BadField as why:
            return self.refuse(tag, time, value, number, why, quality)
        self.put(entry, found, v, number, tag, time, value, quality)

    def refuse_line(self, line, number, why):
        """A line that has not the right fields: it stands in place of its tag."""
        why = BadField(why)
        self.misfit = self.misfit or why
        self.refuse(line, "", "", number, why, None if self.layout.quality is None else "")

    def bad_value(self, name, found, texts, number, quality):
        """A value of bad quality: it is refused; or, if the tag has a quality_tag, that tag shows it."""
        if self.intake.settings.of_tag(name)["quality_tag"] is None or len(found) > 1:
            return self.refuse(*texts, number, BadField("its quality is not good", quality), quality)
        self.intake.bad.setdefault(name, array.array("q")).append(found[0])

    def read_wide(self, number, lines):
        """Rows of a value for each of the header's tags; an empty field is none."""
        times, separator, width, time = self.times, self.separator, self.layout.width, self.layout.time
        columns = [(place, self.column(name)) for place, name in enumerate(self.layout.names) if name is not None]
        for number, line in enumerate(lines, number):
            fields = line.split(separator)
            try:
                t = times[fields[time]] if len(fields) == width and '"' not in line else None
            except KeyError:
                t = None
            if t is None:
                self.wide_row(number, line, fields)
                continue
            for place, (put_time, put_value, exact, _, _) in columns:
                field = fields[place]
                v = exact.get(field) if field else None
                if v is not None:
                    put_time(t)
                    put_value(v)
                elif field:
                    self.wide_cell(number, place, (t,), fields[time], field, field)

    def column(self, name):
        """Where the values of a wide file's column go; nothing is known of its fields if the base has no such tag."""
        try:
            return self.entry(name, name)
        except BadField:
            return None, None, {}, {}, name

    def wide_row(self, number, line, plain):
        """A row of a wide file whose time is not known yet, or that is not stored."""
        fields, time = fields_of(line, self.separator), self.layout.time
        if not line.strip():
            return
        if fields is None or len(fields) != self.layout.width:
            why = "a quote is not closed" if fields is None else "%d fields, and the header has %d" % (len(fields), self.layout.width)
            return self.refuse_line(line, number, why)
        self.fits = True
        plain = plain if '"' not in line else [""] * self.layout.width
        try:
            found = self.time(fields[time], plain[time])
        except BadField as why:
            found = why
        for place, name in enumerate(self.layout.names):
            if name is not None and fields[place]:
                self.wide_cell(number, place, found, fields[time], fields[place], plain[place])

    def wide_cell(self, number, place, found, time, value, plain):
        """A value of a wide file; `found` are its times, or why it has none."""
        name, value = self.layout.names[place], value.strip()
        if not value:
            return
        try:
            entry = self.entry(name, name)
            if isinstance(found, BadField):
                raise found
            v = self.number(entry, value, plain)
        except BadField as why:
            return self.refuse(name, time, value, number, why)
        self.put(entry, found, v, number, name, time, value)

    def entry(self, text, plain):
        """Where the values of a tag go; `plain` is the field as it came, which is remembered."""
        if plain not in self.names:
            entry = self.intake.entry(text, self.source.tags)
            if not plain:
                return entry
            remember(self.names, plain, entry)
        return self.names[plain]

    def time(self, text, plain):
        """The time or the two times that a field may mean. A single one is remembered."""
        if plain in self.times:
            return self.times[plain],
        intake, found = self.intake, instants(text, self.source.zone, self.source.time)
        if found[0] > intake.latest:
            raise BadField("later than the clock by more than %d ms" % intake.settings.future_ms, text)
        if found[0] < intake.settings.not_before:
            raise BadField("earlier than not_before in feed.toml (a whole number is milliseconds)", text)
        if len(found) == 1 and plain:
            self.times.learn(plain, found[0])
        return found

    def number(self, entry, text, plain):
        """A field as a tag's whole value."""
        _, _, exact, rounded, name = entry
        if plain in exact:
            return exact[plain]
        if plain not in rounded:
            v, is_rounded = value_and_rounding(text, self.intake.scales[name], self.source.decimal)
            self.intake.values.rounded += is_rounded
            if plain:
                remember(rounded if is_rounded else exact, plain, v)
            return v
        self.intake.values.rounded += 1
        return rounded[plain]

    def put(self, entry, found, v, number, *texts):
        """Adds a value. If its time may be one of two, that is settled once the rows around it are known."""
        if len(found) > 1:
            place = len(self.intake.values.arrays(entry[4])[0])
            self.pending.setdefault(entry[4], []).append((place, found[1], number, texts))
        entry[0](found[0])
        entry[1](v)

    def settle_hours(self, sizes):
        """Decides of times that the clock shows twice which one is meant: the rows of each tag rise."""
        hours = {}
        for name, pending in self.pending.items():
            times, values = self.intake.values.arrays(name)
            first, spans = sizes.get(name, 0), spans_of([row[0] for row in pending])
            for begin, end in reversed(spans):
                rows = pending[begin:end]
                place = rows[0][0]
                before = times[place - 1] if place > first else self.hours.get(name)
                settled = settled_times(before, times[place:place + len(rows)], [row[1] for row in rows], self.intake.latest)
                for row in () if settled else rows:
                    tag, time, value, *quality = row[3]
                    self.refuse(tag, time, value, row[2], twice(time, self.source.zone), *quality)
                times[place:place + len(rows)] = array.array("q", settled or ())
                if not settled:
                    del values[place:place + len(rows)]
                elif end == len(pending) and place + len(rows) == len(times):
                    hours[name] = times[-1]
        self.hours = hours

    def limit_late(self, sizes):
        """Takes no more late rows of a tag than `late_rows` allows a turn; the others are put aside."""
        intake, most = self.intake, self.intake.settings.late_rows
        for name, (times, values) in intake.values.tags.items():
            first, newest = sizes.get(name, 0), intake.newest.get(name, -1)
            if len(times) == first:
                continue
            some = times[first:]
            if some[0] > newest and all(map(operator.lt, some, some[1:])):
                intake.newest[name] = some[-1]
                continue
            kept, count = [], intake.late.get(name, 0)
            for place, t in enumerate(some, first):
                count += t <= newest
                if t > newest or count <= most:
                    kept.append(place)
                else:
                    intake.over.add(name, t, values[place])
                newest = max(newest, t)
            intake.newest[name], intake.late[name] = newest, count
            if len(kept) < len(some):
                times[first:], values[first:] = (array.array("q", [one[place] for place in kept]) for one in (times, values))


def remember(texts, text, meaning):
    """Notes what a text means. Too many texts are forgotten: they are read again as they come."""
    if len(texts) >= KNOWN:
        texts.clear()
    texts[text] = meaning


def spans_of(places):
    """The spans of neighbouring places, as positions in the list."""
    cuts = [0] + [n for n in range(1, len(places)) if places[n] != places[n - 1] + 1] + [len(places)]
    return list(zip(cuts, cuts[1:]))


def settled_times(before, early, late, latest):
    """Which times are meant by rows that follow each other, each at its early or its late time; None if the order cannot tell.

    The rows rise. So if they fall once on the clock, those before that are early and those behind it late. If they do not, they are late
    if the row before them is not earlier; and early if the last one would be later than the clock otherwise."""
    falls = [n for n in range(1, len(early)) if early[n] <= early[n - 1]]
    if before is not None and before >= early[0]:
        return list(late) if not falls and before < late[0] and late[-1] <= latest else None
    if len(falls) == 1:
        return list(early[:falls[0]]) + list(late[falls[0]:]) if late[-1] <= latest else None
    return list(early) if not falls and late[-1] > latest else None


def read_values(data, scales, settings, latest, values, source, place=None):
    """Adds what the bytes of a file of a source hold to the values, and answers its refusals: tag, time, value, line number, reason."""
    intake, refused = Intake(settings, scales, latest), []
    intake.values = values
    refuse = lambda tag, time, value, number, why, quality=None: refused.append((tag, time, value, number, str(why)))  # noqa: E731
    try:
        Reader(intake, source, refuse, place).read(data)
    except BadField as why:
        refused = [("", "", "", 1, str(why))]
    return refused
