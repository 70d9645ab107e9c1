"""site_router.py: which part takes which row of a file. It reads blocks of lines and makes no object of a row.

A part gets its rows in the long form, in files of its own with the header `tag,time,value,row`. In the last column, which the feeder passes
over, stands the number of the router's turn. So no two turns give a part the same bytes, and its feeder never takes one file for another. A
row that is not plainly readable is read as the feeder reads it; if it is none, or no part has its tag at its time, it is refused."""
import bisect
import codecs
import contextlib
import csv
import errno
import hashlib
import itertools
import multiprocessing
import operator
import os
import signal
import stat

import turns
from fields import BadField, iso_text, milliseconds
from files import UNREADABLE, Refusal, sha256_of
from inbox import MOST_BYTES, NOT_FOLLOWED
from rows import fields_of, layout_of

BLOCK = 1 << 20            # bytes of a file that are read at once
LINE_BYTES = 1 << 20       # a longer line is none
LONG_BYTES = 8_000_000     # of a file that are routed before it has helpers
FILE_BYTES = 32_000_000    # of a part's file; the feeder takes no file above 67,108,864 bytes
HOUR, DAY = 3_600_000, 86_400_000
REMEMBERED = 50_000        # days, or hours, whose part is remembered
FORK = multiprocessing.get_context("fork")


class Unroutable(Exception):
    """Why a file is refused as a whole; its text is the reason."""


class Lot:
    """The rows of one part in a turn, in files of the turn's folder."""

    def __init__(self, folder, place, header, end):
        self.folder, self.place, self.header, self.end = folder, place, header, end
        self.lines, self.names, self.out, self.count = [], [], None, 0
        self.shas = []  # of each file; None if it was cut, and has to be read

    def taken(self):
        """How many lines a block has for this part, and their bytes. They are forgotten here."""
        if not self.lines:
            return 0, b""
        count, data = len(self.lines), (self.end.join(self.lines) + self.end).encode("utf-8", "replace")
        self.lines.clear()
        return count, data

    def write(self, count, data):
        """Writes lines of a block. A file that is long enough is followed by another one."""
        if not count:
            return
        if self.out is None or self.out.tell() > FILE_BYTES:
            self.close()
            self.names.append("%d-%03d.csv" % (self.place, len(self.names) + 1))
            self.out = open(os.path.join(self.folder, self.names[-1]), "wb")
            self.shas.append(hashlib.sha256())
            self.put(self.header.encode())
        self.put(data)
        self.count += count

    def put(self, data):
        self.out.write(data)
        if self.shas[-1]:
            self.shas[-1].update(data)

    def mark(self):
        """How far the rows reach now."""
        return len(self.names), self.out.tell() if self.out else 0, self.count

    def back_to(self, mark):
        """Takes away the rows behind a mark."""
        self.lines.clear()
        count, size, self.count = mark
        if len(self.names) > count:
            self.out.close()
            for name in self.names[count:]:
                os.remove(os.path.join(self.folder, name))
            del self.names[count:], self.shas[count:]
            self.out = open(os.path.join(self.folder, self.names[-1]), "r+b") if count else None
        if self.out:
            self.out.truncate(size)
            self.out.seek(size)
            self.shas[-1] = None

    def files(self):
        """The name and the sha256 of each file, once all of them are closed."""
        for name, sha in zip(self.names, self.shas):
            yield name, sha.hexdigest() if sha else sha256_of(os.path.join(self.folder, name))

    def close(self):
        """Ends the newest file, synced."""
        if self.out:
            self.out.flush()
            os.fsync(self.out.fileno())
            self.out.close()
            self.out = None


class Spans:
    """The parts of tags that the same parts have, by time. What takes all rows of an hour is remembered, so few times are read."""

    def __init__(self, parts, lots, zone):
        self.zone, self.days, self.hours = zone, {}, {}
        self.starts = [part.start for part in parts]
        self.takes = [None] + [lots[part.place].lines.append for part in parts]

    def take(self, time):
        """What takes the row of this time, or None."""
        key = time[:13] + ("Z" if time[-1:] == "Z" else time[-6:])
        return self.hours.get(key) or self.first_of_hour(time, key)

    def first_of_hour(self, time, key):
        """What takes a row of an hour that is not remembered, or that has a `from`."""
        if time[10:11] not in ("T", " "):
            return self.exactly(time)
        if key not in self.hours:
            remember(self.hours, key, self.of_day(time[:10]) or self.of_hour(time, key))
        return self.hours[key] or self.exactly(time)

    def of_day(self, day):
        """What takes all rows of a day, on whatever clock; False if a `from` is near."""
        if day not in self.days:
            remember(self.days, day, self.of_all(day + "T00:00:00Z", DAY, 2 * DAY))
        return self.days[day]

    def of_hour(self, time, key):
        """What takes all rows of an hour. The offset of a time tells which hour it is; False if it has none, or if a `from` is in it."""
        is_told = time[13:14] == ":" and (key[13:] == "Z" or time[-6:-5] in ("+", "-") and time[-3:-2] == ":")
        return is_told and self.of_all(time[:13] + ":00:00" + key[13:], 0, HOUR - 1)

    def exactly(self, time):
        try:
            return self.at(milliseconds(time.strip(), self.zone))
        except BadField:
            return None

    def at(self, t):
        return self.takes[bisect.bisect_right(self.starts, t)]

    def of_all(self, begin, before, behind):
        """What takes all rows from so long before a time until so long behind it; False if no one part does, or if it is no time."""
        try:
            t = milliseconds(begin, None)
        except BadField:
            return False
        early = self.at(t - before)
        return early if early and early is self.at(t + behind) else False


def remember(known, key, what):
    if len(known) >= REMEMBERED:
        known.clear()
    known[key] = what


class Refused(turns.Refused):
    """The refused rows of a file, which go to the turn's folder as they come."""

    def __init__(self, site, path, separator):
        super().__init__(site, 0, separator)
        self.path = path

    def drop(self):
        super().drop()
        self.count, self.found, self.out = 0, {}, None


class Router:
    """Where the rows of a turn go. `lots` has one lot for each part. The blocks of a long file are read by `helpers` processes beside each
    other."""

    def __init__(self, site, folder, number, helpers=0):
        self.helpers = helpers
        self.separator, self.zone, self.site = site.common.separator, site.common.zone, site
        header, end = self.separator.join(("tag", "time", "value", "row")) + "\n", "%s%d\n" % (self.separator, number)
        self.lots = [Lot(folder, part.place, header, end) for part in site.parts]
        self.plain = {tag: self.lots[parts[0].place].lines.append for tag, parts in site.spans.items()
                      if len(parts) == 1 and parts[0].start == 0}
        spans = {}  # by the parts that a tag has
        for tag, parts in site.spans.items():
            if tag not in self.plain and tuple(parts) not in spans:
                spans[tuple(parts)] = Spans(parts, self.lots, self.zone)
        self.by_time = {tag: spans[tuple(parts)] for tag, parts in site.spans.items() if tag not in self.plain}

    def close(self):
        for lot in self.lots:
            lot.close()

    def route(self, data, refused):
        """Routes the rows of an open file: its sha256, how many bytes and how many rows it has. After a failure no row of it is left."""
        marks, sha, size = [lot.mark() for lot in self.lots], hashlib.sha256(), 0
        try:
            with Helpers(self, refused, self.helpers) as helpers:
                reading = None
                for first, block in blocks(data):
                    sha.update(block)
                    size += len(block)
                    if size > MOST_BYTES:
                        raise Unroutable("it has more than %d bytes: split it" % MOST_BYTES)
                    if reading is None or size < LONG_BYTES or not helpers.take(reading, first, block):
                        reading = self.route_block(reading, first, block, refused)
                        self.write(self.taken())
                helpers.finish()
        except BaseException:
            self.back_to(marks)
            raise
        rows = sum(lot.count - mark[2] for lot, mark in zip(self.lots, marks))
        return sha.hexdigest(), size, rows, marks

    def back_to(self, marks):
        for lot, mark in zip(self.lots, marks):
            lot.back_to(mark)

    def route_block(self, reading, first, block, refused):
        """Routes the lines of a block; how the file is read, which its first line that is not blank says."""
        lines = block.removeprefix(codecs.BOM_UTF8 if first == 1 else b"").decode("utf-8", "replace").split("\n")
        if b"\r" in block:
            lines = [line.rstrip("\r") for line in lines]
        if reading is None:
            reading = self.reading_of(lines, refused)
        if reading:
            reading.take(first, lines, b'"' in block)
        return reading

    def taken(self):
        """What a block has for each part."""
        return [lot.taken() for lot in self.lots]

    def write(self, taken):
        for lot, what in zip(self.lots, taken):
            lot.write(*what)

    def reading_of(self, lines, refused):
        """How a file is read, by its first line that is not blank, which is emptied if it is a header. None if all lines are blank."""
        for place, line in enumerate(lines):
            if line.strip():
                break
        else:
            return None
        try:
            layout, is_header = layout_of(fields_of(line, self.separator) or [], self.site.common.default, self.site.spans)
        except BadField as why:
            raise Unroutable(str(why)) from None
        if layout.quality is not None:
            raise Unroutable("its values have a quality, which site.py does not read: put it into the inbox of its part")
        lines[place] = "" if is_header else line
        if layout.names is not None:
            return Wide(self, refused, layout.names)
        return Long(self, refused, [layout.tag, layout.time, layout.value], layout.width)

    def put(self, tag, time, value, number, refused):
        """Routes a row that is not plainly readable, or refuses it."""
        why = self.why_not(tag, time)
        if why:
            refused.add(tag, time, value, number, why)
        else:
            self.taker(tag, time)(self.separator.join(quoted(field, self.separator) for field in (tag, time, value)))

    def taker(self, tag, time):
        """What takes a row of a tag at a time, or None."""
        return self.plain.get(tag) or (self.by_time[tag].take(time) if tag in self.by_time else None)

    def why_not(self, tag, time):
        """Why no part takes a row of this tag at this time, or None if one does."""
        if self.taker(tag, time):
            return None
        if tag not in self.by_time:
            return BadField("no part has the tag", tag)
        try:
            milliseconds(time, self.zone)
        except BadField as why:
            return why
        return BadField("no part has this tag before %s" % iso_text(self.by_time[tag].starts[0], None))


class Helpers:
    """Processes that route blocks of a file beside each other. What they found is written in the order of the blocks."""

    def __init__(self, router, refused, count):
        self.router, self.refused, self.count, self.pipes, self.processes, self.waiting = router, refused, count, [], [], []

    def __enter__(self):
        return self

    def __exit__(self, *why):
        for pipe in self.pipes:
            pipe.close()
        for process in self.processes:
            process.join()

    def take(self, reading, first, block):
        """Hands a block to the next helper, once that has nothing else to do: whether there are helpers."""
        if not self.count:
            return False
        if len(self.pipes) < self.count:
            self.begin(reading)
            pipe = self.pipes[-1]
        else:
            pipe = self.waiting[0]
            self.write_next()
        pipe.send((first, block))
        self.waiting.append(pipe)
        return True

    def begin(self, reading):
        """Begins one more helper, which knows by now how the file is read."""
        pipe, there = FORK.Pipe()
        self.pipes.append(pipe)
        self.processes.append(FORK.Process(target=self.serve, args=(there, reading), daemon=True))
        self.processes[-1].start()
        there.close()

    def serve(self, there, reading):
        """Routes blocks until the other end of the pipe is closed, as it is if the router ends, in whatever way."""
        signal.signal(signal.SIGINT, signal.SIG_IGN)
        for pipe in self.pipes:
            pipe.close()
        reading.refused = Noted()
        with contextlib.suppress(EOFError, OSError):
            while True:
                self.router.route_block(reading, *there.recv(), None)
                there.send((self.router.taken(), reading.refused.rows))
                reading.refused.rows = []

    def write_next(self):
        """Writes what the first of the helpers found that is waited for."""
        try:
            taken, rows = self.waiting.pop(0).recv()
        except (EOFError, OSError):
            raise Refusal(UNREADABLE, "a process that routed rows was ended, and no part has them yet: the next feed routes them again") from None
        self.router.write(taken)
        for row in rows:
            self.refused.add(*row)

    def finish(self):
        """Writes all that the helpers still have."""
        while self.waiting:
            self.write_next()


class Noted:
    """Refused rows, in place of the file of them."""

    def __init__(self):
        self.rows = []

    def add(self, *row):
        self.rows.append(row)


class Long:
    """A file with `tag,time,value` in each line, in that order without a header or in any order with one."""

    def __init__(self, router, refused, columns, width):
        self.router, self.refused, self.columns, self.width = router, refused, columns, width
        self.as_it_is = width == 3 and columns == [0, 1, 2]
        self.pick = operator.itemgetter(*columns)

    def take(self, first, lines, has_quotes):
        """Routes lines."""
        plain, by_time, width, (tag, time, _) = self.router.plain.get, self.router.by_time.get, self.width, self.columns
        row = None if self.as_it_is else self.quoted if has_quotes else self.joined
        for number, line, fields in zip(itertools.count(first), lines, split_all(lines, self.router.separator, has_quotes)):
            if len(fields) == width:
                take = plain(fields[tag])
                if not take and (spans := by_time(fields[tag])):
                    take = spans.take(fields[time])
                if take:
                    take(row(fields) if row else line)
                    continue
            if line.strip():
                self.slowly(number, line)

    def joined(self, fields):
        """A row in the order that the parts get, of fields without quotes."""
        return self.router.separator.join(self.pick(fields))

    def quoted(self, fields):
        """The same of fields that may have needed quotes."""
        return self.router.separator.join(quoted(field, self.router.separator) for field in self.pick(fields))

    def slowly(self, number, line):
        """Routes one line as the feeder reads it, or refuses it."""
        fields = fields_of(line, self.router.separator)
        if fields is None or len(fields) != self.width:
            why = "a quote is not closed" if fields is None else "%d fields, not %d" % (len(fields), self.width)
            self.refused.add(line, "", "", number, BadField(why))
            return
        self.router.put(*(fields[column] for column in self.columns), number, self.refused)


class Wide:
    """A file with a header `time,TAG,TAG,..` and in each line the values of one time; an empty field is no value."""

    def __init__(self, router, refused, names):
        self.router, self.refused, self.names, self.number = router, refused, names, 0
        self.fixed = all(name not in router.by_time for name in names[1:])
        self.columns = [(router.plain.get(name) or self.stranger(name), (name or "") + router.separator) for name in names[1:]]

    def stranger(self, name):
        """What takes the values of a column whose tag no part has: they are refused. A column without a name is passed over."""
        if name in self.router.by_time:
            return None
        if name is None:
            return id
        why = self.router.why_not(name, "")

        def take(row):
            _, time, value = row.split(self.router.separator, 2)
            self.refused.add(name, time, value, self.number, why)
        return take

    def take(self, first, lines, has_quotes):
        """Routes the values of lines."""
        separator, names = self.router.separator, self.names
        for self.number, line, fields in zip(itertools.count(first), lines, split_all(lines, separator, has_quotes)):
            if len(fields) == len(names) and '"' not in line:
                columns = self.columns if self.fixed else self.columns_at(fields[0])
                if columns:
                    time = fields[0] + separator
                    del fields[0]
                    for (take, name), value in zip(columns, fields):
                        if value and not value.isspace():
                            take(name + time + value)
                    continue
            if line.strip():
                self.slowly(line)

    def slowly(self, line):
        """Routes the values of one line as the feeder reads it, or refuses them."""
        fields = fields_of(line, self.router.separator)
        if fields is None or len(fields) != len(self.names):
            why = "a quote is not closed" if fields is None else "%d fields, and the header has %d" % (len(fields), len(self.names))
            self.refused.add(line, "", "", self.number, BadField(why))
            return
        for name, value in zip(self.names[1:], fields[1:]):
            if value and name is not None:
                self.router.put(name, fields[0], value, self.number, self.refused)

    def columns_at(self, time):
        """What takes the value of each column at a time; None if no part takes one of them then."""
        columns = [(take or self.router.by_time[name].take(time), prefix) for name, (take, prefix) in zip(self.names[1:], self.columns)]
        return columns if all(take for take, _ in columns) else None


def split_all(lines, separator, has_quotes):
    """The fields of each line, one after the other; of a line with a quote that is not closed there are none, and then of the other lines
    neither."""
    if not has_quotes:
        return map(str.split, lines, itertools.repeat(separator))
    try:
        found = list(csv.reader(lines, delimiter=separator, strict=True))
    except csv.Error:
        found = ()
    return found if len(found) == len(lines) else itertools.repeat(())


def quoted(field, separator):
    """A field as it stands in a file."""
    return '"%s"' % field.replace('"', '""') if separator in field or '"' in field else field


def blocks(data):
    """Blocks of whole lines of an open file, each with the number of its first line. The last line may lack its end."""
    rest, number = b"", 1
    while True:
        part = data.read(BLOCK)
        block, end, behind = (rest + part).rpartition(b"\n")
        if not part:
            if rest:
                yield number, rest
            return
        if len(behind) > LINE_BYTES:
            raise Unroutable("a line of it has more than %d bytes" % LINE_BYTES)
        rest = behind
        if end:
            yield number, block + end
            number += block.count(b"\n") + 1


def opened(path):
    """A file that somebody else put there, open for reading. It is neither followed nor waited for if it is no plain file."""
    try:
        handle = os.open(path, NOT_FOLLOWED)
    except OSError as why:
        if why.errno == errno.ELOOP:
            raise Unroutable("it is a link") from None
        raise
    if not stat.S_ISREG(os.fstat(handle).st_mode):
        os.close(handle)
        raise Unroutable("it is no plain file")
    return open(handle, "rb")
