"""device_reader.py: the archive of a tag from the bytes of its device, by docs/FORMATS.md (Part 2) and without the program.

It reads the layout, the summary that counts and its records. Then it takes the values of the lane, by the rules of compression.py. So it
finds what the program finds when it opens the device. A field that breaks a rule is told by its place. Nothing is written."""
import array
import bisect
import operator
import struct

from compression import KEPT, LATE, State, Tuning
from devices import OPEN, TAG_RECORDS, number, tuning_in
from fields import MOST_TIME, MOST_VALUE

HEADER, SUMMARY, SLOT, RECORD = 400, 128, 1_034, 17  # bytes; the header goes as far as the gates of the lane
MOST_SLOTS = 65_536
HELD, PENDING, HINGE, DOORS, TUNED = 1, 2, 4, 8, 16  # flags of a summary


class Damaged(Exception):
    """A device that breaks a rule: at which byte, and what is wrong there."""

    def __init__(self, at, what):
        super().__init__("at byte %d: %s" % (at, what))


class Device:
    """A tag's device as it was read: the tuning with which it was made, its records and its state after the lane's values.

    `times`, `values` and `kinds` are those of the device's own records from the place `first` on, in the order in which they were made;
    what the lane adds to them is in `state.new`."""

    def __init__(self, name, made, state, first, records):
        self.name, self.made, self.state, self.first = name, made, state, first
        self.kinds, self.times, self.values = records

    def all_records(self):
        """The records from the place `first` on, those of the lane too: kinds as text, times and values."""
        new = self.state.new
        return (self.kinds + "".join(kind for kind, _, _ in new), self.times + array.array("q", (t for _, t, _ in new)),
                self.values + array.array("q", (v for _, _, v in new)))


def signed(data, at):
    return int.from_bytes(data[at:at + 8], "big", signed=True)


def point(data, at):
    """A point of a summary or of the lane."""
    t, v = number(data, at, 8), signed(data, at + 8)
    if t > MOST_TIME or abs(v) > MOST_VALUE:
        raise Damaged(at, "a time or a value out of range")
    return t, v


def head_of(data, name):
    """The tuning with which a tag was made, how many slots its lane has, and whether it is a step tag."""
    if len(data) < HEADER:
        raise Damaged(len(data), "the device ends before its lane")
    if data[:5] != bytes([OPEN]) + b"PHT1":
        raise Damaged(0, "no device of a tag begins so")
    if not 1 <= data[5] <= 64 or data[6:70].rstrip(b"\0") != data[6:6 + data[5]]:
        raise Damaged(5, "no name of a tag")
    if data[6:6 + data[5]] != name.encode():
        raise Damaged(6, "it is the device of %s" % data[6:6 + data[5]].decode("ascii", "backslashreplace"))
    made, slots = Tuning(*(number(data, 70 + 8 * place, 8) for place in range(5))), number(data, 110, 4)
    if not 1 <= slots <= MOST_SLOTS or data[114] > 1 or any(data[115:128]):
        raise Damaged(110, "no number of lane slots, or no kind of a tag")
    return made, slots, data[114] == 1


def summary_of(data, at, made, step):
    """The state that a summary tells, and how many records it counts."""
    state, flags = State(made, step), data[at + 12]
    if flags & ~31 or any(data[at + 13:at + 16]) or bool(flags & HELD) != bool(flags & HINGE):
        raise Damaged(at + 12, "flags that no summary has")
    state.taken, state.records = number(data, at, 8), number(data, at + 8, 4)
    for flag, place, names in ((HELD, 16, ["held"]), (PENDING, 32, ["pending"]), (HINGE, 48, ["hinge"]), (DOORS, 64, ["upper", "lower"])):
        for offset, attribute in enumerate(names):
            if flags & flag:
                setattr(state, attribute, point(data, at + place + 16 * offset))
            elif any(data[at + place + 16 * offset:at + place + 16 * offset + 16]):
                raise Damaged(at + place, "a point that the flags do not name")
    if flags & TUNED:
        state.tuning = Tuning(*tuning_in(data[at:at + SUMMARY]))
    if state.records > min(TAG_RECORDS, 2 * state.taken) or (state.held is None) != (state.records == 0):
        raise Damaged(at, "a summary whose numbers do not fit")
    return state


def counting(data, made, step):
    """The state that the summary that counts tells."""
    places = [at for at, gate in ((128, 384), (256, 385)) if data[gate] == OPEN]
    if not places:
        return State(made, step)
    return summary_of(data, max(places, key=lambda at: (number(data, at, 8), -at)), made, step)


def batches(data, slots, taken):
    """The values of the lane that the summary does not count, in the order in which they came."""
    used = [slot for slot in range(slots) if data[HEADER + slot] == OPEN]
    starts = [HEADER + slots + SLOT * slot for slot in used]
    for at in starts:
        if not 1 <= number(data, at + 8, 2) <= 64:
            raise Damaged(at + 8, "a batch of no values, or of more than 64")
    if all(number(data, at, 8) + number(data, at + 8, 2) <= taken for at in starts):
        return
    for place, (slot, at) in enumerate(zip(used, starts)):
        if slot != place or number(data, at, 8) != taken:
            raise Damaged(at, "a batch that does not follow the one before it")
        count = number(data, at + 8, 2)
        yield from (point(data, at + 10 + 16 * k) for k in range(count))
        taken += count


def records_in(data, at):
    """Kinds, times and values of the records that stand in some bytes; `at` is their place in the device."""
    kinds, count = data[::RECORD].decode("latin-1"), len(data) // RECORD
    if kinds.strip(KEPT + LATE):
        raise Damaged(at, "a record that is neither kept nor late")
    flat = struct.unpack(">" + "xQq" * count, data)
    times, values = flat[::2], flat[1::2]
    if times and (max(times) > MOST_TIME or max(values) > MOST_VALUE or min(values) < -MOST_VALUE):
        raise Damaged(at, "a record whose time or value is out of range")
    return kinds, array.array("q", times), array.array("q", values)


def require_fit(device):
    """Ends with Damaged unless the records and the summary that was read fit together."""
    state, kept = device.state, device.times
    if LATE in device.kinds:
        kept = array.array("q", (t for kind, t in zip(device.kinds, device.times) if kind == KEPT))
    if not all(map(operator.lt, kept, kept[1:])):
        raise Damaged(HEADER, "kept records whose times do not rise")
    if device.first == 0 and device.kinds[:1] == LATE:
        raise Damaged(HEADER, "the first record is late")
    if kept and kept[-1] != state.hinge[0] or device.times and max(device.times) > state.held[0]:
        raise Damaged(HEADER, "records that do not fit the summary")


def read_device(path, name, known=None):
    """Reads the device of a tag. With `known`, a State that an earlier reading gave, only the records and values since then are read;
    None if the device does not go on from there, because another one stands in its place."""
    with open(path, "rb") as file:
        data = file.read(HEADER)
        made, slots, step = head_of(data, name)
        data += file.read((SLOT + 1) * slots)
        if len(data) < HEADER + (SLOT + 1) * slots:
            raise Damaged(len(data), "the device ends within its lane")
        state = counting(data, made, step)
        stored, first = state.records, known.records if known else 0
        if known and state.taken < known.taken:
            lane = list(batches(data, slots, state.taken))[known.taken - state.taken:]
            if state.taken + sum(1 for _ in batches(data, slots, state.taken)) < known.taken:
                return None
            known.new, known.passed = [], []
            state, stored = known, min(stored, known.records)
        elif known and stored < known.records:
            return None
        else:
            lane = batches(data, slots, state.taken)
        file.seek(HEADER + (SLOT + 1) * slots + RECORD * first)
        size = RECORD * max(0, stored - first)
        records = file.read(size)
        if len(records) < size:
            raise Damaged(HEADER + (SLOT + 1) * slots + RECORD * first + len(records), "records that the summary counts are missing")
        device = Device(name, made, state, first, records_in(records, file.tell() - size))
        require_fit(device)
    for t, v in lane:
        state.take(t, v)
    return device


def content(device, with_held=True):
    """The points of the archive, with the held one or without: times, values, and for each whether a late record stands there."""
    kinds, times, values = device.all_records()
    held = device.state.held if with_held else None
    if LATE not in kinds:
        if held and times[-1] < held[0]:
            times, values = times + array.array("q", held[:1]), values + array.array("q", held[1:])
        return times, values, bytes(len(times))
    points = {}
    for kind, t, v in zip(kinds, times, values):
        if kind == LATE or t not in points or not points[t][1]:
            points[t] = v, kind == LATE
    if held:
        points.setdefault(held[0], (held[1], False))
    order = sorted(points)
    return (array.array("q", order), array.array("q", (points[t][0] for t in order)), bytes(points[t][1] for t in order))


def span_of(times, t):
    """The place of the last point at a time or before it; -1 before the first."""
    return bisect.bisect_right(times, t) - 1
