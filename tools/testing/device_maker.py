"""device_maker.py: devices of tags, written byte by byte as docs/FORMATS.md has them, for plants that are too large to be fed in a test."""
import random
import struct

START, MINUTE = 1_711_670_400_000, 60_000
TUNING, SLOTS = (1, 600_000, 2, 0, 28_800_000), 64
GATES, LANE = 400, 400 + SLOTS  # where the gates of the lane and its slots begin
TAG = ('[[tag]]\nname = "%s"\ndescriptor = "a generated tag"\nengunits = "0.1 bar"\nexc_dev = %d\nexc_max = %d\ncomp_dev = %d\n'
       "comp_min = %d\ncomp_max = %d\n")


def tag_text(name, step=False):
    """A tag of a base with the tuning of these devices."""
    return TAG % (name, *TUNING) + ("step = true\n" if step else "")


def device_bytes(name, points, taken, step=False, late=()):
    """A device that has these kept points, of which the last one is held, and late ones."""
    head = b"\xa5PHT1" + bytes([len(name)]) + name.encode().ljust(64, b"\0") + struct.pack(">5QIB", *TUNING, SLOTS, step) + bytes(13)
    last = struct.pack(">Qq", *points[-1])
    tuning = b"".join(number.to_bytes(width, "big") for number, width in zip(TUNING, (7, 6, 7, 6, 6)))
    summary = struct.pack(">QI", taken, len(points) + len(late)) + b"\x15\0\0\0" + last + bytes(16) + last + bytes(32) + tuning
    records = b"".join(struct.pack(">cQq", kind, *point) for kind, some in ((b"K", points), (b"L", late)) for point in some)
    return head + summary + bytes(128) + b"\xa5" + bytes(15) + bytes(SLOTS + 1_034 * SLOTS) + records


def batch_put(path, slot, before, values):
    """Writes values into a lane slot, as a turn of the feeder leaves them; the tag took `before` events until then."""
    with open(path, "r+b") as out:
        out.seek(LANE + 1_034 * slot)
        out.write(struct.pack(">QH", before, len(values)) + b"".join(struct.pack(">Qq", *value) for value in values))
        out.seek(GATES + slot)
        out.write(b"\xa5")


def walk(count, every, seed):
    """Points of a walk, so many milliseconds apart."""
    draw, value, points = random.Random(seed), 20_000, []
    for place in range(count):
        value += draw.randint(-50, 50)
        points.append((START + place * every, value))
    return points
