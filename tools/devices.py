"""devices.py: what the tools read in the files of devices themselves, by the rules of docs/FORMATS.md (Part 2). Nothing is written."""
import os

from files import sha256_of_next

TUNING = ("exc_dev", "exc_max", "comp_dev", "comp_min", "comp_max")
OPEN = 0xA5  # a gate
HELD, PENDING, TUNED = 0x01, 0x02, 0x10  # of a summary's flags: it has a held point, a pending one, a tuning
TAG_RECORDS, PLANT_RECORDS = 1_048_576, 8_388_608  # that a tag, and all tags of a base together, may have


def sha256_of_first(path, size):
    """The sha256 of the first bytes of a file; None if it is not that long."""
    with open(path, "rb") as data:
        sha = sha256_of_next(data, size)
    return sha and sha.hexdigest()


def begins(path):
    """Whether a file is there and begins as the device of a tag. Any other the program refuses or begins anew."""
    try:
        with open(path, "rb") as device:
            return begins_in(device.read(5))
    except (FileNotFoundError, IsADirectoryError):
        return False


def begins_in(data):
    """Whether bytes begin as the device of a tag."""
    return data[:5] == bytes([OPEN]) + b"PHT1"


def number(data, at, width):
    return int.from_bytes(data[at:at + width], "big")


def events_on(path):
    """How many events stand on a tag's device."""
    with open(path, "rb") as device:
        data = device.read(400)
        return events_in(data + device.read(1_035 * min(number(data, 110, 4), 65_536)))


def counting_summary(data):
    """Where the summary of a tag's device that counts stands; None if none does."""
    return max((at for at, gate in ((128, 384), (256, 385)) if data[gate] == OPEN), key=lambda at: number(data, at, 8), default=None)


def batches_in(data):
    """The batches after the summary that counts, in the bytes of a tag's device: where each stands, and how many raw values it has."""
    summary, slots = counting_summary(data), min(number(data, 110, 4), 65_536)
    events = 0 if summary is None else number(data, summary, 8)
    for slot, gate in enumerate(data[400:400 + slots]):
        at = 400 + slots + 1_034 * slot
        if gate == OPEN and number(data, at, 8) == events:
            yield at, number(data, at + 8, 2)
            events += number(data, at + 8, 2)


def events_in(data):
    """How many events stand in the bytes of a tag's device: those of the summary that counts, and of the batches after it."""
    if len(data) < 400 or data[0] != OPEN:
        return 0
    summary = counting_summary(data)
    return (0 if summary is None else number(data, summary, 8)) + sum(count for _, count in batches_in(data))


def newest_in(data):
    """The time of the newest raw value that a tag took, also if the exception test set it aside, in the bytes of its device; None if it took
    none."""
    summary, times = counting_summary(data), []
    if summary is not None:
        times = [number(data, summary + at, 8) for at, flag in ((16, HELD), (32, PENDING)) if data[summary + 12] & flag]
    for at, count in batches_in(data):
        times += [number(data, at + 10 + 16 * place, 8) for place in range(count)]
    return max(times, default=None)


def definition_in(start):
    """What the bytes of a tag's device say of the tag: whether it is a step tag, and the tuning that is in force."""
    summary, made = counting_summary(start), [number(start, 70 + 8 * place, 8) for place in range(len(TUNING))]
    tuned = summary is not None and start[summary + 12] & TUNED
    return dict(zip(TUNING, tuning_in(start[summary:summary + 128]) if tuned else made), step=start[114] == 1)


def tuning_in(summary):
    """The five numbers of a summary's tuning."""
    parts, at = [], 96
    for size in (7, 6, 7, 6, 6):
        parts.append(number(summary, at, size))
        at += size
    return tuple(parts)


def log_end(path):
    """Where the gate of the next block of the plant's log stands: what is before it never changes."""
    with open(path, "rb") as log:
        start = log.read(9)
        if len(start) < 9 or start[0] != OPEN:
            return 0
        at, size = 9 + number(start, 5, 4), os.path.getsize(path)
        while at < size:
            log.seek(at)
            block = log.read(13)
            if len(block) < 13 or block[0] != OPEN:
                break
            at += 13 + 32 * number(block, 9, 4)
    return min(at, size)


def retuned(path, definition, taken):
    """Whether a summary on a tag's device, of more than `taken` events, has another tuning than the base: then somebody ran the
    program with another base since."""
    wanted = tuple(definition[key] for key in TUNING)
    with open(path, "rb") as device:
        start = device.read(400)
    for slot in (0, 1):
        summary = start[128 + 128 * slot:256 + 128 * slot]
        if len(start) == 400 and start[384 + slot] == OPEN and number(summary, 0, 8) > taken and summary[12] & TUNED:
            if tuning_in(summary) != wanted:
                return True
    return False
