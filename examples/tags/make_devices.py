#!/usr/bin/env python3
"""make_devices.py: writes the devices of the tags T1 and S1 into the folder historian.d of the working folder. It prints nothing.

A session that committed one batch and made no checkpoint leaves such a device: the layout, and four values in the first lane slot. The
tag N1 has no device yet; the first command that opens it makes one."""
import os
import struct

SLOTS = 64
OPEN = b"\xa5"


def device(name, tuning, step, values):
    """The bytes of a device: its header, two closed summary slots, and the lane with one batch."""
    header = b"PHT1" + bytes([len(name)]) + name.encode().ljust(64, b"\0")
    header += struct.pack(">5QIB13x", *tuning, SLOTS, step)
    batch = struct.pack(">QH", 0, len(values)) + b"".join(struct.pack(">Qq", t, v) for t, v in values)
    lane = OPEN + bytes(SLOTS - 1) + batch.ljust(1034 * SLOTS, b"\0")
    return OPEN + header + bytes(2 * 128 + 2 + 14) + lane


def main():
    os.makedirs("historian.d", exist_ok=True)
    for name, comp_dev, step, values in [
        ("T1", 0, False, [(0, 0), (10, 10), (20, 0), (30, 5)]),
        ("S1", 2, True, [(0, 10), (10, 11), (20, 15), (30, 14)]),
    ]:
        tuning = (0, 1_000_000, comp_dev, 0, 1_000_000)
        with open(os.path.join("historian.d", name + ".tag"), "wb") as out:
            out.write(device(name, tuning, step, values))


if __name__ == "__main__":
    main()
