#!/usr/bin/env python3
"""make_week.py: writes a week of an oven into the folder inbox, a file a day, as a logger would.

Each file is wide: a time in UTC every five seconds, the temperature in degrees with two decimals and some noise, and the door where it
moves. The oven is heated from 6:00 on by a controller. Every 50 minutes its door is opened for a minute, which cools it; at 22:00 it is
switched off. The same files are written each time."""
import datetime
import os
import random

START = datetime.datetime(2026, 3, 2, tzinfo=datetime.timezone.utc)  # a Monday
DAYS, STEP = 7, 5  # seconds between two values
ROOM, HOTTEST, SLOW = 20.0, 330.0, 2400.0  # degrees around it; degrees that full power holds; seconds in which it follows
GAIN, REPEAT = 0.045, 900.0  # of the controller: power a degree that is missing; seconds in which it doubles that
NOISE = 0.25  # degrees


class Oven:
    """The temperature, and what the controller has summed up."""

    def __init__(self):
        self.temperature, self.summed = ROOM, 0.0

    def goes_on(self, wanted, is_open):
        """One step: the controller sets the power, and the oven follows."""
        missing = wanted - self.temperature
        power = min(1.0, max(0.0, GAIN * (missing + self.summed / REPEAT)))
        if abs(missing) < 20:
            self.summed += STEP * missing
        loss = 0.12 * STEP if is_open else 0.0
        self.temperature += STEP * (ROOM + HOTTEST * power - self.temperature) / SLOW - loss


def wanted_at(second):
    """The temperature that is wanted at a second of the day."""
    hour = second / 3600
    return 180.0 if 6 <= hour < 14 else 205.0 if 14 <= hour < 22 else 0.0


def is_open_at(second):
    """Whether the door is open: a minute every 50 minutes, in the day."""
    return 7 * 3600 <= second < 22 * 3600 and (second - 7 * 3600) % 3000 < 60


def write_day(name, first, oven, noise):
    """Writes the values of a day."""
    door = None
    with open(name, "w") as out:
        out.write("time,OVEN1.TEMP,OVEN1.DOOR\n")
        for second in range(0, 86_400, STEP):
            is_open = is_open_at(second)
            oven.goes_on(wanted_at(second), is_open)
            shown = oven.temperature + NOISE * (noise.random() + noise.random() + noise.random() - 1.5)
            moment = first + datetime.timedelta(seconds=second)
            out.write("%s,%.2f,%s\n" % (moment.strftime("%Y-%m-%dT%H:%M:%SZ"), shown, "" if is_open == door else int(is_open)))
            door = is_open


def main():
    oven, noise = Oven(), random.Random(1)
    os.makedirs("inbox", exist_ok=True)
    for day in range(DAYS):
        first = START + datetime.timedelta(days=day)
        write_day(os.path.join("inbox", first.strftime("oven-%Y-%m-%d.csv")), first, oven, noise)


main()
