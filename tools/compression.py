"""compression.py: what a tag makes of one more event: the exception test and compression, by the rules of docs/DEFINITIONS.md.

The program does the same, and is proved to. Who reads a device without the program needs this too: the values of a device's lane are
not records yet, and what they make of the records follows from these rules. Points are (time, value)."""
import collections

KEPT, LATE = "K", "L"

Tuning = collections.namedtuple("Tuning", "exc_dev exc_max comp_dev comp_min comp_max")


def raw_deviation(tuning, step):
    """How far a raw value in order may be from the archive's line, or stair, by promise 2 of the README: in stored units."""
    return tuning.comp_dev + (1 if step else 2) * tuning.exc_dev


def climb(hinge, x, raised, y):
    """The slope from the hinge to x, which is raised, times how much later x and y are than the hinge: a whole number to compare."""
    return (x[1] + raised - hinge[1]) * (y[0] - hinge[0])


class State:
    """What a tag has after some events. `new` are the records that were made since it was read, each (kind, time, value), and `passed` one
    time for each stretch of values that CompMin dropped."""

    def __init__(self, tuning, step):
        self.tuning, self.step = tuning, step
        self.taken = self.records = 0
        self.held = self.pending = self.hinge = self.upper = self.lower = None
        self.new, self.passed = [], []

    def newest(self):
        """The newest raw value in order: it is held, or within ExcDev of what is held. None before the first."""
        return self.pending or self.held

    def take(self, t, v):
        """A raw value comes."""
        self.taken += 1
        held = self.held
        if held is None:
            self.send((t, v))
        elif t <= (self.pending or held)[0]:
            self.push_out()
            self.record(LATE, (t, v))
        elif abs(v - held[1]) > self.tuning.exc_dev or t >= held[0] + self.tuning.exc_max:
            self.push_out()
            self.send((t, v))
        else:
            self.pending = t, v

    def retune(self, tuning):
        """Another tuning is put in force. It ends the line."""
        self.taken += 1
        self.push_out()
        if self.upper:
            self.keep(self.held)
        self.tuning = tuning

    def push_out(self):
        """The pending value is sent after all."""
        if self.pending:
            pending, self.pending = self.pending, None
            self.send(pending)

    def record(self, kind, point):
        self.records += 1
        self.new.append((kind, *point))

    def keep(self, point):
        """A point ends a line, and begins the next one."""
        self.record(KEPT, point)
        self.hinge = self.held = point
        self.upper = self.lower = None

    def hold(self, point, upper, lower):
        self.held, self.upper, self.lower = point, upper, lower

    def send(self, point):
        """The exception test sends a value in order."""
        if self.hinge is None:
            self.keep(point)
        elif self.step:
            self.send_step(point)
        elif self.upper is None:
            self.hold(point, point, point)
        else:
            self.send_line(point)

    def send_line(self, point):
        """A value of a tag of lines, with values since the hinge."""
        hinge, upper, lower, dev = self.hinge, self.upper, self.lower, self.tuning.comp_dev
        short = point[0] <= hinge[0] + self.tuning.comp_max
        if short and climb(hinge, point, 0, upper) <= climb(hinge, upper, dev, point) and (
                climb(hinge, lower, -dev, point) <= climb(hinge, point, 0, lower)):
            tighter_above = climb(hinge, upper, dev, point) > climb(hinge, point, dev, upper)
            tighter_below = climb(hinge, point, -dev, lower) > climb(hinge, lower, -dev, point)
            self.hold(point, point if tighter_above else upper, point if tighter_below else lower)
        elif short and self.held[0] < hinge[0] + self.tuning.comp_min:
            self.passed.append(self.held[0])
            self.hold(point, point, point)
        else:
            self.keep(self.held)
            self.hold(point, point, point)

    def send_step(self, point):
        """A value of a step tag, after its first."""
        hinge = self.hinge
        short = point[0] <= hinge[0] + self.tuning.comp_max
        if short and abs(point[1] - hinge[1]) <= self.tuning.comp_dev:
            self.hold(point, point, point)
        elif short and point[0] < hinge[0] + self.tuning.comp_min:
            self.passed.append(point[0])
            self.hold(point, point, point)
        else:
            self.keep(point)
