"""line_windows.py: the lowest, the highest and the mean value of an archive's line, or stair, in windows of equal width.

The windows go from multiples of the width on. The line is added point by point, and windows that it has passed do not change any more. So a
board keeps them, and adds only what is new. Values are stored units, times milliseconds."""
import math


class Windows:
    """The windows of a line so far: `first` is the number of the first one, `low`, `high` and `mean` have those that the line has passed,
    and `open` the one in which it stands: its lowest and highest value, its area and the last point."""

    def __init__(self, width, step, first=None, low=(), high=(), mean=(), open=None):
        self.width, self.step, self.first = width, step, first
        self.low, self.high, self.mean, self.open = list(low), list(high), list(mean), open

    def kept(self):
        """All of it, as JSON takes it."""
        return {"width": self.width, "first": self.first, "low": self.low, "high": self.high, "mean": self.mean, "open": self.open}

    def begin(self, t, v):
        """The first point of the line."""
        self.first = t // self.width
        self.open = [v, v, 0.0, t, v, t]

    def add(self, times, values):
        """Goes on with the line through these points."""
        if self.open is None and times:
            self.begin(times[0], values[0])
        if self.open is None:
            return
        low, high, area, t, v, start = self.open
        end = (t // self.width + 1) * self.width
        for to, value in zip(times, values):
            while to >= end:
                edge = v if self.step or to == t else v + (value - v) * (end - t) / (to - t)
                area += (end - t) * (v + edge) / 2
                if edge < low:
                    low = edge
                if edge > high:
                    high = edge
                self.low.append(math.floor(low))
                self.high.append(math.ceil(high))
                self.mean.append(round(area / (end - start)) if end > start else round(edge))
                low, high, area, t, v, start, end = edge, edge, 0.0, end, edge, end, end + self.width
            area += (to - t) * (v if self.step else (v + value) / 2)
            if value < low:
                low = value
            if value > high:
                high = value
            t, v = to, value
        self.open = [low, high, area, t, v, start]

    def tail(self, held):
        """The windows behind those that the line has passed, with the line as far as the held point: three lists."""
        if self.open is None:
            return {"low": [], "high": [], "mean": []}
        rest = Windows(self.width, self.step, self.first, (), (), (), self.open)
        rest.add(held[:1], held[1:])
        low, high, area, t, v, start = rest.open
        mean = area / (t - start) if t > start else v
        return {"low": rest.low + [math.floor(low)], "high": rest.high + [math.ceil(high)], "mean": rest.mean + [round(mean)]}

    def whole(self, held):
        """All windows: their width, the number of the first one, and two lists."""
        tail = self.tail(held)
        return {"width": self.width, "first": self.first, "low": self.low + tail["low"], "high": self.high + tail["high"]}

    def forget(self, count):
        """Keeps the last windows alone."""
        gone = len(self.low) - count
        if gone > 0:
            self.first += gone
            del self.low[:gone], self.high[:gone], self.mean[:gone]


def width_for(span, most):
    """The width of windows, a power of two in milliseconds, of which at most so many cover a span of time."""
    width = 1
    while span // width + 2 > most:
        width *= 2
    return width
