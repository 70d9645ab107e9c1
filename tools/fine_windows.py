"""fine_windows.py: the finer windows of a tag with very many points, from which its page draws a span that has too many of them.

They are windows as line_windows.py makes them, so many that each stands for ten points or more on the average. They lie beside the files of
points, in files that begin with multiples of EACH. What is added to a line changes the last file alone, and begins new ones."""
import itertools
import json
import operator
import os

from line_windows import Windows

EACH = 4_096    # windows in a file
POINTS = 10     # for which a window stands on the average, at least: so its bytes are few beside theirs


def fine_width(width, most, count):
    """The width of the finer windows of a tag that has so many points, and at most so many windows of this width; None if it needs none.
    It changes only when the count has doubled, or the width did."""
    finer = 1
    while 2 * finer * POINTS * most <= count and finer < width:
        finer *= 2
    return width // finer if finer > 1 else None


def read_fine(folder, step, kept):
    """The finer windows of a tag as an earlier writing left them."""
    return FineWindows(kept["width"], step, kept["open"][3] // kept["width"], open=kept["open"], begin=kept["first"], folder=folder)


def name_of(number):
    """The name of the file in which a window lies."""
    return "fine%d.js" % (number // EACH)


def columns(lines):
    """The three lists of a file: the lowest values, the highest and the means."""
    low, spread, mean = ([int(word) for word in line.strip('",)').split(",")] for line in lines)
    low = list(itertools.accumulate(low))
    return [low, list(map(operator.add, low, spread)), list(map(operator.add, low, mean))]


def text_of(width, first, low, high, mean, unclean):
    """A file of windows: how much the lowest value of each is above the one before, and how much the highest and the mean are above it."""
    lists = ([low[0], *map(operator.sub, low[1:], low)], map(operator.sub, high, low), map(operator.sub, mean, low))
    texts = ",\n".join('"%s"' % ",".join(map(str, each)) for each in lists)
    return "board.fine(%d,%d,%s,\n%s)\n" % (width, first, json.dumps(unclean, separators=(",", ":")), texts)


class FineWindows(Windows):
    """The finer windows of a line. `low`, `high` and `mean` have those that are not written yet; `begin_at` is the first of all."""

    def __init__(self, width, step, first=None, open=None, begin=None, folder=None):
        super().__init__(width, step, first, open=open)
        self.begin_at, self.last, self.folder = begin, None, folder

    def about(self):
        """What the tag's page and the next writing need of them."""
        return {"width": self.width, "first": self.begin_at, "last": self.last, "open": self.open, "each": EACH}

    def there(self, start):
        """What the file has in which a window lies, of the windows before it: the first one, three lists, and what is unclean."""
        begin = max(self.begin_at, start // EACH * EACH)
        if begin == start:
            return start, [[], [], []], []
        with open(os.path.join(self.folder, name_of(start))) as text:
            head, *lines = text.read().split("\n")[:4]
        unclean = json.loads("[%s]" % head.removeprefix("board.fine(").removesuffix(","))[2]
        return begin, [column[:start - begin] for column in columns(lines)], unclean

    def put(self, pages, held, unclean):
        """Writes the windows that are new, and those behind them as far as the held point."""
        if self.begin_at is None:
            self.begin_at = self.first
        tail = self.tail(held)
        begin, lists, known = self.there(self.first)
        lists = [there + new + tail[name] for there, new, name in zip(lists, (self.low, self.high, self.mean), ("low", "high", "mean"))]
        self.last = begin + len(lists[0]) - 1
        while begin <= self.last:
            end = min(self.last + 1, (begin // EACH + 1) * EACH)
            here = known or [[max(a, begin), min(b, end - 1)] for a, b in unclean if a < end and b >= begin]
            pages.write(name_of(begin), text_of(self.width, begin, *(column[:end - begin] for column in lists), here))
            begin, lists, known = end, [column[end - begin:] for column in lists], []
