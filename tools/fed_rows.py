"""fed_rows.py: the rows that were fed, in the order in which the turns stored them: each turn leaves them in done/, in `stored.rows`, and
in `turn.json` how many of each tag were stored."""
import array
import os

from plant import UNREADABLE, Refusal
from turns import STORED, record_of


class TagRows:
    """The rows of a tag in the order in which they came; and whether these are all that were fed."""

    def __init__(self, are_all, files):
        self.are_all, self.files = are_all, files
        self.times, self.values, self.in_file, self.lines = (array.array(kind) for kind in "qqll")

    def __len__(self):
        return len(self.times)

    def place(self, row):
        """Where a row stands, in words."""
        return "%s row %d" % (self.files[self.in_file[row]], self.lines[row])


class FedRows:
    """The rows of some tags."""

    def __init__(self, are_all, names):
        self.files = []
        self.rows = {name: TagRows(are_all, self.files) for name in names}

    def add(self, tag, t, v, line):
        """Adds a row of the last file."""
        if tag in self.rows:
            rows = self.rows[tag]
            for column, number in ((rows.times, t), (rows.values, v), (rows.in_file, len(self.files) - 1), (rows.lines, line)):
                column.append(number)

    def of(self, tag):
        return self.rows[tag]


def turns_since(plant, since):
    """The numbers of the turns that were fed at a time or later, in milliseconds, in their order; and whether these are all. A turn whose
    record is gone is not among them."""
    folder = plant.path("done")
    turns = sorted((name for name in os.listdir(folder) if name.isdigit()), key=int) if os.path.isdir(folder) else []
    chosen = [int(name) for name in turns if os.path.getmtime(os.path.join(folder, name)) * 1000 >= since]
    told = [number for number in chosen if record_of(plant, number) is not None]
    return told, len(told) == len(turns)


def fed_rows(plant, turns, names):
    """The rows of some tags that these turns stored."""
    numbers, are_all = turns
    rows = FedRows(are_all, names)
    for number in numbers:
        try:
            read_stored(plant, number, rows)
        except (OSError, ValueError, KeyError, TypeError) as why:
            raise Refusal(UNREADABLE, "done/%06d cannot be read: %s" % (number, why)) from None
    return rows


def read_stored(plant, number, rows):
    """The rows that a turn left as stored: of each tag the first ones."""
    left = {name: tag["stored"] for name, tag in record_of(plant, number).tags.items()}
    if not left:
        return
    rows.files.append(os.path.join("done", "%06d" % number, STORED))
    with open(plant.path(rows.files[-1])) as text:
        for line, (name, t, v) in enumerate((row.split(",") for row in text), 1):
            left[name] -= 1
            if left[name] >= 0:
                rows.add(name, int(t), int(v), line)
