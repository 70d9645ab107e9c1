"""What each row of run.py needs: the values with their right answers, processes of servers, sizes on disk and in memory."""
import random
import re
import signal
import socket
import subprocess
import time
from array import array
from bisect import bisect_left, bisect_right
from itertools import islice
from pathlib import Path


class Series:
    """One tag's raw values, the questions about them, and the right answers."""

    def __init__(self, kind, path, count):
        with open(path) as lines:
            numbers = array("q", (int(x) for line in islice(lines, count) for x in line.split(",")))
        self.kind, self.times, self.values = kind, numbers[::2], numbers[1::2]
        first, last = self.times[0], self.times[-1]
        self.span = first, last - first, 1  # the start, width and number of its windows
        self.windows = first, (last - first) // 1000, 1000
        draw = random.Random(20261127)
        self.moments = [draw.choice(self.times) for _ in range(1000)]

    def batches(self, size):
        """The times and values, so many at a time."""
        for i in range(0, len(self.times), size):
            yield zip(self.times[i:i + size], self.values[i:i + size])

    def averages(self, start, width, count):
        """The mean of the samples in each of so many windows."""
        edges = [bisect_left(self.times, start + k * width) for k in range(count + 1)]
        return [sum(self.values[i:j]) / (j - i) for i, j in zip(edges, edges[1:])]

    def means(self, start, width, count):
        """The mean over time, in each of so many windows, of the line through the values."""
        area, areas = 0, [0]
        for (t, v), (u, w) in zip(zip(self.times, self.values), zip(self.times[1:], self.values[1:])):
            area += (u - t) * (v + w) / 2
            areas.append(area)

        def upto(t):
            """The area under the line up to a time."""
            i = min(bisect_right(self.times, t), len(self.times) - 1) - 1
            return areas[i] + (t - self.times[i]) * (self.values[i] + self.at(t)) / 2

        edges = [upto(start + k * width) for k in range(count + 1)]
        return [(b - a) / width for a, b in zip(edges, edges[1:])]

    def at(self, t):
        """The value at a time, on the line through the values."""
        i = min(bisect_right(self.times, t), len(self.times) - 1)
        return line_at(t, self.times[i - 1], self.values[i - 1], self.times[i], self.values[i])


def line_at(t, t0, v0, t1, v1):
    """The value at t on the line through (t0, v0) and (t1, v1)."""
    return v0 + (v1 - v0) * (t - t0) / (t1 - t0)


class Rival:
    """What stores the values of a Series and answers its questions. Each has prepare, which is not timed; ingest, which ends once
    the last batch is acknowledged; settle, its own flush and compaction; and averages and at."""
    server = None

    def __init__(self, folder, series, batch):
        self.folder, self.series, self.data = folder, series, f"{folder}/data"
        self.batch = batch or len(series.times)
        self.durability = self.promise.format(self.batch)

    def at_all(self, moments):
        """The values at these times."""
        return [self.at(t) for t in moments]

    def disk(self, settled):
        """Bytes on disk, just after ingest or once it is settled."""
        return folder_bytes(self.data)

    def peak(self):
        """The most bytes of memory so far."""
        return self.server.peak()

    def close(self):
        """Ends its server, if it has one."""
        if self.server:
            self.server.stop()


class Server:
    """A process that ends with this one, even when this one is killed."""

    def __init__(self, command, log, user="root", quit_signal=signal.SIGTERM):
        become = ["setpriv", "--reuid", user, "--regid", user, "--init-groups",
                  "--pdeathsig", quit_signal.name[3:]]
        self.log, self.quit_signal = log, quit_signal
        with open(log, "ab") as out:
            self.process = subprocess.Popen(become + command, stdout=out, stderr=out)

    def wait_until(self, ready, seconds=60):
        """Waits until something is ready. Fails if the server ends before, or after so many seconds."""
        deadline = time.monotonic() + seconds
        while not ready():
            if self.process.poll() is not None or time.monotonic() > deadline:
                end = Path(self.log).read_text(errors="replace")[-1000:]
                raise RuntimeError("not ready; the server's log ends: " + end)
            time.sleep(0.05)

    def peak(self):
        """The most bytes of memory that its largest process had so far."""
        pid = self.process.pid
        children = Path(f"/proc/{pid}/task/{pid}/children").read_text().split()
        return max(memory(p, "VmHWM") for p in [pid, *children])

    def stop(self):
        """Asks the server to end, and waits for it."""
        self.process.send_signal(self.quit_signal)
        self.process.wait()


def free_port():
    """The number of a TCP port that nothing uses now."""
    with socket.socket() as probe:
        probe.bind(("127.0.0.1", 0))
        return probe.getsockname()[1]


def memory(pid, field):
    """The bytes in a field of a process's status, such as VmHWM, its highest peak, or VmRSS, what it has now."""
    status = Path(f"/proc/{pid}/status").read_text()
    return int(re.search(field + r":\s+(\d+) kB", status)[1]) * 1024


def folder_bytes(folder):
    """The bytes allocated on disk for a folder. It leaves out files that a server removes meanwhile."""
    du = ["du", "-s", "-B1", folder]
    return int(subprocess.run(du, capture_output=True, text=True).stdout.split()[0])
