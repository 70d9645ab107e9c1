"""The historian as a row of run.py: a session of one collector, and a reader's questions to the archive.

HISTORIAN in the environment names the built program; without it that is crates/historian/out/historian."""
import os
import re
import shutil
import subprocess

from common import Rival, folder_bytes

ROOT = os.path.dirname(os.path.dirname(os.path.dirname(os.path.abspath(__file__))))
PROGRAM = os.environ.get("HISTORIAN", os.path.join(ROOT, "crates", "historian", "out", "historian"))
EXC_DEV, COMP_DEV = 2, 20
BASE = """[[tag]]
name = "T1"
exc_dev = %d
exc_max = 600_000
comp_dev = %d
comp_min = 0
comp_max = 28_800_000
""" % (EXC_DEV, COMP_DEV)


class Historian(Rival):
    """Its answers are those of the archive. Each may differ from the right one by CompDev, twice ExcDev, and one for rounding."""
    promise, at_by = "devices synced twice a batch, {:,} values each", "the archive's line"
    near = COMP_DEV + 2 * EXC_DEV + 1

    def prepare(self):
        """Writes the base, the plans and the collector's file."""
        self.most = 0
        os.mkdir(self.data)
        self.write("base.toml", BASE)
        self.write("plan.toml", '[[collector]]\nfile = "rows.csv"\n')
        self.write("asks.toml", '[[reader]]\nfile = "asks.csv"\n')
        with open(os.path.join(self.data, "rows.csv"), "w") as out:
            out.writelines("T1,%d,%d\n" % row for row in zip(self.series.times, self.series.values))

    def write(self, name, text):
        with open(os.path.join(self.data, name), "w") as out:
            out.write(text)

    def call(self, *words):
        """Runs the program in its folder, and notes its peak memory: what it printed."""
        child = subprocess.run(["/usr/bin/time", "-f", "%M", PROGRAM, *words], cwd=self.data, capture_output=True, text=True)
        if child.returncode != 0:
            raise RuntimeError("%s: %s" % (words, (child.stdout + child.stderr)[:300]))
        self.most = max(self.most, 1024 * int(child.stderr.split()[-1]))
        return child.stdout

    def ingest(self):
        """Runs a session over new devices, which has to take all values."""
        shutil.rmtree(os.path.join(self.data, "historian.d"), ignore_errors=True)
        text = self.call("run", "base.toml", "plan.toml")
        if " taken=%d " % len(self.series.times) not in text:
            raise ValueError("not all values were taken: " + text[:200])

    def settle(self):
        """Does nothing: there is nothing to settle."""
        pass

    def ask(self, queries):
        """The numbers that `trend` answers to these queries."""
        self.write("asks.csv", "".join(query + "\n" for query in queries))
        return [float(n) for n in re.findall(r"(-?\d+)$", self.call("trend", "base.toml", "asks.toml"), re.M)]

    def averages(self, start, width, count):
        return self.ask("avg,T1,%d,%d" % (start + k * width, start + (k + 1) * width) for k in range(count))

    def at_all(self, moments):
        return self.ask("at,T1,%d" % t for t in moments)

    def disk(self, settled):
        path = os.path.join(self.data, "historian.d")
        return folder_bytes(path) if os.path.isdir(path) else 0

    def peak(self):
        return self.most
