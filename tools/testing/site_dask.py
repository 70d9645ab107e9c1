"""site_dask.py: tests of a site on several machines: a scheduler of Dask and three workers, all on 127.0.0.1; test_tools.py runs them.

Each worker, the scheduler and the router are killed by their ids at random moments. Without Debian's python3-distributed nothing is
tried."""
import os
import random
import shutil
import socket
import subprocess
import time

from site_kills import wait_for_feeders
from site_trial import PARTS, SiteTrial, check_site
from trial import TOOLS

PYTHON, WORKER, SCHEDULER = "/usr/bin/python3", "/usr/bin/dask-worker", "/usr/bin/dask-scheduler"
MACHINES = dict(zip(PARTS, ("m1", "m2", "m3")))
LONGEST = 120  # seconds that anything here may take


def has_dask():
    return os.path.exists(WORKER) and subprocess.run([PYTHON, "-c", "import distributed"], stderr=subprocess.DEVNULL).returncode == 0


class SpreadTrial(SiteTrial):
    """A site of which each part is on another machine, that is in the folder of another worker."""

    def __init__(self, folder, program):
        super().__init__(folder, program)
        text = self.read("site.toml")
        for part, machine in MACHINES.items():
            text = text.replace('folder = "%s"\n' % part, 'folder = "%s"\nworker = "%s"\n' % (part, machine))
        self.write("site.toml", text)
        self.cluster = None

    def path(self, *names):
        part = names[0].split("/")[0] if names else ""
        return os.path.join(self.folder, *([MACHINES[part]] if part in MACHINES else []), *names)

    def words(self, *given):
        words = super().words(*given)
        return [PYTHON, *words[1:], "--scheduler", self.cluster.address]


class Cluster:
    """A scheduler and three workers. Whoever starts it stops it."""

    def __init__(self, trial):
        self.trial, self.processes = trial, {}
        with socket.create_server(("127.0.0.1", 0)) as server:
            self.port = server.getsockname()[1]
        self.address = "tcp://127.0.0.1:%d" % self.port

    def __enter__(self):
        self.start("scheduler")
        for name in MACHINES.values():
            self.start(name)
        return self

    def __exit__(self, *_):
        for name in list(self.processes):
            self.kill(name)

    def start(self, name):
        words = [SCHEDULER, "--host", "127.0.0.1", "--port", str(self.port), "--no-dashboard", "--no-show"] if name == "scheduler" else [
            WORKER, self.address, "--name", name, "--no-nanny", "--nthreads", "2", "--no-dashboard", "--host", "127.0.0.1", "--death-timeout",
            str(LONGEST), "--local-directory", self.trial.path("dask-" + name)]
        environment = dict(os.environ, PATH=os.pathsep.join((TOOLS, os.environ["PATH"])), PYTHONDONTWRITEBYTECODE="1")
        folder = self.trial.folder if name == "scheduler" else self.trial.path(name)
        self.processes[name] = subprocess.Popen(words, cwd=folder, env=environment, stdout=subprocess.DEVNULL, stderr=subprocess.DEVNULL)

    def kill(self, name):
        """Ends a process by its id, at once."""
        self.processes[name].kill()
        self.processes.pop(name).wait()

    def mend(self):
        """Starts what was killed, and the workers that went away with their scheduler."""
        for name in ("scheduler", *MACHINES.values()):
            if name in self.processes and self.processes[name].poll() is not None:
                self.kill(name)
            if name not in self.processes:
                self.start(name)


def fed_at_last(trial):
    """Feeds until all is fed: the last text. A worker that starts only now is waited for."""
    end = time.monotonic() + LONGEST
    while True:
        status, text = trial.site("feed", "--wait", "30")
        if status == 0:
            return text
        assert (status in (20, 25) or "was never seen" in text) and time.monotonic() < end, (status, text)
        trial.cluster.mend()


def spread_site(folder, program, settings):
    """Parts on three workers are fed and asked as those on one machine. Without their worker they wait, and say so; without a scheduler too."""
    if not has_dask():
        return "no python3-distributed here: not tried"
    trial = SpreadTrial(os.path.join(folder, "site"), program)
    with Cluster(trial) as trial.cluster:
        trial.deliver(0, hours=2)
        fed_at_last(trial)
        check_site(trial, folder, "on three workers")
        trial.cluster.kill("m3")
        trial.deliver(1, hours=6)
        status, said = trial.site("feed")
        assert status == 25 and said.rstrip().endswith("east stopped with 25, and the other parts went on: its worker m3 is away"), (status, said)
        assert "west-2: turn 1: 1 files" in said, said
        trial.cluster.mend()
        fed_at_last(trial)
        check_site(trial, folder, "after a worker was away")
        status, said = trial.site("ask", "snap,LIC4.PV", "count,FIC1.PV,2024-03-29T01:00:00Z,2024-03-29T11:00:00Z")
        assert status == 0 and "taken=%d" % sum(row[1] == "LIC4.PV" for row in trial.rows) in said, (status, said)
        status, said = trial.site("verify")
        assert status == 0 and "east: 5 devices, each as the last turn left it" in said, (status, said)
        status, said = trial.site("next", "east", "--from", "2024-03-29T12:00:00Z")
        assert status == 0 and os.path.exists(trial.path("m3", "east-2024-03-29", "base.toml")), (status, said)
    status, said = trial.site("feed")
    assert status == 25 and "there is no scheduler at tcp://127.0.0.1" in said, (status, said)


def killed_machines(folder, program, settings):
    """Each worker in its turn, the scheduler and the router are killed at random moments of a feed: at last each row is in one part."""
    if not has_dask():
        return "no python3-distributed here: not tried"
    kills, count = 60 if settings.long else 2, 0
    draw, targets, sites, hit = random.Random(settings.seed), ["m1", "m2", "m3", "scheduler", "router"], 0, {}
    while count < kills:
        trial = SpreadTrial(os.path.join(folder, "site%d" % sites), program)
        sites += 1
        for block in range(6 if settings.long else 2):
            trial.deliver(block)
        with Cluster(trial) as trial.cluster:
            for _ in range(min(6, kills - count)):
                target = targets[(count + sites) % len(targets)]
                hit[target] = hit.get(target, 0) + feed_and_kill(trial, draw, target)
                count += 1
            fed_at_last(trial)
            wait_for_feeders(trial)
        check_site(trial, folder, "after kills of machines (seed %d)" % settings.seed)
        shutil.rmtree(trial.folder)
    return "%d kills over %d sites: %s" % (count, sites, ", ".join("%s %d" % item for item in sorted(hit.items())))


def feed_and_kill(trial, draw, target):
    """Feeds, and kills somebody at a random moment after the routing began: whether the feed was still going on."""
    process = subprocess.Popen(trial.words("feed", "--wait", "30"), stdout=subprocess.DEVNULL, stderr=subprocess.DEVNULL)
    end = time.monotonic() + LONGEST
    before = set(os.listdir(trial.path("inbox")))
    while process.poll() is None and set(os.listdir(trial.path("inbox"))) == before and time.monotonic() < end and before:
        time.sleep(0.01)
    time.sleep(draw.random() ** 2 * 4)
    was_there = process.poll() is None
    if target == "router":
        process.kill()
    else:
        trial.cluster.kill(target)
    assert process.wait(LONGEST) is not None
    trial.cluster.mend()
    return was_there


CASES = [spread_site, killed_machines]
