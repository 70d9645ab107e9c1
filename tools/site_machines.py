"""site_machines.py: where the tools work on the parts of a site: on this machine, each in a process of its own and so many at once; or, of
a part with a `worker`, on the Dask worker of that name.

A worker finds the tools and the program on its path. Nothing is scheduled here: a task is pinned to its worker, and Dask does the rest. If
a worker or the scheduler goes away, what they worked on is given up with a word, and the next call finishes it."""
import concurrent.futures
import json
import os
import re
import subprocess
import sys
import time

from files import AWAY, UNREADABLE, Refusal
import site_work

HERE = os.path.dirname(os.path.abspath(__file__))
NO_PACKAGE = 127
PACKAGE = "python3-distributed"
DEBIAN = "/usr/bin/python3"
POLL = 0.2       # seconds between two looks at the workers
CONNECT = "5s"   # how long the scheduler may take to answer


class Done:
    """What became of a tool: its exit status, and what it printed."""

    def __init__(self, status, out="", err=""):
        self.status, self.out, self.err = status, out, err

    def why(self):
        """The reason for a failure, in one line."""
        lines = [line for line in (self.err or self.out).strip().splitlines() if line.strip()]
        text = " ".join(line.strip() for line in lines) if lines else "exit %d, and no word" % self.status
        return re.sub(r"^([-\d]{10} [:\d]{8}[-+]\d{4} )?\w+\.py: ", "", text)


def worked(words, data):
    """Runs a tool to its end: exit status, standard output, standard error. A task of Dask is a call of this function."""
    try:
        child = subprocess.run(words, input=data, capture_output=True)
    except OSError as why:
        return 127, b"", ("%s does not start: %s. Are the tools on the worker's path?" % (words[0], why)).encode()
    return child.returncode, child.stdout, child.stderr


class Machines:
    """This machine, and the workers of a scheduler if one is given."""

    def __init__(self, program, wait, jobs, scheduler=None):
        self.program, self.wait, self.jobs = program, wait, jobs
        self.dask = connected(scheduler) if scheduler else None

    def words(self, part, tool, given):
        """The command that runs a tool for a part."""
        options = ["--program", self.program, "--wait", str(self.wait)]
        if part.worker:
            return [tool, *given, *options]
        return [sys.executable, os.path.join(HERE, tool), *given, *options]

    def all(self, calls, progress=None):
        """Runs a tool for each part, all beside each other. `calls` has part, tool, words and standard input. Answers what became of each,
        by part, in the order of the calls."""
        here = [call for call in calls if not call[0].worker]
        there = [call for call in calls if call[0].worker]
        found = {}
        with concurrent.futures.ThreadPoolExecutor(self.jobs) as pool:
            futures = {pool.submit(worked, self.words(*call[:3]), call[3]): call[0] for call in here}
            waiting = self.handed_out(there, found)
            while futures or waiting:
                self.collect(futures, waiting, found)
                if progress:
                    progress(len(found), len(calls))
        return {call[0]: found[call[0]] for call in calls}

    def collect(self, futures, waiting, found):
        """Waits a little, and notes what has ended."""
        if futures:
            ended = concurrent.futures.wait(futures, POLL, concurrent.futures.FIRST_COMPLETED).done
            for future in ended:
                found[futures.pop(future)] = done(*future.result())
        else:
            time.sleep(POLL / 4)
        for part in list(waiting):
            result = self.result_of(*waiting[part])
            if result:
                found[part] = result
                del waiting[part]

    def handed_out(self, calls, found):
        """Hands each call to its part's worker: of each part the task and the worker's address. A part whose worker is away is noted."""
        waiting = {}
        for part, tool, given, data in calls:
            address, why = self.address(part)
            if address:
                task = self.dask.submit(worked, self.words(part, tool, given), data, workers=[part.worker], allow_other_workers=False, pure=False)
                waiting[part] = task, address
            else:
                found[part] = Done(AWAY, "", why)
        return waiting

    def address(self, part):
        """The address of a part's worker, or None and why there is none."""
        if self.dask is None:
            return None, "it is on the machine of the worker %s: give --scheduler ADDRESS" % part.worker
        try:
            for address, worker in self.dask.scheduler_info()["workers"].items():
                if worker["name"] == part.worker:
                    return address, ""
        except Exception:  # whatever Dask says of a scheduler that is gone
            return None, "the scheduler is away"
        return None, "its worker %s is away" % part.worker

    def result_of(self, task, address):
        """What became of a task; None as long as its worker is there and works."""
        if task.status == "finished":
            try:
                return done(*task.result(timeout=CONNECT))
            except Exception:  # the worker went away with the result
                return Done(AWAY, "", "its worker went away: the next call finishes what it began")
        if task.status != "pending":
            return Done(AWAY, "", "its worker or the scheduler went away: the next call finishes what it began")
        try:
            there = self.dask.status == "running" and address in self.dask.scheduler_info()["workers"]
        except Exception:
            there = False
        if there:
            return None
        forget(task)
        return Done(AWAY, "", "its worker went away: the next call finishes what it began")

    def put(self, files, when):
        """Gives each of some parts a file: what became of each. `files` has of each part the file's path, its name there and its sha256."""
        found, calls = {}, []
        for part, (path, name, sha) in files.items():
            if not part.worker:
                found[part] = put_here(part, path, name, sha, when)
                continue
            with open(path, "rb") as data:
                calls.append((part, "site_work.py", ["put", part.folder, name, sha, str(when)], data.read()))
        return found | self.all(calls)

    def close(self):
        """Leaves the scheduler."""
        if self.dask is not None:
            try:
                self.dask.close(timeout=2)
            except Exception:  # it is gone already
                pass


def put_here(part, path, name, sha, when):
    """Gives a part on this machine a file: what became of it."""
    try:
        with open(path, "rb") as data:
            site_work.put(part.plant, name, sha, when, data)
    except Refusal as refusal:
        return Done(refusal.status, "", refusal.text)
    except OSError as why:
        return Done(UNREADABLE, "", "%s: %s" % (why.strerror, why.filename or part.folder))
    return Done(0)


def done(status, out, err):
    return Done(128 - status if status < 0 else status, out.decode("utf-8", "replace"), err.decode("utf-8", "replace"))


def done_well(part, result):
    """What a tool printed that ended well. Else that is a refusal."""
    if result.status:
        raise Refusal(result.status, "%s: %s" % (part.folder, result.why()))
    return result.out


def forget(task):
    """Takes back a task, if anybody is there to do so."""
    try:
        task.cancel(asynchronous=True)
    except Exception:
        pass


def connected(scheduler):
    """A client of a scheduler of Dask. Without the package, or without a scheduler there, that is a refusal."""
    try:
        import cloudpickle
        import dask
        import distributed
    except ImportError:
        other = has_package()
        raise Refusal(NO_PACKAGE, "--scheduler needs Dask, and nothing was done: %s" % (
            "%s has it, and %s does not. Call %s %s .." % (DEBIAN, sys.executable, DEBIAN, os.path.abspath(sys.argv[0])) if other else
            "install Debian's package %s" % PACKAGE)) from None
    cloudpickle.register_pickle_by_value(sys.modules[__name__])
    dask.config.set({"distributed.comm.timeouts.connect": CONNECT})
    try:
        return distributed.Client(scheduler, timeout=CONNECT, set_as_default=False)
    except (OSError, ValueError, TimeoutError) as why:
        raise Refusal(AWAY, "there is no scheduler at %s, and nothing was done: %s" % (scheduler, why)) from None


def has_package():
    """Whether Debian's own Python has the package, if another Python runs this."""
    if os.path.realpath(sys.executable) == os.path.realpath(DEBIAN):
        return False
    try:
        return subprocess.run([DEBIAN, "-c", "import distributed"], stdout=subprocess.DEVNULL, stderr=subprocess.DEVNULL).returncode == 0
    except OSError:
        return False


def copy_texts(site, machines):
    """Writes the texts of the parts on other machines into the site, as far as their workers are there."""
    parts = [part for part in site.parts if part.worker]
    if not parts or machines.dask is None:
        return
    for part, result in machines.all([(part, "site_work.py", ["texts", part.folder], b"") for part in parts]).items():
        if result.status == 0:
            write_texts(site.home(part), json.loads(result.out))
        elif result.status != AWAY:
            raise Refusal(result.status, "%s on %s: %s" % (part.folder, part.worker, result.why()))


def write_texts(folder, texts):
    """Writes the copies of a part's texts. One that is gone there is removed."""
    for name in site_work.TEXTS:
        path = os.path.join(folder, name)
        os.makedirs(os.path.dirname(path), exist_ok=True)
        if name in texts:
            with open(path + ".new", "w") as out:
                out.write(texts[name])
            os.replace(path + ".new", path)
        elif os.path.exists(path):
            os.remove(path)
