"""disk_double.py: tests of two processes in one folder; test_disk.py runs them.

While the first process lives, the program refuses the second one, which changes nothing. The first one ends as if it had been alone."""
import os
import random
import re
import shutil
import signal
import time

from disk_kills import duration
from disk_plant import COMMANDS, ROWS, TAGS, WHOLE, Plant
from trial import check_same

REFUSED = {"run": "fault: device tag 1\n", "retune": "fault: device tag 1\n", "trend": "fault: device tag 1\n",
           "log": "fault: device log\n"}
CHANGES = re.compile(r"^\d+ +(pwrite64|ftruncate|mkdir(at)?|unlink(at)?|rename(at2?)?|fsync|fdatasync)\(|O_CREAT")


def has_lock(child):
    """Whether a process holds a lock on a file or a folder."""
    with open("/proc/locks") as locks:
        return any(line.split()[4] == str(child.pid) for line in locks if "->" not in line)


def second(plant, verb):
    """Runs the second process: exit status, what it printed, and its calls that change something, if strace is there."""
    trace = plant.path("trace")
    under = ["strace", "-f", "-qq", "-o", trace, "-e", "trace=file,desc"] if shutil.which("strace") else []
    status, text = plant.call(*COMMANDS[verb], under=under)
    changes = [line for line in plant.read("trace").decode(errors="replace").splitlines() if CHANGES.search(line)]
    return status, text, changes


def double(plant, verb, other, delay):
    """Starts a session, stops it a while after it locked the folder, runs another process, and lets the first go on. Returns whether
    they met, and what the first printed."""
    first = plant.start(*COMMANDS[verb])
    while not has_lock(first) and first.poll() is None:
        time.sleep(0.0002)
    time.sleep(delay)
    first.send_signal(signal.SIGSTOP)
    have_met = has_lock(first)
    status, text, changes = second(plant, other)
    first.send_signal(signal.SIGCONT)
    output = first.communicate()[0]
    assert first.returncode == 0, "the first one ends with %d: %s" % (first.returncode, output)
    assert status == (7 if have_met else 0), "the second one ends with %d: %s" % (status, text)
    if have_met:
        assert text == REFUSED[other] and not changes, "the second one: %s, %s" % (text, changes[:3])
    return have_met, output


def doubles(folder, program, settings, verb, other):
    """Makes double sessions until enough of them met."""
    draw, count, tried = random.Random(settings.seed), 0, 0
    lines = Plant(os.path.join(folder, "lines"), program).lines(WHOLE)
    longest = duration(os.path.join(folder, "first"), program, verb) / 2
    while count < settings.count // 4:
        plant, tried = Plant(os.path.join(folder, str(tried)), program), tried + 1
        plant.make_lanes(draw)
        is_refused, output = double(plant, verb, other, draw.uniform(0, longest))
        if is_refused:
            count += 1
            check_same(output[:len(lines)], lines, "the first one's lines")
            if verb == "run":
                plant.audit(WHOLE)
                check_same(plant.told("trend"), plant.whole()[1], "trend after both")
            else:
                plant.audit_log(WHOLE)
        shutil.rmtree(plant.folder)
        assert tried < 20 * settings.count, "the second one always comes too late"
    return "%d refused in %d sessions" % (count, tried)


def double_run(folder, program, settings):
    """A second `run` while `run` has the folder."""
    return doubles(folder, program, settings, "run", "run")


def double_retuning(folder, program, settings):
    """`check` of a base that retunes each tag, while `run` has the folder."""
    return doubles(folder, program, settings, "run", "retune")


def double_trend(folder, program, settings):
    """`trend` while `run` has the folder."""
    return doubles(folder, program, settings, "run", "trend")


def double_log(folder, program, settings):
    """A second `log` while `log` has the folder."""
    return doubles(folder, program, settings, "log", "log")


def started_together(folder, program, settings):
    """Two sessions start at the same moment: one is refused, or they go one after the other."""
    both = 0
    for place in range(max(2, settings.count // 10)):
        plant = Plant(os.path.join(folder, str(place)), program)
        children = [plant.start(*COMMANDS["run"]) for _ in range(2)]
        texts = [child.communicate() for child in children]
        told = sorted((child.returncode, text + error) for child, (text, error) in zip(children, texts))
        done = [text for status, text in told if status == 0]
        assert done and all(status in (0, 7) for status, _ in told), told
        assert all(text == REFUSED["run"] for status, text in told if status == 7), told
        assert plant.events() == {name: ROWS * len(done) for name in TAGS}, plant.events()
        both += len(done) == 2
        shutil.rmtree(plant.folder)
    return "%d pairs, of which %d went one after the other" % (place + 1, both)


CASES = [double_run, double_retuning, double_trend, double_log, started_together]
