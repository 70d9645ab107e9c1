"""site_kills.py: tests that kill site.py, or the feeders below it; test_tools.py runs them.

After each kill the feed goes on to its end. Then the archive of each part has to be that of a part whose rows nobody stopped, and each row
has to be in one part."""
import os
import random
import re
import shutil
import signal
import subprocess
import time

from site_trial import PARTS, SiteTrial, check_site, wanted
from trial import LINES, START, children

CHANGES = ("openat", "write", "fsync", "rename", "unlink", "unlinkat", "mkdir", "rmdir", "ftruncate", "utimensat", "copy_file_range", "sendfile")


def undisturbed_site(folder, program, settings):
    """Three blocks of files through the router make the archives that the program makes of each part's rows by hand."""
    trial = SiteTrial(os.path.join(folder, "site"), program)
    for block in (0, 1, 2):
        trial.deliver(block)
    text = trial.fed()
    assert "turn 1: 6 files, %d rows for 3 parts, 0 refused" % len(trial.rows) in text, text
    check_site(trial, folder, "undisturbed")
    done = sorted(name for turn in os.listdir(trial.path("done")) for name in os.listdir(trial.path("done", turn)))
    assert done == ["00-a.csv", "00-b.csv", "01-a.csv", "01-b.csv", "02-a.csv", "02-b.csv"], done
    assert not os.path.exists(trial.path("refused"))


def tree(folder):
    """Every file of a folder with its bytes, but those of the lock."""
    found = {}
    for place, _, names in os.walk(folder):
        for name in names:
            if name != "site.lock":
                with open(os.path.join(place, name), "rb") as data:
                    found[os.path.relpath(os.path.join(place, name), folder)] = data.read()
    return found


def small_site(folder, program):
    """A site that routed a turn, with the files of the next one in its inbox: rows for all parts, late ones, and rows that are refused."""
    trial = SiteTrial(os.path.join(folder, "site"), program)
    trial.deliver(0, hours=1)
    assert trial.site("feed", "--route-only")[0] == 0
    for block in (0, 1):
        trial.deliver(block, hours=2)
    trial.write("inbox/02-c.csv", "NOBODY,1711670400000,1\nFIC1.PV,1711670400001,1.00\nFIC1.PV,,\n")
    shutil.copy(trial.path("done/000001/00-a.csv"), trial.path("inbox/03-again.csv"))
    return trial


def calls_of(trial):
    """The system calls of a routing that nobody stops, from the one that opens the lock on: how many came before, and their names. The
    routing is done by then."""
    log = trial.path("calls.log")
    status, text = trial.site("feed", "--route-only", under=["strace", "-qq", "-o", log])
    assert status == 24, (status, text)
    with open(log) as lines:
        names = [match[1] for line in lines if (match := re.match(r"(\w+)\(", line))]
    with open(log) as lines:
        first = next(number for number, line in enumerate(lines) if "site.lock" in line)
    os.remove(log)
    return first, names


def stops(first, names, settings):
    """At which calls the router is stopped, as the call's name and its number: each one in the long form, else some that change the disk."""
    seen, found = {}, []
    for place, name in enumerate(names):
        seen[name] = seen.get(name, 0) + 1
        if place >= first and (settings.long or name in CHANGES):
            found.append((name, seen[name]))
    return found if settings.long else random.Random(settings.seed).sample(found, settings.kills // 3)


def router_stopped_at_its_calls(folder, program, settings):
    """The router is killed at each of its system calls in a small turn. The next one leaves each file of the site and of all parts as
    a router leaves it that nobody stopped."""
    if not shutil.which("strace"):
        return "no strace here: not tried"
    trial = small_site(folder, program)
    stood = trial.folder + ".stood"
    shutil.copytree(trial.folder, stood)
    first, names = calls_of(trial)
    good, kills = tree(trial.folder), 0
    for name, number in stops(first, names, settings):
        shutil.rmtree(trial.folder)
        shutil.copytree(stood, trial.folder)
        words = ["strace", "-qq", "-o", "/dev/null", "-e", "trace=" + name, "-e", "inject=%s:signal=KILL:when=%d" % (name, number)]
        kills += trial.site("feed", "--route-only", under=words)[0] in (137, -9)
        check_routed(trial, good, "killed at %s %d" % (name, number))
    assert kills >= settings.kills // 4, kills
    return "%d kills" % kills


def check_routed(trial, good, what):
    """Routes to the end, and fails unless the site and all parts have the files that a router left which nobody stopped."""
    status, text = trial.site("feed", "--route-only")
    assert status in (0, 24), (what, status, text)
    got = tree(trial.folder)
    differ = [path for path in got.keys() | good.keys() if got.get(path) != good.get(path) and not is_list(path, got, good)]
    assert not differ, "%s: %s" % (what, sorted(differ))


def router_killed_in_a_large_turn(folder, program, settings):
    """The router is killed at random moments of a large turn, again and again, and then ends it: the same files stand everywhere."""
    draw, trial, kills = random.Random(settings.seed), SiteTrial(os.path.join(folder, "site"), program), 0
    names = list(LINES)
    for number in range(10):
        blanks = " " * (700 if number == 0 else 0)  # so that one file is so long that several processes route it
        trial.write("inbox/%d.csv" % number, "".join("%s,%d,%d%s\n" % (
            names[k % 6], START + (10_000 * number + k) * 6_000, k % 97, blanks) for k in range(20_000)))
    stood, begin = trial.folder + ".stood", time.monotonic()
    shutil.copytree(trial.folder, stood)
    status, text = trial.site("feed", "--route-only")
    took, good = time.monotonic() - begin, tree(trial.folder)
    assert status == 0 and "10 files, 200000 rows for 3 parts, 0 refused" in text, (status, text)
    while kills < settings.kills:
        shutil.rmtree(trial.folder)
        shutil.copytree(stood, trial.folder)
        for _ in range(draw.randint(1, 5)):
            process = subprocess.Popen(trial.words("feed", "--route-only"), stdout=subprocess.DEVNULL)
            time.sleep(draw.uniform(0, took))
            kills += process.poll() is None
            process.kill()
            process.wait()
        check_routed(trial, good, "after %d kills (seed %d)" % (kills, settings.seed))
    return "%d kills" % kills


def is_list(path, got, good):
    """Whether a file is the list of fed files, in which a file may stand twice after a stop."""
    return path.endswith("feed.d/fed") and set(got[path].splitlines()) == set(good[path].splitlines())


def large_site(folder, program, blocks):
    trial = SiteTrial(folder, program)
    for block in blocks:
        trial.deliver(block)
    return trial


def killed_site(folder, program, settings):
    """The router, a feeder below it, a program below that, or all are killed at random moments, again and again."""
    draw, kills, sites, met, most = random.Random(settings.seed), 0, 0, {}, settings.kills if settings.long else settings.kills // 4
    while kills < most:
        trial = large_site(os.path.join(folder, "site%d" % sites), program, range(5))
        sites += 1
        wanted(folder, program, trial.rows)
        while kills < most and not is_done(trial):
            whom = draw.choice(("router", "feeder", "program", "all"))
            hit = feed_and_kill(trial, draw.uniform(0.05, 2.5), whom)
            kills, met[whom] = kills + hit, met.get(whom, 0) + hit
        wait_for_feeders(trial)
        trial.fed("--wait", "60")
        check_site(trial, folder, "after %d kills (seed %d)" % (kills, settings.seed))
        shutil.rmtree(trial.folder)
    return "%d kills over %d sites: %s" % (kills, sites, ", ".join("%s %d" % item for item in sorted(met.items())))


def is_done(trial):
    """Whether nothing is left to feed."""
    folders = [trial.path("inbox"), trial.path("feed.d", "turns"), *(trial.path(part, "inbox") for part in PARTS)]
    return not any(os.path.isdir(folder) and os.listdir(folder) for folder in folders)


def feed_and_kill(trial, delay, whom):
    """Feeds, and kills somebody after a delay: whether somebody was there."""
    process = subprocess.Popen(trial.words("feed"), stdout=subprocess.DEVNULL, stderr=subprocess.DEVNULL)
    time.sleep(delay)
    feeders = children(process.pid)
    programs = [child for feeder in feeders for child in children(feeder)]
    targets = {"router": [process.pid], "feeder": feeders[:1], "program": programs[:1], "all": [process.pid, *feeders, *programs]}[whom]
    if process.poll() is not None:
        targets = []
    for target in targets:
        try:
            os.kill(target, signal.SIGKILL)
        except ProcessLookupError:
            pass
    process.wait()
    return bool(targets)


def wait_for_feeders(trial):
    """Waits until no feeder that outlived its router works any more."""
    end = time.monotonic() + 120
    while time.monotonic() < end:
        busy = [pid for pid in filter(str.isdigit, os.listdir("/proc")) if works_in(pid, trial.folder)]
        if not busy:
            return
        time.sleep(0.02)
    raise AssertionError("a feeder does not end")


def works_in(pid, folder):
    try:
        with open("/proc/%s/cmdline" % pid, "rb") as text:
            words = text.read().decode("utf-8", "replace")
        return folder in words and "feed.py" in words
    except OSError:
        return False


CASES = [undisturbed_site, router_stopped_at_its_calls, router_killed_in_a_large_turn, killed_site]
