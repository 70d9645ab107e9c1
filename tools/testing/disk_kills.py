"""disk_kills.py: tests that kill the program at random moments of `run` and of `log`, and at given calls; test_disk.py runs them.

All values that stood on the devices just before a kill have to be there after it. Each tag has to have the first rows of its file, and
no others. The next session has to end as if nobody had stopped the first."""
import os
import random
import shutil
import time

from disk_calls import injected, stood
from disk_plant import COMMANDS, GROUP, NOTHING, ROWS, Plant


def kill_of_run(draw, plant, delay):
    """Kills a session after a while and checks what is left: whether it was still running, and how many values are left."""
    plant.make_lanes(draw)
    child = plant.start(*COMMANDS["run"])
    time.sleep(delay)
    least = plant.events()
    is_killed = stop(child)
    left = plant.audit(least)
    plant.finish()
    return is_killed, left


def kill_of_log(draw, plant, delay):
    """Does the same with `log`; a session before may have stored half of the rows."""
    if draw.random() < 0.5:
        plant.deliver(NOTHING, ROWS // 2)
        plant.told("log")
        plant.deliver(plant.logged())
    child = plant.start(*COMMANDS["log"])
    time.sleep(delay)
    least = plant.logged()
    is_killed = stop(child)
    left = plant.audit_log(least)
    plant.finish_log()
    return is_killed, left


def stop(child):
    """Kills a process: whether it still ran."""
    is_running = child.poll() is None
    child.kill()
    child.communicate()
    return is_running


def kills(folder, program, settings, verb, kill):
    """Kills sessions until enough kills met one that still ran: half as many as asked for."""
    draw, count, values, place = random.Random(settings.seed), 0, 0, 0
    longest = duration(os.path.join(folder, "first"), program, verb)
    while count < settings.count // 2:
        place += 1
        plant = Plant(os.path.join(folder, str(place)), program)
        is_killed, left = kill(draw, plant, draw.uniform(0, longest))
        count, values = count + is_killed, values + left
        shutil.rmtree(plant.folder)
        assert place < 20 * settings.count, "the program ends before it can be killed"
    return "%d kills in %d sessions, %d values looked at" % (count, place, values)


def duration(folder, program, verb):
    """The seconds of a session that nobody stops."""
    plant = Plant(folder, program)
    start = time.monotonic()
    plant.told(verb)
    return time.monotonic() - start


def kills_of_run(folder, program, settings):
    """`run` over devices with 1 to 64 lane slots is killed. Then `check` and `trend` answer, and a second `run` stores the other rows."""
    return kills(folder, program, settings, "run", kill_of_run)


def kills_of_log(folder, program, settings):
    """`log` is killed. Then `log` answers with the rows that are there, and a second one stores the others."""
    return kills(folder, program, settings, "log", kill_of_log)


def killed_at(plant, verb, device, kind, number):
    """Kills a session at the n-th call of a kind on a device: whether it made so many."""
    status, text, _ = injected(plant, verb, ["%s:signal=KILL:when=%d" % (kind, number)], ["historian.d/" + device])
    assert status in (0, -9, 137), "%s %d of %s: exit %d, %s" % (kind, number, device, status, text)
    return status != 0


def kills_at_calls(folder, program, settings):
    """The program is killed at its first calls on a new device, and on a group's whose definition has changed. It never takes what is
    left for a damaged device, and the next session ends as if nobody had stopped the first."""
    if not shutil.which("strace"):
        return "no strace here: not tried"
    new, regrouped = Plant(os.path.join(folder, "new"), program), stood(os.path.join(folder, "old"), program, "run")
    regrouped.write("base.toml", regrouped.read("base.toml").replace(GROUP.encode(), GROUP.replace("avg('T3')", "high('T3')").encode()))
    count, plans = 0, [(new, "run", "T1.tag"), (new, "run", "shift.grp"), (new, "log", "plant.log"), (regrouped, "run", "shift.grp")]
    for source, verb, device in plans:
        for kind, most in (("openat", 1), ("fsync", 1), ("pwrite64", 5), ("fdatasync", 5)):
            for number in range(1, most + 1):
                plant = source.copy(os.path.join(folder, "killed"))
                count += killed_at(plant, verb, device, kind, number)
                before = plant.events()
                plant.told("check" if verb == "run" else "rows")
                assert plant.events() == before, "%s, not %s" % (plant.events(), before)
                finish(plant, verb, source is new)
                shutil.rmtree(plant.folder)
    assert count > 30, "only %d kills" % count
    return "%d kills" % count


def finish(plant, verb, is_same):
    """The next session stores the other rows. If the group is the usual one, all answers have to be those of the whole plant."""
    if verb == "log":
        plant.finish_log()
    elif is_same:
        plant.finish()
    else:
        plant.deliver(plant.events())
        plant.told("run")
        plant.told("trend")


CASES = [kills_of_run, kills_of_log, kills_at_calls]
