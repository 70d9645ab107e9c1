"""kills.py: tests that kill the feeder, the program, or both; test_tools.py runs them.

They do so at random moments, and at writes and syncs of the program. They kill the feeder at calls too by which it syncs or cuts a file,
or changes a name. Then the feed goes on to its end, and the archive has to be that of a plant that nobody stopped."""
import os
import random
import re
import shlex
import shutil
import time

from plant import Plant
from seals import sealed_events
from trial import (LINES, STEPS, Trial, base_text, block_files, check_put_away, check_same, expected, feed_and_kill, two_blocks,
                   wait_for_orphans)

BLOCKS = 12  # of six hours each: three days


def three_days(folder, program, rows_a_run=900):
    """A plant with all files of three days in its inbox. `rows_a_run` decides how many of them a turn takes."""
    trial = Trial(folder, program, rows_a_run)
    for block in range(BLOCKS):
        trial.deliver(block)
    return trial


def undisturbed(folder, program, settings):
    """Three days through the feeder make the archive that the program makes of the same rows by hand."""
    trial = three_days(os.path.join(folder, "fed"), program, 4_000_000)
    trial.fed()
    answers, events = trial.answers(), sealed_events(Plant(trial.folder, program))
    check_same(answers, expected(os.path.join(folder, "hand"), program, trial.rows), "fed without a stop")
    assert events == {"historian.d/%s.tag" % m[1]: int(m[2]) for m in re.finditer(r"tag (\S+) taken=(\d+)", answers)}, events
    check_put_away(trial, 2 * BLOCKS)


def durations(folder, program):
    """The seconds of a feed that has nothing to do, and the mean of the seconds of a turn, at least 0.02."""
    trial, begin = three_days(folder, program), time.monotonic()
    trial.fed()
    between = time.monotonic()
    trial.fed()
    idle = time.monotonic() - between
    return idle, max(0.02, (between - begin - idle) / len(os.listdir(trial.path("done"))))


def killed_at_random(folder, program, settings):
    """Feeder, program or both are killed at random moments, again and again; at last the feed ends by itself. Half of the delays begin
    once the program stores rows, because a fast program does so for a small part of a turn. If too few kills met the program, there are
    more kills."""
    draw, kills, met, plants, least = random.Random(settings.seed), 0, 0, 0, max(1, settings.kills // 10)
    idle, turn = durations(os.path.join(folder, "timed"), program)
    while kills < settings.kills or met < least:
        trial, plants = three_days(os.path.join(folder, "fed%d" % plants), program), plants + 1
        wanted = expected(os.path.join(folder, "hand"), program, trial.rows)
        while (kills < settings.kills or met < least) and os.listdir(trial.path("inbox")):
            assert kills < 10 * settings.kills, "only %d of %d kills met the program" % (met, kills)
            waits, whom = draw.random() < 0.5, draw.choice(("feeder", "program", "both"))
            delay = turn * draw.random() ** 4 if waits else draw.uniform(0.05, idle + 1.5 * turn)
            was_killed, has_met = feed_and_kill(trial, delay, whom, waits)
            kills, met = kills + was_killed, met + has_met
        wait_for_orphans(trial)
        trial.fed()
        check_same(trial.answers(), wanted, "after %d kills (seed %d)" % (kills, settings.seed))
        check_put_away(trial, 2 * BLOCKS)
        shutil.rmtree(trial.folder)
    return "%d kills over %d plants, %d while the program stored rows" % (kills, plants, met)


def strace(call, number, device=None):
    """The words of strace that kill a command at its n-th call of this kind, on one device if one is given."""
    only = ["-P", device] if device else []
    return ["strace", "-qq", "-o", "/dev/null", "-e", "trace=" + call, "-e", "inject=%s:signal=KILL:when=%d" % (call, number)] + only


def stop_at_each(trial, wanted, numbers, stopped_feed, put_away=None):
    """For each number: copies a plant, stops a feed of the copy at that call, feeds it to the end, and checks the archive. It ends at a
    number at which nothing stops. Returns how many feeds were stopped."""
    stood, kills = trial.folder + ".stood", 0
    os.rename(trial.folder, stood)
    for number in numbers:
        shutil.copytree(stood, trial.folder)
        status, text = stopped_feed(number)
        assert status in (0, 137, -9), "%d: exit %d, %s" % (number, status, text)
        if status:
            kills += 1
            wait_for_orphans(trial)
            trial.fed()
        check_same(trial.answers(), wanted, "stopped at call %d" % number)
        (put_away or (lambda: check_put_away(trial, 2 * len(trial.blocks))))()
        shutil.rmtree(trial.folder)
        if not status:
            break
    os.rename(stood, trial.folder)
    return kills


def stop_program(trial, wanted, settings, some):
    """Kills the program at each write and each sync of each device, or at `some` of them in the short form: how many kills, in words."""
    if not shutil.which("strace"):
        return "no strace here: not tried"
    plain, kills = trial.program, 0
    devices = [name + ".tag" for name in (*LINES, *STEPS)] + ["unit.grp"]
    each = [(call, device, range(1, 1000)) for call in ("pwrite64", "fdatasync") for device in devices] + [("fsync", None, range(1, 1000))]
    for call, device, numbers in each if settings.long else some:
        def stopped_feed(number):
            words = strace(call, number, device and trial.path("historian.d", device))
            trial.program = shlex.join([words[0], "-f", *words[1:], *shlex.split(plain)])
            try:
                return trial.feed()
            finally:
                trial.program = plain
        kills += stop_at_each(trial, wanted, numbers, stopped_feed)
    assert kills >= (len(devices) if settings.long else len(some)), "only %d kills" % kills
    return "%d kills" % kills


def program_stopped_at_its_calls(folder, program, settings):
    """The program is killed at its calls on devices that have values. Each tag of lines gets two batches."""
    trial, wanted = two_blocks(folder, program, hours=6)
    some = [("pwrite64", "FIC1.PV.tag", [3]), ("fdatasync", "XV8.ZSO.tag", [2]), ("pwrite64", "unit.grp", [2])]
    return stop_program(trial, wanted, settings, some)


def program_stopped_on_new_devices(folder, program, settings):
    """The program is killed at its calls on devices that it makes."""
    trial = Trial(os.path.join(folder, "new"), program)
    trial.deliver(0, hours=1)
    wanted = expected(os.path.join(folder, "hand"), program, trial.rows)
    return stop_program(trial, wanted, settings, [("pwrite64", "FIC1.PV.tag", [2]), ("fdatasync", "TIC3.PV.tag", [3])])


def program_stopped_while_retuning(folder, program, settings):
    """The program is killed while it takes an edited base over. Each tag is still retuned only once."""
    trial, wanted = edited_blocks(folder, program)
    return stop_program(trial, wanted, settings, [("pwrite64", "FIC1.PV.tag", [2]), ("fdatasync", "XV7.ZSO.tag", [3])])


def edited_blocks(folder, program):
    """A plant that was fed a block, whose base was edited then, with the next block in its inbox; and what it has to answer."""
    trial, _ = two_blocks(folder, program)
    trial.write("base.toml", base_text(comp_dev=4))
    hand = Trial(os.path.join(folder, "hand"), program)
    for block, base in ((0, base_text()), (1, base_text(comp_dev=4))):
        hand.write("base.toml", base)
        hand.store_by_hand(block_files(block, hours=3)[1])
    return trial, hand.answers()


def stop_feeder(trial, wanted, settings, some):
    """Kills the feeder at each sync, cut and change of a name, or at `some` of them in the short form: how many kills, in words."""
    if not shutil.which("strace"):
        return "no strace here: not tried"
    each, kills = [(call, range(1, 1000)) for call in ("fsync", "rename", "unlink", "unlinkat", "rmdir", "mkdir", "ftruncate")], 0
    for call, numbers in each if settings.long else some:
        kills += stop_at_each(trial, wanted, numbers, lambda number: trial.feed(under=strace(call, number)))
    assert kills >= len(some), "only %d kills" % kills
    return "%d kills" % kills


def feeder_stopped_at_its_calls(folder, program, settings):
    """The feeder is killed at its own calls in a turn."""
    return stop_feeder(*two_blocks(folder, program), settings, [("fsync", [4]), ("rename", [2]), ("unlink", [1])])


def feeder_stopped_while_retuning(folder, program, settings):
    """The feeder is killed at its own calls while it takes an edited base over."""
    return stop_feeder(*edited_blocks(folder, program), settings, [("rename", [2]), ("rename", [3])])


CASES = [undisturbed, killed_at_random, program_stopped_at_its_calls, program_stopped_on_new_devices, program_stopped_while_retuning,
         feeder_stopped_at_its_calls, feeder_stopped_while_retuning]
