#!/usr/bin/env python3
"""run.py [PROGRAM [COMMAND..]]: refuses each growth of memory in turn, and prints what the program did.

PROGRAM is a built historian (crates/historian/out/historian, after `rt run` there). Each command runs over a small plant again and
again, each time over the same devices: refuse.c refuses its first growth, then its second, and so on until the refusals come after its
last growth. COMMAND names some of the commands; `run` is tried too, because the others read its devices.

A refused run has to print `fault: memory` and end with that exit code. Where the growth was not needed, it may end as it does without a
refusal. After each `run` that ends with `fault: memory`, `check` has to open the devices of the tags.

It prints a line for each command: how many growths were reported as refused, how many runs ended otherwise, and the exit code without a
refusal. Up to five of those other runs follow. If 3,000 refusals do not reach behind the last growth, that counts as one of them. The
exit code is 1 if there are any. It runs by hand, never as a test."""
import os
import shutil
import subprocess
import sys
import tempfile

HERE = os.path.dirname(os.path.abspath(__file__))
ROOT = os.path.dirname(os.path.dirname(HERE))
MOST = 3_000
MEMORY = (13, b"fault: memory\n")
BASE = """[[tag]]
name = "T1"
exc_dev = 0
exc_max = 1000000
comp_dev = 1
comp_min = 0
comp_max = 1000000

[[group]]
name = "g"
start = 0
period = 1000
tags = ["T1"]

[[group.calc]]
name = "m"
formula = "avg('T1')"
"""
PLAN = """[[collector]]
file = "rows.csv"
"""
ASK = """[[reader]]
file = "asks.csv"
"""
CALENDAR = """zone = "CET-1CEST,M3.5.0,M10.5.0/3"
starts = ["06:00"]
tags = ["T1"]
measure = "total"
"""
ROWS = "T1,0,0\nT1,3000,0\nT1,4000,9\nT1,1500,60\n"
ASKS = "at,T1,1500\navg,T1,0,3000\nrow,g,m,1\n"
COMMANDS = [
    ["pack", "0", "1000000", "1", "0", "1000000"],
    ["run", "base.toml", "plan.toml"],
    ["check", "base.toml"],
    ["trend", "base.toml", "ask.toml"],
    ["log", "base.toml", "plan.toml"],
    ["shifts", "base.toml", "calendar.toml", "1971-01-01", "3"],
    ["frames", "base.toml", "g", "m", "2"],
    ["drill", "1", "1", "4"],
]


def call(program, words, folder, library, refused):
    """The exit code and the output of a run in which this growth is refused, or none if it is 0."""
    variables = dict(os.environ, LD_PRELOAD=library, REFUSED_GROWTH=str(refused))
    with open(os.path.join(folder, "lines.csv"), "rb") as lines:
        child = subprocess.run([program] + words, cwd=folder, stdin=lines, capture_output=True, env=variables)
    return child.returncode, child.stdout


def opens(program, folder):
    """Whether `check` opens the devices of the tags."""
    return subprocess.run([program, "check", "base.toml"], cwd=folder, capture_output=True).returncode == 0


def try_all(program, words, folder, library):
    """How many refusals a command reported, the runs that ended otherwise, and how it ends without a refusal."""
    devices = os.path.join(folder, "historian.d")
    kept = os.path.join(folder, "kept.d")
    shutil.rmtree(kept, ignore_errors=True)
    if os.path.isdir(devices):
        shutil.copytree(devices, kept)

    def renew():
        """Puts the devices back as they were."""
        shutil.rmtree(devices, ignore_errors=True)
        if os.path.isdir(kept):
            shutil.copytree(kept, devices)

    def again(refused):
        """How a run over those devices ends in which this growth is refused."""
        renew()
        return call(program, words, folder, library, refused)

    whole = again(0)
    told = unneeded = 0
    others = []
    for refused in range(1, MOST + 1):
        said = again(refused)
        if said == MEMORY:
            told += 1
            if words[0] == "run" and not opens(program, folder):
                others.append((refused, "the tags do not open"))
        elif said == whole:
            unneeded += 1
        else:
            others.append((refused, said))
        if said == whole and unneeded > 8 and all(again(refused + more) == whole for more in (1, 7, 50, 400)):
            break
    else:
        others.append((MOST, "still not as without a refusal"))
    again(0)
    return told, others, whole


def main():
    program = os.path.abspath(sys.argv[1]) if len(sys.argv) > 1 else os.path.join(ROOT, "crates", "historian", "out", "historian")
    named = sys.argv[2:]
    failed = False
    with tempfile.TemporaryDirectory() as folder:
        library = os.path.join(folder, "refuse.so")
        subprocess.run(["cc", "-O2", "-shared", "-fPIC", "-o", library, os.path.join(HERE, "refuse.c")], check=True)
        for name, text in (("base.toml", BASE), ("plan.toml", PLAN), ("ask.toml", ASK), ("calendar.toml", CALENDAR), ("rows.csv", ROWS),
                           ("asks.csv", ASKS), ("lines.csv", "0,0\n1,0\n2,3\n3,0\n")):
            with open(os.path.join(folder, name), "w") as out:
                out.write(text)
        for words in COMMANDS:
            if named and words[0] not in named and words[0] != "run":
                continue
            told, others, whole = try_all(program, words, folder, library)
            print("%-8s %3d growths refused and told, %d answered otherwise; without a refusal it ends with %d"
                  % (words[0], told, len(others), whole[0]), flush=True)
            for refused, said in others[:5]:
                print("    growth %d: %s" % (refused, said))
            failed = failed or bool(others)
    sys.exit(1 if failed else 0)


if __name__ == "__main__":
    main()
