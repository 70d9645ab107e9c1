#!/usr/bin/env python3
"""feed_two_days.py [PROGRAM]: feeds the two days of the plant by tools/feed.py, and compares what comes of it with live_two_days.py.

`make_days.py --iso` writes files as loggers do: with ISO times and decimals, and one of them wide. They go into the inbox in three turns.
Then the program has to print what live_two_days.py expects, which gives it the same values without the feeder. So the feeder makes the
same archive. Between the turns the script edits base.toml as an operator would: without the group while the buffer comes, and with another
CompDev on the second day.

It prints the outputs that differ, or how many there are. The exit status is 1 if one differs. If the tool refuses a turn, the script ends
with the tool's own words."""
import os
import shlex
import shutil
import subprocess
import sys
import tempfile

sys.dont_write_bytecode = True
import live_two_days as days  # noqa: E402

HERE = os.path.dirname(os.path.abspath(__file__))
TOOLS = os.path.join(HERE, "..", "..", "tools")
TURNS = [  # base, files, and the steps of live_two_days.py whose output has to be the same
    ("base.toml", ["flow1.csv", "unit1.csv"], ["trends1", "shifts1", "hot1"]),
    ("tags.toml", ["buffer.csv"], ["hot2"]),
    ("retuned.toml", ["flow2.csv", "unit2.csv"], ["shifts2", "check"]),
]
WORDS = {name: words for name, _, words in days.STEPS}


def lay(folder):
    """Writes the plant's texts into a folder, and the files of its loggers into one of its own there."""
    os.makedirs(os.path.join(folder, "inbox"))
    os.makedirs(os.path.join(folder, "loggers"))
    for name in os.listdir(HERE):
        if name.endswith((".toml", ".csv")):
            shutil.copy(os.path.join(HERE, name), folder)
    shutil.copy(os.path.join(HERE, "base.toml"), os.path.join(folder, "unit.toml"))
    make = [sys.executable, os.path.join(HERE, "make_days.py"), "--iso"]
    subprocess.run(make, cwd=os.path.join(folder, "loggers"), check=True)


def feed(program, folder, base, files):
    """Puts a base in place, moves files into the inbox, and feeds them. Ends the script with the tool's own words if it refuses."""
    shutil.copy(os.path.join(folder, "unit.toml" if base == "base.toml" else base), os.path.join(folder, "base.toml"))
    for name in files:
        os.rename(os.path.join(folder, "loggers", name), os.path.join(folder, "inbox", name))
    words = [sys.executable, os.path.join(TOOLS, "feed.py"), "--program", shlex.join(program), folder]
    child = subprocess.run(words, stdout=subprocess.PIPE)
    if child.returncode:
        sys.exit("feed.py ends with %d: %s" % (child.returncode, child.stdout.decode()))


def main():
    program, differ, count = days.program_of(sys.argv[1:]), [], 0
    with tempfile.TemporaryDirectory() as folder:
        lay(folder)
        for base, files, steps in TURNS:
            feed(program, folder, base, files)
            for name in steps:
                words = [("unit.toml" if word == "base.toml" else word) for word in WORDS[name]]
                got, count = days.told(program, words, folder), count + 1
                with open(os.path.join(days.KEPT, name + ".txt")) as kept:
                    if kept.read() != got:
                        differ.append((name, got))
    for name, text in differ:
        print("%s is not as expected:\n%s" % (name, text))
    if not differ:
        print("%d outputs of the plant that was fed, each as expected" % count)
    sys.exit(1 if differ else 0)


if __name__ == "__main__":
    main()
