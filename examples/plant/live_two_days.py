#!/usr/bin/env python3
"""live_two_days.py PROGRAM [--make]: takes two days of the plant through the program, and compares each output with the expected one.

PROGRAM is the command that runs the program: `historian` on the path, or a built one. make_days.py makes the collectors' files in a fresh
folder. Then the steps below run in order, over the same devices. Each has to print what stands in kept/, byte for byte. The number of
evaluations is left out, because it depends on when the refresher comes.

The script prints the steps that differ, or how many there are. The exit status is 1 if one differs. With --make it writes what the steps
print to kept/. On a terminal it shows on standard error how far it is."""
import os
import re
import shlex
import shutil
import subprocess
import sys
import tempfile

HERE = os.path.dirname(os.path.abspath(__file__))
KEPT = os.path.join(HERE, "kept")
STEPS = [
    ("day1", "a day of two collectors, a reader and a refresher", ["run", "base.toml", "day1.toml"]),
    ("trends1", "what a reader asks of it", ["trend", "base.toml", "ask.toml"]),
    ("shifts1", "the figures of its shifts", ["shifts", "base.toml", "calendar.toml", "2024-03-30", "1"]),
    ("hot1", "when it was hot", ["frames", "base.toml", "unit1", "hot", "2"]),
    ("late", "an hour of the temperature that a logger had buffered", ["run", "tags.toml", "late.toml"]),
    ("hot2", "what becomes of the hot times", ["frames", "base.toml", "unit1", "hot", "2"]),
    ("day2", "the second day, with another tuning", ["run", "retuned.toml", "day2.toml"]),
    ("shifts2", "the shifts of both days, one of them 11 hours long", ["shifts", "retuned.toml", "calendar.toml", "2024-03-30", "2"]),
    ("check", "the tags in the end", ["check", "retuned.toml"]),
    ("log", "the first day once more, into one log", ["log", "base.toml", "day1.toml"]),
]


def program_of(words):
    """The program's command from the words of a script: the first one, or `historian`. It stays good in another folder."""
    program = shlex.split(words[0]) if words else ["historian"]
    if os.sep in program[0]:
        program[0] = os.path.abspath(program[0])
    return program


def lay(folder):
    """Copies the plant's texts, and makes the collectors' files."""
    for name in os.listdir(HERE):
        if name.endswith((".toml", ".csv")):
            shutil.copy(os.path.join(HERE, name), folder)
    subprocess.run([sys.executable, os.path.join(HERE, "make_days.py")], cwd=folder, check=True)


def told(program, words, folder):
    """What a step printed, without the number of evaluations, and with its exit code if that is not 0."""
    child = subprocess.run(program + words, cwd=folder, stdin=subprocess.DEVNULL, capture_output=True)
    text = re.sub(r" evals=\d+", "", child.stdout.decode())
    return text if child.returncode == 0 else "%sexit %d\n" % (text, child.returncode)


def live(program, folder, progress=lambda done: None):
    """Runs the steps in a folder: the name of each, and what it printed."""
    lay(folder)
    for done, (name, _, words) in enumerate(STEPS):
        progress(done)
        yield name, told(program, words, folder)
    progress(len(STEPS))


def show(done):
    """Shows on standard error how many steps are done, if that is a terminal."""
    if sys.stderr.isatty():
        what = STEPS[done][1] if done < len(STEPS) else "done"
        sys.stderr.write("\r\033[K%d of %d: %s" % (done, len(STEPS), what + ("\n" if done == len(STEPS) else "")))
        sys.stderr.flush()


def main():
    program, differ = program_of(sys.argv[1:]), []
    with tempfile.TemporaryDirectory() as folder:
        for name, text in live(program, folder, show):
            path = os.path.join(KEPT, name + ".txt")
            if "--make" in sys.argv:
                with open(path, "w") as out:
                    out.write(text)
            elif not os.path.exists(path) or open(path).read() != text:
                differ.append((name, text))
    for name, text in differ:
        print("%s is not as expected:\n%s" % (name, text))
    if not differ:
        print("%d steps, each as expected" % len(STEPS))
    sys.exit(1 if differ else 0)


if __name__ == "__main__":
    main()
