"""stopper.py HOW PROGRAM.. WORDS..: takes the program's place, and does something to its `run`; tests use it to stop at a given place.

Each other command it runs as it is. HOW is one of these:
- before: it kills itself in place of starting the program.
- after: the program ends, and then it kills itself.
- half: it gives the program the first half of each collector's rows, and then kills itself.
- wait: it waits for a file `go`, ten minutes at most, and then runs the program.
- append: it adds a row to the first file of the inbox, and then runs the program."""
import os
import signal
import subprocess
import sys
import time
import tomllib


def halve(plan):
    """Writes a plan over files with the first half of each collector's rows: its name."""
    with open(plan, "rb") as text:
        names = [collector["file"] for collector in tomllib.load(text).get("collector", [])]
    for number, name in enumerate(names):
        with open(name) as rows:
            lines = rows.readlines()
        with open(plan + ".%d" % number, "w") as out:
            out.writelines(lines[:len(lines) // 2])
    with open(plan + ".half", "w") as out:
        out.writelines('[[collector]]\nfile = "%s.%d"\n' % (plan, number) for number in range(len(names)))
    return plan + ".half"


def main():
    how, words = sys.argv[1], sys.argv[2:]
    is_run = words[-3:-2] == ["run"]
    if not is_run:
        os.execvp(words[0], words)
    if how == "before":
        os.kill(os.getpid(), signal.SIGKILL)
    if how == "half":
        words[-1] = halve(words[-1])
    if how == "wait":
        end = time.monotonic() + 600
        while not os.path.exists("go") and time.monotonic() < end:
            time.sleep(0.02)
        os.execvp(words[0], words)
    if how == "append":
        with open(os.path.join("inbox", sorted(os.listdir("inbox"))[0]), "a") as out:
            out.write("FIC1.PV,2024-03-29T23:59:59Z,1.00\n")
        os.execvp(words[0], words)
    subprocess.run(words, check=True, stdout=subprocess.DEVNULL, close_fds=False)
    os.kill(os.getpid(), signal.SIGKILL)


main()
