#!/usr/bin/env python3
"""show_faults.py [PROGRAM [CASE..]]: makes each fault, and compares exit status and line with those in faults.txt.

PROGRAM is the command that runs the program: `historian` on the path, or a built one. CASE names some of the cases. Each case gets a
fresh folder with a copy of the texts next to this script, and with what its recipe below writes. Then its words run there. The script
prints what differs, and last how many cases there are or how many differ. The exit status is 1 if one differs. It uses the standard
library alone."""
import os
import shlex
import shutil
import subprocess
import sys
import tempfile

HERE = os.path.dirname(os.path.abspath(__file__))
sys.dont_write_bytecode = True
sys.path.insert(0, os.path.join(HERE, "..", "tags"))
from make_devices import device  # noqa: E402

TUNING = (0, 1_000_000, 0, 0, 1_000_000_000)
OPEN, CLOSED = b"\xa5", b"\0"
GROUP_TEXT = b"u1,0,1,F1\nmean=avg('F1')"


def tag(name="F1", step=False, values=((0, 0), (10, 10), (20, 0))):
    """The bytes of a tag's device on which one batch was committed."""
    return device(name, TUNING, step, list(values))


def whole(letters, text, behind=CLOSED):
    """The bytes of a group's device or of a log: the layout, and after it the bytes from the first block's gate on."""
    return OPEN + letters + len(text).to_bytes(4, "big") + text + behind


def with_q(data):
    """The same bytes, but Q as the second one."""
    return data[:1] + b"Q" + data[2:]


def block(version):
    """A group's first block: one input at this version, no complete window, no row; and the next gate."""
    numbers = [(1, 8), (version, 4), (0, 4), (0, 4)]
    return OPEN + b"".join(number.to_bytes(size, "big") for number, size in numbers) + CLOSED


def many(count, text):
    """So many copies of a text, each with its number for %d."""
    return "".join(text % n for n in range(count)).encode()


TAG = '[[tag]]\nname = "T%d"\nexc_dev = 0\nexc_max = 0\ncomp_dev = 0\ncomp_min = 0\ncomp_max = 0\n'
GROUP = '[[group]]\nname = "g%d"\ntags = ["T0"]\nstart = 0\nperiod = 1\n'
CALC = '[[group.calc]]\nname = "c%d"\nformula = "1"\n'

# What each case writes besides the texts: names with their bytes, or with None for a folder.
RECIPES = {
    "tag_is_a_folder": lambda: {"historian.d/F1.tag": None},
    "group_is_a_folder": lambda: {"historian.d/u1.grp": None},
    "log_is_a_folder": lambda: {"historian.d/plant.log": None},
    "tag_with_another_byte": lambda: {"historian.d/F1.tag": with_q(tag())},
    "tag_cut_short": lambda: {"historian.d/F1.tag": tag()[:100]},
    "group_with_another_byte": lambda: {"historian.d/u1.grp": with_q(whole(b"PHG1", GROUP_TEXT))},
    "log_with_another_byte": lambda: {"historian.d/plant.log": with_q(whole(b"PHC1", b"F1\nV1"))},
    "another_tags_file": lambda: {"historian.d/V1.tag": tag("F1")},
    "another_kind": lambda: {"historian.d/F1.tag": tag("F1", step=True)},
    "long_text": lambda: {"long.toml": b"#".ljust(1_048_577, b" ")},
    "long_input": lambda: {"long.csv": bytes(67_108_865)},
    "many_rows": lambda: {"rows.csv": b"0,0\n" * 4_000_001},
    "many_records": lambda: {"zigzag.csv": "".join("%d,%d\n" % (n, n % 2) for n in range(1_048_580)).encode()},
    "many_tags": lambda: {"tags.toml": many(1025, TAG)},
    "many_groups": lambda: {"groups.toml": many(1, TAG) + many(17, GROUP + CALC.replace("%d", "0"))},
    "many_calcs": lambda: {"calcs.toml": many(1, TAG) + many(1, GROUP) + many(65, CALC)},
    "many_collectors": lambda: {"collectors.toml": many(17, '[[collector]]\nfile = "%d.csv"\n')},
    "many_readers": lambda: {"readers.toml": many(17, '[[reader]]\nfile = "%d.csv"\n')},
    "many_queries": lambda: {"asks.csv": b"snap,F1\n" * 4097},
    "many_cells": lambda: {"historian.d/F1.tag": tag("F1", values=[(0, 0), (2_000_000, 5), (2_000_001, 0)])},
    "saved_ahead": lambda: {"historian.d/u1.grp": whole(b"PHG1", GROUP_TEXT, block(3))},
    "another_plants_log": lambda: {"historian.d/plant.log": whole(b"PHC1", b"F1\nX1")},
}


def kept():
    """The cases of faults.txt: name, words, exit status, and what the program prints."""
    with open(os.path.join(HERE, "faults.txt")) as table:
        for line in table:
            if not line.startswith("#"):
                name, words, status, said = (part.strip() for part in line.split("|"))
                yield name, shlex.split(words), int(status), said + "\n" if said else ""


def lay(name, folder):
    """Copies the texts into a folder, and writes what a case's recipe says."""
    for text in os.listdir(HERE):
        if text.endswith((".toml", ".csv")):
            shutil.copy(os.path.join(HERE, text), folder)
    for place, data in RECIPES.get(name, dict)().items():
        path = os.path.join(folder, place)
        os.makedirs(path if data is None else os.path.dirname(path), exist_ok=True)
        if data is not None:
            with open(path, "wb") as out:
                out.write(data)


def file_behind(words, sign, folder):
    """Takes a sign `<` or `>` and the name after it out of the words: the path of that file, or None without a sign."""
    if sign not in words:
        return None
    at = words.index(sign)
    name = words[at + 1]
    del words[at : at + 2]
    return os.path.join(folder, name)


def told(program, words, folder):
    """Runs the program with these words: its exit status, and what it printed on standard output."""
    words = list(words)
    source = os.open(file_behind(words, "<", folder) or os.devnull, os.O_RDONLY)
    sink = file_behind(words, ">", folder)
    out = os.open(sink, os.O_WRONLY) if sink else subprocess.PIPE
    child = subprocess.run(program + words, cwd=folder, stdin=source, stdout=out)
    for handle in [source] + ([out] if sink else []):
        os.close(handle)
    return child.returncode, (child.stdout or b"").decode()


def main():
    program = shlex.split(sys.argv[1]) if len(sys.argv) > 1 else ["historian"]
    if os.sep in program[0]:  # it runs in other folders
        program[0] = os.path.abspath(program[0])
    cases = [case for case in kept() if not sys.argv[2:] or case[0] in sys.argv[2:]]
    differ = 0
    for name, words, status, said in cases:
        with tempfile.TemporaryDirectory() as folder:
            lay(name, folder)
            got = told(program, words, folder)
        if got != (status, said):
            differ += 1
            print("%s ends with %d and prints:\n%s" % (name, *got))
    print("%d of %d cases are not as expected" % (differ, len(cases)) if differ else "%d cases, each as expected" % len(cases))
    sys.exit(1 if differ else 0)


if __name__ == "__main__":
    main()
