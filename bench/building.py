"""building.py: how a bench builds a program of its own over crates of this repository.

The main.rattle of a bench NAME becomes the crate NAME_bench, in a repository of its own with copies of the crates that it depends on."""
import os
import shutil
import subprocess
import sys

BENCHES = os.path.dirname(os.path.abspath(__file__))
ROOT = os.path.dirname(BENCHES)
PARTS = ("src", "specs", "proofs")  # of a crate


def listed():
    """The crates of crates.txt in their order, each with its line and the names of the crates in it."""
    crates = {}
    with open(os.path.join(ROOT, "crates.txt")) as lines:
        for line in lines:
            head, _, below = line.split("#")[0].partition(":")
            if head.strip():
                crates[head.split()[0]] = line, below.split()
    return crates


def needed(names):
    """These crates, and all crates of this repository that they depend on."""
    crates, found = listed(), list(names)
    for name in found:
        found += [below for below in crates[name][1] if below in crates and below not in found]
    return found


def is_left(folder, names):
    """Of the files in a folder, those that are not copied: edits, and what was made, but not the libraries that were proved."""
    if os.path.basename(folder) == "out":
        return [name for name in names if name != "rlib"]
    return [name for name in names if name == "must-fail"]


def copied(folder, names, bench_line):
    """Makes a repository of these crates and a bench's own, whose line in its crates.txt is given. Returns the folder of the bench's crate.

    In a folder that was kept, it first removes sources, specs and proofs. What was built there stays."""
    if os.path.realpath(folder) == os.path.realpath(ROOT) or os.path.exists(os.path.join(folder, ".git")):
        sys.exit("FOLDER must not be a repository with sources: they would be removed")
    crates, bench = os.path.join(os.path.abspath(folder), "crates"), bench_line.partition(":")[0].split()[0]
    for name in [*names, bench]:
        for part in PARTS:
            shutil.rmtree(os.path.join(crates, name, part), ignore_errors=True)
    for name in names:
        shutil.copytree(os.path.join(ROOT, "crates", name), os.path.join(crates, name), dirs_exist_ok=True, ignore=is_left)
    os.makedirs(os.path.join(crates, bench, "src"))
    shutil.copyfile(os.path.join(BENCHES, bench.removesuffix("_bench"), "main.rattle"), os.path.join(crates, bench, "src", "main.rt"))
    shutil.copyfile(os.path.join(ROOT, "HANDLES"), os.path.join(folder, "HANDLES"))
    with open(os.path.join(folder, "crates.txt"), "w") as out:
        out.writelines(line for name, (line, _) in listed().items() if name in names)
        out.write(bench_line + "\n")
    return os.path.join(crates, bench)


def put(crate, name, text):
    """Writes a file of a crate."""
    path = os.path.join(crate, name)
    os.makedirs(os.path.dirname(path), exist_ok=True)
    with open(path, "w", encoding="utf-8") as out:
        out.write(text)


def built(crate, *words):
    """Proves and compiles a bench's crate, and runs it once with these words (`rt run`). Returns the path of the program. What `rt` prints
    goes to build.log in the repository of the bench."""
    with open(os.path.join(crate, "..", "..", "build.log"), "w") as log:
        subprocess.run(["rt", "run", "--jobs", "2", *(["--", *words] if words else [])], cwd=crate, stdin=subprocess.DEVNULL, stdout=log,
                       stderr=log, check=True)
    return os.path.join(crate, "out", os.path.basename(crate))
