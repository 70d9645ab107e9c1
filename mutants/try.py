#!/usr/bin/env python3
"""Tries mutants: small edits that turn the meaning of a body. The prover must refuse each.

    python3 mutants/try.py [CRATE ..]

A mutant is a file mutants/CRATE/NAME.edit. It has the form of the edits in crates/CRATE/must-fail/, which the full check tries itself. The
script tries the mutants of the crates that are named, or of all. It does so in a copy of the repository, and changes nothing here. It
prints each mutant that was not refused or not tried, and last `N passed, N failed`. The exit status is 1 if one failed, and 2 for a
crate without mutants.

The copy takes over the libraries that `rt check` or `rt lib` has built here; `rt must-fail` builds the others. Then a crate takes one check
from nothing, and each of its mutants about a minute of a processor. Run it before and after you change a contract, and over all
crates before you hand the change over.
"""
import re
import shutil
import subprocess
import sys
import tempfile
from pathlib import Path

TOP = Path(__file__).resolve().parent.parent
MUTANTS = TOP / "mutants"
VERDICT = re.compile(r"must-fail (\w+)/([\w.-]+\.edit): (.*)")


def crates_with_mutants():
    """The crates that have mutants, in the order of their names."""
    return sorted(folder.name for folder in MUTANTS.iterdir() if any(folder.glob("*.edit")))


def copy_repository(scratch, crates):
    """Copies the crates and their built libraries, with the mutants of these crates in place of all edits."""
    for name in ("crates.txt", "HANDLES"):
        shutil.copy(TOP / name, scratch / name)
    shutil.copytree(TOP / "crates", scratch / "crates", ignore=shutil.ignore_patterns("out", "must-fail"))
    for library in TOP.glob("crates/*/out/rlib"):
        shutil.copytree(library, scratch / library.relative_to(TOP))
    for crate in crates:
        shutil.copytree(MUTANTS / crate, scratch / "crates" / crate / "must-fail")


def verdicts(scratch, crates):
    """What `rt must-fail` reports of each mutant, by crate and name. A mutant that it does not name was not tried."""
    run = subprocess.run(["rt", "must-fail", *crates], cwd=scratch, stdout=subprocess.PIPE, stderr=subprocess.STDOUT, text=True,
                         errors="replace")
    told = {}
    for line in run.stdout.splitlines():
        found = VERDICT.search(line)
        if found:
            told[found[1], found[2]] = found[3]
    if not told:
        print(run.stdout[-4000:])
    return told


def main(crates):
    """Tries the mutants of these crates, or of all, and prints what was not refused: the exit status."""
    unknown = [crate for crate in crates if crate not in crates_with_mutants()]
    if unknown:
        print(f"no mutants of {', '.join(unknown)}: these crates have some: {' '.join(crates_with_mutants())}")
        return 2
    crates = crates or crates_with_mutants()
    with tempfile.TemporaryDirectory(prefix="mutants-") as folder:
        scratch = Path(folder)
        copy_repository(scratch, crates)
        told = verdicts(scratch, crates)
    tried = [(crate, mutant.name) for crate in crates for mutant in sorted((MUTANTS / crate).glob("*.edit"))]
    lost = [it for it in tried if not told.get(it, "").startswith("refused")]
    for crate, name in lost:
        print(f"{crate}/{name}: {told.get((crate, name), 'not tried')[:200]}")
    print(f"{len(tried) - len(lost)} passed, {len(lost)} failed")
    return 1 if lost else 0


if __name__ == "__main__":
    sys.exit(main(sys.argv[1:]))
