#!/usr/bin/env python3
"""Tries edits that no contract refuses: a test must fail with each.

    python3 mutants/try_tests.py [CRATE ..]

Such an edit is a file mutants/tested/CRATE/NAME.edit. Its first line names a test that must fail with it, and the crate of this test. The
others have the form of every edit: a file of CRATE, then pairs of an old text, which stands there once, and a new one. The script tries
the edits of the crates that are named, or of all. It does so in a copy of the repository, and changes nothing here. It prints each edit
with which the test passes, that does not compile or that no longer fits its file, and last `N passed, N failed`. The exit status is 1 if
one failed, and 2 for a crate without such edits.

`rt try --test` runs tests over code that is not proved, and takes every library from its source. So this needs no proof, and about a
minute of a processor for each edit.
"""
import shutil
import subprocess
import sys
import tempfile
from pathlib import Path

TOP = Path(__file__).resolve().parent.parent
EDITS = TOP / "mutants" / "tested"
# Seconds for a test. Each takes a few; but a worker that waits for itself does not end.
LIMIT = 100


def fields_of(edit):
    """The lines of an edit, as pairs of a word and what stands behind it."""
    lines = (line.split(": ", 1) for line in edit.read_text(encoding="utf-8").splitlines())
    return [(word.rstrip(":"), rest[0].lstrip() if rest else "") for word, *rest in lines]


def edited(text, fields):
    """The text with each old part replaced by its new one, or None if an old part does not stand there just once."""
    old = None
    for word, part in fields:
        if word == "old":
            old = part
        elif word == "new":
            if text.count(old) != 1:
                return None
            text = text.replace(old, part)
    return text


def what_test_says(suite, test):
    """What a test of a crate says: `caught` if it fails or does not end, otherwise why not."""
    command = ["rt", "try", "--test", "--seconds", str(LIMIT), "--", test]
    said = subprocess.run(command, cwd=suite, stdout=subprocess.PIPE, stderr=subprocess.STDOUT, text=True, errors="replace").stdout
    if f"test {test} ... FAILED" in said:
        return "caught"
    return "passes the test" if f"test {test} ... ok" in said else said[-400:]


def verdict(scratch, crate, edit):
    """What becomes of an edit that is made in a copy of the repository, which then is as before."""
    fields = fields_of(edit)
    told = dict(fields)
    file = scratch / "crates" / crate / told["file"]
    text = file.read_text(encoding="utf-8")
    turned = edited(text, fields)
    if turned is None:
        return "does not fit its file"
    file.write_text(turned, encoding="utf-8")
    suite, test = told["test"].split()
    said = what_test_says(scratch / "crates" / suite, test)
    file.write_text(text, encoding="utf-8")
    return said


def main(crates):
    """Tries the edits of these crates, or of all, and prints those that were not caught: the exit status."""
    known = sorted(folder.name for folder in EDITS.iterdir())
    unknown = [crate for crate in crates if crate not in known]
    if unknown:
        print(f"no such edits of {', '.join(unknown)}: these crates have some: {' '.join(known)}")
        return 2
    tried = [(crate, edit) for crate in crates or known for edit in sorted((EDITS / crate).glob("*.edit"))]
    lost = 0
    with tempfile.TemporaryDirectory(prefix="mutants-") as folder:
        scratch = Path(folder)
        shutil.copytree(TOP / "crates", scratch / "crates", ignore=shutil.ignore_patterns("out"))
        for name in ("crates.txt", "HANDLES"):
            shutil.copy(TOP / name, scratch / name)
        for crate, edit in tried:
            said = verdict(scratch, crate, edit)
            if said != "caught":
                lost += 1
                print(f"{crate}/{edit.name}: {said}")
    print(f"{len(tried) - lost} passed, {lost} failed")
    return 1 if lost else 0


if __name__ == "__main__":
    sys.exit(main(sys.argv[1:]))
