#!/usr/bin/env python3
"""quotes.py: compares the records that docs/PROMISE.md quotes with the files in which they stand.

A quoted record is an indented block that begins with `pub record`. Its file is the last one of crates/ that the page names before it. The
lines have to be those of the file, without its comments. The script prints what differs, or how many records it compared. The exit status
is 1 if one differs, or if the page quotes none."""
import difflib
import os
import re
import sys

TOP = os.path.dirname(os.path.dirname(os.path.abspath(__file__)))
PAGE = os.path.join("docs", "PROMISE.md")
FILE = re.compile(r"crates/\w+/specs/\w+\.antt")
BEGIN = "    pub record "


def quoted(page):
    """The quoted records of a page: the file of each, and its lines."""
    found, file, open_block = [], None, False
    for line in page.splitlines():
        file = FILE.findall(line)[-1] if FILE.search(line) else file
        if line.startswith(BEGIN):
            found.append((file, []))
            open_block = True
        open_block = open_block and line.startswith("    ")
        if open_block:
            found[-1][1].append(line[4:])
    return found


def written(path, head):
    """The lines of the record that begins with this line in a file, without comments. None of them if no line is this one."""
    with open(path, encoding="utf-8") as file:
        lines = file.read().splitlines()
    if head not in lines:
        return []
    first = lines.index(head)
    end = lines.index("", first) if "" in lines[first:] else len(lines)
    return [line for line in lines[first:end] if not line.lstrip().startswith("--")]


def main():
    with open(os.path.join(TOP, PAGE), encoding="utf-8") as file:
        records = quoted(file.read())
    differ = 0
    for path, lines in records:
        source = written(os.path.join(TOP, path), lines[0])
        if source != lines:
            differ += 1
            print("\n".join(difflib.unified_diff(source, lines, path, PAGE, lineterm="", n=0)))
    print("%d of %d quoted records differ" % (differ, len(records)) if differ else "%d quoted records, as they are written" % len(records))
    return 1 if differ or not records else 0


if __name__ == "__main__":
    sys.exit(main())
