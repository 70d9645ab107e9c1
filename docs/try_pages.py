#!/usr/bin/env python3
"""try_pages.py [--program PATH] [--first] [PAGE..]: runs the commands that the pages show, and compares what they print, byte for byte,
and their exit status.

The pages are README.md, docs/TOUR.md, docs/RUNNING.md and docs/FORMATS.md, or those that are named. A command stands in a block that is
indented by four spaces, on a line that begins with `$ `. Its output stands on the lines after it. A command in any other block is an
error. The number after `evals=` may differ, because it depends on how threads take turns. Date and time before a line of a log are
taken off. A command ends with status 0, or with that of a comment before it, `<!-- exits: 8 -->`.

With --first it runs README's first command too, which compiles the program with `rt`, in some minutes. What that prints is what the next
command of README shows.

Each page gets a scratch folder with a copy of examples/, tools/ and docs/. There its commands run in order, with `historian` and the
tools on the path. A comment in the page, `<!-- in: examples/tags -->`, names the folder in which the blocks after it run. Before the
first comment that is the scratch folder itself. A comment `<!-- board.py needs: libjs-dygraphs -->` names a package of Debian that the
commands after it need if they begin with that word. On a machine without the package they are not tried, and a line says so.

It prints what differs in a page, and then a line for the page with the number of its commands. The exit status is 1 if anything differs.
It uses the standard library alone."""
import argparse
import difflib
import os
import re
import shutil
import subprocess
import sys
import tempfile

sys.dont_write_bytecode = True
TOP = os.path.dirname(os.path.dirname(os.path.abspath(__file__)))
sys.path.insert(0, os.path.join(TOP, "tools"))
from plant import program_of  # noqa: E402

PAGES = ["README.md", "docs/TOUR.md", "docs/RUNNING.md", "docs/FORMATS.md"]
FOLDER = re.compile(r"<!-- in: (\S+) -->")
STATUS = re.compile(r"<!-- exits: ([0-9]+) -->")
NEEDS = re.compile(r"<!-- (\S+) needs: (\S+) -->")
PACKAGES = {"libjs-dygraphs": "/usr/share/javascript/dygraphs/dygraph.min.js"}  # a file of each package that a command needs
STAMP = re.compile(r"^\d{4}-\d\d-\d\d \d\d:\d\d:\d\d[+-]\d{4} ", re.M)
FIRST = " rt try "  # what README's first command has
INDENT = "    "
LONGEST = 1800  # seconds that a command may take


class Shown:
    """A command that a page shows: its line, the folder in which it runs, its exit status, the package that it needs, and what it prints."""

    def __init__(self, line, folder, command, status=0, package=None):
        self.line, self.folder, self.command, self.status, self.package, self.output = line, folder, command, status, package, ""

    def lacks_package(self):
        """Whether this machine has no package that the command needs."""
        return self.package is not None and not os.path.exists(PACKAGES[self.package])


def shown_in(text):
    """The commands of a page, and the numbers of lines with a command that is in no indented block."""
    shown, stray, folder, open_block, status, packages = [], [], ".", False, 0, {}
    for number, line in enumerate(text.splitlines(), 1):
        folder = FOLDER.match(line).group(1) if FOLDER.match(line) else folder
        if line.startswith(INDENT + "$ "):
            command = line[len(INDENT) + 2:]
            shown.append(Shown(number, folder, command, status, packages.get(command.split(" ", 1)[0])))
            open_block, status = True, 0
        elif not line.startswith(INDENT):
            stray += [number] if line.lstrip().startswith("$ ") else []
            status = int(STATUS.match(line)[1]) if STATUS.match(line) else status
            packages.update([NEEDS.match(line).groups()] if NEEDS.match(line) else [])
            open_block = False
        elif open_block and shown[-1].command.endswith("\\") and not shown[-1].output:
            shown[-1].command += "\n" + line[len(INDENT):]
        elif open_block:
            shown[-1].output += line[len(INDENT):] + "\n"
    return shown, stray


def lay(scratch, program):
    """Copies what the commands use, and puts the program and the tools on the path: the environment for the commands."""
    for name in ("examples", "tools", "docs"):
        shutil.copytree(os.path.join(TOP, name), os.path.join(scratch, name))
    os.mkdir(os.path.join(scratch, "bin"))
    script = os.path.join(scratch, "bin", "historian")
    with open(script, "w") as out:
        out.write('#!/bin/sh\nexec %s "$@"\n' % program)
    os.chmod(script, 0o755)
    places = [os.path.join(scratch, "bin"), os.path.join(scratch, "tools"), os.environ.get("PATH", "")]
    return dict(os.environ, PATH=os.pathsep.join(places), LC_ALL="C.UTF-8", TZ="UTC", PYTHONDONTWRITEBYTECODE="1")


def printed(shown, scratch, environment):
    """Runs a command: its exit status, and what it printed, on standard error too."""
    child = subprocess.run(["bash", "-c", shown.command], cwd=os.path.join(scratch, shown.folder), env=environment, text=True,
                           stdin=subprocess.DEVNULL, stdout=subprocess.PIPE, stderr=subprocess.STDOUT, timeout=LONGEST)
    return child.returncode, child.stdout


def compared(text):
    """The text without the numbers of evaluations, and without date and time before lines of a log."""
    return STAMP.sub("", re.sub(r"evals=\d+", "evals=", text))


def differences(page, shown, scratch, environment):
    """Runs a command: lines about what differs, or none if it prints what the page shows."""
    try:
        status, got = printed(shown, scratch, environment)
    except subprocess.TimeoutExpired:
        return ["%s:%d: $ %s\n  took longer than %d seconds" % (page, shown.line, shown.command, LONGEST)]
    ends = ["  ends with %d, not %d" % (status, shown.status)] if status != shown.status else []
    if compared(got) == compared(shown.output):
        return ["%s:%d: $ %s" % (page, shown.line, shown.command)] + ends if ends else []
    lines = difflib.unified_diff(shown.output.splitlines(), got.splitlines(), "page", "printed", lineterm="", n=1)
    return ["%s:%d: $ %s" % (page, shown.line, shown.command)] + ends + ["  " + line for line in lines]


def first_command(text):
    """README's first command, which is no `$ ` one, and what it prints: what the next command shows."""
    lines = [(number, line.strip()) for number, line in enumerate(text.splitlines(), 1) if line.startswith(INDENT) and FIRST in line]
    first = Shown(lines[0][0], ".", lines[0][1] + " 2> /dev/null")
    first.output = next(shown.output for shown in shown_in(text)[0] if shown.line > first.line)
    return first


def try_first():
    """Runs README's first command in the repository itself: whether it prints what the page shows, and the text about it."""
    with open(os.path.join(TOP, "README.md")) as file:
        first = first_command(file.read())
    lines = differences("README.md", first, TOP, dict(os.environ))
    return not lines, "\n".join(lines) or "README.md        the first command prints what the page shows"


def result_of(page, program):
    """Tries a page: whether its commands print what it shows, and the text about it."""
    with open(os.path.join(TOP, page)) as file:
        shown, stray = shown_in(file.read())
    text = ["%s:%d: a command that stands in no indented block" % (page, number) for number in stray]
    wrong = len(stray)
    with tempfile.TemporaryDirectory(prefix="pages-") as scratch:
        environment = lay(scratch, program)
        for command in (command for command in shown if not command.lacks_package()):
            lines = differences(page, command, scratch, environment)
            wrong += bool(lines)
            text += lines
    text += ["%s:%d: not tried: it needs %s (apt-get install %s)" % (page, command.line, command.package, command.package)
             for command in shown if command.lacks_package()]
    tried = len(shown) - sum(command.lacks_package() for command in shown)
    text.append("%-16s %2d commands, %s" % (page, tried, "%d wrong" % wrong if wrong else "each prints what the page shows"))
    return wrong == 0, "\n".join(text)


def main():
    parser = argparse.ArgumentParser(description=__doc__, formatter_class=argparse.RawDescriptionHelpFormatter)
    parser.add_argument("--program", default="historian", help="the built historian (default: on the path)")
    parser.add_argument("--first", action="store_true", help="README's first command too, which compiles the program")
    parser.add_argument("pages", nargs="*", metavar="PAGE", help="only these pages")
    settings = parser.parse_args()
    program = program_of(settings.program)
    if program is None:
        sys.exit("there is no program %r: build it with `rt run` in crates/historian, or give its path with --program" % settings.program)
    missing = [page for page in settings.pages if not os.path.isfile(os.path.join(TOP, page))]
    if missing:
        sys.exit("there is no page %s in %s" % (missing[0], TOP))
    good = True
    # One page after the other: a script that was just written cannot run while another thread's child still has it open.
    for page in settings.pages or PAGES:
        passed, text = result_of(page, program)
        good = good and passed
        print(text, flush=True)
    if settings.first:
        passed, text = try_first()
        good = good and passed
        print(text, flush=True)
    return 0 if good else 1


if __name__ == "__main__":
    sys.exit(main())
