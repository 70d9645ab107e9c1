#!/usr/bin/env python3
"""package.py: a Debian package of the built program, the tools, the pages and the systemd units.

    package.py [--program PATH] [--out FOLDER]

Who has the toolchain builds it, and hands the file to the plant, which needs no toolchain: `apt install ./historian_VERSION_amd64.deb`.
It puts everything into /opt/historian (program, tools, pages of the board, docs/, the examples of a plant and of a site), the units into
/lib/systemd/system, and links into /usr/bin: historian, and historian-feed, historian-ask and so on for the tools.

Without --program it takes what `rt run` leaves in crates/historian/out once each crate is proved. Of another program the package says that
nobody knows whether it was proved. It needs dpkg-deb, which every Debian has.

Exit status: 0 the package is made; 2 wrong words; 22 a file is missing or cannot be read or written."""
import argparse
import datetime
import os
import re
import shutil
import subprocess
import sys
import tempfile

from plant import UNREADABLE, Refusal, bytes_of, ended, sha256_of
from version import VERSION, version_text

TOOLS = os.path.dirname(os.path.abspath(__file__))
TOP = os.path.dirname(TOOLS)
PROVED = os.path.join("crates", "historian", "out", "historian")
PLACE, UNITS = "opt/historian", "lib/systemd/system"
EXAMPLES = ("oven", "plant", "site")
LEFT_OUT = ("__pycache__", "historian-*", "kept", "draw.py", "*_two_days.py", "show_board.py")  # of the examples
CONTROL = """Package: historian
Version: %(version)s
Architecture: %(architecture)s
Maintainer: %(maintainer)s
Installed-Size: %(size)d
Depends: libc6 (>= %(libc)s), python3 (>= 3.11), tzdata
Recommends: librsvg2-bin, libjs-dygraphs
Suggests: python3-distributed, python3-pandas
Section: science
Priority: optional
Description: proved plant historian with its tools
 A batch job that archives what instruments measured, and tools to feed it
 from CSV files, to ask it, and to draw it. /opt/historian/docs/RUNNING.md
 says how to run a plant with it.
 .
 %(built)s
"""


def git(*words):
    """What git says of this repository; empty without git."""
    try:
        return subprocess.run(["git", "-C", TOP, *words], capture_output=True, text=True, check=True).stdout.strip()
    except (OSError, subprocess.CalledProcessError):
        return ""


def commit():
    """The commit of what is packed, and its time in seconds since 1970. Without git it is unknown, and the time is now."""
    name, seconds = git("rev-parse", "--short=8", "HEAD"), git("log", "-1", "--format=%ct")
    changed = ".changed" if name and git("status", "--porcelain", "--untracked-files=no") else ""
    return (name or "unknown") + changed, int(seconds or datetime.datetime.now().timestamp())


def built_lines(program, name):
    """From what the package is made, a line each."""
    proved = os.path.realpath(program) == os.path.realpath(os.path.join(TOP, PROVED))
    about = "the build of `rt run`, which proves each crate first" if proved else "given by hand: nobody knows whether it was proved"
    return ["commit %s" % name, "program sha256 %s" % sha256_of(program), about]


def libc_of(program):
    """The newest version of the C library of which the program uses something."""
    found = {tuple(int(part) for part in version.split(b".")) for version in re.findall(rb"GLIBC_(\d+\.\d+)", bytes_of(program))}
    return ".".join(str(part) for part in max(found, default=(2, 28)))


def lay(root, program, lines):
    """Puts all files where the package has them."""
    place = os.path.join(root, PLACE)
    os.makedirs(os.path.join(place, "examples"))
    shutil.copy(program, os.path.join(place, "historian"))
    os.chmod(os.path.join(place, "historian"), 0o755)
    for name in sorted(os.listdir(TOOLS)):
        if name.endswith(".py") and not name.startswith("test_") and name != "package.py":
            shutil.copy(os.path.join(TOOLS, name), place)
    shutil.copytree(os.path.join(TOOLS, "pages"), os.path.join(place, "pages"))
    with open(os.path.join(place, "BUILT"), "w") as out:
        out.writelines(line + "\n" for line in lines)
    shutil.copytree(os.path.join(TOP, "docs"), os.path.join(place, "docs"), ignore=shutil.ignore_patterns("*.py", "__pycache__"))
    shutil.copy(os.path.join(TOP, "README.md"), place)
    for name in EXAMPLES:
        shutil.copytree(os.path.join(TOP, "examples", name), os.path.join(place, "examples", name), ignore=shutil.ignore_patterns(*LEFT_OUT))


def lay_units(root):
    """Puts the systemd units where systemd finds them."""
    os.makedirs(os.path.join(root, UNITS))
    source = os.path.join(TOP, "examples", "plant")
    for name in sorted(os.listdir(source)):
        if name.endswith((".service", ".timer")):
            shutil.copy(os.path.join(source, name), os.path.join(root, UNITS))


def lay_links(root):
    """Links the program and each tool that can be called into /usr/bin."""
    os.makedirs(os.path.join(root, "usr/bin"))
    for name in sorted(os.listdir(os.path.join(root, PLACE))):
        path = os.path.join(root, PLACE, name)
        if os.path.isfile(path) and os.access(path, os.X_OK) and name != "site_work.py":  # that one is called by site.py alone
            link = name if name == "historian" else "historian-" + name.removesuffix(".py")
            os.symlink("/%s/%s" % (PLACE, name), os.path.join(root, "usr/bin", link))


def set_rights(root):
    """Everybody may read all files, and nobody but their owner write them."""
    for folder, _, names in os.walk(root):
        os.chmod(folder, 0o755)
        for name in names:
            path = os.path.join(folder, name)
            if not os.path.islink(path):
                os.chmod(path, 0o755 if os.access(path, os.X_OK) else 0o644)


def size_of(root):
    """The size of all files, in thousands of bytes."""
    return sum(os.lstat(os.path.join(folder, name)).st_size for folder, _, names in os.walk(root) for name in names) // 1000 + 1


def control(program, root, name, seconds, lines, maintainer):
    """The text that says what the package is."""
    try:
        architecture = subprocess.run(["dpkg", "--print-architecture"], capture_output=True, text=True, check=True).stdout.strip()
    except (OSError, subprocess.CalledProcessError):
        raise Refusal(UNREADABLE, "dpkg is not here, so no package can be made: this needs Debian, or its package dpkg") from None
    day = datetime.datetime.fromtimestamp(seconds, datetime.timezone.utc).strftime("%Y%m%d")
    return CONTROL % {"version": "%s+%s.%s" % (VERSION, day, name), "architecture": architecture, "maintainer": maintainer,
                      "size": size_of(root), "libc": libc_of(program), "built": "\n ".join(lines)}


def make(program, folder, maintainer):
    """Makes the package, and answers its name."""
    if not os.path.isfile(program):
        raise Refusal(UNREADABLE, "there is no program %s: `rt run` in crates/historian proves and builds it; or give one with --program"
                      % program)
    name, seconds = commit()
    lines = built_lines(program, name)
    with tempfile.TemporaryDirectory(prefix="package-") as root:
        lay(root, program, lines)
        lay_units(root)
        lay_links(root)
        text = control(program, root, name, seconds, lines, maintainer)
        set_rights(root)
        os.mkdir(os.path.join(root, "DEBIAN"), 0o755)
        with open(os.path.join(root, "DEBIAN", "control"), "w") as out:
            out.write(text)
        version, architecture = (re.search("^%s: (.*)$" % key, text, re.M)[1] for key in ("Version", "Architecture"))
        path = os.path.join(folder, "historian_%s_%s.deb" % (version, architecture))
        child = subprocess.run(["dpkg-deb", "--root-owner-group", "--build", root, path], capture_output=True, text=True,
                               env=dict(os.environ, SOURCE_DATE_EPOCH=str(seconds)))
    if child.returncode:
        raise Refusal(UNREADABLE, "dpkg-deb made no package: %s" % child.stderr.strip())
    return path


def main():
    parser = argparse.ArgumentParser(description=__doc__, formatter_class=argparse.RawDescriptionHelpFormatter)
    parser.add_argument("--program", default=os.path.join(TOP, PROVED), metavar="PATH", help="the built historian")
    parser.add_argument("--out", default=".", metavar="FOLDER", help="where the package goes (default: here)")
    parser.add_argument("--maintainer", default="whoever built it <root@localhost>", metavar="NAME <MAIL>", help="whom the plant asks")
    parser.add_argument("--version", action="version", version=version_text(os.path.basename(sys.argv[0])))
    given = parser.parse_args()
    print(make(given.program, given.out, given.maintainer))


if __name__ == "__main__":
    ended(main, "No package was made.")
