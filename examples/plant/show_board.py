#!/usr/bin/env python3
"""show_board.py FOLDER [PROGRAM]: feeds the two days of the plant in FOLDER, which it makes, audits them, and writes the plant's board there.

Open FOLDER/board/index.html in a browser. The board shows limits, the shifts of the calendar and the frames of the alarm `hot`. The trends
need Debian's libjs-dygraphs. The exit status is that of the first tool that refuses."""
import os
import shlex
import subprocess
import sys

sys.dont_write_bytecode = True
import feed_two_days as fed  # noqa: E402

SETTINGS = """
stale_ms = 900_000
calendar = "calendar.toml"
frames = [["unit1", "hot", 2]]
[tag."TIC201.PV"]
high = 86
[tag."FIC101.PV"]
low = 4800
high = 6500
"""


def main():
    if len(sys.argv) < 2 or os.path.exists(sys.argv[1]):
        sys.exit("show_board.py FOLDER [PROGRAM]: FOLDER must not be there yet")
    folder, program = sys.argv[1], fed.days.program_of(sys.argv[2:])
    fed.lay(folder)
    with open(os.path.join(folder, "feed.toml"), "a") as settings:
        settings.write(SETTINGS)
    for base, files, _ in fed.TURNS:
        fed.feed(program, folder, base, files)
    fed.feed(program, folder, "base.toml", [])
    for words in (["audit.py", "--plant", folder], ["board.py", "--program", shlex.join(program), folder]):
        status = subprocess.run([sys.executable, os.path.join(fed.TOOLS, words[0]), *words[1:]]).returncode
        if status:
            sys.exit(status)


if __name__ == "__main__":
    main()
