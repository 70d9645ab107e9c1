#!/usr/bin/env python3
"""draw.py [PROGRAM] [--make]: draws the pictures of the plant and of the oven by tools/draw.py, and compares them with those in docs/.

It feeds the first day and the buffer of the plant in a fresh folder, as feed_two_days.py does, and the week of the oven in another. The
pictures show the flow, the temperature with its hot hours, the valve, and the oven, from the files that were fed and from the program's
answers. The script prints the names of pictures that differ, and then ends with 1. With --make it writes what it draws to docs/."""
import os
import shlex
import shutil
import subprocess
import sys
import tempfile

sys.dont_write_bytecode = True
import feed_two_days as fed  # noqa: E402

DOCS = os.path.join(fed.HERE, "..", "..", "docs")
OVEN = os.path.join(fed.HERE, "..", "oven")
FIRST, LAST = "2024-03-30T00:00", "2024-03-31T00:00"
FLOW, UNIT, BUFFER = "done/000001/flow1.csv", "done/000001/unit1.csv", "done/000002/buffer.csv"
OF_PLANT = {
    "plant_flow.svg": ["FIC101.PV", FIRST, LAST, "--raw", FLOW, "--shifts", "calendar.toml"],
    "plant_heat.svg": ["TIC201.PV", "2024-03-30T08:00", "2024-03-30T18:00", "--raw", UNIT, "--raw", BUFFER, "--limit", "86",
                       "--group", "unit1", "hot", "--frames", "2"],
    "plant_valve.svg": ["XV101.ZSO", FIRST, LAST, "--raw", FLOW, "--shifts", "calendar.toml"],
}
OF_OVEN = {"oven.svg": ["OVEN1.TEMP", "2026-03-04T07:40Z", "2026-03-04T09:00Z", "--raw", "done/000001/oven-2026-03-04.csv"]}


def feed_plant(program, folder):
    """Feeds the first day of the plant and its buffer."""
    fed.lay(folder)
    fed.feed(program, folder, *fed.TURNS[0][:2])
    fed.feed(program, folder, *fed.TURNS[1][:2])
    fed.feed(program, folder, "base.toml", [])


def feed_oven(program, folder):
    """Feeds the week of the oven."""
    shutil.copytree(OVEN, folder, dirs_exist_ok=True)
    subprocess.run([sys.executable, "make_week.py"], cwd=folder, check=True)
    tool = [sys.executable, os.path.join(fed.TOOLS, "feed.py"), "--program", shlex.join(program), folder]
    subprocess.run(tool, stdout=subprocess.DEVNULL, check=True)


def drawn(program, feed, pictures):
    """The text of each picture of a folder that `feed` fills."""
    texts = {}
    with tempfile.TemporaryDirectory() as folder:
        feed(program, folder)
        for name, asked in pictures.items():
            tool = [sys.executable, os.path.join(fed.TOOLS, "draw.py"), "--program", shlex.join(program), *asked, name]
            subprocess.run(tool, cwd=folder, check=True)
            with open(os.path.join(folder, name), encoding="utf-8") as text:
                texts[name] = text.read()
    return texts


def is_kept(name, text):
    """Whether docs/ has this picture."""
    path = os.path.join(DOCS, name)
    if not os.path.exists(path):
        return False
    with open(path, encoding="utf-8") as kept:
        return kept.read() == text


def main():
    program = fed.days.program_of([word for word in sys.argv[1:] if word != "--make"])
    texts = drawn(program, feed_plant, OF_PLANT) | drawn(program, feed_oven, OF_OVEN)
    differ = [name for name, text in texts.items() if not is_kept(name, text)]
    if "--make" in sys.argv:
        for name in differ:
            with open(os.path.join(DOCS, name), "w", encoding="utf-8") as out:
                out.write(texts[name])
        differ = []
    print("not as expected: %s" % ", ".join(differ) if differ else "%d pictures, each as expected" % len(texts))
    sys.exit(1 if differ else 0)


if __name__ == "__main__":
    main()
