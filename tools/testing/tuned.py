"""tuned.py: tests of what gets a plant going: what a tuning would keep of a sample, and the package."""
import csv
import os
import random
import re
import shutil
import subprocess
import sys

import fields
from asked import asked
from browser import DYGRAPHS
from trial import START, TOOLS, Trial, base_text

SIGMA, SECONDS = 12.0, 10_000  # of the noise, in stored units; between two values of a sample


def noisy(count):
    """A slow wave with noise of a known width, as whole values."""
    draw = random.Random(3)
    return [round(20_000 + 30 * abs(n % 2_000 - 1_000) / 10 + draw.gauss(0, SIGMA)) for n in range(count)]


def sample_plant(folder, program, tag, values):
    """A plant with a sample of a tag in x.csv, which it was not fed."""
    trial = Trial(os.path.join(folder, "a"), program)
    trial.write("base.toml", base_text().replace("exc_dev", 'engunits = "0.01 m3/h"\nexc_dev', 1))
    trial.write("x.csv", "".join("%s,%d,%s\n" % (tag, START + SECONDS * n, fields.decimal_text(v, 100 if tag == "FIC1.PV" else 1))
                                 for n, v in enumerate(values)))
    return trial


def tuned(trial, *words):
    """The lines of tune.py by comp_dev and exc_dev, and its words."""
    child = subprocess.run([sys.executable, os.path.join(TOOLS, "tune.py"), "--program", trial.program, *words], cwd=trial.folder,
                           capture_output=True, text=True)
    assert child.returncode == 0, child.stdout + child.stderr
    lines = list(csv.DictReader(child.stdout.splitlines()))
    return {(int(line["comp_dev"]), int(line["exc_dev"])): line for line in lines}, child.stderr


def tunings_of_a_sample(folder, program, settings):
    """tune.py finds the noise of a sample within a tenth. With the tuning of base.toml it keeps as many records as the plant does that is fed
    the sample, and its greatest deviation is that of the archive's answers. No line breaks its promise; a wider one keeps less."""
    values = noisy(3_000)
    trial = sample_plant(folder, program, "FIC1.PV", values)
    lines, words = tuned(trial, "FIC1.PV", "x.csv", "--try", "1.25,0")
    noise = float(words.split("(standard deviation) ")[1].split()[0]) * 100
    assert abs(noise - SIGMA) < SIGMA / 10 and "3000 values in 8h 19min" in words, words
    begin = next(tuning for tuning, line in lines.items() if line[""] == "begin with this one")
    assert begin == (round(4 * noise), round(round(4 * noise) / 2)) or abs(begin[0] - 4 * noise) < 1, (begin, noise)
    assert lines[125, 0][""] == "as asked" and lines[30, 10][""] == "as in base.toml", lines
    for line in lines.values():
        assert float(line["greatest"]) <= float(line["promised"]) + 0.005 and line["unit"] == "m3/h", line
        days = 2_999 * SECONDS / 86_400_000
        assert abs(float(line["records a day"]) - int(line["records"]) / days) < 1 and int(line["records"]) > 1, line
    narrow = [int(lines[key]["records"]) for key in sorted(lines) if key[1]]
    assert narrow[0] > 10 * narrow[-1], narrow
    assert not os.path.exists(trial.path("historian.d"))
    os.rename(trial.path("x.csv"), trial.path("inbox/x.csv"))
    trial.fed()
    records = trial.by_hand("check", "base.toml").split("records=")[1].split()[0]
    assert lines[30, 10]["records"] == records, (lines[30, 10], records)
    table = asked(trial, "--csv", "FIC1.PV", str(START), str(START + SECONDS * 2_999), "--every", "10s")
    worst = max(abs(fields.whole_value(row[1], 100) - v) for row, v in zip(table, values))
    assert len(table) == 3_000 and abs(float(lines[30, 10]["greatest"]) * 100 - worst) <= 1, (worst, lines[30, 10])


def tunings_of_a_stair(folder, program, settings):
    """Of a step tag tune.py tries what keeps each change, and less; the records are those of a plant that is fed the sample."""
    values = [(n // 7 % 3) * 20 for n in range(400)]
    trial = sample_plant(folder, program, "XV7.ZSO", values)
    lines, words = tuned(trial, "XV7.ZSO", "x.csv")
    assert "no noise; the smallest change is 20" in words and lines[19, 0][""] == "keeps each change", (lines, words)
    changes = 1 + sum(a != b for a, b in zip(values, values[1:]))
    assert int(lines[19, 0]["records"]) == changes and float(lines[19, 0]["greatest"]) <= 19 < float(lines[40, 0]["greatest"]), lines
    os.rename(trial.path("x.csv"), trial.path("inbox/x.csv"))
    trial.fed()
    line = next(line for line in trial.by_hand("check", "base.toml").splitlines() if "XV7" in line)
    assert " records=%s " % lines[30, 10]["records"] in line, (line, lines[30, 10])


def samples_of_sources(folder, program, settings):
    """A sample is read as its source says: also one that a turn left in done/ of a growing file, without a header. Rows that cannot be read are
    left out, and draw.py says so too."""
    trial = sample_plant(folder, program, "FIC1.PV", [])
    trial.write("feed.toml", trial.read("feed.toml") + '[[source]]\npattern = "day*.csv"\nseparator = ";"\ndecimal = ","\n'
                '[[source]]\npattern = "log*.csv"\nseparator = ";"\nfolder = "logs"\ngrows = true\n')
    os.mkdir(trial.path("logs"))
    for first in (0, 40):
        with open(trial.path("logs/log.csv"), "a") as out:
            out.write("time;FIC1.PV;LIC4.PV\n" * (first == 0) + "".join("%d;%d.5;7\n" % (1000 * n, n % 5) for n in range(first, first + 40)))
        trial.fed()
    trial.write("day1.csv", "".join("FIC1.PV;%d;%d,5\n" % (1000 * n, n % 5) for n in range(80)) + "FIC1.PV;soon;1\n")
    lines = trial.tool("tune.py", "FIC1.PV", "day1.csv")[1].replace("day1.csv: ", "log.csv: ").splitlines()
    assert [line for line in lines if line.startswith("tune.py: 1 rows cannot be read and are left out; row 81: no ISO time")], lines
    status, text = trial.tool("tune.py", "FIC1.PV", "done/000001/log.csv", "done/000002/log.csv")
    assert status == 0 and text.splitlines() == [line for line in lines if not line.startswith("tune.py")] and "80 values in 1min 19s" in text, text
    status, text = trial.tool("draw.py", "FIC1.PV", "0", "79000", "x.svg", "--raw", "day1.csv")
    assert status == 0 and text.startswith("draw.py: 1 rows cannot be read and are left out; row 81: no ISO time"), text
    assert "raw values" in trial.read("x.svg")


def tuning_in_words(folder, program, settings):
    """tune.py says in a line what is wrong with its words or its sample, and how many rows it cannot read."""
    trial = sample_plant(folder, program, "FIC1.PV", [1, 2, 3])
    for words, why in ((["NOBODY", "x.csv"], "base.toml has no tag NOBODY; it has FIC1.PV"), (["FIC1.PV", "y.csv"], "y.csv cannot be read"),
                       (["FIC1.PV", "x.csv"], "the sample has 3 values of FIC1.PV: too few"), (["LIC4.PV", "x.csv"], "has 0 values of LIC4.PV")):
        status, text = trial.tool("tune.py", *words)
        assert status == 22 and why in text and "Traceback" not in text, (words, status, text)
    trial.write("x.csv", "".join("FIC1.PV,%d,%d\n" % (1000 * n, n % 5) for n in range(40)) + "FIC1.PV,soon,1\n")
    assert "1 rows cannot be read and are left out; row 41: no ISO time" in trial.tool("tune.py", "FIC1.PV", "x.csv")[1]
    for asked_for in ("1", "a,b", "1,2,3", "-1,0"):
        status, text = trial.tool("tune.py", "FIC1.PV", "x.csv", "--try=" + asked_for)
        assert status == 22 and "--try" in text, (asked_for, status, text)


def unpacked(folder, program):
    """Makes the package, and unpacks it into a scratch root: the package, and that root."""
    root = os.path.join(folder, "root")
    child = subprocess.run([sys.executable, os.path.join(TOOLS, "package.py"), "--program", program.split()[0], "--out", folder, "--maintainer",
                            "A <a@b.c>"], capture_output=True, text=True)
    assert child.returncode == 0, child.stderr
    subprocess.run(["dpkg-deb", "-x", child.stdout.strip(), root], check=True)
    return child.stdout.strip(), root


def installed(root, folder, *words):
    """Runs a tool of an unpacked package in a folder, with the program of the package: what it printed."""
    place = os.path.join(root, "opt/historian")
    child = subprocess.run([sys.executable, os.path.join(place, words[0]), *words[1:]], cwd=folder, capture_output=True, text=True,
                           env=dict(os.environ, PATH=place + os.pathsep + os.environ["PATH"]))
    assert child.returncode == 0, (words, child.stdout + child.stderr)
    return child.stdout


def example_of(root, folder):
    """The example of a plant as the package has it, with the files of a day in its inbox."""
    plant = os.path.join(folder, "plant")
    shutil.copytree(os.path.join(root, "opt/historian/examples/plant"), plant)
    os.mkdir(os.path.join(plant, "inbox"))
    subprocess.run([sys.executable, "make_days.py", "--iso"], cwd=plant, check=True)
    for name in ("flow1.csv", "unit1.csv"):
        os.rename(os.path.join(plant, name), os.path.join(plant, "inbox", name))
    return plant


def package_feeds_the_example(folder, program, settings):
    """The package, unpacked into a scratch root, feeds the example and is asked; what it says of itself fits the program and the commit."""
    if not shutil.which("dpkg-deb"):
        return "no dpkg-deb here: not tried"
    (package, root), binary = unpacked(folder, program), program.split()[0]
    fields = subprocess.run(["dpkg-deb", "-f", package], capture_output=True, text=True, check=True).stdout
    sha = subprocess.run(["sha256sum", binary], capture_output=True, text=True, check=True).stdout.split()[0]
    for wanted in ("Package: historian\n", "Version: 1.", "Maintainer: A <a@b.c>\n", "python3 (>= 3.11)", "program sha256 " + sha):
        assert wanted in fields, (wanted, fields)
    assert ("proves each crate first" in fields) == binary.endswith("crates/historian/out/historian"), fields
    plant = example_of(root, folder)
    said = "".join(installed(root, plant, *words) for words in (["feed.py"], ["ask.py", "snap,TIC201.PV"], ["ask.py", "--version"]))
    for wanted in ("19807 values of 5 tags stored, 0 refused", "2024-03-30T23:59:50.000+01:00,,81.19,degC", sha):
        assert wanted in said, (wanted, said)
    links = {name: os.readlink(os.path.join(root, "usr/bin", name)) for name in os.listdir(os.path.join(root, "usr/bin"))}
    tools = {"historian-" + name: "/opt/historian/%s.py" % name for name in ("ask", "audit", "board", "draw", "feed", "site", "tune")}
    assert links == {"historian": "/opt/historian/historian"} | tools, links
    assert all(os.access(root + target, os.X_OK) for target in links.values()), links
    units = os.listdir(os.path.join(root, "lib/systemd/system"))
    assert {"historian-feed@.service", "historian-feed@.timer"} <= set(units), units
    status = subprocess.run([sys.executable, os.path.join(TOOLS, "package.py"), "--program", "/nowhere"], capture_output=True, text=True)
    assert status.returncode == 22 and "there is no program /nowhere" in status.stderr, status.stderr


def package_looks_and_joins(folder, program, settings):
    """The installed package audits the example, and makes its board with each file that the pages load. It feeds the example of a site, and
    asks it over both of its years."""
    if not shutil.which("dpkg-deb"):
        return "no dpkg-deb here: not tried"
    root = unpacked(folder, program)[1]
    plant, site = example_of(root, folder), os.path.join(folder, "site")
    installed(root, plant, "feed.py")
    assert installed(root, plant, "audit.py").endswith("5 tags, 19807 values: each as promised\n")
    shutil.copytree(os.path.join(root, "opt/historian/examples/site"), site)
    for name in (".", "unit1-2024", "unit1-2025", "unit2"):
        os.mkdir(os.path.join(site, name, "inbox"))
    os.rename(os.path.join(site, "newyear.csv"), os.path.join(site, "inbox/newyear.csv"))
    assert "turn 1: 1 files, 52 rows for 3 parts, 0 refused" in installed(root, site, "site.py", "feed")
    assert ",51.87,m3/h," in installed(root, site, "site.py", "ask", "avg,FIC101.PV,2024-12-31T18:00Z,2025-01-01T06:00Z")
    if not os.path.exists(DYGRAPHS):
        return "no dygraphs here: the board is not tried"
    assert "5 tags, 5 of them with news" in installed(root, plant, "board.py")
    for page in ("index.html", "tags/TIC201.PV.html"):
        with open(os.path.join(plant, "board", page)) as text:
            loads = re.findall(r'<(?:script src|link rel="stylesheet" href)="([^"]+)"', text.read())
        assert len(loads) > 2, loads
        for name in loads + ["data/plant.js" if page == "index.html" else "TIC201.PV.d/head.js"]:
            assert os.path.getsize(os.path.join(plant, "board", os.path.dirname(page), name)), name


CASES = [tunings_of_a_sample, tunings_of_a_stair, samples_of_sources, tuning_in_words, package_feeds_the_example,
         package_looks_and_joins]
