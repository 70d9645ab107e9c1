"""sources.py: tests of how the files of different sources are read; test_tools.py runs them. None of them needs the program.

A test expects of each row the value that it says, or why it is refused."""
import os
import zoneinfo

import fields
import quality
import rows
import settings
from files import Refusal

BERLIN = 'zone = "Europe/Berlin"\n'
TAGS = {"A": None, "B": 100}
LATEST = 4_000_000_000_000


def settings_of(folder, text):
    """The settings of a feed.toml with this text."""
    path = os.path.join(folder, "feed.toml")
    with open(path, "w") as out:
        out.write(text)
    return settings.Settings(path)


def read(folder, toml, text, name="x.csv", latest=LATEST):
    """The values of each tag, and the refusals as row number and reason, of a file with this text."""
    values = rows.Values()
    known = settings_of(folder, toml)
    refused = rows.read_values(text.encode(), TAGS, known, latest, values, known.source_of(name))
    return ({tag: list(zip(*arrays)) for tag, arrays in values.tags.items() if len(arrays[0])},
            [(number, reason) for _, _, _, number, reason in refused])


def headers(folder, program, options):
    """Each header is read in the one way in which it can be, or its file is refused with the reason."""
    good = {"A": [(1000, 5)]}
    for text in ("A,1000,5\n", "tag,time,value\nA,1000,5\n", "Timestamp,Value,Tag\n1000,5,A\n", "time,A,B\n1000,5,\n", " TIME , A\n 1000 , 5 \n",
                 "tag,time,value,quality\nA,1000,5,Good\n", "tag,time,value,row,reason\nA,1000,5,7,x\n", "\ufefftime,A\r\n1000,5\r\n",
                 "\n\ntag,time,value\n\nA,1000,5\n"):
        assert read(folder, "", text) == (good, []), (text, read(folder, "", text))
    for text, why in (("time,A,A\n1000,5,6\n", "the header has the column 'A' twice"), ("tag,time,value,value\nA,1000,5,6\n", "'value' twice"),
                      ("tag,time,value,unit\nA,1000,5,m\n", "a column whose meaning nothing says: 'unit'"),
                      ("time,value\n1000,5\n", "a column 'value', but not all of tag, time and value"),
                      ("A,time\n5,1000\n", "has the time in column 2")):
        values, refused = read(folder, "", text)
        assert values == {} and len(refused) == 1 and why in refused[0][1], (text, refused)
    for text, why in (("A;1000;5\nB;1000;5\n", "1 fields, not 3: is `separator` in feed.toml right?"), ('A,1000,"5\n', "a quote is not closed"),
                      ("time,A,B\n1000,5\n\n2000,5\n", "2 fields, and the header has 3")):
        values, refused = read(folder, "", text)
        assert values == {} and len(refused) == 1 and refused[0][1].startswith(why), (text, refused)
    assert [number for number, _ in read(folder, "", "A,1000\nNOBODY,1000,5\n")[1]] == [1, 2]
    for quality_text in ("Bad", "", "0"):
        assert read(folder, "", "tag,time,value,quality\nA,1000,5,%s\n" % quality_text)[1][0][1].startswith("its quality is not good")
    assert "the base has no tag" in read(folder, "", "time,A,X\n1000,5,6\n")[1][0][1]
    assert "no such" not in str(read(folder, "", "time,A,X\n1000,5,\n")) and read(folder, "", "time,A,X\n1000,5,\n") == (good, [])


def sources_are_read(folder, program, options):
    """Zone, separator, decimal mark, form of the time, names of columns and tags, ignored columns, good qualities and lines before the header
    are those of the first source whose pattern fits."""
    if not zoneinfo.available_timezones():
        return "no time zones here: not tried"
    toml = ('[[source]]\npattern = "unit*.csv"\nseparator = ";"\ndecimal = ","\ntime = "%d.%m.%Y %H:%M:%S"\nskip = 2\n' + BERLIN +
            'columns = {time = "Zeit", tag = "Stelle", value = "Wert", quality = "Status"}\ntags = {"TI-1 (degC)" = "B"}\nignore = ["Notiz"]\n'
            'good = ["gut"]\n[[source]]\npattern = "*.csv"\ncolumns = ["time", "tag", "value", ""]\n')
    text = "a report\n# of today\nZeit;Stelle;Notiz;Wert;Status\n30.03.2024 10:00:00;TI-1 (degC);x;86,95;Gut\n30.03.2024 10:00:01;A;;7;schlecht\n"
    values, refused = read(folder, toml, text, "unit1.csv")
    assert values == {"B": [(1_711_789_200_000, 8695)]} and refused == [(5, "its quality is not good: 'schlecht'")], (values, refused)
    again = "tag;time;value;row;reason\nTI-1 (degC);30.03.2024 10:00:02;1;5;x\n"
    for name in ("unit1.csv", "again-unit1.csv"):
        assert read(folder, toml, again, name) == ({"B": [(1_711_789_202_000, 100)]}, [])
    assert read(folder, toml, "1000,A,5,more\n", "other.csv") == ({"A": [(1000, 5)]}, [])
    assert read(folder, toml, "A,1000,5\n", "no-room.csv") == ({"A": [(1000, 5)]}, [])
    wide = "a\nb\nZeit;TI-1 (degC);Notiz\n30.03.2024 10:00:00;86,95;hot\n"
    assert read(folder, toml, wide, "unit2.csv") == ({"B": [(1_711_789_200_000, 8695)]}, [])
    for header, why in (("Zeitt;Stelle;Wert;Status", "no column 'Zeit', which has the time"), ("Zeit;Stelle;Wert", "no column 'Status', which `columns`"),
                        ("Zeit;Stelle;Wertt;Status", "a column 'tag', but not all of tag, time and value")):
        values, refused = read(folder, toml, "a\nb\n%s\n30.03.2024 10:00:00;A;7;gut\n" % header, "unit2.csv")
        assert values == {} and len(refused) == 1 and why in refused[0][1], (header, refused)
    assert "no time of the form" in read(folder, toml, "a\nb\nZeit;A\n2024-03-30T10:00:00Z;1\n", "unit2.csv")[1][0][1]


WRONG = [('decimal = ","', "separator and decimal are both ',', so 5,1 could be one value or two"), ('separator = "1"', "no letter, digit, sign"),
         ('[[source]]\nseparator = ";"', "it needs a pattern of file names"), ('[[source]]\npattern = "*"\nseparater = ";"', "did you mean separator?"),
         ('[[source]]\npattern = "*"\nzone = "Mars/Base"', "this machine knows no zone 'Mars/Base'"), ('sauce = 1', "did you mean source?"),
         ('[[source]]\npattern = "*"\ncolumns = {times = "Zeit"}', "columns is a table of names in the header"),
         ('[[source]]\npattern = "*"\ncolumns = ["time", "value"]', "columns is a table of names in the header"),
         ('[[source]]\npattern = "*"\nfolder = "logs"', "folder goes with grows = true alone"), ('[tag."A"]\nscales = 10', "did you mean scale?"),
         ('[tag."A"]\nsilent_ms = 10', "silent_ms goes with it"), ('on_trouble = 7', "on_trouble is a command")]


def wrong_sources(folder, program, options):
    """Each wrong setting is named, and what it may mean; a tag that the base does not have too."""
    for text, why in WRONG:
        try:
            settings_of(folder, text + "\n")
            said = "taken"
        except Refusal as refusal:
            said = refusal.text
        assert why in said, (text, said)
    tags = {"FIC1": {}, "OK": {"step": True, "exc_dev": 0, "comp_dev": 0}, "NOK": {"step": True, "comp_dev": 1}}
    for text, why in (('[tag."FIC2"]\nscale = 10', "the base has no such tag; did you mean FIC1?"),
                      ('[[source]]\npattern = "*"\ntags = {x = "FIC3"}', "'x' is to be 'FIC3', and the base has no such tag; did you mean FIC1?"),
                      ('[tag."FIC1"]\nquality_tag = "KO"', "must be a step tag of the base"), ('[tag."FIC1"]\nquality_tag = "NOK"', "must be 0 in the base"),
                      ('[tag."FIC1"]\nquality_tag = "OK"\n[tag."NOK"]\nquality_tag = "OK"', "belongs to this tag alone")):
        try:
            settings.require_names(settings_of(folder, text + "\n"), tags)
            said = "taken"
        except Refusal as refusal:
            said = refusal.text
        assert why in said, (text, said)
    settings.require_names(settings_of(folder, '[tag."OLD"]\nscale = 10\n[tag."FIC1"]\nquality_tag = "OK"\n'), tags, ["OLD"])


FIRST = 1_729_987_200_000  # 2024-10-27 02:00 of the first hour in Berlin, 00:00 UTC; the second one begins an hour later
HOUR, MINUTE = 3_600_000, 60_000


def local(*minutes):
    """Rows of tag A at minutes behind 02:00 on that night's clock."""
    return "".join("A,2024-10-27T%02d:%02d:00,1\n" % (2 + minute // 60, minute % 60) for minute in minutes)


def autumn_night(folder, program, options):
    """Rows of a tag rise: where that tells which hour is meant, it decides; a time of which it does not is refused."""
    if not zoneinfo.available_timezones():
        return "no time zones here: not tried"
    cases = [(local(-10, 0, 30, 0, 30, 60), [-10, 0, 30, 60, 90, 120]), (local(50, 0, 10), [50, 60, 70]), (local(0, 0), [0, 60]),
             (local(-10, 0, 30, 70), [-10, 130]), (local(30, 10, 40, 20), []), (local(20), [])]
    for text, minutes in cases:
        values, refused = read(folder, BERLIN, text)
        got = [(t - FIRST) // MINUTE for t, _ in values.get("A", [])]
        assert got == minutes, (text, got)
        assert len(got) + len(refused) == text.count("\n") and all("shows this time twice" in why for _, why in refused), refused
    values, refused = read(folder, BERLIN, local(0, 20), latest=FIRST + 25 * MINUTE)  # the second hour is still to come
    assert [t for t, _ in values["A"]] == [FIRST, FIRST + 20 * MINUTE] and refused == []
    two = local(0, 30) + local(0, 30).replace("A,", "B,") + local(0, 40) + local(5).replace("A,", "B,")
    values, refused = read(folder, BERLIN, two)
    assert [(t - FIRST) // MINUTE for t, _ in values["A"]] == [0, 30, 60, 100] and refused == [], (values, refused)
    assert [(t - FIRST) // MINUTE for t, _ in values["B"]] == [0, 30, 65]
    assert "never shows this time" in read(folder, BERLIN, "A,2024-03-31T02:30:00,1\n")[1][0][1]


def autumn_night_of_a_growing_file(folder, program, options):
    """The lines of a growing file that come later are read as if all had come at once."""
    if not zoneinfo.available_timezones():
        return "no time zones here: not tried"
    plant, lines = settings_of(folder, BERLIN), [local(-10), local(0, 20), local(40), local(0), local(30), local(60)]
    place, times = None, []
    for number, text in enumerate(lines):
        clock = FIRST + [0, 21, 41, 61, 91, 121][number] * MINUTE
        intake = rows.Intake(plant, TAGS, clock)
        reader = rows.Reader(intake, plant.default, lambda *row: times.append(row), place)
        reader.read(text.encode())
        place = reader.place()
        times += [(t - FIRST) // MINUTE for t in intake.values.of("A")[0]]
    assert times == [-10, 0, 20, 40, 60, 90, 120], times


def quality_of_a_tag(folder, program, options):
    """A quality tag is 1 while values are good, and 0 where they are bad or silent; a silence that was none is taken back."""
    new = {"last": None, "good": None, "silent": None, "was": None}
    good = {"last": 20, "good": 1, "silent": None, "was": None}
    silent = quality.quality_rows(good, [], 30, 60)[1]
    assert silent == {"last": 20, "good": 0, "silent": 50, "was": 1}
    for before, events, silent_ms, now, wanted in [
            (new, [(10, 1), (20, 1), (30, 0), (40, 0), (50, 1)], None, 10**9, [(10, 1), (30, 0), (50, 1)]),
            (new, [(10, 1), (20, 1), (100, 1), (110, 1)], 30, 120, [(10, 1), (50, 0), (100, 1)]),
            (good, [], 30, 50, []), (good, [], 30, 51, [(50, 0)]), (silent, [], 30, 99, []), (silent, [(80, 1)], 30, 90, [(80, 1)]),
            (silent, [(30, 1), (40, 1)], 30, 60, [(50, 1)]), (silent, [(30, 0)], 30, 60, [(30, 0)]),
            (silent, [(30, 0), (40, 1)], 30, 60, [(30, 0), (40, 1), (50, 1)]), (good, [(15, 0), (20, 0)], None, 99, []),
            (good, [(30, 0), (30, 1)], None, 99, [(30, 0), (30, 1)])]:
        got = quality.quality_rows(before, events, silent_ms, now)[0]
        assert got == wanted, (before, events, got)


def late_rows_are_limited(folder, program, options):
    """Of a tag's late rows so many are taken as late_rows says, over all files of a turn; the others are put aside in their order."""
    plant = settings_of(folder, "late_rows = 2\n")
    intake = rows.Intake(plant, TAGS, LATEST, {"A": 100})
    for text in ("A,50,1\nA,101,2\nA,101,3\nA,99,4\n", "A,102,5\nA,1,6\nB,1,6\n"):
        rows.Reader(intake, plant.default, None).read(text.encode())
    assert list(zip(*intake.values.of("A"))) == [(50, 1), (101, 2), (101, 3), (102, 5)], intake.values.of("A")
    assert list(zip(*intake.over.of("A"))) == [(99, 4), (1, 6)] and list(intake.values.of("B")[1]) == [600]


def causes_have_no_text(folder, program, options):
    """Fields that are refused for the same cause have the same words for it, and a field is cut where it is shown."""
    whys = []
    for text in ("x" * 3_000_000, "soon"):
        try:
            fields.milliseconds(text, None)
        except fields.BadField as why:
            whys.append(why)
    assert whys[0].cause == whys[1].cause and len(str(whys[0])) < 200 and str(whys[1]).endswith(": 'soon'"), whys[1]


CASES = [headers, sources_are_read, wrong_sources, autumn_night, autumn_night_of_a_growing_file, quality_of_a_tag, late_rows_are_limited,
         causes_have_no_text]
