"""lost.py: tests of devices that are missing though they had events: --seal refuses them, and --anew begins them anew."""
import os
import re
import shutil

from trial import Trial, base_text, check_same, two_blocks

TAGS = ("LIC4.PV", "FIC1.PV")


def state_of(trial):
    """What stands in the folders that --seal and --anew may change."""
    found = {}
    for folder in ("historian.d", "feed.d"):
        for name in sorted(os.listdir(trial.path(folder))):
            if name != "feed.lock":
                with open(trial.path(folder, name), "rb") as data:
                    found[folder + "/" + name] = data.read()
    return found


def refused(trial, *asked):
    """What feed.py says as it refuses and changes nothing."""
    before = state_of(trial)
    status, text = trial.feed(*asked)
    assert status == 21 and state_of(trial) == before, (status, text)
    return text


def missing_device_is_not_sealed(folder, program, settings):
    """--seal refuses a device that is missing or emptied though it had events, says where a copy stands, and changes nothing. Once the
    device is back, all goes on."""
    trial, wanted = two_blocks(folder, program)
    copy, device = trial.fed("--backup").strip(), trial.path("historian.d/LIC4.PV.tag")
    good = os.path.join(trial.path(copy), "historian.d/LIC4.PV.tag")
    os.remove(device)
    text = refused(trial, "--seal")
    assert "historian.d/LIC4.PV.tag is missing, and had 60 events when it was sealed.\n" in text, text
    assert "If you have it elsewhere, put it back. The bytes of the last turn stand in %s/historian.d/LIC4.PV.tag" % copy in text, text
    assert "If the tag is to begin anew, empty: feed.py --anew LIC4.PV.\n" in text and text.count("historian.d/") == 2, text
    for data in (b"", b"\xa5", b"\0" * 600):
        with open(device, "wb") as out:
            out.write(data)
        assert "historian.d/LIC4.PV.tag does not begin as a device, and had 60 events" in refused(trial, "--seal")
    shutil.copy(good, device)
    assert "9 devices are sealed as they stand" in trial.fed("--seal")
    trial.fed()
    check_same(trial.answers(), wanted, "after a device was put back")


def missing_device_without_seals(folder, program, settings):
    """Without seals, or with damaged ones, feed.d/scales says which tags had values; of values that were stored by hand the seals alone do.
    The device of a tag that had none may go."""
    trial = Trial(os.path.join(folder, "a"), program)
    trial.write("inbox/x.csv", "LIC4.PV,1000,5\nFIC1.PV,1000,5\n")
    trial.fed()
    good = trial.read("feed.d/seals")
    os.rename(trial.path("historian.d/LIC4.PV.tag"), trial.path("moved.tag"))
    os.remove(trial.path("historian.d/XV7.ZSO.tag"))  # which had no events
    for seals in (good.replace("  historian.d/FIC2", " !historian.d/FIC2", 1), None):
        os.remove(trial.path("feed.d/seals")) if seals is None else trial.write("feed.d/seals", seals)
        text = refused(trial, "--seal")
        assert "LIC4.PV.tag is missing, and by feed.d/scales values were stored in it.\n    Put it back; if" in text, text
        assert "XV7" not in text and "FIC1" not in text, text
    os.rename(trial.path("moved.tag"), trial.path("historian.d/LIC4.PV.tag"))
    assert " devices are sealed as they stand" in trial.fed("--seal")
    trial.write("inbox/y.csv", "LIC4.PV,2000,5\n")
    assert "1 values of 1 tags stored, 0 refused" in trial.fed() and "taken=2" in trial.tool("ask.py", "snap,LIC4.PV")[1]
    hand = Trial(os.path.join(folder, "hand"), program)
    hand.store_by_hand([(1000, "LIC4.PV", 5)])
    hand.fed("--seal")
    os.remove(hand.path("historian.d/LIC4.PV.tag"))
    assert "LIC4.PV.tag is missing, and had 1 events when it was sealed" in refused(hand, "--seal")


def tags_of_either_base(folder, program, settings):
    """A missing device is refused if its tag is in the base of the last feed or in base.toml. That of a tag in neither may go, and is
    refused once base.toml has the tag again."""
    trial = Trial(os.path.join(folder, "a"), program)
    trial.write("inbox/x.csv", "LIC4.PV,1000,5\nFIC1.PV,1000,5\n")
    trial.fed()
    device, moved = trial.path("historian.d/LIC4.PV.tag"), trial.path("moved.tag")
    trial.write("base.toml", base_text(names=("FIC1.PV", "TIC3.PV", "FIC2.PV")))
    os.rename(device, moved)
    assert "LIC4.PV.tag is missing, and had 1 events when it was sealed" in refused(trial, "--seal")
    os.rename(moved, device)
    assert "the edited base.toml is taken over" in trial.fed()
    os.rename(device, moved)
    text = trial.fed("--seal")
    assert "historian.d/LIC4.PV.tag is missing\n" in text and "devices are sealed" in text, text
    trial.write("base.toml", base_text())
    assert "LIC4.PV.tag is missing, and by feed.d/scales values were stored in it" in refused(trial, "--seal")


def tags_begin_anew(folder, program, settings):
    """--anew begins tags anew, empty, once their devices and those of the groups over them are moved away; the other tags keep what they
    have, the seals fit, and the next feed fills the empty tags, also with another scale."""
    trial, _ = two_blocks(folder, program)
    group = trial.path("historian.d/unit.grp")
    text = refused(trial, "--anew", "LIC4.PV", "--anew", "FIC1.PV")
    for name in ("LIC4.PV.tag", "FIC1.PV.tag", "unit.grp"):
        assert "first move away what stands there" in text and "historian.d/" + name in text, text
    assert trial.feed("--anew", "NOBODY")[0] == 22 and "has no tag NOBODY" in trial.feed("--anew", "NOBODY")[1]
    for name in TAGS:
        os.rename(trial.path("historian.d/%s.tag" % name), trial.path(name))
    assert "historian.d/unit.grp" in refused(trial, "--anew", "LIC4.PV", "--anew", "FIC1.PV")
    text = refused(trial, "--anew", "LIC4.PV")
    assert "missing as well: historian.d/FIC1.PV.tag. Put them back; or," in text and "--anew FIC1.PV --anew LIC4.PV" in text, text
    os.remove(group)
    with open(trial.path("historian.d/XV7.ZSO.tag"), "r+b") as out:
        good = out.read(402)
        out.seek(401)
        out.write(b"Q")
    assert "XV7.ZSO.tag is not as the last turn left it" in refused(trial, "--anew", "LIC4.PV", "--anew", "FIC1.PV")
    with open(trial.path("historian.d/XV7.ZSO.tag"), "r+b") as out:
        out.write(good)
    others = lines_of(trial, "FIC2.PV", "XV7.ZSO")
    text = trial.fed("--anew", "LIC4.PV", "--anew", "FIC1.PV")
    assert "LIC4.PV, FIC1.PV: begun anew, empty; 8 devices are sealed" in text, text
    assert "8 devices, each as the last turn left it" in trial.fed("--verify")
    for name in TAGS:
        assert "taken=0" in trial.tool("ask.py", "snap," + name)[1]
    assert lines_of(trial, "FIC2.PV", "XV7.ZSO") == others
    for name in os.listdir(trial.path("inbox")):
        os.remove(trial.path("inbox", name))
    trial.write("feed.toml", trial.read("feed.toml").replace('[tag."LIC4.PV"]\nscale = 1\n', '[tag."LIC4.PV"]\nscale = 10\n'))
    trial.write("inbox/x.csv", "LIC4.PV,1000,5.5\n")
    trial.fed()
    assert re.search(r"tag LIC4.PV taken=1 .* late=0 held=1000,55\n", trial.by_hand("check", "base.toml"))
    assert "9 devices, each as" in trial.fed("--verify")


def lines_of(trial, *names):
    """What the tags' seals say."""
    text = trial.read("feed.d/seals")
    return {name: [line for line in text.splitlines() if line.endswith("/%s.tag" % name)] for name in names}


CASES = [missing_device_is_not_sealed, missing_device_without_seals, tags_of_either_base, tags_begin_anew]
