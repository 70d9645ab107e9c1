"""accept.py: how a person accepts devices that are not as the last turn left them: feed.py --seal, and --anew for a tag whose device is
gone.

A device that is missing is never accepted if its tag is in the base and had events: the next question or feed would have the program
make it anew, empty, and nothing would show that there had been values. Nor is one that does not begin as a device."""
import json
import os

from devices import begins
from files import BUSY, CHANGED, UNREADABLE, Refusal, write_whole
from seals import SHOWN, copy_of, counted, differences, require_sealed, seal, sealed, sealed_events
from turns import stored_scales


def sealed_anew(plant):
    """Seals the devices as they stand. Says what is not as it was sealed, and how many values were stored meanwhile."""
    require_none_lost(plant)
    os.makedirs(plant.path("feed.d"), exist_ok=True)
    lines, before = [], known_events(plant)
    try:
        found = differences(plant)
    except Refusal:  # the seals are damaged themselves
        found = {}
    seal(plant)
    after = sealed_events(plant)
    for name, what in found.items():
        lines.append("%s %s" % (name, what))
        if name in after:
            lines.append("  it has %d events now, and had %d" % (after[name], before.get(name, 0)))
    return "\n".join(lines + ["%s are sealed as they stand" % counted(plant)])


def known_events(plant):
    """How many events each tag's device had when it was sealed, by the device's name; none if the seals are missing or damaged."""
    try:
        return sealed_events(plant)
    except Refusal:
        return {}


def lost(plant):
    """Of each tag of the base whose device is gone, though the seals or feed.d/scales say that it had events: what they say."""
    events, scales, found = known_events(plant), stored_scales(plant), {}
    for name in tags_in_use(plant):
        device = device_of(name)
        if begins(plant.path(device)) or not events.get(device) and name not in scales:
            continue
        what = "does not begin as a device" if os.path.lexists(plant.path(device)) else "is missing"
        found[name] = what + (", and had %d events when it was sealed" % events[device] if events.get(device) else
                              ", and by feed.d/scales values were stored in it")
    return found


def device_of(name):
    """The device of a tag, from the plant's folder."""
    return "historian.d/%s.tag" % name


def tags_in_use(plant):
    """The tags of the base of the last feed, and those of base.toml, which the next one takes over."""
    bases = [name for name in ("feed.d/base.toml", "base.toml") if os.path.exists(plant.path(name))]
    return sorted({tag for name in bases for tag in plant.base(name)[0]})


def require_none_lost(plant):
    """Ends with a refusal if the device of a tag is gone that had events."""
    lines = []
    for name, what in lost(plant).items():
        lines.append("%s %s.\n    %s\n    If the tag is to begin anew, empty: feed.py --anew %s." % (
            device_of(name), what, where_to_find(plant, device_of(name)), name))
    if lines:
        lines[SHOWN:] = ["and %d more" % (len(lines) - SHOWN)] if len(lines) > SHOWN else []
        why = "nothing was sealed, because the program would begin these devices anew, empty, or refuse them:"
        raise Refusal(CHANGED, "\n  ".join([why] + lines))


def where_to_find(plant, device):
    """What a person does to have a device back."""
    try:
        sha = sealed(plant)[device]
    except (Refusal, KeyError, TypeError):  # damaged seals, none of this device, none at all
        return "Put it back; if you have it no more, put the whole plant back from a backup: feed.py --restore last."
    return "If you have it elsewhere, put it back. " + copy_of(plant, device, sha)


def begun_anew(plant, names):
    """Has the program make the devices of tags anew, empty, that are gone, and seals them. All other devices have to be as they were
    sealed. A stop before the end leaves the seals as they were, so the next feed refuses, and --seal accepts the empty devices."""
    if os.path.exists(plant.path("feed.d", "base.new.toml")):
        raise Refusal(BUSY, "the feeder was stopped while it took an edited base.toml over: run feed.py first")
    base = plant.fed_base()
    require_gone(plant, names, *plant.base(base))
    require_sealed(plant, [device_of(name) for name in names])
    plant.call("check", base)
    scales = {tag: scale for tag, scale in stored_scales(plant).items() if tag not in names}
    write_whole(plant.path("feed.d", "scales"), json.dumps(scales, indent=1).encode())
    seal(plant)
    return "%s: begun anew, empty; %s are sealed" % (", ".join(names), counted(plant))


def require_gone(plant, names, tags, groups):
    """Ends with a refusal unless just the devices of these tags are gone, and those of the groups over them, whose rows would be wrong."""
    strange = [name for name in names if name not in tags]
    if strange:
        raise Refusal(UNREADABLE, "the base of the last feed has no tag %s; it has %s" % (strange[0], ", ".join(tags)))
    files = [device_of(name) for name in names] + ["historian.d/%s.grp" % group for group, made in groups.items()
                                                   if set(names) & set(made["tags"])]
    there = [file for file in files if os.path.lexists(plant.path(file))]
    if there:
        raise Refusal(CHANGED, "nothing was done: to begin %s anew, first move away what stands there, and keep it: %s. (The rows of a"
                      " group are made anew. If a feed.py --anew was stopped, these are the empty devices that it made: then feed.py"
                      " --seal accepts them.)" % (", ".join(names), ", ".join(there)))
    gone = lost(plant)
    unused = [name for name in names if name not in gone]
    if unused:
        raise Refusal(UNREADABLE, "nothing was done: nothing says that %s had events, so the next feed makes its device" % unused[0])
    others = [device_of(name) for name in gone if name not in names]
    if others:
        raise Refusal(CHANGED, "nothing was done: missing as well: %s. Put them back; or, to begin all of them anew: feed.py %s" % (
            ", ".join(others), " ".join("--anew " + name for name in gone)))
