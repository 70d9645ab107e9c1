"""quality.py: step tags that show whether the values of a tag are good: 1 while they are, 0 where they are bad or silent.

A tag of the base has such a tag if feed.toml names it: `quality_tag = "TI-101.OK"`, and with `silent_ms` how long a tag may be silent.
What is known of each tag, its last time and what its quality tag says, stands in feed.d/quality. A row that is late for the tag leaves
its quality as it is: what was said of a time is not said anew. Only a silence that a later row shows to have been none is taken back."""
import json

from files import CHANGED, Refusal


def known_quality(plant):
    """What is known of each tag that has a quality tag: its last time, whether it is good (1, 0 or None), and the time at which its
    silence was said to begin, with what it was until then."""
    try:
        with open(plant.path("feed.d", "quality")) as text:
            return {str(name): dict(known) for name, known in json.load(text).items()}
    except FileNotFoundError:
        return {}
    except (ValueError, AttributeError, TypeError):
        raise Refusal(CHANGED, "feed.d/quality is damaged, and nothing was done. Put it back from the newest backup; or remove it, and the"
                      " quality tags go on with the next value.") from None


def add_quality(plant, intake, now, newest):
    """Adds to what a turn read what its quality tags have to say; answers what is known then of the tags for which that changed. `newest` has
    the newest time of each tag before the turn: of a tag that gets a quality tag now nothing is said up to then."""
    known, changed = known_quality(plant), {}
    for name, table in plant.settings.tag.items():
        if table.get("quality_tag") is None:
            continue
        events = [(t, 1) for t in intake.values.of(name)[0]] + [(t, 0) for t in intake.bad.get(name, ())]
        before = known.get(name, {"last": newest.get(name), "good": None, "silent": None, "was": None})
        rows, after = quality_rows(before, sorted(events), table.get("silent_ms"), now)
        for t, v in rows:
            intake.values.add(table["quality_tag"], t, v)
        if after != before:
            changed[name] = after
    return changed


def quality_rows(before, events, silent_ms, now):
    """The rows of a quality tag, and what is known after them. `events` are the times of good (1) and bad (0) values, in order; a bad one
    comes before a good one of the same time, which counts. `now` is the time by the clock: a tag may be silent up to then."""
    last, good, silent, was, rows = before["last"], before["good"], before["silent"], before.get("was"), []
    for t, is_good in events:
        if last is not None and t <= last and not (t == last and is_good > (good or 0)):
            continue
        if silent is not None and t <= silent:  # it was not silent after all
            rows += [(t, is_good)] * (is_good != was) + [(silent, 1)] * is_good
            last, was, good, silent = t, is_good, is_good, None if is_good else silent
            continue
        if silent is None and silent_ms and last is not None and good and t > last + silent_ms:
            rows.append((last + silent_ms, 0))
            good = 0
        if is_good != good:
            rows.append((t, is_good))
        last, good, silent = t, is_good, None
    if silent_ms and last is not None and good and silent is None and now > last + silent_ms:
        rows.append((last + silent_ms, 0))
        good, silent, was = 0, last + silent_ms, 1
    return rows, {"last": last, "good": good, "silent": silent, "was": was}
