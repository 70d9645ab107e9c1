"""tunings.py: which tuning was in force for which part of a tag's archive.

A device has the tuning with which it was made and the one in force now. So the feeder notes in feed.d/tunings each tuning that it puts in
force, with the time of the newest value sent before: what comes later is stored with that tuning. The board's band and the audit need
it, because the promise goes by the tuning in force when the right end of a span came."""
import json

from compression import Tuning
from devices import TUNING
from plant import CHANGED, Refusal, write_whole

NOTES = ("feed.d", "tunings")
NEVER = -1  # before each time: the tuning is that of the tag's first value on


def noted_tunings(plant):
    """Of each tag the tunings that were noted: after which time, in milliseconds, and the tuning; the oldest first."""
    try:
        with open(plant.path(*NOTES)) as text:
            return {str(name): [(int(note[0]), Tuning(*map(int, note[1:]))) for note in notes] for name, notes in json.load(text).items()}
    except FileNotFoundError:
        return {}
    except (ValueError, TypeError, IndexError, AttributeError):
        raise Refusal(CHANGED, "feed.d/tunings is damaged, and nothing was done. Put it back from the newest backup.") from None


def note_tunings(plant, tags, state):
    """Notes the tunings of a base that was just put in force; `state` has the tag lines of `check` after that. Done again after a stop, it
    notes nothing twice."""
    notes = noted_tunings(plant)
    for name, definition in tags.items():
        tuning, own = Tuning(*(definition[key] for key in TUNING)), notes.setdefault(name, [])
        if not own or own[-1][1] != tuning:
            held = state[name].held
            own.append((held[0] if held else NEVER, tuning))
    text = json.dumps({name: [(after, *tuning) for after, tuning in own] for name, own in notes.items()}, indent=None)
    write_whole(plant.path(*NOTES), text.replace("]], ", "]],\n").encode())


def widest(*tunings):
    """A tuning that promises no more than each of these does."""
    return Tuning(*map(max, zip(*tunings)))


def stretches(device, notes):
    """After which time which tuning was in force, the oldest first. What nobody noted is taken as the widest of those around it."""
    made, now = device.made, device.state.tuning
    if not notes or notes[-1][1] != now:
        return [(NEVER, made if not notes and made == now else widest(made, now, *(tuning for _, tuning in notes)))]
    first = notes[0]
    return ([] if first[0] == NEVER else [(NEVER, widest(made, first[1]))]) + list(notes)


def tuning_at(device, notes):
    """A function: the tuning in force when the value in order at a time came."""
    parts = stretches(device, notes)
    if len(parts) == 1:
        return lambda t: parts[0][1]
    return lambda t: [tuning for after, tuning in parts if after < t][-1]
