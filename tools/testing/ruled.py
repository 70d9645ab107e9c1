"""ruled.py: a test of compression.py, by whose rules the audit and the board read a lane: random samples, and what the program makes of them."""
import random
import tomllib

from compression import KEPT, LATE, State, Tuning
from device_reader import content, read_device
from devices import TUNING
from trial import Trial

MOST = 10**15  # a value, and a deviation
SHAPES = (lambda draw, v: v + draw.randint(-4, 4), lambda draw, v: v + draw.choice((0, 0, 0, 9, -9)), lambda draw, v: draw.randint(-MOST, MOST),
          lambda draw, v: draw.choice((0, 3, 8)), lambda draw, v: v + 2, lambda draw, v: draw.choice((-MOST, v, MOST)))


def random_base(draw, names, before=None):
    """A text of a base: each tag with a random tuning, every third one of steps. With `before`, the tuning of a third of the tags stays."""
    tags = {}
    for place, name in enumerate(names):
        near, far = (0, 1, 3, 8, MOST), (0, 1, 20, 100, 1_000, 10**12)
        tags[name] = before[name] if before and draw.random() < 0.3 else {
            "exc_dev": draw.choice(near), "exc_max": draw.choice(far), "comp_dev": draw.choice(near), "comp_min": draw.choice((0, 0, 5, 30, 10**12)),
            "comp_max": draw.choice(far), "step": place % 3 == 0}
    return tags, "".join('[[tag]]\nname = "%s"\n%s\n' % (name, "\n".join("%s = %s" % (key, str(number).lower()) for key, number in tag.items()))
                         for name, tag in tags.items())


def sample(draw, t, v):
    """Random values of a tag that go on from a point: some come late, at a time of their own or at one that was there."""
    shape, rows = draw.choice(SHAPES), []
    for _ in range(draw.choice((0, 1, 2, 20, 110))):
        t, v = t + draw.choice((1, 1, 2, 7, 60, 5_000)), max(-MOST, min(MOST, shape(draw, v)))
        back = draw.choice((0, draw.randint(1, 60), t - rows[len(rows) // 2][0])) if rows and draw.random() < 0.06 else None
        rows.append((t if back is None else max(0, t - back), v))
    return rows, t, v


def tuning_of(tag):
    return Tuning(*(tag[key] for key in TUNING))


def check_line(name, state):
    """What `check` prints of a tag with this state."""
    kinds = [kind for kind, _, _ in state.new]
    held = "%d,%d" % state.held if state.held else "none"
    return "tag %s taken=%d records=%d kept=%d late=%d held=%s" % (name, state.taken, len(kinds), kinds.count(KEPT), kinds.count(LATE), held)


def points_line(state):
    """What `points` replies of all times, by the rule of a content: at each time the last late value, else the kept one, else the held one."""
    points = dict([state.held] if state.held else [])
    points.update((t, v) for kind, t, v in state.new if kind == KEPT)
    points.update((t, v) for kind, t, v in state.new if kind == LATE)
    return " ".join(["%d,%d" % point for point in sorted(points.items())] + ["end"])


def asked_of(trial, names):
    """The lines of `check`, and the replies to `points` of all times, for each tag."""
    trial.write("ask.csv", "".join("points,%s,0,253402300799999\n" % name for name in names))
    trial.write("ask.toml", '[[reader]]\nfile = "ask.csv"\n')
    replies = [line.split(" ", 3)[3] for line in trial.by_hand("trend", "base.toml", "ask.toml").splitlines() if line.startswith("reply ")]
    return trial.by_hand("check", "base.toml").splitlines(), replies


def require_read(trial, name, state):
    """Fails unless the device's bytes, read by FORMATS, have the records and points of a state."""
    device = read_device(trial.path("historian.d", name + ".tag"), name)
    times, values, _ = content(device) if state.new else ((), (), ())
    assert device.all_records()[0] == "".join(kind for kind, _, _ in state.new), name
    assert " ".join(["%d,%d" % point for point in zip(times, values)] + ["end"]) == points_line(state), name
    assert [getattr(device.state, key) for key in STATE] == [getattr(state, key) for key in STATE], name


STATE = ("taken", "tuning", "held", "pending", "hinge", "upper", "lower")


def rules_of_the_program(folder, program, settings):
    """Of 450 random samples with random tunings (15,000 in the long form), in three runs with retunings between them, compression.py makes the records, the
    held value and the points that the program prints, and those that its devices have."""
    for seed in range(5 if settings.long else 1):
        draw, names = random.Random(settings.seed + seed), ["T%d" % place for place in range(1_000 if settings.long else 150)]
        trial, states, ends, tags = Trial("%s/%d" % (folder, seed), program), {}, {}, None
        for _ in range(3):
            tags, text = random_base(draw, names, tags)
            trial.write("base.toml", text)
            assert {tag["name"]: tag for tag in tomllib.loads(text)["tag"]} == {name: tag | {"name": name} for name, tag in tags.items()}
            rows = []
            for name, tag in tags.items():
                state = states.setdefault(name, State(tuning_of(tag), tag["step"]))
                if state.tuning != tuning_of(tag):
                    state.retune(tuning_of(tag))
                values, *ends[name] = sample(draw, *ends.get(name, (1_000, 0)))
                for t, v in values:
                    state.take(t, v)
                rows += [(t, name, v) for t, v in values]
            trial.store_by_hand(rows)
            lines, replies = asked_of(trial, names)
            for name, line, reply in zip(names, lines, replies, strict=True):
                assert (line, reply) == (check_line(name, states[name]), points_line(states[name])), (seed, name, tags[name], line, reply)
                require_read(trial, name, states[name])
        kinds = [kind for state in states.values() for kind, _, _ in state.new]
        assert kinds.count(LATE) > len(names) and kinds.count(KEPT) > 10 * len(names) and any(state.passed for state in states.values())


CASES = [rules_of_the_program]
