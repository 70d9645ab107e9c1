"""bases.py: what is wrong in a base, in words: which tag or group, which attribute, and what belongs there.

The program answers with the number of a rule (docs/FORMATS.md, The base of a plant). This looks at the same rules in the same order, but
for formulas, of which the program names the place itself."""
import re

from fields import MOST_TIME, MOST_VALUE
from files import Refusal, nearest, read_toml, shown

DEVIATIONS, TIMES = ("exc_dev", "comp_dev"), ("exc_max", "comp_min", "comp_max")
TAG_KEYS, GROUP_KEYS = {"name", *DEVIATIONS, *TIMES}, {"name", "tags", "start", "period", "calc"}
OPTIONAL = {"step", "descriptor", "engunits"}
NAME = re.compile(r"[A-Za-z0-9_.-]{1,64}")
UNITS = ", in stored units: of a tag with engunits = \"0.01 degC\", 0.6 degC is 60"


def wrong_in(path):
    """What is wrong first in a base, or an empty text if nothing is but perhaps a formula."""
    try:
        text = read_toml(path)
    except Refusal as why:
        return "(%s)" % why.text
    for key in text:
        if key not in ("tag", "group"):
            return "%r stands in it, and a base has [[tag]] and [[group]] tables alone" % key
    for key in ("tag", "group"):
        if type(text.get(key, [])) is not list or any(type(table) is not dict for table in text.get(key, [])):
            return "%s tables are written [[%s]]" % (key, key)
    if not text.get("tag"):
        return "it has no [[tag]] table"
    return first_wrong("tag", text["tag"], wrong_in_tag) or first_wrong("group", text.get("group", []), lambda group: wrong_in_group(
        group, {tag["name"]: tag for tag in text["tag"]}))


def first_wrong(kind, tables, wrong):
    """What is wrong first in tables of a kind."""
    names = set()
    for place, table in enumerate(tables, 1):
        name = table.get("name")
        what = wrong(table) or ("its name stands twice" if name in names else "")
        if what:
            return "(%s %s): %s" % (kind, shown(name) if type(name) is str else "number %d" % place, what)
        names.add(name)
    return ""


def wrong_keys(table, wanted, optional=()):
    """Which key is missing in a table, or should not be there."""
    missing = sorted(wanted - set(table))
    strange = sorted(set(table) - wanted - set(optional))
    if missing:
        return "%s is missing%s" % (missing[0], "; is %s misspelt?" % shown(strange[0]) if strange else "")
    known = sorted(wanted | set(optional))
    return "nothing is called %s%s; there are %s" % (shown(strange[0]), nearest(strange[0], known), ", ".join(known)) if strange else ""


def wrong_name(name):
    """What is wrong with a name."""
    good = type(name) is str and NAME.fullmatch(name)
    return "" if good else "name = %r is no name: 1 to 64 of the characters A-Z a-z 0-9 _ . -" % (name,)


def wrong_number(table, key, most, about=""):
    """What is wrong with a whole number from 0 on."""
    value = table[key]
    good = type(value) is int and 0 <= value <= most
    return "" if good else "%s = %s is no whole number from 0 to %d%s" % (key, value, most, about)


def wrong_in_tag(tag):
    """What is wrong in a tag."""
    texts = [key for key in ("descriptor", "engunits") if type(tag.get(key, "")) is not str]
    found = [wrong_keys(tag, TAG_KEYS, OPTIONAL)]
    if not found[0]:
        found += ["%s is a text in quotes" % key for key in texts] + [wrong_name(tag["name"])]
        found += [wrong_number(tag, key, MOST_VALUE, UNITS) for key in DEVIATIONS]
        found += [wrong_number(tag, key, MOST_TIME, ", in milliseconds") for key in TIMES]
        found.append("" if type(tag.get("step", False)) is bool else "step = %s is neither true nor false" % tag["step"])
    return next(filter(None, found), "")


def wrong_in_group(group, tags):
    """What is wrong in a group, but for its formulas."""
    found = [wrong_keys(group, GROUP_KEYS)]
    if found[0]:
        return found[0]
    found.append(wrong_name(group["name"]))
    names, calculations = group["tags"], group["calc"]
    if type(names) is not list or not 1 <= len(names) <= 64 or any(type(name) is not str for name in names):
        return "tags is a list of 1 to 64 names of tags"
    for place, name in enumerate(names):
        what = "no tag has that name" if name not in tags else "a group takes no step tag" if tags[name].get("step") else \
            "it stands there twice" if name in names[:place] else ""
        found.append(what and "tags has %s: %s" % (shown(name), what))
    found.append(wrong_number(group, "start", MOST_TIME, ", in milliseconds"))
    found.append(wrong_number(group, "period", 10**12, ", in milliseconds") or ("period is 0" if group["period"] == 0 else ""))
    if type(calculations) is not list or not calculations or any(type(table) is not dict for table in calculations):
        return next(filter(None, found), "calculations are written [[group.calc]], and there is at least one")
    found.append(first_wrong("calculation", calculations,
                             lambda table: wrong_keys(table, {"name", "formula"}) or wrong_name(table["name"])))
    return next(filter(None, found), "")
