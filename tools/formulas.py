"""formulas.py: in which units a group's calculations are.

A calculation computes with stored values: `avg('TIC201.PV')` of a tag with scale 100 and the unit degC is in hundredths of a degree. From
its formula this finds by what its value has to be divided, and the unit. The rules are those of dimensions: a sum has the scale of its
parts, a product the product of theirs, a comparison is 1 or 0. A number in a formula is taken as it stands, in stored units. Where the
parts of a sum have different scales the formula mixes them, and its value stays as it is, in stored units."""
import ast
import fractions
import re

TOKEN = re.compile(r"'[^']*'|[a-z]+|[0-9]+|<=|>=|<>|[^\s]")
WORDS = {"<>": "!=", "=": "==", "if": "if_"}


class Quantity:
    """By what a value is divided to be in a person's units, and the unit. The scale None is a number, which has any scale."""

    def __init__(self, scale, unit=""):
        self.scale, self.unit = scale, unit


class Mixed(Exception):
    """The parts of a sum have different scales."""


def quantity_of(formula, tags, calculations):
    """The quantity that a formula computes; None if it mixes scales. `tags` answers the quantity of a tag by its name, `calculations` has
    those of the earlier calculations."""
    try:
        found = quantity(ast.parse(as_python(formula), mode="eval").body, tags, calculations)
    except (Mixed, SyntaxError, KeyError):
        return None
    return Quantity(fractions.Fraction(1)) if found.scale is None else found


def as_python(formula):
    """A formula as Python would write it, so that Python's own parser reads it."""
    return " ".join(WORDS.get(token, token.lstrip("0") or "0" if token.isdigit() else token) for token in TOKEN.findall(formula))


def quantity(node, tags, calculations):
    """The quantity of a part of a formula."""
    parts = [quantity(part, tags, calculations) for part in parts_of(node)]
    if isinstance(node, ast.Constant):
        return Quantity(None)
    if isinstance(node, ast.Compare):
        same(parts)
        return Quantity(fractions.Fraction(1))
    if isinstance(node, ast.UnaryOp):
        return parts[0]
    if isinstance(node, ast.BinOp):
        return multiplied(node.op, *parts) if isinstance(node.op, (ast.Mult, ast.Div)) else same(parts)
    return called(node.func.id, node.args, parts, tags, calculations)


def parts_of(node):
    """The parts of which a formula's node is made."""
    if isinstance(node, ast.Compare):
        return [node.left, *node.comparators]
    if isinstance(node, ast.BinOp):
        return [node.left, node.right]
    if isinstance(node, ast.UnaryOp):
        return [node.operand]
    return [part for part in getattr(node, "args", ()) if not (isinstance(part, ast.Constant) and isinstance(part.value, str))]


def called(word, arguments, parts, tags, calculations):
    """The quantity of a word with its arguments: a measure of a tag, an earlier calculation, or abs, min, max, if."""
    if word == "if_":
        return same(parts[1:])
    if word in ("abs", "min", "max"):
        return same(parts)
    name = arguments[0].value
    if word == "calc":
        if calculations[name] is None:
            raise Mixed
        return calculations[name]
    if word == "count":
        return Quantity(fractions.Fraction(1))
    tag = tags(name)
    return Quantity(tag.scale, total_unit(tag.unit)) if word == "total" else tag


def same(parts):
    """The quantity of parts that are added or compared."""
    scales = {part.scale for part in parts} - {None}
    if len(scales) > 1:
        raise Mixed
    units = {part.unit for part in parts if part.scale is not None}
    return Quantity(scales.pop() if scales else None, units.pop() if len(units) == 1 else "")


def multiplied(sign, left, right):
    """The quantity of a product or a quotient. With a number as a factor nobody can say the unit: it may be a conversion."""
    if left.scale is None and right.scale is None:
        return Quantity(None)
    scales = [part.scale or fractions.Fraction(1) for part in (left, right)]
    scale = scales[0] * scales[1] if isinstance(sign, ast.Mult) else scales[0] / scales[1]
    if None in (left.scale, right.scale) or not left.unit or not right.unit:
        return Quantity(scale)
    if isinstance(sign, ast.Mult):
        return Quantity(scale, "%s*%s" % (left.unit, right.unit))
    return Quantity(scale, "" if left.unit == right.unit else "%s/(%s)" % (left.unit, right.unit))


def total_unit(unit):
    """The unit of value times seconds."""
    return unit + "*s" if unit else ""


PER = {"s": 1, "min": 60, "h": 3600, "d": 86_400}  # seconds


def total_over(unit, divisor):
    """The unit of a total that is divided by the seconds of `h`, `min`, `s` or `d`: m3 of m3/h over h. Of a plain number nobody can say."""
    if divisor in PER and unit.endswith("/" + divisor):
        return unit[:-len(divisor) - 1]
    return "%s*%s" % (unit, divisor) if divisor in PER and unit else ""
