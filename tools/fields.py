"""fields.py: times as milliseconds, decimals as whole values of tags; and back to ISO times and decimals.

A field that it cannot read is never guessed: it is a `BadField` that has the cause and the field's text."""
import datetime
import re
import zoneinfo
from decimal import ROUND_HALF_UP, Context, Decimal

from files import shown

MOST_TIME = 253_402_300_799_999
MOST_VALUE = 10**15
EPOCH = datetime.datetime(1970, 1, 1, tzinfo=datetime.timezone.utc)
MILLISECOND = datetime.timedelta(milliseconds=1)
NUMBER = re.compile(r"[+-]?(?:[0-9]+\.?[0-9]*|\.[0-9]+)(?:[eE][+-]?[0-9]{1,2})?")
EXACT = Context(prec=400)  # digits: more than a field of 64 characters with its exponent and a scale can have
OTHER_TIME = re.compile(r"[0-9]{1,4}[-./ ]([0-9]{1,2}|[A-Za-z]{3,9})[-./ ][0-9]{2,4}\b.*")


class BadField(Exception):
    """A field that is no time or no value: the cause, which many fields may share, and the field's text."""

    def __init__(self, cause, text=None):
        super().__init__(cause if text is None else "%s: '%s'" % (cause, shown(text)))
        self.cause = cause


def instants(text, zone, form=None):
    """The milliseconds since 1970 of a time: one number; or two, the earlier one first, if the clock of the zone shows this time twice.

    A time is ISO 8601, or a whole number, which is milliseconds already; or what the form for `strptime` says. What is finer than a
    millisecond is cut off. A time without an offset is taken in the zone, if there is one. A time that the zone's clock never shows,
    because it went forward, is refused."""
    if form is not None:
        try:
            moment = datetime.datetime.strptime(text, form)
        except ValueError:
            raise BadField("no time of the form '%s'" % form, text) from None
    elif text.isascii() and text.isdigit():
        if len(text) > 20:
            raise BadField("no time: it has %d digits" % len(text), text)
        return within_time(int(text), text),
    else:
        try:
            moment = datetime.datetime.fromisoformat(text)
        except (ValueError, OverflowError):
            hint = " (`time` of a source in feed.toml may say its form)" if OTHER_TIME.fullmatch(text) else ""
            raise BadField("no ISO time and no whole milliseconds" + hint, text) from None
    if moment.tzinfo is None:
        if zone is None:
            raise BadField("a time without an offset: set `zone` in feed.toml", text)
        moment = moment.replace(tzinfo=zoneinfo.ZoneInfo(zone))
        again = moment.replace(fold=1)
        if moment.utcoffset() != again.utcoffset():
            if moment.utcoffset() < again.utcoffset():
                raise BadField("the clock of %s goes forward there and never shows this time" % zone, text)
            return within_time((moment - EPOCH) // MILLISECOND, text), within_time((again - EPOCH) // MILLISECOND, text)
    return within_time((moment - EPOCH) // MILLISECOND, text),


def milliseconds(text, zone):
    """The milliseconds since 1970 of a time. One that the zone's clock shows twice is refused, because nobody can say which is meant."""
    found = instants(text, zone)
    if len(found) > 1:
        raise twice(text, zone)
    return found[0]


def twice(text, zone):
    """Why a time that the clock shows twice is not taken."""
    return BadField("the clock of %s shows this time twice, so it needs an offset" % zone, text)


def within_time(t, text):
    """The same time, if the program can store it."""
    if not 0 <= t <= MOST_TIME:
        raise BadField("a time before 1970 or after 9999", text)
    return t


def whole_value(text, scale, decimal="."):
    """A decimal times the scale, rounded half away from zero."""
    return value_and_rounding(text, scale, decimal)[0]


def value_and_rounding(text, scale, decimal="."):
    """A decimal times the scale, rounded half away from zero, and whether it was rounded: 7.00 is 7 exactly. Without a scale (None) what
    would have to be rounded is refused: a scale cannot be given any more once there are values."""
    plain = text if decimal == "." else text.replace(".", "?").replace(decimal, ".")
    if len(plain) > 64 or not NUMBER.fullmatch(plain):
        raise BadField("no number", text)
    exact = EXACT.multiply(Decimal(plain), scale or 1)
    whole = int(exact.to_integral_value(ROUND_HALF_UP))
    rounded = exact != whole
    if scale is None and rounded:
        raise BadField("a decimal, and no scale for this tag in feed.toml", text)
    if abs(whole) > MOST_VALUE:
        raise BadField("too large: times its scale it is more than 10^15", text)
    return whole, rounded


def decimal_text(value, scale):
    """A stored value as a person reads it: divided by the tag's scale. `whole_value` finds the same value again in this text."""
    digits = len(str(scale)) - 1
    if scale == 10**digits:
        whole, part = divmod(abs(value), scale)
        return "%s%d%s" % ("-" if value < 0 else "", whole, ".%0*d" % (digits, part) if digits else "")
    return repr(value / scale).removesuffix(".0")


def iso_text(t, zone):
    """A stored time as a person reads it: ISO 8601, with the zone's offset, or Z without a zone."""
    moment = EPOCH + t * MILLISECOND
    if zone and t < MOST_TIME - 86_400_000:
        return moment.astimezone(zoneinfo.ZoneInfo(zone)).isoformat(timespec="milliseconds")
    return moment.replace(tzinfo=None).isoformat(timespec="milliseconds") + "Z"
