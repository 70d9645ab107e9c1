"""picture.py: how a picture of tags is drawn: a panel for each tag, axes with round ticks, legends, lines and bands, bars, as SVG text.

It knows nothing of the archive: draw.py gives it trends. A trend has these attributes: `title`, `unit`, `scale`, `step`; `line` with the
corners of the archive's line, `points` with the archive's points in the picture, `held`, and `late` with the times of late ones; `columns`
in place of these where points are dense, each with its time, the lowest, the highest and the mean value; `values`, all those of the line in
the picture; `raw` values; `narrow` and `wide`, how far the bands go; `limit` as value and text, or None; `silent` spans of time; and
`words` for where there is no value."""
import math
from fields import MOST_TIME
from xml.sax.saxutils import escape

from clock import DAY, HOUR, MINUTE, local, offset, offset_text
from lettering import cut, width_of

WIDTH, LEFT, RIGHT, TITLE, BAR = 900, 84, 24, 30, 14
ONE, MANY = 300, 170  # how high the panel of one tag is, and each of several
EDGE, GAP = 4, 8      # of texts: room at an edge of the picture, and between two
NEAR, ARM, RAW_WIDTH = 9, 5, 3.5  # of raw values: a column so near has another one beside it; half a cross; how wide a bar is
TIME_STEPS = [n * 1000 for n in (1, 2, 5, 10, 15, 30)] + [n * MINUTE for n in (1, 2, 5, 10, 15, 30)] + [
    n * HOUR for n in (1, 2, 3, 6, 12)] + [n * DAY for n in (1, 2, 5, 10, 20, 50, 100, 200, 500)]
LINE, SPAN, BAND, WIDE_BAND = "#b03020", "#e0988e", "#b5d0ea", "#dbe9f6"
RAW, CROSS, AMBER, LIMIT, GRID, GREY, DARK = "#909090", "#444", "#e8c66a", "#7a3fa0", "#e4e4e4", "#666", "#444"
HATCH = ('<pattern id="h" width="6" height="6" patternUnits="userSpaceOnUse" patternTransform="rotate(45)"><path d="M0,0v6" stroke="#999"'
         ' stroke-width="2"/></pattern>')


class Times:
    """Where times stand in a picture."""

    def __init__(self, first, last):
        self.first, self.last = first, last

    def x(self, t):
        return LEFT + (WIDTH - LEFT - RIGHT) * (t - self.first) / (self.last - self.first)

    def shows(self, t):
        return self.first <= t <= self.last


class Panel:
    """Where the values of a trend stand in a picture: below its title and its legend, from `top` on."""

    def __init__(self, times, trend, above, height):
        self.times, self.trend, self.height, self.above = times, trend, height, above
        self.entries = legend_lines(trend, {kind for kind, _ in kinds_of(times, trend)})
        self.top = above + TITLE + 18 * len(self.entries) + 10
        self.bottom = self.top + height
        self.low, self.high = limits_of(times, trend)

    def x(self, t):
        return self.times.x(t)

    def y(self, v):
        return self.bottom - self.height * (v - self.low) / (self.high - self.low)

    def at(self, t, v):
        return "%.1f,%.1f" % (self.x(t), self.y(v))

    def shows(self, t):
        return self.times.shows(t)


def limits_of(times, trend):
    """The lowest and the highest value of a panel: all that is shown has room, also the bands and the limit."""
    values = [v for t, v in trend.raw if times.shows(t)] + ([trend.limit[0]] if trend.limit else [])
    for v in trend.values:
        values += [v - trend.wide, v + trend.wide]
    low, high = min(values, default=0), max(values, default=0)
    room = 0.06 * (high - low) if high > low else 1
    return low - room, high + room


def corners_of(points, step):
    """The corners of the line, or of the stair, through points."""
    if not step:
        return points
    out = []
    for (t1, v1), (t2, _) in zip(points, points[1:]):
        out += [(t1, v1), (t2, v1)]
    return out + points[-1:]


def band(panel, deviation):
    """A band around each stretch without a late point at an end; where points are dense around the lowest and the highest value."""
    trend, out = panel.trend, []
    if trend.columns:
        upper = [panel.at(t, high + deviation) for t, _, high, _ in trend.columns]
        return "M%sZ" % "L".join(upper + [panel.at(t, low - deviation) for t, low, *_ in reversed(trend.columns)])
    for left, right in zip(trend.line, trend.line[1:]):
        if left[0] in trend.late or right[0] in trend.late:
            continue
        line = corners_of([left, right], trend.step)
        line = line[:-1] if trend.step else line
        upper = [panel.at(t, v + deviation) for t, v in line]
        lower = [panel.at(t, v - deviation) for t, v in reversed(line)]
        out.append("M%sZ" % "L".join(upper + lower))
    return "".join(out)


def raw_paths(panel):
    """The raw values, as two paths: of a column with others near it a bar from its lowest to its highest value, and else a cross.

    The line is drawn over them. So bars have to be wider than the line, and crosses longer than the mark of a point is wide."""
    spans = {}
    for t, v in panel.trend.raw:
        if panel.shows(t):
            x = round(panel.x(t))
            low, high = spans.get(x, (v, v))
            spans[x] = (min(low, v), max(high, v))
    bars, crosses, places = [], [], sorted(spans)
    for before, x, after in zip([-NEAR] + places, places, places[1:] + [WIDTH + NEAR]):
        low, high = (panel.y(v) for v in spans[x])
        if x - before < NEAR or after - x < NEAR:
            bars.append("M%d,%.1fV%.1f" % (x, low, high - 0.1))
        else:
            crosses.append("M%d,%.1fV%.1fM%d,%.1fh%d" % (x, low + ARM, high - ARM, x - ARM, (low + high) / 2, 2 * ARM))
    return "".join(bars), "".join(crosses)


def value_ticks(low, high, finest, most):
    """Round values between two, at most so many, 1, 2 or 5 times a power of ten apart, but no nearer than values can be; and how many
    decimals they need."""
    least = (high - low) / most
    power = 10.0 ** math.floor(math.log10(least))
    step = max(next(power * factor for factor in (1, 2, 5, 10) if power * factor >= least), finest)
    decimals = max(0, -math.floor(math.log10(step) + 1e-9))
    return [n * step for n in range(math.ceil(low / step - 1e-9), math.floor(high / step + 1e-9) + 1)], decimals


def time_ticks(first, last, zone):
    """Round times of the local clock, and the step between them. In up to 6,500 days there are at most fourteen."""
    step = next((step for step in TIME_STEPS if (last - first) / step <= 13), TIME_STEPS[-1])
    ahead, room = [offset(t, zone) for t in (first, last)], DAY if step >= DAY else 0  # in a long time the clock may change and change back
    start, end, found = first + min(ahead) - room, last + max(ahead) + room, []
    for shown in range(-(-start // step) * step, end + 1, step):
        found += [t for t in times_shown(shown, zone) if first <= t <= last]
    return found, step


def times_shown(shown, zone):
    """The times at which the local clock shows a time, given in milliseconds as if it were of UTC: mostly one, two where the clock is set
    back, none where it is set forward."""
    near = [min(max(0, shown + hours * HOUR), MOST_TIME - DAY) for hours in (-14, 14)]
    return [shown - ahead for ahead in sorted({offset(t, zone) for t in near}, reverse=True)
            if 0 <= shown - ahead <= MOST_TIME - DAY and offset(shown - ahead, zone) == ahead]


def changes_of_clock(first, last, zone):
    """The times at which the local clock is set forward or back, of at most a few weeks."""
    found, edges = [], [*range(first, last, DAY), last]
    for start, end in zip(edges, edges[1:]):
        if offset(start, zone) != offset(end, zone):
            while end - start > 1:
                middle = (start + end) // 2
                start, end = (middle, end) if offset(middle, zone) == offset(start, zone) else (start, middle)
            found.append(end)
    return found


def value_axis(panel):
    """Grid, ticks and unit of a panel; none if it has no value."""
    trend, out = panel.trend, []
    if not trend.line and not trend.columns and not trend.raw and not trend.limit:
        return []
    ticks, decimals = value_ticks(panel.low / trend.scale, panel.high / trend.scale, 1 / trend.scale, max(4, panel.height // 40))
    for tick in ticks:
        y = panel.y(tick * trend.scale)
        out.append('<path d="M%d,%.1fH%d" stroke="%s"/>' % (LEFT, y, WIDTH - RIGHT, GRID))
        out.append('<text x="%d" y="%.1f" text-anchor="end">%.*f</text>' % (LEFT - 6, y + 4, decimals, tick))
    if trend.unit:
        out.append('<text x="%d" y="%d" text-anchor="end">%s</text>' % (LEFT - 6, panel.top - 12, escape(cut(trend.unit, LEFT - 6 - EDGE))))
    return out


def time_axis(times, bottom, zone):
    """The ticks of the time axis with their clock times, the dates below, and where the clock is changed its offsets."""
    out, days, right = [], [], 0
    ticks, step = time_ticks(times.first, times.last, zone)
    for place, t in enumerate(ticks):
        moment, x = local(t, zone), times.x(t)
        out.append('<path d="M%.1f,%dv4" stroke="%s"/>' % (x, bottom, DARK))
        text = placed(x, moment.strftime("%H:%M:%S" if step < MINUTE else "%H:%M"))
        if step < DAY and text[0] > right:
            out.append(axis_text(text, bottom + 16, DARK))
            right = text[1] + GAP / 2
        if step >= DAY or place == 0 or (t + offset(t, zone)) % DAY < step:
            days.append((x, moment))
    return out + [axis_text(date, bottom + (16 if step >= DAY else 30), GREY) for date in dates(days)]


def clock_changes(times, panels, zone):
    """A line in each panel where the clock is changed, and below the axis its offsets on both sides."""
    out, bottom = [], panels[-1].bottom
    for t in changes_of_clock(times.first, times.last, zone):
        x = times.x(t)
        pieces = [(panel.top, panel.bottom) for panel in panels] + [(bottom + 35, bottom + 46)]
        marks = "".join("M%.1f,%dV%d" % (x, top, end) for top, end in pieces)
        out.append('<path d="%s" stroke="%s" stroke-dasharray="2 3"/>' % (marks, GREY))
        out.append('<text x="%.1f" y="%d" text-anchor="end" fill="%s">%s</text>' % (x - 4, bottom + 44, GREY, offset_text(t - 1, zone)))
        out.append('<text x="%.1f" y="%d" fill="%s">%s</text>' % (x + 4, bottom + 44, GREY, offset_text(t, zone)))
    return out


def axis_text(place, y, colour):
    """A text below the time axis."""
    left, right, text = place
    return '<text x="%.1f" y="%d" text-anchor="middle" fill="%s">%s</text>' % ((left + right) / 2, y, colour, text)


def dates(days):
    """The dates of the axis: from where to where each goes, and its text. If two would overlap, each but the first of a year loses its
    year. One that has no room even so is left out."""
    full = [placed(x, moment.strftime("%Y-%m-%d")) for x, moment in days]
    if not any(overlap(left, right) for left, right in zip(full, full[1:])):
        return full
    years = [None] + [moment.year for _, moment in days]
    kept = []
    for year, (x, moment) in zip(years, days):
        date = placed(x, moment.strftime("%m-%d" if moment.year == year else "%Y-%m-%d"))
        if not kept or not overlap(kept[-1], date):
            kept.append(date)
    return kept


def placed(x, text):
    """From where to where a text below a place of the axis goes, at the right edge moved into the picture; and the text."""
    wide = width_of(text)
    right = min(x + wide / 2, WIDTH - EDGE)
    return right - wide, right, text


def overlap(left, right):
    """Whether two texts have too little room between them."""
    return right[0] - left[1] < GAP / 2


def swatch(colour, opacity=1):
    """The sign of an area in a legend."""
    return '<rect y="-9" width="14" height="10" fill="%s" fill-opacity="%g"/>' % (colour, opacity)


def legend_entries(trend, drawn):
    """The signs of a legend, each with its width and its text; of points only the kinds that are there."""
    found = []
    if trend.columns:
        found += [(swatch(SPAN), 14, "lowest to highest of a pixel"),
                  ('<path d="M0,-4h16" stroke="%s" stroke-width="1.5"/>' % LINE, 16, "mean")]
    elif trend.line:
        found.append(('<path d="M0,-4h16" stroke="%s" stroke-width="1.5"/>' % LINE, 16, "archive"))
    if (trend.line or trend.columns) and trend.wide:
        found += [(swatch(BAND), 14, "± CompDev"), (swatch(WIDE_BAND), 14, "± (CompDev + %sExcDev)" % ("" if trend.step else "2 "))]
    names = {"point": "point of the archive", "kept": "kept", "late": "came late", "held": "held (the newest)"}
    found += [(mark(kind, 4, -4), 8, name) for kind, name in names.items() if kind in drawn]
    if trend.raw:
        found.append(('<path d="M4,-9v10M-1,-4h10" stroke="%s"/><path d="M15,-8v8" stroke="%s" stroke-width="%s" stroke-linecap="round"/>'
                      % (CROSS, RAW, RAW_WIDTH), 17, "raw values"))
    if trend.silent:
        found.append((swatch("url(#h)"), 14, "bad or silent"))
    if trend.limit:
        found.append(('<path d="M0,-4h16" stroke="%s" stroke-dasharray="5 3"/>' % LIMIT, 16, "limit " + trend.limit[1]))
    return found


def legend_lines(trend, drawn):
    """The legend in lines that have room: of each entry its place, its sign and its text."""
    lines, x = [], WIDTH
    for shape, width, text in legend_entries(trend, drawn):
        text = cut(text, WIDTH - LEFT - EDGE - width - 5)
        wide = width + 5 + width_of(text)
        if x + wide > WIDTH - EDGE:
            lines.append([])
            x = LEFT
        lines[-1].append((x, shape, width + 5, text))
        x += wide + 2 * GAP
    return lines


def legend(panel):
    """The legend of a panel, below its title."""
    top = panel.above + TITLE + 10
    return ['<g transform="translate(%.1f,%d)">%s<text x="%d">%s</text></g>' % (x, top + 18 * row, shape, left, escape(text))
            for row, line in enumerate(panel.entries) for x, shape, left, text in line]


def mark(kind, x, y):
    """A point: kept ones are filled, late ones hollow, the held one is a square."""
    if kind == "held":
        return '<rect x="%.1f" y="%.1f" width="7" height="7" fill="%s"/>' % (x - 3.5, y - 3.5, LINE)
    style = 'r="2.5" fill="#fff" stroke="%s"' if kind == "late" else 'r="3" fill="%s"'
    return '<circle cx="%.1f" cy="%.1f" %s/>' % (x, y, style % LINE)


def kinds_of(times, trend):
    """The points that are shown, with the kind of each. Without raw values kept and late ones look alike."""
    usual = "kept" if trend.raw else "point"
    return [("held" if point == trend.held else "late" if point[0] in trend.late else usual, point)
            for point in trend.points if times.shows(point[0])]


def spans(times, top, height, found, fill):
    """Rectangles over spans of time, as far as they are in the picture: left, right, and the rectangle."""
    for start, end, *rest in found:
        left, right = (times.x(min(max(t, times.first), times.last)) for t in (start, end))
        if left < right:
            yield left, right, '<rect x="%.1f" y="%d" width="%.1f" height="%d" %s/>' % (left, top, right - left, height, fill), rest


def bar_lines(times, bars, top):
    """Bars below the picture: a title, and from when to when each goes, with the longest of its texts that has room."""
    out = []
    for number, (title, shown) in enumerate(bars):
        y = top + number * (BAR + 6)
        out.append('<text x="%d" y="%d" text-anchor="end">%s</text>' % (LEFT - 6, y + 11, escape(cut(title, LEFT - 6 - EDGE))))
        for left, right, rectangle, (texts,) in spans(times, y, BAR, shown, 'fill="%s" stroke="#fff"' % AMBER):
            out.append(rectangle)
            text = next((text for text in texts if width_of(text) + GAP <= right - left), "")
            out += ['<text x="%.1f" y="%d">%s</text>' % (left + 4, y + 11, escape(text))] if text else []
    return out


def archive_lines(panel):
    """The line or the stair of the archive; where points are dense, the span and the mean of each pixel."""
    trend = panel.trend
    if trend.columns:
        edge = [panel.at(t, high) for t, _, high, _ in trend.columns] + [panel.at(t, low) for t, low, *_ in reversed(trend.columns)]
        mean = "L".join(panel.at(t, mean) for t, _, _, mean in trend.columns)
        return ['<path d="M%sZ" fill="%s" stroke="%s" stroke-width="0.6"/>' % ("L".join(edge), SPAN, SPAN),
                '<path d="M%s" stroke="%s" stroke-width="1"/>' % (mean, LINE)]
    corners = corners_of(trend.line, trend.step)
    return ['<path d="M%s" stroke="%s" stroke-width="1.5"/>' % ("L".join(panel.at(t, v) for t, v in corners), LINE)] if corners else []


def panel_lines(panel, number, clock):
    """A panel with its title, its legend, its axis and what is drawn in it."""
    trend, (ranges, crosses) = panel.trend, raw_paths(panel)
    room = WIDTH - RIGHT - LEFT - (width_of(clock) + GAP if clock else 0)
    out = ['<text x="%d" y="%d" font-size="14">%s</text>' % (LEFT, panel.above + 18, escape(cut(trend.title, room, 14)))]
    if clock:
        out.append('<text x="%d" y="18" text-anchor="end" fill="%s">%s</text>' % (WIDTH - RIGHT, GREY, escape(clock)))
    out += legend(panel) + value_axis(panel)
    out.append('<clipPath id="c%d"><rect x="%d" y="%d" width="%d" height="%d"/></clipPath><g clip-path="url(#c%d)" fill="none">' % (
        number, LEFT, panel.top, WIDTH - LEFT - RIGHT, panel.height, number))
    if (trend.line or trend.columns) and trend.wide:
        out += ['<path d="%s" fill="%s" fill-opacity="0.8"/>' % (band(panel, trend.wide), WIDE_BAND),
                '<path d="%s" fill="%s" fill-opacity="0.8"/>' % (band(panel, trend.narrow), BAND)]
    hatched = spans(panel.times, panel.top, panel.height, trend.silent, 'fill="url(#h)" fill-opacity="0.5"')
    out += [rectangle for *_, rectangle, _ in hatched]
    if trend.raw:
        out += ['<path d="%s" stroke="%s" stroke-width="%s" stroke-linecap="round"/>' % (ranges, RAW, RAW_WIDTH),
                '<path d="%s" stroke="%s"/>' % (crosses, CROSS)]
    if trend.limit:
        out.append('<path d="M%d,%.1fH%d" stroke="%s" stroke-dasharray="5 3"/>' % (LEFT, panel.y(trend.limit[0]), WIDTH - RIGHT, LIMIT))
    out += archive_lines(panel)
    out += [mark(kind, panel.x(t), panel.y(v)) for kind, (t, v) in kinds_of(panel.times, trend)]
    out.append('</g><path d="M%d,%dV%dH%d" stroke="%s" fill="none"/>' % (LEFT, panel.top, panel.bottom, WIDTH - RIGHT, DARK))
    return out + words_lines(panel)


def words_lines(panel):
    """Words in the middle of a panel without values."""
    if not panel.trend.words:
        return []
    text = cut(panel.trend.words, WIDTH - LEFT - RIGHT - GAP, 14)
    return ['<text x="%d" y="%d" text-anchor="middle" font-size="14" fill="%s">%s</text>' % (
        (LEFT + WIDTH - RIGHT) // 2, panel.top + panel.height // 2, GREY, escape(text))]


def picture(times, trends, bars, zone):
    """The whole picture as a text: a panel for each trend, one below the other, and the bars below them."""
    panels, above = [], 0
    for trend in trends:
        panels.append(Panel(times, trend, above, ONE if len(trends) == 1 else MANY))
        above = panels[-1].bottom + 10
    bottom, changed = panels[-1].bottom, clock_changes(times, panels, zone) if is_short(times) else []
    tall = bottom + 40 + 14 * bool(changed) + (BAR + 6) * len(bars)
    out = ['<svg xmlns="http://www.w3.org/2000/svg" viewBox="0 0 %d %d" font-family="sans-serif" font-size="12">' % (WIDTH, tall),
           '<rect width="%d" height="%d" fill="#fff"/>' % (WIDTH, tall)]
    out += [HATCH] if any(trend.silent for trend in trends) else []
    for number, panel in enumerate(panels):
        out += panel_lines(panel, number, "clock: %s" % (zone or "UTC") if number == 0 else "")
    out += changed + time_axis(times, bottom, zone)
    return "\n".join(out + bar_lines(times, bars, tall - (BAR + 6) * len(bars) - 4) + ["</svg>", ""])


def is_short(times):
    """Whether the axis shows clock times, and not days alone."""
    return times.last - times.first <= 13 * 12 * HOUR
