"use strict";
// The page of a tag: its trend with the proved band, what stands under the pointer, and what is known of the tag.

const NEAR = 12;             // how near to a point the pointer is, in pixels, to mean that point
const WIDE = 0, NARROW = 1, LINE = 2; // the series
const SPANS = [["hour", HOUR], ["day", DAY], ["week", 7 * DAY], ["month", 30 * DAY], ["year", 365 * DAY], ["all", Infinity]];
const COLOURS = ["#b9cfe4", "#6f9fca", "#a3271b"];
const {tag: NAME, pieces: PIECES} = document.body.dataset;
const page = {name: NAME, pieces: JSON.parse(PIECES).map(given => new Piece(NAME, given)), head: null, graph: null, drawn: null, bars: new Map(),
  from: 0, to: 0, busy: false};

const find = id => document.getElementById(id);

// ---- the time axis, on the plant's clock

const STEPS = [1, 2, 5, 10, 20, 50, 100, 200, 500].concat([1, 2, 5, 10, 15, 30].map(n => n * SECOND), [1, 2, 5, 10, 15, 30].map(n => n * MINUTE),
  [1, 2, 3, 6, 12].map(n => n * HOUR), [1, 2, 5, 10].map(n => n * DAY));
const MONTHS = [1, 3, 6, 12, 24, 60, 120, 240];

function ticks(from, to, pixels) {
  const most = Math.max(2, Math.floor(pixels / 90)), zone = page.head.zone, found = [];
  const step = STEPS.find(each => (to - from) / each <= most);
  if (step) {
    const start = Math.ceil(local(from, zone) / step) * step;
    for (let shown = start; shown <= local(to, zone); shown += step) {
      const t = fromLocal(shown, zone);
      if (local(t, zone) === shown) found.push(tick(t, shown, step)); // else the clock passed over that time
    }
    return found;
  }
  const months = MONTHS.find(each => (to - from) / (30.4 * DAY * each) <= most) || 600, begin = new Date(local(from, zone));
  for (let month = Math.ceil((begin.getUTCFullYear() * 12 + begin.getUTCMonth()) / months) * months; ; month += months) {
    const shown = Date.UTC(Math.floor(month / 12), month % 12, 1), t = fromLocal(shown, zone);
    if (t > to) return found;
    if (t >= from) found.push({v: t, label: new Date(shown).toISOString().slice(0, months < 12 ? 7 : 4)});
  }
}

function tick(t, shown, step) {
  const text = new Date(shown).toISOString();
  if (step >= DAY || shown % DAY === 0) return {v: t, label: text.slice(0, 10)};
  return {v: t, label: text.slice(11, step < SECOND ? 23 : step < MINUTE ? 19 : 16)};
}

// ---- the picture

// The dots of the points that are drawn one by one. Where kept ones are too near together, these have none; late ones lie one over the
// other, unless they are very many.
function paintPoints({drawingContext: context, plotArea: area, dygraph}) {
  const found = {kept: [], late: [], held: []}, [from, to] = dygraph.xAxisRange(), {scale} = page.head;
  for (const point of page.drawn.points || []) {
    if (point.beyond || point.t < from || point.t > to) continue;
    found[point.late ? "late" : point.held ? "held" : "kept"].push([dygraph.toDomXCoord(point.t), dygraph.toDomYCoord(point.v / scale)]);
  }
  if (found.kept.length * DOT_EVERY > area.w) found.kept = [];
  const isDense = found.late.length * DOT_EVERY > area.w;
  for (const places of isDense ? [found.late] : found.late.map(place => [place])) paintDots(context, "late", places, COLOURS[LINE]);
  for (const kind of ["kept", "held"]) paintDots(context, kind, found[kind], COLOURS[LINE]);
}

function drawLimits(context, area, graph) {
  for (const limit of [page.head.low, page.head.high]) {
    if (limit === null) continue;
    const y = graph.toDomYCoord(limit);
    if (y < area.y || y > area.y + area.h) continue;
    context.save();
    context.strokeStyle = "#6d3a9c";
    context.setLineDash([6, 4]);
    context.beginPath();
    context.moveTo(area.x, y);
    context.lineTo(area.x + area.w, y);
    context.stroke();
    context.restore();
  }
}

function options() {
  const band = bandPlotter(0.45), spread = bandPlotter(0.25), series = {wide: {plotter: band}, narrow: {plotter: band}, line: {}};
  series.line = {strokeWidth: 1.8, showInRangeSelector: true, plotter: about => {
    if (!page.drawn.points) spread(about);
    paintLine(about);
    paintPoints(about);
  }};
  return {
    labels: ["time", "wide", "narrow", "line"], colors: COLOURS, series, customBars: true, legend: "never",
    stepPlot: page.head.step, showRangeSelector: ends()[0] < ends()[1], rangeSelectorHeight: 44, rangeSelectorPlotStrokeColor: "#7b8794",
    interactionModel: Dygraph.defaultInteractionModel, // a drag zooms; beside a range selector it would pan
    rangeSelectorPlotFillColor: "#dfe5ec", highlightCircleSize: 0, gridLineColor: "#e3e8ed", axisLineColor: "#8a96a3", axisLabelFontSize: 12,
    underlayCallback: drawLimits, drawCallback: drawn, animatedZooms: false, xRangePad: 0, yRangePad: 10, panEdgeFraction: 0.1,
    axes: {x: {ticker: (from, to, pixels) => ticks(from, to, pixels), axisLabelWidth: 80, drawGrid: true},
      y: {axisLabelWidth: 66, axisLabelFormatter: value => yText(value)}},
  };
}

function yText(value) {
  const isLong = Math.abs(value) >= 1e7 || value && Math.abs(value) < 1e-4;
  return isLong ? value.toExponential(3).replace(/\.?0+e/, "e") : String(Number(value.toFixed(6)));
}

// Shows a span of time. `done` is called once it is on the screen.
function show(from, to, done) {
  const start = performance.now();
  page.from = from;
  page.to = to;
  rowsFor(page.pieces, from, to, (rows, points) => {
    page.drawn = {rows, points};
    page.busy = true;
    if (page.graph) page.graph.updateOptions({file: rows, dateWindow: [from, to]});
    else page.graph = new Dygraph(find("chart"), rows, Object.assign(options(), {dateWindow: [from, to]}));
    page.busy = false;
    settle();
    requestAnimationFrame(() => setTimeout(() => {
      page.took = performance.now() - start;
      if (done) done();
    }));
  });
}

// The picture was drawn anew: if somebody zoomed or panned it, what it shows now is loaded.
function drawn(graph) {
  if (page.busy) return;
  const [from, to] = graph.xAxisRange();
  if (from === page.from && to === page.to) return;
  clearTimeout(page.later);
  page.later = setTimeout(() => show(from, to), 30);
}

function settle() {
  const zone = page.head.zone, {from, to} = page;
  find("shown").textContent = `${timeText(from, zone)} to ${timeText(to, zone)} ${zone}`;
  history.replaceState(null, "", `#${Math.round(from)}-${Math.round(to)}`);
  find("cross").hidden = true;
  drawBars();
}

function ends() {
  return [page.pieces[0].first, page.pieces[page.pieces.length - 1].last];
}

// A span of time that ends with the newest value, with a little room.
function showSpan(length, done) {
  const [first, last] = ends(), whole = Math.max(last - first, MINUTE), room = 0.02 * Math.min(length, whole);
  show(length < whole ? last - length + room : length === Infinity ? last - whole - room : last - length, last + room, done);
}

function move(share) {
  const by = (page.to - page.from) * share;
  show(page.from + by, page.to + by);
}

// ---- what stands under the pointer

// The line between two points at a time, as the program rounds it: to the nearest stored unit, of two the upper one.
function lineAt(left, right, t) {
  if (page.head.step || t === left.t) return left.v;
  const width = BigInt(right.t - left.t), rise = BigInt(right.v - left.v) * BigInt(t - left.t), doubled = 2n * rise + width;
  const down = doubled >= 0n ? doubled / (2n * width) : -((-doubled + 2n * width - 1n) / (2n * width));
  return left.v + Number(down);
}

function bandText(value, by) {
  const {scale} = page.head;
  return `${valueText(value - by, scale)} to ${valueText(value + by, scale)}`;
}

// What the archive has at a time: the nearest point if one is near, else the line.
function under(t, reach) {
  const {points} = page.drawn;
  if (!points || !points.length) return underWindow(t);
  const near = points.reduce((best, point) => Math.abs(point.t - t) < Math.abs(best.t - t) ? point : best);
  if (Math.abs(near.t - t) <= reach && !near.beyond) {
    const place = points.indexOf(near), before = points[place - 1], after = points[place + 1];
    const promiseAt = t => near.piece.promiseAt(t);
    const promise = before && isClean(before, near) ? promiseAt(near.t) : after && isClean(near, after) ? promiseAt(after.t) : null;
    return {t: near.t, value: near.v, kind: near.late ? "came late" : near.held ? "held" : "kept", promise};
  }
  const place = placeOf(points.map(point => point.t), t), left = points[place], right = points[place + 1];
  if (!left) return null;
  if (!right || right.piece !== left.piece) return {t, value: left.v, kind: right ? "going on to the next part" : "newest value going on", promise: null};
  const promise = isClean(left, right) ? right.piece.promiseAt(right.t) : null;
  return {t, value: lineAt(left, right, t), kind: page.head.step ? "stair" : "line", promise};
}

function underWindow(t) {
  const rows = page.drawn.rows;
  if (!rows.length) return null;
  const row = rows[Math.max(0, placeOf(rows.map(each => each[0]), t))];
  if (!row[1 + LINE]) return null; // between two parts
  return {t: row[0], low: row[1 + LINE][0], value: row[1 + LINE][1], high: row[1 + LINE][2], wide: row[1 + WIDE], kind: "window"};
}

function readoutText(found) {
  const {unit, zone, scale, step} = page.head, after = unit ? " " + unit : "";
  if (found.kind === "window") {
    const band = found.wide ? `; every raw value from ${yText(found.wide[0])} to ${yText(found.wide[2])}` : "; nothing is promised of raw values";
    return `${timeText(found.t, zone)}   mean ${yText(found.value)}${after}, line from ${yText(found.low)} to ${yText(found.high)}${band}`;
  }
  const text = `${timeText(found.t, zone, true)}   ${valueText(found.value, scale)}${after}, ${found.kind}`;
  if (!found.promise) return text + "; nothing is promised here";
  return `${text}; ± CompDev: ${bandText(found.value, found.promise.narrow)}; ± (CompDev + ${step ? "" : "2 "}ExcDev): `
    + bandText(found.value, found.promise.wide);
}

function point(event) {
  const box = find("chart").getBoundingClientRect(), x = event.clientX - box.left, area = page.graph.getArea();
  if (x < area.x || x > area.x + area.w) return leave();
  const t = Math.round(page.graph.toDataXCoord(x)), found = under(t, Math.abs(page.graph.toDataXCoord(NEAR) - page.graph.toDataXCoord(0)));
  if (!found) return leave();
  const cross = find("cross");
  cross.hidden = false;
  cross.style.left = page.graph.toDomXCoord(found.t) + "px";
  cross.style.top = area.y + "px";
  cross.style.height = area.h + "px";
  find("readout").textContent = readoutText(found);
}

function leave() {
  find("cross").hidden = true;
  find("readout").textContent = hint();
}

function hint() {
  return "Drag to zoom, Shift and drag to pan, double-click for all. Point at the trend to read it.";
}

// ---- below the picture

board.bars = function (bars) {
  for (const {title, spans} of bars) page.bars.set(title, (page.bars.get(title) || []).concat(spans));
  if (page.graph) drawBars();
};

function drawBars() {
  const area = page.graph.getArea(), wide = find("chart").clientWidth, all = [];
  for (const [title, spans] of page.bars) {
    const svg = shape("svg", {width: wide, height: 22});
    const inside = spans.filter(span => span[1] > page.from && span[0] < page.to);
    for (const [start, end, text] of inside) {
      const x = page.graph.toDomXCoord(Math.max(start, page.from)), to = page.graph.toDomXCoord(Math.min(end, page.to));
      svg.append(shape("rect", {x, y: 2, width: Math.max(1, to - x - 1), height: 18}));
      const label = shape("text", {x: x + 4, y: 15}), says = shape("title", {});
      says.textContent = `${timeText(start, page.head.zone)} to ${timeText(end, page.head.zone)}  ${text}`;
      if (to - x > 7 * text.length + 8) label.textContent = text;
      svg.append(label);
      svg.lastChild.previousSibling.append(says);
    }
    const row = element("div", null, "bar");
    row.append(element("p", title), svg);
    all.push(row);
  }
  find("bars").replaceChildren(...all);
}

function showLegend() {
  const {step, low, high, promises} = page.head, all = [], add = (kind, text) => {
    const made = element("span", null, "entry");
    made.append(element("i", null, kind), text);
    all.push(made);
  };
  add("line", step ? "archive (stair)" : "archive (in windows: mean, lowest, highest)");
  if (promises.some(each => each[3])) {
    add("narrow", "± CompDev");
    add("wide", step ? "± (CompDev + ExcDev): every raw value in order" : "± (CompDev + 2 ExcDev): every raw value in order");
  } else all.push(element("span", "No band: CompMin is above 0, so values may have been dropped, and nothing is promised.", "entry"));
  add("kept", "kept");
  add("late", "came late");
  add("held", "held (the newest sent)");
  if (low !== null || high !== null) add("limit", "limit");
  find("legend").replaceChildren(...all);
}

function fact(name, text, kind) {
  return [element("dt", name), element("dd", text, kind)];
}

function showFacts() {
  const head = page.head, {unit, scale} = head, after = unit ? " " + unit : "", now = Date.now();
  const state = stateOf(head, now), promise = head.promises[head.promises.length - 1];
  find("value").textContent = head.newest ? valueText(head.newest[1], scale) : "";
  find("unit").textContent = head.newest ? unit : "";
  find("state").replaceChildren(stateElement(state));
  find("age").textContent = head.newest ? `· ${ageText(now - head.newest[0])} ago, ${timeText(head.newest[0], head.zone)}` : "";
  const kept = head.records ? `${plural(head.taken, "value")} in ${plural(head.records, "record")}` : "none";
  const facts = [fact("stored", kept + (head.taken > 1 ? `, one record for ${(head.taken / head.records).toFixed(1)} values` : "")),
    fact("came late", countText(head.late)), fact("room taken", head.newest ? fullText(head) : "none"),
    fact("CompDev, ExcDev", `${head.comp_dev}, ${head.exc_dev}${after}`),
    fact("promised of raw values", promise[3] ? `± ${valueText(promise[2], scale)}${after} of the ${head.step ? "stair" : "line"}` : "nothing: CompMin is above 0")];
  if (page.pieces.length > 1 || page.pieces[0].name) facts.push(fact("parts", partsText()));
  if (head.low !== null || head.high !== null) facts.push(fact("limits", `${head.low ?? "none"} to ${head.high ?? "none"}${after}`));
  if (page.audit) facts.push(auditFact(page.audit, after));
  find("facts").replaceChildren(...facts.flat());
}

// Which parts of a site have the tag's values, and from when on.
function partsText() {
  return page.pieces.map(each => each.name + (each.from > 0 ? ` from ${timeText(each.from, page.head.zone)} on` : "")).join(", ");
}

function auditFact(audit, after) {
  const seen = audit.promised === null ? "" : `greatest deviation seen ${audit.seen} of ${audit.promised}${after} promised`;
  const text = audit.outside ? `✖ ${plural(audit.outside, "value")} not as promised: ${audit.first}` : `✓ ${seen || "each value as promised"}`;
  return fact("audit", `${text} (${countText(audit.values)} values, ${timeText(audit.at, page.head.zone)})`, audit.outside ? "bad" : "");
}

board.audit = function (results) {
  page.audit = results.find(each => each.tag === page.name);
  if (page.head) showFacts();
};

// A file of data belongs to the piece whose script element brings it.
const pieceOfScript = () => page.pieces[document.currentScript.dataset.piece];
board.part = (...words) => pieceOfScript().addFile(...words);
board.fine = (...words) => pieceOfScript().addFine(...words);
board.head = head => { pieceOfScript().head = head; };

// What the heads of all pieces say: the newest one's, and the sums of all.
function headOf(pieces) {
  const newest = pieces.findLast(piece => piece.head.newest) || pieces[pieces.length - 1];
  const sum = key => pieces.reduce((all, piece) => all + piece.head[key], 0);
  return {...newest.head, taken: sum("taken"), records: sum("records"), late: sum("late"), filled: newest.head.records};
}

function begin() {
  page.pieces = page.pieces.filter(piece => piece.head);
  if (!page.pieces.length) return showNothing("Nothing of this tag can be read here: the table of all tags says why.");
  page.head = headOf(page.pieces);
  document.title = `${page.head.name}, ${page.head.plant}`;
  showFacts();
  showLegend();
  if (page.pieces.some(piece => piece.hasValues)) return showTrend();
  showNothing("No value was stored yet, so there is no trend.");
}

function showNothing(why) {
  find("empty").hidden = false;
  find("empty").textContent = why;
  for (const id of ["frame", "bars", "legend", "readout", "moves"]) find(id).hidden = true;
  board.shown = performance.now();
}

function showTrend() {
  page.pieces = page.pieces.filter(piece => piece.hasValues);
  for (const [name, length] of SPANS) {
    const button = element("button", name);
    button.onclick = () => showSpan(length);
    find("spans").append(button);
  }
  find("back").onclick = () => move(-0.5);
  find("on").onclick = () => move(0.5);
  const asked = location.hash.match(/^#(\d+)-(\d+)$/), [first, last] = ends();
  leave();
  const ready = () => { board.shown = performance.now(); };
  if (asked && Number(asked[1]) < Number(asked[2])) show(Number(asked[1]), Number(asked[2]), ready);
  else showSpan(last - first < DAY ? Infinity : DAY, ready);
  find("chart").addEventListener("dblclick", event => { event.stopPropagation(); showSpan(Infinity); }, true);
  find("chart").addEventListener("mousemove", point);
  find("chart").addEventListener("mouseleave", leave);
};

loadAll(page.pieces.map((piece, place) => [piece.folder + "head.js", place]), begin);
for (const piece of page.pieces) load(piece.folder + "bars.js");
load("../data/audit.js");
