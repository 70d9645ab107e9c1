"use strict";
// What the board has of a tag's archive, and the rows that are drawn of it. The values of a time stand in one piece: a tag of a plant has one
// piece, a tag of a site one for each part. A long time is drawn from windows, a shorter one that has many points from finer windows, and a short
// one from points. Finer windows and points come in files, and are loaded when they are wanted. What is drawn is always a few thousand rows.
// Between two pieces there is nothing.

const MOST_DRAWN = 3000;     // points that are drawn one by one
const MOST_LOADED = 200000;  // points that are loaded for one view
const MOST_POINTS = 5000;    // points in sight: of more, windows are loaded where there are enough of them
const ENOUGH = 1000;         // windows in sight with which no finer ones are wanted
const FEWEST_FINE = 400;     // finer windows in sight: were there fewer, points are drawn
const MOST_FINE = 32768;     // finer windows that are loaded for one view
const FINE_ROWS = 2000;      // rows that are made of them

// The place of the last time that is at most t; -1 before the first.
function placeOf(times, t) {
  let low = 0, high = times.length;
  while (low < high) {
    const middle = (low + high) >> 1;
    if (times[middle] <= t) low = middle + 1; else high = middle;
  }
  return low - 1;
}

class Piece {
  // `given` says where the files of the tag are, and from when until when this piece has its values.
  constructor(tag, given) {
    Object.assign(this, {folder: `${given.folder}${tag}.d/`, from: given.from ?? -Infinity, until: given.until ?? Infinity, name: given.name});
    this.head = this.windows = null;
    this.files = new Map();
    this.fine = new Map();
  }

  // From when to when there are points, and whether some of them are not of this piece's time.
  get first() { return Math.max(this.from, this.head.parts[0][2]); }
  get last() { return Math.min(this.until - 1, this.head.held[0]); }
  get isCut() { return this.head.parts[0][2] < this.from || this.head.held[0] >= this.until; }
  get hasValues() { return this.head.parts.length > 0 && this.first <= this.last; }

  // After what time which deviations are promised.
  promiseAt(t) {
    const all = this.head.promises;
    let place = 0;
    while (place + 1 < all.length && all[place + 1][0] < t) place += 1;
    return {narrow: all[place][1], wide: all[place][2], is: all[place][3] === 1};
  }

  addFile(key, late, later, values) {
    const times = Float64Array.from(JSON.parse("[" + later + "]"));
    const file = {times, values: Float64Array.from(JSON.parse("[" + values + "]")), late: new Uint8Array(times.length)};
    for (let place = 1; place < times.length; place += 1) times[place] += times[place - 1];
    for (const place of late) file.late[place] = 1;
    this.files.set(key, file);
  }

  // Finer windows: the lowest value of each as it differs from the one before, what the highest and the mean are above it, and the first and
  // last one of each stretch where something came late. A file of another writing than the head's is of no use.
  addFine(width, first, unclean, ...texts) {
    if (!this.head.fine || width !== this.head.fine.width) return;
    const [low, spread, mean] = texts.map(text => Float64Array.from(JSON.parse("[" + text + "]")));
    for (let place = 1; place < low.length; place += 1) low[place] += low[place - 1];
    this.fine.set(Math.floor(first / this.head.fine.each), {first, unclean, low, high: low.map((v, place) => v + spread[place]),
      mean: low.map((v, place) => v + mean[place])});
  }

  // About how many points a span of time has.
  countIn(from, to) {
    const share = ([, count, first, , last]) => last > first ? count * Math.max(0, Math.min(to, last) - Math.max(from, first)) / (last - first) : 1;
    return this.head.parts.filter(part => part[4] >= from && part[2] <= to).reduce((sum, part) => sum + share(part), 0);
  }

  // The finer windows that a span of time needs, with one row more on each side: so many make a row, and the first and the last row.
  fineRange(from, to) {
    const {width, first, last} = this.head.fine, number = t => Math.min(last, Math.max(first, Math.floor(t / width)));
    const start = number(Math.max(from, this.from)), end = number(Math.min(to, this.until)), each = Math.ceil((end - start + 1) / FINE_ROWS);
    const row = window => Math.floor(window / each);
    return {each, count: end - start + 1, start: Math.max(row(first), row(start) - 1), end: Math.min(row(last), row(end) + 1)};
  }

  // The files of them.
  fineKeys(from, to) {
    const {each, start, end} = this.fineRange(from, to), {first, last, each: inFile} = this.head.fine, keys = [];
    const until = Math.floor(Math.min(last, (end + 1) * each - 1) / inFile);
    for (let key = Math.floor(Math.max(first, start * each) / inFile); key <= until; key += 1) keys.push(key);
    return keys;
  }

  hasFine(from, to) {
    return this.fineKeys(from, to).every(key => this.fine.has(key));
  }

  // The finer windows of a span of time, as many in one as rows need.
  fineWindows(from, to) {
    const {each, start, end} = this.fineRange(from, to), count = end - start + 1, late = new Set();
    const [low, high, sum, number] = [Infinity, -Infinity, 0, 0].map(value => new Float64Array(count).fill(value));
    for (const key of this.fineKeys(from, to)) {
      const file = this.fine.get(key);
      const until = Math.min(file.low.length, (end + 1) * each - file.first);
      for (let at = Math.max(0, start * each - file.first); at < until; at += 1) {
        const place = Math.floor((file.first + at) / each) - start;
        if (file.low[at] < low[place]) low[place] = file.low[at];
        if (file.high[at] > high[place]) high[place] = file.high[at];
        sum[place] += file.mean[at];
        number[place] += 1;
      }
      for (const [a, b] of file.unclean) for (let row = Math.floor(a / each); row <= Math.floor(b / each); row += 1) late.add(row);
    }
    return {low, high, mean: sum.map((all, place) => all / number[place]), first: start, width: each * this.head.fine.width, late: row => late.has(row)};
  }

  // Of what a span of time is drawn that has many points: "windows", "fine" ones or "points".
  kindFor(from, to, isFar) {
    const {kept, fine} = this.head, inSight = windows => (to - from) / windows.width;
    if (kept && inSight(kept) >= ENOUGH) return "windows";
    if (fine && inSight(fine) >= FEWEST_FINE && this.fineRange(from, to).count <= MOST_FINE) return "fine";
    return kept && isFar ? "windows" : "points";
  }

  // The files that a span of time needs: their names without the end.
  filesFor(kind, wanted, from, to) {
    if (kind === "windows") return [];
    if (kind === "fine") return this.fineKeys(from, to).filter(key => !this.fine.has(key)).map(key => "fine" + key);
    return (this.head.kept ? wanted.keys : this.head.parts.map(part => part[0])).filter(key => !this.files.has(key));
  }

  // The files of points that a span of time needs, with one more point on each side, and how many points they have.
  needed(from, to) {
    const parts = this.head.parts;
    if (to < this.first || from > this.last) return {keys: [], count: 0};
    let first = parts.findIndex(part => part[4] >= from), last = parts.findLastIndex(part => part[2] <= to);
    if (first < 0) first = parts.length - 1;
    if (last < 0) last = 0;
    const keys = parts.slice(Math.min(first, last), Math.max(first, last) + 1);
    return {keys: keys.map(part => part[0]), count: keys.reduce((sum, part) => sum + part[1], 0)};
  }

  // The points of a file between two times and one more on each side; whether these are its last ones.
  pointsOf(key, from, to, found) {
    const {times, values, late} = this.files.get(key) || {times: [], values: [], late: []}, last = placeOf(times, to);
    const end = Math.min(times.length - 1, times[last] === to ? last : last + 1);
    for (let place = Math.max(0, placeOf(times, from)); place <= end; place += 1) {
      found.push({piece: this, t: times[place], v: values[place], late: late[place] === 1});
    }
    return end === times.length - 1;
  }

  // The points between two times and one more on each side; the held one too, unless a point stands at its time.
  pointsIn(keys, from, to) {
    if (!keys.length) return [];
    const found = [], {parts, held} = this.head, places = keys.map(key => parts.findIndex(part => part[0] === key));
    const before = parts[places[0] - 1], after = parts[places[places.length - 1] + 1];
    if (before) found.push({piece: this, t: before[4], v: before[5], late: before[6] === 1});
    const toEnd = keys.map(key => this.pointsOf(key, from, to, found)).pop(), newest = found[found.length - 1];
    if (toEnd && after) found.push({piece: this, t: after[2], v: after[3], late: false, beyond: true});
    else if (toEnd && held && (!newest || newest.t < held[0])) found.push({piece: this, t: held[0], v: held[1], late: false, held: true});
    else if (toEnd && held && newest.t === held[0] && !newest.late) newest.held = true;
    let first = 0, last = found.length - 1;
    while (first < last && found[first + 1].t <= from) first += 1;
    while (last > first && found[last - 1].t >= to) last -= 1;
    return found.slice(first, last + 1).filter(point => point.t >= this.from && point.t < this.until);
  }

  // The windows that stand in the tag's file. A tag with few points has none there: all of its points are loaded, and shown as they are.
  keptWindows() {
    const {kept, tail, unclean} = this.head;
    if (!this.windows && kept) {
      const starts = unclean.map(each => each[0]);
      const late = number => {
        const place = placeOf(starts, number);
        return place >= 0 && number <= unclean[place][1];
      };
      this.windows = {low: kept.low.concat(tail.low), high: kept.high.concat(tail.high), mean: kept.mean.concat(tail.mean), first: kept.first,
        width: kept.width, late: unclean.length ? late : () => false};
    }
    return this.windows;
  }

  // Rows of windows, as they were written or as they are made here of many points. Windows that go beyond this piece's time are left out.
  windowRows(windows, from, to) {
    const {low, high, mean, first, width, late} = windows, {scale, step} = this.head, rows = [];
    const least = this.isCut ? Math.ceil(this.from / width) - first : 0, most = this.isCut ? Math.floor(this.until / width) - 1 - first : Infinity;
    const start = Math.max(0, least, Math.floor(from / width) - first), end = Math.min(low.length - 1, most, Math.floor(to / width) - first);
    for (let place = start; place <= end; place += 1) {
      const t = (first + place + (step ? 0 : 0.5)) * width, promise = this.promiseAt(t);
      const all = by => [(low[place] - by) / scale, mean[place] / scale, (high[place] + by) / scale];
      const clean = promise.is && !late(first + place);
      rows.push([t, clean ? all(promise.wide) : null, clean ? all(promise.narrow) : null, all(0)]);
    }
    return rows;
  }

  // The rows of a span of time: finer windows, or its points one by one or in windows.
  insideRows(points, from, to, oneByOne, kind = "points") {
    if (kind === "fine") return this.fineRows(from, to);
    return !points.length ? [] : oneByOne ? pointRows(points, this.head) : this.windowRows(windowsOf(points, from, to, this.head.step), from, to);
  }

  fineRows(from, to) {
    const windows = this.fineWindows(from, to), {first, width, low} = windows;
    return this.windowRows(windows, first * width, (first + low.length - 1) * width);
  }

  // The rows that show a span of time, whose points are given. Outside of it stand rows too, for the small picture of the whole time.
  rowsFor(points, from, to, oneByOne, kind) {
    const rest = (a, b) => b <= a ? [] : this.keptWindows() ? this.windowRows(this.windows, a, b) : this.restRows(a, b);
    const inside = this.insideRows(points, from, to, oneByOne, kind);
    if (!inside.length) return rest(this.first, this.last);
    const start = inside[0][0], end = inside[inside.length - 1][0];
    const left = rest(this.first, start).filter(row => row[0] < start), right = rest(end, this.last).filter(row => row[0] > end);
    return left.concat(inside, right);
  }

  restRows(a, b) {
    const points = this.pointsIn(this.needed(a, b).keys, a, b);
    return this.insideRows(points, a, b, points.length <= MOST_DRAWN);
  }
}

// Whether something is promised between two neighbouring points.
function isClean(left, right) {
  return left.piece === right.piece && !left.late && !right.late && right.piece.promiseAt(right.t).is;
}

// ---- rows for the picture: [time, wide band, narrow band, line], each of the lowest, the drawn and the highest value

function around(value, by) {
  return [value - by, value, value + by];
}

function pointRow(point, band, scale) {
  const exact = [point.v / scale, point.v / scale, point.v / scale];
  const bands = band ? [around(point.v, band.wide), around(point.v, band.narrow)].map(all => all.map(v => v / scale)) : [null, null];
  return [point.t, ...bands, exact];
}

// A row between two points that ends or begins a band; the line goes through it.
function jointRow(left, right, share, band, {step, scale}) {
  const v = step ? left.v : left.v + (right.v - left.v) * share;
  return pointRow({t: left.t + (right.t - left.t) * share, v}, band, scale);
}

function pointRows(points, head) {
  const rows = [];
  points.forEach((point, place) => {
    const next = points[place + 1], before = points[place - 1], promiseAt = t => point.piece.promiseAt(t);
    const clean = before && isClean(before, point), cleanNext = next && isClean(point, next);
    const band = clean ? promiseAt(point.t) : cleanNext ? promiseAt(next.t) : null, then = cleanNext ? promiseAt(next.t) : null;
    rows.push(pointRow(point, band, head.scale));
    if (!next) return;
    if (band && then && band.wide === then.wide && band.narrow === then.narrow) return;
    if (band && !then) rows.push(jointRow(point, next, 1e-6, null, head));
    else if (then && band) rows.push(jointRow(point, next, 1e-6, then, head));
  });
  return rows;
}

// Adds the line between two points to the windows that it goes through between two times.
function addLine(made, left, right, from, to) {
  const {first, width, low, high, area, covered, late} = made, rise = made.step ? 0 : right.v - left.v, run = right.t - left.t;
  const end = Math.min(right.t, to), clean = isClean(left, right);
  let t = Math.max(left.t, from), v = left.v + rise * (t - left.t) / run;
  while (t < end) {
    const place = Math.floor(t / width) - first, until = Math.min((first + place + 1) * width, end), w = left.v + rise * (until - left.t) / run;
    if (until <= t) return;
    if (low[place] === null || v < low[place]) low[place] = v;
    if (high[place] === null || v > high[place]) high[place] = v;
    if (w < low[place]) low[place] = w;
    if (w > high[place]) high[place] = w;
    area[place] += (until - t) * (v + w) / 2;
    covered[place] += until - t;
    if (!clean) late.add(first + place);
    t = until;
    v = w;
  }
}

// Windows of many points: the lowest, the highest and the mean value of the line in each.
function windowsOf(points, from, to, step) {
  const width = (to - from) / MOST_DRAWN * 2, first = Math.floor(from / width), count = Math.floor(to / width) - first + 1;
  const low = new Array(count).fill(null), high = low.slice(), mean = low.slice();
  const made = {first, width, step, low, high, late: new Set(), area: new Float64Array(count), covered: new Float64Array(count)};
  for (let at = 0; at + 1 < points.length; at += 1) addLine(made, points[at], points[at + 1], from, to);
  let start = 0, end = count - 1;
  while (start < end && low[start] === null) start += 1;
  while (end > start && low[end] === null) end -= 1;
  for (let place = start; place <= end; place += 1) {
    if (low[place] === null) { low[place] = low[place - 1]; high[place] = high[place - 1]; mean[place] = mean[place - 1]; continue; }
    mean[place] = made.covered[place] ? made.area[place] / made.covered[place] : low[place];
  }
  return {low: low.slice(start, end + 1), high: high.slice(start, end + 1), mean: mean.slice(start, end + 1), first: first + start, width,
    late: number => made.late.has(number)};
}

// The rows of all pieces, with a row of nothing between two of them.
function joined(each) {
  const rows = [];
  for (const more of each) {
    if (!more.length) continue;
    const before = rows[rows.length - 1];
    if (before) rows.push([before[0] + (more[0][0] - before[0]) * 1e-6, null, null, null]);
    for (const row of more) rows.push(row);
  }
  return rows;
}

// Calls `done` with the rows that show a span of time, and the points in it if these are drawn one by one.
function rowsFor(pieces, from, to, done) {
  const wanted = pieces.map(piece => piece.needed(from, to)), isFar = wanted.reduce((sum, each) => sum + each.count, 0) > MOST_LOADED;
  const isDense = isFar || pieces.reduce((sum, piece) => sum + piece.countIn(from, to), 0) > MOST_POINTS;
  const kinds = pieces.map((piece, place) => isDense && wanted[place].count ? piece.kindFor(from, to, isFar) : "points");
  const files = pieces.flatMap((piece, place) => {
    return piece.filesFor(kinds[place], wanted[place], from, to).map(key => [`${piece.folder}${key}.js`, pieces.indexOf(piece)]);
  });
  loadAll(files, () => {
    pieces.forEach((piece, place) => { // the board may have changed since the page was opened
      if (kinds[place] === "fine" && !piece.hasFine(from, to)) kinds[place] = "windows";
    });
    const points = pieces.map((piece, place) => kinds[place] === "points" ? piece.pointsIn(wanted[place].keys, from, to) : []);
    const oneByOne = !isFar && kinds.every(kind => kind === "points") && points.flat().length <= MOST_DRAWN;
    const rows = pieces.map((piece, place) => piece.rowsFor(points[place], from, to, oneByOne, kinds[place]));
    done(joined(rows), oneByOne ? points.flat() : null);
  });
}
