"use strict";
// What the table and the pages of tags have in common: texts of numbers and times, states, and how files of data are loaded.
// All that a base or a CSV file says is set as text, never as markup.

const board = {};
const SECOND = 1000, MINUTE = 60 * SECOND, HOUR = 60 * MINUTE, DAY = 24 * HOUR;

function element(name, text, className) {
  const made = document.createElement(name);
  if (text !== undefined && text !== null) made.textContent = text;
  if (className) made.className = className;
  return made;
}

function shape(name, attributes) {
  const made = document.createElementNS("http://www.w3.org/2000/svg", name);
  for (const key in attributes) made.setAttribute(key, attributes[key]);
  return made;
}

// A file of data is a script that calls a function of `board`: so it is read from a disk as well as from a server.
function load(path, done, piece) {
  const script = element("script");
  script.dataset.piece = piece;
  script.onload = script.onerror = () => { script.remove(); if (done) done(); };
  script.src = path;
  document.head.append(script);
}

// Loads files of data, each with the number of the piece that it is of, and then calls `done`.
function loadAll(files, done) {
  let open = files.length;
  if (!open) return done();
  for (const [path, piece] of files) load(path, () => { open -= 1; if (!open) done(); }, piece);
}

// ---- numbers

function decimals(scale) {
  const digits = String(scale).length - 1;
  return 10 ** digits === scale ? digits : -1;
}

// A stored value as a person reads it: divided by the tag's scale.
function valueText(value, scale) {
  const digits = decimals(scale);
  if (digits < 0) return String(value / scale);
  const whole = Math.abs(Math.round(value)), part = whole % scale, sign = value < 0 && whole ? "-" : "";
  return sign + String((whole - part) / scale) + (digits ? "." + String(part).padStart(digits, "0") : "");
}

function countText(count) {
  return String(count).replace(/\B(?=(\d{3})+$)/g, "\u202f");
}

function plural(count, one) {
  return countText(count) + " " + one + (count === 1 ? "" : "s");
}

// ---- times

const clocks = {};

function clockOf(zone) {
  if (!clocks[zone]) {
    clocks[zone] = new Intl.DateTimeFormat("en-US", {timeZone: zone, hourCycle: "h23", year: "numeric", month: "numeric", day: "numeric",
      hour: "numeric", minute: "numeric", second: "numeric"});
  }
  return clocks[zone];
}

// A time on the plant's clock, as if that were UTC.
function local(t, zone) {
  const part = {};
  for (const each of clockOf(zone).formatToParts(Math.floor(t / SECOND) * SECOND)) part[each.type] = Number(each.value);
  return Date.UTC(part.year, part.month - 1, part.day, part.hour, part.minute, part.second) + ((t % SECOND) + SECOND) % SECOND;
}

// The time at which the plant's clock shows this.
function fromLocal(shown, zone) {
  const near = shown - (local(shown, zone) - shown);
  return shown - (local(near, zone) - near);
}

function timeText(t, zone, fine) {
  const text = new Date(local(t, zone)).toISOString();
  return text.slice(0, 10) + " " + text.slice(11, fine && t % SECOND ? 23 : 19);
}

// How long ago, in the largest unit that leaves two or more.
function ageText(ms) {
  if (ms < 0) return "in " + ageText(-ms);
  for (const [unit, name] of [[365 * DAY, "years"], [DAY, "days"], [HOUR, "h"], [MINUTE, "min"]]) {
    if (ms >= 2 * unit) return Math.floor(ms / unit) + " " + name;
  }
  return Math.floor(ms / SECOND) + " s";
}

// ---- states

// The state of a tag now: its rank (the worst first), a mark and words. A mark has a shape of its own, so nobody needs the colour.
function stateOf(tag, now) {
  if (tag.broken) return {rank: 0, kind: "bad", mark: "✖", text: tag.broken};
  if (!tag.newest) return {rank: 4, kind: "none", mark: "–", text: tag.elsewhere || "no value"};
  const value = tag.newest[1] / tag.scale;
  if (tag.high !== null && value > tag.high) return {rank: 1, kind: "bad", mark: "▲", text: "above " + tag.high};
  if (tag.low !== null && value < tag.low) return {rank: 1, kind: "bad", mark: "▼", text: "below " + tag.low};
  if (isOld(tag, now)) return {rank: 2, kind: "warn", mark: "◷", text: "old"};
  if (filledOf(tag) > 0.9 * tag.limit) return {rank: 3, kind: "warn", mark: "◼", text: "nearly full"};
  if (tag.high === null && tag.low === null) return {rank: 5, kind: "none", mark: "·", text: "no limits"};
  return {rank: 6, kind: "good", mark: "●", text: "good"};
}

function isOld(tag, now) {
  return tag.stale !== null && tag.newest !== null && now - tag.newest[0] > tag.stale;
}

function stateElement(state) {
  const made = element("span", null, "state " + state.kind);
  made.append(element("span", state.mark, "mark"), " " + state.text);
  return made;
}

// The records on the device that fills now. A tag of a site has others too, in parts that have ended.
function filledOf(tag) {
  return tag.filled ?? tag.records;
}

// When a device will be full at the rate of late; null if nobody can tell.
function fullAt(tag) {
  return tag.rate ? tag.newest[0] + (tag.limit - filledOf(tag)) / tag.rate * DAY : null;
}

function fullText(tag) {
  const share = 100 * filledOf(tag) / tag.limit, at = fullAt(tag);
  const when = at === null ? "" : at > Date.UTC(2100, 0) ? ", full after 2100" : ", full in " + timeText(at, tag.zone).slice(0, 7);
  return (share && share < 0.1 ? "< 0.1" : share.toFixed(1)) + " %" + when;
}
