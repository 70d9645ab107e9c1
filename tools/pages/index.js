"use strict";
// The table of all tags, and the state of the feed above it. The data come again each minute; filter and order stay.

const AGAIN = MINUTE;
const COLUMNS = [
  {title: "tag", key: tag => tag.name, cell: nameCell},
  {title: "value", key: tag => tag.newest ? tag.newest[1] / tag.scale : null, cell: valueCell, kind: "number"},
  {title: "age", key: (tag, now) => tag.newest ? now - tag.newest[0] : null, cell: ageCell, kind: "number"},
  {title: "state", key: (tag, now) => stateOf(tag, now).rank, cell: (tag, now) => stateElement(stateOf(tag, now))},
  {title: "last day", key: tag => tag.spark && tag.newest ? rangeOf(tag) : null, cell: sparkCell, kind: "sparks"},
  {title: "values", key: tag => tag.taken, cell: tag => countCell(tag.taken), kind: "number roomy"},
  {title: "records", key: tag => tag.records, cell: tag => countCell(tag.records), kind: "number roomy"},
  {title: "values a record", key: tag => tag.records ? tag.taken / tag.records : null, cell: ratioCell, kind: "number roomy"},
  {title: "late", key: tag => tag.late, cell: tag => countCell(tag.late), kind: "number roomy"},
  {title: "full", key: filledOf, cell: fullCell, kind: "roomy"},
];
const view = {plant: null, rows: [], order: 0, down: false, filter: "", trouble: false};

// ---- cells

function nameCell(tag) {
  const made = element("span"), link = element("a", tag.name);
  link.href = "tags/" + tag.name + ".html";
  made.append(link, element("span", tag.descriptor, "about"));
  return made;
}

function valueCell(tag) {
  const made = element("span");
  if (tag.newest) made.append(element("b", valueText(tag.newest[1], tag.scale)), " ", element("span", tag.unit, "unit"));
  if (tag.unit.length > 12) made.title = tag.unit;
  return made;
}

function ageCell(tag, now) {
  if (!tag.newest) return element("span", "");
  const made = element("span", ageText(now - tag.newest[0]), isOld(tag, now) ? "old" : "");
  made.title = timeText(tag.newest[0], tag.zone);
  return made;
}

function countCell(count) {
  return element("span", count === undefined ? "" : countText(count));
}

function ratioCell(tag) {
  const ratio = tag.records ? tag.taken / tag.records : 0;
  return element("span", tag.records ? ratio < 10 ? ratio.toFixed(1) : countText(Math.round(ratio)) : "");
}

function fullCell(tag) {
  const made = element("span", null, "full");
  if (!tag.newest) return made;
  const gauge = element("span", null, "gauge"), filled = element("i");
  filled.style.width = Math.min(100, 100 * filledOf(tag) / tag.limit) + "%";
  gauge.append(filled);
  made.append(gauge, " " + fullText(tag));
  return made;
}

function rangeOf(tag) {
  return (Math.max(...tag.spark.high) - Math.min(...tag.spark.low)) / tag.scale;
}

// The line of the last day: where it went in each third of an hour.
function sparkCell(tag) {
  const wide = 144, tall = 28, svg = shape("svg", {viewBox: `0 0 ${wide} ${tall}`, width: wide, height: tall, class: "spark"});
  if (!tag.spark || !tag.newest) return svg;
  const {low, high, first, width} = tag.spark, least = Math.min(...low), most = Math.max(...high);
  const last = Math.floor(tag.newest[0] / width), x = place => wide - 2 - 2 * (last - first - place);
  const y = value => most === least ? tall / 2 : tall - 2 - (tall - 4) * (value - least) / (most - least);
  const upper = high.map((value, place) => `${x(place)},${y(value).toFixed(1)}`);
  const lower = low.map((value, place) => `${x(place)},${y(value).toFixed(1)}`).reverse();
  svg.append(shape("path", {d: "M" + upper.concat(lower).join("L") + "Z"}));
  const title = shape("title", {});
  title.textContent = `from ${valueText(least, tag.scale)} to ${valueText(most, tag.scale)} ${tag.unit}`;
  svg.append(title);
  return svg;
}

// ---- the feed

function card(title, kind, text, more) {
  const made = element("div", null, "card " + kind), mark = {good: "✓", warn: "!", bad: "✖", none: "–"}[kind];
  made.append(element("h2", title), element("p", null, "what"));
  made.lastChild.append(element("span", mark, "mark"), " ", text);
  if (more) made.append(element("p", more, "more"));
  return made;
}

function turnCard(feed, stale, now) {
  if (feed.unfinished !== null) {
    return card("last turn", "bad", "a turn is unfinished", `for ${ageText(now - feed.unfinished)}: the next feed ends it`);
  }
  if (feed.turn.at === null) return card("last turn", "none", "nothing was fed yet");
  const isOldTurn = stale !== null && now - feed.turn.at > stale;
  const waits = feed.waiting ? `, ${plural(feed.waiting, "file")} in the inbox` : "";
  return card("last turn", isOldTurn ? "warn" : "good", `${ageText(now - feed.turn.at)} ago`, `turn ${feed.turn.number}, `
    + timeText(feed.turn.at, view.plant.zone) + waits);
}

function refusedCard(feed) {
  const {rows, files} = feed.refused;
  if (!rows && !files) return card("refused", "good", "no rows");
  const made = element("span");
  const link = element("a", plural(rows, "row") + (files ? ", " + plural(files, "file") : ""));
  if (feed.folder) link.href = feed.folder.split("/").map(encodeURIComponent).join("/") + "/";
  made.append(link);
  return card("refused", "warn", made, "in refused/, each with its reason");
}

function sealCard(feed) {
  if (feed.seals.good === null) return card("devices", "none", "no seals yet");
  if (feed.seals.good) return card("devices", "good", "as the last turn left them");
  return card("devices", "bad", "changed since the last turn", feed.seals.what.join(" "));
}

function backupCard(feed, now) {
  if (feed.backup === null) return card("backup", "warn", "none was made yet");
  const old = now - feed.backup > 2 * DAY;
  return card("backup", old ? "warn" : "good", ageText(now - feed.backup) + " ago", timeText(feed.backup, view.plant.zone));
}

function auditCard(feed) {
  const results = feed.audit, values = results.reduce((sum, each) => sum + each.values, 0);
  if (!results.length) return card("audit", "none", "none was made yet");
  const outside = results.filter(each => each.outside), at = Math.max(...results.map(each => each.at));
  const more = `${plural(values, "value")}, ${timeText(at, view.plant.zone)}`;
  if (!outside.length) return card("audit", "good", "each value as promised", more);
  return card("audit", "bad", `${plural(outside.length, "tag")} not as promised`, outside[0].first);
}

function cardsOf({feed, stale, trouble}, now) {
  const cards = [turnCard(feed, stale, now), refusedCard(feed), sealCard(feed), backupCard(feed, now), auditCard(feed)];
  if (trouble) cards.push(card("shifts and frames", "warn", "not written", trouble));
  return cards;
}

// Of a part of a site the worst of what a plant's cards say: what is bad, what is to be looked at, or else its last turn.
function partCard(part, now) {
  const cards = part.feed ? cardsOf(part, now) : [card("no pages", "none", part.text)], worst = cards.find(each => each.matches(".bad")) || cards.find(each => each.matches(".warn")) || cards[0];
  const title = worst.querySelector("h2");
  title.textContent = `${part.name}: ${title.textContent}`;
  title.className = "part";
  return worst;
}

function showFeed(now) {
  const {parts} = view.plant;
  document.getElementById("feed").replaceChildren(...(parts ? parts.map(part => partCard(part, now)) : cardsOf(view.plant, now)));
}

// ---- the table

function showHead() {
  const row = element("tr");
  COLUMNS.forEach((column, place) => {
    const cell = element("th", null, column.kind), button = element("button", column.title);
    button.onclick = () => { view.down = view.order === place ? !view.down : false; view.order = place; sort(); };
    cell.append(button);
    cell.scope = "col";
    row.append(cell);
  });
  document.querySelector("#tags thead").replaceChildren(row);
}

function makeRows(now) {
  view.rows = view.plant.tags.map(tag => {
    const row = element("tr");
    row.dataset.tag = tag.name;
    for (const column of COLUMNS) {
      const cell = element("td", null, column.kind);
      cell.append(column.cell(tag, now));
      row.append(cell);
    }
    return {tag, row, words: (tag.name + " " + tag.descriptor).toLowerCase()};
  });
}

const names = new Intl.Collator("en", {numeric: true}); // T2 before T10

function compare(a, b) {
  return typeof a === "string" && names.compare(a, b) || (a < b ? -1 : a > b ? 1 : 0);
}

function sort() {
  const now = Date.now(), key = COLUMNS[view.order].key, keys = new Map(view.rows.map(each => [each, key(each.tag, now) ?? null]));
  const turn = view.down ? -1 : 1;
  view.rows.sort((a, b) => {
    const missing = (keys.get(a) === null) - (keys.get(b) === null);
    return missing || turn * compare(keys.get(a), keys.get(b)) || compare(a.tag.name, b.tag.name);
  });
  document.querySelectorAll("#tags th").forEach((cell, place) => {
    cell.setAttribute("aria-sort", place !== view.order ? "none" : view.down ? "descending" : "ascending");
  });
  document.querySelector("#tags tbody").replaceChildren(...view.rows.map(each => each.row));
  filter();
}

function filter() {
  const words = view.filter.toLowerCase().split(/\s+/).filter(Boolean), now = Date.now();
  let shown = 0;
  for (const each of view.rows) {
    const fits = words.every(word => each.words.includes(word)) && (!view.trouble || stateOf(each.tag, now).rank < 4);
    each.row.hidden = !fits;
    shown += fits;
  }
  document.getElementById("count").textContent = shown === view.rows.length ? plural(shown, "tag") : `${shown} of ${plural(view.rows.length, "tag")}`;
  const empty = document.getElementById("empty");
  empty.hidden = shown > 0;
  empty.textContent = view.rows.length ? "No tag fits the filter." : "The base has no tags.";
  keep();
}

// Filter and order stand in the address, so that a reload and a bookmark keep them.
function keep() {
  const words = new URLSearchParams();
  if (view.filter) words.set("filter", view.filter);
  if (view.trouble) words.set("trouble", "1");
  if (view.order || view.down) words.set("order", view.order + (view.down ? "-" : ""));
  if (location.hash.slice(1) !== String(words)) history.replaceState(null, "", "#" + words);
}

function recall() {
  const words = new URLSearchParams(location.hash.slice(1)), order = words.get("order") || "0";
  view.filter = words.get("filter") || "";
  view.trouble = words.has("trouble");
  view.down = order.endsWith("-");
  view.order = COLUMNS[parseInt(order)] ? parseInt(order) : 0;
  document.getElementById("filter").value = view.filter;
  document.getElementById("trouble").checked = view.trouble;
}

function showClock() {
  const now = Date.now();
  document.getElementById("clock").textContent = timeText(now, view.plant.zone);
  document.getElementById("written").textContent = `written ${ageText(now - view.plant.written)} ago`;
}

board.plant = function (plant) {
  const now = Date.now();
  view.plant = plant;
  document.title = plant.plant + " at a glance";
  document.getElementById("plant").textContent = plant.plant;
  document.getElementById("zone").textContent = plant.zone;
  showClock();
  showFeed(now);
  makeRows(now);
  sort();
  board.shown = performance.now();
};

document.getElementById("filter").oninput = event => { view.filter = event.target.value; filter(); };
document.getElementById("trouble").onchange = event => { view.trouble = event.target.checked; filter(); };
showHead();
recall();
load("data/plant.js");
setInterval(() => { if (view.plant) showClock(); }, SECOND);
setInterval(() => load("data/plant.js?" + Date.now()), AGAIN);
