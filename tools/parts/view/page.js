// Draws what is in sight of the run: on the left the chart, time downwards, on the right the journal.
// An item is an entry of the journal by its number from 0, or behind them all a message that belongs to no entry.

const { names, texts, states, entries, lone, replies } = run;
const COUNT = entries.kind.length;
const HAS_JOURNAL = run.shows.includes("journal"), HAS_FRAMES = run.shows.includes("frames");
// the entries of whose replies not all frames were sent
const cut = new Set(run.cut);
// the replies that go later than their requests, each as an item, by the entry
const late = new Map();
lone.forEach((it, at) => it.of !== undefined && late.set(it.of, COUNT + at));
const [TICKS, , FUNCTIONAL] = [0, 1, 2];
const OUTCOMES = ["passed", "done", "refused", "suppressed", "silent", "empty"];
const WITHOUT_REPLY = ["suppressed", "silent", "empty"];
// heights of the chart's rows and of the journal's lines, in pixels
const STEP = 46, WAIT = 18, LONE = 26, FRAME = 17, LINE = 20;
const BYTES_OF_A_LINE = 32;

// ---- the items

const isEntry = (item) => item < COUNT;
const isTicks = (item) => isEntry(item) && entries.kind[item] === TICKS;
const placeOf = (item) => (isEntry(item) ? entries.place[item] : lone[item - COUNT].place);
const stateAfter = (item) => (item < 0 ? states[0] : states[entries.held[item]]);
const timeOf = (item) => seconds(isEntry(item) ? entries.time[item] : lone[item - COUNT].time);
const framesOf = (item) => (isEntry(item) ? replies[item] || [] : lone[item - COUNT].frames);
// the entry that an item tells of, the item itself where there is none
const ownerOf = (item) => (isEntry(item) || lone[item - COUNT].of === undefined ? item : lone[item - COUNT].of);

function serviceOf(item) {
  return isEntry(item) ? texts[entries.ask[item]][0].slice(0, 2) : lone[item - COUNT].service;
}

function kindOf(item) {
  return isEntry(item) ? OUTCOMES[entries.outcome[item]] : lone[item - COUNT].kind;
}

function askOf(item) {
  if (!isEntry(item)) return "";
  if (isTicks(item)) return `${entries.ask[item]} ms pass`;
  return texts[entries.ask[item]][0] + (entries.kind[item] === FUNCTIONAL ? ", functional" : "");
}

function answerOf(item) {
  if (!isEntry(item)) return lone[item - COUNT].words;
  return isTicks(item) ? "" : texts[entries.answer[item]][0];
}

const isUnsent = (item) => HAS_FRAMES && !late.has(item) && framesOf(item).length === 0 && ["done", "refused"].includes(kindOf(item));
const isCut = (item) => (isEntry(item) ? cut.has(item) : lone[item - COUNT].cut === true);

// How long a reply took, how many of a message's frames were sent, and in which time; empty of one that is its only frame.
function sentInWords(item) {
  if (isUnsent(item)) return "not sent";
  const after = isEntry(item) ? undefined : lone[item - COUNT].after;
  return [after === undefined ? "" : `after ${after} ms`, framesInWords(item)].filter((it) => it !== "").join(", ");
}

function framesInWords(item) {
  const frames = framesOf(item);
  if (isCut(item) && frames.length === 1) return "the first frame alone was sent";
  if (frames.length < 2) return "";
  const took = `${frames.length} frames in ${frames[frames.length - 1][1] - frames[0][1]} ms`;
  return isCut(item) ? `${took}, the rest wasn't sent` : took;
}

// The lines that an item opens to, each with a frame's bytes or those of a message.
function detailsOf(item) {
  const found = [];
  if (isTicks(item)) return found;
  const frames = framesOf(item);
  if (isEntry(item)) found.push(...bytesOf(texts[entries.ask[item]][1], "request", "ask"));
  for (const [stamp, after, bytes] of frames.length > 1 ? frames : []) {
    const text = `(${stamp})  ${after < 0 ? "" : "+"}${after} ms  ${bytes.slice(0, 2 * BYTES_OF_A_LINE)}`;
    found.push({ text, isFrame: true, side: "answer" }, ...bytesOf(bytes.slice(2 * BYTES_OF_A_LINE), "", "answer"));
  }
  if (isEntry(item) && !late.has(item) && frames.length < 2) found.push(...bytesOf(texts[entries.answer[item]][1], "reply", "answer"));
  return found;
}

function bytesOf(hex, name, side) {
  const found = [];
  for (let at = 0; at < hex.length; at += 2 * BYTES_OF_A_LINE) {
    const text = `${at === 0 ? name : ""}  ${hex.slice(at, at + 2 * BYTES_OF_A_LINE)}`;
    found.push({ text, isFrame: false, side });
  }
  return found;
}

// ---- what is shown: the filter, the rows of the chart, the lines of the journal

const opened = new Set();
let rows = [], lines = [], lit = -1;

function filter() {
  const chosen = names.map((_, place) => document.getElementById(`tester${place}`).checked);
  const service = document.getElementById("service").value;
  const waits = document.getElementById("waits").checked;
  return (item) => {
    if (!chosen[placeOf(item)]) return false;
    return isTicks(item) ? waits : service === "" || serviceOf(item) === service;
  };
}

// All items in order: a message without an entry stands before the one that it tells.
function ordered(shown) {
  const found = [];
  let next = 0;
  for (let at = 0; at <= COUNT; at++) {
    for (; next < lone.length && lone[next].before <= at; next++) if (shown(COUNT + next)) found.push(COUNT + next);
    if (at < COUNT && shown(at)) found.push(at);
  }
  return found;
}

// The rows: one for a step or a message, one for ticks that stand together. `before` is the entry before the row.
function rowsOf(items) {
  const found = [];
  let before = -1;
  for (const item of items) {
    const last = found[found.length - 1];
    if (isTicks(item) && last && last.kind === "wait") last.items.push(item);
    else if (isTicks(item)) found.push({ kind: "wait", items: [item], before });
    else found.push({ kind: isEntry(item) ? "step" : "lone", items: [item], before });
    if (isEntry(item)) before = item;
  }
  return found;
}

function heightOf(row) {
  if (row.kind === "wait") return WAIT;
  const item = row.items[0];
  const base = row.kind === "step" ? STEP : LONE;
  return opened.has(item) ? base + FRAME * detailsOf(item).length + 4 : base;
}

// Gives each row its place; returns the height of all.
function placeRows() {
  let y = 0;
  for (const row of rows) {
    row.y = y;
    row.height = heightOf(row);
    y += row.height;
  }
  return y;
}

function show() {
  const items = ordered(filter());
  rows = rowsOf(items);
  lines = HAS_JOURNAL ? items.filter(isEntry) : items;
  chart.total = placeRows() + HEAD;
  journal.total = lines.length * LINE;
  chart.fit();
  journal.fit();
}

// ---- the chart

const usedLevels = [...new Set(states.map(([, level]) => level).filter((it) => it !== null))].sort((a, b) => a - b);
const usedRoutines = [...new Set(states.flatMap(([, , routines]) => routines))].sort((a, b) => a - b);
const hex = (number, digits) => number.toString(16).toUpperCase().padStart(digits, "0");

// The bars beside the unit: each with its name, its place, and what it is in a state.
const bars = [
  { name: "session", wide: 16, fill: ([holder]) => (holder === null ? "" : colour(holder)), title: (it) => it[3] },
  ...usedLevels.map((level) => narrow(`level ${hex(level, 2)}`, "#d4a017", (it) => it[1] === level)),
  ...usedRoutines.map((id) => narrow(`routine ${hex(id, 4)}`, "#4a9d8e", (it) => it[2].includes(id))),
];

function narrow(name, fill, isOn) {
  return { name, wide: 9, fill: (it) => (isOn(it) ? fill : ""), title: (it) => it[3] };
}

const HEAD = 96, BARS = 112;
let right = BARS;
for (const bar of HAS_JOURNAL ? bars : []) {
  bar.x = right;
  right += bar.wide + 9;
}
const UNIT = right + 24, FIRST = UNIT + 240, MARGIN = 70, LEAST_APART = 64;
let apart = LEAST_APART, last = FIRST;
// (the last tester stands at the window's end, or as far behind it as the others need)
const testerX = (place) => last - (names.length - 1 - place) * apart;

// Sets the testers as far apart as the window has room; returns how wide the chart is.
function setApart() {
  const { clientWidth } = chart.scroller, between = names.length - 1;
  last = Math.max(clientWidth - MARGIN, FIRST + between * LEAST_APART);
  apart = Math.floor((last - FIRST) / Math.max(between, 1));
  return Math.max(last + MARGIN, clientWidth);
}

function label(text, y, kind) {
  return element("text", { x: UNIT + 10, y, class: kind }, text);
}

// Its tester's colour, for each tester has a clock of its own.
function timeElement(item, y) {
  const it = element("text", { x: BARS - 12, y: y + 22, class: "time" }, timeOf(item));
  it.style.fill = colour(placeOf(item));
  return it;
}

function drawStep(group, row, y) {
  const item = row.items[0], place = placeOf(item), kind = kindOf(item), x = testerX(place);
  const functional = entries.kind[item] === FUNCTIONAL ? " functional" : "";
  group.append(
    timeElement(item, y),
    arrow(x, UNIT, y + 18, { class: `request${functional}`, stroke: colour(place) }),
    label(askOf(item) + opening(item, "ask"), y + 14, "request"),
  );
  if (late.has(item)) {
    group.append(label(`answered at ${timeOf(late.get(item))}`, y + 34, "later"));
    drawDetails(group, item, y + STEP);
    return;
  }
  if (WITHOUT_REPLY.includes(kind)) {
    group.append(element("path", { d: `M${UNIT} ${y + 38}H${UNIT + 60}`, class: `none ${kind}` }));
  } else {
    const style = isUnsent(item) ? " unsent" : "";
    group.append(arrow(UNIT, x, y + 38, { class: `reply ${kind}${style}`, stroke: colour(place) }));
  }
  group.append(label(answerOf(item) + opening(item, "answer"), y + 34, kind));
  drawDetails(group, item, y + STEP);
}

function drawLone(group, row, y) {
  const item = row.items[0], kind = kindOf(item), x = testerX(placeOf(item));
  group.append(
    timeElement(item, y),
    arrow(UNIT, x, y + 18, { class: kind === "flow" ? "flow frame" : `reply ${kind}`, stroke: colour(placeOf(item)) }),
    label(answerOf(item) + opening(item, "answer"), y + 14, kind),
  );
  drawDetails(group, item, y + LONE);
}

// What a message that opens says of itself behind its words.
function opening(item, side) {
  const sent = side === "answer" ? sentInWords(item) : "";
  const bytes = isEntry(item) ? texts[entries[side][item]][1].length / 2 : 0;
  const more = sent || (bytes > 0 ? `${bytes} bytes` : "");
  const opens = detailsOf(item).some((it) => it.side === side);
  return more && ` ${opens ? (opened.has(item) ? "\u25be" : "\u25b8") : "\u00b7"} ${more}`;
}

function drawDetails(group, item, y) {
  if (!opened.has(item)) return;
  const place = placeOf(item);
  detailsOf(item).forEach(({ text, isFrame }, at) => {
    const middle = y + FRAME * at + 12;
    group.append(element("text", { x: UNIT + 24, y: middle, class: "frame" }, text));
    if (isFrame) group.append(arrow(UNIT, testerX(place), middle + 3, { class: "frame", stroke: colour(place) }));
  });
}

function drawWait(group, row, y) {
  group.append(element("text", { x: UNIT + 10, y: y + 13, class: "wait" }, waitInWords(row.items)));
}

// The ticks of some entries: once, where all testers have the same.
function waitInWords(items) {
  const sums = new Map();
  for (const item of items) sums.set(placeOf(item), (sums.get(placeOf(item)) || 0) + entries.ask[item]);
  const different = new Set(sums.values());
  if (names.length > 1 && sums.size === names.length && different.size === 1) return `${[...different][0]} ms pass`;
  return [...sums].map(([place, sum]) => `${sum} ms pass for ${names[place]}`).join(", ");
}

const DRAWN = { step: drawStep, lone: drawLone, wait: drawWait };

// Whether a row is of the item that is marked, as a later reply is.
const isLit = (row) => row.items.some((item) => item === lit || ownerOf(item) === lit);

function drawRow(svg, row, y) {
  const opens = row.kind !== "wait" && detailsOf(row.items[0]).length > 0;
  const group = element("g", { class: `${opens ? "opens" : ""}${isLit(row) ? " lit" : ""}` });
  DRAWN[row.kind](group, row, y);
  svg.append(group);
}

// The pieces of a bar within the rows: each half of a row has the state before or behind it.
function pieces(bar, seen, top) {
  const found = [];
  for (const row of seen) {
    const middle = row.y + row.height / 2, last = row.items[row.items.length - 1];
    const after = isEntry(last) ? last : row.before;
    for (const [from, to, item] of [[row.y, middle, row.before], [middle, row.y + row.height, after]]) {
      const state = stateAfter(item), fill = bar.fill(state), end = found[found.length - 1];
      if (end && end.fill === fill && end.title === bar.title(state)) end.to = to - top;
      else found.push({ from: from - top, to: to - top, fill, title: bar.title(state) });
    }
  }
  return found.filter((it) => it.fill !== "");
}

function drawBars(svg, seen, top) {
  if (!HAS_JOURNAL) return;
  for (const bar of bars) {
    for (const { from, to, fill, title } of pieces(bar, seen, top)) {
      const it = element("rect", { x: bar.x, y: from, width: bar.wide, height: to - from, fill, class: "bar" });
      it.append(element("title", {}, title));
      svg.append(it);
    }
  }
}

function drawLives(svg, view) {
  svg.append(element("path", { d: `M${UNIT} ${HEAD}V${view}`, class: "life unit" }));
  names.forEach((_, place) => {
    svg.append(element("path", { d: `M${testerX(place)} ${HEAD}V${view}`, class: "life", stroke: colour(place) }));
  });
}

function drawHead(svg, width) {
  svg.append(
    element("rect", { x: 0, y: 0, width, height: HEAD - 4, class: "head" }),
    element("path", { d: `M0 ${HEAD - 4}H${width}`, class: "rule" }),
    element("text", { x: BARS - 12, y: HEAD - 12, class: "time" }, "seconds"),
    element("text", { x: UNIT, y: HEAD - 12, class: "name" }, "unit"),
  );
  for (const bar of HAS_JOURNAL ? bars : []) {
    const turned = `rotate(-90 ${bar.x + bar.wide / 2 + 4} ${HEAD - 10})`;
    svg.append(element("text", { x: bar.x + bar.wide / 2 + 4, y: HEAD - 10, transform: turned, class: "track" }, bar.name));
  }
  names.forEach((name, place) => {
    const x = testerX(place);
    const it = element("text", { x, y: HEAD - 12 - (names.length > 3 ? (place % 2) * 16 : 0), class: "name" }, name);
    it.style.fill = colour(place);
    svg.append(it);
  });
}

// how far the words reach that were drawn so far; it never falls, or scrolling would jump
let reach = 0;

// How wide a chart is drawn, whose words may go beyond the testers.
function widened(svg, width) {
  for (const text of svg.querySelectorAll("text")) {
    const box = text.getBBox();
    reach = Math.max(reach, Math.ceil(box.x + box.width) + 10);
  }
  return Math.max(width, reach);
}

function drawChart(top, view) {
  const width = Math.max(setApart(), reach);
  const svg = element("svg", { width, height: view });
  const first = Math.max(lastAt(rows, (row) => row.y, top), 0);
  let end = first;
  while (end < rows.length && rows[end].y < top + view - HEAD) end++;
  const seen = rows.slice(first, end);
  for (const row of seen.filter(isLit)) {
    svg.append(element("rect", { x: 0, y: row.y - top + HEAD, width: "100%", height: row.height, class: "lit" }));
  }
  drawLives(svg, view);
  drawBars(svg, seen, top - HEAD);
  for (const row of seen) drawRow(svg, row, row.y - top + HEAD);
  chart.sight.replaceChildren(svg);
  const whole = widened(svg, width);
  svg.setAttribute("width", whole);
  drawHead(svg, whole);
}

function rowAt(y) {
  const row = rows[lastAt(rows, (it) => it.y, y)];
  return row && y < row.y + row.height ? row : undefined;
}

function rowOfEvent(event) {
  const y = event.clientY - chart.sight.getBoundingClientRect().top;
  return y < HEAD ? undefined : rowAt(y - HEAD + chart.top);
}

// ---- the journal

const NAME_WIDE = Math.max(...names.map((it) => it.length)) + 1;
const NUMBER_WIDE = String(COUNT + lone.length).length + 1;
const TIME_WIDE = seconds(Math.max(...names.map(lastTime))).length + 2;

// A tester's last time; times of a tester rise.
function lastTime(_, place) {
  const at = entries.place.lastIndexOf(place);
  return lone.reduce((most, it) => Math.max(most, it.time), at < 0 ? 0 : entries.time[at]);
}

// The letters of the longest line, beside those of its number, time and name.
function longestLine() {
  let most = 0;
  for (let item = 0; item < COUNT + lone.length; item++) {
    most = Math.max(most, askOf(item).length + answerOf(item).length);
  }
  return most + NAME_WIDE + NUMBER_WIDE + TIME_WIDE + 16;
}

function cell(kind, text, wide) {
  const it = document.createElement("span");
  if (wide) it.style.width = `${wide}ch`;
  it.className = kind;
  it.textContent = text;
  return it;
}

function lineElement(item, y) {
  const it = document.createElement("div");
  it.className = `line ${kindOf(item)}${item === lit ? " lit" : ""}`;
  it.style.top = `${y}px`;
  const name = cell("tester", names[placeOf(item)], NAME_WIDE);
  name.style.color = colour(placeOf(item));
  const number = isEntry(item) ? item + 1 : item - COUNT + 1;
  it.append(cell("number", number, NUMBER_WIDE), cell("time", timeOf(item), TIME_WIDE), name, cell("ask", askOf(item)));
  if (!isTicks(item)) it.append(cell("answer", isEntry(item) ? ` \u2192 ${answerOf(item)}` : answerOf(item)));
  it.dataset.item = item;
  return it;
}

function drawJournal(top, view) {
  const found = [];
  const first = Math.floor(top / LINE);
  for (let at = first; at < lines.length && at * LINE < top + view; at++) {
    found.push(lineElement(lines[at], at * LINE - top));
  }
  journal.sight.replaceChildren(...found);
}

// ---- the mouse

// Marks an item on both sides, and says what the unit's session was behind it.
function light(item) {
  if (item === lit) return;
  lit = item;
  chart.redraw();
  journal.redraw();
  document.getElementById("told").textContent = item < 0 ? "" : told(item);
}

function told(item) {
  const held = isEntry(item) ? stateAfter(item)[3] || "no session" : "";
  const words = [timeOf(item), names[placeOf(item)], askOf(item), answerOf(item)].filter((it) => it !== "");
  return [words.join("  "), held].filter((it) => it !== "").join("  \u00b7  ");
}

function follow(event) {
  const row = rowOfEvent(event);
  if (!row || isLit(row)) return;
  const item = HAS_JOURNAL ? ownerOf(row.items[0]) : row.items[0];
  light(item);
  const at = lines.indexOf(item);
  if (at >= 0) journal.reveal(at * LINE, LINE);
}

function toggle(event) {
  const row = rowOfEvent(event);
  if (!row || row.kind === "wait" || detailsOf(row.items[0]).length === 0) return;
  const item = row.items[0];
  if (!opened.delete(item)) opened.add(item);
  chart.total = placeRows() + HEAD;
  chart.fit();
}

function itemOfEvent(event) {
  const line = event.target.closest(".line");
  return line ? Number(line.dataset.item) : -1;
}

function goTo(event) {
  const item = itemOfEvent(event);
  const row = rows.find((it) => it.items.includes(item));
  if (row) chart.reveal(row.y, row.height + HEAD);
}

// ---- the page's head

function countsInWords() {
  const asked = entries.kind.filter((it) => it !== TICKS).length;
  const outcomes = OUTCOMES.map((_, kind) => entries.outcome.filter((it) => it === kind).length);
  const frames = Object.values(replies).concat(lone.map((it) => it.frames)).reduce((sum, it) => sum + it.length, 0);
  const words = [];
  if (HAS_JOURNAL) {
    const [, done, refused, suppressed, silent, empty] = outcomes;
    words.push(`${COUNT} journal lines`, `${asked} requests`, `${done} done`, many(refused, "negative response"));
    words.push(`${suppressed + silent + empty} without a reply`);
  }
  if (run.shows.includes("frames")) words.push(`${frames} frames of the unit`);
  if (!HAS_JOURNAL) words.push("no journal was given: no requests and no session are shown");
  return words.concat(run.end.filter((it) => !it.startsWith("code"))).join(" \u00b7 ");
}

function fillHead() {
  document.getElementById("counts").textContent = countsInWords();
  document.getElementById("testers").append(...names.map(testerBox));
  for (const [sid, name] of Object.entries(run.services).sort()) {
    document.getElementById("service").append(new Option(`${sid} ${name}`, sid));
  }
  document.getElementById("filter").addEventListener("change", show);
  document.getElementById("filter").addEventListener("submit", (event) => event.preventDefault());
}

const chart = new Strip("chart", drawChart);
const journal = new Strip("journal", drawJournal);
chart.scroller.addEventListener("mousemove", follow);
chart.scroller.addEventListener("click", toggle);
journal.scroller.addEventListener("mousemove", (event) => light(itemOfEvent(event)));
journal.scroller.addEventListener("click", goTo);
window.addEventListener("resize", () => [chart, journal].forEach((it) => it.fit()));
journal.sight.style.minWidth = `${longestLine()}ch`;
fillHead();
show();
