// Draws what is in sight of a comparison: on the left the unit of the recording, on the right the server, between them the
// testers, time downwards. An exchange is known by its number from 0, in the order of the recording's lines.

const { names, texts, exchanges } = run;
const COUNT = exchanges.line.length;
const KINDS = ["physical", "functional", "unasked"];
const STATES = ["agrees", "differs", "ignored"];
// heights of the rows, in pixels
const STEP = 46, BYTES = 17, HEAD = 40;
const BYTES_OF_A_LINE = 24;

// ---- the exchanges

const stateOf = (item) => STATES[exchanges.state[item]];
const kindOf = (item) => KINDS[exchanges.kind[item]];
// (the server's answer has words of its own only where it is another one)
const isSame = (side, item) => exchanges[side][item] < 0;
const wordsOf = (side, item) => (isSame(side, item) ? "the same" : texts[exchanges[side][item]][0]);
const digitsOf = (side, item) => texts[exchanges[isSame(side, item) ? "sent" : side][item]][1];

// What is said behind the words of the unit's answer: how long it took, and response pending before it.
function noteOf(item) {
  const wait = exchanges.wait[item], pendings = exchanges.pendings[item];
  const found = wait < 0 ? [] : [`after ${wait} ms`];
  if (pendings > 0) found.push(`response pending ${pendings === 1 ? "once" : `${pendings} times`} before`);
  return found.length > 0 ? ` \u00b7 ${found.join(", ")}` : "";
}

// The bytes of both answers as lines, each cut in pieces that differ or not.
function detailsOf(item) {
  const sent = digitsOf("sent", item), expected = digitsOf("expected", item);
  const size = Math.max(sent.length, expected.length), found = [];
  for (let at = 0; at < size; at += 2 * BYTES_OF_A_LINE) {
    for (const [name, own, other] of [["unit", sent, expected], ["server", expected, sent]]) {
      const pieces = piecesOf(own, expected === "" ? own : other, at, at + 2 * BYTES_OF_A_LINE);
      if (pieces.length > 0) found.push({ name, pieces });
    }
  }
  return found;
}

function piecesOf(own, other, from, to) {
  const found = [];
  for (let at = from; at < Math.min(to, own.length); at += 2) {
    const one = own.slice(at, at + 2), two = other.slice(at, at + 2);
    const differs = one !== two && one !== "??" && two !== "??";
    const last = found[found.length - 1];
    if (last && last.differs === differs) last.text += ` ${one}`;
    else found.push({ text: `${found.length > 0 ? " " : ""}${one}`, differs });
  }
  return found;
}

// ---- what is shown

const opened = new Set();
// the exchanges that are shown, and where the row of each begins, at last where the last one ends
let rows = [], tops = [0], lit = -1;

function show() {
  const shown = names.map((_, place) => document.getElementById(`tester${place}`).checked);
  const service = document.getElementById("service").value, differences = document.getElementById("differences").checked;
  rows = [];
  for (let item = 0; item < COUNT; item++) {
    const isOne = shown[exchanges.place[item]] && (service === "" || exchanges.service[item] === service);
    if (isOne && (!differences || stateOf(item) === "differs")) rows.push(item);
  }
  place();
}

function heightOfDetails(item) {
  const count = opened.has(item) ? detailsOf(item).length : 0;
  return count > 0 ? BYTES * count + 4 : 0;
}

// Gives each row its place.
function place() {
  tops = new Float64Array(rows.length + 1);
  rows.forEach((item, at) => { tops[at + 1] = tops[at] + STEP + heightOfDetails(item); });
  chart.total = tops[rows.length] + HEAD;
  chart.fit();
}

// The number of the row at a height; one too many below the last row, -1 above the first.
const rowAt = (y) => lastAt(tops, (top) => top, y);

// ---- the chart

const UNIT = 170, MARGIN = 60, INSET = 10, GAP = 30, TEXT = 330, LEAST_TEXT = 160, LEAST_APART = 64, MOST_APART = 150;
let apart = MOST_APART, first = 0, server = 0;
const testerX = (at) => first + at * apart;

// measures words in the widest font that page.css gives them
const ruler = document.createElement("canvas").getContext("2d");
ruler.font = "600 12px system-ui, sans-serif";
const wideOf = (words) => ruler.measureText(words).width;

// Words, of those that are too wide as many as there is room for.
function cut(words, room) {
  if (wideOf(words) <= room) return words;
  let low = 0, high = words.length;
  while (low < high) {
    const middle = (low + high + 1) >> 1;
    if (wideOf(`${words.slice(0, middle)}\u2026`) <= room) low = middle;
    else high = middle - 1;
  }
  return `${words.slice(0, low)}\u2026`;
}

// The words of both answers, which stand beside each other.
function answersOf(item) {
  const sent = wordsOf("sent", item), note = noteOf(item), expected = wordsOf("expected", item);
  const room = server - UNIT - 2 * INSET - GAP - wideOf(note), half = room / 2;
  return [cut(sent, Math.max(half, room - wideOf(expected))) + note, cut(expected, Math.max(half, room - wideOf(sent)))];
}

// Sets the testers in the middle of the window, as far apart as it has room; returns how wide the chart is.
function setApart() {
  const between = Math.max(names.length - 1, 0);
  const width = Math.max(chart.scroller.clientWidth, UNIT + MARGIN + 2 * LEAST_TEXT + LEAST_APART * between);
  const room = (width - UNIT - MARGIN - 2 * TEXT) / Math.max(between, 1);
  apart = Math.round(Math.min(Math.max(room, LEAST_APART), MOST_APART));
  server = width - MARGIN;
  first = Math.round((UNIT + server - apart * between) / 2);
  return width;
}

function label(text, x, y, kind, side) {
  return element("text", { x, y, class: `${kind} ${side}` }, text);
}

function timeElements(item, y) {
  const time = element("text", { x: UNIT - 22, y: y + 22, class: "time" }, seconds(exchanges.time[item]));
  time.style.fill = colour(exchanges.place[item]);
  return [time, element("text", { x: UNIT - 22, y: y + 38, class: "time" }, `line ${exchanges.line[item]}`)];
}

// An answer as an arrow from the one that gives it, or a short line where it gives none.
function answer(from, to, y, item, isNone) {
  const state = stateOf(item), back = to > from ? 60 : -60;
  if (isNone) return element("path", { d: `M${from} ${y}h${back}`, class: `none ${state}` });
  return arrow(from, to, y, { class: `reply ${state}`, stroke: colour(exchanges.place[item]) });
}

function drawRow(svg, item, y) {
  const state = stateOf(item), kind = kindOf(item), x = testerX(exchanges.place[item]), [sent, expected] = answersOf(item);
  const group = element("g", { class: `opens exchange ${state}${item === lit ? " lit" : ""}` });
  group.append(...timeElements(item, y));
  if (kind !== "unasked") {
    const how = { class: `request ${kind}`, stroke: colour(exchanges.place[item]) };
    group.append(arrow(x, UNIT, y + 18, how), arrow(x, server, y + 18, how));
  }
  group.append(
    label(cut(wordsOf("ask", item), server - UNIT - 2 * INSET), UNIT + INSET, y + 14, "request", "sent"),
    answer(UNIT, x, y + 38, item, digitsOf("sent", item) === ""),
    label(sent, UNIT + INSET, y + 34, state, "sent"),
    answer(server, x, y + 38, item, exchanges.silent[item] === 1),
    label(expected, server - INSET, y + 34, state, "expected"),
  );
  if (opened.has(item)) drawDetails(group, item, y + STEP);
  svg.append(group);
}

function drawDetails(group, item, y) {
  detailsOf(item).forEach(({ name, pieces }, at) => {
    const line = element("text", { x: UNIT + 24, y: y + BYTES * at + 12, class: "frame" }, `${name.padEnd(8)}`);
    for (const { text, differs } of pieces) line.append(element("tspan", { class: differs ? "differs" : "" }, text));
    group.append(line);
  });
}

function drawLives(svg, view) {
  for (const x of [UNIT, server]) svg.append(element("path", { d: `M${x} ${HEAD}V${view}`, class: "life unit" }));
  names.forEach((_, at) => {
    svg.append(element("path", { d: `M${testerX(at)} ${HEAD}V${view}`, class: "life", stroke: colour(at) }));
  });
}

function drawHead(svg, width) {
  svg.append(
    element("rect", { x: 0, y: 0, width, height: HEAD - 4, class: "head" }),
    element("path", { d: `M0 ${HEAD - 4}H${width}`, class: "rule" }),
    element("text", { x: UNIT - 22, y: HEAD - 12, class: "time" }, "seconds"),
    element("text", { x: UNIT, y: HEAD - 12, class: "name" }, "unit"),
    element("text", { x: server, y: HEAD - 12, class: "name" }, "server"),
  );
  names.forEach((name, at) => {
    const it = element("text", { x: testerX(at), y: HEAD - 12 - (names.length > 3 ? (at % 2) * 14 : 0), class: "name" }, name);
    it.style.fill = colour(at);
    svg.append(it);
  });
}

function drawChart(top, view) {
  const width = setApart();
  const svg = element("svg", { width, height: view });
  const from = Math.max(rowAt(top), 0);
  let end = from;
  while (end < rows.length && tops[end] < top + view - HEAD) end++;
  const marked = rows.slice(from, end).indexOf(lit) + from;
  const placed = (at) => tops[at] - top + HEAD;
  if (marked >= from) svg.append(element("rect", { x: 0, y: placed(marked), width, height: tops[marked + 1] - tops[marked], class: "lit" }));
  drawLives(svg, view);
  for (let at = from; at < end; at++) drawRow(svg, rows[at], placed(at));
  drawHead(svg, width);
  chart.sight.replaceChildren(svg);
}

// ---- the mouse, and the keys

// The exchange under the mouse; -1 where there is none.
function itemOfEvent(event) {
  const y = event.clientY - chart.sight.getBoundingClientRect().top;
  const at = y < HEAD ? -1 : rowAt(y - HEAD + chart.top);
  return at >= 0 && at < rows.length ? rows[at] : -1;
}

// Marks an exchange, and says what it is.
function mark(item) {
  lit = item;
  chart.redraw();
  document.getElementById("told").textContent = told(item);
}

let pointed = [-1, -1];

function follow(event) {
  // (what is scrolled under a mouse that stands still is told as a move, too)
  const [x, y] = pointed;
  pointed = [event.clientX, event.clientY];
  const item = itemOfEvent(event);
  if (item >= 0 && item !== lit && (x !== event.clientX || y !== event.clientY)) mark(item);
}

// Goes to the next row that differs, downwards by 1 or upwards by -1: from the row that is marked, else from the first in sight.
function goToDifference(step) {
  const marked = rows.indexOf(lit), inSight = Math.max(rowAt(chart.top), 0);
  let at = marked >= 0 ? marked + step : step > 0 ? inSight : inSight - 1;
  while (at >= 0 && at < rows.length && stateOf(rows[at]) !== "differs") at += step;
  if (at < 0 || at >= rows.length) {
    document.getElementById("told").textContent = `No difference ${step > 0 ? "below" : "above"}.`;
    return;
  }
  mark(rows[at]);
  chart.reveal(tops[at], tops[at + 1] - tops[at] + HEAD);
}

function press(event) {
  const step = { n: 1, p: -1 }[event.key];
  if (!step || event.ctrlKey || event.altKey || event.metaKey || event.target.tagName === "SELECT") return;
  goToDifference(step);
  event.preventDefault();
}

function told(item) {
  const sides = [`unit: ${wordsOf("sent", item)}${noteOf(item)}`, `server: ${wordsOf("expected", item)}`];
  return [`line ${exchanges.line[item]}`, names[exchanges.place[item]], wordsOf("ask", item), ...sides].join("  \u00b7  ");
}

function toggle(event) {
  const item = itemOfEvent(event);
  if (item < 0) return;
  if (!opened.delete(item)) opened.add(item);
  place();
}

// ---- the page's head

function countsInWords() {
  const count = (state) => exchanges.state.filter((it) => STATES[it] === state).length;
  const refused = exchanges.sent.filter((it) => texts[it][1].startsWith("7F")).length;
  const words = [many(COUNT, "exchange"), `${count("agrees")} agree`, `${count("differs")} differ`, many(refused, "negative response")];
  if (count("ignored") > 0) words.push(`${count("ignored")} ignored`);
  return [...words, ...run.notes].join(" \u00b7 ");
}

function fillHead() {
  document.getElementById("counts").textContent = countsInWords();
  document.getElementById("testers").append(...names.map(testerBox));
  for (const [sid, name] of Object.entries(run.services).sort()) {
    document.getElementById("service").append(new Option(`${sid} ${name}`, sid));
  }
  document.getElementById("filter").addEventListener("change", show);
  document.getElementById("filter").addEventListener("submit", (event) => event.preventDefault());
}

const chart = new Strip("chart", drawChart);
chart.scroller.addEventListener("mousemove", follow);
chart.scroller.addEventListener("click", toggle);
document.addEventListener("keydown", press);
window.addEventListener("resize", () => chart.fit());
fillHead();
show();
