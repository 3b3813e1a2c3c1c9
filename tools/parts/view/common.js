"use strict";
// What all pages have in common: their data, colours, elements, and strips that scroll.

const run = JSON.parse(document.getElementById("data").textContent);
const COLOURS = ["#1f6fb4", "#b5541c", "#2b8a3e", "#8a3ea8", "#0b7f8a", "#7a6a00", "#5a52c4", "#8c3b5e"];
const SVG = "http://www.w3.org/2000/svg";
// the most that a browser lets an element be high
const HIGHEST = 10_000_000;
const colour = (place) => COLOURS[place % COLOURS.length];
const seconds = (ms) => `${Math.floor(ms / 1000)}.${String(ms % 1000).padStart(3, "0")}`;

// How many there are of something, in words.
const many = (count, word) => `${count} ${word}${count === 1 ? "" : "s"}`;

function element(name, attributes, text) {
  const it = document.createElementNS(SVG, name);
  for (const [key, value] of Object.entries(attributes)) it.setAttribute(key, value);
  if (text !== undefined) it.textContent = text;
  return it;
}

// An arrow from x to another x, its head at the other.
function arrow(from, to, y, attributes) {
  const back = to > from ? -7 : 7;
  const d = `M${from} ${y}L${to} ${y}M${to + back} ${y - 4}L${to} ${y}L${to + back} ${y + 4}`;
  return element("path", { d, ...attributes });
}

function testerBox(name, place) {
  const label = document.createElement("label");
  const box = document.createElement("input");
  Object.assign(box, { type: "checkbox", id: `tester${place}`, checked: true });
  label.style.color = colour(place);
  label.append(box, ` ${name}`);
  return label;
}

// The last index whose value is at or below `most`, where values rise.
function lastAt(list, value, most) {
  let low = 0, high = list.length;
  while (low < high) {
    const middle = (low + high) >> 1;
    if (value(list[middle]) <= most) low = middle + 1;
    else high = middle;
  }
  return low - 1;
}

// ---- a strip that scrolls over more than a browser lets be high

class Strip {
  constructor(id, draw) {
    this.scroller = document.getElementById(id);
    [this.room] = this.scroller.getElementsByClassName("room");
    [this.sight] = this.scroller.getElementsByClassName("sight");
    this.total = 0;
    this.draw = draw;
    this.scroller.addEventListener("scroll", () => this.redraw());
  }

  get view() {
    return this.scroller.clientHeight;
  }

  // What a pixel of the scroll bar's way stands for.
  get scale() {
    const way = Math.min(this.total, HIGHEST) - this.view;
    return way > 0 ? (this.total - this.view) / way : 1;
  }

  get top() {
    return this.scroller.scrollTop * this.scale;
  }

  set top(y) {
    this.scroller.scrollTop = Math.max(y, 0) / this.scale;
    this.redraw();
  }

  fit() {
    this.size();
    this.redraw();
  }

  size() {
    this.sight.style.height = `${this.view}px`;
    this.room.style.height = `${Math.max(Math.min(this.total, HIGHEST), this.view)}px`;
  }

  redraw() {
    const { view } = this;
    this.draw(this.top, view);
    // what was drawn may be wider than the window: the scroll bar that comes then takes from the height
    if (this.view !== view) this.size();
  }

  // Brings a place of some height into sight, where it isn't.
  reveal(y, height) {
    if (y < this.top || y + height > this.top + this.view) this.top = y - this.view / 2;
  }
}
