// A scatter plot with axes: the rows of each level and some of the others, the first level of each group joined by a staircase.
import {hasLogarithm, scale} from "./scales.js";
import {stairs} from "./stairs.js";

const SVG = "http://www.w3.org/2000/svg";
const SPACE = {left: 66, right: 18, top: 14, bottom: 50};
const REACH = 14;       // pixels from a point at which it is meant
const COLOURS = 7;      // of groups; further ones have one together
const SHAPES = {
  first: "M-6,0a6,6 0 1,0 12,0a6,6 0 1,0 -12,0",
  second: "M0,-6.5L6.5,0L0,6.5L-6.5,0Z",
  further: "M-5,-5H5V5H-5Z",
  other: "M-3,0a3,3 0 1,0 6,0a3,3 0 1,0 -6,0",
};
export const VIEWS = {all: "all rows", answer: "the answer alone", logarithmic: "logarithmic"};

export function levelName(level) {
  return level === 1 ? "first" : level === 2 ? "second" : "further";
}

// The name of a group's colour; none where there are no groups.
export function colourOf(group) {
  return group === undefined || group === null ? "" : group < COLOURS ? `group${group}` : "groups";
}

export function shape(name, colour = "") {
  return make("path", {d: SHAPES[name], class: `point ${name} ${colour}`.trim()});
}

export function make(tag, attributes, text) {
  const element = document.createElementNS(SVG, tag);
  for (const [name, value] of Object.entries(attributes)) element.setAttribute(name, value);
  if (text !== undefined) element.textContent = text;
  return element;
}

// What the plot has drawn, by the id of its row, so that a row that moves is seen to move: each with its place.
const drawn = new Map();

// Draws rows by their `x` and `y`, in a view; returns how many have no value on an axis, how many lie outside of the view, and the axes that have no logarithm.
export function draw(svg, rows, axes, view) {
  const width = svg.clientWidth || 640, height = Math.round(Math.min(460, Math.max(280, width * 0.72)));
  svg.setAttribute("viewBox", `0 0 ${width} ${height}`);
  svg.style.height = `${height}px`;
  const valued = rows.filter(row => row.x !== null && row.y !== null), best = valued.filter(row => row.level);
  const {across, up, linear} = scales(view === "answer" && best.length ? best : valued, axes, view, width, height);
  const placed = valued.filter(row => row.level || view !== "answer" || row.x >= across.least && row.x <= across.most && row.y >= up.least && row.y <= up.most);
  svg.classList.toggle("crowded", placed.length * 600 > width * height);
  const layers = Object.fromEntries(["axes", "other", "stairs", "further", "second", "first"].map(name => [name, layer(svg, name)]));
  layers.axes.replaceChildren(...axisLines(across, up, axes, width, height));
  layers.stairs.replaceChildren(...staircases(placed, across, up));
  const left = new Set(drawn.keys());
  for (const row of placed) {
    left.delete(row.id);
    place(row, layers, across.at(row.x), up.at(row.y));
  }
  for (const id of left) {
    drawn.get(id).point.remove();
    drawn.delete(id);
  }
  return {unplaced: rows.length - valued.length, outside: valued.length - placed.length, linear};
}

function scales(rows, axes, view, width, height) {
  const values = [rows.map(row => row.x), rows.map(row => row.y)];
  const areLogarithmic = values.map((some, at) => view === "logarithmic" && some.length > 0 && hasLogarithm(some, axes[at].kind));
  const across = scale(values[0], axes[0].kind, SPACE.left, width - SPACE.right, Math.max(2, Math.floor(width / 110)), areLogarithmic[0]);
  const up = scale(values[1], axes[1].kind, height - SPACE.bottom, SPACE.top, 6, areLogarithmic[1]);
  return {across, up, linear: view === "logarithmic" ? axes.filter((_, at) => !areLogarithmic[at]).map(axis => axis.name) : []};
}

// A staircase for each group, or one for all rows.
function staircases(rows, across, up) {
  const groups = new Map();
  for (const row of rows) groups.set(row.group, [...(groups.get(row.group) ?? []), row]);
  return [...groups].map(([group, some]) => {
    const corners = stairs(some).map(([x, y], at) => `${at ? "L" : "M"}${across.at(x)},${up.at(y)}`);
    return make("path", {class: `stairs ${colourOf(group)}`.trim(), d: corners.join("")});
  });
}

function layer(svg, name) {
  let found = svg.querySelector(`[data-layer="${name}"]`);
  if (!found) {
    found = make("g", {"data-layer": name});
    svg.append(found);
  }
  return found;
}

function place(row, layers, x, y) {
  const name = row.level ? levelName(row.level) : "other", layer = layers[name];
  const point = drawn.get(row.id)?.point ?? shape(name);
  if (!point.firstChild) point.append(make("title", {}));
  drawn.set(row.id, {point, x, y});
  point.dataset.id = row.id;
  if (point.parentNode !== layer) layer.append(point);
  point.setAttribute("class", `point ${name} ${row.level ? colourOf(row.group) : ""}`.trim());
  point.setAttribute("d", SHAPES[name]);
  point.style.transform = `translate(${x}px, ${y}px)`;
  point.firstChild.textContent = row.text;
}

// The id of the row whose point is the nearest to a place of the window, where one is near.
export function rowAt(svg, clientX, clientY) {
  const box = svg.getBoundingClientRect(), x = clientX - box.left - svg.clientLeft, y = clientY - box.top - svg.clientTop;
  let nearest = null, least = REACH;
  for (const [id, {x: left, y: top}] of drawn) {
    const distance = Math.hypot(left - x, top - y);
    if (distance < least) [nearest, least] = [id, distance];
  }
  return nearest;
}

function axisLines(across, up, axes, width, height) {
  const right = width - SPACE.right, bottom = height - SPACE.bottom;
  return [
    ...across.ticks.map(tick => make("line", {class: "grid", x1: across.at(tick), x2: across.at(tick), y1: SPACE.top, y2: bottom})),
    ...up.ticks.map(tick => make("line", {class: "grid", x1: SPACE.left, x2: right, y1: up.at(tick), y2: up.at(tick)})),
    ...across.ticks.map(tick => make("text", {x: across.at(tick), y: bottom + 18, "text-anchor": "middle"}, across.text(tick))),
    ...up.ticks.map(tick => make("text", {x: SPACE.left - 8, y: up.at(tick) + 4, "text-anchor": "end"}, up.text(tick))),
    make("text", {class: "name", x: (SPACE.left + right) / 2, y: height - 10, "text-anchor": "middle"}, axes[0].name),
    make("text", {class: "name", transform: `translate(16 ${(SPACE.top + bottom) / 2}) rotate(-90)`, "text-anchor": "middle"}, axes[1].name),
  ];
}
