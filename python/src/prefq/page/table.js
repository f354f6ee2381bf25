// The table of an answer: in the order of the answer or of a column, with the rows that a filter lets through, and buttons for each row.
import {$, counted, element, inThousands, isLong, isNumber} from "./parts.js";
import {levelName} from "./plot.js";
import {speak} from "./speech.js";

const LEVEL = "Level", ID = "Id";
const WAYS = {none: "ascending", ascending: "descending", descending: "none"};      // what a click makes of the order of a column
let shown, sorted = {way: "none"};

// Shows the answer of a picture. `actions` gives the buttons of a row by what they say.
export function fillTable(columns, picture, actions) {
  if (shown?.picture.question !== picture.question) sorted = {way: "none"};
  shown = {columns, picture, actions, places: order(columns, picture)};
  refill();
}

// The place of the column that names a row: the first of texts, which is mostly a name, if there is one.
export function namePlace(columns) {
  return Math.max(0, columns.findIndex(column => column.kind === "text" || column.kind === "choice"));
}

// The places of the columns in the table: that of the names, those of the question, and the others.
function order(columns, picture) {
  const asked = picture.asked.map(name => columns.findIndex(column => column.name === name));
  return [...new Set([namePlace(columns), ...asked, ...columns.keys()])];
}

function refill() {
  const focus = document.activeElement?.dataset.key, {best} = shown.picture;
  const rows = inOrder(best.filter(isMatch)), areLong = new Set(shown.places.filter(at => isNumber(shown.columns[at]) && best.some(row => isLong(row.cells[at]))));
  $("rows").tHead.replaceChildren(headLine());
  $("rows").tBodies[0].replaceChildren(...rows.map(row => line(row, areLong)));
  const text = $("filter").value.trim() ? `${counted(rows.length)} of ${counted(best.length)} rows that are shown have “${$("filter").value.trim()}”.` : "";
  if (text !== $("matches").textContent) speak("filter", text);
  $("matches").textContent = text;
  // What had the focus has it again, where it is still there.
  if (focus) $("rows").querySelector(`[data-key="${CSS.escape(focus)}"]`)?.focus({preventScroll: true});
}

function isMatch(row) {
  const wanted = $("filter").value.trim().toLowerCase();
  return row.cells.some(cell => cell.toLowerCase().includes(wanted)) || String(row.id) === wanted;
}

// The server says at which place of its column's order each cell is, since numbers of any length are no numbers here. What is missing comes last.
function inOrder(rows) {
  if (sorted.way === "none") return rows;
  const sign = sorted.way === "ascending" ? 1 : -1;
  const place = row => sorted.by === LEVEL ? row.level : sorted.by === ID ? BigInt(row.id) : row.ranks[sorted.by];
  const compare = (a, b) => a === null || b === null ? (a === null) - (b === null) : sign * ((a > b) - (a < b));
  return [...rows].sort((a, b) => compare(place(a), place(b)));
}

function headLine() {
  const {columns, places} = shown;
  const heads = places.map(at => head(columns[at].name, at, `${isNumber(columns[at]) ? "number" : ""} ${at === places[0] ? "name" : ""}`));
  const actions = haveActions() ? [element("th", {scope: "col", textContent: "Actions", className: "actions"})] : [];
  return element("tr", {}, head(LEVEL, LEVEL, ""), ...heads, head(ID, ID, "number"), ...actions);
}

function haveActions() {
  return shown.picture.best.some(row => Object.keys(shown.actions(row)).length);
}

function head(text, by, className) {
  const button = element("button", {type: "button", textContent: text, className: "sort"}), way = sorted.by === by ? sorted.way : "none";
  button.dataset.key = `sort ${by}`;
  button.addEventListener("click", () => {
    sorted = {by, way: WAYS[way]};
    refill();
  });
  return element("th", {scope: "col", className: className.trim(), ariaSort: way}, button);
}

function line(row, areLong) {
  const {columns, places} = shown;
  const cells = places.map((at, number) => {
    const parts = areLong.has(at) ? inThousands(row.cells[at]) : [row.cells[at]];
    return number ? element("td", {className: isNumber(columns[at]) ? "number" : "", title: row.cells[at]}, ...parts) : element("th", {scope: "row", className: `name ${isNumber(columns[at]) ? "number" : ""}`.trim()}, ...parts);
  });
  const made = element("tr", {}, element("td", {textContent: row.level, className: levelName(row.level)}), ...cells, element("td", {textContent: row.id, className: "number id"}));
  made.dataset.id = row.id;
  const actions = Object.entries(shown.actions(row)).map(([text, act]) => action(text, row, act));
  if (haveActions()) made.append(element("td", {className: "actions"}, element("div", {}, ...actions)));
  return made;
}

function action(text, row, act) {
  const button = element("button", {type: "button", textContent: text, ariaLabel: `${text} ${row.cells[shown.places[0]]}`});
  button.dataset.key = `${row.id} ${text}`;
  button.addEventListener("click", act);
  return button;
}

$("filter").addEventListener("input", () => { if (shown) refill(); });
