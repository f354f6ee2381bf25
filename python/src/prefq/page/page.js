// The page: asks a question, and shows each picture that the server sends.
import {showBuilder} from "./builder.js";
import {edit, edits, remove, save} from "./edit.js";
import {showLegend} from "./legend.js";
import {$, counted, element, request} from "./parts.js";
import {draw, rowAt, VIEWS} from "./plot.js";
import {speak} from "./speech.js";
import {streamOf} from "./stream.js";
import {fillTable, namePlace} from "./table.js";
import {showWhy} from "./why.js";

const EXCERPT = 72;
const BESIDE = ["where", "top"];       // what is asked beside the question
const LINES = /('[^']*'|"[^"]*")|\s*\n\s*/g;     // ends of lines in a question, but for those of its names and texts
const NAMED = 3;        // rows of the answer that are named in a message
const AGAIN = 3000;     // milliseconds until a server that has refused is asked again
const SILENCE = 40000;  // milliseconds without a sign of life of the server, which sends one every 15 seconds
let about, picture;
let stream, silence, failure = "", isLost = false;      // what the server tells, and whether it does
let version, query, shown, refused, pending;            // what is to be shown, the questions of the picture and of a refusal, and the request that is under way

// Until the server says what it has, it is asked again.
function connect() {
  request("about").then(begin, why => {
    lost(why.message);
    setTimeout(connect, AGAIN);
  });
}

function begin(received) {
  about = received;
  document.title = $("title").textContent = about.title;
  $("examples").append(element("option", {textContent: "choose …", value: ""}), ...about.questions.map(text => element("option", {textContent: text, value: text})));
  for (const axis of ["x", "y"]) {
    $(axis).append(element("option", {textContent: "as asked", value: ""}), ...about.columns.filter(column => column.axis).map(column => element("option", {textContent: column.name, value: column.name})));
    $(axis).addEventListener("change", ask);
  }
  $("view").append(...Object.entries(VIEWS).map(([value, textContent]) => element("option", {value, textContent})));
  $("add").hidden = !about.editable;
  edits(about);
  showBuilder(about.columns);
  addEventListener("popstate", restore);
  stream = streamOf(about.run, hear);
  document.addEventListener("visibilitychange", listen);
  listen();
  restore();
}

// What is asked is in the address, so that Back goes back to the question before.
function restore() {
  const asked = new URLSearchParams(location.search);
  $("question").value = asked.get("question") || about.questions[0];
  for (const field of BESIDE) $(field).value = asked.get(field) ?? "";
  for (const axis of ["x", "y"]) $(axis).value = about.columns.some(column => column.axis && column.name === asked.get(axis)) ? asked.get(axis) : "";
  watch();
}

function ask() {
  const address = `?${asked()}`;
  if (address !== location.search) history.pushState(null, "", address);
  watch();
}

function watch() {
  query = asked();
  pending?.close();
  pending = undefined;
  refresh();
}

function asked() {
  const found = new URLSearchParams({question: $("question").value.trim().replace(LINES, (_, quoted) => quoted ?? " ")});
  for (const field of BESIDE) if ($(field).value.trim()) found.set(field, $(field).value.trim());
  for (const axis of ["x", "y"]) if ($(axis).value) found.set(axis, $(axis).value);
  return found;
}

// Hears of changes, but for a page that nobody sees.
function listen() {
  clearTimeout(silence);
  if (document.hidden) return stream.leave();
  stream.join();
  heard();
}

function hear({name, data}) {
  if (document.hidden) return;
  if (name === "error") {
    lost(failure || undefined);
    failure = "";
    return;
  }
  heard();
  if (name === "failed") failure = JSON.parse(data).error;
  if (name === "message") changed(JSON.parse(data));
}

// What the server says of its rows. Where it was started anew, its columns and rows may be others.
function changed(told) {
  if (told.run !== about.run) return location.reload();
  version = told.version;
  if (isLost) pending?.close();
  if (isLost) pending = undefined;
  isLost = false;
  refresh();
}

// A connection may be broken without an end, as behind a sleep of the machine.
function heard() {
  clearTimeout(silence);
  silence = setTimeout(() => {
    lost();
    stream.anew();
    heard();
  }, SILENCE);
}

// Asks for the picture of the rows as they are: one at a time, and again where they have changed meanwhile. By a stream of one event, since what is refused is no fault.
function refresh() {
  if (pending || document.hidden) return;
  if (query === refused || query === shown && !(picture.version < version)) return isLive();
  const text = query, own = pending = new EventSource(`events?${text}&once=1`);
  const ends = (name, then) => own.addEventListener(name, ({data}) => {
    own.close();
    if (pending !== own) return;
    pending = undefined;
    then(data);
  });
  const fails = why => {
    lost(why);
    setTimeout(refresh, AGAIN);
  };
  ends("message", data => {
    [shown, refused] = [text, undefined];
    $("download").href = `answer.csv?${text}`;
    show(JSON.parse(data));
    refresh();
  });
  ends("refused", data => {
    refused = text;
    refuse(JSON.parse(data));
  });
  ends("failed", data => fails(JSON.parse(data).error));
  ends("error", () => fails());
}

function isLive() {
  $("state").textContent = query !== refused ? `Live, version ${picture.version}` : picture ? "The question is refused; the picture is that of the question before." : "The question is refused.";
}

function lost(why = "The server does not answer") {
  isLost = true;
  state(`${why}. Trying again …`);
}

function state(text) {
  if ($("state").textContent !== text) speak("state", text);
  $("state").textContent = text;
}

// What is refused is the question, the condition, which is the text that has the place then, or how many rows are wanted.
function refuse(reason) {
  const field = query.has("where") && reason.question === query.get("where") ? "where" : reason.error.startsWith("top is") ? "top" : "question";
  mark(field);
  $("refusal").replaceChildren(element("p", {textContent: reason.error}));
  if (Number.isInteger(reason.place)) $("refusal").append(pointed(query.get(field), reason.place));
  $("refusal").hidden = false;
  isLive();
}

// Marks the field that is refused, if one is.
function mark(refused) {
  for (const field of ["question", ...BESIDE]) {
    if (field === refused) $(field).setAttribute("aria-invalid", "true");
    else $(field).removeAttribute("aria-invalid");
  }
}

// The question with a caret below its character, the number `place`; of a long one the part around it.
function pointed(question, place) {
  const signs = [...question], begin = signs.length > EXCERPT ? Math.max(0, Math.min(place - EXCERPT / 2, signs.length - EXCERPT)) : 0;
  const before = (begin ? "…" : "") + signs.slice(begin, place).join(""), after = signs.slice(place + 1, begin + EXCERPT).join("") + (signs.length > begin + EXCERPT ? "…" : "");
  // Signs that may be as wide as two stand above the caret too, unseen.
  const space = before.split(/([^ -~…]+)/).map((part, at) => at % 2 ? element("span", {className: "unseen", textContent: part}) : " ".repeat(part.length));
  return element("pre", {}, before, element("mark", {textContent: signs[place] || " "}), `${after}\n`, ...space, element("span", {className: "caret", textContent: "^"}));
}

function show(received) {
  const before = picture, text = summary(received), notes = received.notes.length ? `Note: ${received.notes.join("; ")}` : "";
  picture = received;
  mark(null);
  $("refusal").hidden = true;
  isLive();
  const news = before && ["question", ...BESIDE].every(part => before[part] === received[part]) ? changes(before.best, received.best) : [];
  if (text !== $("summary").textContent || notes !== $("notes").textContent || news.length) speak("answer", [text, notes, ...news].join(" "));
  $("summary").textContent = text;
  $("notes").textContent = notes;
  fillTable(about.columns, received, actions);
  redraw();
}

function summary({best, found, count, where, top}) {
  const levels = Math.max(0, ...best.map(row => row.level)), first = best.filter(row => row.level === 1).length;
  const more = found > best.length ? `, of which the first ${counted(best.length)} are shown, and all are in the download` : "";
  const split = levels > 1 ? `: ${counted(first)} in the first level, ${counted(found - first)} behind it` : "";
  const beside = [...(where ? [` Only rows where ${where} count.`] : []), ...(top ? [` ${top} rows are wanted.`] : [])];
  return `${counted(found)} of ${counted(count)} rows are in the answer${more}${split}.${beside.join("")}`;
}

// Which rows came into the answer, and which left it.
function changes(before, now) {
  const without = (some, others) => some.filter(row => !others.some(other => other.id === row.id)).map(row => row.cells[namePlace(about.columns)]);
  const told = (what, names) => names.length ? [`${what}: ${names.slice(0, NAMED).join(", ")}${names.length > NAMED ? ` and ${names.length - NAMED} more` : ""}.`] : [];
  return [...told("New in the answer", without(now, before)), ...told("No longer in the answer", without(before, now))];
}

function redraw() {
  if (!picture) return;
  const labels = row => about.columns.map((column, at) => `${column.name}: ${row.cells[at]}`).join("\n");
  const rows = [...picture.others.map(([id, x, y, text, group]) => ({id, x, y, text, group})), ...picture.best.map(row => ({...row, text: labels(row)}))];
  const axes = picture.axes.map(name => about.columns.find(column => column.name === name) || {name: "row", kind: "whole"});
  showLegend(picture, draw($("plot"), rows, axes, $("view").value));
}

// What the buttons of a row do, as it was in the picture in which it is shown.
function actions(row) {
  const {version} = picture, changes = about.editable ? {Edit: () => edit(about.columns, row, version), Remove: () => remove(row, version)} : {};
  return row.level > 1 ? {...changes, "Why?": () => explain(row.id)} : changes;
}

function explain(id) {
  showWhy(about.columns, new URL($("download").href).searchParams, id);
}

function choose(event) {
  const id = event.target.closest?.("[data-id]")?.dataset.id;
  for (const chosen of document.querySelectorAll(".chosen")) chosen.classList.remove("chosen");
  if (id) for (const same of document.querySelectorAll(`tr[data-id="${id}"], .point[data-id="${id}"]`)) same.classList.add("chosen");
}

$("ask").addEventListener("submit", event => { event.preventDefault(); ask(); });
$("question").addEventListener("keydown", event => { if (event.key === "Enter" && !event.shiftKey && !event.isComposing) { event.preventDefault(); ask(); } });
$("examples").addEventListener("change", event => { if (event.target.value) { $("question").value = event.target.value; event.target.value = ""; ask(); } });
$("add").addEventListener("click", () => edit(about.columns));
$("values").addEventListener("submit", event => {
  if (event.submitter?.value === "cancel") return;
  event.preventDefault();
  save();
});
$("view").addEventListener("change", redraw);
$("plot").addEventListener("click", event => {
  const id = rowAt($("plot"), event.clientX, event.clientY);
  if (id !== null) explain(id);
});
$("which").addEventListener("submit", event => {
  event.preventDefault();
  explain($("row").value.trim());
});
document.addEventListener("pointerover", choose);
document.addEventListener("focusin", choose);
// With another width all points stand elsewhere at once; they move only where their values do.
new ResizeObserver(() => {
  $("plot").classList.add("still");
  redraw();
  requestAnimationFrame(() => $("plot").classList.remove("still"));
}).observe($("plot"));
connect();
