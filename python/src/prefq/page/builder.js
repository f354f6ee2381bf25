// The builder beside the text of a question: which columns, what is wished of each, and how many rows. The question is written into the text.
import {$, element} from "./parts.js";

const WISHES = {low: "low is good", high: "high is good", around: "near to", pos: "one of"};
const NEEDS_VALUE = ["around", "pos"];
let columns, picked = [];       // the places of the columns with a wish, in the order in which they were picked

// Shows the columns with their kinds, and writes a question at each change.
export function showBuilder(all) {
  columns = all;
  $("wishes").replaceChildren(...columns.map(line));
  $("builder").addEventListener("input", event => {
    const at = event.target.dataset.wish;
    if (at !== undefined) pick(Number(at), event.target.value);
    write();
  });
}

function line(column, at) {
  const allowed = [...(column.ordered ? ["low", "high"] : []), ...(column.measured ? ["around"] : []), "pos"];
  const wish = element("select", {ariaLabel: `Wish for ${column.name}`}, element("option", {value: "", textContent: "any value"}),
    ...allowed.map(value => element("option", {value, textContent: WISHES[value]})));
  wish.dataset.wish = at;
  const value = element("textarea", {rows: 1, ariaLabel: `Value for ${column.name}, of several ones each in a line of its own`, placeholder: column.example.replace(/^'|'$/g, ""), hidden: true});
  value.dataset.value = at;
  const groups = element("label", {className: "choice"}, element("input", {type: "checkbox", ariaLabel: `Groups by ${column.name}`}), element("span", {textContent: "groups"}));
  groups.firstChild.dataset.groups = at;
  const kind = element("span", {className: "kind quiet", textContent: column.spelling, title: column.spelling});
  return element("tr", {}, element("th", {scope: "row"}, column.name, kind), ...[wish, value, groups].map(part => element("td", {}, part)));
}

function pick(at, wish) {
  picked = picked.filter(other => other !== at || wish);
  if (wish && !picked.includes(at)) picked.push(at);
  part("value", at).hidden = !NEEDS_VALUE.includes(wish);
}

function part(kind, at) {
  return $("wishes").querySelector(`[data-${kind}="${at}"]`);
}

// A wish without the value that it needs is not one yet.
function wishes() {
  return picked.map(at => {
    const word = part("wish", at).value, values = part("value", at).value.split("\n").map(text => text.trim()).filter(Boolean);
    if (!NEEDS_VALUE.includes(word)) return `${word}(${columns[at].spelled})`;
    const spelled = (word === "pos" ? values : values.slice(0, 1)).map(text => valueIn(columns[at], text));
    return spelled.length ? `${word}(${[columns[at].spelled, ...spelled].join(", ")})` : "";
  }).filter(Boolean);
}

// A value as a question has it.
function valueIn(column, text) {
  return column.example.startsWith("'") ? `'${text.replaceAll("'", "''")}'` : text;
}

function write() {
  const mode = $("mode").value, some = wishes(), groups = columns.filter((_, at) => part("groups", at).checked).map(column => column.spelled);
  $("number").closest("label").hidden = mode === "best";
  if (some.length) $("question").value = `${mode === "best" ? mode : `${mode} ${$("number").value}`} ${some.join($("sign").value)}${groups.length ? ` by ${groups.join(", ")}` : ""}`;
}
