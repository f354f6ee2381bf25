// Changes rows. Only what is changed is sent, with the version that was seen, and what somebody else has changed since is shown and asked for.
import {$, element, isNumber, request, said} from "./parts.js";

let run;        // which server has the rows that are shown: one that was started anew may have others
const removed = new Set();      // the ids of rows whose removal was asked for here
let opened;     // what the dialog shows: the row's id, none of a new one, the version that was seen, and the fields

export function edits(about) {
  run = about.run;
}

function send(method, path, values, seen) {
  return request(`${path}?${new URLSearchParams({run, ...(seen === undefined ? {} : {seen})})}`, {method, headers: {"Content-Type": "application/json"}, body: values && JSON.stringify(values)});
}

// Why a change has failed. Where no reply came, it may have been made.
function reason(why) {
  return why.status ? why.message : `${why.message}: look whether it was done before you do it again`;
}

// A column in the dialog: the text that the row has, and the control, in which it may be another one.
class Field {
  constructor(column, text) {
    this.column = column;
    this.control = control(column);
    this.box = element("div", {className: "field"}, element("label", {}, column.name, this.control));
    this.control.addEventListener("input", () => this.chosen?.());
    this.show(text);
  }

  show(text) {
    this.text = this.control.value = text;
    this.shown = this.control.value;        // as the control has it: one line end in place of another, say
  }

  get isChanged() {
    return this.control.value !== this.shown;
  }

  // The value that is sent, with the line ends that the text had. Nothing is sent as missing.
  get value() {
    const end = this.text.match(/\r\n?|\n/);
    return this.control.value === "" ? null : end ? this.control.value.replaceAll("\n", end[0]) : this.control.value;
  }

  set isRefused(isRefused) {
    for (const [name, value] of [["aria-invalid", "true"], ["aria-describedby", "wrong"]]) isRefused ? this.control.setAttribute(name, value) : this.control.removeAttribute(name);
    if (isRefused) this.control.focus();
  }

  say(...parts) {
    this.chosen = null;
    this.box.querySelector(".changed")?.remove();
    if (parts.length) this.box.append(element("div", {className: "changed"}, ...parts));
  }

  // Somebody else has changed it too: which one counts?
  ask(theirs) {
    let mine = this.control.value;
    const before = this.text;
    const choice = (text, ...children) => {
      const radio = element("input", {type: "radio", name: `choice of ${this.column.name}`, required: true});
      return [radio, element("label", {className: "choice"}, radio, element("span", {}, text, ...children))];
    };
    const [keep, keepLabel] = choice("Keep theirs: ", quote(theirs)), [save, saveLabel] = choice("Save mine");
    keep.addEventListener("change", () => { this.control.value = this.shown; });
    save.addEventListener("change", () => { this.control.value = mine; });
    this.show(theirs);
    this.control.value = mine;
    this.say(element("p", {}, "Somebody else has changed this. You saw: ", quote(before)), element("div", {role: "radiogroup", ariaLabel: this.column.name}, keepLabel, saveLabel));
    this.chosen = () => {
      mine = this.control.value;
      save.checked = true;
    };
  }
}

function quote(text) {
  return text === "" ? element("em", {textContent: "nothing"}) : element("b", {className: text.includes("\n") ? "lines" : "", textContent: text});
}

function control(column) {
  if (column.kind === "bool") {
    // Its own words for true and false, since the cells have these.
    const [yes, no] = column.truth;
    return element("select", {name: column.name}, ...[["", "unknown"], [yes, "yes"], [no, "no"]].map(([value, textContent]) => element("option", {value, textContent})));
  }
  if (column.kind === "text") {
    const area = element("textarea", {name: column.name, rows: 1});
    area.addEventListener("keydown", saveOfOneLine);
    return area;
  }
  const input = element("input", {name: column.name, type: column.iso ? "date" : "text", autocomplete: "off"});
  if (isNumber(column)) input.inputMode = "decimal";
  return input;
}

// In a text of one line Enter saves, and Shift with Enter begins another line; in one of several lines Enter does.
function saveOfOneLine(event) {
  if (event.key !== "Enter" || event.shiftKey || event.isComposing || event.target.value.includes("\n")) return;
  event.preventDefault();
  $("values").requestSubmit($("save"));
}

// Opens the dialog for a row of the picture of this version, or for a new one.
export function edit(columns, row, version) {
  opened = {id: row?.id, seen: version, fields: columns.map((column, at) => new Field(column, row ? row.cells[at] : ""))};
  $("what").textContent = row ? `Change ${row.cells[0]}` : "Add a row";
  $("fields").replaceChildren(...opened.fields.map(field => field.box));
  $("wrong").hidden = true;
  $("editor").showModal();
}

export async function save() {
  if ($("save").disabled) return;
  $("save").disabled = true;          // until there is a reply: a second click would be another change
  for (const field of opened.fields) field.isRefused = false;
  const changed = opened.fields.filter(field => field.isChanged);
  const values = Object.fromEntries(changed.map(field => [field.column.name, field.value]));
  try {
    if (opened.id === undefined) await send("POST", "rows", values);
    else if (changed.length) await send("PUT", `rows/${opened.id}`, values, opened.seen);
    $("editor").close();
    said(opened.id === undefined ? "Added." : changed.length ? "Changed." : "Nothing was changed.");
  } catch (why) {
    $("wrong").textContent = why.reply.kind === "changed" ? compare(why.reply) : why.status === 404 ? "Somebody else has removed this row." : reason(why);
    $("wrong").hidden = false;
    for (const field of opened.fields) if (field.column.name === why.reply.column) field.isRefused = true;
  } finally {
    $("save").disabled = false;
  }
}

// Shows what somebody else has changed, and asks where both have; returns what to say of it.
function compare({version, values}) {
  opened.seen = version;
  for (const field of opened.fields.filter(field => Object.hasOwn(values, field.column.name))) {
    const theirs = values[field.column.name] ?? "";
    if (field.isChanged && field.control.value !== theirs) field.ask(theirs);
    else {
      field.show(theirs);
      field.say("Somebody else has changed this.");
    }
  }
  const first = $("fields").querySelector("input[type=radio]");
  first?.focus();
  return `Somebody else has changed this row. ${first ? "Choose what counts, then save" : "Save again if it is right now"}.`;
}

// Removes a row of the picture of this version. A second click would be told that it is not there, in place of the way back.
export async function remove(row, version) {
  if (removed.has(row.id)) return;
  removed.add(row.id);
  try {
    const {values} = await send("DELETE", `rows/${row.id}`, undefined, version);
    said(`${row.cells[0]} is removed. `, undo(values));
  } catch (why) {
    removed.delete(row.id);
    if (why.reply.kind !== "changed") return said(reason(why));
    const news = Object.entries(why.reply.values).flatMap(([name, value], at) => [`${at ? ", " : ""}${name} is `, quote(value ?? ""), " now"]);
    said(`Somebody else has changed ${row.cells[0]}: `, ...news, ". ", button("Remove it all the same", () => remove(row, why.reply.version)));
  }
}

// Adds a row again; where that fails, as where the server does not answer, the way back stays.
function undo(values) {
  return button("Undo", () => send("POST", "rows", values).then(() => said("Added again."), why => said(`${reason(why)}. `, undo(values))));
}

// A second click would be another change.
function button(textContent, act) {
  const made = element("button", {type: "button", textContent});
  made.addEventListener("click", () => {
    made.disabled = true;
    act();
  });
  return made;
}
