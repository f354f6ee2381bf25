// Why a row is not better placed: the rows that are better, each with its level and the values that the question names.
import {$, counted, element, isNumber, request} from "./parts.js";
import {namePlace} from "./table.js";

// Shows the rows that are better than one, in what is asked.
export async function showWhy(columns, asked, id) {
  const query = new URLSearchParams(asked);
  query.set("id", id);
  const received = await request(`why?${query}`).catch(why => why.reply), isReplied = received.error === undefined;
  $("better").tHead.replaceChildren();
  $("better").tBodies[0].replaceChildren();
  $("reasons").querySelector("h2").textContent = isReplied ? `Why ${received.row.cells[namePlace(columns)]}, row ${id}, is where it is` : `Row ${id}`;
  $("reason").textContent = isReplied ? sentence(received) : received.error;
  if (isReplied) fill(columns, received);
  if (!$("reasons").open) $("reasons").showModal();
}

function sentence({version, rows, count}) {
  const shown = count > rows.length ? `, of which the first ${counted(rows.length)} are shown` : "";
  return count ? `In version ${version}, ${counted(count)} ${count === 1 ? "row is" : "rows are"} better${shown}.` : `In version ${version}, no row is better: it is in the first level.`;
}

// The row itself stands above those that are better.
function fill(columns, {row, rows, asked}) {
  const places = [...new Set([namePlace(columns), ...asked.map(name => columns.findIndex(column => column.name === name))])];
  const head = (text, isRight) => element("th", {scope: "col", textContent: text, className: isRight ? "number" : ""});
  $("better").tHead.replaceChildren(element("tr", {}, head("Level"), ...places.map(at => head(columns[at].name, isNumber(columns[at]))), head("Id", true)));
  const line = (shown, className, level) => element("tr", {className}, element("td", {textContent: level}),
    ...places.map((at, number) => element(number ? "td" : "th", {textContent: shown.cells[at], className: isNumber(columns[at]) ? "number" : "", ...(number ? {} : {scope: "row"})})),
    element("td", {textContent: shown.id, className: "number"}));
  $("better").tBodies[0].replaceChildren(line(row, "itself", "this row"), ...rows.map(better => line(better, "", better.level ?? "behind 1,000")));
}
