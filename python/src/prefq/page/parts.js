// What the other files build the page of, and what it says of what was done.
import {speak} from "./speech.js";

const LONGEST = 60000;      // milliseconds that a reply is waited for

export const $ = id => document.getElementById(id);

export function element(tag, properties = {}, ...children) {
  const made = Object.assign(document.createElement(tag), properties);
  made.append(...children);
  return made;
}

// What the server has refused, with the status of its reply; without one where no reply came.
class Refusal extends Error {
  constructor(status, reply) {
    super(reply.error);
    Object.assign(this, {status, reply});
  }
}

// What the server replies, as JSON. All else is raised.
export async function request(path, options = {}) {
  let reply, received;
  try {
    reply = await fetch(path, {...options, signal: AbortSignal.timeout?.(LONGEST)});
    received = await reply.json();
  } catch {
    const isRefused = reply && !reply.ok;
    throw new Refusal(isRefused ? reply.status : undefined, {error: isRefused ? `the server replies ${reply.status}` : "The server does not answer"});
  }
  if (!reply.ok) throw new Refusal(reply.status, received);
  return received;
}

export function isNumber(column) {
  return Boolean(column) && ["whole", "decimal", "float"].includes(column.kind);
}

// How many rows there are, as it is read.
export function counted(number) {
  return number.toLocaleString("en");
}

const PLAIN_NUMBER = /^(-?)(\d+)(\.\d+)?$/;
const LONG = 5;         // digits before the point: fewer are read at a glance, and may be a year

export function isLong(text) {
  return text.match(PLAIN_NUMBER)?.[2].length >= LONG;
}

// A number with its thousands apart. The commas are drawn alone: the text of the cell, which may be copied, is the value.
export function inThousands(text) {
  const [, sign, whole, rest = ""] = text.match(PLAIN_NUMBER) ?? [];
  if (whole === undefined) return [text];
  const groups = whole.match(/\d{1,3}(?=(?:\d{3})*$)/g);
  return [sign, ...groups.slice(0, -1).map(group => element("span", {className: "thousands", textContent: group})), groups[groups.length - 1] + rest];
}

export function said(...parts) {
  $("done").replaceChildren(...parts);
  speak("done", $("done").textContent);
}
