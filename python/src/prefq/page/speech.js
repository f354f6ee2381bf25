// What a screen reader says: one message a second at most, of whatever has changed meanwhile.
const PAUSE = 1000;     // milliseconds
const waiting = new Map();
let timer;

// Says a text of its topic, unless a newer one comes before it is said.
export function speak(topic, text) {
  waiting.set(topic, text);
  timer ??= setTimeout(utter, PAUSE);
}

function utter() {
  timer = undefined;
  document.getElementById("spoken").textContent = [...waiting.values()].join(" ");
  waiting.clear();
}
