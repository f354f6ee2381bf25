// Scales: where a value lies between the ends of an axis, and round values to write there.
const DAY = 86400000;

// The ticks of a scale at round values, what stands at each, and where a value lies between the first and the last.
export function scale(values, kind, from, to, count, isLogarithmic = false) {
  let least = values.reduce((a, b) => Math.min(a, b), Infinity), most = values.reduce((a, b) => Math.max(a, b), -Infinity);
  if (!(least <= most)) [least, most] = [0, 1];
  if (least === most) [least, most] = isLogarithmic ? [least / 2, most * 2] : [least - 1, most + 1];
  const {ticks, text} = (isLogarithmic ? powers : kind === "date" ? dates : kind === "time" ? times : numbers)(least, most, count);
  const grown = isLogarithmic ? Math.log10 : value => value, low = grown(ticks[0]), high = grown(ticks[ticks.length - 1]);
  return {ticks, text, least: ticks[0], most: ticks[ticks.length - 1], at: value => Math.round((from + (grown(value) - low) / (high - low) * (to - from)) * 10) / 10};
}

// Whether these values have a logarithmic scale: they are numbers above zero.
export function hasLogarithm(values, kind) {
  return kind !== "date" && kind !== "time" && values.every(value => value > 0);
}

// Powers of ten, and where they are few, twice and five times each.
function powers(least, most) {
  const begin = Math.floor(Math.log10(least)), end = Math.ceil(Math.log10(most));
  const tens = Array.from({length: end - begin + 1}, (_, number) => 10 ** (begin + number));
  const ticks = tens.length > 3 ? tens : tens.flatMap(ten => [ten, 2 * ten, 5 * ten]);
  const first = ticks.findLastIndex(tick => tick <= least), last = ticks.findIndex(tick => tick >= most);
  return {ticks: ticks.slice(Math.max(0, first), last < 0 ? undefined : last + 1), text: value => new Intl.NumberFormat("en", {notation: "compact", maximumSignificantDigits: 3}).format(value)};
}

function multiples(least, most, step) {
  const begin = Math.floor(least / step), end = Math.ceil(most / step);
  return Array.from({length: end - begin + 1}, (_, number) => (begin + number) * step);
}

function round(rough) {
  const power = 10 ** Math.floor(Math.log10(rough));
  return power * [1, 2, 5, 10].find(times => times * power >= rough * 0.999);
}

function numbers(least, most, count) {
  const step = round((most - least) / count);
  const text = value => {
    const size = Math.abs(value);
    if (size >= 1e12 || step < 1e-6) return String(Number(value.toPrecision(6)));
    const decimals = size >= 10000 ? 2 : Math.max(0, -Math.floor(Math.log10(step) + 0.001));
    return new Intl.NumberFormat("en", {notation: size >= 10000 ? "compact" : "standard", maximumFractionDigits: decimals}).format(value);
  };
  return {ticks: multiples(least, most, step), text};
}

// Days since 1970: years, months or days, whichever are enough.
function dates(least, most, count) {
  const iso = day => new Date(day * DAY).toISOString(), first = new Date(least * DAY), last = new Date(most * DAY);
  const months = [first, last].map(date => date.getUTCFullYear() * 12 + date.getUTCMonth());
  const rough = (months[1] - months[0]) / count;
  if (rough < 0.5) return {ticks: multiples(least, most, Math.ceil(round((most - least) / count))), text: day => iso(day).slice(0, 10)};
  const step = [1, 2, 3, 6].find(step => step >= rough) || 12 * Math.ceil(round(rough / 12));
  const ticks = multiples(months[0], months[1] + 1, step).map(month => new Date(0).setUTCFullYear(Math.floor(month / 12), month % 12) / DAY);
  return {ticks, text: day => step % 12 ? iso(day).slice(0, 7) : String(new Date(day * DAY).getUTCFullYear())};
}

// Seconds since 1970.
function times(least, most, count) {
  const rough = (most - least) / count;
  if (rough > 43200) {
    const {ticks, text} = dates(least / 86400, most / 86400, count);
    return {ticks: ticks.map(day => day * 86400), text: second => text(second / 86400)};
  }
  const step = [1, 10, 60, 300, 900, 3600, 10800, 21600, 43200].find(step => step >= rough);
  return {ticks: multiples(least, most, step), text: second => new Date(second * 1000).toISOString().slice(5, step < 60 ? 19 : 16).replace("T", " ")};
}
