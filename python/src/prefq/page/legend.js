// What the signs of the plot mean, and what it does not show.
import {$, counted, element} from "./parts.js";
import {colourOf, levelName, make, shape} from "./plot.js";

const LEVELS = {first: "level 1", second: "level 2", further: "further levels"};
const NAMED = 7;        // groups, as many as there are colours

// Shows the legend of a picture, of whose rows the plot leaves out some.
export function showLegend(picture, {unplaced, outside, linear}) {
  const levels = new Set(picture.best.map(row => levelName(row.level))), groups = picture.groups ?? [];
  const others = picture.count - picture.found - picture.others.length;
  $("legend").replaceChildren(
    ...Object.entries(LEVELS).filter(([name]) => levels.has(name)).map(([name, text]) => entry(shape(name, groups.length ? "any" : ""), text)),
    entry(shape("other"), "other rows"),
    ...groups.slice(0, NAMED).map((text, group) => entry(shape("first", colourOf(group)), text)),
    ...(groups.length > NAMED ? [entry(shape("first", colourOf(NAMED)), `${counted(groups.length - NAMED)} groups more`)] : []),
    ...[[others, "others are not drawn"], [unplaced, "without a value on an axis"], [outside, "outside of the view"]].filter(([number]) => number > 0)
      .map(([number, text]) => element("li", {textContent: `${counted(number)} ${text}`})),
    ...linear.map(name => element("li", {textContent: `${name} has values that have no logarithm`})));
}

function entry(sign, text) {
  const svg = make("svg", {viewBox: "-8 -8 16 16", "aria-hidden": "true"});
  svg.append(sign);
  return element("li", {}, svg, ` ${text}`);
}
