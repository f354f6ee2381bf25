// The corners of the staircase through the rows of the first level. Nothing, where it goes up and down, as with a third column in the question.
export function stairs(rows) {
  const front = rows.filter(row => row.level === 1).sort((a, b) => a.x - b.x || a.y - b.y);
  const falls = front.every((row, at) => !at || row.y <= front[at - 1].y || row.x === front[at - 1].x);
  const rises = front.every((row, at) => !at || row.y >= front[at - 1].y);
  if (front.length < 2 || !(falls || rises)) return [];
  if (!rises) front.sort((a, b) => a.x - b.x || b.y - a.y);
  // The others lie to the right of a front of small values, and to the left of one of large values.
  const others = rows.filter(row => row.level !== 1);
  const beyond = way => others.filter(row => front.some(best => way * (row.x - best.x) >= 0 && way * (rises && !falls ? -1 : 1) * (row.y - best.y) >= 0)).length;
  const flatFirst = beyond(1) >= beyond(-1);
  return front.flatMap((row, at) => at ? [flatFirst ? [row.x, front[at - 1].y] : [front[at - 1].x, row.y], [row.x, row.y]] : [[row.x, row.y]]);
}
