"use strict";
// Runs that move, in pages of the third format alone, since those of the first two stay as they were: a compaction that evacuates no region
// moves the object of a run down. That is shown as one object, at its old place and at its new one.

// The run that a compaction moved: the regions that it began and begins with, how many it has, its words, its object's name where that is
// told. No other step makes a run begin where a region was free.
const MOVED_RUN = new Kept((life, moment) => {
  const step = collectorStepAt(life, moment);
  if (!step || step.verb !== "compact") return null;
  const kindOf = (region, at) => rowAt(life, region, at).kind;
  const first = life.rows.findIndex((_, region) => kindOf(region, moment) === "h" && kindOf(region, moment - 1) === "f");
  if (first < 0) return null;
  let from = first;
  while (kindOf(from, moment - 1) === "f") from += 1;
  const { tiles } = rowAt(life, first, moment);
  const [count, words] = step.reply.split(" ").slice(1).map(Number);
  return { from, to: first, count, words, name: tiles ? tiles[0].name : null };
});

// Frames the regions of a run so far outside, as one where they are in one row.
function frameRun(lanes, first, count, outside, style) {
  const { layout } = lanes;
  const rows = new Map();
  for (let region = first; region < first + count; region += 1) {
    const { x, y } = layout.place(region);
    rows.set(y, { from: rows.has(y) ? rows.get(y).from : x, to: x + layout.wide });
  }
  for (const [y, { from, to }] of rows) {
    const size = { width: to - from + 2 * outside, height: layout.tall + 2 * outside };
    shape("rect", { class: "evacuated", style, x: from - outside, y: y - outside, ...size, rx: 4 }, lanes.over);
  }
}

// What a region that a run left had of it, pale.
function drawLeft(lanes, view, region) {
  const { life, layout } = lanes;
  const { x, y } = layout.place(region);
  const ghost = shape("g", { class: "ghost", transform: `translate(${x} ${y})` }, lanes.over);
  const shares = sharesAt(life, region, view.moment - 1);
  for (const part of PARTS) {
    if (shares[part]) drawPart(ghost, part, 0, shares[part] * layout.perWord, layout.tall);
  }
}

// The old place of a run in a broken frame, pale where it is free now, the new one in a whole frame, and an arrow between them.
function drawMovedRun(lanes, view, run) {
  const { from, to, count } = run;
  for (let region = Math.max(from, to + count); region < from + count; region += 1) drawLeft(lanes, view, region);
  frameRun(lanes, from, count, lanes.layout.head ? 5 : 3, "");
  frameRun(lanes, to, count, 1, "stroke-dasharray:none");
  const word = lanes.life.sizes.words / 4;
  drawArrow(lanes.over, lanes.point(from, word, "middle"), lanes.point(to, word, "middle"), "copy");
}

const drawOtherStep = drawStep;
drawStep = (lanes, view) => {
  const run = MOVED_RUN.at(lanes.life, view.moment);
  if (run) drawMovedRun(lanes, view, run);
  else drawOtherStep(lanes, view);
};

// What a compaction that moved a run did.
function aboutMovedRun(life, moment, run) {
  const { from, to, count, words, name } = run;
  const place = (first) => (count === 1 ? `region ${first}` : `regions ${first} to ${first + count - 1}`);
  const own = name === null ? "The object of a run" : `#${name}, the object of a run,`;
  const freed = reclaimedAt(life, moment);
  const [before, after] = [dirtyAt(life, moment - 1), dirtyAt(life, moment)];
  const { cards, sources } = rowAt(life, from, moment - 1);
  const all = sources.length ? `, and all of ${listOf(sources)}` : "";
  const items = [
    `${own} moved as one: ${plural(words, "word")} from ${place(from)} to ${place(to)}.`,
    `Free now: ${regionsOf(freed)}.`,
    before.length ? `Dirty cards that it refined first: ${listOf(before)}.` : "No card was dirty before.",
  ];
  if (cards.length) items.push(`Cards that its first region's set covered: ${listOf(cards)}${all}.`);
  items.push(after.length ? `Dirty after it: ${listOf(after)}.` : "No card is dirty after it.");
  return { style: "pause", items };
}

const aboutOtherPause = aboutPause;
aboutPause = (life, moment) => {
  const run = MOVED_RUN.at(life, moment);
  return run ? aboutMovedRun(life, moment, run) : aboutOtherPause(life, moment);
};

const otherMarks = markItems;
markItems = () => {
  const frame = { class: "evacuated", style: "stroke-dasharray:none", x: 2, y: 2, width: 22, height: 14 };
  return [...otherMarks(), legendItem((svg) => shape("rect", frame, svg), "where a compaction moved a run; it was in a broken frame")];
};
