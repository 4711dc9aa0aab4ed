"use strict";
// What is drawn over the lanes: runs, open buffers, dirty cards, what a step of the collector did, and where pointers and cards lead.

// How many arrows of a kind are drawn each by itself; more are bundled, one for each pair of regions.
const MOST_ARROWS = 24;
const MOST_BUNDLES = 60;

// An arrow from one point to another, bent a little so that arrows both ways don't cover each other; with a count where it is a bundle.
function drawArrow(over, from, to, style, count = 1) {
  const dx = to.x - from.x;
  const dy = to.y - from.y;
  const length = Math.hypot(dx, dy) || 1;
  const bend = Math.min(60, length / 4);
  const middle = { x: (from.x + to.x) / 2 - (dy / length) * bend, y: (from.y + to.y) / 2 + (dx / length) * bend };
  const arrow = shape("path", { class: `arrow ${style}`, d: `M${from.x} ${from.y}Q${middle.x} ${middle.y} ${to.x} ${to.y}` }, over);
  if (count < 2) return;
  arrow.setAttribute("style", `stroke-width:${Math.min(7, 1.8 + Math.log2(count) / 2).toFixed(1)}`);
  arrow.setAttribute("data-count", count);
  const at = { x: (from.x + to.x) / 4 + middle.x / 2, y: (from.y + to.y) / 4 + middle.y / 2 + 4 };
  shape("text", { class: "bundle", x: at.x, y: at.y, text: grouped(count) }, over);
}

// Draws arrows `{ from, to, pair, whole }`: each by itself where they are few, else one for each pair of regions, from `whole.from` to
// `whole.to`, the largest ones. Answers how many aren't drawn.
function drawArrows(over, arrows, style) {
  if (arrows.length <= MOST_ARROWS) {
    for (const { from, to } of arrows) drawArrow(over, from, to, style);
    return 0;
  }
  const bundles = new Map();
  for (const { pair, whole } of arrows) {
    const bundle = bundles.get(pair) || { ...whole, count: 0 };
    bundle.count += 1;
    bundles.set(pair, bundle);
  }
  const largest = [...bundles.values()].sort((a, b) => b.count - a.count);
  for (const { from, to, count } of largest.slice(0, MOST_BUNDLES)) drawArrow(over, from, to, style, count);
  return largest.slice(MOST_BUNDLES).reduce((sum, bundle) => sum + bundle.count, 0);
}

// Joins the lanes of each run by a line below them.
function drawRuns(lanes, view) {
  const { life, layout } = lanes;
  for (let region = 0; region < life.sizes.regions; region += 1) {
    const row = rowAt(life, region, view.moment);
    if (row.kind !== "t") continue;
    const before = layout.place(region - 1);
    const here = layout.place(region);
    const y = layout.tall + 4;
    if (before.y === here.y) {
      const from = rowAt(life, region - 1, view.moment).kind === "h" ? before.x : before.x + layout.wide / 2;
      shape("path", { class: "run", d: `M${from} ${before.y + y - 4}v4H${here.x + layout.wide}v-4` }, lanes.over);
    } else {
      shape("path", { class: "run", d: `M${before.x} ${before.y + y}H${before.x + layout.wide + 8}` }, lanes.over);
      shape("path", { class: "run", d: `M${here.x - 8} ${here.y + y}H${here.x + layout.wide}v-4` }, lanes.over);
    }
  }
}

function drawBuffers(lanes, view) {
  const { life, layout } = lanes;
  for (const buffer of life.moments[view.moment].buffers) {
    const region = Math.floor(buffer.at / life.sizes.words);
    const at = lanes.point(region, buffer.at - region * life.sizes.words, "top");
    const width = buffer.left * layout.perWord;
    shape("rect", { class: "buffer", x: at.x + 1, y: at.y + 1, width: Math.max(1, width - 2), height: layout.tall - 2 }, lanes.over);
    if (width > 64 && layout.tall > 20) {
      const middle = { x: at.x + width / 2, y: at.y + layout.tall / 2 + 4 };
      shape("text", { class: "tile-name framed", ...middle, text: `buffer ${buffer.mutator}` }, lanes.over);
    }
  }
}

// A dot at each dirty card: full where it is queued, empty where it is in a mutator's log.
function drawDirty(lanes, view) {
  const { life } = lanes;
  const moment = life.moments[view.moment];
  const radius = lanes.layout.tall > 20 ? 5 : 3;
  const fresh = new Set(view.fresh || []);
  const dot = (card, style) => {
    const at = lanes.pointOfCard(card);
    const marks = `dirty ${style} ${fresh.has(card) ? "fresh" : ""}`;
    const circle = shape("circle", { class: marks, cx: at.x, cy: at.y, r: radius, "data-card": card }, lanes.over);
    shape("title", { text: `Card ${card} is dirty` }, circle);
  };
  moment.queue.forEach((card) => dot(card, "queued"));
  moment.logs.forEach((log) => log.cards.forEach((card) => dot(card, "logged")));
}

// The outline of a diamond around a point.
function diamond(x, y, radius) {
  return `M${x - radius} ${y}L${x} ${y - radius}L${x + radius} ${y}L${x} ${y + radius}z`;
}

// A diamond at each object that is in a mutator's deletion log.
function drawDeletions(lanes, view) {
  const { words } = lanes.life.sizes;
  const radius = lanes.layout.tall > 20 ? 6 : 4;
  const mutators = new Map();
  for (const { mutator, address } of deletionsAt(lanes.life, view.moment)) {
    mutators.set(address, (mutators.get(address) || new Set()).add(mutator));
  }
  for (const [address, own] of mutators) {
    const region = Math.floor(address / words);
    const at = lanes.point(region, address - region * words, "middle");
    const mark = shape("path", { class: "deleted", d: diamond(at.x + radius + 2, at.y, radius), "data-address": address }, lanes.over);
    shape("title", { text: `In the deletion log of mutator ${listOf([...own])}` }, mark);
  }
}

// What a region held a moment ago, pale.
function drawGhost(lanes, view, region, style) {
  const { life, layout } = lanes;
  const { x, y } = layout.place(region);
  const ghost = shape("g", { class: "ghost", transform: `translate(${x} ${y})` }, lanes.over);
  const row = rowAt(life, region, view.moment - 1);
  if (view.tiles && row.tiles && row.kind === "o") lanes.drawTiles(ghost, row);
  else {
    let at = 0;
    const shares = sharesAt(life, region, view.moment - 1);
    for (const part of PARTS) {
      const width = shares[part] * layout.perWord;
      if (width > 0) drawPart(ghost, part, at, width, layout.tall);
      at += width;
    }
  }
  shape("rect", { class: style, x: x - 2, y: y - 2, width: layout.wide + 4, height: layout.tall + 4, rx: 4 }, lanes.over);
}

// The arrows of a pause's copies.
function drawCopies(lanes, copies) {
  const middle = lanes.life.sizes.words / 2;
  drawArrows(lanes.over, copies.map(({ from, to }) => ({
    from: lanes.point(from.region, from.tile.offset + from.tile.size / 2, "middle"),
    to: lanes.point(to.region, to.tile.offset + to.tile.size / 2, "top"),
    pair: `${from.region} ${to.region}`,
    whole: { from: lanes.point(from.region, middle, "middle"), to: lanes.point(to.region, middle, "middle") },
  })), "copy");
}

// What the collector's step that led to the moment did.
function drawStep(lanes, view) {
  const step = collectorStepAt(lanes.life, view.moment);
  if (!step) return;
  if (movesObjects(step)) {
    const pause = pauseAt(lanes.life, view.moment);
    pause.set.forEach((region) => drawGhost(lanes, view, region, "evacuated"));
    drawCopies(lanes, pause.copies);
  }
  if (step.verb === "cleanup") reclaimedAt(lanes.life, view.moment).forEach((region) => drawGhost(lanes, view, region, "freed"));
}

// The cards that the chosen region's set covers, as arrows into it.
function drawSet(lanes, view) {
  if (view.region === null) return;
  const row = rowAt(lanes.life, view.region, view.moment);
  const { words, card } = lanes.life.sizes;
  const at = lanes.layout.place(view.region);
  const { wide, tall } = lanes.layout;
  const into = (from) => ({ x: at.x + Math.min(wide - 6, Math.max(6, from.x - at.x)), y: from.y > at.y + tall ? at.y + tall : at.y });
  const arrow = (from, region) => {
    const whole = lanes.point(region, words / 2, "bottom");
    return { from, to: into(from), pair: String(region), whole: { from: whole, to: into(whole) } };
  };
  const sources = new Set(row.sources);
  const cards = row.cards.map((each) => [each, Math.floor((each * card) / words)]).filter(([, region]) => !sources.has(region));
  drawArrows(lanes.over, [
    ...cards.map(([each, region]) => arrow(lanes.pointOfCard(each), region)),
    ...row.sources.map((region) => arrow(lanes.point(region, words / 2, "bottom"), region)),
  ], "card");
}

// Where the chosen object's pointers and weak slots lead.
function drawPointers(lanes, view) {
  if (view.name === null) return;
  const places = placesAt(lanes.life, view.moment);
  const from = places.get(view.name);
  if (!from) return;
  const { words } = lanes.life.sizes;
  const middle = (place, where) => lanes.point(place.region, Math.min(words / 2, place.tile.size / 2) + place.tile.offset, where);
  const lead = (fields, style) => {
    for (const name of new Set(fields.told)) {
      const to = places.get(name);
      const count = fields.told.filter((each) => each === name).length;
      if (to && to !== from) drawArrow(lanes.over, middle(from, "middle"), middle(to, "top"), style, count);
    }
  };
  lead(from.tile.pointers, "");
  lead(from.tile.weaks, "weak");
  const at = lanes.point(from.region, from.tile.offset, "top");
  const width = Math.min(words, from.tile.size) * lanes.layout.perWord + 2;
  shape("rect", { class: "arrow", style: "marker-end:none", x: at.x - 1, y: at.y - 1, width, height: lanes.layout.tall + 2 }, lanes.over);
}

function drawOver(lanes, view) {
  drawRuns(lanes, view);
  drawBuffers(lanes, view);
  drawStep(lanes, view);
  drawDirty(lanes, view);
  drawDeletions(lanes, view);
  drawSet(lanes, view);
  drawPointers(lanes, view);
}
