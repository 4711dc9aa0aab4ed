"use strict";
// The regions as lanes in a grid. A lane is drawn anew only where its region has changed.

const PARTS = ["marked", "dead", "new", "filler"];
const PART_WORDS = {
  marked: "live by the last marking", dead: "dead by the last marking", new: "not judged by the last marking",
  filler: "filler", free: "free",
};
const NOT_REACHED = "not reached now";
// The same where the file leaves something out, so that more may be reached.
const NOT_SEEN = "not seen to be reached";

// Where lanes lie, by the width that there is: how many columns, and how large a lane is.
function layoutOf(life, width) {
  const { regions, words } = life.sizes;
  const sizes = [
    { most: 2, wide: 5000, tall: 54, head: 25, gapX: 26, gapY: 24 },
    { most: 12, wide: Math.max(360, Math.min(620, words * 18)), tall: 50, head: 25, gapX: 26, gapY: 19 },
    { most: 48, wide: 250, tall: 34, head: 23, gapX: 18, gapY: 13 },
    { most: 128, wide: 150, tall: 22, head: 20, gapX: 14, gapY: 8 },
    { most: 320, wide: 92, tall: 14, head: 0, gapX: 8, gapY: 7 },
    { most: 1024, wide: 44, tall: 10, head: 0, gapX: 5, gapY: 5 },
  ];
  const size = sizes.find((each) => regions <= each.most);
  const side = size.head ? 0 : 48;
  const columns = Math.max(1, Math.min(regions, Math.floor((width - side + size.gapX) / (size.wide + size.gapX)) || 1));
  const wide = (width - side - (columns - 1) * size.gapX) / columns;
  const step = size.head + size.tall + size.gapY;
  const rows = Math.ceil(regions / columns);
  const place = (region) => ({
    x: side + (region % columns) * (wide + size.gapX),
    y: size.head + Math.floor(region / columns) * step,
  });
  return { ...size, columns, wide, step, rows, place, side, height: rows * step + 8, perWord: wide / words };
}

// The patterns that tell parts apart without colours, and the heads of arrows.
function drawDefinitions(svg) {
  const definitions = shape("defs", {}, svg);
  const pattern = (id, size, paths) => {
    const each = shape("pattern", { id, width: size, height: size, patternUnits: "userSpaceOnUse" }, definitions);
    for (const path of paths) shape("path", { d: path, stroke: "rgba(0,0,0,.42)", "stroke-width": 1.3, fill: "none" }, each);
  };
  pattern("hatch", 7, ["M-1 1L1 -1M0 7L7 0M6 8L8 6"]);
  pattern("dots", 6, ["M2.2 3h1.4"]);
  pattern("bars", 6, ["M3 0v6"]);
  for (const [id, colour] of [["head", "var(--ink)"], ["head-copy", "var(--pause)"], ["head-card", "var(--deep)"]]) {
    const size = { markerUnits: "userSpaceOnUse", markerWidth: 13, markerHeight: 13, refX: 9, refY: 5 };
    const marker = shape("marker", { id, viewBox: "0 0 10 10", ...size, orient: "auto-start-reverse" }, definitions);
    shape("path", { d: "M0 0L10 5L0 10z", fill: colour }, marker);
  }
}

const PATTERN = { dead: "url(#hatch)", new: "url(#dots)", filler: "url(#bars)" };

// A stretch of a lane that is one part: its colour, and its pattern over it.
function drawPart(group, part, x, width, height, extra = "") {
  shape("rect", { class: `part ${part} ${extra}`, x, y: 0, width: Math.max(0, width), height }, group);
  if (PATTERN[part] && height > 12) {
    shape("rect", { class: `part ${extra}`, x, y: 0, width: Math.max(0, width), height, style: `fill:${PATTERN[part]}` }, group);
  }
}

class Lanes {
  constructor(life, holder, open) {
    this.life = life;
    this.holder = holder;
    this.open = open;
    this.lanes = [];
    this.drawn = [];
    this.focused = 0;
    this.build();
  }

  // Makes a group for each lane, with nothing in it yet.
  build() {
    const { life } = this;
    const width = Math.max(320, this.holder.clientWidth - 8);
    this.layout = layoutOf(life, width);
    const { height } = this.layout;
    this.svg = shape("svg", { viewBox: `0 0 ${width} ${height}`, height, role: "group", "aria-label": "Regions" });
    drawDefinitions(this.svg);
    this.rowLabels();
    this.lanes = [];
    for (let region = 0; region < life.sizes.regions; region += 1) {
      const { x, y } = this.layout.place(region);
      const stop = { role: "button", tabindex: region === this.focused ? 0 : -1 };
      const lane = shape("g", { class: "lane", transform: `translate(${x} ${y})`, "data-region": region, ...stop }, this.svg);
      lane.addEventListener("click", () => this.open(region));
      lane.addEventListener("focus", () => this.focus(region, false));
      this.lanes.push(lane);
    }
    this.over = shape("g", { class: "over" }, this.svg);
    this.drawn = [];
    this.holder.replaceChildren(this.svg);
  }

  // Where lanes have no labels of their own, each row has its first region's number.
  rowLabels() {
    if (this.layout.head) return;
    for (let row = 0; row < this.layout.rows; row += 1) {
      const region = row * this.layout.columns;
      const { y } = this.layout.place(region);
      const at = { x: this.layout.side - 8, y: y + this.layout.tall - 1 };
      shape("text", { class: "soft small", ...at, "text-anchor": "end", text: region }, this.svg);
    }
  }

  focus(region, move) {
    this.lanes[this.focused].setAttribute("tabindex", -1);
    this.focused = region;
    this.lanes[region].setAttribute("tabindex", 0);
    if (move) this.lanes[region].focus();
  }

  // Moves the focus by a key, and answers whether the key did that.
  key(name) {
    const by = { ArrowLeft: -1, ArrowRight: 1, ArrowUp: -this.layout.columns, ArrowDown: this.layout.columns }[name];
    if (by === undefined) return false;
    const region = this.focused + by;
    if (region >= 0 && region < this.lanes.length) this.focus(region, true);
    return true;
  }

  // A point of the drawing: of a word of a region, at the lane's top, its middle or its bottom.
  point(region, word, where) {
    const { x, y } = this.layout.place(region);
    const down = { top: 0, middle: this.layout.tall / 2, bottom: this.layout.tall }[where];
    return { x: x + word * this.layout.perWord, y: y + down };
  }

  pointOfCard(card) {
    const address = card * this.life.sizes.card;
    const region = Math.floor(address / this.life.sizes.words);
    return this.point(region, address - region * this.life.sizes.words + this.life.sizes.card / 2, "bottom");
  }

  // Draws a moment.
  draw(view) {
    for (let region = 0; region < this.lanes.length; region += 1) {
      const key = this.laneKey(region, view);
      if (this.drawn[region] === key) continue;
      this.drawn[region] = key;
      this.drawLane(region, view);
    }
    this.over.replaceChildren();
    drawOver(this, view);
  }

  // What a lane's drawing depends on.
  laneKey(region, view) {
    const { life } = this;
    const row = rowAt(life, region, view.moment);
    const shares = sharesAt(life, region, view.moment);
    const moment = life.moments[view.moment];
    const lost = () => this.notReached(row, view.moment).map((tile) => tile.offset);
    const own = view.tiles && row.tiles ? [rowNumber(row), rulesGiven, ...lost()] : [];
    const numbers = [...Object.values(shares), row.top, row.next, row.grey, row.live];
    return [row.kind, ...numbers, moment.current === region, view.region === region, ...own].join(" ");
  }

  // The tiles of a region that no root reaches.
  notReached(row, moment) {
    const { reached } = reachedAt(this.life, moment);
    return row.tiles.filter((tile) => tile.name !== undefined && !reached.has(tile.name));
  }

  drawLane(region, view) {
    const { life, layout } = this;
    const lane = this.lanes[region];
    const row = rowAt(life, region, view.moment);
    const shares = sharesAt(life, region, view.moment);
    const current = life.moments[view.moment].current === region;
    lane.replaceChildren();
    const marks = { used: row.kind !== "f", current, chosen: view.region === region };
    lane.setAttribute("class", ["lane", ...Object.keys(marks).filter((mark) => marks[mark])].join(" "));
    lane.setAttribute("data-kind", row.kind);
    for (const [part, words] of Object.entries(shares)) lane.setAttribute(`data-${part}`, words);
    lane.setAttribute("data-live", row.live);
    lane.setAttribute("aria-label", describeRegion(life, region, view.moment));
    shape("title", { text: describeRegion(life, region, view.moment) }, lane);
    if (layout.head) this.drawLabel(lane, region, row, current);
    shape("rect", { class: "bed", x: 0, y: 0, width: layout.wide, height: layout.tall, rx: layout.head ? 3 : 1 }, lane);
    if (view.tiles && row.tiles && row.kind === "o") this.drawTiles(lane, row, new Set(this.notReached(row, view.moment)));
    else this.drawShares(lane, region, row, shares, view);
    this.drawTops(lane, row);
    shape("rect", { class: "halo", x: -4, y: -4, width: layout.wide + 8, height: layout.tall + 8, rx: 5 }, lane);
  }

  drawLabel(lane, region, row, current) {
    const kinds = { f: "free", o: "", h: "humongous", t: "of the run" };
    const parts = [String(region)];
    if (this.layout.wide > 140 && kinds[row.kind]) parts.push(kinds[row.kind]);
    if (current) parts.push("current");
    const style = current ? "font-weight:700" : "";
    shape("text", { class: row.kind === "f" ? "soft tag" : "tag", x: 0, y: -9, text: parts.join(", "), style }, lane);
    if (row.kind === "o" && this.layout.wide > 220) {
      const text = `${grouped(row.live)} live of ${grouped(row.used)}`;
      shape("text", { class: "soft tag", x: this.layout.wide, y: -9, "text-anchor": "end", text }, lane);
    }
  }

  drawShares(lane, region, row, shares, view) {
    let x = 0;
    for (const part of PARTS) {
      const width = shares[part] * this.layout.perWord;
      if (width > 0) drawPart(lane, part, x, width, this.layout.tall);
      x += width;
    }
    if (row.kind === "h") this.nameOf(lane, row, view);
  }

  // The name of a humongous object, where it is told.
  nameOf(lane, row, view) {
    if (!view.tiles || !row.tiles || this.layout.tall < 22) return;
    const [text] = tileNames(row.tiles[0]);
    shape("text", { class: "tile-name", x: this.layout.wide / 2, y: this.layout.tall / 2 + 4, text }, lane);
    if (this.notReached(row, view.moment).length) this.drawNotReached(lane, 0, row.used * this.layout.perWord);
  }

  // A line through what no root reaches.
  drawNotReached(lane, x, width) {
    const y = this.layout.tall * 0.8;
    shape("line", { class: "lost", x1: x + Math.min(3, width / 4), x2: x + Math.max(width * 0.75, width - 3), y1: y, y2: y }, lane);
  }

  // The tiles of a region in the order of their addresses, those that no root reaches with a line.
  drawTiles(lane, row, lost = new Set()) {
    const { perWord, tall } = this.layout;
    for (const tile of row.tiles) {
      const x = tile.offset * perWord;
      const width = tile.size * perWord;
      drawPart(lane, tile.part, x, width, tall);
      const grey = tile.progress === "grey" ? "grey" : tile.progress === "scanned" ? "scanned" : "";
      const inner = grey ? 2 : 0;
      const frame = { x: x + inner, y: inner, width: Math.max(0, width - 2 * inner), height: tall - 2 * inner };
      shape("rect", { class: `tile ${grey}`, fill: "none", ...frame }, lane);
      if (lost.has(tile)) this.drawNotReached(lane, x, width);
      if (tile.name === undefined || tall < 22) continue;
      const text = tileNames(tile).find((label) => width > label.length * 8 + 4);
      if (text) shape("text", { class: "tile-name", x: x + width / 2, y: tall / 2 + 4, text }, lane);
    }
  }

  // Ticks at the region's tops at mark start, and how many objects are grey.
  drawTops(lane, row) {
    const { perWord, tall, wide } = this.layout;
    const tick = (words, next) => {
      const x = Math.min(wide - 1, Math.max(1, words * perWord));
      shape("line", { class: `top ${next}`, x1: x, x2: x, y1: -3, y2: tall + 3 }, lane);
      const head = next ? `M${x - 5} ${tall + 8}h10l-5 -7z` : `M${x - 5} -7h10l-5 7z`;
      if (tall > 12) shape("path", { class: `top-head ${next}`, d: head }, lane);
    };
    if (row.kind === "f" || row.kind === "t") return;
    if (row.top > 0) tick(row.top, "");
    if (row.next !== null && row.next > 0) tick(row.next, "next");
    if (row.grey > 0) {
      shape("circle", { class: "greys", cx: wide - tall / 4 - 2, cy: tall / 2, r: Math.min(9, tall / 3) }, lane);
      if (tall > 20) shape("text", { class: "tile-name", x: wide - tall / 4 - 2, y: tall / 2 + 4, text: row.grey }, lane);
    }
  }
}

// What a tile may be called, the longest first.
function tileNames(tile) {
  const label = labelOf(tile);
  return [...(label === null ? [] : [`#${tile.name} ${label}`]), `#${tile.name}`];
}

// A number of its own for each row that was read, so that a lane sees whether its tiles changed.
const ROW_NUMBERS = new WeakMap();
let nextRowNumber = 1;
function rowNumber(row) {
  if (!ROW_NUMBERS.has(row)) ROW_NUMBERS.set(row, nextRowNumber++);
  return ROW_NUMBERS.get(row);
}

// What a region is, in a sentence.
function describeRegion(life, region, moment) {
  const row = rowAt(life, region, moment);
  const shares = sharesAt(life, region, moment);
  if (row.kind === "f") return `Region ${region}: free`;
  const parts = [...PARTS, "free"].filter((part) => shares[part]).map((part) => `${grouped(shares[part])} ${PART_WORDS[part]}`);
  const kind = { o: "ordinary", h: "first of a run", t: "later region of a run" }[row.kind];
  const current = life.moments[moment].current === region ? ", current" : "";
  return `Region ${region}: ${kind}${current}; words: ${parts.join(", ")}`;
}
