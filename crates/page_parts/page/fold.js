"use strict";
// Folds, in pages of the third format alone, since those of the first two stay as they were: where a heap has many regions, free ones side
// by side are one box with their count, until it is opened.

// Heaps of up to so many regions are shown whole.
const MOST_UNFOLDED = 64;
// For up to so many lanes `layoutOf` knows a size, and how large they are where there are more.
const MOST_SIZED = 1024;
const SMALLEST = { wide: 26, tall: 8, gapX: 4, gapY: 5 };

// Whether boxes are folded, and which regions are shown by themselves all the same.
const folding = { on: true, opened: new Set() };

function isFold(box) {
  return box.from < box.to;
}

function foldText(box) {
  return `${grouped(box.to - box.from + 1)} free`;
}

// Whether a region is shown by itself: it is in use, or was at the moment before, it is chosen, or its fold was opened.
function isShown(life, view, region) {
  const isUsed = (moment) => moment >= 0 && rowAt(life, region, moment).kind !== "f";
  return isUsed(view.moment) || isUsed(view.moment - 1) || view.region === region || folding.opened.has(region);
}

// The boxes of a moment by their first and last regions: a region by itself, or free ones side by side.
function boxesAt(life, view) {
  const isFolded = folding.on && life.sizes.regions > MOST_UNFOLDED;
  const boxes = [];
  let fold = null;
  for (let region = 0; region < life.sizes.regions; region += 1) {
    const isOwn = !isFolded || isShown(life, view, region);
    if (isOwn || !fold) boxes.push({ from: region, to: region });
    else fold.to = region;
    fold = isOwn ? null : boxes[boxes.length - 1];
  }
  return boxes;
}

// Where boxes lie: in a grid as lanes do, but a fold is as many lanes wide as its text needs. A region's place is its box.
function layoutOfBoxes(life, width, boxes) {
  const base = layoutOf({ sizes: { ...life.sizes, regions: Math.min(boxes.length, MOST_SIZED) } }, width);
  const size = boxes.length > MOST_SIZED ? { ...base, ...SMALLEST } : base;
  const cell = size.wide + size.gapX;
  const columns = boxes.length > MOST_SIZED ? Math.max(1, Math.floor((width - size.side + size.gapX) / cell)) : base.columns;
  const step = size.head + size.tall + size.gapY;
  const places = [];
  let row = 0;
  let column = 0;
  for (const box of boxes) {
    const span = isFold(box) ? Math.min(columns, Math.ceil((foldText(box).length * 7 + 12 + size.gapX) / cell)) : 1;
    if (column + span > columns) {
      row += 1;
      column = 0;
    }
    Object.assign(box, { x: size.side + column * cell, y: size.head + row * step, wide: span * cell - size.gapX, row });
    for (let region = box.from; region <= box.to; region += 1) places[region] = box;
    column += span;
  }
  const rows = row + 1;
  const place = (region) => places[region];
  return { ...size, columns, step, rows, place, height: rows * step + 8, perWord: size.wide / life.sizes.words };
}

// The lanes of boxes, which are made anew where the boxes are others. It has the name of what it stands for in these pages.
Lanes = class extends Lanes {
  // Makes a group for each box, with nothing in it yet; none before a moment is drawn.
  build() {
    const { life } = this;
    const hasFocus = Boolean(this.svg) && this.svg.contains(document.activeElement);
    const width = Math.max(320, this.holder.clientWidth - 8);
    this.boxes = this.view ? boxesAt(life, this.view) : [];
    this.layout = layoutOfBoxes(life, width, this.boxes);
    if (this.boxes.length) this.focused = this.layout.place(this.focused).from;
    const { height } = this.layout;
    this.svg = shape("svg", { viewBox: `0 0 ${width} ${height}`, height, role: "group", "aria-label": "Regions" });
    drawDefinitions(this.svg);
    this.rowLabels();
    this.lanes = [];
    for (const box of this.boxes) this.lanes[box.from] = this.group(box);
    this.over = shape("g", { class: "over" }, this.svg);
    this.drawn = [];
    this.holder.replaceChildren(this.svg);
    this.button();
    if (hasFocus) this.focus(this.focused, true);
  }

  group(box) {
    const stop = { role: "button", tabindex: box.from === this.focused ? 0 : -1 };
    const lane = shape("g", { class: "lane", transform: `translate(${box.x} ${box.y})`, "data-region": box.from, ...stop }, this.svg);
    lane.addEventListener("focus", () => this.focus(box.from, false));
    if (!isFold(box)) {
      lane.addEventListener("click", () => this.open(box.from));
      return lane;
    }
    lane.addEventListener("click", () => this.unfold(box));
    lane.addEventListener("keydown", (press) => {
      if (press.key !== "Enter" && press.key !== " ") return;
      press.preventDefault();
      press.stopPropagation();
      this.unfold(box);
    });
    return lane;
  }

  // Each row has its first region's number.
  rowLabels() {
    if (this.layout.head) return;
    const { side, tall } = this.layout;
    this.boxes.forEach(({ from, y, row }, at) => {
      if (at && this.boxes[at - 1].row === row) return;
      shape("text", { class: "soft small", x: side - 8, y: y + tall - 1, "text-anchor": "end", text: from }, this.svg);
    });
  }

  // The box of a row that is nearest to another one.
  nearest(here, row) {
    const apart = (box) => Math.abs(box.x - here.x);
    return this.boxes.filter((box) => box.row === row).sort((one, other) => apart(one) - apart(other))[0];
  }

  key(name) {
    const here = this.layout.place(this.focused);
    const at = this.boxes.indexOf(here);
    const found = {
      ArrowLeft: () => this.boxes[at - 1], ArrowRight: () => this.boxes[at + 1],
      ArrowUp: () => this.nearest(here, here.row - 1), ArrowDown: () => this.nearest(here, here.row + 1),
    }[name];
    if (!found) return false;
    const box = found();
    if (box) this.focus(box.from, true);
    return true;
  }

  draw(view) {
    this.view = view;
    const ends = (boxes) => boxes.map(({ from, to }) => `${from} ${to}`).join();
    if (ends(boxesAt(this.life, view)) !== ends(this.boxes)) this.build();
    for (const box of this.boxes) {
      const key = isFold(box) ? "fold" : this.laneKey(box.from, view);
      if (this.drawn[box.from] === key) continue;
      this.drawn[box.from] = key;
      if (isFold(box)) this.drawFold(box);
      else this.drawLane(box.from, view);
    }
    this.over.replaceChildren();
    drawOver(this, view);
  }

  drawFold(box) {
    const { head, tall } = this.layout;
    const lane = this.lanes[box.from];
    const said = `Regions ${box.from} to ${box.to}: free`;
    const marks = { class: "lane fold", "data-kind": "f", "data-to": box.to, "aria-label": `${said}; shows each` };
    for (const [name, value] of Object.entries(marks)) lane.setAttribute(name, value);
    shape("title", { text: said }, lane);
    if (head) shape("text", { class: "soft tag", x: 0, y: -9, text: `${box.from} to ${box.to}` }, lane);
    const dashes = "stroke-dasharray:5 3";
    shape("rect", { class: "bed", x: 0, y: 0, width: box.wide, height: tall, rx: head ? 3 : 1, style: dashes }, lane);
    const middle = { x: box.wide / 2, y: tall / 2 + 4, "text-anchor": "middle" };
    shape("text", { class: "soft small", ...middle, style: "pointer-events:none", text: foldText(box) }, lane);
    shape("rect", { class: "halo", x: -4, y: -4, width: box.wide + 8, height: tall + 8, rx: 5 }, lane);
  }

  // Shows each region of a fold.
  unfold(box) {
    for (let region = box.from; region <= box.to; region += 1) folding.opened.add(region);
    this.draw(this.view);
  }

  // Shows all regions, or folds them again.
  foldAll() {
    folding.on = !folding.on || folding.opened.size > 0;
    folding.opened.clear();
    this.draw(this.view);
    this.button();
  }

  // The button for that, before the one for tiles.
  button() {
    const old = document.getElementById("fold");
    if (this.life.sizes.regions <= MOST_UNFOLDED) return;
    const hasFocus = document.activeElement === old && old !== null;
    if (old) old.remove();
    const word = folding.on && !folding.opened.size ? "Unfold" : "Fold";
    const made = make("button", { id: "fold", type: "button", title: "Free regions side by side", onclick: () => this.foldAll() }, word);
    document.getElementById("kind").before(made);
    if (hasFocus) made.focus();
  }
};
