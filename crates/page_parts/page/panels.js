"use strict";
// The panels beside and below the lanes: the steps, what a step did, an open region, an object's life.

// An element of the page.
function make(tag, attributes = {}, ...children) {
  const element = document.createElement(tag);
  for (const [name, value] of Object.entries(attributes)) {
    if (name === "onclick") element.addEventListener("click", value);
    else if (value !== null && value !== false) element.setAttribute(name, value);
  }
  element.append(...children.flat(Infinity).filter((child) => child !== null));
  return element;
}

function plural(count, one, many = `${one}s`) {
  return `${grouped(count)} ${count === 1 ? one : many}`;
}

// A list of numbers, the first ones where they are many.
function listOf(numbers, most = 24) {
  const shown = numbers.slice(0, most).join(", ");
  return numbers.length > most ? `${shown} and ${numbers.length - most} more` : shown;
}

// ---- the steps

// The list of steps, each a button. Where there are many, only those near the present one are there. Tab reaches one of them, and arrows
// the others.
class Steps {
  constructor(life, list, choose) {
    this.life = life;
    this.list = list;
    this.choose = choose;
    this.counts = [...life.events.keys()].sort((a, b) => a - b);
    this.from = -1;
    this.to = -1;
  }

  // The place in the list of the last step up to an event.
  placeOf(event) {
    let low = 0;
    let high = this.counts.length;
    while (low < high) {
      const middle = (low + high) >> 1;
      if (this.counts[middle] <= event) low = middle + 1;
      else high = middle;
    }
    return low - 1;
  }

  line(count, before) {
    const items = [];
    if (before !== null && count > before + 1) {
      items.push(make("li", { class: "gap" }, `${plural(count - before - 1, "step")} not in this file`));
    }
    const event = this.life.events.get(count);
    const button = make(
      "button",
      { type: "button", tabindex: -1, onclick: () => this.choose(count) },
      make("span", { class: "count" }, String(count)),
      make("span", { class: "mono" }, event.step),
      make("span", { class: "reply mono" }, event.reply),
    );
    items.push(make("li", { class: event.collector ? "collector" : "", "data-count": count }, button));
    return items;
  }

  // Fills the list around a place, unless what is needed is there.
  fill(place) {
    const near = 150;
    const whole = this.from === 0 && this.to === this.counts.length;
    const atStart = this.from === 0 && place < this.to - 20;
    if (whole || atStart || (place >= this.from + 20 && place < this.to - 20)) return;
    this.from = Math.max(0, place - near);
    this.to = Math.min(this.counts.length, place + near);
    const items = [];
    for (let at = this.from; at < this.to; at += 1) items.push(...this.line(this.counts[at], at > 0 ? this.counts[at - 1] : 0));
    this.list.replaceChildren(...items);
  }

  itemOf(event) {
    return this.list.querySelector(`[data-count="${event}"]`);
  }

  // Makes a step's button the one that Tab reaches.
  stop(item) {
    for (const old of this.list.querySelectorAll('button[tabindex="0"]')) old.setAttribute("tabindex", -1);
    const button = item && item.querySelector("button");
    if (button) button.setAttribute("tabindex", 0);
    return button;
  }

  // Scrolls the list alone, so that an item is seen.
  see(item) {
    const wanted = item.offsetTop - this.list.offsetTop;
    if (wanted < this.list.scrollTop + 40 || wanted > this.list.scrollTop + this.list.clientHeight - 80) {
      this.list.scrollTop = wanted - this.list.clientHeight / 3;
    }
  }

  draw(event) {
    const focused = this.list.contains(document.activeElement);
    const place = this.placeOf(event);
    this.fill(place);
    for (const old of this.list.querySelectorAll("[aria-current], .next")) {
      old.removeAttribute("aria-current");
      old.classList.remove("next");
    }
    const item = this.itemOf(event);
    const next = this.itemOf(event + 1);
    if (next) next.classList.add("next");
    if (item) item.setAttribute("aria-current", "step");
    const seen = item || next || this.itemOf(this.counts[Math.max(0, place)]);
    if (!seen) return;
    const button = this.stop(seen);
    this.see(seen);
    if (focused) button.focus({ preventScroll: true });
  }

  // Moves the focus in the list by a key, and answers whether the key did that.
  key(name) {
    const by = { ArrowUp: -1, ArrowDown: 1, PageUp: -10, PageDown: 10 }[name];
    const now = document.activeElement.closest("#steps li");
    if (by === undefined || !now) return false;
    const old = this.placeOf(Number(now.dataset.count));
    const place = Math.max(0, Math.min(this.counts.length - 1, old + by));
    this.fill(place);
    const item = this.itemOf(this.counts[place]);
    this.stop(item).focus({ preventScroll: true });
    this.see(item);
    return true;
  }
}

// ---- what a step did

// How many objects are grey in each region that has some.
function greyRegions(life, moment) {
  const regions = [];
  for (let region = 0; region < life.sizes.regions; region += 1) {
    const { grey } = rowAt(life, region, moment);
    if (grey) regions.push(`${region}: ${grey}`);
  }
  return regions;
}

function regionsOf(regions) {
  return `${regions.length === 1 ? "region" : "regions"} ${listOf(regions)}`;
}

function aboutPause(life, moment) {
  const { set, into, copies } = pauseAt(life, moment);
  const dirty = dirtyAt(life, moment - 1);
  const covered = new Set(set.flatMap((region) => rowAt(life, region, moment - 1).cards));
  const whole = new Set(set.flatMap((region) => rowAt(life, region, moment - 1).sources));
  const after = dirtyAt(life, moment);
  const words = life.moments[moment].copied - life.moments[moment - 1].copied;
  const items = [
    set.length ? `Its set: ${regionsOf(set)}, now free.` : "Its set is empty: nothing was reclaimed.",
    into.length ? `Copied: ${plural(words, "word")} into ${regionsOf(into)}.` : "Nothing was copied.",
  ];
  const copied = copies.map((copy) => `#${copy.name} from ${copy.from.address} to ${copy.to.address}`);
  if (copies.length) items.push(`Objects: ${listOf(copied, 12)}.`);
  else if (words) items.push("Which object went where isn't in this file: arrows are drawn for small heaps alone.");
  if (copies.length > MOST_ARROWS) items.push("An arrow leads from region to region, with the number of its objects.");
  items.push(dirty.length ? `Dirty cards that it refined first: ${listOf(dirty)}.` : "No card was dirty before.");
  const all = whole.size ? `, and all of ${listOf([...whole])}` : "";
  if (covered.size) items.push(`Cards that the sets of these regions covered: ${listOf([...covered])}${all}.`);
  items.push(after.length ? `Dirty after it: ${listOf(after)}.` : "No card is dirty after it.");
  return { style: "pause", items };
}

function aboutMarking(life, moment, verb) {
  const found = life.moments[moment];
  const grey = greyRegions(life, moment);
  const scanned = found.scanned - (verb === "begin" ? 0 : life.moments[moment - 1].scanned);
  const items = [];
  if (verb === "begin") items.push("Marking begins: each region's next top at mark start is its top, and what roots name is grey.");
  if (verb === "mark") items.push(`Scanned: ${plural(scanned, "object")}, ${grouped(found.scanned)} since marking began.`);
  const since = `${grouped(found.scanned)} since it began`;
  if (verb === "remark") items.push(`Marking ends: ${plural(scanned, "object")} scanned by this step, ${since}.`);
  if (verb !== "remark") items.push(grey.length ? `Grey by region: ${listOf(grey)}.` : "No object is grey.");
  if (verb === "remark") items.push(`Live words: ${grouped(life.moments[moment - 1].live)} before, ${grouped(found.live)} now.`);
  return { style: "marking", items };
}

function aboutCleanup(life, moment) {
  const freed = reclaimedAt(life, moment);
  const said = freed.length ? `Freed: ${regionsOf(freed)}.` : "Nothing was freed.";
  return { style: "cleanup", items: [said] };
}

function aboutRefine(life, moment) {
  const gone = dirtyAt(life, moment - 1).filter((card) => !dirtyAt(life, moment).includes(card));
  const said = gone.length ? `Refined: ${gone.length === 1 ? "card" : "cards"} ${listOf(gone)}.` : "No card was refined.";
  return { style: "", items: [said] };
}

// The panel of the collector's step that led to a moment, none where there is none.
function aboutStep(life, moment) {
  const step = collectorStepAt(life, moment);
  if (!step) return null;
  const about = movesObjects(step) ? aboutPause(life, moment)
    : step.verb === "cleanup" ? aboutCleanup(life, moment)
      : step.verb === "refine" ? aboutRefine(life, moment)
        : aboutMarking(life, moment, step.verb);
  if (step.reply.startsWith("refused")) about.items = [`It was refused: ${step.reply}.`];
  const items = about.items.map((item) => make("li", {}, item));
  return make("div", { class: `card ${about.style}` }, make("h3", {}, `${step.step} = ${step.reply}`), make("ul", {}, items));
}

// ---- a region

function nameButton(name, choose) {
  if (name === null) return "nil";
  if (name === "?") return "no object";
  return make("button", { class: "name", type: "button", "data-name": name, onclick: () => choose(name) }, `#${name}`);
}

function fieldsCell(fields, choose, names) {
  const parts = fields.told.flatMap((field) => [names ? nameButton(field, choose) : field, " "]);
  if (fields.more) parts.push(`and ${fields.more} more`);
  return make("td", {}, parts);
}

// What is said of an object's state, in words.
function stateOf(life, moment, tile) {
  const progress = tile.progress && tile.progress !== "new" ? tile.progress : null;
  const { reached, why } = reachedAt(life, moment);
  const lost = reached.has(tile.name) ? null : why.length ? NOT_SEEN : NOT_REACHED;
  return [PART_WORDS[tile.part], progress, lost].filter((word) => word).join(", ");
}

function tileLine(tile, region, life, view, choose) {
  const at = make("td", {}, String(region * life.sizes.words + tile.offset));
  if (tile.name === undefined) {
    const filler = make("td", {}, make("span", { class: "swatch filler" }), plural(tile.size, "word"));
    return make("tr", {}, at, make("td", {}, "filler"), filler, make("td"), make("td"), make("td"));
  }
  return make(
    "tr",
    { class: view.name === tile.name ? "chosen" : "", "data-tile": tile.name },
    at,
    make("td", {}, nameButton(tile.name, choose), labelOf(tile) === null ? null : make("span", { class: "label" }, ` ${labelOf(tile)}`)),
    make("td", {}, make("span", { class: `swatch ${tile.part}` }), stateOf(life, view.moment, tile)),
    fieldsCell(tile.pointers, choose, true),
    fieldsCell(tile.weaks, choose, true),
    fieldsCell(tile.values, choose, false),
  );
}

// Why the objects of a region aren't there at a moment.
function whyUntold(life, moment) {
  const last = lastTold(life);
  const small = "Its objects aren't in this file: they are told of small heaps, and of regions with at most 400 tiles.";
  if (last === null || moment <= last) return small;
  return `Its objects aren't in this file, which tells objects up to event ${grouped(life.moments[last].event)}.`;
}

function tilesTable(life, region, row, view, choose) {
  if (!row.tiles) return row.kind === "f" || row.kind === "t" ? null : make("p", {}, whyUntold(life, view.moment));
  const heads = ["address", "object", "state", "pointers", "weak slots", "data"].map((head) => make("th", { scope: "col" }, head));
  const lines = row.tiles.map((tile) => tileLine(tile, region, life, view, choose));
  const table = make("table", {}, make("thead", {}, make("tr", {}, heads)), make("tbody", {}, lines));
  return make("div", { class: "scroll", tabindex: 0, role: "region", "aria-label": `Objects of region ${region}` }, table);
}

// What is said of a region's tops, and of its remembered set.
function topsOf(row) {
  if (row.kind !== "o" && row.kind !== "h") return null;
  const next = row.next === null ? "" : `; of the marking that runs: ${row.next}, grey objects: ${row.grey}`;
  return `Top at mark start: ${row.top} words above its bottom${next}. Live words: ${grouped(row.live)}.`;
}

function setOf(row) {
  if (!row.cards.length) return row.kind === "f" ? null : "Its remembered set is empty.";
  const sources = row.sources.length ? `, and all cards of region ${listOf(row.sources)}` : "";
  return `Its remembered set: ${row.cards.length === 1 ? "card" : "cards"} ${listOf(row.cards)}${sources}.`;
}

// A panel that can be closed. Its head takes the focus when it opens.
function openPanel(what, head, close, ...children) {
  return make(
    "div",
    { class: "card" },
    make("button", { class: "close", type: "button", "aria-label": `Close the ${what}`, onclick: close }, "Close"),
    make("h3", { tabindex: -1 }, head),
    ...children,
  );
}

// The panel of an open region.
function aboutRegion(life, view, choose, close) {
  const region = view.region;
  const row = rowAt(life, region, view.moment);
  const shares = sharesAt(life, region, view.moment);
  const swatch = (part) => make("span", { class: `swatch ${part}` });
  const share = (part) => make("span", { class: "share" }, swatch(part), `${grouped(shares[part])} ${PART_WORDS[part]}`);
  const paragraphs = [topsOf(row), setOf(row)].filter((said) => said).map((said) => make("p", {}, said));
  const head = describeRegion(life, region, view.moment).split(";")[0];
  const tiles = tilesTable(life, region, row, view, choose);
  return openPanel("region", head, close, make("p", {}, [...PARTS, "free"].map(share)), paragraphs, tiles);
}

// ---- an object

// Names as buttons, the first ones where they are many.
function namesLine(names, choose, most = 24) {
  const shown = names.slice(0, most).flatMap((name, place) => [place ? ", " : "", nameButton(name, choose)]);
  return names.length > most ? [...shown, ` and ${names.length - most} more`] : shown;
}

// By what an object is held at a moment: the roots that name it, the way from a root, the objects that name it.
function holdersOf(life, view, choose) {
  const { moment, name } = view;
  const roots = rootsAt(life, moment).filter((root) => root.name === name).map((root) => rootName(life, root.place));
  const path = pathTo(life, moment, name);
  const by = namedBy(life, moment, name);
  const lines = [];
  if (roots.length) lines.push(make("p", {}, `Roots that name it now: ${roots.join(", ")}.`));
  else if (path) {
    const way = path.names.slice(0, -1).flatMap((each) => [", ", nameButton(each, choose)]);
    lines.push(make("p", {}, `A root that holds it now: ${rootName(life, path.root)}, by way of `, way.slice(1)));
  } else lines.push(make("p", {}, `No root reaches it now${reachedAt(life, moment).why.length ? ", so far as this file tells" : ""}.`));
  const strong = by.filter((each) => !each.weak).map((each) => each.name);
  const weak = by.filter((each) => each.weak).map((each) => each.name);
  if (strong.length) lines.push(make("p", {}, "Objects whose pointers name it: ", namesLine(strong, choose)));
  if (weak.length) lines.push(make("p", {}, "Objects whose weak slots name it: ", namesLine(weak, choose)));
  return lines;
}

// What an object is at a moment: its shape, its place, its fields.
function aboutPlace(life, view, choose) {
  const place = placesAt(life, view.moment).get(view.name);
  if (!place) return [make("p", {}, "It isn't told at this moment.")];
  const { tile, region, address } = place;
  const kinds = [["Pointers", tile.pointers, true], ["Weak slots", tile.weaks, true], ["Data words", tile.values, false]];
  const fields = kinds.filter(([, of]) => of.count).map(([kind, of, names]) => make(
    "p",
    {},
    `${kind}: `,
    of.told.flatMap((field, at) => [at ? ", " : "", names ? nameButton(field, choose) : field]),
    of.more ? ` and ${of.more} more` : "",
  ));
  const said = `Region ${region}, at ${address}: ${plural(tile.size, "word")}; ${stateOf(life, view.moment, tile)}.`;
  return [make("p", {}, make("span", { class: `swatch ${tile.part}` }), said), ...holdersOf(life, view, choose), ...fields];
}

// The panel of an object's life.
function aboutObject(life, view, show, close, choose) {
  const place = placesAt(life, view.moment).get(view.name);
  const label = place ? labelOf(place.tile) : null;
  const lines = lifeOfName(life, view.name).map((note) => make(
    "li",
    {},
    make("button", { class: "name", type: "button", onclick: () => show(note.moment) }, `event ${life.moments[note.moment].event}`),
    ` ${note.text}`,
  ));
  const coarse = life.moments.length <= life.eventCount;
  return openPanel(
    "object",
    `The life of #${view.name}${label === null ? "" : `, ${label}`}`,
    close,
    aboutPlace(life, view, choose),
    make("ul", {}, lines.length ? lines : make("li", {}, "It is told at none of the moments in this file.")),
    coarse ? make("p", {}, "Each event is that of the first moment in this file at which it is seen.") : null,
  );
}
