"use strict";
// What roots reach at a moment, how objects count by shape, and the names that are given to shapes. All of it is worked out here, of
// the objects that the file tells; where the file leaves something out, that is said.

const MOST_ROOTS = 64;

// Places with the name of the object at each one's address, null where none is told there.
function withNames(life, moment, places) {
  const names = new Map();
  for (const [name, { address }] of placesAt(life, moment)) names.set(address, name);
  return places.map((place) => ({ ...place, name: names.has(place.address) ? names.get(place.address) : null }));
}

// The objects that roots name: `[{ place, address, name }]`, the name null where no object is told at the address.
function rootsAt(life, moment) {
  return withNames(life, moment, life.moments[moment].roots);
}

// The objects in the deletion logs, each as often as it is there: `[{ mutator, address, name }]`.
function deletionsAt(life, moment) {
  const logged = life.moments[moment].deletions.flatMap(({ mutator, addresses }) => addresses.map((address) => ({ mutator, address })));
  return withNames(life, moment, logged);
}

// How many regions have objects that aren't told at a moment.
function untoldAt(life, moment) {
  let untold = 0;
  for (let region = 0; region < life.sizes.regions; region += 1) untold += tellsObjects(life, region, moment) ? 0 : 1;
  return untold;
}

// What keeps the file from telling all that is reached, in words, or nothing.
function unsureAt(life, moment, reached) {
  const why = [];
  const places = placesAt(life, moment);
  if (life.moments[moment].roots.length >= MOST_ROOTS) why.push(`of the roots the first ${MOST_ROOTS} are in the file`);
  const long = [...reached.keys()].filter((name) => places.get(name).tile.pointers.more).length;
  if (long) why.push(`${plural(long, "reached object has", "reached objects have")} pointers that aren't in the file`);
  const untold = untoldAt(life, moment);
  if (untold) why.push(`the objects of ${plural(untold, "region")} aren't in the file`);
  return why;
}

const REACHED = new Kept((life, moment) => {
  const places = placesAt(life, moment);
  const reached = new Map();
  const order = [];
  const find = (name, by) => {
    if (!places.has(name) || reached.has(name)) return;
    reached.set(name, by);
    order.push(name);
  };
  for (const { place, name } of rootsAt(life, moment)) if (name !== null) find(name, { root: place });
  for (let at = 0; at < order.length; at += 1) {
    for (const field of places.get(order[at]).tile.pointers.told) find(field, { name: order[at] });
  }
  return { reached, why: unsureAt(life, moment, reached) };
});

// What is reached from the roots by pointers, weak slots left out: `reached` leads from each name to what names it, a root or an object
// that is reached in fewer steps; `why` says what the file leaves out, so that more may be reached than is seen.
function reachedAt(life, moment) {
  return REACHED.at(life, moment);
}

// How an object is reached: a root's place, then names, the object's own last; or null where it isn't.
function pathTo(life, moment, name) {
  const { reached } = reachedAt(life, moment);
  if (!reached.has(name)) return null;
  const names = [name];
  let by = reached.get(name);
  while (by.name !== undefined) {
    names.unshift(by.name);
    by = reached.get(by.name);
  }
  return { root: by.root, names };
}

// The objects whose fields name an object at a moment: `[{ name, weak }]`.
function namedBy(life, moment, name) {
  const found = [];
  for (const [other, { tile }] of placesAt(life, moment)) {
    if (tile.pointers.told.includes(name)) found.push({ name: other, weak: false });
    else if (tile.weaks.told.includes(name)) found.push({ name: other, weak: true });
  }
  return found;
}

// ---- names for shapes

// The rules that the page or its reader has given, in their order: `{ shape: [pointers, weak slots, data words], word, label }`, null where any fits.
let rules = [];
// How often rules were given, so that a lane sees whether names changed.
let rulesGiven = 0;

// Reads rules, one a line: pointers, weak slots, data words, the first data word, the name. `*` is any; what follows # is a comment.
function readNames(text) {
  const read = [];
  const faults = [];
  text.split("\n").forEach((line, number) => {
    const words = line.replace(/#.*/, "").trim().split(/\s+/).filter((word) => word);
    if (!words.length) return;
    const numbers = words.slice(0, 4);
    if (words.length < 5 || !numbers.every((word) => word === "*" || /^\d+$/.test(word))) {
      faults.push(number + 1);
      return;
    }
    const told = numbers.map((word) => (word === "*" ? null : word.replace(/^0+(?=\d)/, "")));
    read.push({ shape: told.slice(0, 3), word: told[3], label: words.slice(4).join(" ") });
  });
  return { rules: read, faults };
}

function setNames(read) {
  rules = read;
  rulesGiven += 1;
}

// How many fields of each kind an object has, as texts.
function shapeOf(tile) {
  return [tile.pointers.count, tile.weaks.count, tile.values.count].map(String);
}

// The name that the first rule that fits gives to an object, or null.
function labelOf(tile) {
  if (!rules.length || tile.name === undefined) return null;
  const shape = shapeOf(tile);
  const fits = (rule) => rule.shape.every((count, kind) => count === null || count === shape[kind])
    && (rule.word === null || rule.word === tile.values.told[0]);
  const rule = rules.find(fits);
  return rule ? rule.label : null;
}

// ---- objects by shape

const NO_COUNT = { objects: 0, words: 0 };

function count(counts, key, words) {
  const found = counts[key] || NO_COUNT;
  counts[key] = { objects: found.objects + 1, words: found.words + words };
}

// Objects and words of each shape, or of each name that a rule gives, most words first: all, not reached now, dead by the last marking.
function shapesAt(life, moment) {
  const { reached } = reachedAt(life, moment);
  const lines = new Map();
  const total = { all: NO_COUNT, lost: NO_COUNT, dead: NO_COUNT };
  for (const [name, { tile }] of placesAt(life, moment)) {
    const label = labelOf(tile);
    const key = label === null ? shapeOf(tile).join(" ") : `=${label}`;
    if (!lines.has(key)) lines.set(key, { label, shape: shapeOf(tile), all: NO_COUNT, lost: NO_COUNT, dead: NO_COUNT });
    for (const counts of [lines.get(key), total]) {
      count(counts, "all", tile.size);
      if (!reached.has(name)) count(counts, "lost", tile.size);
      if (tile.part === "dead") count(counts, "dead", tile.size);
    }
  }
  return { lines: [...lines.values()].sort((a, b) => b.all.words - a.all.words), total };
}
