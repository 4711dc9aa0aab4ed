"use strict";
// The panels that are there at each moment: where objects are told no more, the roots, what is reached, objects by shape.

// Says that objects are told no more at a moment, and leads to the last one at which they are; nothing where they are told.
function aboutTold(life, view, show) {
  const last = lastTold(life);
  if (last === null || view.moment <= last) return null;
  const said = `Objects are told up to event ${grouped(life.moments[last].event)}: from there on this file has regions alone. `;
  const button = make("button", { type: "button", onclick: () => show(last) }, "To the last moment with objects");
  return make("p", { class: "note" }, said, button);
}

// A button that leads to the object of a place `{ address, name }`, or to its region where the object isn't told. `called` is how the place
// is called, `word` the same in short.
function leadButton(life, view, place, { word, called, ...attributes }, choose, open) {
  const region = Math.floor(place.address / life.sizes.words);
  const tile = place.name === null ? null : placesAt(life, view.moment).get(place.name).tile;
  const label = tile === null || labelOf(tile) === null ? "" : ` ${labelOf(tile)}`;
  const leads = tile === null ? `${place.address}, region ${region}` : `#${place.name}${label}`;
  return make(
    "button",
    {
      class: `root ${tile !== null && view.name === place.name ? "chosen" : ""}`,
      type: "button",
      "aria-label": `${called} ${leads}`,
      onclick: () => (tile === null ? open(region) : choose(place.name)),
      ...attributes,
    },
    word === "" ? null : make("b", {}, word),
    word === "" ? leads : ` ${leads}`,
  );
}

// A root as a button.
function rootButton(life, view, root, choose, open) {
  const { sizes } = life;
  const at = root.place - sizes.globals;
  const word = at < 0 ? `g${root.place}` : `r${at % sizes.registers}`;
  const called = `${rootName(life, root.place)} leads to`;
  return leadButton(life, view, root, { word, called, "data-place": root.place, "data-stop": `root ${root.place}` }, choose, open);
}

// Lines of buttons, one for each mutator that has some, with its head.
function linesOfMutators(buttons, head) {
  return [...buttons].map(([mutator, own]) => make("div", { class: "roots" }, make("span", { class: "whose" }, head(mutator)), own));
}

// The panel of globals and of each mutator's registers.
function aboutRoots(life, view, choose, open) {
  const { globals, registers, mutators } = life.sizes;
  const groups = new Map();
  const roots = rootsAt(life, view.moment);
  for (const root of roots) {
    const mutator = root.place < globals ? -1 : Math.floor((root.place - globals) / registers);
    if (!groups.has(mutator)) groups.set(mutator, []);
    groups.get(mutator).push(rootButton(life, view, root, choose, open));
  }
  const lines = linesOfMutators(groups, (mutator) => (mutator < 0 ? "Globals" : mutators > 1 ? `Mutator ${mutator}` : "Registers"));
  const all = globals + mutators * registers;
  const rest = roots.length >= MOST_ROOTS ? `The first ${MOST_ROOTS} that aren't nil; the file has no more.`
    : roots.length ? `The other ${grouped(all - roots.length)} are nil.` : `All ${grouped(all)} are nil.`;
  return make("div", { class: "card" }, make("h3", {}, "Registers and globals"), lines, make("p", { class: "rest" }, rest));
}

// The panel of the deletion logs; nothing where no marking runs.
function aboutDeletions(life, view, choose, open) {
  if (!life.moments[view.moment].marking) return null;
  const groups = new Map();
  for (const logged of deletionsAt(life, view.moment)) {
    const { mutator } = logged;
    if (!groups.has(mutator)) groups.set(mutator, []);
    const own = groups.get(mutator);
    const called = `The deletion log of mutator ${mutator} has`;
    const stop = `deletion ${mutator} ${own.length}`;
    own.push(leadButton(life, view, logged, { word: "", called, "data-log": mutator, "data-stop": stop }, choose, open));
  }
  const lines = linesOfMutators(groups, (mutator) => `Mutator ${mutator}`);
  const taken = "Marking takes a log once it is full, and all of them at its end.";
  const rest = groups.size ? `What was overwritten, or read from a weak slot. ${taken}` : `Each is empty. ${taken}`;
  return make("div", { class: "card marking" }, make("h3", {}, "Deletion logs"), lines, make("p", { class: "rest" }, rest));
}

// A count with its words.
function countCells(of) {
  return [make("td", { class: "number" }, grouped(of.objects)), make("td", { class: "number" }, grouped(of.words))];
}

function shapeLine(line) {
  const [pointers, weaks, values] = line.shape;
  const shape = `${pointers} / ${weaks} / ${values}`;
  const lost = line.lost.objects ? grouped(line.lost.words) : "";
  const dead = line.dead.objects ? grouped(line.dead.words) : "";
  return make(
    "tr",
    { "data-shape": line.label === null ? line.shape.join(" ") : line.label },
    make("th", { scope: "row" }, line.label === null ? shape : line.label),
    countCells(line.all),
    make("td", { class: "number" }, lost),
    make("td", { class: "number" }, dead),
  );
}

// What no root reaches now, beside what the last marking found dead.
function aboutReached(life, moment, total) {
  const { why } = reachedAt(life, moment);
  const so = why.length ? "at most " : "";
  const lost = `Not reached from the roots now: ${so}${plural(total.lost.objects, "object")}, ${plural(total.lost.words, "word")}.`;
  const dead = `Dead by the last marking: ${plural(total.dead.objects, "object")}, ${plural(total.dead.words, "word")}.`;
  const lines = [make("p", { id: "lost", "data-objects": total.lost.objects, "data-words": total.lost.words }, lost), make("p", {}, dead)];
  if (why.length) lines.push(make("p", { class: "rest" }, `More may be reached: ${why.join("; ")}.`));
  return lines;
}

// The panel of the objects of a moment, by shape; nothing where none is told.
function aboutObjects(life, view) {
  const last = lastTold(life);
  if (!life.tells || (last !== null && view.moment > last)) return null;
  const { lines, total } = shapesAt(life, view.moment);
  const told = untoldAt(life, view.moment) ? "Of the objects that are told: " : "";
  const head = (word, at) => make("th", { scope: "col", class: at ? "number" : "" }, word);
  const heads = ["shape", "objects", "words", "not reached", "dead"].map(head);
  const table = make(
    "table",
    {},
    make("thead", {}, make("tr", {}, heads)),
    make("tbody", {}, lines.map(shapeLine)),
  );
  return make(
    "div",
    { class: "card" },
    make("h3", {}, `${told}${plural(total.all.objects, "object")}, ${plural(total.all.words, "word")}`),
    aboutReached(life, view.moment, total),
    lines.length ? make("div", { class: "scroll", tabindex: 0, role: "region", "aria-label": "Objects by shape" }, table) : null,
    lines.length ? make("p", { class: "rest" }, "A shape: pointers / weak slots / data words. The last two columns are words.") : null,
  );
}
