"use strict";
// What leads to a moment or an object by words: the page's address, and the field.

// The event that the address names, or null.
function eventOfAddress() {
  const found = /^#(\d{1,15})$/.exec(window.location.hash);
  return found ? Number(found[1]) : null;
}

// Puts the moment's event into the address a while after the last move: browsers refuse many changes in a row.
let addressTimer = null;
function putAddress(event) {
  clearTimeout(addressTimer);
  addressTimer = setTimeout(() => {
    if (eventOfAddress() === event) return;
    try {
      window.history.replaceState(null, "", `#${event}`);
    } catch (refused) {
      window.location.hash = event;
    }
  }, 200);
}

// The last moment that isn't after an event.
function momentOfEvent(life, event) {
  let low = 0;
  let high = life.moments.length;
  while (low < high) {
    const middle = (low + high) >> 1;
    if (life.moments[middle].event <= event) low = middle + 1;
    else high = middle;
  }
  return Math.max(0, low - 1);
}

// The place of a root by its words, `g3`, `r0`, or `1 r0` of a mutator, or null where there is no such root.
function rootOfWords(life, words) {
  const { globals, registers, mutators } = life.sizes;
  const found = /^(?:(\d+)\s+)?([gr])(\d+)$/.exec(words);
  if (!found) return null;
  const [, mutator, kind, number] = [...found.slice(0, 3), Number(found[3])];
  if (kind === "g") return mutator === undefined && number < globals ? number : null;
  const whose = Number(mutator || 0);
  return whose < mutators && number < registers ? globals + whose * registers + number : null;
}

// What a reader asks for: `{ moment, name, said }`, the moment and the name null where they stay; `{ said }` where there is no such thing.
function findWords(life, words, moment) {
  const wanted = words.trim().toLowerCase();
  const name = /^#\s*(\d+)$/.exec(wanted);
  if (name) return findName(life, name[1].replace(/^0+(?=\d)/, ""), moment);
  const event = /^(?:event\s+)?(\d{1,15})$/.exec(wanted);
  if (event) return findEvent(life, Number(event[1]));
  const place = rootOfWords(life, wanted);
  if (place === null) return { said: `"${words.trim()}" is no event (12), no name (#12) and no root (r0, g0).` };
  const root = rootsAt(life, moment).find((each) => each.place === place);
  if (!root) return { said: `${rootName(life, place)} is nil at this moment.` };
  if (root.name === null) return { said: `${rootName(life, place)} leads to ${root.address}; its object isn't in this file.` };
  return { moment: null, name: root.name, said: `${rootName(life, place)} leads to #${root.name}.` };
}

function findEvent(life, event) {
  const moment = momentOfEvent(life, event);
  const found = life.moments[moment].event;
  const said = event > life.eventCount ? `There are ${plural(life.eventCount, "event")}: this is the last moment.`
    : found === event ? `After event ${grouped(event)}.`
      : `No moment is told after event ${grouped(event)}: this is the one after event ${grouped(found)}.`;
  return { moment, name: null, said };
}

function findName(life, name, moment) {
  if (placesAt(life, moment).has(name)) return { moment: null, name, said: `#${name} is open below.` };
  if (!life.tells) return { said: "Objects aren't told one by one in this file." };
  const nearest = nearestWith(life, name, moment);
  if (nearest === null) return { said: `#${name} is at none of the moments in this file.` };
  return { moment: nearest, name, said: `#${name} isn't there at that moment: this is the nearest one that has it.` };
}
