"use strict";
// The texts of the page, read. A moment is found by its place in the list of moments, a region's row by the moment. Names and data words
// have 64 bits, more than a number of this language holds, so they stay texts; all other numbers are small.

// The lines of a text, without the empty one at its end.
function linesOf(text) {
  const lines = text.split("\n");
  while (lines.length && lines[lines.length - 1] === "") lines.pop();
  while (lines.length && lines[0] === "") lines.shift();
  return lines;
}

// The heap line's sizes.
function readSizes(line) {
  const [format, regions, words, buffer, mutators, firstName, card = "8"] = line.split(" ");
  const heap = { regions: Number(regions), words: Number(words), card: Number(card) };
  return { line, format, firstName, ...heap, buffer: Number(buffer), mutators: Number(mutators) };
}

// An event of a record's line: `COUNT ACTOR STEP = REPLY`.
function readEvent(line) {
  const equals = line.indexOf(" = ");
  const words = line.slice(0, equals).split(" ");
  const step = words.slice(1).join(" ");
  const collector = !/^\d+$/.test(words[1]);
  return { count: Number(words[0]), actor: words[1], verb: words[2], step, reply: line.slice(equals + 3), collector };
}

// The name of the script's file, or of the record's: each byte of it but letters, digits and some signs is % and two digits to the base 16.
function readFileName(word) {
  return word === "-" ? "standard input" : decodeURIComponent(word);
}

// Names for shapes, told byte by byte as a file's name is. They may be any bytes: what isn't UTF-8 becomes the sign for that.
function readTold(word) {
  const letters = word.replace(/%(..)/g, (_, digits) => String.fromCharCode(parseInt(digits, 16)));
  return new TextDecoder().decode(Uint8Array.from(letters, (letter) => letter.charCodeAt(0)));
}

const MOMENT = ["event", "handedOut", "live", "free", "queued", "dirty", "copied", "marking", "scanned"];

// A moment's numbers.
function readMoment(words) {
  const moment = { nextName: words[10], current: null, buffers: [], queue: [], logs: [], deletions: [], roots: [] };
  MOMENT.forEach((field, place) => { moment[field] = Number(words[place + 1]); });
  if (words[11] !== "-") moment.current = Number(words[11]);
  return moment;
}

// Adds to a moment what one of its lines says.
function readOfMoment(moment, words) {
  const numbers = words.slice(1).map(Number);
  if (words[0] === "b") moment.buffers.push({ mutator: numbers[0], at: numbers[1], left: numbers[2] });
  if (words[0] === "q") moment.queue = numbers;
  if (words[0] === "l") moment.logs.push({ mutator: numbers[0], cards: numbers.slice(1) });
  if (words[0] === "d") moment.deletions.push({ mutator: numbers[0], addresses: numbers.slice(1) });
  if (words[0] === "n") {
    for (let at = 0; at + 1 < numbers.length; at += 2) moment.roots.push({ place: numbers[at], address: numbers[at + 1] });
  }
}

// The fields of one kind: names or data words, null for nil, "?" for no object; and how many aren't told.
function readFields(words) {
  const fields = { told: [], more: 0 };
  for (const word of words) {
    if (word.startsWith("+")) fields.more = Number(word.slice(1));
    else fields.told.push(word === "-" ? null : word);
  }
  fields.count = fields.told.length + fields.more;
  return fields;
}

const PART = { m: "marked", d: "dead", n: "new" };
const PROGRESS = { n: "new", u: "unmarked", g: "grey", s: "scanned" };

function readTile(words) {
  if (words[0] === "x") return { offset: Number(words[1]), size: Number(words[2]), part: "filler" };
  const parts = words.slice(4).join(" ").split(";").map((part) => readFields(part.split(" ").filter((word) => word)));
  const [pointers, weaks, values] = parts;
  return {
    offset: Number(words[1]), name: words[2], part: PART[words[3][0]], progress: PROGRESS[words[3][1]] || null,
    pointers, weaks, values, size: 2 + pointers.count + weaks.count + values.count,
  };
}

// A region's lines.
function readRow(lines) {
  const words = lines[0].split(" ");
  const row = {
    kind: words[2], used: 0, marked: 0, dead: 0, new: 0, filler: 0, live: 0, top: 0, next: null, grey: 0,
    cards: [], sources: [], tiles: null,
  };
  const numbers = words.slice(3).map(Number);
  if (row.kind === "t") row.used = numbers[0];
  if (row.kind === "o" || row.kind === "h") {
    [row.used, row.marked, row.dead, row.new, row.filler, row.live, row.top] = numbers;
    if (numbers.length > 7) [row.next, row.grey] = numbers.slice(7);
  }
  for (const line of lines.slice(1)) {
    const of = line.split(" ");
    if (of[0] === "s") {
      const [cards, sources] = line.slice(2).split(";").map((part) => part.split(" ").filter((word) => word).map(Number));
      row.cards = cards;
      row.sources = sources;
    } else if (of[0] === "y") row.tiles = null;
    else (row.tiles = row.tiles || []).push(readTile(of));
  }
  return row;
}

const FREE = readRow(["r 0 f"]);

// The life that the page's texts tell.
function readLife(recordText, lifeText) {
  const record = linesOf(recordText);
  const life = {
    file: "", names: "", sizes: readSizes(record[0]), events: new Map(), moments: [], rows: [], pace: null, eventCount: 0,
    tilesEnd: null, tells: false,
  };
  for (const line of record.slice(1)) {
    const event = readEvent(line);
    life.events.set(event.count, event);
  }
  for (let k = 0; k < life.sizes.regions; k += 1) life.rows.push([]);
  let lines = null;
  for (const line of linesOf(lifeText)) {
    const words = line.split(" ");
    const moment = life.moments[life.moments.length - 1];
    if (words[0] === "file") life.file = readFileName(words[1]);
    else if (words[0] === "names") life.names = readTold(words[1]);
    else if (words[0] === "card") life.sizes.card = Number(words[1]);
    else if (words[0] === "roots") [life.sizes.globals, life.sizes.registers] = words.slice(1).map(Number);
    else if (words[0] === "pace") life.pace = { every: Number(words[1]), stride: Number(words[2]), small: words[3] === "1" };
    else if (words[0] === "events") life.eventCount = Number(words[1]);
    else if (words[0] === "m") life.moments.push(readMoment(words));
    else if (words[0] === "r") {
      lines = [line];
      life.rows[Number(words[1])].push({ moment: life.moments.length - 1, lines, row: null });
    } else if ("soxy".includes(words[0])) {
      lines.push(line);
      life.tells = life.tells || words[0] === "o";
    } else if (words[0] === "z") life.tilesEnd = life.moments.length - 1;
    else readOfMoment(moment, words);
  }
  return life;
}

// A region at a moment.
function rowAt(life, region, moment) {
  const rows = life.rows[region] || [];
  let low = 0;
  let high = rows.length;
  while (low < high) {
    const middle = (low + high) >> 1;
    if (rows[middle].moment <= moment) low = middle + 1;
    else high = middle;
  }
  if (low === 0) return FREE;
  const found = rows[low - 1];
  if (!found.row) found.row = readRow(found.lines);
  return found.row;
}

// The region in which the run of a region begins.
function headOf(life, region, moment) {
  let head = region;
  while (head > 0 && rowAt(life, head, moment).kind === "t") head -= 1;
  return head;
}

// What the words of one region are: of a run each region has its part of the object.
function sharesAt(life, region, moment) {
  const row = rowAt(life, region, moment);
  const words = life.sizes.words;
  if (row.kind === "o") return { marked: row.marked, dead: row.dead, new: row.new, filler: row.filler, free: words - row.used };
  const shares = { marked: 0, dead: 0, new: 0, filler: 0, free: words - row.used };
  if (row.kind === "f") return shares;
  const head = rowAt(life, headOf(life, region, moment), moment);
  const part = head.marked ? "marked" : head.dead ? "dead" : "new";
  shares[part] = row.used;
  return shares;
}

// What was worked out for a few keys, moments or names, the last ones that were asked for.
class Kept {
  constructor(work, most = 12) {
    this.work = work;
    this.most = most;
    this.found = new Map();
  }

  at(life, key) {
    if (!this.found.has(key)) {
      if (this.found.size >= this.most) this.found.delete(this.found.keys().next().value);
      this.found.set(key, this.work(life, key));
    }
    return this.found.get(key);
  }
}

const PLACES = new Kept((life, moment) => {
  const places = new Map();
  for (let region = 0; region < life.sizes.regions; region += 1) {
    for (const tile of rowAt(life, region, moment).tiles || []) {
      if (tile.name !== undefined) places.set(tile.name, { tile, region, address: region * life.sizes.words + tile.offset });
    }
  }
  return places;
});

// Where each object is at a moment, by name.
function placesAt(life, moment) {
  return PLACES.at(life, moment);
}

// The last moment at which objects are told, where they aren't told to the end.
function lastTold(life) {
  return life.tilesEnd === null ? null : Math.max(0, life.tilesEnd - 1);
}

// Whether a region's objects are told at a moment, where it has some.
function tellsObjects(life, region, moment) {
  const row = rowAt(life, region, moment);
  return row.kind === "f" || row.kind === "t" || row.tiles !== null;
}

// The fullest moment: of those at which most words are handed out, the last.
function fullestMoment(life) {
  let fullest = 0;
  life.moments.forEach((moment, place) => {
    if (moment.handedOut >= life.moments[fullest].handedOut) fullest = place;
  });
  return fullest;
}

// The event that led to a moment, where the file has it.
function eventOf(life, moment) {
  return life.events.get(life.moments[moment].event) || null;
}

// Whether a moment is one event after the one before it.
function isOneStep(life, moment) {
  return moment > 0 && life.moments[moment].event === life.moments[moment - 1].event + 1;
}

// The collector's step between the moment before and this one, none where there are other steps between them.
function collectorStepAt(life, moment) {
  if (!isOneStep(life, moment)) return null;
  const event = eventOf(life, moment);
  return event && event.collector ? event : null;
}

// The regions that were in use a moment before and are free now.
function reclaimedAt(life, moment) {
  const regions = [];
  for (let region = 0; region < life.sizes.regions; region += 1) {
    if (rowAt(life, region, moment - 1).kind !== "f" && rowAt(life, region, moment).kind === "f") regions.push(region);
  }
  return regions;
}

// Whether a step of the collector moves objects.
function movesObjects(step) {
  return ["pause", "compact", "pausewithin", "young"].includes(step.verb);
}

// What a pause or a compaction did: the regions that it emptied, the regions that it copied into, and the copies where the file tells tiles.
function pauseAt(life, moment) {
  const set = reclaimedAt(life, moment);
  const into = [];
  for (let region = 0; region < life.sizes.regions; region += 1) {
    if (rowAt(life, region, moment - 1).kind === "f" && rowAt(life, region, moment).kind === "o") into.push(region);
  }
  const copies = [];
  const before = placesAt(life, moment - 1);
  for (const [name, to] of placesAt(life, moment)) {
    const from = before.get(name);
    if (from && from.address !== to.address) copies.push({ name, from, to, words: to.tile.size });
  }
  return { set, into, copies };
}

// The cards that are dirty at a moment.
function dirtyAt(life, moment) {
  const found = life.moments[moment];
  return [...found.queue, ...found.logs.flatMap((log) => log.cards)];
}

// How a root's place is called.
function rootName(life, place) {
  const { globals, registers, mutators } = life.sizes;
  if (place < globals) return `g${place}`;
  const mutator = Math.floor((place - globals) / registers);
  const register = `r${(place - globals) % registers}`;
  return mutators > 1 ? `${register} of mutator ${mutator}` : register;
}

// Where an object is from which moment on, in the order of the moments; null where it is nowhere. The regions' lines are read for that, and
// no more of them than have the name; what was found of a few names is kept.
function stretchesOf(life, name) {
  return STRETCHES.at(life, name);
}

const STRETCHES = new Kept((life, name) => {
  const wanted = new RegExp(`^o \\d+ ${name} `);
  const changes = [];
  life.rows.forEach((rows, region) => {
    let was = false;
    for (const { moment, lines } of rows) {
      const line = lines.find((each) => each.startsWith("o") && wanted.test(each)) || null;
      if (line || was) changes.push({ moment, region, line });
      was = line !== null;
    }
  });
  changes.sort((a, b) => a.moment - b.moment);
  const lines = new Map();
  const stretches = [];
  changes.forEach(({ moment, region, line }, number) => {
    if (line) lines.set(region, line);
    else lines.delete(region);
    if (number + 1 < changes.length && changes[number + 1].moment === moment) return;
    const [found] = lines;
    if (!found) {
      stretches.push({ moment, place: null });
      return;
    }
    const tile = readTile(found[1].split(" "));
    stretches.push({ moment, place: { region: found[0], tile, address: found[0] * life.sizes.words + tile.offset } });
  });
  return stretches;
});

// Why an object that was in a region is at no place that is told.
function whyGone(life, region, moment) {
  if (!tellsObjects(life, region, moment)) return `told no more: the objects of region ${region} aren't in this file from here on`;
  for (let other = 0; other < life.sizes.regions; other += 1) {
    if (!tellsObjects(life, other, moment)) return `gone from region ${region}, or moved to where objects aren't told`;
  }
  return `gone: region ${region} was reclaimed`;
}

// The life of an object: what happened to it, and at which moment.
function lifeOfName(life, name) {
  const notes = [];
  let last = null;
  for (const { moment, place } of stretchesOf(life, name)) {
    const note = (text) => notes.push({ moment, text });
    const became = (key, value) => place.tile[key] === value && last.tile[key] !== value;
    const how = notes.length ? "told again" : "made";
    if (place && !last) note(`${how} in region ${place.region}, at ${place.address}, ${place.tile.size} words`);
    if (place && last) {
      if (place.address !== last.address) note(`moved from ${last.address} to ${place.address}, in region ${place.region}`);
      if (became("progress", "grey")) note("found by marking: grey");
      if (became("progress", "scanned")) note("scanned");
      if (became("part", "marked")) note("marked when marking ended: live");
      if (became("part", "dead")) note("not marked when marking ended: dead");
    }
    if (!place && last) note(whyGone(life, last.region, moment));
    last = place;
  }
  return notes;
}

// The moment nearest to one at which an object is told, or null where there is none.
function nearestWith(life, name, moment) {
  let nearest = null;
  const stretches = stretchesOf(life, name);
  stretches.forEach(({ moment: from, place }, number) => {
    if (!place) return;
    const to = number + 1 < stretches.length ? stretches[number + 1].moment - 1 : life.moments.length - 1;
    const near = Math.max(from, Math.min(to, moment));
    if (nearest === null || Math.abs(near - moment) < Math.abs(nearest - moment)) nearest = near;
  });
  return nearest;
}
