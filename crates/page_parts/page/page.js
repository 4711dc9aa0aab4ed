"use strict";
// The page: what is shown, and the keys and buttons that change it.

const life = readLife(document.getElementById("record").textContent, document.getElementById("life").textContent);
const at = (id) => document.getElementById(id);
const view = { moment: 0, region: null, name: null, tiles: false, fresh: [] };
const SPEEDS = [1600, 900, 500, 250, 120, 50];
let speed = 2;
let timer = null;

// ---- the lists of moments

// The moments that a collector's step led to.
const collectorMoments = life.moments.map((_, moment) => moment).filter((moment) => collectorStepAt(life, moment));
const fullest = fullestMoment(life);

// ---- drawing

let lanes;
let steps;
let moveCurves;

// What Tab reaches in the panels that are made anew for each moment.
const PANELS = "#told, #what, #object, #region, #roots, #objects";
const STOPS = "button, [tabindex]";

// Where the focus is: an element, or of a panel the key of a stop and its place among the stops.
function stopOf(element) {
  const panel = element.closest(PANELS);
  if (!panel) return { element };
  return { panel, place: [...panel.querySelectorAll(STOPS)].indexOf(element), key: element.dataset.stop };
}

function focusStop(stop) {
  let { element } = stop;
  if (stop.panel) {
    const stops = [...stop.panel.querySelectorAll(STOPS)];
    const same = stops.find((each) => stop.key !== undefined && each.dataset.stop === stop.key);
    element = same || stops[Math.min(stop.place, stops.length - 1)];
  }
  if (element && element.isConnected) element.focus({ preventScroll: true });
}

// Draws by a function, and gives the focus back to what is where it was.
function keepFocus(drawIt) {
  const stop = stopOf(document.activeElement || document.body);
  drawIt();
  if (stop.panel && document.activeElement === document.body) focusStop(stop);
}

function describeMoment() {
  const found = life.moments[view.moment];
  const event = eventOf(life, view.moment);
  const now = at("now");
  const link = make("a", { id: "link", href: `#${found.event}`, title: "The address of this moment" }, `event ${grouped(found.event)}`);
  const rest = [` of ${grouped(life.eventCount)}`];
  if (view.moment === fullest) rest.push(", the fullest moment");
  if (found.marking) rest.push(", marking runs");
  const focused = document.activeElement && document.activeElement.id === "link";
  now.replaceChildren("After ", link, rest.join(""), event ? ": " : ".");
  if (event) now.append(make("code", {}, `${event.step} = ${event.reply}`));
  if (focused) link.focus({ preventScroll: true });
}

// Tells the style how high the head is, so that the curves and the steps fill the rest of the window.
function fitSide() {
  document.documentElement.style.setProperty("--head", `${at("side").parentElement.offsetTop}px`);
}

function fill(id, ...panels) {
  at(id).replaceChildren(...panels.filter((panel) => panel !== null));
}

function drawPanels() {
  fill("told", aboutTold(life, view, show));
  fill("what", aboutStep(life, view.moment));
  fill("object", view.name === null ? null : aboutObject(life, view, show, () => chooseName(null), chooseName));
  fill("region", view.region === null ? null : aboutRegion(life, view, chooseName, () => openRegion(null)));
  fill("roots", aboutRoots(life, view, chooseName, openRegion), aboutDeletions(life, view, chooseName, openRegion));
  fill("objects", aboutObjects(life, view));
}

function draw() {
  const step = collectorStepAt(life, view.moment);
  view.fresh = step && movesObjects(step) ? dirtyAt(life, view.moment) : [];
  lanes.draw(view);
  moveCurves(view.moment);
  describeMoment();
  fitSide();
  steps.draw(life.moments[view.moment].event);
  keepFocus(drawPanels);
  at("slider").value = view.moment;
  at("slider").setAttribute("aria-valuetext", `after event ${life.moments[view.moment].event}`);
  document.body.setAttribute("data-moment", view.moment);
  document.body.setAttribute("data-event", life.moments[view.moment].event);
  putAddress(life.moments[view.moment].event);
}

function show(moment) {
  view.moment = Math.max(0, Math.min(life.moments.length - 1, moment));
  draw();
}

// ---- opening and closing

// Where the focus was before an object's panel took it.
let opener = null;

function openRegion(region) {
  view.region = view.region === region ? null : region;
  draw();
}

// Opens an object's panel, whose head takes the focus, or closes it, and gives the focus back.
function chooseName(name) {
  const opened = name !== null && view.name !== name;
  const active = document.activeElement || document.body;
  if (opened && !active.closest("#object")) opener = stopOf(active);
  view.name = opened ? name : null;
  const place = opened ? placesAt(life, view.moment).get(name) : null;
  if (place) view.region = place.region;
  draw();
  if (opened) {
    at("object").scrollIntoView({ block: "nearest" });
    at("object").querySelector("h3").focus({ preventScroll: true });
  } else if (opener) {
    focusStop(opener);
    opener = null;
  }
}

// Does what the field asks for, and says what came of it.
function find(words) {
  const found = findWords(life, words, view.moment);
  if (found.moment !== undefined && found.moment !== null) show(found.moment);
  if (found.name && view.name !== found.name) chooseName(found.name);
  else if (found.name) at("object").querySelector("h3").focus();
  at("answer").textContent = found.said;
  if (document.activeElement === at("wanted")) at("wanted").select();
}

// ---- moving

function toCollector(by) {
  const found = by > 0
    ? collectorMoments.find((moment) => moment > view.moment)
    : collectorMoments.findLast((moment) => moment < view.moment);
  show(found === undefined ? (by > 0 ? life.moments.length - 1 : 0) : found);
}

// What the button that plays says and shows.
function drawPlay(label, path) {
  at("play").setAttribute("aria-label", label);
  at("play").setAttribute("title", `${label} (Space)`);
  at("play").querySelector("path").setAttribute("d", path);
}

function pausePlay() {
  clearInterval(timer);
  timer = null;
  drawPlay("Play", "M6 4l14 8-14 8z");
}

function startPlay() {
  if (view.moment === life.moments.length - 1) show(0);
  timer = setInterval(() => {
    if (view.moment === life.moments.length - 1) pausePlay();
    else show(view.moment + 1);
  }, SPEEDS[speed]);
  drawPlay("Pause", "M7 4v16M17 4v16");
}

function togglePlay() {
  if (timer === null) startPlay();
  else pausePlay();
}

function changeSpeed(by) {
  speed = Math.max(0, Math.min(SPEEDS.length - 1, speed + by));
  if (timer === null) return;
  pausePlay();
  startPlay();
}

// ---- tiles, theme, keys

function setTiles(tiles) {
  view.tiles = tiles && life.tells;
  at("kind").textContent = view.tiles ? "Shares" : "Tiles";
  at("kind").hidden = !life.tells;
  draw();
}

function setTheme(dark) {
  document.documentElement.setAttribute("data-theme", dark ? "dark" : "light");
  at("theme").textContent = dark ? "Light" : "Dark";
}

function toggleTheme() {
  setTheme(document.documentElement.getAttribute("data-theme") !== "dark");
}

function toggleHelp() {
  const hidden = !at("keys").hidden;
  at("keys").hidden = hidden;
  at("help").setAttribute("aria-expanded", String(!hidden));
}

function closeAll() {
  view.region = null;
  at("keys").hidden = true;
  at("help").setAttribute("aria-expanded", "false");
  at("answer").textContent = "";
  chooseName(null);
}

// Moves by a share of the events.
function showShare(share) {
  const event = life.moments[view.moment].event + Math.trunc(Math.max(1, Math.abs(share) * life.eventCount)) * Math.sign(share);
  show(momentOfEvent(life, Math.max(0, event)));
}

const KEYS = {
  ArrowLeft: (shift) => (shift ? toCollector(-1) : show(view.moment - 1)),
  ArrowRight: (shift) => (shift ? toCollector(1) : show(view.moment + 1)),
  PageUp: () => showShare(-0.05),
  PageDown: () => showShare(0.05),
  Home: () => show(0),
  End: () => show(life.moments.length - 1),
  f: () => show(fullest),
  "/": () => at("wanted").select(),
  " ": togglePlay,
  "+": () => changeSpeed(1),
  "-": () => changeSpeed(-1),
  t: () => setTiles(!view.tiles),
  d: toggleTheme,
  "?": toggleHelp,
  Escape: closeAll,
};

// Whether keys write into an element, or are its own otherwise.
function ownsKey(target, key) {
  if (target.matches("#wanted, textarea")) return key !== "Escape";
  const isPressed = key === " " || key === "Enter";
  if (target.matches("a")) return key === "Enter";
  if (target.matches("button, summary, #names-file")) return isPressed;
  return target.matches(".scroll") && ["ArrowUp", "ArrowDown", "PageUp", "PageDown"].includes(key);
}

// A key in a list whose parts arrows reach: the lanes, the steps. Answers whether it did something.
function keyInList(press) {
  const lane = press.target.closest(".lane");
  if (lane && !press.shiftKey && lanes.key(press.key)) return true;
  if (lane && (press.key === "Enter" || press.key === " ")) {
    openRegion(Number(lane.dataset.region));
    return true;
  }
  return steps.key(press.key);
}

function onKey(press) {
  if (press.ctrlKey || press.altKey || press.metaKey) return;
  if (ownsKey(press.target, press.key)) return;
  const act = KEYS[press.key];
  if (press.target.matches("#wanted, textarea")) press.target.blur();
  const done = keyInList(press);
  if (done || act) press.preventDefault();
  if (!done && act) act(press.shiftKey);
}

// ---- the head of the page, and the legend

function describeSizes() {
  const { regions, words, mutators, buffer, card } = life.sizes;
  const heap = `${plural(regions, "region")} of ${plural(words, "word")}, cards of ${card}, buffers of ${buffer}`;
  const run = `${plural(life.eventCount, "event")}, ${plural(life.moments.length, "moment")}`;
  at("sizes").textContent = `${heap}, ${plural(mutators, "mutator")}; ${run}`;
  const { every, stride, small } = life.pace;
  const said = [];
  const which = `${stride > 1 ? `one of ${grouped(stride)} of` : "each of"} the collector's steps${small ? "" : " but mark and refine"}`;
  const each = every > 1 ? `a moment each ${grouped(every)} events` : "a moment after each event";
  if (!small || stride > 1 || every > 1) said.push(`${each}, and before and after ${which}`);
  const all = grouped(life.eventCount);
  if (life.events.size < life.eventCount) said.push(`${grouped(life.events.size)} of the ${all} steps are in this file`);
  if (!life.tells) said.push("objects aren't told one by one");
  if (lastTold(life) !== null) said.push(`objects are told up to event ${grouped(life.moments[lastTold(life)].event)}`);
  at("thinned").hidden = !said.length;
  at("thinned").textContent = said.length ? `Thinned: ${said.join("; ")}.` : "";
}

// The script's file names the life: its path in the heading, the last part of it in the title.
function describeFile() {
  document.title = `${life.file.split("/").pop()}: the life of a heap`;
  at("title").replaceChildren("The life of a heap: ", make("bdi", { class: "file" }, life.file));
}

function legendItem(drawIt, text) {
  const svg = shape("svg", { width: 26, height: 18, viewBox: "0 0 26 18", "aria-hidden": "true" });
  drawIt(svg);
  return make("li", {}, svg, text);
}

// What the regions' drawing is made of.
function partItems() {
  const part = (name) => (svg) => {
    const group = shape("g", { transform: "translate(1 1)" }, svg);
    drawPart(group, name, 0, 24, 16);
    shape("rect", { fill: "none", stroke: "var(--edge)", width: 24, height: 16 }, group);
  };
  const bed = { x: 1, y: 1, width: 24, height: 16, fill: "var(--sheet)", stroke: "var(--line)" };
  const line = { class: "lost", x1: 2, x2: 24, y1: 13, y2: 13 };
  const lost = (svg) => { part("new")(svg); shape("line", line, svg); };
  return [
    ...PARTS.map((name) => legendItem(part(name), PART_WORDS[name])),
    legendItem((svg) => shape("rect", bed, svg), "free"),
    ...(life.tells ? [legendItem(lost, NOT_REACHED)] : []),
  ];
}

// What is drawn over it.
function markItems() {
  const frame = { x: 2, y: 2, width: 22, height: 14 };
  const current = { ...frame, fill: "none", stroke: "var(--ink)", "stroke-width": 2.5 };
  const top = (svg) => {
    shape("line", { class: "top", x1: 13, x2: 13, y1: 3, y2: 18 }, svg);
    shape("path", { class: "top-head", d: "M8 0h10l-5 7z" }, svg);
  };
  const next = (svg) => {
    shape("line", { class: "top next", x1: 13, x2: 13, y1: 0, y2: 14 }, svg);
    shape("path", { class: "top-head next", d: "M8 17h10l-5 -7z" }, svg);
  };
  const dot = (style) => (svg) => shape("circle", { class: `dirty ${style}`, cx: 13, cy: 9, r: 5 }, svg);
  return [
    legendItem((svg) => shape("rect", current, svg), "current region"),
    legendItem((svg) => shape("rect", { ...frame, class: "buffer" }, svg), "open buffer"),
    legendItem(top, "top at mark start"),
    legendItem(next, "the same of the marking that runs"),
    legendItem((svg) => shape("circle", { class: "greys", cx: 13, cy: 9, r: 7 }, svg), "grey objects"),
    legendItem(dot("queued"), "dirty card, queued"),
    legendItem(dot("logged"), "in a log"),
    legendItem(dot("fresh"), "made dirty by the pause"),
    legendItem((svg) => shape("path", { class: "deleted", d: diamond(13, 9, 6) }, svg), "object in a deletion log"),
    legendItem((svg) => shape("path", { class: "run", d: "M2 8v5h22v-5" }, svg), "run of one humongous object"),
    legendItem((svg) => shape("rect", { ...frame, class: "evacuated" }, svg), "evacuated by the pause"),
    legendItem((svg) => shape("rect", { ...frame, class: "freed" }, svg), "freed by cleanup"),
  ];
}

// ---- names for shapes

// Takes the lines of a text, and answers how many aren't read.
function takeNames(text) {
  const { rules: read, faults } = readNames(text);
  setNames(read);
  const wrong = faults.length ? ` Not read: ${faults.length === 1 ? "line" : "lines"} ${listOf(faults)}.` : "";
  at("naming-said").textContent = read.length || faults.length ? `${plural(read.length, "line")} read.${wrong}` : "";
  draw();
  return faults.length;
}

// The names that the page tells are taken as if they were written into the box, which is open where a line isn't read.
function takeTold() {
  if (!life.names) return;
  at("names").value = life.names;
  at("naming").open = takeNames(at("names").value) > 0;
}

function takeFile() {
  const [file] = at("names-file").files;
  if (!file) return;
  file.text().then((text) => {
    at("names").value = text;
    takeNames(text);
  });
}

// ---- start

function build() {
  lanes = new Lanes(life, at("lanes"), openRegion);
  moveCurves = drawCurves(life, at("plots"), (event) => show(momentOfEvent(life, event)));
  if (steps) draw();
}

// The moment on which the page opens: the one of the address, or the fullest one.
function firstMoment() {
  const event = eventOfAddress();
  return event === null ? fullest : momentOfEvent(life, event);
}

function listen() {
  at("slider").addEventListener("input", () => show(Number(at("slider").value)));
  const clicks = {
    first: () => show(0), back: () => toCollector(-1), play: togglePlay, on: () => toCollector(1),
    last: () => show(life.moments.length - 1), fullest: () => show(fullest),
    kind: () => setTiles(!view.tiles), theme: toggleTheme, help: toggleHelp,
  };
  for (const [id, act] of Object.entries(clicks)) at(id).addEventListener("click", act);
  document.addEventListener("keydown", onKey);
  at("find").addEventListener("submit", (submit) => {
    submit.preventDefault();
    find(at("wanted").value);
  });
  at("names").addEventListener("input", () => takeNames(at("names").value));
  at("names-file").addEventListener("change", takeFile);
  window.addEventListener("hashchange", () => {
    if (eventOfAddress() !== null) show(momentOfEvent(life, eventOfAddress()));
  });
  let waiting = null;
  let width = window.innerWidth;
  window.addEventListener("resize", () => {
    if (window.innerWidth === width) return;
    width = window.innerWidth;
    clearTimeout(waiting);
    waiting = setTimeout(build, 120);
  });
}

function start() {
  setTheme(window.matchMedia("(prefers-color-scheme: dark)").matches);
  describeFile();
  describeSizes();
  at("slider").max = life.moments.length - 1;
  at("parts").replaceChildren(...partItems());
  at("marks").replaceChildren(...markItems());
  at("legend").open = window.matchMedia("(min-width: 1400px) and (min-height: 900px)").matches;
  at("naming").hidden = !life.tells;
  view.moment = firstMoment();
  build();
  steps = new Steps(life, at("steps"), (event) => show(momentOfEvent(life, event)));
  listen();
  setTiles(life.sizes.words * life.sizes.regions <= 4096);
  takeTold();
}

// What a test asks of the page.
window.heapLife = { life, view, show, openRegion, chooseName, setTiles, setTheme };
start();
