"use strict";
// The curves over the events: one panel below another, all with the same events from left to right.

const SVG = "http://www.w3.org/2000/svg";

// An element of a drawing with its attributes.
function shape(tag, attributes, parent) {
  const element = document.createElementNS(SVG, tag);
  for (const [name, value] of Object.entries(attributes)) {
    if (name === "text") element.textContent = value;
    else element.setAttribute(name, value);
  }
  if (parent) parent.append(element);
  return element;
}

// A number with commas between thousands.
function grouped(number) {
  return String(number).replace(/\B(?=(\d{3})+$)/g, ",");
}

const CURVES = [
  { field: "handedOut", label: "words handed out", style: "" },
  { field: "live", label: "words live", style: "live" },
  { field: "free", label: "free regions", style: "free" },
  { field: "queued", label: "cards queued", style: "queued" },
  { field: "copied", label: "words copied by pauses", style: "copied" },
];
// More ticks than these are short, so that they don't hide the curves.
const MOST_TICKS = 20;
// Heights of a curve and of the line of text above it, and what is free to the left and right.
const PANEL = { height: 30, text: 17, gap: 6, side: 6, foot: 22 };

// A curve's points: each value holds to the next moment.
function stepPath(life, field, across, most, height) {
  const parts = [];
  life.moments.forEach((moment, place) => {
    const x = across(moment.event).toFixed(1);
    const y = (height - (moment[field] / most) * (height - 4) - 1).toFixed(1);
    parts.push(place === 0 ? `M${x} ${y}` : `H${x}V${y}`);
  });
  return parts.join("");
}

// The stretches of events in which marking runs.
function markingBands(life) {
  const bands = [];
  let from = null;
  for (const moment of life.moments) {
    if (moment.marking && from === null) from = moment.event;
    if (!moment.marking && from !== null) {
      bands.push([from, moment.event]);
      from = null;
    }
  }
  if (from !== null) bands.push([from, life.eventCount]);
  return bands;
}

// The events at which a pause ended.
function pauseEvents(life) {
  const events = [];
  life.moments.forEach((moment, place) => {
    const step = collectorStepAt(life, place);
    if (step && movesObjects(step)) events.push(moment.event);
  });
  return events;
}

// Bands where marking runs, a tick for each pause, and where objects are told no more.
function drawEvents(life, group, across) {
  for (const [from, to] of markingBands(life)) {
    shape("rect", { class: "band", x: across(from), y: 0, width: Math.max(1, across(to) - across(from)), height: PANEL.height }, group);
  }
  const line = (style, x, from = 0) => shape("line", { class: style, x1: x, x2: x, y1: from, y2: PANEL.height }, group);
  const ticks = new Set(pauseEvents(life).map((event) => across(event).toFixed(0)));
  for (const x of ticks) line("pause-tick", x, ticks.size > MOST_TICKS ? PANEL.height * 0.75 : 0);
  if (lastTold(life) === null) return;
  shape("title", { text: "Objects are told up to here" }, line("told-end", across(life.moments[lastTold(life)].event)));
}

// A curve with its name, its value and the most that it comes to; answers what shows a moment.
function drawCurve(life, curve, svg, y, width, across) {
  const most = life.moments.reduce((so, moment) => Math.max(so, moment[curve.field]), 1);
  const panel = shape("g", { transform: `translate(0 ${y})` }, svg);
  shape("text", { x: PANEL.side, y: 13, text: curve.label }, panel);
  const value = shape("text", { x: width - PANEL.side, y: 13, "text-anchor": "end" }, panel);
  const drawn = shape("g", { transform: `translate(0 ${PANEL.text})` }, panel);
  drawEvents(life, drawn, across);
  shape("line", { class: "axis", x1: PANEL.side, x2: width - PANEL.side, y1: PANEL.height, y2: PANEL.height }, drawn);
  shape("path", { class: `curve ${curve.style}`, d: stepPath(life, curve.field, across, most, PANEL.height) }, drawn);
  const here = shape("line", { class: "here", y1: -2, y2: PANEL.height + 2 }, drawn);
  return (found) => {
    value.textContent = `${grouped(found[curve.field])} (at most ${grouped(most)})`;
    here.setAttribute("x1", across(found.event));
    here.setAttribute("x2", across(found.event));
  };
}

// Draws the curves, and answers what moves the line of the present moment. A click leads to a moment, as the keys do that the page has.
function drawCurves(life, holder, choose) {
  const width = Math.max(240, holder.clientWidth);
  const step = PANEL.text + PANEL.height + PANEL.gap;
  const bottom = CURVES.length * step;
  const span = Math.max(1, life.eventCount);
  const room = width - 2 * PANEL.side;
  const across = (event) => PANEL.side + (event / span) * room;
  const svg = shape("svg", {
    viewBox: `0 0 ${width} ${bottom + PANEL.foot}`, height: bottom + PANEL.foot, id: "curve-slider", role: "slider", tabindex: 0,
    "aria-label": "Curves over the events", "aria-valuemin": 0, "aria-valuemax": life.eventCount,
  });
  const fill = CURVES.map((curve, place) => drawCurve(life, curve, svg, place * step, width, across));
  shape("text", { class: "soft small", x: PANEL.side, y: bottom + 17, text: "event 0" }, svg);
  shape("text", { class: "soft small", x: width / 2, y: bottom + 17, "text-anchor": "middle", text: "band: marking, tick: pause" }, svg);
  shape("text", { class: "soft small", x: width - PANEL.side, y: bottom + 17, "text-anchor": "end", text: grouped(life.eventCount) }, svg);
  svg.addEventListener("click", (click) => {
    const box = svg.getBoundingClientRect();
    choose((((click.clientX - box.left) / box.width) * width - PANEL.side) / room * span);
  });
  holder.replaceChildren(svg);
  return (moment) => {
    const found = life.moments[moment];
    svg.setAttribute("aria-valuenow", found.event);
    svg.setAttribute("aria-valuetext", `event ${found.event}, ${found.handedOut} words handed out, ${found.live} live`);
    for (const each of fill) each(found);
  };
}
