"use strict";
// Draws the link after a call, with the call and its answer in words.

const flight = JSON.parse(document.getElementById("flight").textContent);
flight.calls = callsOf(flight.trace);
const stateAfter = player(flight);
const SLOTS = flight.F * flight.W;
const SVG = "http://www.w3.org/2000/svg";
const HIGH = 40; // a curve's height in its own units
const FIRST = flight.start.calls, LAST = lastCall(flight); // calls; the first is the one before the page's own
const COMES = [FIRST]; // by slot, from the start's on: the number of the call with which it comes up
flight.calls.forEach(([line], place) => (line[0] === "T" ? COMES.push(FIRST + place + 1) : 0));
const LAST_SLOT = flight.start.slot + COMES.length - 1;
let shown = FIRST; // the number of the call that is shown

const byId = (name) => document.getElementById(name);

function element(kind, parent, className, words) {
  const made = parent.appendChild(document.createElement(kind));
  made.className = className || "";
  made.textContent = words || "";
  return made;
}

function drawn(kind, parent, attributes) {
  const made = parent.appendChild(document.createElementNS(SVG, kind));
  Object.entries(attributes).forEach(([name, value]) => made.setAttribute(name, value));
  return made;
}

// What the call that is shown asks, and its answer.
function wordsOf(number) {
  if (number === 0) {
    return ["The fresh link, before the first call.", "Nothing is booked, and nothing is held."];
  }
  if (number === FIRST) {
    return [`The link after call ${FIRST}.`, "With the next call this page begins."];
  }
  const [asked, answered] = callWords(flight, callAt(flight, number), stateAfter(number - 1), reasonsOf(flight, number));
  return [asked, answered + pairWords(flight, number)];
}

// The lines of the call that is shown; none where the page begins.
function linesAt(number) {
  return number === FIRST ? [] : callAt(flight, number);
}

// The slots of the window that a call is about, by their place in it: those that are granted, or that a taken credit is dated.
function touched(number, state) {
  return linesAt(number).filter(([letter, refusal]) => "GBC".includes(letter) && refusal === 0)
    .map((line) => slotOf(state, line) - state.first);
}

// The flows that a call is about: that ask or give back, whose slot has come up, or that are lent to.
function flowsAbout(number) {
  return linesAt(number).filter(([letter, , , kind]) => "GRCTLB".includes(letter) && kind !== 5)
    .map((line) => ("TL".includes(line[0]) ? line[VALUE] : line[KIND] === 4 ? NOBODY : line[FLOW]));
}

// ---- what is built once

function buildWindow() {
  const root = byId("window");
  root.style.setProperty("--wide", flight.F);
  root.style.setProperty("--middle", Math.min(flight.F, 32));
  root.style.setProperty("--slim", Math.min(flight.F, 16));
  const labels = [], slots = [];
  for (let frame = 0; frame < flight.W; frame += 1) {
    const box = element("div", root, "frame");
    labels.push(element("div", box, "name"));
    const row = element("div", box, "slots");
    for (let slot = 0; slot < flight.F; slot += 1) {
      slots.push(element("span", row, "slot"));
    }
  }
  return { labels, slots };
}

function buildCurve(flow, parent) {
  const card = element("div", byId(parent), "card");
  const title = element("div", card, "title");
  const badge = element("span", title, "badge", String(flow.number));
  dress(badge, flow.number);
  element("strong", title, "", `Flow ${flow.number}`);
  element("span", title, "facts", `share ${flow.share}, node ${flow.source} to ${flow.destination}`);
  const image = drawn("svg", card, { viewBox: `0 -4 ${SLOTS} ${HIGH + 4}`, preserveAspectRatio: "none", "aria-hidden": "true" });
  const area = drawn("path", image, { fill: flow.fill, class: "area" });
  for (let frame = 1; frame < flight.W; frame += 1) {
    drawn("path", image, { d: `M${frame * flight.F} 0V${HIGH}`, class: "edge" });
  }
  drawn("path", image, { d: `M0 0H${SLOTS}`, class: "cells" });
  const current = drawn("path", image, { class: "current" });
  return { card, area, current, words: element("p", card, "words") };
}

flight.flows.forEach((flow, number) => { flow.number = number; });
const parts = buildWindow();
const curves = flight.flows.map((flow) => buildCurve(flow, "holdings"));
const ownCurves = flight.flows.map((flow) => buildCurve(flow, "own")); // beside the call's words

// ---- what is drawn for each call

function dress(slot, flow) {
  const shown = flow === null ? null : flight.flows[flow];
  const bar = shown && shown.barred ? `linear-gradient(to top, transparent 2px, ${shown.ink} 2px 5px, transparent 5px) ` : "";
  slot.style.background = shown ? bar + shown.fill : "";
  slot.style.color = shown ? shown.ink : "";
}

function drawWindow(number, state) {
  const first = state.first, about = touched(number, state);
  parts.labels.forEach((label, frame) => {
    const from = (first + frame * flight.F) % SLOTS;
    const name = frame === 0 ? "Head frame" : frame === flight.W - 1 ? "Newest frame" : "Frame";
    const places = flight.F === 1 ? `position ${from}` : `positions ${from} to ${from + flight.F - 1}`;
    label.textContent = `${name} ${first / flight.F + frame}: ${places}`;
  });
  parts.slots.forEach((slot, place) => {
    const current = first + place === state.slot;
    const owner = current && state.lent !== null ? state.lent : state.owners[place];
    dress(slot, owner);
    slot.textContent = owner === null ? "" : owner;
    slot.className = "slot" + (first + place < state.slot ? " gone" : "") +
      (current ? " cp" : "") + (about.includes(place) ? " new" : "");
  });
  const booked = state.owners.filter((owner, place) => owner !== null && first + place > state.slot).length;
  const lent = state.lent === null ? "" : ` It is lent to flow ${state.lent}.`;
  const where = `Current position CP = ${state.slot % SLOTS}, slot ${state.slot}.${lent} Booked and still to come: ${booked} of the window's ${SLOTS} slots.`;
  byId("where").textContent = where;
  byId("window").setAttribute("aria-label", `The window's slots and the flows that booked them. ${where}`);
}

// A step at each slot where the holding changes.
function areaPath(held, cells) {
  let path = `M0 ${HIGH}`, before = 0;
  held.forEach((number, place) => {
    if (number !== before) {
      path += `H${place}V${HIGH - (HIGH * number) / cells}`;
      before = number;
    }
  });
  return `${path}H${SLOTS}V${HIGH}Z`;
}

// Whatever slot a flow books, it is held in the window's last slot too.
function noneLeft(flow, state) {
  const held = state.holdings[flow];
  return held[held.length - 1] >= flight.flows[flow].cells;
}

// What a flow holds; the words begin behind "holds".
function heldWords(flow, state) {
  const coming = state.holdings[flow].slice(state.slot % flight.F);
  const none = noneLeft(flow, state) ? ": none left to book with" : "";
  return `${coming[0]} of ${flight.flows[flow].cells} now, at most ${Math.max(...coming)}${none}. Granted so far: ${state.granted[flow]}.`;
}

function drawCurve(curve, flow, state) {
  const now = state.slot % flight.F;
  curve.area.setAttribute("d", areaPath(state.holdings[flow], flight.flows[flow].cells));
  curve.current.setAttribute("d", `M${now + 0.5} 0V${HIGH}`);
  curve.words.textContent = `Holds ${heldWords(flow, state)}`;
  curve.card.classList.toggle("full", noneLeft(flow, state));
}

// The call's own flows are marked among all, and stand beside its words too.
function drawCurves(number, state) {
  const about = flowsAbout(number);
  curves.forEach((curve, flow) => {
    drawCurve(curve, flow, state);
    curve.card.classList.toggle("own", about.includes(flow));
  });
  ownCurves.forEach((curve, flow) => {
    curve.card.hidden = !about.includes(flow);
    drawCurve(curve, flow, state);
  });
  const flows = Array.from(new Set(about)).filter((flow) => curves[flow]);
  byId("said").classList.toggle("several", flows.length > 1);
  byId("whose").textContent = flows.length === 1 ? `Flow ${flows[0]} holds ${heldWords(flows[0], state)}` :
    flows.length ? `Flows ${flows.join(", ")}.` : "";
}

// The call and the slot that are shown, wherever they can be set.
function drawControls(state) {
  byId("slider").value = shown;
  byId("slider").setAttribute("aria-valuetext", `call ${shown} of ${LAST}`);
  byId("at-call").value = shown;
  byId("at-slot").value = state.slot;
}

function drawWords(number) {
  const [asked, answered] = wordsOf(number), refused = number > FIRST ? refusalsOf(callAt(flight, number)) : [];
  byId("call").textContent = asked;
  byId("answer").textContent = answered;
  byId("advice").textContent = refused.length ? advice(flight, refused[0]) : "";
  byId("rule").textContent = refused.length ? ruleWords(flight, refused[0], answered) : "";
  byId("said").classList.toggle("refused", refused.length > 0);
}

// The address follows; a browser that takes no more of them in a row leaves it as it was.
function follow(address) {
  try {
    history.replaceState(null, "", address);
  } catch (tooMany) {
    return;
  }
}

function show(number, address) {
  shown = Math.max(FIRST, Math.min(number, LAST));
  const state = stateAfter(shown);
  drawControls(state);
  drawWords(shown);
  drawWindow(shown, state);
  drawCurves(shown, state);
  follow(address || `#call=${shown}`);
}

// ---- the controls

// The number of the call that these digits mean, as a call's number or as a slot that comes up with it; or undefined.
function meant(kind, digits) {
  if (!/^\d{1,15}$/.test(digits)) {
    return undefined;
  }
  const number = Number(digits);
  return kind === "slot" ? COMES[number - flight.start.slot] : number >= FIRST && number <= LAST ? number : undefined;
}

// Goes to what a field says; where there is no such call or slot, it is said, and the page stays.
function goByField(kind) {
  const words = byId(`at-${kind}`).value.trim(), found = meant(kind, words);
  if (found !== undefined) {
    show(found, `#${kind}=${Number(words)}`);
    return;
  }
  drawControls(stateAfter(shown));
  byId("advice").textContent = `'${words}' is no ` + (kind === "slot" ?
    `slot that has come up: ${flight.whole ? "" : `the first here is slot ${flight.start.slot}, and `}the last is slot ${LAST_SLOT}.` :
    `call: ${flight.whole ? "" : `the first here is call ${FIRST}, and `}the last is call ${LAST}.`);
}

// Goes to what the address says, #call=17, #17 or #slot=40; a bad one is ignored.
function goByAddress() {
  const [, kind, digits] = /^#(?:(call|slot)=)?(\d+)$/.exec(location.hash) || [];
  const found = digits === undefined ? undefined : meant(kind, digits);
  if (found === undefined) {
    show(shown);
  } else {
    show(found, `#${kind || "call"}=${Number(digits)}`);
  }
}

function seek(step) {
  const sought = Number(byId("sought").value);
  const found = refusalFrom(flight, shown, step, sought);
  if (found) {
    show(found);
  } else {
    byId("advice").textContent = `There is no ${step > 0 ? "later" : "earlier"} ${sought ? `refusal ${sought}` : "refusal"}.`;
  }
}

function fillSought() {
  const counts = new Map();
  flight.calls.forEach((call) => refusalsOf(call).forEach((number) =>
    counts.set(number, (counts.get(number) || 0) + 1)));
  const all = Array.from(counts.values()).reduce((sum, count) => sum + count, 0);
  element("option", byId("sought"), "", `any (${all})`).value = 0;
  Array.from(counts.keys()).sort((one, other) => one - other).forEach((number) => {
    element("option", byId("sought"), "", `${number} (${counts.get(number)})`).value = number;
  });
}

const KEYS = {
  ArrowRight: () => show(shown + 1), ArrowLeft: () => show(shown - 1),
  PageDown: () => show(shown + 10), PageUp: () => show(shown - 10),
  Home: () => show(FIRST), End: () => show(LAST),
  n: () => seek(1), p: () => seek(-1),
};

function onKey(event) {
  const own = event.target.tagName === "SELECT" || event.target.type === "text";
  if (own || event.ctrlKey || event.altKey || event.metaKey || !KEYS[event.key]) {
    return;
  }
  event.preventDefault();
  KEYS[event.key]();
}

function begin() {
  const facts = [`Frames of F = ${counted(flight.F, "slot")}`, `a window of W = ${flight.W} frames`,
    `a buffer of N = ${counted(flight.N, "cell")}`, counted(flight.flows.length, "flow"),
    flight.whole ? counted(LAST, "call") : `calls ${FIRST + 1} to ${LAST} of the file, slots ${flight.start.slot + (FIRST ? 1 : 0)} to ${LAST_SLOT}`];
  const pairs = Object.keys(flight.pairs).length;
  byId("plan").textContent = `${facts.join(", ")}${pairs ? `, ${counted(pairs, "pair")} of a lend and a credit to leave ahead` : ""}.`;
  byId("slider").min = FIRST;
  byId("slider").max = LAST;
  byId("calls").textContent = `of ${LAST}`;
  byId("slots").textContent = `of ${LAST_SLOT}`;
  ["call", "slot"].forEach((kind) => byId(`at-${kind}`).addEventListener("change", () => goByField(kind)));
  byId("slider").addEventListener("input", () => show(Number(byId("slider").value)));
  [["first", "Home"], ["back", "ArrowLeft"], ["next", "ArrowRight"], ["last", "End"],
    ["previous-refusal", "p"], ["next-refusal", "n"]].forEach(([name, key]) =>
    byId(name).addEventListener("click", KEYS[key]));
  document.addEventListener("keydown", onKey);
  window.addEventListener("hashchange", goByAddress);
  fillSought();
  goByAddress();
}

begin();
