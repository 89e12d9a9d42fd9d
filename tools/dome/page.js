"use strict";
const SVG = "http://www.w3.org/2000/svg";
const step = 78, edge = 47, half = 17, apart = 6, head = 10;
let chosen = -1;

function make(kind, values, parent, text) {
  const node = document.createElementNS(SVG, kind);
  for (const key in values) node.setAttribute(key, values[key]);
  if (text !== undefined) node.textContent = text;
  parent.append(node);
  return node;
}

const at = board => [edge + step * (board % 8), edge + step * Math.floor(board / 8)];

// What is told of a link.
function linkText(link) {
  const names = link.streams.map(i => dome.streams[i].name).join(", ");
  return `${link.from}-${link.to}: ${link.shares} of ${dome.F} slots, ${link.cells} of ${dome.N} places: ${names}`;
}

// A link as an arrow, a little to the right of the way that it goes.
function drawLink(link, parent) {
  const [x1, y1] = at(link.from), [x2, y2] = at(link.to);
  const dx = Math.sign(x2 - x1), dy = Math.sign(y2 - y1);
  const on = chosen >= 0 && link.streams.includes(chosen) ? {class: "way"} : {};
  const tip = [x2 - half * dx - apart * dy, y2 - half * dy + apart * dx];
  const [x, y] = [tip[0] - head * dx, tip[1] - head * dy];
  const width = 1 + 7 * link.shares / dome.F, side = Math.max(4, width / 2 + 3);
  const group = make("g", {}, parent);
  make("title", {}, group, "link " + linkText(link));
  make("line", {
    x1: x1 + half * dx - apart * dy, y1: y1 + half * dy + apart * dx, x2: x, y2: y,
    "stroke-width": width, ...on,
  }, group);
  make("polygon", {points: `${tip} ${x + side * dy},${y + side * dx} ${x - side * dy},${y - side * dx}`, ...on}, group);
}

function drawMesh() {
  const mesh = document.getElementById("mesh");
  mesh.replaceChildren();
  for (const link of dome.links) drawLink(link, mesh);
  const way = chosen < 0 ? [] : dome.streams[chosen].way;
  for (let board = 0; board < 64; board++) {
    const [x, y] = at(board);
    const box = {x: x - half, y: y - half, width: 2 * half, height: 2 * half, rx: 4};
    if (way.includes(board)) box.class = "way";
    make("rect", box, mesh);
    make("text", {x: x, y: y}, mesh, board);
  }
}

// Bars of the delays, and a line at the bound; what they are is said below.
function histogram(stream, parent) {
  const far = Math.max(stream.bound || 0, stream.greatest, 1) + 1;
  const wide = 600, high = 160, bars = 60;
  const counts = new Array(bars).fill(0);
  for (const [delay, count] of stream.delays) counts[Math.floor(delay * bars / far)] += count;
  const most = Math.max(...counts, 1);
  const svg = make("svg", {viewBox: `0 0 ${wide} ${high}`, preserveAspectRatio: "none", role: "img", "aria-label": `delays of ${stream.name}`}, parent);
  counts.forEach((count, i) => make("rect", {x: i * wide / bars, width: wide / bars - 1, y: high - high * count / most, height: high * count / most}, svg));
  const x = Math.min(wide - 1, wide * ((stream.bound || 0) + 1) / far);
  if (stream.bound !== null) make("line", {x1: x, x2: x, y1: 0, y2: high}, svg);
  const scale = document.createElement("div");
  scale.className = "scale";
  say("0 slots", scale);
  say(stream.bound === null ? `${far - 1} slots` : `bound, ${stream.bound} slots`, scale);
  parent.append(scale);
  say(`How many tiles took so long: the highest bar has ${most}, and a bar is ${Math.round(10 * far / bars) / 10} slots wide.`, parent).className = "legend";
}

function say(text, parent) {
  const line = document.createElement("p");
  line.textContent = text;
  parent.append(line);
  return line;
}

function drawChosen() {
  const place = document.getElementById("chosen");
  place.replaceChildren();
  if (chosen < 0) return;
  const s = dome.streams[chosen];
  const hops = s.way.length - 1;
  say(`${s.name}: ${s.way.join(" ")}; ${hops} hop${hops === 1 ? "" : "s"}, share ${s.share} of ${dome.F}, ` +
    (hops === 1 ? `${s.last} cells` : `${s.cells} cells, ${s.last} on the last link`), place);
  say(`${s.asked} asked for, ${s.granted} granted, ${s.arrived} arrived; mean delay ${s.mean} slots, greatest ${s.greatest}; ` +
    (s.bound === null ? `no bound: ${s.mark}` : `bound ${s.bound}`), place);
  if (dome.ahead) say(`${s.ahead} times a tile left a link ahead of its slot; tiles came ${s.gained} slots sooner in all`, place);
  histogram(s, place);
}

function choose(i) {
  chosen = i;
  document.querySelectorAll("#streams button").forEach((button, j) => button.setAttribute("aria-pressed", String(i === j)));
  drawMesh();
  drawChosen();
}

document.getElementById("dome").textContent =
  `F ${dome.F}, W ${dome.W}, N ${dome.N}; streams: ${dome.streams.length}, links that they use: ${dome.links.length}; slots played: ${dome.slots}, seed ${dome.seed}` +
  (dome.ahead ? ", tiles sent ahead" : "");
[...dome.links].sort((a, b) => b.shares - a.shares).slice(0, 5).forEach(link => {
  const line = document.createElement("li");
  line.textContent = linkText(link);
  document.getElementById("links").append(line);
});
dome.streams.forEach((s, i) => {
  const button = document.createElement("button");
  button.type = "button";
  button.textContent = s.name;
  button.addEventListener("click", () => choose(chosen === i ? -1 : i));
  document.getElementById("streams").append(button);
});
document.addEventListener("keydown", event => {
  const count = dome.streams.length;
  if (event.ctrlKey || event.metaKey || event.altKey || !count) return;
  if (event.key === "j") choose((chosen + 1) % count);
  else if (event.key === "k") choose((chosen + count) % count === 0 || chosen < 0 ? count - 1 : chosen - 1);
  else if (event.key === "Escape") choose(-1);
});
choose(-1);
