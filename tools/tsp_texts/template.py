"""The page that a picture is put into: its style and what it does."""

PAGE = r'''<!doctype html>
<html lang="en">
<head>
<meta charset="utf-8">
<title>@TITLE@</title>
<style>
body { margin: 0; font: 13px sans-serif; display: flex; flex-direction: column; height: 100vh; }
header { padding: 6px 10px; border-bottom: 1px solid #ccc; }
header input { width: 22em; }
#hint { color: #555; margin-left: 1em; }
main { flex: 1; display: flex; min-height: 0; }
#stage { flex: 1; overflow: hidden; cursor: grab; }
#stage.dragged { cursor: grabbing; }
#stage svg { width: 100%; height: 100%; display: block; user-select: none; }
#stage line, #stage polyline, #stage circle, #stage polygon { vector-effect: non-scaling-stroke; }
#found { width: 26em; overflow: auto; border-left: 1px solid #ccc; margin: 0; padding: 0; list-style: none; }
#found li { padding: 3px 8px; border-bottom: 1px solid #eee; cursor: pointer; font: 12px monospace; overflow-wrap: anywhere; }
#found li:hover, #found li:focus { background: #eef4fb; }
#tip { position: fixed; display: none; background: #fff; border: 1px solid #888; padding: 4px 7px; pointer-events: none;
       font: 12px monospace; white-space: pre-wrap; max-width: 60em; box-shadow: 2px 2px 6px #0003; }
[hidden] { display: none !important; }
</style>
</head>
<body>
<header>
<label>Search <input id="search" type="search" placeholder="a node, an act, a datagram: beta correct" autocomplete="off"></label>
<span id="count"></span>
<button id="whole" type="button">Whole picture</button>
<span id="hint">Wheel: zoom. Drag: move. Rest on a datagram or an act: its lines of the trace.</span>
</header>
<main>
<div id="stage">
@SVG@
</div>
<ol id="found" hidden></ol>
</main>
<div id="tip"></div>
<script>
"use strict";
// Each item: where it is drawn, from and to; the node's name; its lines of the trace.
const ITEMS = @ITEMS@;
const MOST_FOUND = 300, NEAR = 9;
const byId = id => document.getElementById(id);
const stage = byId("stage"), svg = stage.querySelector("svg"), tip = byId("tip"), found = byId("found");
const whole = svg.viewBox.baseVal, all = { x: 0, y: 0, width: whole.width, height: whole.height };
let view = { ...all };

function show(next) {
  view = next;
  svg.setAttribute("viewBox", `${view.x} ${view.y} ${view.width} ${view.height}`);
}

// The place in the picture of a place on the screen.
function place(event) {
  const at = new DOMPoint(event.clientX, event.clientY).matrixTransform(svg.getScreenCTM().inverse());
  return { x: at.x, y: at.y };
}

function zoom(at, factor) {
  const width = Math.min(Math.max(view.width * factor, all.width / 2000), all.width * 2);
  const by = width / view.width;
  show({ x: at.x - (at.x - view.x) * by, y: at.y - (at.y - view.y) * by, width, height: view.height * by });
}

stage.addEventListener("wheel", event => {
  event.preventDefault();
  zoom(place(event), Math.exp(event.deltaY * 0.0015));
  near(event);
}, { passive: false });

let from = null;
stage.addEventListener("pointerdown", event => {
  if (event.button === 0) { from = place(event); stage.classList.add("dragged"); stage.setPointerCapture(event.pointerId); }
});
stage.addEventListener("pointermove", event => {
  if (from) {
    const to = place(event);
    show({ ...view, x: view.x + from.x - to.x, y: view.y + from.y - to.y });
  }
  near(event);
});
for (const end of ["pointerup", "pointercancel"]) {
  stage.addEventListener(end, () => { from = null; stage.classList.remove("dragged"); });
}
stage.addEventListener("pointerleave", () => { tip.style.display = "none"; });
byId("whole").addEventListener("click", () => show({ ...all }));

// How far a place is from the stroke of an item.
function distance(item, at) {
  const [x1, y1, x2, y2] = item, dx = x2 - x1, dy = y2 - y1, length = dx * dx + dy * dy;
  const part = length ? Math.max(0, Math.min(1, ((at.x - x1) * dx + (at.y - y1) * dy) / length)) : 0;
  return Math.hypot(at.x - x1 - part * dx, at.y - y1 - part * dy);
}

// Shows the lines of what is nearest to the pointer. What is a point goes before a datagram that ends there.
function near(event) {
  const at = place(event), reach = NEAR / svg.getScreenCTM().a;
  let best = null, least = reach;
  for (const item of ITEMS) {
    const is_point = item[0] === item[2] && item[1] === item[3];
    const away = distance(item, at) + (is_point ? 0 : reach / 3);
    if (away < least) { least = away; best = item; }
  }
  tip.style.display = best ? "block" : "none";
  if (best) {
    tip.textContent = best[5].slice(0, 24).join("\n") + (best[5].length > 24 ? `\nand ${best[5].length - 24} lines more` : "");
    tip.style.left = Math.min(event.clientX + 14, innerWidth - tip.offsetWidth - 8) + "px";
    tip.style.top = Math.min(event.clientY + 14, innerHeight - tip.offsetHeight - 8) + "px";
  }
}

// Marks places of the picture.
function mark(items) {
  svg.querySelectorAll(".mark").forEach(each => each.remove());
  for (const [x1, y1, x2, y2] of items) {
    const line = document.createElementNS("http://www.w3.org/2000/svg", "line");
    for (const [name, value] of Object.entries({ x1, y1, x2: x1 === x2 && y1 === y2 ? x2 + 0.01 : x2, y2, class: "mark", stroke: "#06c",
                                                 "stroke-width": 7, "stroke-linecap": "round", opacity: 0.45 })) line.setAttribute(name, value);
    svg.append(line);
  }
}

function go(item) {
  const width = all.width / 12, height = width * view.height / view.width;
  show({ x: (item[0] + item[2]) / 2 - width / 2, y: (item[1] + item[3]) / 2 - height / 2, width, height });
  mark([item]);
}

// Items of which a line has all words that are searched for, as words or beginnings of words; a node's name is one too.
function search(text) {
  const words = text.toLowerCase().split(/\s+/).filter(word => word), hits = [];
  for (const item of words.length ? ITEMS : []) {
    for (const line of item[5]) {
      const has = (item[4] + " " + line).toLowerCase().split(" ");
      if (words.every(word => has.some(each => each.startsWith(word)))) hits.push([item, line]);
    }
  }
  found.hidden = !words.length;
  byId("count").textContent = words.length ? `${hits.length} found` + (hits.length > MOST_FOUND ? `, ${MOST_FOUND} shown` : "") : "";
  found.replaceChildren(...hits.slice(0, MOST_FOUND).map(([item, line]) => {
    const row = document.createElement("li");
    row.textContent = `${item[4]}: ${line}`;
    row.tabIndex = 0;
    row.addEventListener("click", () => go(item));
    row.addEventListener("keydown", event => { if (event.key === "Enter") go(item); });
    return row;
  }));
  mark(hits.slice(0, MOST_FOUND).map(([item]) => item));
}
byId("search").addEventListener("input", event => search(event.target.value));
</script>
</body>
</html>
'''
