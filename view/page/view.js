// Which part of the graph is seen: zoom, pan, and the keyboard and the pointer in the graph.
const LEAST_SCALE = 0.5; // at less than this texts are too small to read
const START_SCALE = 0.8;
const ARROWS = { ArrowRight: [1, 0], ArrowLeft: [-1, 0], ArrowDown: [0, 1], ArrowUp: [0, -1] };
const whole = drawing.getAttribute("viewBox").split(" ").map(Number);
let view = whole.slice(), drag = null;

function setView(next) {
  view = next;
  drawing.setAttribute("viewBox", view.map((z) => z.toFixed(1)).join(" "));
}

// The whole graph, in a drawing as high as it needs and the window allows.
function showWhole() {
  const wide = byId("frame").clientWidth || 800;
  const needed = whole[3] * Math.min(1.25, Math.max(LEAST_SCALE, wide / whole[2]));
  const high = Math.max(180, Math.min(needed, innerHeight * 0.48));
  drawing.style.height = high + "px";
  const scale = Math.min(1.25, wide / whole[2], high / whole[3]);
  setView([(whole[2] - wide / scale) / 2, (whole[3] - high / scale) / 2, wide / scale, high / scale]);
  return scale;
}

// The whole graph, or what is around INITIAL if the whole would be too small to read.
function showStart() {
  const scale = showWhole();
  if (scale >= LEAST_SCALE) return;
  const [x, y, width] = data.places[0];
  const w = (view[2] * scale) / START_SCALE, h = (view[3] * scale) / START_SCALE;
  setView([x - width, Math.min(Math.max(y - h / 2, 0), Math.max(0, whole[3] - h)), w, h]);
}

function zoom(by, x = view[0] + view[2] / 2, y = view[1] + view[3] / 2) {
  const width = Math.min(Math.max(view[2] * by, 120), 4 * Math.max(whole[2], whole[3]) + 2000);
  const ratio = width / view[2];
  setView([x - (x - view[0]) * ratio, y - (y - view[1]) * ratio, width, view[3] * ratio]);
}

// A zoom that was asked for by a button or a key.
function askedZoom(by) {
  zoom(by);
  tell(`Zoom ${percent(drawing.clientWidth, view[2])}`);
}

function askedWhole() {
  showWhole();
  tell("The whole graph is shown");
}

const pan = (right, down) => setView([view[0] + right * view[2], view[1] + down * view[3], view[2], view[3]]);

// Moves the view so that these partitions are in it; what is already there stays where it is.
function show(ids) {
  const boxes = ids.map((p) => data.places[p]);
  const left = Math.min(...boxes.map((b) => b[0] - b[2] / 2)), right = Math.max(...boxes.map((b) => b[0] + b[2] / 2));
  const top = Math.min(...boxes.map((b) => b[1] - b[3] / 2)), low = Math.max(...boxes.map((b) => b[1] + b[3] / 2));
  const [x, y, wide, high] = view;
  if (left >= x && right <= x + wide && top >= y && low <= y + high) return;
  const grow = Math.max(1, (1.1 * (right - left)) / wide, (1.1 * (low - top)) / high);
  setView([(left + right - wide * grow) / 2, (top + low - high * grow) / 2, wide * grow, high * grow]);
}

// A partition in the middle, large enough to read.
function goTo(p) {
  const [x, y] = data.places[p];
  const width = Math.min(view[2], 1.5 * drawing.clientWidth), height = (view[3] * width) / view[2];
  if (width < view[2]) setView([x - width / 2, y - height / 2, width, height]);
  show([p]);
}

// ---- The pointer ----

function startDrag(event) {
  if (event.button === 0) drag = { x: event.clientX, y: event.clientY, view: view.slice(), moved: false };
}

function moveDrag(event) {
  if (!drag) return;
  const right = event.clientX - drag.x, down = event.clientY - drag.y;
  if (!drag.moved && Math.hypot(right, down) < 5) return;
  drag.moved = true;
  const scale = view[2] / drawing.clientWidth;
  setView([drag.view[0] - right * scale, drag.view[1] - down * scale, view[2], view[3]]);
}

// The click comes after this, and has to know of the drag.
const endDrag = () => setTimeout(() => { drag = null; });

function wheel(event) {
  event.preventDefault();
  const box = drawing.getBoundingClientRect();
  const x = view[0] + ((event.clientX - box.left) / box.width) * view[2];
  const y = view[1] + ((event.clientY - box.top) / box.height) * view[3];
  zoom(event.deltaY > 0 ? 1.15 : 1 / 1.15, x, y);
}

// A click on the graph shows a partition or a block, unless it ended a drag.
function clicked(event) {
  if (!drag || !drag.moved) chosen(event.target);
}

function chosen(target) {
  const node = target.closest(".node"), dash = target.closest(".dash");
  if (dash) showBlock(Number(dash.dataset.block));
  else if (node && !node.classList.contains("gone")) showPartition(Number(node.id.slice(1)));
}

// The title that the pointer shows is made when it comes, so that a large page opens fast.
function addTitle(event) {
  const part = event.target.closest(".node, .edge[id]");
  if (!part || part.querySelector("title")) return;
  const [p, q, count] = part.id[0] === "e" ? data.edges[Number(part.id.slice(1))] : [];
  const source = p === 0 ? plural(traces, "trace") : `${plural(countOf.get(p), "event")} of the box it leaves`;
  const text = count ? `${partitionName(p)} → ${partitionName(q)}: ${count} of the ${source}`
    : part.getAttribute("aria-label");
  part.append(makeDrawn("title", {}, text));
}

// ---- The keyboard ----

// The nearest partition from this one in a direction.
function neighbour(p, right, down) {
  const [x, y] = data.places[p];
  let best = p, least = Infinity;
  for (const [q] of data.partitions) {
    const [u, v] = data.places[q];
    const along = (u - x) * right + (v - y) * down, aside = Math.abs((u - x) * down) + Math.abs((v - y) * right);
    if (along > 1 && along + 3 * aside < least) [best, least] = [q, along + 3 * aside];
  }
  return best;
}

function arrow(event, right, down) {
  if (event.shiftKey) return pan(right / 8, down / 8);
  const node = event.target.closest(".node");
  const next = node ? neighbour(Number(node.id.slice(1)), right, down) : 0;
  nodeOf(next).focus({ preventScroll: true });
  show([next]);
}

function key(event) {
  if (event.ctrlKey || event.altKey || event.metaKey) return;
  if (event.key in ARROWS) arrow(event, ...ARROWS[event.key]);
  else if (event.key === "+" || event.key === "=") askedZoom(0.8);
  else if (event.key === "-") askedZoom(1.25);
  else if (event.key === "0") askedWhole();
  else if (event.key === "Enter" || event.key === " ") chosen(event.target);
  else return;
  event.preventDefault();
}
