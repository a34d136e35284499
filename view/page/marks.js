// Marks on the graph: which partitions and edges stand out, dashed lines, and a path that runs.
const MOST_DASHES = 60; // dashed lines that are drawn at a time
const drawing = byId("drawing");
const nodeOf = (p) => byId("p" + p);
const edgeOf = (at) => byId("e" + at);
const badgeOf = new Map(); // the badge of a partition, and its text
const framed = new Set();
let timer = 0, runner = null; // the clock of the path that runs, and the button that is to run it again

function clearMarks() {
  clearInterval(timer);
  setRunner(null);
  byId("caption").replaceChildren();
  drawing.classList.remove("marked", "walking");
  for (const part of drawing.querySelectorAll(".on, .near, .second, .asked")) {
    part.classList.remove("on", "near", "second", "asked");
    part.removeAttribute("aria-current");
  }
  byId("badges").replaceChildren();
  badgeOf.clear();
  framed.clear();
}

function removeMarks() {
  clearMarks();
  byId("search").value = "";
  search();
  tell("The marks are removed");
}

// A sign at the corner of a partition; a second one is joined to the first.
function badge(p, text) {
  const [known, before] = badgeOf.get(p) || [null, ""];
  if (before.endsWith("…")) return;
  if (known) known.remove();
  const label = before ? before + "," + text : String(text);
  const short = label.length > 9 ? label.slice(0, 8) + "…" : label;
  const [x, y, width, height] = data.places[p];
  const left = x - width / 2 - 6, top = y - height / 2 - 9, wide = 8 + 7 * short.length;
  const made = makeDrawn("g", { class: "badge" },
    makeDrawn("rect", { x: left, y: top, width: wide, height: 16, rx: 8 }),
    makeDrawn("text", { x: left + wide / 2, y: top + 12 }, short));
  byId("badges").append(made);
  badgeOf.set(p, [made, short]);
}

function mark(ids, word, text) {
  drawing.classList.add("marked");
  for (const p of ids) {
    nodeOf(p).classList.add(word);
    if (text) badge(p, text);
  }
}

// Frames around partitions that are taken as one.
function frame(ids) {
  for (const p of ids.filter((id) => !framed.has(id))) {
    framed.add(p);
    const [x, y, width, height] = data.places[p];
    const size = { x: x - width / 2 - 6, y: y - height / 2 - 6, width: width + 12, height: height + 12 };
    byId("badges").prepend(makeDrawn("rect", { ...size, rx: 12, class: "as-one" }));
  }
  for (const dash of byId("dashes").children) {
    if (ids.includes(Number(dash.dataset.p)) && ids.includes(Number(dash.dataset.q))) dash.classList.add("on");
  }
}

// Marks all partitions of two types.
function markTypes(a, b) {
  const first = siblings.get(a) || [], second = siblings.get(b) || [];
  clearMarks();
  mark(first, "on", "first");
  mark(second, a === b ? "on" : "second", "second");
  if (first.length + second.length) show([...first, ...second]);
  tell(`Marked: ${data.plain[a]} and ${data.plain[b]}`);
}

// Marks a partition with its edges and its neighbours.
function markPartition(p) {
  clearMarks();
  drawDashes(p);
  mark([p], "on");
  nodeOf(p).setAttribute("aria-current", "true");
  for (const at of [...(leaving.get(p) || []), ...(entering.get(p) || [])]) {
    edgeOf(at).classList.add("near");
    mark(data.edges[at].slice(0, 2), "near");
  }
}

// The button whose path runs says so, and takes no click until the path has ended. It keeps the focus.
function setRunner(button) {
  if (runner) {
    runner.textContent = runner.dataset.text;
    runner.removeAttribute("aria-disabled");
  }
  runner = button;
  if (!runner) return;
  runner.dataset.text = runner.textContent;
  runner.textContent = "running";
  runner.setAttribute("aria-disabled", "true");
}

// Runs along a path: each step is a list of partitions, which are taken as one if they are several. The caption says
// whose path it is. The asked partitions are never dimmed, the button is the one that runs the path again, and what is
// to follow comes at the end.
function run(steps, caption, { asked = [], button = null, follow = () => {} } = {}) {
  clearMarks();
  if (!steps.length) return;
  fill(byId("caption"), "Marked: ", caption);
  drawing.classList.add("marked", "walking");
  for (const p of asked) nodeOf(p).classList.add("asked");
  setRunner(button);
  let at = 0;
  const step = () => {
    mark(steps[at], "on", at + 1);
    if (steps[at].length > 1) frame(steps[at]);
    const to = new Set(steps[at]);
    for (const p of at ? steps[at - 1] : []) {
      for (const edge of leaving.get(p) || []) if (to.has(data.edges[edge][1])) edgeOf(edge).classList.add("on");
    }
    at += 1;
    if (at === steps.length) finish();
  };
  const finish = () => {
    clearInterval(timer);
    drawing.classList.remove("walking");
    setRunner(null);
    follow();
  };
  show([...new Set(steps.flat())]);
  const still = matchMedia("(prefers-reduced-motion: reduce)").matches || steps.length > 60;
  if (!still) timer = setInterval(step, Math.min(450, 4000 / steps.length));
  step();
  while (still && at < steps.length) step();
}

// Whether the graph has a path through one partition of each of these steps; or, as one, whether it would have it if the
// partitions of each step were one.
function hasPath(steps, asOne) {
  let ends = steps[0];
  for (const step of steps.slice(1)) {
    const next = new Set(ends.flatMap((p) => leaving.get(p) || []).map((at) => data.edges[at][1]));
    const reached = step.filter((q) => next.has(q));
    if (!reached.length) return false;
    ends = asOne ? step : reached;
  }
  return true;
}

// ---- Blocks, as dashed lines ----

let blockList = null, blocksAt = null;

// Reads the blocks when they are first asked for. The path of one is given by what it shares with the one before.
function blocks() {
  if (!blockList) {
    let path = [];
    blockList = JSON.parse(byId("blocks").textContent).map(([p, q, place, head, tail, middle, side]) => {
      path = [...path.slice(0, head), ...middle, ...path.slice(path.length - tail)];
      return [p, q, place, path, side];
    });
    blocksAt = grouped(blockList, ([p, q], at) => [[p, at], [q, at]]);
  }
  return blockList;
}

const blocksOf = (p) => (blocks(), blocksAt.get(p) || []);

// The dashed line of a block: a bow from the one partition to the other, with a sign on it.
function dash(at) {
  const [p, q] = blocks()[at];
  const [x, y] = data.places[p], [u, v] = data.places[q];
  const long = Math.hypot(u - x, v - y) || 1, bend = 0.12 * long + 12;
  const bx = (x + u) / 2 + ((v - y) / long) * bend, by = (y + v) / 2 - ((u - x) / long) * bend;
  const mx = (x + u + 2 * bx) / 4, my = (y + v + 2 * by) / 4;
  const route = `M${x},${y}Q${bx},${by} ${u},${v}`, label = `Why two: ${partitionName(p)} and ${partitionName(q)}`;
  const made = makeDrawn("g", { class: "dash", role: "button", tabindex: "0", "aria-label": label },
    makeDrawn("path", { class: "wide", d: route }),
    makeDrawn("path", { class: "line", d: route }),
    makeDrawn("rect", { x: mx - 32, y: my - 9, width: 64, height: 18, rx: 9 }),
    makeDrawn("text", { x: mx, y: my + 4 }, "why two?"),
    makeDrawn("title", {}, label));
  Object.assign(made.dataset, { block: at, p, q });
  return made;
}

// All dashed lines if they are few, and else those of a partition.
function drawDashes(p, must) {
  let wanted = p === null ? [] : blocksOf(p).slice(0, MOST_DASHES);
  if (data.blockCount <= MOST_DASHES) wanted = [...blocks().keys()];
  if (must !== undefined && !wanted.includes(must)) wanted = [must];
  byId("dashes").replaceChildren(...wanted.map(dash));
}
