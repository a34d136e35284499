// The tools above the graph, the tabs below it, and the start.

// ---- Search ----

let hits = [], hit = -1;

function search() {
  const wanted = byId("search").value.toLowerCase();
  const fits = (typ) => wanted && data.texts[typ].toLowerCase().includes(wanted);
  hits = data.partitions.filter(([, typ]) => fits(typ)).map(([p]) => p);
  hit = -1;
  const found = new Set(hits);
  for (const [p] of data.partitions) nodeOf(p).classList.toggle("hit", found.has(p));
  byId("found").textContent = wanted ? plural(hits.length, "partition") : "";
}

function nextHit() {
  if (!hits.length) return;
  hit = (hit + 1) % hits.length;
  showPartition(hits[hit]);
  goTo(hits[hit]);
}

// ---- Rare edges ----

const edgeAt = new Map(data.edges.map(([p, q], at) => [p + ">" + q, at]));
const pathIsShown = (ids) => ids.every((q, at) => at === 0 || isShown(edgeAt.get(ids[at - 1] + ">" + q)));

function isShown(at) {
  const [p, , count] = data.edges[at];
  return 100 * count >= Number(byId("least").value) * countOf.get(p);
}

// Hides the rare edges, and says what the others carry.
function hideRare() {
  let edges = 0, steps = 0, all = 0;
  data.edges.forEach(([, , count], at) => {
    edgeOf(at).classList.toggle("rare", !isShown(at));
    all += count;
    if (isShown(at)) [edges, steps] = [edges + 1, steps + count];
  });
  byId("least-shown").textContent = byId("least").value + " %";
  byId("carried").classList.toggle("all", byId("least").value === "0");
  let text = `${edges} of ${data.edges.length} edges are shown. `;
  text += `They carry ${steps} of ${all} steps (${percent(steps, all)})`;
  if (data.paths) {
    const sum = (paths) => paths.reduce((total, [count]) => total + count, 0);
    const carried = sum(data.paths.filter(([, ids]) => pathIsShown(ids))), total = sum(data.paths);
    text += `, and ${carried} of ${total} traces whole (${percent(carried, total)})`;
  }
  byId("carried").textContent = text + ".";
}

// ---- Tabs ----

const TABS = [
  ["partition", "Partition", welcome],
  ["invariants", "Invariants", invariantsPanel],
  ["steps", "How it came about", stepsPanel],
];
if (data.paths) TABS.push(["paths", "Paths", pathsPanel]);
if (data.differences) TABS.push(["differences", "New and gone", differencesPanel]);

// Opens a tab and returns its panel. The content is made when the tab is first opened.
function openTab(name) {
  for (const [other, , content] of TABS) {
    const tab = byId("tab-" + other), panel = byId("panel-" + other), open = other === name;
    tab.setAttribute("aria-selected", open);
    tab.tabIndex = open ? 0 : -1;
    panel.hidden = !open;
    if (open && !panel.hasChildNodes()) fill(panel, content());
  }
  return byId("panel-" + name);
}

function tabKey(event) {
  const by = { ArrowRight: 1, ArrowLeft: -1 }[event.key];
  if (!by) return;
  const at = TABS.findIndex(([name]) => "tab-" + name === event.target.id);
  const [name] = TABS[(at + by + TABS.length) % TABS.length];
  openTab(name);
  byId("tab-" + name).focus();
}

function makeTabs() {
  for (const [name, title] of TABS) {
    const tab = { id: "tab-" + name, role: "tab", "aria-controls": "panel-" + name, click: () => openTab(name) };
    const panel = { id: "panel-" + name, role: "tabpanel", "aria-labelledby": "tab-" + name, tabindex: 0, hidden: "" };
    byId("tabs").append(make("button", tab, title));
    byId("panels").append(make("div", panel));
  }
  byId("tabs").addEventListener("keydown", tabKey);
  openTab("partition");
}

// ---- The start ----

function startAgain() {
  removeMarks();
  drawDashes(null);
  fill(openTab("partition"), welcome());
}

function listen() {
  byId("search").addEventListener("input", search);
  byId("search").addEventListener("keydown", (event) => { if (event.key === "Enter") nextHit(); });
  byId("closer").addEventListener("click", () => askedZoom(0.8));
  byId("further").addEventListener("click", () => askedZoom(1.25));
  byId("whole").addEventListener("click", askedWhole);
  byId("clear").addEventListener("click", startAgain);
  byId("least").addEventListener("input", hideRare);
  byId("frame").addEventListener("keydown", key);
  addEventListener("keydown", (event) => { if (event.key === "Escape") removeMarks(); });
  drawing.addEventListener("pointerdown", startDrag);
  drawing.addEventListener("pointerover", addTitle);
  addEventListener("pointermove", moveDrag);
  addEventListener("pointerup", endDrag);
  addEventListener("pointercancel", endDrag);
  drawing.addEventListener("click", clicked);
  drawing.addEventListener("wheel", wheel, { passive: false });
  addEventListener("resize", showStart);
}

makeTabs();
hint();
listen();
hideRare();
drawDashes(null);
showStart();
document.documentElement.className = "";
document.documentElement.dataset.ready = "yes";
