// Answers about a partition, and about two: what is shown at first, after a click on a box, and after one on a dashed
// line.

// ---- Why two ----

// The path of a block as steps to run, with its two partitions as one.
const blockSteps = ([p, q, , path]) => path.filter((x) => typeOf.has(x)).map((x) => (x === p ? [p, q] : [x]));
const MOST_NAMED = 3; // partitions that are named before or after one of the two
const pathList = (steps) => make("ol", { class: "path" }, steps.map((step) => make("li", {}, step)));

// The partitions at the other ends of the edges into or out of a partition, with the counts of its events: each if they
// are few, and else the three with the most and the number of the others.
function namedEnds(p, list, end) {
  const rows = (list || []).map((at) => data.edges[at]).sort((a, b) => b[2] - a[2]), all = countOf.get(p);
  const named = rows.slice(0, MOST_NAMED).map((edge) => [partitionText(edge[end]), edge[2]]);
  const others = rows.slice(MOST_NAMED), sum = others.reduce((total, edge) => total + edge[2], 0);
  if (others.length) named.push([plural(others.length, "other"), sum]);
  const joint = (at) => (at === 0 ? "" : at === named.length - 1 ? " and " : ", ");
  if (!rows.length) return "nothing";
  const alone = rows.length === 1 ? " alone" : "", of = (at) => (at + end ? all : "its " + plural(all, "event"));
  return named.map(([name, count], at) => [joint(at), name, `${alone} (${count} of ${of(at)})`]);
}

// What a partition is reached from and where it leads, by the edges of the graph.
const aroundText = (p) => [partitionText(p), " is reached from ", namedEnds(p, entering.get(p), 0), ", and leads to ",
  namedEnds(p, leaving.get(p), 1), "."];

// Why two partitions are two: the sentences, the path, and the way to run it again.
function whyTwo(at) {
  const block = blocks()[at], [p, q, place, path, side] = block, invariant = data.invariants[place];
  const stepText = (x) => {
    if (x === p) return [typeText(typeOf.get(x)), ` (@${p} and @${q} as one)`];
    return typeOf.has(x) ? partitionText(x) : ["unknown @" + x];
  };
  return make("div", { class: "why" },
    make("p", { class: "sentence" },
      make("strong", {}, partitionText(p), " and ", partitionText(q), " are two, because in the log ",
        meaning(invariant)), " (", invariantText(invariant), "). ",
      side === 2 ? [] : sides(invariant, side ? q : p, side ? p : q),
      "If the two were one, the graph would have the path below, which no trace took. It breaks the invariant: ",
      breach(invariant), "."),
    make("p", { class: "around" }, aroundText(p), " ", make("br"), aroundText(q)),
    pathList(path.map(stepText)),
    make("button", { class: "again", click: () => runAgain(block) }, "run the path again"));
}

// Whether no trace takes the path of a block, since the graph does not have it, and it would have it if the two
// partitions were one.
function onlyAsOne(block) {
  const [, , , path] = block, steps = blockSteps(block);
  return path[0] === 0 && steps.length === path.length && !hasPath(steps, false) && hasPath(steps, true);
}

function runBlock(block) {
  const [p, q] = block, whose = ["the path of ", partitionText(p), " and ", partitionText(q), " as one. "];
  const none = [make("strong", {}, "No trace took this path: it would be possible if the two were one."),
    " Its counts are of traces that take parts of it."];
  const button = byId("panel-partition").querySelector(".again");
  run(blockSteps(block), [whose, onlyAsOne(block) ? none : []], { asked: [p, q], button });
}

function runAgain(block) {
  if (runner) return;
  tell("The path runs again");
  runBlock(block);
}

function showBlock(at) {
  const block = blocks()[at], [p, q] = block;
  drawDashes(p, at);
  const why = whyTwo(at);
  answer(make("h3", {}, "Why two boxes (partitions) of ", typeText(typeOf.get(p)), "?"), why,
    make("p", {}, "Show ", partitionButton(p), " or ", partitionButton(q)));
  tell(why.querySelector(".sentence").textContent + " " + why.querySelector(".around").textContent);
  runBlock(block);
}

// What keeps a partition from being one with others of its type.
function whySection(p) {
  const found = blocksOf(p), others = siblingsOf(p).length - 1;
  if (!others) return [];
  const rest = others === 1 ? "the other" : `the ${others} others`;
  const title = make("h4", {}, `Why not one box (partition) with ${rest} of its type?`);
  if (!found.length) return [title, make("p", {}, "The file has no block that says so.")];
  if (found.length === 1) return [title, whyTwo(found[0])];
  const row = (at) => {
    const [a, b, place] = blocks()[at];
    const question = link(() => showBlock(at), `why two with @${a === p ? b : a}?`);
    return make("li", {}, question, " ", invariantText(data.invariants[place]));
  };
  return [title, paged("ul", found, row)];
}

// ---- A partition ----

// The edges into or out of a partition: the other partition, the count, and the share of this partition's events.
function edgeTable(title, list, end, p) {
  const rows = (list || []).slice().sort((a, b) => data.edges[b][2] - data.edges[a][2]);
  const row = (at) => {
    const edge = data.edges[at];
    return make("tr", {}, make("td", {}, partitionButton(edge[end])),
      make("td", { class: "count" }, `${edge[2]} of ${countOf.get(edge[0])}`),
      make("td", { class: "count" }, percent(edge[2], countOf.get(p))));
  };
  const titles = end ? ["to", "count", "share"] : ["from", "count there", "share here"];
  return make("div", {}, make("h4", {}, title),
    rows.length ? paged("table", rows, row, titles) : make("p", {}, "none"));
}

// One of the lists of the invariants of a type.
function typeList(title, wanted, other) {
  const found = data.order.filter((place) => wanted(data.invariants[place]));
  const row = (place) => make("li", { class: data.reasons[place] ? "implied" : "telling" },
    link(() => markInvariant(place), typeText(data.invariants[place][other])));
  return make("div", {}, make("h4", {}, title), found.length ? paged("ul", found, row) : make("p", {}, "none"));
}

function lists(typ) {
  return make("div", { class: "columns", id: "lists" },
    typeList("Always before it", ([kind, , b]) => kind === "AP" && b === typ, 1),
    typeList(typ ? "Always after it" : "In each trace", ([kind, a]) => kind === "AF" && a === typ, 2),
    typeList("Never after it", ([kind, a]) => kind === "NF" && a === typ, 2),
    typ > 1 && data.kinds.includes("IB")
      ? typeList("Between any two of it", ([kind, a]) => kind === "IB" && a === typ, 2) : []);
}

function eventsText(p) {
  const typ = typeOf.get(p), count = countOf.get(p);
  if (p < 2) return `${data.plain[typ]} comes ${p ? "after" : "before"} each of ${plural(count, "trace")}.`;
  const all = siblingsOf(p).reduce((total, q) => total + countOf.get(q), 0);
  if (siblingsOf(p).length > 1) return `${count} of the ${plural(all, "event")} of its type (${percent(count, all)}).`;
  return count === 1 ? "The one event of its type." : `All ${count} events of its type.`;
}

function showPartition(p) {
  const typ = typeOf.get(p), found = blocksOf(p);
  markPartition(p);
  show([p]);
  answer(make("h3", {}, typeText(typ), ` @${p}`), make("p", {}, eventsText(p)), whySection(p),
    make("div", { class: "columns" },
      edgeTable("Edges into it", entering.get(p), 0, p), edgeTable("Edges out of it", leaving.get(p), 1, p)),
    make("h4", {}, "Invariants of its type"), lists(typ));
  const why = byId("panel-partition").querySelector(".sentence");
  tell(`${partitionName(p)}: ${eventsText(p)}${why ? " " + why.textContent : ""}`);
  if (found.length === 1) runBlock(blocks()[found[0]]);
}

// ---- What is shown first ----

const MOST_HINTS = 3; // types in the line above the graph

// The question why a type has several partitions.
function question([typ, ids]) {
  const ask = () => (blocksOf(ids[0]).length === 1 ? showBlock(blocksOf(ids[0])[0]) : showPartition(ids[0]));
  const count = inWords(ids.length), named = `Why ${count} partitions of ${data.plain[typ]}?`;
  const text = ids.length === 2 ? `, @${ids[0]} and @${ids[1]}. ` : ". ";
  return make("span", {}, typeText(typ), ` is ${count} boxes in the graph${text}`,
    make("button", { click: ask, "aria-label": named }, `Why ${count}?`));
}

// The line above the graph: the types that have several partitions.
function hint() {
  const more = several.length - MOST_HINTS;
  const rest = more > 0 ? make("button", { click: startAgain }, `${plural(more, "more type")}`) : [];
  fill(byId("hint"), several.slice(0, MOST_HINTS).map(question), rest);
  byId("hint").hidden = !several.length;
}

// What the page shows first: what is what in the graph, what to click, and the types of which there are several
// partitions.
function welcome() {
  const idLink = (p) => [link(() => showPartition(p), "@" + p), " "];
  const row = ([typ, ids]) => make("li", {}, typeText(typ), ": ", ids.slice(0, 12).map(idLink),
    ids.length > 12 ? `and ${ids.length - 12} more` : "");
  const key = make("p", {}, "A box is a partition: some events of one type. "
    + "An arrow says that an event of the one is followed at once by one of the other, the thicker the more often. "
    + "For example, 3 of 6 at an arrow means 3 of the 6 events of the box it leaves. "
    + "Each trace of the log is a path from INITIAL to TERMINAL.");
  const advice = make("p", {}, "Click a box for its events, its edges and its invariants"
    + (several.length ? ", or a dashed line for why the two partitions that it joins must stay two." : "."));
  if (!several.length) return [key, advice, make("p", {}, "Each type has one partition.")];
  return [key, advice, make("h3", {}, "Types with several partitions"), paged("ul", several, row)];
}

// Shows an answer in the first tab. It is brought into sight when it is drawn: sooner, a large graph is laid out twice.
function answer(...parts) {
  fill(openTab("partition"), parts);
  requestAnimationFrame(() => {
    byId("panels").scrollTop = 0;
    byId("side").scrollIntoView({ block: "nearest" });
  });
}
