// The tabs that list: invariants, paths, and what is new or gone.

// ---- Invariants ----

function markInvariant(place) {
  const [, a, b] = data.invariants[place];
  markTypes(a, b);
}

const invariantRow = (place) => make("tr", { class: data.reasons[place] ? "implied" : "telling" },
  make("td", {}, link(() => markInvariant(place), invariantText(data.invariants[place]))),
  make("td", {}, reasonText(place)));

const option = (value, text) => make("option", { value }, text);

// The places of the invariants that the three controls let through.
function filtered(kind, typ, hide) {
  return data.order.filter((place) => {
    const [k, a, b] = data.invariants[place];
    if (hide.checked && data.reasons[place]) return false;
    return (!kind.value || k === kind.value) && (typ.value === "" || [a, b].includes(Number(typ.value)));
  });
}

function invariantsPanel() {
  const types = data.plain.slice(0, data.types).map((text, t) => (t === 1 ? [] : option(t, text)));
  const kinds = data.kinds.map((k) => option(k, KINDS[k]));
  const kind = make("select", { id: "kind" }, option("", "all kinds"), kinds);
  const typ = make("select", { id: "type" }, option("", "all types"), types);
  const hide = make("input", { type: "checkbox", id: "hide" });
  const rows = make("div", { id: "rows" }), counted = make("p", { role: "status", id: "counted" });
  const list = () => {
    const wanted = filtered(kind, typ, hide), grey = wanted.filter((place) => data.reasons[place]).length;
    counted.textContent = `${plural(wanted.length, "invariant")}, ${grey} of them grey: these follow from others, `
      + "or from what always comes first or last.";
    fill(rows, paged("table", wanted, invariantRow, ["invariant", "what it follows from"]));
  };
  for (const control of [kind, typ, hide]) control.addEventListener("change", list);
  list();
  const filters = make("p", {}, make("label", {}, "Kind ", kind), " ", make("label", {}, "Type ", typ), " ",
    make("label", {}, hide, " hide what follows from others"));
  return [filters, counted, rows];
}

// ---- Paths ----

function runPath(count, ids) {
  tell(`${plural(count, "trace")}: ${ids.map(partitionName).join(", ")}`);
  run(ids.map((p) => [p]), `a path that ${plural(count, "trace")} ${count === 1 ? "takes" : "take"}.`);
}

function pathRow([count, ids], total, most) {
  const bar = make("span", { class: "bar" });
  bar.style.width = (100 * count) / most + "%";
  return make("li", {}, make("button", { class: "taken", click: () => runPath(count, ids) },
    make("span", { class: "track", "aria-hidden": "true" }, bar),
    make("span", { class: "count" }, `${plural(count, "trace")} (${percent(count, total)})`), " ",
    make("span", {}, ids.map((p, at) => [at ? " → " : "", partitionText(p)]))));
}

function pathsPanel() {
  const rows = data.paths.slice().sort((a, b) => b[0] - a[0]);
  const total = rows.reduce((sum, [count]) => sum + count, 0), most = rows.length ? rows[0][0] : 1;
  const list = paged("ul", rows, (row) => pathRow(row, total, most));
  list[0].className = "bars";
  const other = total === traces ? "" : ` The model has ${plural(traces, "trace")}: the paths are of another log.`;
  const text = `${plural(total, "trace")} take ${plural(rows.length, "path")}.${other} Click one to see it.`;
  return [make("p", {}, text), list];
}

// ---- Two models ----

function differenceTable(name, title, rows, textOf, typesOf) {
  const row = (found) => make("tr", { class: found[0] > 0 ? "new" : "gone" },
    make("td", {}, found[0] > 0 ? "+ new" : "− gone"),
    make("td", {}, link(() => markTypes(...typesOf(found)), textOf(found))));
  const fresh = rows.filter(([sign]) => sign > 0).length;
  return make("section", { id: name, "aria-label": title },
    make("h3", {}, `${title}: ${fresh} new, ${rows.length - fresh} gone`),
    rows.length ? paged("table", rows, row, ["new or gone", "what"]) : make("p", {}, "none"));
}

// What is said of a kind of invariants that only one of the two models has.
function kindText([sign, kind]) {
  const which = sign > 0 ? "this model" : "the other model";
  return make("p", { class: "kinds" }, `Only ${which} was asked for invariants of the kind ${KINDS[kind]}, `
    + "so these are not compared.");
}

function differencesPanel() {
  const { types, kinds, invariants, edges } = data.differences;
  const text = ". In the graph, what is new has a plus and a thick frame, and what is gone a minus and dots.";
  return [make("p", {}, "Compared with ", make("bdi", {}, data.old), text), kinds.map(kindText),
    differenceTable("types", "Types", types, ([, typ]) => typeText(typ), ([, typ]) => [typ, typ]),
    differenceTable("steps-between", "Edges between types", edges,
      ([, a, b]) => [typeText(a), " → ", typeText(b)], ([, a, b]) => [a, b]),
    differenceTable("statements", "Invariants", invariants,
      ([, ...invariant]) => invariantText(invariant), ([, , a, b]) => [a, b])];
}
