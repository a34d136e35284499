// The data of the model, the elements of the page, and sentences. The texts of the model go into the page as text nodes
// and never as markup.
const byId = (name) => document.getElementById(name);
const data = JSON.parse(byId("data").textContent);
const KINDS = { AF: "AlwaysFollowedBy", NF: "NeverFollowedBy", AP: "AlwaysPrecedes", IB: "InterruptedBy" };
const PAGE = 100; // rows of a list that are made at a time
const typeOf = new Map(data.partitions.map(([p, typ]) => [p, typ]));
const countOf = new Map(data.partitions.map(([p, , count]) => [p, count]));
const siblings = grouped(data.partitions, ([p, typ]) => [[typ, p]]);
const leaving = grouped(data.edges, ([p], at) => [[p, at]]);
const entering = grouped(data.edges, ([, q], at) => [[q, at]]);
const several = [...siblings].filter(([, ids]) => ids.length > 1);
const traces = countOf.get(0);

// A map from each key to the list of its values.
function grouped(rows, pairsOf) {
  const found = new Map();
  rows.forEach((row, at) => {
    for (const [key, value] of pairsOf(row, at)) {
      if (!found.has(key)) found.set(key, []);
      found.get(key).push(value);
    }
  });
  return found;
}

// ---- Elements ----

function filled(made, attributes, parts) {
  for (const [name, value] of Object.entries(attributes)) {
    if (name === "click") made.addEventListener("click", value);
    else made.setAttribute(name, value);
  }
  made.append(...parts.flat(Infinity));
  return made;
}

const make = (tag, attributes = {}, ...parts) => filled(document.createElement(tag), attributes, parts);
const makeDrawn = (tag, attributes, ...parts) =>
  filled(document.createElementNS("http://www.w3.org/2000/svg", tag), attributes, parts);
const link = (click, ...parts) => make("button", { class: "link", click }, parts);

function fill(element, ...parts) {
  element.replaceChildren(...parts.flat(Infinity));
  return element;
}

// A list that makes its rows a hundred at a time. A table has a row of titles above them.
function paged(tag, rows, rowOf, titles) {
  const list = make(titles ? "tbody" : tag), more = make("button", { class: "more", click: () => add(true) });
  const head = titles && make("thead", {}, make("tr", {}, titles.map((title) => make("th", { scope: "col" }, title))));
  let at = 0;
  function add(asked) {
    const made = rows.slice(at, at + PAGE).map(rowOf);
    list.append(...made);
    at += made.length;
    more.textContent = `show more: ${at} of ${rows.length} are shown`;
    if (asked) tell(`${at} of ${rows.length} are shown`);
    const first = asked && made[0].querySelector("button");
    if (first) first.focus();
    if (at === rows.length) more.remove();
  }
  add(false);
  const whole = titles ? make(tag, {}, head, list) : list;
  return at < rows.length ? [whole, more] : [whole];
}

// What a screen reader is to say now, since the graph itself says nothing.
const tell = (text) => { byId("told").textContent = text; };

// ---- Texts ----

// A type's text; a character that has no form of its own is shown as a mark.
function typeText(typ) {
  if (!(typ in data.shown)) return make("span", { class: "mark" }, "unknown");
  const pieces = data.shown[typ].map(([marked, text]) => (marked ? make("span", { class: "mark" }, text) : text));
  return make("bdi", { class: "type", dir: "ltr" }, pieces);
}

const siblingsOf = (p) => siblings.get(typeOf.get(p));
const numberText = (p) => (siblingsOf(p).length > 1 ? " @" + p : "");
const partitionText = (p) => [typeText(typeOf.get(p)), numberText(p)];
const partitionName = (p) => data.plain[typeOf.get(p)] + numberText(p);
const partitionButton = (p) => link(() => showPartition(p), partitionText(p));
const percent = (part, of) => (of ? ((100 * part) / of).toFixed(part === of || part * 10 >= of ? 0 : 1) + " %" : "");
const plural = (count, word) => count + " " + word + (count === 1 ? "" : "s");
const inWords = (count) => (count === 2 ? "two" : String(count));

// ---- Sentences ----

const invariantText = ([kind, a, b]) => [typeText(a), " " + KINDS[kind] + " ", typeText(b)];

// The invariant in plain words.
function meaning([kind, a, b]) {
  if (a === 0) return ["each trace has ", typeText(b)];
  if (kind === "AF") return ["each ", typeText(a), " has a later ", typeText(b)];
  if (kind === "NF") return ["no ", typeText(a), " has a later ", typeText(b)];
  if (kind === "IB") return ["between any two ", typeText(a), " there is a ", typeText(b)];
  return ["each ", typeText(b), " has an earlier ", typeText(a)];
}

// What a path does that breaks the invariant.
function breach([kind, a, b]) {
  if (a === 0) return ["it has no ", typeText(b)];
  if (kind === "AF") return ["it has ", typeText(a), " without a later ", typeText(b)];
  if (kind === "NF") return ["it has ", typeText(a), " and later ", typeText(b)];
  if (kind === "IB") return ["it has two ", typeText(a), " without a ", typeText(b), " between"];
  return ["it has ", typeText(b), " without an earlier ", typeText(a)];
}

// How paths reach the one partition, and how they go on from the other, so that as one they break the invariant.
function sides([kind, a, b], met, other) {
  const first = () => typeText(a), second = () => typeText(b);
  const reach = ["Some paths reach ", partitionText(met)], lead = ["Some paths lead from ", partitionText(other)];
  if (kind === "NF") return [reach, " after ", first(), ". ", lead, " to ", second(), ". "];
  if (kind === "AP") {
    return [reach, " with no ", first(), " so far. ", lead, " to ", second(), " with no ", first(), " between. "];
  }
  if (kind === "IB") {
    return [reach, " after ", first(), " with no ", second(), " since. ",
      lead, " to ", first(), " with no ", second(), " before it. "];
  }
  const since = a === 0 ? [] : [" after ", first()];
  return [reach, since, " with ", second(), " still to come. ", lead, " to the end with no ", second(), ". "];
}

// What an invariant follows from, or nothing.
function reasonText(place) {
  const reason = data.reasons[place], [, a, b] = data.invariants[place];
  if (!reason) return [];
  if (reason[0] === "last") return [typeText(a), " is always the last"];
  if (reason[0] === "first") return [typeText(b), " is always the first"];
  if (reason[0] === "once") return ["follows: ", invariantText(["NF", a, a])];
  const [kind, c, then] = reason;
  const first = kind === "AP" && then === "NF" ? ["AP", c, a] : [kind, a, c];
  const second = then === "from b" ? ["AF", b, c] : [then, c, b];
  return ["follows: ", invariantText(first), ", ", invariantText(second)];
}
