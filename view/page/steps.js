// How it came about: the splits and merges as steps in sentences. A path of a split has the ids of its moment.
const firstNew = data.types;
const into = new Map(data.merges.map(([p, q]) => [q, p]));

// The partition that an id belongs to now, after all merges.
function now(x) {
  for (let left = data.merges.length; into.has(x) && left >= 0; left -= 1) x = into.get(x);
  return x;
}

const parentOf = (k) => data.splits[k][2][data.splits[k][1]];

// The type of an id, which is that of the id it was split from.
function typeThen(x) {
  for (let left = data.splits.length; x >= firstNew && left > 0; left -= 1) {
    x = x - firstNew < data.splits.length ? parentOf(x - firstNew) : -1;
  }
  return x;
}

// A line with the button that runs the path of a step, and room for that path, so that nothing moves when it comes.
const runLine = (button, detail) => make("div", { class: "run" }, button, detail);

const listed = (ids) => ids.map((p) => "@" + p).join(" and ");

// ---- Splits ----

// For each id that was in use before the split k: the partitions now that have its events.
function partitionsBefore(k) {
  const members = new Map();
  for (let x = 0; x < firstNew + data.splits.length; x += 1) {
    members.set(x, new Set([now(x)].filter((p) => typeOf.has(p))));
  }
  for (let later = data.splits.length - 1; later >= k; later -= 1) {
    const child = firstNew + later, parent = members.get(parentOf(later));
    if (parent && parentOf(later) !== child) for (const p of members.get(child)) parent.add(p);
    members.delete(child);
  }
  return members;
}

// An id of a step as it was then: its type, and its number if the type had several partitions at that moment.
function thenText(x, members) {
  const typ = typeThen(x), then = [...members.keys()].filter((y) => typeThen(y) === typ);
  const today = [...(members.get(x) || [])].sort((a, b) => a - b);
  const same = x < 2 || (today.length === 1 && today[0] === x);
  const note = same ? [] : make("small", {}, ` (now ${listed(today) || "gone"})`);
  return [typeText(typ), then.length > 1 ? " @" + x : "", note];
}

function runSplit(k, detail) {
  const path = data.splits[k][2], members = partitionsBefore(k);
  fill(detail, pathList(path.map((x) => thenText(x, members))));
  tell("Its path: " + path.map((x) => data.plain[typeThen(x)]).join(", "));
  const steps = path.map((x) => [...(members.get(x) || [])]).filter((ids) => ids.length);
  const none = steps.length === path.length && path[0] === 0 && !hasPath(steps, false);
  run(steps, [`the path of step ${k + 1}. `,
    none ? make("strong", {}, "No trace took this path: the graph had it before that step.") : []]);
}

function splitRow(k) {
  const [place, at, path] = data.splits[k], invariant = data.invariants[place], fresh = firstNew + k;
  const divided = () => typeText(typeThen(path[at])), detail = make("div");
  const next = at + 1 < path.length ? typeText(typeThen(path[at + 1])) : "the end";
  return make("li", {}, "The graph had a path that breaks ", make("em", {}, meaning(invariant)), " (",
    invariantText(invariant), "): ", breach(invariant), ". Traces followed it as far as ", divided(), ` @${path[at]}, `,
    "and none went on along it. So the ", divided(), " events there that are followed at once by ", next,
    ` got a partition of their own, @${fresh}`, typeOf.has(fresh) ? ". " : ` (merged into @${now(fresh)} later). `,
    runLine(make("button", { class: "step", click: () => runSplit(k, detail) }, "run its path"), detail));
}

// ---- Merges ----

// How far the graph has a path of these types, with this partition at one place: a path that goes as far as one can,
// and all partitions in which such paths end.
function followed(types, place, partition) {
  const levels = [new Map([[0, null]])]; // for each step, its partitions, each with one that leads to it
  const fits = (q, at) => typeOf.get(q) === types[at] && (at !== place || q === partition);
  while (levels.length < types.length) {
    const level = new Map();
    for (const p of levels[levels.length - 1].keys()) {
      const ends = (leaving.get(p) || []).map((edge) => data.edges[edge][1]);
      for (const q of ends) if (fits(q, levels.length) && !level.has(q)) level.set(q, p);
    }
    if (!level.size) break;
    levels.push(level);
  }
  const ends = [...levels[levels.length - 1].keys()].sort((a, b) => a - b), path = [];
  for (let p = ends[0]; levels.length; p = levels.pop().get(p)) path.unshift(p);
  return { path, ends };
}

// A merge has no path in the file. What there is to see: the partition that the two are now, and how far the path of
// the split that had made the one comes now.
function runMerge(m, detail, ended) {
  const [p, q] = data.merges[m], one = now(p), [, place, then] = data.splits[q - firstNew], word = then.map(typeThen);
  const { path, ends } = followed(word, place, one), next = path.length;
  const steps = path.map((x, at) => [partitionText(x), at === place ? ` (${listed([p, q])} as one)` : ""]);
  const end = next === place ? partitionText(one) : typeText(word[next]);
  const said = make("p", {}, next === word.length ? WHOLE : noEdge(ends, end));
  fill(detail, pathList(steps));
  fill(ended, said);
  requestAnimationFrame(() => ended.scrollIntoView({ block: "nearest" }));
  tell(`The path now: ${path.map(partitionName).join(", ")}. ${said.textContent}`);
  const follow = () => {
    frame([one]);
    if (next < word.length) mark(next === place ? [one] : siblings.get(word[next]) || [], "second", "no edge");
  };
  run(path.map((x) => [x]), `the path of step ${q - firstNew + 1}, as far as the graph has it now.`, { follow });
}

const WHOLE = "The graph has this path, so the file is not what an inference leaves: ask synoptic check.";

// Where a path of a split ends now.
function noEdge(ends, next) {
  const from = ends.slice(0, 5).map((x, at) => [at ? " or " : "", partitionText(x)]);
  return ["It ends here: no edge leads from ", from, ends.length > 5 ? " or others like it" : "", " to ", next,
    ". So the path stays impossible, although the two are one."];
}

function mergeRow(m) {
  const [p, q] = data.merges[m], k = q - firstNew, split = data.splits[k];
  const detail = make("div"), ended = make("div", { class: "ended" });
  const known = split && split[1] > 0 && split[2][0] === 0 && typeOf.has(now(p));
  const click = () => runMerge(m, detail, ended);
  const ask = make("button", { class: "step", click }, "see how far its path comes now");
  return make("li", {}, typeText(typeThen(q)), ` @${q} was merged into @${p}`,
    now(p) === p ? "" : `, which is part of @${now(p)} now`, ", because no invariant is lost if the two are one. ",
    "A path could only show a loss, so the file has none for a merge. ",
    known ? [`Step ${k + 1} had made @${q}: `, runLine(ask, detail), ended] : []);
}

function stepsPanel() {
  const splits = data.splits.map((_, k) => [splitRow, k]), merges = data.merges.map((_, m) => [mergeRow, m]);
  if (!splits.length) return [make("p", {}, "Each type has one partition, as at first: no path broke an invariant.")];
  const text = "At first each type had one partition. "
    + `${plural(splits.length, "split")} and ${plural(merges.length, "merge")} made the graph above of it. `
    + "An id in the path of a split is that of the moment of its step; "
    + "what is in several partitions now was one then, and is framed as one.";
  return [make("p", {}, text), paged("ol", splits.concat(merges), ([rowOf, at]) => rowOf(at))];
}
