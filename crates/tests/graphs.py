"""Makes the part `graphs` of stdin and stdout, the steps of all cases and what must come of them, and never runs the program;
and COUNTS.md in cases/graphs. `make` writes all of it.

What must come of a step is computed here, by plain searches: all events for counts, all paths for shortest paths, each
merge tried for what it loses. Where a case in cases/graphs/*.txt says what must come, both have to agree.

A case file has sections "[kind]", and in them steps, one a line, as the program takes them (a line that begins with "+" goes
on the one before). Behind a step may stand "= ANSWER", over several lines if it is long, or "~ PART", a part of its answer.
In the file the invariants of a step "invs" have types by their names; "invs candidates" stands for all candidates of the
log, "invs satisfied" for those of them that the graph satisfies, of three kinds, or with a 4 behind it of four. "#" begins a
comment.
"""
import os
import sys
from collections import Counter

HERE = os.path.dirname(os.path.abspath(__file__))
INITIAL, TERMINAL, FIRST_TYPE, MAX_PARTITIONS = 0, 1, 2, 1024
SHOWN, FEW = 12, 40


# ---- words and invariants, by their definitions

def candidates(types, kinds=3):
    """First that each trace has a type, and then, for each two types, the kinds. No type is interrupted by itself."""
    names, asked = range(FIRST_TYPE, FIRST_TYPE + types), ("AF", "NF", "AP", "IB")[:kinds]
    pairs = [(kind, a, b) for a in names for b in names for kind in asked if kind != "IB" or a != b]
    return [("AF", INITIAL, b) for b in names] + pairs


def breaks(inv, word):
    """Whether a word breaks an invariant, by its places."""
    kind, a, b = inv
    if kind == "AF":
        return any(x == a and b not in word[i + 1:] for i, x in enumerate(word))
    if kind == "NF":
        return any(x == a and b in word[i + 1:] for i, x in enumerate(word))
    if kind == "IB":
        places = [i for i, x in enumerate(word) if x == a]
        return any(b not in word[i + 1:j] for i, j in zip(places, places[1:]))
    return any(x == b and a not in word[:i] for i, x in enumerate(word))


def step_of(inv, state, x):
    """The state of an invariant's monitor after a type. AF: 1 waits for b. NF: 1 saw an a, 2 then a b. AP: 1 saw an a before
    any b, 2 a b without one. IB: 1 saw an a and no b since, 2 a further a then."""
    kind, a, b = inv
    if kind == "AF":
        return 1 if x == a else 0 if x == b else state
    if kind == "NF":
        return 2 if x == b and state > 0 else 1 if x == a and state == 0 else state
    if kind == "IB":
        return min(state + 1, 2) if x == a else 0 if x == b and state == 1 else state
    return state if state > 0 else 2 if x == b else 1 if x == a else 0


def is_bad(inv, state):
    return state == (1 if inv[0] == "AF" else 2)


# ---- logs

class Log:
    """Traces in the order first met, each a list of types, whose numbers are in the order first met too."""

    def __init__(self, text):
        self.names, traces = {}, {}
        for number, trace in enumerate(text.split("|")):
            for token in trace.split():
                count, _, event = token.rpartition("*")
                key, _, name = event.rpartition(":")
                for _ in range(int(count or 1)):
                    typ = self.names.setdefault(name, FIRST_TYPE + len(self.names))
                    traces.setdefault((number, key), []).append(typ)
        self.traces = list(traces.values())

    def mined(self, kinds):
        words = {tuple([INITIAL] + trace + [TERMINAL]) for trace in self.traces}
        return [inv for inv in candidates(len(self.names), kinds) if not any(breaks(inv, word) for word in words)]


# ---- graphs

class Graph:
    """An id for each event of some traces. All else is counted by going over them."""

    def __init__(self, traces, ids=None, used=None):
        self.types = [list(trace) for trace in traces]
        self.ids = [list(trace) for trace in (ids or traces)]
        self.used = used or FIRST_TYPE + len({x for trace in traces for x in trace})
        self.count()

    def count(self):
        self.edges, self.sizes, self.typ = Counter(), Counter(), {INITIAL: INITIAL, TERMINAL: TERMINAL}
        for types, ids in zip(self.types, self.ids):
            self.edges.update(zip([INITIAL] + ids, ids + [TERMINAL]))
            self.sizes.update(ids)
            self.typ.update(zip(ids, types))
        self.targets = {}
        for p, q in sorted(self.edges):
            self.targets.setdefault(p, []).append(q)

    def copy(self):
        return Graph(self.types, self.ids, self.used)

    def split(self, p, following):
        if self.used == MAX_PARTITIONS:
            return None
        new, self.used = self.used, self.used + 1
        self.ids = [[new if x == p and y == following else x for x, y in zip(ids, ids[1:] + [TERMINAL])] for ids in self.ids]
        self.count()
        return new

    def is_pair(self, p, q):
        return FIRST_TYPE <= p < q and self.sizes[p] > 0 and self.sizes[q] > 0 and self.typ[p] == self.typ[q]

    def pairs(self):
        return [(p, q) for p in range(self.used) for q in range(p + 1, self.used) if self.is_pair(p, q)]

    def merged(self, p, q):
        return Graph(self.types, [[p if x == q else x for x in ids] for ids in self.ids], self.used)

    def type_of(self, p):
        return self.typ.get(p, 0)

    def parts(self):
        return [x for ids in self.ids for x in ids]

    def text(self):
        told = ["%d:%d*%d" % (p, p, len(self.ids)) for p in (INITIAL, TERMINAL)]
        told += ["%d:%d*%d" % (p, self.typ[p], self.sizes[p]) for p in range(FIRST_TYPE, self.used) if self.sizes[p]]
        told += ["%d>%d*%d" % (p, q, count) for (p, q), count in sorted(self.edges.items())]
        firsts = [sum(len(ids) for ids in self.ids[:t]) for t in range(len(self.ids))]
        events = "".join(".".join(map(str, ids)) + "|" for ids in self.ids)
        return " ".join(told) + " " + events + "".join("%d#" % first for first in firsts) + str(self.used)


def reached(graph, inv):
    """The states in which an invariant's monitor comes to each id: each round takes one edge more, until none brings more."""
    found = {(INITIAL, step_of(inv, 0, INITIAL))}
    more = found
    while more:
        more = {(q, step_of(inv, state, graph.typ[q])) for p, state in more for q in graph.targets.get(p, ())} - found
        found = found | more
    return found


def satisfies(graph, inv):
    return not any(p == TERMINAL and is_bad(inv, state) for p, state in reached(graph, inv))


def least_path(graph, inv):
    """The least path that breaks an invariant: all ids and states that so many edges reach, each by its least path, which
    come in the order of these paths; then those of one edge more. An id and a state that fewer edges reach play no part."""
    start = (INITIAL, step_of(inv, 0, INITIAL))
    before, level = {start: None}, [start]
    while level:
        following = []
        for at in level:
            for q in graph.targets.get(at[0], ()):
                to = (q, step_of(inv, at[1], graph.typ[q]))
                if to not in before:
                    before[to] = at
                    following.append(to)
                if q == TERMINAL and is_bad(inv, to[1]):
                    path = []
                    while to:
                        path.append(to[0])
                        to = before[to]
                    return path[::-1]
        level = following
    return None


def least_of_all(graph, invs, most):
    """The same for some invariants, by all paths of at most so many edges: shorter ones first, and of each length in order."""
    found, walks = {}, [[INITIAL]]
    for _ in range(most):
        walks = [walk + [q] for walk in walks for q in graph.targets.get(walk[-1], ())]
        for walk in walks:
            if walk[-1] == TERMINAL:
                word = [graph.typ[p] for p in walk]
                for inv in invs:
                    if inv not in found and breaks(inv, word):
                        found[inv] = walk
        walks = [walk for walk in walks if walk[-1] != TERMINAL]
    return [found.get(inv) for inv in invs]


def place_of(graph, path):
    """The last place of a path's longest prefix with which the ids of some trace begin."""
    best = 0
    for ids in graph.ids:
        ids, place = [INITIAL] + ids + [TERMINAL], 0
        while place < min(len(ids), len(path)) and ids[place] == path[place]:
            place += 1
        best = max(best, place)
    return best - 1


def first_lost(graph, invs, p, q):
    """The number of the first invariant that a graph with this merge made does not satisfy."""
    after = graph.merged(p, q)
    return next((k for k, inv in enumerate(invs) if not satisfies(after, inv)), None)


# ---- runs

def ids_text(ids):
    if len(ids) <= FEW:
        return "".join(" %d" % x for x in ids)
    total = 0
    for x in ids:
        total = (total * 31 + x) % 2 ** 32
    return " %d ids #%d" % (len(ids), total)


def refined(graph, invs):
    """The splits: each for the first invariant that is not satisfied, at the place where its least path leaves the traces."""
    splits = []
    for k, inv in enumerate(invs):
        while True:
            path = least_path(graph, inv)
            if path is None:
                break
            place = place_of(graph, path)
            if graph.split(path[place], path[place + 1]) is None:
                return splits, "Err(PartitionLimit)"
            splits.append((k, place, path))
    return splits, "Ok(%d)" % (len(invs) + len(splits))


def searched(graph, invs):
    """Merges and blocks: each pair is decided by searches, and after each merge all are decided again."""
    merges = []
    while True:
        blocks = []
        for p, q in graph.pairs():
            after = graph.merged(p, q)
            lost = next(((k, path) for k, path in enumerate(map(lambda inv: least_path(after, inv), invs)) if path), None)
            if lost is None:
                merges.append((p, q))
                graph = after
                break
            blocks.append((p, q) + lost)
        else:
            return merges, blocks, graph


def run_text(log, kinds, is_whole):
    graph, invs = Graph(log.traces), log.mined(int(kinds or 3))
    splits, end = refined(graph, invs)
    merges, blocks = [], []
    if is_whole and end.startswith("Ok"):
        merges, blocks, graph = searched(graph, invs)
    numbers = sum(len(path) for _, _, path in splits) + sum(len(path) for _, _, _, path in blocks)
    told = "%d mined, %d numbers, %s" % (len(invs), numbers, end)
    told += "".join("; %d@%d:%s" % (k, place, ids_text(path)) for k, place, path in splits)
    told += "".join("; %d+%d" % pair for pair in merges)
    told += "".join("; %d-%d %d:%s" % (p, q, k, ids_text(path)) for p, q, k, path in blocks)
    return told + "; ids:" + ids_text(graph.parts())


# ---- what the program must tell of each step

class Desk:
    def __init__(self):
        self.log, self.graph, self.numbers, self.invs, self.marked = None, None, [], [], False

    def counts(self):
        told = "%d %d;" % (len(self.graph.ids), len(self.graph.parts()))
        return told + "".join(" %d" % number for number in self.numbers)

    def do_log(self, text):
        self.log, self.numbers = Log(text), []
        self.graph = Graph(self.log.traces)
        return self.counts()

    def do_shared(self, _):
        words = list(dict.fromkeys(map(tuple, self.log.traces)))
        self.numbers = [words.index(tuple(trace)) for trace in self.log.traces]
        self.graph = Graph(words)
        return self.counts()

    def do_take(self, text):
        told = []
        for move in text.split():
            if "/" in move:
                new = self.graph.split(*map(int, move.split("/")))
                told.append("none" if new is None else str(new))
            else:
                p, q = map(int, move.split("+"))
                is_pair = self.graph.is_pair(p, q)
                if is_pair:
                    self.graph = self.graph.merged(p, q)
                told.append("yes" if is_pair else "no")
        return " ".join(told)

    def do_chain(self, text):
        move, count = text.split()
        p, following = map(int, move.split("/"))
        for made in range(int(count)):
            new = self.graph.split(p, following)
            if new is None:
                return "%d %d" % (made, following)
            following = new
        return "%s %d" % (count, following)

    def do_graph(self, _):
        return self.graph.text()

    def do_spread(self, _):
        graph = self.graph
        return Graph([graph.types[n] for n in self.numbers], [graph.ids[n] for n in self.numbers], graph.used).text()

    def do_sizes(self, text):
        return ("%d: " % self.graph.used + " ".join(str(self.graph.sizes[int(p)]) for p in text.split())).strip()

    def seen(self, pair):
        if not pair:
            return self.graph
        p, q = map(int, pair.split("+"))
        return self.graph.merged(p, q) if self.graph.is_pair(p, q) else None

    def do_view(self, pair):
        seen = self.seen(pair)
        if seen is None:
            return "no"
        told = ["%d:" % seen.used] + ["%d>%d" % edge for edge in sorted(seen.edges)]
        for p in range(SHOWN):
            has = "".join("01"[(p, q) in seen.edges] for q in range(SHOWN))
            nexts = [[a for a, b in seen.edges if b == p], [b for a, b in seen.edges if a == p]]
            source, target = ["".join("%x" % min(q for q in ids if q >= least) if any(q >= least for q in ids) else "-"
                                      for least in range(SHOWN)) for ids in nexts]
            told.append("%d=%s<%s>%s" % (self.graph.type_of(p), has, source, target))
        return " ".join(told)

    def do_edges(self, text):
        return " ".join("yes" if tuple(map(int, edge.split(">"))) in self.graph.edges else "no" for edge in text.split())

    def do_places(self, text):
        return " ".join(str(place_of(self.graph, list(map(int, path)))) for path in text.split())

    def do_refine(self, kinds):
        return run_text(self.log, kinds, False)

    def do_infer(self, kinds):
        return run_text(self.log, kinds, True)

    def do_invs(self, text):
        self.invs, self.marked = [], False
        for part in filter(None, text.split(",")):
            kind, a, b = part.split(" ")
            self.invs.append((kind, int(a), int(b)))
        return str(len(self.invs))

    def do_paths(self, pair):
        seen = self.seen(pair)
        if seen is None:
            return " ".join("no;" for _ in self.invs)
        paths = [least_path(seen, inv) for inv in self.invs]
        return "".join((ids_text(path) if path else " -") + ";" for path in paths)[1:]

    def do_label(self, pair):
        self.labelled = self.seen(pair)
        return "no" if self.labelled is None else self.do_labels("")

    def do_labels(self, _):
        told = []
        for inv in self.invs:
            found = reached(self.labelled, inv)
            told.append("".join(str(sum(2 ** state for state in range(3) if (p, state) in found)) for p in range(SHOWN)))
        bad = next((k for k, inv in enumerate(self.invs) if not satisfies(self.labelled, inv)), None)
        return " ".join(told + ["-" if bad is None else str(bad)])

    def do_satisfied(self, _):
        self.labelled = self.graph
        return "".join("01"[satisfies(self.graph, inv)] for inv in self.invs)

    def do_marks(self, _):
        self.marked = True
        return ""

    def do_clashes(self, text):
        assert self.marked and all(satisfies(self.graph, inv) for inv in self.invs), text
        told = []
        for ask in text.split():
            p, q = sorted(map(int, ask.replace("+", "-").split("-")))
            if "+" in ask:
                told.append(self.do_take(ask))
            else:
                assert self.graph.is_pair(p, q), ask
                lost = first_lost(self.graph, self.invs, p, q)
                told += ["-" if lost is None else str(lost)] * 2
        return " ".join(told)


# ---- cases

class Cases:
    def __init__(self):
        self.desk, self.steps, self.answers = Desk(), [], []
        self.kind, self.counts = None, {}

    def begin(self, kind):
        self.kind = kind
        self.counts[kind] = Counter()

    def numbered(self, text):
        """The invariants of a step of a case file by the numbers of their types."""
        known = self.desk.log
        which, _, kinds = text.partition(" ")
        if which in ("candidates", "satisfied"):
            invs = candidates(len(known.names), int(kinds or 3))
            return self.listed([inv for inv in invs if which == "candidates" or satisfies(self.desk.graph, inv)])
        return ",".join(" ".join(str(known.names.get(word, word)) for word in part.split(" ")) for part in text.split(","))

    @staticmethod
    def listed(invs):
        return ",".join("%s %d %d" % inv for inv in invs)

    def take(self, step):
        """Takes a step, and answers what must come of it."""
        word, _, text = step.partition(" ")
        if word == "invs":
            text = self.numbered(text)
            step = ("invs " + text).rstrip()
        answer = getattr(self.desk, "do_" + word)(text)
        self.steps.append(step)
        self.answers.append((word + ": " + answer).rstrip(" ") if answer else word + ":")
        self.counts[self.kind]["logs"] += word == "log"
        self.counts[self.kind]["asks"] += self.asks(word, text)
        return answer

    def asks(self, word, text):
        """How much a step asks: each path, each place, each pair and each edge counts."""
        if word in ("log", "invs", "take", "chain", "marks"):
            return 0
        return len(self.desk.invs) if word == "paths" else len(text.split()) if word in ("places", "clashes", "edges") else 1

    def finish(self, step, wanted, parts):
        """Takes a step of a case file, and sees that what the case says and what is computed here agree."""
        answer = self.take(step)
        if wanted is not None and answer != wanted or not all(part in answer for part in parts):
            sys.exit("%s: %s\nthe case says   %s\nby search it is %s" % (self.kind, step, wanted or parts, answer))

    def read(self, name, only=None, shared_kind=None):
        """Takes the steps of a case file, or of one kind alone. With another kind it takes those of the graph of distinct
        words, which is spread over all traces to be told: the answers are the same."""
        step, wanted, parts, is_read = None, None, [], False
        with open(os.path.join(HERE, "cases", "graphs", name), encoding="utf-8") as file:
            lines = file.read().splitlines()
        for line in lines + ["#"]:
            mark, text = line[:1], line[2:]
            if mark == "=":
                wanted = text if wanted is None else wanted + " " + text
            elif mark == "~":
                parts.append(text)
            elif mark == "+":
                step += " " + text
            else:
                if step is not None and is_read:
                    self.finish("spread" if shared_kind and step == "graph" else step, wanted, parts)
                    if shared_kind and step.split(" ")[0] == "log":
                        self.take("shared")
                step, wanted, parts = None, None, []
                if mark == "[":
                    is_read = only in (None, line.strip("[]"))
                    if is_read:
                        self.begin(shared_kind or line.strip("[]"))
                elif mark not in ("", "#"):
                    step = line


class Random:
    """Numbers that look random."""

    def __init__(self, state):
        self.state = state

    def below(self, limit):
        self.state = (self.state * 6364136223846793005 + 1442695040888963407) % 2 ** 64
        return (self.state >> 33) % limit

    def trace(self, types):
        return " ".join("abc"[self.below(types)] for _ in range(self.below(7)))

    def log(self, types):
        return "|".join(self.trace(types) for _ in range(3))


def draws(seed):
    while True:
        seed = (seed * 1664525 + 1013904223) % 2 ** 32
        yield seed


def drawn_splits(seed):
    """Five splits by a number."""
    return ["%d/%d" % (FIRST_TYPE + (draw >> 8) % ids, TERMINAL + (draw >> 16) % (ids + 1))
            for ids, draw in zip(range(3, 8), draws(seed))]


SAMPLE = "a b a a c|b b a|c a b"
WORDS = "a b a a c|b b a|a b a a c|c a b|b b a"


def merged_views(cases):
    """The counts after each split, and the view of a merge beside the graph with that merge made."""
    cases.begin("merged views of a hundred graphs")
    merged = 0
    for seed in range(100):
        cases.take("log " + SAMPLE)
        for split in drawn_splits(seed):
            cases.take("take " + split)
            cases.take("graph")
        q = 5 + seed % 5
        pair = "%d+%d" % (cases.desk.graph.type_of(q), q)
        if cases.desk.graph.is_pair(*map(int, pair.split("+"))):
            merged += 1
            before = cases.take("view " + pair)
            cases.take("take " + pair)
            cases.take("graph")
            after = cases.take("view")
            assert [row.split("=")[-1] for row in before.split()] == [row.split("=")[-1] for row in after.split()]
    assert merged > 10


def shared_words(cases):
    """The graph of distinct words, spread over the traces, tells what the graph of all traces does after the same splits."""
    cases.begin("shared words of a hundred graphs")
    for seed in range(100):
        cases.take("log " + WORDS)
        for split in drawn_splits(seed):
            cases.take("take " + split)
            whole = cases.take("graph")
        cases.take("shared")
        for split in drawn_splits(seed):
            cases.take("take " + split)
            cases.take("graph")
        assert cases.take("spread") == whole


def all_paths(cases):
    """Shortest paths of random graphs, of which each partition is a type, by all paths that may be the shortest: as a walk
    between two ids can be cut where it meets an id twice, they have at most three edges more for each type."""
    cases.begin("answers as all paths in order")
    random = Random(2011)
    for number in range(120):
        cases.take("log " + random.log(number % 3 + 1))
        types = len(cases.desk.log.names)
        if types == 0:
            continue
        cases.take("invs candidates 4")
        answer = cases.take("paths")
        paths = least_of_all(cases.desk.graph, cases.desk.invs, 12 if types < 3 else 9)
        assert answer == " ".join((ids_text(path)[1:] if path else "-") + ";" for path in paths)


def merged_paths(cases):
    """What a merge loses, asked before it is made and after."""
    cases.begin("merges answer as merged graphs")
    losses = 0
    for seed in range(1, 40):
        random = Random(seed)
        cases.take("log " + random.log(2))
        cases.take("take " + " ".join("%d/%d" % (FIRST_TYPE + random.below(ids - 2), TERMINAL + random.below(ids - 1))
                                      for ids in range(4, 8)))
        q = 4 + seed % 4
        pair = "%d+%d" % (cases.desk.graph.type_of(q), q)
        if cases.desk.graph.is_pair(*map(int, pair.split("+"))):
            cases.take("invs " + cases.listed(candidates(2, 4)))
            before = cases.take("paths " + pair)
            cases.take("take " + pair)
            assert cases.take("paths") == before
            losses += sum(path != "-" for path in before.split("; "))
    assert losses > 10


def long_paths(cases):
    """The one path of a trace of as many types as there can be, which has all 258 ids."""
    cases.begin("thousands of asks of a long graph")
    cases.take("log " + " ".join(map(str, range(2, 258))))
    assert cases.take("sizes") == "258:"
    invs, wanted = [], []
    for a in range(2, 258, 12):
        for b in range(2, 258, 16):
            later, other = (258, 0) if a < b else (0, 258)
            invs += [("AF", a, b), ("NF", a, b), ("AP", a, b)]
            wanted += [other, later, other]
    cases.take("invs " + cases.listed(invs))
    assert lengths(cases.take("paths")) == wanted


def lengths(answer):
    """How many ids the paths have, 0 where there is none."""
    return [0 if path == "-" else int(path.split(" ")[0]) if "#" in path else len(path.split())
            for path in answer.rstrip(";").split("; ")]


def row_paths(cases):
    """Asks of two rows of which the second is divided to its first place, until all ids are used. No edge leads from one row
    to the other, and the second one's path has 1,021 ids: its own, with the two ends."""
    cases.begin("a thousand asks of a graph of all ids")
    cases.take("log p 1017*a q|r 1017*a s")
    cases.take("chain 3/6 1017")
    assert cases.take("sizes") == "1024:"
    cases.take("invs AF 2 4,AF 5 4,NF 2 6,NF 5 3,AP 2 6,AP 5 6,NF 2 4,AF 3 4")
    first = cases.take("paths")
    assert lengths(first) == [0, 1021, 0, 1021, 1021, 0, 5, 1021]
    for _ in range(124):
        assert cases.take("paths") == first


def rows_answer(letters, left, end, head):
    """What comes of two rows: each split divides off a letter of the second one, from its end on, and gives the ids from 7 to
    the one before `end`; so many letters are not divided off."""
    told, row = head, [6]
    for new in range(7, end):
        told += "; 3@2:" + ids_text([0, 2, 3] + row + [1])
        row = [new] + row
    return told + "; ids:" + ids_text([2] + [3] * letters + [4, 5] + [3] * left + row)


def row_splits(cases):
    """Rows of five letters, rows for which all ids are used in the end, and rows for which they do not suffice."""
    cases.begin("splits of rows")
    for letters, left, end, head in [(5, 0, 12, "27 mined, 35 numbers, Ok(32)"),
                                     (1017, 0, 1024, "27 mined, 521721 numbers, Ok(1044)"),
                                     (1018, 1, 1024, "27 mined, 521721 numbers, Err(PartitionLimit)")]:
        cases.take("log 1:p {0}*1:a 1:q 2:r {0}*2:a 2:s".format(letters))
        assert cases.take("refine") == rows_answer(letters, left, end, head)


def many_labels(cases):
    """The labels of graphs, and of merges, by what one edge after another reaches; the same labels and marks for all."""
    cases.begin("labels of a hundred graphs")
    merged = 0
    for seed in range(100):
        cases.take("log " + SAMPLE)
        if seed == 0:
            cases.take("invs AF 2 3,AF 3 3,AF 0 4,NF 2 3,NF 4 4,NF 3 2,AP 4 2,AP 2 2,AP 3 9,IB 2 3,IB 3 2,IB 3 9,IB 4 4")
        cases.take("take " + " ".join(drawn_splits(seed)))
        cases.take("label")
        q = 5 + seed % 5
        p = cases.desk.graph.type_of(q)
        if cases.desk.graph.is_pair(p, q):
            merged += 1
            cases.take("label %d+%d" % (p, q))
    assert merged > 20


def many_clashes(cases, kinds, kind):
    """Each pair of one type by all paths of the merged graph; those that lose nothing are merged."""
    cases.begin(kind)
    random = Random(2011)
    for _ in range(100):
        cases.take("log " + "|".join(["a b c", random.trace(3), random.trace(3), random.trace(3)]))
        for _ in range(random.below(12)):
            ids = cases.desk.graph.used
            cases.take("take %d/%d" % (random.below(ids), random.below(ids)))
        cases.take(("invs satisfied " + kinds).rstrip())
        cases.take("marks")
        graph, asks = cases.desk.graph, []
        for p, q in graph.pairs():
            if graph.is_pair(p, q):
                asks.append("%d-%d" % (p, q))
                if first_lost(graph, cases.desk.invs, p, q) is None:
                    asks.append("%d+%d" % (p, q))
                    graph = graph.merged(p, q)
        if asks:
            cases.take("clashes " + " ".join(asks))


def many_runs(cases, kinds, kind):
    """Logs of fourteen events of four types in four traces: merges and blocks by search."""
    cases.begin(kind)
    merges = blocks = 0
    for seed in range(50):
        events = ["%d:%d" % ((draw >> 28) % 4, (draw >> 20) % 4) for _, draw in zip(range(14), draws(seed))]
        cases.take("log " + " ".join(events))
        answer = cases.take(("infer " + kinds).rstrip())
        merges += answer.count("+")
        blocks += sum("-" in part for part in answer.split("; "))
    assert merges > 5 and blocks > 20


# The tests that the kinds of cases come from: the crate, the test, and how many cases it had, which were logs or asks.
BEFORE = [
    ("acceptance_partitions", "graphs of small logs", 11, "logs"),
    ("acceptance_partitions", "graphs of shared words", 11, "logs"),
    ("acceptance_partitions", "words are shared", 1, "logs"),
    ("acceptance_partitions", "what a view shows", 1, "logs"),
    ("acceptance_partitions", "a row that is divided to the last id", 1, "logs"),
    ("acceptance_partitions", "merged views of a hundred graphs", 100, "logs"),
    ("acceptance_partitions", "shared words of a hundred graphs", 100, "logs"),
    ("path_finder", "least paths of small graphs", 6, "asks"),
    ("path_finder", "answers as all paths in order", 120, "logs"),
    ("path_finder", "merges answer as merged graphs", 39, "logs"),
    ("path_finder", "thousands of asks of a long graph", 1056, "asks"),
    ("path_finder", "a thousand asks of a graph of all ids", 1000, "asks"),
    ("splitter", "splits of small logs", 9, "logs"),
    ("splitter", "splits of rows", 3, "logs"),
    ("splitter", "places of paths", 13, "asks"),
    ("labelling", "labels before and after a split", 1, "logs"),
    ("labelling", "labels go round", 1, "logs"),
    ("labelling", "labels of a hundred graphs", 100, "logs"),
    ("clashes", "a merge that loses what was mined", 1, "logs"),
    ("clashes", "merges of two rows", 1, "logs"),
    ("clashes", "answers as all paths of merged graphs", 100, "logs"),
    ("coarsener", "merges and blocks of small logs", 5, "logs"),
    ("coarsener", "fifty logs as by search", 50, "logs"),
]


def counts_text(counts):
    """How many cases each test had that the kinds come from, and how many there are."""
    told = ["# How many cases there are", "", "A test of a crate had its cases before they stood here: so many logs, or so many asks. "
            "`make` writes this table.", "", "| crate | kind | before | logs | asks |", "|---|---|---|---|---|"]
    for crate, kind, before, unit in BEFORE:
        assert counts[kind][unit] >= before, kind
        unit = unit if before > 1 else unit[:-1]
        told.append("| `%s` | %s | %d %s | %d | %d |" % (crate, kind, before, unit, counts[kind]["logs"], counts[kind]["asks"]))
    for kind in counts:
        if kind not in [row[1] for row in BEFORE]:
            told.append("| | %s | none | %d | %d |" % (kind, counts[kind]["logs"], counts[kind]["asks"]))
    return "\n".join(told) + "\n"


def made():
    """The part of stdin, that of stdout, and COUNTS.md."""
    cases = Cases()
    cases.read("graphs.txt")
    cases.read("graphs.txt", "graphs of small logs", "graphs of shared words")
    merged_views(cases)
    shared_words(cases)
    cases.read("paths.txt")
    for make in (all_paths, merged_paths, long_paths, row_paths):
        make(cases)
    cases.read("labels.txt")
    many_labels(cases)
    cases.read("marks.txt")
    many_clashes(cases, "", "answers as all paths of merged graphs")
    many_clashes(cases, "4", "marks of four kinds as all paths")
    cases.read("runs.txt")
    row_splits(cases)
    many_runs(cases, "", "fifty logs as by search")
    many_runs(cases, "4", "runs of four kinds as by search")
    parts = ["\n".join(lines) + "\n" for lines in (cases.steps, cases.answers)]
    return [text.encode() for text in (*parts, counts_text(cases.counts))]
