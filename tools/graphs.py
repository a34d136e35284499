"""Walks through the graphs of models for the scripts beside it: where a trace leaves one, which path only one of two has,
which labels are not right, which path breaks an invariant, and what is wrong with a block. What is right, and what breaks
an invariant, is as docs/FORMATS.md defines it for `check`."""

# How many pairs of sets of partitions are looked at to find a path that only one of two models has.
MOST_PAIRS = 200000

# The state of an invariant's monitor in which a path that breaks it ends.
BAD = {"AF": 1, "NF": 2, "AP": 2, "IB": 2}


def step(kind, a, b, state, typ):
    """The state of an invariant's monitor after it has read a type."""
    if kind == "AF":
        return 1 if typ == a else 0 if typ == b else state
    if kind == "IB":
        return min(state + 1, 2) if typ == a else 0 if typ == b and state == 1 else state
    if typ == b and state == (1 if kind == "NF" else 0):
        return 2
    return 1 if typ == a and state == 0 else state


def followers(edges):
    """For each partition those to which its edges lead."""
    after = {}
    for p, q, _ in edges:
        after.setdefault(p, []).append(q)
    return after


def onward(model, after, here):
    """The sets of partitions to which a set leads, by their type."""
    sets = {}
    for p in here:
        for q in after.get(p, ()):
            sets.setdefault(model.type_of[q], set()).add(q)
    return {typ: frozenset(led) for typ, led in sets.items()}


class Walks:
    """Goes along the paths of a model with traces."""

    def __init__(self, model):
        self.model, self.after, self.led = model, followers(model.edges), {}

    def leaves(self, types):
        """How many events of a trace some path goes along with, and the types with which these paths go on; None if a path
        has all of the trace."""
        here = frozenset([0])
        for at, typ in enumerate((*types, 1)):
            if here not in self.led:
                self.led[here] = onward(self.model, self.after, here)
            led = self.led[here]
            if typ not in led:
                return at, sorted(led)
            here = led[typ]
        return None


def only_paths(old, new):
    """A shortest path by types that only the old model has, and one that only the new model has, each as names, or None;
    and whether it is certain that there is none where none is given."""
    graphs = [(old, followers(old.edges)), (new, followers(new.edges))]
    first = frozenset([0]), frozenset([0])
    came, row, found = {first: None}, [first], [None, None]
    for pair in row:
        if None not in found or len(row) > MOST_PAIRS:
            break
        led = [{model.names[typ]: to for typ, to in onward(model, after, here).items()}
               for (model, after), here in zip(graphs, pair)]
        for name in dict.fromkeys([*led[0], *led[1]]):
            then = tuple(sets.get(name, frozenset()) for sets in led)
            only = 0 if not then[1] else 1 if not then[0] else None
            if only is not None and found[only]:
                continue
            if then not in came:
                came[then] = pair, name
                row.append(then)
            if name == "TERMINAL" and only is not None:
                found[only] = [name]
                at = pair
                while came[at]:
                    found[only].insert(0, came[at][1])
                    at = came[at][0]
    return (*[path and ["INITIAL"] + path for path in found], len(row) <= MOST_PAIRS)


def breaking_path(model, place):
    """A shortest path of the graph that breaks an invariant, or None."""
    kind, a, b, _ = model.invariants[place]
    after = followers(model.edges)
    first = 0, step(kind, a, b, 0, 0)
    came, row = {first: None}, [first]
    for p, state in row:
        for q in after.get(p, ()):
            met = q, step(kind, a, b, state, model.type_of[q])
            if met not in came:
                came[met] = p, state
                row.append(met)
    at, path = (1, BAD[kind]), []
    while at in came and at is not None:
        path.append(at[0])
        at = came[at]
    return path[::-1] or None


def label_fault(model, place):
    """Why the labels of an invariant are not inductive, or None if they are."""
    kind, a, b, labels = model.invariants[place]
    label = {row[0]: int(digit) for row, digit in zip(model.partitions, labels)}
    first = step(kind, a, b, 0, 0)
    if not label[0] >> first & 1:
        return f"the label of INITIAL lacks state {first}"
    for p, q, _ in model.edges:
        for state in range(3):
            then = step(kind, a, b, state, model.type_of[q])
            if label[p] >> state & 1 and not label[q] >> then & 1:
                return (f"the label of {model.partition(q)} lacks state {then}, to which the edge from "
                        f"{model.partition(p)} leads from state {state}")
    return f"the label of TERMINAL has the bad state {BAD[kind]}" if label[1] >> BAD[kind] & 1 else None


def block_fault(model, p, q):
    """Why no block keeps two partitions apart, or None if one does."""
    found = [row for row in model.blocks if row[:2] == [p, q]]
    if not found:
        return "the file has no block for them"
    place, path = found[0][2:]
    kind, a, b, _ = model.invariants[place]
    shown = f"their block has the path {model.path(path)} for {model.statement(place)}, "
    merged = {(p if x == q else x, p if y == q else y) for x, y, _ in model.edges}
    if path[:1] != [0] or path[-1:] != [1]:
        return shown + "which does not go from INITIAL to TERMINAL"
    state = step(kind, a, b, 0, 0)
    for x, y in zip(path, path[1:]):
        if (x, y) not in merged:
            return shown + f"which has no edge from {model.partition(x)} to {model.partition(y)} if the two are one"
        state = step(kind, a, b, state, model.type_of[y])
    return None if state == BAD[kind] else shown + "which does not break it"
