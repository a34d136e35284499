"""The distinct sequences of types of a log, and which invariants each of them breaks, for the scripts beside it."""


KEPT = 4  # traces of a word


class Word:
    """A sequence of types, how many traces have it, and the first of them. A set of types is a number with a bit for each
    type."""

    def __init__(self, types):
        self.types, self.count, self.traces = types, 0, []
        # By type: what comes after the last event of it, what after the first, and what before the first.
        self.after_last, self.after_first, self.before, self.between = {}, {}, {}, None
        seen = 0
        for typ in types:
            self.before.setdefault(typ, seen)
            seen |= 1 << typ
        self.has, seen = seen, 0
        for typ in reversed(types):
            self.after_last.setdefault(typ, seen)
            self.after_first[typ] = seen
            seen |= 1 << typ

    def interruptions(self):
        """For each type that comes twice, what comes between any two of its events."""
        if self.between is None:
            self.between, recent = {}, []
            for typ in self.types:
                if typ in recent:
                    at = recent.index(typ)
                    self.between[typ] = self.between.get(typ, -1) & sum(1 << other for other in recent[:at])
                    del recent[at]
                recent.insert(0, typ)
        return self.between

    def breaks(self, kind, a, b):
        if kind == "AF":
            return not (self.after_last.get(a, -1) if a else self.has) >> b & 1
        if kind == "NF":
            return bool(self.after_first.get(a, 0) >> b & 1)
        return not (self.before.get(b, -1) >> a if kind == "AP" else self.interruptions().get(a, -1) >> b) & 1

    def places(self, kind, a, b):
        """Where the word, which breaks the invariant, first does so: at one event, at a pair of them for NeverFollowedBy
        and InterruptedBy, and at none if each trace has to have a b."""
        types = list(self.types)
        found = [at for at, typ in enumerate(types) if typ == a]
        if kind == "AP":
            return [types.index(b)]
        if kind == "NF":
            return [found[0], types.index(b, found[0] + 1)]
        if kind == "IB":
            return next([i, j] for i, j in zip(found, found[1:]) if b not in types[i + 1 : j])
        last = max((at for at, typ in enumerate(types) if typ == b), default=-1)
        return [next(at for at in found if at >= last)] if a else []


def words_of(log):
    """The words of a log, in the order in which it first has them."""
    words = {}
    for trace in log.traces():
        word = words.get(trace.types)
        if not word:
            word = words[trace.types] = Word(trace.types)
        word.count += 1
        if word.count <= KEPT:
            word.traces.append(trace)
    return list(words.values())


def exception(log, words, kind, a, b):
    """Which traces break an invariant, and where the first of them does; empty if none does."""
    found = [word for word in words if word.breaks(kind, a, b)]
    if not found:
        return ""
    names, trace = log.names, found[0].traces[0]
    count = sum(word.count for word in found)
    at = [log.place(trace.places[place]) for place in found[0].places(kind, a, b)]
    if kind == "AP":
        how = f"{names[b]} ({at[0]}) has no earlier {names[a]}"
    elif kind == "NF":
        how = f"{names[a]} ({at[0]}) has a later {names[b]} ({at[1]})"
    elif kind == "IB":
        how = f"{names[a]} ({at[0]}) and {names[a]} ({at[1]}) have no {names[b]} between them"
    else:
        how = f"{names[a]} ({at[0]}) has no later {names[b]}" if a else f"there is no {names[b]}"
    return f"{f'{count} traces break it, first' if count > 1 else 'broken by'} the trace named {log.shown(trace)}: {how}"
