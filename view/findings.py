"""What the page says beyond the file: which invariants follow from others, which side of a block brings what, and in
what two models differ."""

# The state of an invariant's monitor from which a path can still break it, as the digits of a label count it:
# AlwaysFollowedBy waits in state 1, NeverFollowedBy has met its first type in state 1, AlwaysPrecedes has not yet met it
# in state 0, and InterruptedBy has met its first type in state 1, and its second not since.
CRITICAL = {"AF": 2, "NF": 2, "AP": 1, "IB": 2}


def rows_of(invariants, kind):
    """For each type a, a word of bits with the types b of the invariants `a kind b`."""
    rows = {}
    for row in invariants:
        if row[0] == kind:
            rows[row[1]] = rows.get(row[1], 0) | 1 << row[2]
    return rows


def columns_of(rows):
    columns = {}
    for a, bits in rows.items():
        for b in numbers(bits):
            columns[b] = columns.get(b, 0) | 1 << a
    return columns


def numbers(bits):
    """The places of the bits that are set, ascending."""
    found = []
    while bits:
        low = bits & -bits
        found.append(low.bit_length() - 1)
        bits ^= low
    return found


def ends_of(model):
    """The types that are always the last of their trace, and those that are always the first."""
    last = set(range(2, len(model.texts)))
    first = set(last)
    for p, q, _ in model.edges:
        if q != 1:
            last.discard(model.type_of[p])
        if p != 0:
            first.discard(model.type_of[q])
    return last, first


def reasons_of(model):
    """For each invariant what it follows from, or None if it is a telling one:
    ["last"] its first type is always last; ["first"] its second type is always first;
    [k, c, l] the two invariants of the kinds k and l that meet in the type c;
    ["once"] an InterruptedBy whose first type comes at most once in a trace, so that there is nothing between two of it.
    AlwaysFollowedBy and AlwaysPrecedes are orders without circles if each type occurs, so what follows through a third
    type rests on telling ones in the end; and NeverFollowedBy follows from one between a type further on or back."""
    after, before, never = (rows_of(model.invariants, kind) for kind in ("AF", "AP", "NF"))
    into_after, into_before = columns_of(after), columns_of(before)
    last, first = ends_of(model)

    def reason(kind, a, b):
        if kind == "IB":
            return ["once"] if never.get(a, 0) >> a & 1 else None
        if kind == "AF":
            through = after.get(a, 0) & into_after.get(b, 0)
            return ["AF", numbers(through)[0], "AF"] if through else None
        if kind == "AP":
            through = before.get(a, 0) & into_before.get(b, 0)
            return ["AP", numbers(through)[0], "AP"] if through else None
        if a in last:
            return ["last"]
        if b in first:
            return ["first"]
        through = never.get(a, 0) & after.get(b, 0)
        if through:
            return ["NF", numbers(through)[0], "from b"]
        for c in numbers(into_before.get(a, 0)):
            if never.get(c, 0) >> b & 1:
                return ["AP", c, "NF"]
        return None

    return [reason(kind, a, b) for kind, a, b, _ in model.invariants]


def order_of(model, reasons):
    """The places of the invariants in the order of the table: telling ones first, and of these first those that blocks
    and splits name, then AlwaysFollowedBy, AlwaysPrecedes and InterruptedBy, then NeverFollowedBy."""
    named = {block[2] for block in model.blocks} | {split[0] for split in model.splits}
    kinds = {"AF": 0, "AP": 1, "IB": 2, "NF": 3}

    def key(place):
        return (reasons[place] is not None, place not in named, kinds[model.invariants[place][0]], place)

    return sorted(range(len(model.invariants)), key=key)


def sides_of(model):
    """For each block which of its two partitions is met in the critical state of the invariant: 0 for p, 1 for q, and
    2 if the labels do not decide it. From the other one a path goes on in the way that breaks the invariant."""
    place_of = {row[0]: place for place, row in enumerate(model.partitions)}
    sides = []
    for p, q, inv, _ in model.blocks:
        kind, _, _, labels = model.invariants[inv]
        met = [bool(int(labels[place_of[x]]) & CRITICAL[kind]) for x in (p, q)]
        sides.append(2 if met[0] == met[1] else 0 if met[0] else 1)
    return sides


def short_paths(blocks):
    """The blocks with what their paths differ in: [p, q, invariant, head, tail, middle], where the path begins with as
    many ids of the path of the block before as head says, and ends with as many as tail says."""
    before, rows = [], []
    for p, q, inv, path in blocks:
        most, head, tail = min(len(before), len(path)), 0, 0
        while head < most and before[head] == path[head]:
            head += 1
        while tail < most - head and before[-1 - tail] == path[-1 - tail]:
            tail += 1
        rows.append([p, q, inv, head, tail, path[head : len(path) - tail]])
        before = path
    return rows


class Differences:
    """What the new model has and the old one lacks, and the other way round; types beyond those of the new model get
    the numbers after them. If only one of the two was asked for InterruptedBy, invariants of this kind are left out."""

    def __init__(self, new, old):
        self.texts = list(new.texts)
        number = {text: typ for typ, text in enumerate(new.texts) if typ > 1}
        renamed = {0: 0, 1: 1}
        for typ, text in enumerate(old.texts):
            if typ > 1:
                if text not in number:
                    number[text] = len(self.texts)
                    self.texts.append(text)
                renamed[typ] = number[text]
        self.types = differing(range(2, len(new.texts)), [renamed[t] for t in range(2, len(old.texts))])
        self.kinds = differing(new.kinds, old.kinds)
        self.invariants = differing(
            [(kind, a, b) for kind, a, b, _ in new.invariants if kind in old.kinds],
            [(kind, renamed[a], renamed[b]) for kind, a, b, _ in old.invariants if kind in new.kinds],
        )
        self.edges = differing(
            [(new.type_of[p], new.type_of[q]) for p, q, _ in new.edges],
            [(renamed[old.type_of[p]], renamed[old.type_of[q]]) for p, q, _ in old.edges],
        )
        self.new_types = {typ for sign, typ in self.types if sign == 1}
        self.new_edges = {(a, b) for sign, (a, b) in self.edges if sign == 1}
        self.gone_types = [typ for sign, typ in self.types if sign == -1]
        self.gone_edges = [pair for sign, pair in self.edges if sign == -1]


def differing(new, old):
    """[1, x] for each that is new, and [-1, x] for each that is gone, in the order of the lists and each once."""
    news, olds = set(new), set(old)
    gained = [[1, x] for x in dict.fromkeys(new) if x not in olds]
    return gained + [[-1, x] for x in dict.fromkeys(old) if x not in news]
