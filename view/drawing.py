"""The graph as SVG: boxes, edges as wide as their share, and signs for what is new or gone."""
import math
import unicodedata

from layout import Layout, Line, Node, drawn_by, middle_of
from texts import escaped, plain, plural, segments, shortened, width

COLUMN = 8.0
MOST_SHOWN = 30


def short_segments(text):
    """The pieces of a type's text for a box, cut in the middle if they are long."""
    pieces = segments(text)
    if sum(len(shown) for _, shown in pieces) <= MOST_SHOWN:
        return pieces
    return [[0, shortened("".join(f"[{shown}]" if marked else shown for marked, shown in pieces), MOST_SHOWN)]]


def size_of(model, p):
    """How many events a partition has, and of how many of its type if it does not have all."""
    count = model.count_of[p]
    if p < 2:
        return plural(count, "trace")
    if not model.has_number(p):
        return plural(count, "event")
    return f"{count} of " + plural(sum(model.count_of[q] for q in model.siblings[model.type_of[p]]), "event")


def box(model, p):
    """The content of a partition's box: the pieces of its first line, its number, and its second line."""
    typ = model.type_of[p]
    number = f" @{p}" if model.has_number(p) else ""
    if number and any(unicodedata.bidirectional(c) in ("R", "AL") for c in model.texts[typ]):
        number = "\u200e" + number  # so that the number stays to the right of a text that runs to the left
    return short_segments(model.texts[typ]), number, size_of(model, p)


def columns_of_box(pieces, number, below):
    first = sum(width(shown) + marked for marked, shown in pieces) + len(number)
    return max(first, len(below) * 0.85)


def node_of(name, pieces, number, below):
    return Node(name, columns_of_box(pieces, number, below) * COLUMN + 20, 42.0)


def edge_label(model, edge, differences):
    p, q, count = edge
    new = differences and (model.type_of[p], model.type_of[q]) in differences.new_edges
    return ("+ " if new else "") + f"{count} of {model.count_of[p]}"


def gone_name(model, typ):
    """The node at which a gone edge begins or ends: the largest partition of the type, or the box of the gone type."""
    if typ >= len(model.texts):
        return f"g{typ}"
    return f"p{max(model.siblings[typ], key=lambda p: model.count_of[p])}"


def laid_out(model, differences):
    """The layout of the model's graph, with what is gone."""
    nodes = [node_of(f"p{p}", *box(model, p)) for p, _, _ in model.partitions]
    lines = [Line(f"p{e[0]}", f"p{e[1]}", edge_label(model, e, differences)) for e in model.edges]
    if differences:
        for typ in differences.gone_types:
            nodes.append(node_of(f"g{typ}", short_segments(differences.texts[typ]), " −", "gone"))
        for a, b in differences.gone_edges:
            if all(t in model.siblings or t >= len(model.texts) for t in (a, b)):
                lines.append(Line(gone_name(model, a), gone_name(model, b), "− gone"))
    return drawn_by(Layout(nodes, lines))


def number_text(value):
    return f"{value:.1f}".rstrip("0").rstrip(".")


def points(pairs):
    return " ".join(f"{number_text(x)},{number_text(y)}" for x, y in pairs)


def route_of(line):
    return f"M{points(line.route[:1])}C{points(line.route[1:])}"


def head_of(line, thick):
    """The arrow at the end of an edge, as a triangle."""
    (x, y), (tip_x, tip_y) = line.route[-1], line.tip
    length = math.hypot(tip_x - x, tip_y - y) or 1.0
    across_x, across_y = (y - tip_y) / length, (tip_x - x) / length
    half = 3 + thick / 2
    left = x + across_x * half, y + across_y * half
    right = x - across_x * half, y - across_y * half
    return f"M{points([line.tip, left, right])}Z"


def drawn_text(pieces):
    """Pieces of a text as SVG; each mark is in a span of its own."""
    shown = ""
    for marked, piece in pieces:
        shown += f'<tspan class="mark">{escaped(piece)}</tspan>' if marked else escaped(piece)
    return shown


def drawn_line(line, thick, words):
    """An edge, with its attributes and its label."""
    label = ""
    shown = line.label if line.spot else line.label[:1] if line.label[0] in "+−" else ""
    if shown:
        x, y = line.spot or middle_of(line.route)
        label = f'<text x="{number_text(x)}" y="{number_text(y + 4)}">{escaped(shown)}</text>'
    wide = number_text(thick)
    return (
        f'<g {words}><path class="line" d="{route_of(line)}" stroke-width="{wide}"/>'
        f'<path class="head" d="{head_of(line, thick)}"/>{label}</g>'
    )


def drawn_edges(model, layout, differences):
    rows = []
    for at, (edge, line) in enumerate(zip(model.edges, layout.lines)):
        p, q, count = edge
        share = count / max(1, model.count_of[p])
        new = differences and (model.type_of[p], model.type_of[q]) in differences.new_edges
        words = f'class="edge{" new" if new else ""}" id="e{at}"'
        rows.append(drawn_line(line, 1.2 + 4.8 * min(1, share), words))
    for line in layout.lines[len(model.edges) :]:
        rows.append(drawn_line(line, 2, 'class="edge gone"'))
    return rows


def drawn_box(node, words, label, pieces, number, below):
    x, y = node.x - node.width / 2, node.y - node.height / 2
    middle = number_text(node.x)
    return (
        f'<g {words} aria-label="{escaped(label)}"><rect x="{number_text(x)}" y="{number_text(y)}" '
        f'width="{number_text(node.width)}" height="{number_text(node.height)}" rx="8"/>'
        f'<text x="{middle}" y="{number_text(node.y - 3)}">{drawn_text(pieces)}'
        f'<tspan class="number">{escaped(number)}</tspan></text>'
        f'<text class="below" x="{middle}" y="{number_text(node.y + 13)}">{escaped(below)}</text></g>'
    )


def drawn_boxes(model, layout, differences):
    rows = []
    for p, typ, _ in model.partitions:
        new = differences and typ in differences.new_types
        pieces, number, below = box(model, p)
        label = f"{'new: ' if new else ''}{plain(model.texts[typ])}, partition {p}, {below}"
        kinds = (" end" if p < 2 else "") + (" several" if model.has_number(p) else "") + (" new" if new else "")
        words = f'class="node{kinds}" id="p{p}" role="button" tabindex="-1"'
        rows.append(drawn_box(layout.nodes[f"p{p}"], words, label, pieces, number + (" +" if new else ""), below))
    for typ in differences.gone_types if differences else ():
        label = f"gone: {plain(differences.texts[typ])}"
        pieces = short_segments(differences.texts[typ])
        rows.append(drawn_box(layout.nodes[f"g{typ}"], 'class="node gone" role="img"', label, pieces, " −", "gone"))
    return rows


def description(model):
    """The graph in a few words, for screen readers."""
    several = [typ for typ, ids in model.siblings.items() if len(ids) > 1]
    text = f"{plural(len(model.partitions), 'partition')} and {plural(len(model.edges), 'edge')}. "
    text += "Each trace of the log is a path from INITIAL to TERMINAL. "
    if len(several) > 3:
        return text + f"{len(several)} types have several partitions."
    return text + "".join(f"{plain(model.texts[t])} has {len(model.siblings[t])} partitions. " for t in several)


def svg(model, differences):
    """The drawing, and where its boxes are: {id: [x, y, width, height]} of their middles."""
    layout = laid_out(model, differences)
    places = {
        p: [round(z, 1) for z in (n.x, n.y, n.width, n.height)]
        for p, n in ((p, layout.nodes[f"p{p}"]) for p, _, _ in model.partitions)
    }
    size = f"0 0 {number_text(layout.width)} {number_text(layout.height)}"
    text = "\n".join(
        [f'<svg id="drawing" class="drawing" viewBox="{size}" role="group" aria-labelledby="graph-title" '
         f'aria-describedby="graph-text"><desc id="graph-text">{escaped(description(model))}</desc>']
        + ['<g id="edges" aria-hidden="true">'] + drawn_edges(model, layout, differences)
        + ['</g><g id="dashes"></g><g id="nodes">'] + drawn_boxes(model, layout, differences)
        + ['</g><g id="badges" aria-hidden="true"></g></svg>']
    )
    return text, places
