"""Lays out the partitions and edges of a graph: by Graphviz `dot`, or in columns if dot is missing or too slow."""
import json
import subprocess
import sys

# Edges that are labelled, at most; more labels than these no one could read.
MOST_LABELS = 300
# dot gets this many seconds, and no graph with more edges than it lays out in about that time.
DOT_SECONDS = 8
MOST_DOT_EDGES = 4000
MARGIN = 12
TOO_LARGE = "model-page: the graph is too large for dot, and is laid out in columns\n"


class Node:
    """A partition, or a type that is gone; its middle and its size are in pixels."""

    def __init__(self, name, width, height):
        self.name, self.width, self.height = name, width, height
        self.x = self.y = 0.0


class Line:
    """An edge: between two nodes, with the text of its label; `route` is a list of points of Bezier curves, `tip` the
    point of its arrow, and `spot` the middle of its label, or none if the graph has too many edges for labels."""

    def __init__(self, start, end, label):
        self.start, self.end, self.label = start, end, label
        self.route, self.tip, self.spot = [], None, None


class Layout:
    def __init__(self, nodes, lines):
        self.nodes = {node.name: node for node in nodes}
        self.lines = lines
        self.width = self.height = 0.0


def drawn_by(layout):
    """The layout with all its places, by dot if it can."""
    if len(layout.lines) > MOST_DOT_EDGES:
        sys.stderr.write(TOO_LARGE)
        columns(layout)
    elif not dot(layout):
        columns(layout)
    return layout


def question(layout):
    """The graph in the language of dot. No text of the model is in it."""
    labels = len(layout.lines) <= MOST_LABELS
    rows = ["digraph {", "rankdir=LR; nodesep=0.35; ranksep=0.45; node [shape=box, fixedsize=true, label=\"\"]"]
    rows.append("edge [fontname=\"monospace\", fontsize=11, arrowsize=0.8]")
    for node in layout.nodes.values():
        rows.append(f"{node.name} [width={node.width / 72:.4f}, height={node.height / 72:.4f}]")
    for at, line in enumerate(layout.lines):
        label = f', label=" {line.label} "' if labels else ""
        rows.append(f"{line.start} -> {line.end} [id={at}{label}]")
    return "\n".join(rows + ["}"])


def dot(layout):
    """Whether dot laid the graph out."""
    try:
        done = subprocess.run(
            ["dot", "-Tjson0"], input=question(layout).encode(), stdout=subprocess.PIPE, stderr=subprocess.DEVNULL,
            timeout=DOT_SECONDS,
        )
        if done.returncode != 0:
            return False
        take(layout, json.loads(done.stdout.decode("utf-8")))
    except subprocess.TimeoutExpired:
        sys.stderr.write(TOO_LARGE)
        return False
    except OSError:
        sys.stderr.write("model-page: there is no dot (Debian's package graphviz); the graph is laid out in columns\n")
        return False
    except (ValueError, LookupError):
        return False
    return True


def take(layout, answer):
    """The places that dot gave; its y grows upwards."""
    left, low, right, high = (float(x) for x in answer["bb"].split(","))
    layout.width, layout.height = right - left + 2 * MARGIN, high - low + 2 * MARGIN

    def point(text):
        x, y = (float(z) for z in text.split(","))
        return round(x - left + MARGIN, 1), round(high - y + MARGIN, 1)

    for given in answer["objects"]:
        node = layout.nodes[given["name"]]
        node.x, node.y = point(given["pos"])
    for given in answer.get("edges", []):
        line = layout.lines[int(given["id"])]
        points = given["pos"].split(" ")
        line.tip = point(points[0][2:]) if points[0].startswith("e,") else None
        line.route = [point(text) for text in points if "e," not in text and "s," not in text]
        line.tip = line.tip or line.route[-1]
        line.spot = point(given["lp"]) if "lp" in given else None


def forward_edges(follow, first):
    """The edges that do not lead back to a node that a search in depth is still in: [node, ends], the deepest first."""
    done, order, path, entered = set(), [], [(first, iter(follow.get(first, ())))], {first}
    while path:
        name, rest = path[-1]
        end = next(rest, None)
        if end is None:
            path.pop()
            entered.discard(name)
            done.add(name)
            order.append((name, [e for e in follow.get(name, ()) if e in done and e != name]))
        elif end not in done and end not in entered:
            entered.add(end)
            path.append((end, iter(follow.get(end, ()))))
    return order


def depths(layout, first):
    """The column of each node: after the nodes before it, except for edges that lead back. Unreached nodes are last."""
    follow = {}
    for line in layout.lines:
        follow.setdefault(line.start, []).append(line.end)
    depth = {first: 0}
    for name, ends in reversed(forward_edges(follow, first)):
        for end in ends:
            depth[end] = max(depth.get(end, 0), depth[name] + 1)
    deepest = max(depth.values()) + 1
    for name in layout.nodes:
        depth.setdefault(name, deepest)
    return depth


def columns(layout):
    """Nodes in columns, each column in the order of the nodes before it."""
    first, last = list(layout.nodes)[:2]
    depth = depths(layout, first)
    depth[last] = max(depth.values()) + 1
    labelled = len(layout.lines) <= MOST_LABELS
    gap = 110 if labelled else 70
    rows = {}
    for name in layout.nodes:
        rows.setdefault(depth[name], []).append(name)
    before = {}
    for line in layout.lines:
        before.setdefault(line.end, []).append(line.start)
    left, tallest = MARGIN, 0
    for column in sorted(rows):
        names = rows[column]
        met = {n: [layout.nodes[m].y for m in before.get(n, ()) if depth[m] < column] or [0] for n in names}
        names.sort(key=lambda n: sum(met[n]) / len(met[n]))
        wide, y = max(layout.nodes[n].width for n in names), MARGIN
        for name in names:
            node = layout.nodes[name]
            node.x, node.y = left + wide / 2, y + node.height / 2
            y += node.height + 14
        tallest = max(tallest, y)
        left += wide + gap
    layout.width, layout.height = left - gap + MARGIN, tallest
    for line in layout.lines:
        curve(line, layout.nodes[line.start], layout.nodes[line.end], labelled)


def curve(line, start, end, labelled):
    """A curve from the right side of one node to the left side of the other."""
    x, y = start.x + start.width / 2, start.y
    tip = end.x - end.width / 2, end.y
    bend = max(30.0, abs(tip[0] - x) / 2)
    line.route = [(x, y), (x + bend, y), (tip[0] - bend, tip[1]), (tip[0] - 7, tip[1])]
    line.tip = tip
    if labelled:
        line.spot = middle_of(line.route)


def middle_of(route):
    """The middle of the curve in the middle of a route."""
    at = (len(route) - 1) // 6 * 3
    return tuple(sum(w * p[axis] for w, p in zip((1, 3, 3, 1), route[at : at + 4])) / 8 for axis in (0, 1))
