"""Reads the file of a model, and the report of `synoptic paths`. Only what the page needs is tested here; whether a
model is well shaped is for `synoptic graph -m FILE` to say, and whether it fits a log for `synoptic check`."""
import json
import re

KEYS = ("blocks", "edges", "invariants", "kinds", "merges", "partitions", "splits", "types", "version")
THREE = ["AF", "NF", "AP"]
FOUR = THREE + ["IB"]
MOST_BYTES = 536870912
MOST_TYPES = 256
MOST_IDS = 1024


class Refused(Exception):
    """The file is not what it should be; the text says why."""


class Model:
    """A model: the parts of its file, with INITIAL and TERMINAL before the texts of types."""

    def __init__(self, name, root):
        self.name = name
        self.texts = ["INITIAL", "TERMINAL"] + root["types"]
        self.kinds = root["kinds"]
        self.partitions = root["partitions"]
        self.edges = root["edges"]
        self.invariants = root["invariants"]
        self.splits = root["splits"]
        self.merges = root["merges"]
        self.blocks = root["blocks"]
        self.type_of = {p: typ for p, typ, _ in self.partitions}
        self.count_of = {p: count for p, _, count in self.partitions}
        self.siblings = {}
        for p, typ, _ in self.partitions:
            self.siblings.setdefault(typ, []).append(p)

    def has_number(self, p):
        """Whether the partition's id has to be shown, since its type alone does not tell which one is meant."""
        return len(self.siblings[self.type_of[p]]) > 1


def need(good, why):
    if not good:
        raise Refused(f"is no model: {why}")


def are_numbers(values, most=10**9):
    return all(type(value) is int and 0 <= value <= most for value in values)


def has_rows(rows, width):
    return isinstance(rows, list) and all(isinstance(row, list) and len(row) == width for row in rows)


def is_path(path):
    return isinstance(path, list) and are_numbers(path, MOST_IDS)


def test_types(types):
    need(isinstance(types, list) and all(isinstance(text, str) and text for text in types), "bad types")
    need(len(types) <= MOST_TYPES and len(set(types)) == len(types), "bad types")
    for text in types:
        try:
            need(len(text.encode("utf-8")) <= 256, "bad types")
        except UnicodeEncodeError:
            raise Refused("is no model: a type is no text")


def test_graph(root):
    rows, last = root["partitions"], len(root["types"]) + 1
    need(has_rows(rows, 3) and all(are_numbers(row) for row in rows), "bad partitions")
    need([row[:2] for row in rows[:2]] == [[0, 0], [1, 1]] and len(rows) <= MOST_IDS, "bad partitions")
    need(all(2 <= row[1] <= last and row[2] > 0 for row in rows[2:]), "bad partitions")
    ids = {row[0] for row in rows}
    need(len(ids) == len(rows), "bad partitions")
    rows = root["edges"]
    need(has_rows(rows, 3) and all(are_numbers(row) for row in rows), "bad edges")
    need(all(row[0] in ids and row[1] in ids and row[0] != 1 and row[1] != 0 for row in rows), "bad edges")
    need(len({(row[0], row[1]) for row in rows}) == len(rows), "bad edges")


def is_invariant(row, kinds, last, partitions):
    kind, a, b, labels = row
    if kind not in kinds or not are_numbers((a, b), last) or b < 2 or a == 1 or (a == 0 and kind != "AF"):
        return False
    if kind == "IB" and a == b:
        return False
    return isinstance(labels, str) and len(labels) == partitions and set(labels) <= set("01234567")


def test_history(root):
    rows, last, partitions = root["invariants"], len(root["types"]) + 1, len(root["partitions"])
    good = has_rows(rows, 4) and all(is_invariant(row, root["kinds"], last, partitions) for row in rows)
    need(good, "bad invariants")
    rows, invariants = root["merges"], len(root["invariants"])
    need(has_rows(rows, 2) and all(are_numbers(row, MOST_IDS) for row in rows), "bad merges")
    rows = root["splits"]
    need(has_rows(rows, 3) and all(are_numbers(row[:2]) and is_path(row[2]) for row in rows), "bad splits")
    need(all(row[0] < invariants and row[1] < len(row[2]) for row in rows), "bad splits")
    rows, type_of = root["blocks"], {row[0]: row[1] for row in root["partitions"]}
    need(has_rows(rows, 4) and all(are_numbers(row[:3]) and is_path(row[3]) for row in rows), "bad blocks")
    need(all(row[0] < row[1] and row[2] < invariants for row in rows), "bad blocks")
    need(all(row[0] > 1 and type_of.get(row[0], -1) == type_of.get(row[1], -2) for row in rows), "bad blocks")


def read_bytes(file):
    try:
        with open(file, "rb") as opened:
            return opened.read(MOST_BYTES + 1)
    except OSError:
        raise Refused("cannot be read")


def read_model(file, name):
    """The model in a file, or a refusal."""
    content = read_bytes(file)
    need(len(content) <= MOST_BYTES, "too long")
    need(content, "it is empty: a step before failed")
    try:
        root = json.loads(content.decode("utf-8"))
    except (ValueError, RecursionError):
        raise Refused("is no model: not JSON")
    need(isinstance(root, dict) and type(root.get("version")) is int, "bad root")
    if root["version"] == 1:
        raise Refused("is of version 1: make the page of what `synoptic migrate -m FILE` writes")
    need(root["version"] == 2, "another version")
    need(set(root) == set(KEYS), "bad root")
    test_types(root["types"])
    need(root["kinds"] in (THREE, FOUR), "bad kinds")
    test_graph(root)
    test_history(root)
    return Model(name, root)


EVENT = re.compile(r'"(?:[^"\\]|\\.)*"@([0-9]{1,4})')


def partitions_of_line(text, model):
    """The ids between INITIAL and TERMINAL, or None if the text does not fit the model."""
    ids, at = [], 0
    while at < len(text):
        found = EVENT.match(text, at)
        if not found or text[found.end() : found.end() + 1] != " ":
            return None
        try:
            typ = json.loads(text[at : found.start(1) - 1])
        except ValueError:
            return None
        p = int(found.group(1))
        if p < 2 or model.type_of.get(p, -1) < 2 or model.texts[model.type_of[p]] != typ:
            return None
        ids.append(p)
        at = found.end() + 1
    return ids


def read_paths(file, model):
    """The paths in the report of `synoptic paths` as [count, ids], or a refusal."""
    try:
        lines = read_bytes(file).decode("utf-8").split("\n")
    except ValueError:
        raise Refused("is no report of paths: not UTF-8")
    if lines and lines[-1] == "":
        lines.pop()
    edges, paths = {(row[0], row[1]) for row in model.edges}, []
    for number, line in enumerate(lines, 1):
        found = re.fullmatch(r"([0-9]{1,7}): INITIAL (.*)TERMINAL", line)
        if not found:
            raise Refused(f"is no report of paths: line {number}")
        ids = partitions_of_line(found.group(2), model)
        path = [0] + (ids or []) + [1]
        if ids is None or any(step not in edges for step in zip(path, path[1:])):
            raise Refused(f"is of another model: line {number}")
        paths.append([int(found.group(1)), path])
    return paths
