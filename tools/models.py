"""Reads model files for the scripts beside it, and shows parts of them as the reports of `synoptic` do. Only what the
scripts need is tested here: `synoptic graph -m FILE` tests all rules of a model file."""
import json
import re
import sys

KINDS = {"AF": "AlwaysFollowedBy", "NF": "NeverFollowedBy", "AP": "AlwaysPrecedes", "IB": "InterruptedBy"}
KEYS = {"blocks", "edges", "invariants", "kinds", "merges", "partitions", "splits", "types", "version"}
MOST_BYTES = 536870912
MOST_TYPES = 256


class Refused(Exception):
    """A file that cannot be used; the text says why."""


def fail(why, status=2):
    sys.stderr.write(why.encode("ascii", "backslashreplace").decode() + "\n")
    sys.exit(status)


def write(lines):
    """Writes lines as UTF-8, whatever the locale is."""
    try:
        sys.stdout.buffer.write("".join(line + "\n" for line in lines).encode("utf-8"))
        sys.stdout.buffer.flush()
    except OSError:
        sys.stdout = None
        fail("cannot write")


def quoted(text):
    """A text as a report shows it."""
    return json.dumps(text, ensure_ascii=False)


def bare(text):
    """The name of a trace or of a file: as it is if it is simple, and as a JSON string otherwise."""
    text = text.encode("utf-8", "backslashreplace").decode("utf-8")
    simple = re.fullmatch(r"[!#-\[\]-~]*[!#-+./0-9;-\[\]-~-]", text)
    return text if simple else json.dumps(text, ensure_ascii=not text.isprintable())


class Model:
    """The parts of a model file. `names` has INITIAL, TERMINAL and the types, as a report shows them."""

    def __init__(self, root):
        self.texts, self.kinds = root["types"], root["kinds"]
        self.partitions, self.edges, self.invariants = root["partitions"], root["edges"], root["invariants"]
        self.splits, self.merges, self.blocks = root["splits"], root["merges"], root["blocks"]
        self.names = ["INITIAL", "TERMINAL"] + [quoted(text) for text in self.texts]
        # The type of each id, also of those that were merged into another: split k made the id len(names) + k.
        self.type_of = dict(enumerate(range(len(self.names))))
        for number, (_, place, path) in enumerate(self.splits):
            self.type_of[len(self.names) + number] = self.type_of.get(path[place])
        self.type_of.update((p, typ) for p, typ, _ in self.partitions)

    def name(self, p):
        """The type of a partition, or its id if the file does not say the type."""
        typ = self.type_of.get(p)
        return f"@{p}" if typ is None else self.names[typ]

    def partition(self, p):
        """A partition as a report shows it."""
        typ = self.type_of.get(p)
        return self.names[p] if p < 2 else f"@{p}" if typ is None else f"{self.names[typ]}@{p}"

    def path(self, ids):
        """A path by its types."""
        return " ".join(map(self.name, ids))

    def statement(self, place):
        """An invariant as a line of the report `invariants`."""
        kind, a, b, _ = self.invariants[place]
        return f"{self.names[a]} {KINDS[kind]} {self.names[b]}"


def need(good, part):
    if not good:
        raise Refused(f"is no model: bad {part}")


def rows_of(root, part, forms):
    """The rows of a part, which have these forms: int for a number, str for a text, and list for a path."""
    def fits(value, form):
        if form is list:
            return type(value) is list and all(type(p) is int and 0 <= p < 1024 for p in value)
        return type(value) is form and (form is str or value >= 0)

    rows = root[part]
    need(type(rows) is list and all(type(row) is list and len(row) == len(forms) for row in rows), part)
    need(all(fits(value, form) for row in rows for value, form in zip(row, forms)), part)
    return rows


def test(root):
    """Tests that each part has its form, and that the types, partitions and invariants that it names are there."""
    types = root["types"]
    need(type(types) is list and all(type(text) is str and text for text in types), "types")
    need(len(types) <= MOST_TYPES and len(set(types)) == len(types), "types")
    need(not any("\ud800" <= c <= "\udfff" for text in types for c in text), "types")
    need(root["kinds"] in (["AF", "NF", "AP"], ["AF", "NF", "AP", "IB"]), "kinds")
    last = len(types) + 1
    rows = rows_of(root, "partitions", (int, int, int))
    need([row[:2] for row in rows[:2]] == [[0, 0], [1, 1]], "partitions")
    need(all(2 <= typ <= last and 2 <= p < 1024 for p, typ, _ in rows[2:]), "partitions")
    ids = {row[0] for row in rows}
    need(len(ids) == len(rows), "partitions")
    need(all(p in ids and q in ids for p, q, _ in rows_of(root, "edges", (int, int, int))), "edges")
    listed = rows_of(root, "invariants", (str, int, int, str))
    for kind, a, b, labels in listed:
        need(kind in root["kinds"] and a <= last and a != 1 and 2 <= b <= last, "invariants")
        need(len(labels) == len(ids) and set(labels) <= set("01234567"), "invariants")
    rows_of(root, "merges", (int, int))
    for place, at, path in rows_of(root, "splits", (int, int, list)):
        need(place < len(listed) and at < len(path), "splits")
    for p, q, place, _ in rows_of(root, "blocks", (int, int, int, list)):
        need(p in ids and q in ids and place < len(listed), "blocks")


def read_model(file):
    """The model in a file, or a refusal."""
    try:
        with open(file, "rb") as opened:
            content = opened.read(MOST_BYTES + 1)
    except OSError:
        raise Refused("cannot be read")
    need(len(content) <= MOST_BYTES, "length")
    try:
        root = json.loads(content.decode("utf-8"))
    except (ValueError, RecursionError):
        raise Refused("is no model: not JSON")
    if type(root) is dict and root.get("version") == 1:
        raise Refused("has version 1 of the model file: run synoptic migrate first")
    need(type(root) is dict, "root")
    need(root.get("version") == 2, "version")
    need(set(root) == KEYS, "root")
    test(root)
    return Model(root)
