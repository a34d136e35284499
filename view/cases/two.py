"""The page of two models, and what is refused."""
import json
import os
import subprocess
import sys

from cases.browser import HERE, SHOP, check_closed, make, same, store
from cases.readers import check_active


def older_model():
    """The shop's model with another name for offers, and without an edge and an invariant."""
    with open(os.path.join(SHOP, "shop.model"), encoding="utf-8") as model:
        root = json.load(model)
    root["types"][root["types"].index("offers")] = "wishes"
    root["edges"].remove([5, 7, 2])
    root["invariants"] = [row for row in root["invariants"] if row[:3] != ["AP", 5, 7]]
    root["blocks"], root["splits"] = [], []
    return root


def check_two(page, room):
    older = store(room, "older.model", older_model())
    page.open(make(room, "two.html", os.path.join(SHOP, "shop.model"), "--against", older))
    same("two: new partitions and edges", (page.names(".node.new"), page.names(".edge.new")), (
        ["p8"], ["e3", "e8", "e12"]))
    same("two: gone types and edges", (page.texts(".node.gone > rect + text"), page.count(".edge.gone")), (
        ["wishes −"], 2))
    same("two: signs that need no colour, new", (page.texts(".node.new > rect + text"), page.texts(".edge.new text")), (
        ["offers +"], ["+ 3 of 6", "+ 2 of 6", "+ 3 of 3"]))
    same("two: signs that need no colour, gone", page.texts(".edge.gone text"), ["− gone", "− gone"])
    page.click("#tab-differences")
    same("two: types", page.texts("#panel-differences #types tbody tr"), ["+ newoffers", "− gonewishes"])
    same("two: edges", page.texts("#steps-between tbody tr"), [
        "+ newlogin → offers", "+ newguest → leave", "+ newoffers → cart",
        "− gonelogin → wishes", "− gonewishes → cart"])
    same("two: invariants", page.text("#statements h3"), "Invariants: 14 new, 13 gone")
    rows = page.texts("#statements tbody tr")
    same("two: the first and the last of them", (rows[0], rows[-1]), (
        "+ newlogin AlwaysPrecedes offers", "− gonewishes NeverFollowedBy wishes"))
    check_active(page, "two")
    page.click("#steps-between tbody tr:nth-child(2) button")
    same("two: a click marks the types", (page.names(".node.on"), page.names(".node.second")), (
        ["p5"], ["p7"]))
    check_closed(page, "two")


def check_refusals(room):
    def ends(*words):
        command = [sys.executable, os.path.join(HERE, "model-page"), *words]
        done = subprocess.run(command, stdout=subprocess.PIPE, stderr=subprocess.PIPE)
        return done.returncode, done.stdout, done.stderr.decode().replace(room, "ROOM")

    shop = os.path.join(SHOP, "shop.model")
    same("refused: no model", ends(), (2, b"", "usage: model-page MODEL [--paths FILE] [--against MODEL]\n"))
    same("refused: a log", ends(os.path.join(SHOP, "a.log"))[:2], (1, b""))
    same("refused: no file", ends(os.path.join(room, "none")), (1, b"", "model-page: ROOM/none cannot be read\n"))
    bad = os.path.join(room, "bad.paths")
    for line, why in (('1: INITIAL "cart"@2 TERMINAL', "is of another model: line 1"),
                      ("cart", "is no report of paths: line 1"),
                      ('1: INITIAL "login"@2 "login"@2 TERMINAL', "is of another model: line 1")):
        with open(bad, "w", encoding="utf-8") as report:
            report.write(line + "\n")
        same(f"refused: paths that are none of the model, {line}", ends(shop, "--paths", bad), (
            1, b"", f"model-page: ROOM/bad.paths {why}\n"))
    with open(shop, "rb") as model, open(os.path.join(room, "bytes.model"), "wb") as other:
        other.write(model.read().replace(b"login", b"log\xffn"))
    same("refused: a type that is no UTF-8", ends(os.path.join(room, "bytes.model")), (
        1, b"", "model-page: ROOM/bytes.model is no model: not JSON\n"))
    def refused(name, root):
        return ends(store(room, name, root))

    root = older_model()
    root["version"] = 1
    same("refused: a model of version 1", refused("old.model", root), (
        1, b"", "model-page: ROOM/old.model is of version 1: make the page of what `synoptic migrate -m FILE` writes\n"))
    root["version"] = 3
    same("refused: a model of version 3", refused("later.model", root), (
        1, b"", "model-page: ROOM/later.model is no model: another version\n"))
    for kinds in (["AF"], ["AF", "NF", "AP", "AP"], "AF", None):
        same(f"refused: the kinds {kinds}", refused("kinds.model", {**older_model(), "kinds": kinds}), (
            1, b"", "model-page: ROOM/kinds.model is no model: bad kinds\n"))
    root = older_model()
    root["invariants"].append(["IB", 2, 3, root["invariants"][0][3]])
    same("refused: an invariant of a kind that the model does not name", refused("four.model", root), (
        1, b"", "model-page: ROOM/four.model is no model: bad invariants\n"))
    root = older_model()
    root["types"][0] = "\ud800"
    with open(os.path.join(room, "half.model"), "w", encoding="ascii") as model:
        json.dump(root, model)
    same("refused: a type that is no text", ends(os.path.join(room, "half.model"))[:2], (1, b""))
