"""A made model with a block of each form of invariant, and merges of each sort: what the page says of them."""
from cases.browser import check_closed, make, same, store

# The paths of the blocks: the page keeps only what one differs in from the one before.
PATHS = ([0, 2, 4, 3, 1], [0, 4, 1], [0, 2, 4, 4, 3, 1], [0, 2, 4, 4, 4, 3, 1], [0, 4, 4, 1], [0, 2, 4, 2, 1],
         [0, 2, 4, 4, 2, 1])
STEPS = {0: "INITIAL", 1: "TERMINAL", 2: "a", 3: "b", 4: "c (@4 and @5 as one)"}
ALIKE, FIRST, SECOND = "111111", "111121", "111112"  # labels in which neither, the first or the second c is critical


def sentences_model():
    """The types a, b and c, and two partitions of c with a block for each invariant. It is not the model of a log."""
    path = [0, 2, 4, 3, 1]
    return {
        "types": ["a", "b", "c"], "kinds": ["AF", "NF", "AP", "IB"], "version": 2,
        "partitions": [[0, 0, 3], [1, 1, 3], [2, 2, 1], [3, 3, 1], [4, 4, 1], [5, 4, 2]],
        "edges": [[0, 2, 1], [0, 5, 2], [2, 4, 1], [3, 1, 1], [4, 3, 1], [5, 1, 2]],
        "invariants": [["AF", 2, 3, FIRST], ["AF", 0, 3, SECOND], ["NF", 2, 3, FIRST], ["AP", 2, 3, "222221"],
                       ["NF", 3, 3, ALIKE], ["IB", 2, 3, FIRST], ["IB", 2, 4, ALIKE]],
        "blocks": [[4, 5, at, path] for at, path in enumerate(PATHS)],
        "splits": [[0, 2, path], [0, 2, [0, 2, 4, 1]], [0, 2, [0, 2, 4, 1]], [0, 1, [0, 4, 1]]],
        "merges": [[4, 6], [5, 7], [5, 8]],
    }


BLOCKS = [
    ("each a has a later b (a AlwaysFollowedBy b). Some paths reach c @4 after a with b still to come. "
     "Some paths lead from c @5 to the end with no b. ", "it has a without a later b."),
    ("each trace has b (INITIAL AlwaysFollowedBy b). Some paths reach c @5 with b still to come. "
     "Some paths lead from c @4 to the end with no b. ", "it has no b."),
    ("no a has a later b (a NeverFollowedBy b). Some paths reach c @4 after a. Some paths lead from c @5 to b. ",
     "it has a and later b."),
    ("each b has an earlier a (a AlwaysPrecedes b). Some paths reach c @5 with no a so far. "
     "Some paths lead from c @4 to b with no a between. ", "it has b without an earlier a."),
    ("no b has a later b (b NeverFollowedBy b). ", "it has b and later b."),
    ("between any two a there is a b (a InterruptedBy b). Some paths reach c @4 after a with no b since. "
     "Some paths lead from c @5 to a with no b before it. ", "it has two a without a b between."),
    ("between any two a there is a c (a InterruptedBy c). ", "it has two a without a c between."),
]
IF_ONE = ("If the two were one, the graph would have the path below, which no trace took. "
          "It breaks the invariant: ")
STAYS = "So the path stays impossible, although the two are one."
MERGES = [
    (["INITIAL", "a", "c @4 (@4 and @6 as one)"], "It ends here: no edge leads from c @4 to TERMINAL. " + STAYS,
     ["p1"]),
    (["INITIAL", "a"], "It ends here: no edge leads from a to c @5. " + STAYS, ["p5"]),
    (["INITIAL", "c @5 (@5 and @8 as one)", "TERMINAL"],
     "The graph has this path, so the file is not what an inference leaves: ask synoptic check.", []),
]


def check_sentences(page, room):
    page.open(make(room, "sentences.html", store(room, "sentences.model", sentences_model())))
    for at, (why, breach) in enumerate(BLOCKS):
        page.js("document.querySelector('#p4').dispatchEvent(new MouseEvent('click', {bubbles: true}))")
        page.js("document.querySelectorAll('#panel-partition > ul button')[arguments[0]].click()", at)
        page.after_walk()
        same(f"sentences: block {at + 1}", page.text("#panel-partition .sentence"),
             f"c @4 and c @5 are two, because in the log {why}{IF_ONE}{breach}")
        same(f"sentences: the caption of block {at + 1}, whose path the graph has already or would not have as one",
             page.text("#caption"), "Marked: the path of c @4 and c @5 as one. ")
        same(f"sentences: the path of block {at + 1}", page.texts("#panel-partition .path li"),
             [STEPS[p] for p in PATHS[at]])
    page.click("#tab-steps")
    for at, (steps, said, lacks) in enumerate(MERGES):
        row = f"#panel-steps ol > li:nth-child({at + 5}) "
        page.js("document.querySelector(arguments[0]).click()", row + ".step")
        page.after_walk()
        same(f"sentences: the path of merge {at + 1}", page.texts(row + ".path li"), steps)
        same(f"sentences: where it ends, merge {at + 1}", page.text(row + "div p"), said)
        same(f"sentences: what has no edge, merge {at + 1}", page.names(".node.second"), lacks)
    check_closed(page, "sentences")
    check_around(page, room)


def around_model():
    """Five types lead to one partition of a sixth, and none to the other. It is not the model of a log."""
    before, path = range(2, 7), [0, 2, 7, 1]
    labels = "1" * 9
    return {
        "types": ["v", "w", "x", "y", "z", "c"], "kinds": ["AF", "NF", "AP"], "version": 2,
        "partitions": [[0, 0, 16], [1, 1, 16]] + [[t, t, t] for t in before] + [[7, 7, 20], [8, 7, 1]],
        "edges": [[0, t, t] for t in before] + [[0, 8, 1]] + [[t, 7, t] for t in before] + [[7, 1, 20], [8, 1, 1]],
        "invariants": [["AF", 0, 7, labels]], "blocks": [[7, 8, 0, path]], "splits": [[0, 2, path]], "merges": [],
    }


def check_around(page, room):
    page.open(make(room, "around.html", store(room, "around.model", around_model())))
    page.click("#hint button")
    page.after_walk()
    same("sentences: of many partitions before one of the two, three are named", page.text("#panel-partition .around"),
         "c @7 is reached from z (6 of its 20 events), y (5 of 20), x (4 of 20) and 2 others (5 of 20), "
         "and leads to TERMINAL alone (20 of 20). "
         "c @8 is reached from INITIAL alone (1 of its 1 event), and leads to TERMINAL alone (1 of 1).")
    check_closed(page, "around")
