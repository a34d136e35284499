"""A model whose types are texts that try to run, to hide or to mislead."""
from cases.browser import check_closed, make, same, store
from cases.readers import check_active

HOSTILE = [
    '"quoted" \'twice\'', "<b>bold</b>", "</script><script>window.ran=1</script>", "<img src=x onerror=ran=1>",
    "a&amp;b &lt; c", "\x00\x01\n\x1b[m", "\u202eright to left\u202c", "\u200f\u200b\ufeff", "\u0646\u0635 \u0639",
    "x" * 256, "\ufffd\ufffd", " ends\t", "\u2028\u2029", "\u0301accent", "@7", "INITIAL", "@@DATA@@", "--><!--", "]]>",
    "\\u003cb>",
    "javascript:window.ran=1", "${window.ran=1}", "\U0001f6d2 cart", "\u2066\u2069", "constructor", "__proto__",
]


def hostile_model():
    """One trace with an event of each type, and a second partition of the third type, which a block keeps apart."""
    first, second = 2, len(HOSTILE) + 1
    partitions = [[0, 0, 2], [1, 1, 2]] + [[t, t, 1] for t in range(first, second + 1)] + [[second + 1, 4, 1]]
    edges = [[0, first, 1], [0, second + 1, 1], [second, 1, 1], [second + 1, 1, 1]]
    edges += [[t, t + 1, 1] for t in range(first, second)]
    labels = "1" * len(partitions)
    invariants = [["AF", t, t + 1, labels] for t in range(first, second)]
    invariants[2][3] = "1" * 4 + "2" + "1" * (len(partitions) - 5)
    path = [0, 2, 3, 4, 1]
    return {"blocks": [[4, second + 1, 2, path]], "edges": sorted(edges), "invariants": invariants, "merges": [],
            "partitions": partitions, "splits": [[2, 3, path]], "types": HOSTILE, "kinds": ["AF", "NF", "AP"], "version": 2}


def check_hostile(page, room):
    name = '<i>&"hostile.model'
    made = make(room, "hostile.html", store(room, name, hostile_model()))
    page.open(made)
    same("hostile: nothing ran", page.js("return window.ran === undefined"), True)
    same("hostile: no element came of a text", page.js(
        "return ['b', 'i', 'img', 'script'].map(x => document.getElementsByTagName(x).length)"), [0, 0, 0, 4])
    same("hostile: the name of the file", (page.text("h1"), page.browser.title), ("Model " + name, "Model " + name))
    drawn = page.texts("#nodes .node > rect + text")
    same("hostile: tags as text", (drawn[3], drawn[5]), ("<b>bold</b>", "<img src=x onerror=ran=1>"))
    same("hostile: quotes as text", drawn[2], HOSTILE[0])
    same("hostile: controls as marks", drawn[7], "U+0000U+0001U+000AU+001B[m")
    same("hostile: turns of direction as marks", (drawn[8], drawn[9]), (
        "U+202Eright to leftU+202C", "U+200FU+200BU+FEFF"))
    same("hostile: a text that was no UTF-8", drawn[12], "U+FFFDU+FFFD")
    same("hostile: blanks at the ends as marks", drawn[13], "spaceendsU+0009")
    same("hostile: a long text is cut in its box", len(drawn[11]), 30)
    page.js("document.getElementById('p11').dispatchEvent(new MouseEvent('click', {bubbles: true}))")
    same("hostile: and whole in its panel", page.text("#panel-partition h3"), "x" * 256 + " @11")
    page.js("document.querySelector('.dash').dispatchEvent(new MouseEvent('click', {bubbles: true}))")
    page.after_walk()
    same("hostile: a sentence with a tag", page.text("#panel-partition .sentence strong"),
         f"{HOSTILE[2]} @4 and {HOSTILE[2]} @{len(HOSTILE) + 2} are two, "
         f"because in the log each {HOSTILE[2]} has a later {HOSTILE[3]}")
    for tab in ("invariants", "steps"):
        page.click("#tab-" + tab)
    check_active(page, "hostile")
    page.choose("search", "</script>")
    same("hostile: the search takes any text", page.names(".node.hit"), ["p4", f"p{len(HOSTILE) + 2}"])
    same("hostile: still nothing ran", page.js(
        "return [window.ran === undefined, document.images.length, document.scripts.length]"), [True, 0, 4])
    check_closed(page, "hostile")
