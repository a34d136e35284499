"""The page of the shop without a mouse, without colours, in dark and light, on paper, and as a screen reader has it."""
import base64
import re

from cases.browser import ActionChains, Keys, same
from cases.readers import tree, value

FOCUSED = "const x = document.activeElement; return x.id || x.getAttribute('aria-label') || x.textContent"
MOST_TABS = 60  # presses of the Tab key until a part of the page has to be reached
VIEW = "return document.getElementById('drawing').getAttribute('viewBox')"


def press(page, *keys, shift=False):
    """Presses keys one after another, as a hand does: they go to whatever has the focus."""
    act = ActionChains(page.browser)
    if shift:
        act.key_down(Keys.SHIFT)
    for key in keys:
        act.send_keys(key)
    if shift:
        act.key_up(Keys.SHIFT)
    act.perform()


def go(page, name, shift=False):
    """Presses Tab until the part of this id or name has the focus. Whether it came to that."""
    for _ in range(MOST_TABS):
        press(page, Keys.TAB, shift=shift)
        if page.js(FOCUSED) == name:
            return True
    return False


def check_keys_above(page):
    """From the top of the page: the question, the search, the slider."""
    there = go(page, "Why two partitions of cart?")
    press(page, Keys.ENTER)
    page.after_walk()
    same("keys: the question why there are two carts", (there, page.text("#panel-partition h3")), (
        True, "Why two boxes (partitions) of cart?"))
    there = go(page, "search")
    press(page, "off", Keys.ENTER)
    same("keys: the search", (there, page.text("#found"), page.text("#panel-partition h3")), (
        True, "1 partition", "offers @8"))
    there = go(page, "least")
    press(page, *[Keys.ARROW_RIGHT] * 40)
    same("keys: the slider", (there, page.text("#least-shown"), page.count(".edge.rare")), (True, "40 %", 3))
    press(page, Keys.HOME)


def check_keys_graph(page):
    """In the graph: from partition to partition, zoom and pan, and the dashed line."""
    there = go(page, "frame")
    met = []
    for key in [Keys.ARROW_RIGHT] * 4 + [Keys.ARROW_DOWN]:
        press(page, key)
        met.append(page.js(FOCUSED))
    same("keys: arrows go from partition to partition", (there, met[0], len(set(met)) > 3), (True, "p0", True))
    views = []
    for key, shift in (("+", False), (Keys.ARROW_LEFT, True), ("-", False), ("0", False)):
        press(page, key, shift=shift)
        views.append(page.js(VIEW))
    same("keys: zoom in, pan, zoom out, the whole graph", len(set(views)), 4)
    name = page.js("return document.activeElement.getAttribute('aria-label')").split(",")[0]
    press(page, Keys.ENTER)
    page.after_walk()
    same("keys: Enter shows the partition", page.text("#panel-partition h3").split(" @")[0], name)
    there = go(page, "Why two: cart @6 and cart @10")
    press(page, Keys.ENTER)
    page.after_walk()
    same("keys: the dashed line", (there, page.text("#panel-partition h3")), (
        True, "Why two boxes (partitions) of cart?"))


def check_keys_below(page):
    """In the tabs: each filter, a row of each list, and Escape wherever the focus is."""
    go(page, "tab-partition")
    press(page, Keys.ARROW_RIGHT)
    there = [go(page, "kind")]
    press(page, "AlwaysP")
    there.append(go(page, "type"))
    press(page, "guest")
    there.append(go(page, "hide"))
    press(page, Keys.SPACE, Keys.TAB, Keys.ENTER)
    same("keys: the filters and a row of the invariants", (there, page.text("#counted").split(",")[0],
         page.names(".node.on"), page.names(".node.second")), ([True] * 3, "1 invariant", ["p5"], ["p7"]))
    press(page, Keys.ESCAPE)
    same("keys: Escape in a tab clears the marks too", (page.count(".node.on"), page.text("#told")), (
        0, "The marks are removed"))
    go(page, "tab-invariants", shift=True)
    press(page, Keys.ARROW_RIGHT)
    there = go(page, "see how far its path comes now")
    press(page, Keys.ENTER)
    page.after_walk()
    same("keys: the path of a step", (there, page.text("#caption")), (
        True, "Marked: the path of step 1, as far as the graph has it now."))
    go(page, "tab-steps", shift=True)
    press(page, Keys.ARROW_RIGHT, Keys.TAB, Keys.TAB, Keys.ENTER)
    page.after_walk()
    same("keys: a path of traces", page.text("#caption"), "Marked: a path that 3 traces take.")


# The texts that contrast less than 4.5 to 1 with what is below them, as a standard for pages asks of small ones.
# (WCAG 2, 1.4.3; its formulas of luminance and contrast.)
PALE = r"""const parts = text => text.match(/[\d.]+/g).map(Number);
    const light = ([r, g, b]) => [r, g, b].map(z => z / 255)
        .map(z => z <= 0.03928 ? z / 12.92 : ((z + 0.055) / 1.055) ** 2.4)
        .reduce((sum, z, at) => sum + z * [0.2126, 0.7152, 0.0722][at], 0);
    const ratio = (a, b) => (Math.max(a, b) + 0.05) / (Math.min(a, b) + 0.05);
    const below = x => {
        for (; x; x = x.parentElement) {
            const found = parts(getComputedStyle(x).backgroundColor);
            if (found.length === 3 || found[3] > 0) return found;
        }
        return [255, 255, 255];
    };
    const drawnBelow = x => {
        const box = x.closest("g").querySelector("rect");
        return box ? parts(getComputedStyle(box).fill) : below(document.body);
    };
    const own = x => [...x.childNodes].some(z => z.nodeType === 3 && z.data.trim());
    const rows = [...document.querySelectorAll("body *")].filter(x => own(x) && x.checkVisibility() && !x.closest("script"))
        .map(x => x.closest("svg") ? [parts(getComputedStyle(x).fill), drawnBelow(x), x]
            : [parts(getComputedStyle(x).color), below(x), x]);
    const pale = rows.filter(([ink, paper]) => ratio(light(ink), light(paper)) < 4.5).map(row => row[2].textContent);
    return [rows.length > 40, pale]"""


def check_colours(page):
    """In dark and light: what colours there are, and whether each text stands out from what is below it."""
    paper = "return getComputedStyle(document.body).backgroundColor"
    for scheme, wanted in (("light", "rgb(255, 255, 255)"), ("dark", "rgb(22, 23, 27)")):
        page.browser.execute_cdp_cmd("Emulation.setEmulatedMedia", {
            "features": [{"name": "prefers-color-scheme", "value": scheme}]})
        same(f"shop, {scheme}: the paper", page.js(paper), wanted)
        for tab in ("partition", "invariants", "steps", "paths"):
            page.click("#tab-" + tab)
            same(f"shop, {scheme}, {tab}: no text is pale", page.js(PALE), [True, []])
    page.browser.execute_cdp_cmd("Emulation.setEmulatedMedia", {"features": []})


def check_signs(page):
    """What a mark says without its colour: numbers at the corners, frames, and dimmed boxes and edges."""
    page.click("#hint button")
    page.after_walk()
    signs = ["strokeWidth", "strokeDasharray"]
    style = "return arguments[1].map(x => getComputedStyle(document.querySelector(arguments[0]))[x])"
    same("shop: a marked partition has a thicker frame than another", (
        page.js(style, "#p2 rect", signs), page.js(style, "#p8 rect", signs)), (
        ["3px", "none"], ["1.3px", "none"]))
    same("shop: a marked path has numbers", page.count(".badge"), 7)
    page.click("#tab-invariants")
    page.click("#rows button")
    same("shop: two marked types have different frames, and words at them", (
        page.js(style, "#p2 rect", signs), page.js(style, "#p4 rect", signs), page.texts(".badge text")), (
        ["3px", "none"], ["3px", "8px, 3px"], ["first", "second"]))
    page.click("#clear")


def sheets(page):
    """How many pages of paper a page takes."""
    sheet = page.browser.execute_cdp_cmd("Page.printToPDF", {"paperWidth": 8.27, "paperHeight": 11.69})
    return len(re.findall(rb"/Type\s*/Page\b", base64.b64decode(sheet["data"])))


def check_paper(page):
    """Each tab is printed on one page with the graph: all invariants, and the paths of all steps."""
    page.click("#hint button")
    page.after_walk()
    for tab in ("partition", "invariants", "steps", "paths"):
        page.click("#tab-" + tab)
        for at in range(page.count("#panel-steps:not([hidden]) .step")):
            page.js("document.querySelectorAll('#panel-steps .step')[arguments[0]].click()", at)
            page.after_walk()
        same(f"shop, {tab}: it prints on one page", sheets(page), 1)
    same("shop: its foot says that it is not proved", "which is not proved" in page.text("footer"), True)


def check_names(page):
    same("shop: each part of the drawing has a name", page.count("#drawing [role=button]:not([aria-label])"), 0)
    same("shop: each control has a name", page.js(
        "return [...document.querySelectorAll('input, select')].every(x => x.labels.length)"
        "  && [...document.querySelectorAll('button')].every(x => x.textContent)"), True)
    counts = [value(z, "name") for z in tree(page) if re.fullmatch(r"[0-9]+ of [0-9]+", value(z, "name"))]
    same("shop: no count at an edge is read without its edge", counts, [])


def check_everyone(page):
    page.open(page.js("return location.href"))
    for part in (check_names, check_keys_above, check_keys_graph, check_keys_below):
        part(page)
    page.open(page.js("return location.href"))
    for part in (check_colours, check_signs, check_paper):
        part(page)
