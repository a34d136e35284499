"""The stored page of the shop, clicked through."""
import os
import re
import time

from cases.browser import ActionChains, HERE, Keys, SHOP, check_closed, make, same
from cases.readers import check_active, said, state, tree, value


def check_graph(page):
    same("shop: its boxes", page.texts("#nodes .node > text:first-child, #nodes .node > rect + text"), [
        "INITIAL", "TERMINAL", "login", "search", "checkout", "guest", "cart @6", "leave", "offers", "cart @10"])
    same("shop: its facts", page.text("#facts"),
         "12 traces, 39 events, 7 types, 10 partitions, 14 edges, 41 invariants, 2 splits, 1 merge, 1 block.")
    labels = "6 of 12,6 of 12,3 of 6,3 of 6,3 of 5,2 of 5,8 of 8,2 of 6,2 of 6,2 of 6,5 of 5,4 of 4,3 of 3,2 of 2"
    titles = page.js("return [...document.querySelectorAll('#facts [title]')].map(x => [x.textContent, x.title])")
    same("shop: what splits, merges and blocks are", [[text, title.split(",")[0]] for text, title in titles], [
        ["2 splits", "A split divided a partition in two"],
        ["1 merge", "A merge made two partitions of one type one again"],
        ["1 block", "A block is the reason why two partitions of one type are not one: "
                    "a path that the graph would have if they were"]])
    same("shop: labels of edges", sorted(page.texts(".edge text")), sorted(labels.split(",")))
    wide = page.js("return [...document.querySelectorAll('.edge .line')].map(x => x.getAttribute('stroke-width') * 1)")
    same("shop: an edge is as wide as its share", (wide[6] == max(wide), wide[0] > wide[7]), (True, True))


VIEW = "return document.getElementById('drawing').getAttribute('viewBox')"
WHEEL = """document.getElementById('drawing').dispatchEvent(new WheelEvent('wheel', {
    deltaY: -100, clientX: 300, clientY: 300, bubbles: true, cancelable: true}))"""


def check_view(page):
    size = VIEW + ".split(' ')[2] * 1"
    before = page.js(size)
    page.click("#closer")
    same("shop: plus zooms in", page.js(size) < before, True)
    left = page.js(VIEW)
    edge = page.find("#drawing")
    ActionChains(page.browser).move_to_element(edge).click_and_hold().move_by_offset(80, 20).release().perform()
    same("shop: a drag pans", page.js(VIEW) != left, True)
    page.click("#whole")
    same("shop: the whole graph again", page.js(size), before)
    page.js(WHEEL)
    same("shop: the wheel zooms", page.js(size) < before, True)
    page.click("#whole")


def check_search(page):
    page.find("#search").send_keys("CAR")
    same("shop: the search finds carts", (page.text("#found"), page.names(".node.hit")), (
        "2 partitions", ["p6", "p10"]))
    page.find("#search").send_keys(Keys.ENTER)
    same("shop: Enter shows the first of them", page.text("#panel-partition h3"), "cart @6")
    page.find("#search").send_keys(Keys.ENTER)
    same("shop: Enter shows the next", page.text("#panel-partition h3"), "cart @10")
    for how, act in (("the button", lambda: page.click("#clear")),
                     ("Escape", lambda: page.find("#frame").send_keys(Keys.ESCAPE))):
        page.choose("search", "car")
        found = page.count(".node.hit")
        act()
        same(f"shop: {how} clears the word and the frames of a search too", (
            found, page.find("#search").get_property("value"), page.text("#found"), page.count(".node.hit")), (
            2, "", "", 0))


def check_slider(page):
    page.choose("least", "40")
    same("shop: rare edges are hidden", page.names(".edge.rare"), ["e7", "e8", "e9"])
    same("shop: what the shown edges carry", page.text("#carried"),
         "11 of 14 edges are shown. They carry 45 of 51 steps (88 %), and 6 of 12 traces whole (50 %).")
    page.choose("least", "0")
    same("shop: all edges again", page.count(".edge.rare"), 0)


def check_partition(page):
    page.click_drawn("#p3 rect")
    same("shop: a click shows a partition", page.text("#panel-partition h3"), "search @3")
    same("shop: its events", page.text("#panel-partition h3 + p"), "All 5 events of its type.")
    same("shop: its edges", page.texts("#panel-partition tbody tr"), [
        "login3 of 660 %", "guest2 of 640 %", "checkout3 of 560 %", "cart @62 of 540 %"])
    same("shop: the three lists of its type", page.texts("#lists > div"), [
        "Always before itnone", "Always after itcheckout", "Never after itsearchleaveoffersloginguest"])
    same("shop: its edges are marked", page.names(".edge.near"), ["e2", "e4", "e5", "e7"])


SENTENCE = (
    "cart @6 and cart @10 are two, because in the log each login has a later checkout "
    "(login AlwaysFollowedBy checkout). Some paths reach cart @6 after login with checkout still to come. "
    "Some paths lead from cart @10 to the end with no checkout. If the two were one, the graph would have the path "
    "below, which no trace took. It breaks the invariant: it has login without a later checkout."
)
AROUND = (
    "cart @6 is reached from offers (3 of its 5 events) and search (2 of 5), and leads to checkout alone (5 of 5). "
    "cart @10 is reached from guest alone (2 of its 2 events), and leads to leave alone (2 of 2)."
)
CAPTION = (
    "Marked: the path of cart @6 and cart @10 as one. No trace took this path: it would be possible if the two were "
    "one. Its counts are of traces that take parts of it."
)
IN_SIGHT = """return [...document.querySelectorAll(arguments[0])].map(x => x.getBoundingClientRect())
    .every(box => box.top >= 0 && box.bottom <= innerHeight && box.left >= 0 && box.right <= innerWidth)"""


def resize(page, width, height):
    """Gives the page a window of this size."""
    size = {"width": width, "height": height, "deviceScaleFactor": 1, "mobile": False}
    page.browser.execute_cdp_cmd("Emulation.setDeviceMetricsOverride", size)
    page.open(page.js("return location.href"))


def check_first(page):
    """What a newcomer sees: the question why there are two carts, and after one click the answer beside the graph."""
    resize(page, 1280, 720)
    same("shop: the question above the graph", page.text("#hint"),
         "cart is two boxes in the graph, @6 and @10. Why two?")
    same("shop: it is in sight, with both carts and the sign between them", page.js(
        IN_SIGHT, "#hint button, #p6, #p10, .dash rect"), True)
    top = page.js(TOPS, "#tabs")
    page.click("#hint button")
    page.after_walk()
    same("shop: the answer to it", (page.text("#panel-partition h3"), page.text("#panel-partition .sentence")), (
        "Why two boxes (partitions) of cart?", SENTENCE))
    same("shop: the answer is in sight, with both carts", page.js(
        IN_SIGHT, ".sentence, #panel-partition .path, #p6, #p10"), True)
    same("shop: so is the caption of its path, which moves nothing", (
        page.js(IN_SIGHT, "#caption"), page.js(TOPS, "#tabs")), (True, top))
    resize(page, 1000, 480)
    page.click("#hint button")
    page.after_walk()
    same("shop: the answer is in sight in a low window too", page.js(IN_SIGHT, "#panel-partition h3, .sentence"), True)
    page.browser.execute_cdp_cmd("Emulation.clearDeviceMetricsOverride", {})
    page.click("#clear")
    same("shop: at first it says what a count means",
         "3 of 6 at an arrow means 3 of the 6 events of the box it leaves" in page.text("#panel-partition p"), True)
    same("shop: at first it says what is to click", page.texts("#panel-partition p")[1],
         "Click a box for its events, its edges and its invariants, "
         "or a dashed line for why the two partitions that it joins must stay two.")


def check_titles(page):
    ActionChains(page.browser).move_to_element(page.find("h1")).perform()
    page.open(page.js("return location.href"))
    before = page.count("#drawing .edge title, #drawing .node title")
    for part in ("#p3 rect", "#e9 .line", "#e0 .line"):
        page.js("document.querySelector(arguments[0])"
                "  .dispatchEvent(new PointerEvent('pointerover', {bubbles: true}))", part)
    same("shop: titles come with the pointer", (before, page.texts("#p3 title, #e0 title, #e9 title")), (
        0, ["INITIAL → login: 6 of the 12 traces", "guest → cart @10: 2 of the 6 events of the box it leaves",
            "search, partition 3, 5 events"]))


def check_why(page):
    page.click("#clear")
    page.click_drawn(".dash rect")
    page.after_walk()
    same("shop: why two carts, by the dashed line", page.text("#panel-partition .sentence"), SENTENCE)
    same("shop: from where and to where each of them goes", page.text("#panel-partition .around"), AROUND)
    same("shop: the path of the block", page.texts("#panel-partition .path li"), [
        "INITIAL", "login", "search", "cart (@6 and @10 as one)", "leave", "TERMINAL"])
    same("shop: the path in the graph", page.names("#nodes .on"), ["p0", "p1", "p2", "p3", "p6", "p7", "p10"])
    same("shop: its edges", page.names("#edges .on"), ["e0", "e2", "e5", "e11", "e13"])
    same("shop: its steps are numbered", sorted(page.texts(".badge text")), ["1", "2", "3", "4", "4", "5", "6"])
    same("shop: two partitions are framed as one", (page.count(".as-one"), page.count(".dash.on")), (2, 1))
    same("shop: the caption of the path", page.text("#caption"), CAPTION)
    page.click("#tab-invariants")
    same("shop: in another tab, the path keeps its marks and its caption", (
        page.count("#edges .on"), page.text("#caption")), (5, CAPTION))
    page.choose("least", "40")
    same("shop: with hidden edges, the line of what the others carry is below the caption", page.js(TALL), True)
    page.choose("least", "0")
    same("shop: with all edges, it makes room for the caption", page.js(TALL), False)
    page.click("#clear")
    same("shop: without marks there is no caption", (page.text("#caption"), page.js(TALL)), ("", True))
    check_running(page)
    page.click_drawn("#p10 rect")
    page.after_walk()
    same("shop: why two carts, by a cart", page.text("#panel-partition .sentence"), SENTENCE)
    same("shop: its path runs", page.count("#edges .on"), 5)
    page.click("#panel-partition .again")
    page.after_walk()
    same("shop: its path runs again", page.count("#edges .on"), 5)


SCROLL = "document.querySelector(arguments[0]).scrollIntoView({block: 'nearest'})"
TOPS = "return [...document.querySelectorAll(arguments[0])].map(x => x.getBoundingClientRect().top)"
TALL = "return document.getElementById('carried').clientHeight > 9"
# A click, and at once what is there: the button and whether it takes clicks, what is told after a click at it, and how
# much the texts of three boxes are dimmed, of which the last one is on no path yet.
AT_ONCE = """document.querySelector(arguments[0]).dispatchEvent(new MouseEvent('click', {bubbles: true}));
    const again = document.querySelector('.again'), told = document.getElementById('told');
    const found = [again.textContent, again.getAttribute('aria-disabled')], before = told.textContent;
    again.click();
    return [...found, told.textContent === before, ...['p6', 'p10', 'p7'].map(
        x => getComputedStyle(document.querySelector('#' + x + ' text')).fillOpacity)]"""


def check_running(page):
    """While a path runs, its button says so, and the two partitions of the question are not dimmed."""
    for name, wanted in (("a cart", "#p10"), ("the dashed line", ".dash"), ("the question", "#hint button")):
        same(f"shop: while the path runs, after a click at {name}", page.js(AT_ONCE, wanted), [
            "running", "true", True, "1", "1", "0.5"])
    page.after_walk()
    same("shop: when the path has ended, it can be run again", page.js(
        "const again = document.querySelector('.again');"
        "return [again.textContent, again.getAttribute('aria-disabled')]"), ["run the path again", None])
    page.click("#panel-partition .again")
    page.click("#clear")
    same("shop: nor does it run when the marks are cleared", page.count(".walking, [aria-disabled]"), 0)


def check_invariants(page):
    page.click("#tab-invariants")
    first = page.texts("#rows tr td:first-child")
    same("shop: all invariants", (len(first), first[0]), (41, "login AlwaysFollowedBy checkout"))
    kinds = page.js("return [...document.querySelectorAll('#rows tbody tr')].map(row => row.className)")
    same("shop: the telling ones come first", kinds, ["telling"] * 15 + ["implied"] * 26)
    why = [row for row in page.texts("#rows tr") if row.startswith("checkout NeverFollowedBy login")]
    same("shop: what says only that checkout is last", why, [
        "checkout NeverFollowedBy logincheckout is always the last"])
    why = [row for row in page.texts("#rows tr") if row.startswith("cart NeverFollowedBy offers")]
    same("shop: what follows from two others", why, [
        "cart NeverFollowedBy offersfollows: cart NeverFollowedBy cart, offers AlwaysFollowedBy cart"])
    page.choose("hide", True)
    same("shop: grey ones are hidden", (page.count("#rows tbody tr"), page.count("#rows .implied")), (15, 0))
    page.choose("kind", "AP")
    same("shop: one kind", page.texts("#rows tbody tr"), ["login AlwaysPrecedes offers", "guest AlwaysPrecedes leave"])
    page.choose("type", "7")
    same("shop: one kind and type", page.texts("#rows tbody tr"), ["guest AlwaysPrecedes leave"])
    page.click("#rows button")
    same("shop: a click marks both types", (page.names(".node.on"), page.names(".node.second")), (["p5"], ["p7"]))


def check_steps(page):
    page.click("#tab-steps")
    rows = page.texts("#panel-steps ol > li")
    same("shop: three steps", len(rows), 3)
    same("shop: the first split", rows[0],
         "The graph had a path that breaks each login has a later checkout (login AlwaysFollowedBy checkout): "
         "it has login without a later checkout. Traces followed it as far as search @3, and none went on along it. "
         "So the search events there that are followed at once by cart got a partition of their own, @9 "
         "(merged into @3 later). run its path")
    same("shop: the merge", rows[2],
         "search @9 was merged into @3, because no invariant is lost if the two are one. "
         "A path could only show a loss, so the file has none for a merge. "
         "Step 1 had made @9: see how far its path comes now")
    for at in range(3):
        page.js(SCROLL, f"#panel-steps > ol > li:nth-child({at + 1})")
        tops = page.js(TOPS, "#panel-steps .step")
        page.js("document.querySelectorAll('#panel-steps .step')[arguments[0]].click()", at)
        page.after_walk()
        path = f"#panel-steps > ol > li:nth-child({at + 1}) .path"
        same(f"shop: the path of step {at + 1} moves no button, and is in sight", (
            page.js(TOPS, "#panel-steps .step"), page.js(IN_SIGHT, path)), (tops, True))
    same("shop: the caption of a merge", page.text("#caption"),
         "Marked: the path of step 1, as far as the graph has it now.")
    page.click("#panel-steps .step")
    page.after_walk()
    same("shop: the caption of a split", page.text("#caption"), "Marked: the path of step 1. "
         "No trace took this path: the graph had it before that step.")
    same("shop: the path of the first split, with what was one then", page.texts("#panel-steps .path")[:1], [
        "INITIALloginsearchcart (now @6 and @10)leaveTERMINAL"])
    same("shop: this path in the graph", page.names("#nodes .on"), ["p0", "p1", "p2", "p3", "p6", "p7", "p10"])
    page.js("document.querySelectorAll('#panel-steps .step')[2].click()")
    page.after_walk()
    merge = "#panel-steps ol > li:nth-child(3) "
    same("shop: how far the path of the first split comes now", page.texts(merge + ".path li"), [
        "INITIAL", "login", "search (@3 and @9 as one)", "cart @6"])
    same("shop: why it comes no further", page.text(merge + "div p"),
         "It ends here: no edge leads from cart @6 to leave. So the path stays impossible, although the two are one.")
    same("shop: in the graph", (page.names("#nodes .on"), page.names("#edges .on")), (
        ["p0", "p2", "p3", "p6"], ["e0", "e2", "e5"]))
    same("shop: the two are framed as one, and where the edge lacks is marked", (
        page.count(".as-one"), page.names(".node.second"), page.texts(".badge text")[-1]), (1, ["p7"], "no edge"))


def check_paths(page):
    page.click("#tab-paths")
    rows = page.texts("#panel-paths li")
    same("shop: five paths", (len(rows), rows[0]), (
        5, "3 traces (25 %) INITIAL → login → search → checkout → TERMINAL"))
    bars = page.js("return [...document.querySelectorAll('.bar')].map(x => x.clientWidth / x.parentNode.clientWidth)")
    same("shop: bars as long as their share", bars[0] == 1 and all(0.6 < bar < 0.72 for bar in bars[2:]), True)
    page.js("document.querySelectorAll('#panel-paths button.taken')[4].click()")
    page.after_walk()
    same("shop: a path in the graph", page.names("#edges .on"), ["e1", "e8", "e11"])
    same("shop: the caption of a path of traces", page.text("#caption"), "Marked: a path that 2 traces take.")


def check_said(page):
    """Each change of the page is said."""
    def tells(what, text):
        page.after_walk()
        found = said(page)
        same(f"shop, said: {what}", text if text in found else found, text)

    page.click_drawn("#p3 rect")
    tells("a partition", "search: All 5 events of its type.")
    page.click_drawn("#p10 rect")
    tells("one of two partitions", "cart @10: 2 of the 7 events of its type (29 %). " + SENTENCE)
    page.click_drawn(".dash rect")
    tells("why two", SENTENCE + " " + AROUND)
    tells("whose path is marked", CAPTION)
    page.click("#panel-partition .again")
    tells("the path again", "The path runs again")
    page.choose("search", "car")
    tells("what a search found", "2 partitions")
    page.choose("search", "")
    page.choose("least", "40")
    tells("what the shown edges carry",
          "11 of 14 edges are shown. They carry 45 of 51 steps (88 %), and 6 of 12 traces whole (50 %).")
    page.choose("least", "0")
    page.click("#whole")
    tells("the whole graph", "The whole graph is shown")
    page.click("#clear")
    tells("no marks", "The marks are removed")
    page.click("#tab-invariants")
    page.choose("type", "")
    page.choose("kind", "AF")
    tells("how many invariants", "4 invariants, 0 of them grey: these follow from others, "
          "or from what always comes first or last.")
    page.click("#rows button")
    tells("an invariant", "Marked: login and checkout")
    page.click("#tab-steps")
    page.click("#panel-steps .step")
    tells("the path of a split", "Its path: INITIAL, login, search, cart, leave, TERMINAL")
    page.js("document.querySelectorAll('#panel-steps .step')[2].click()")
    tells("the path of a merge", "The path now: INITIAL, login, search, cart @6. It ends here: no edge leads from "
          "cart @6 to leave. So the path stays impossible, although the two are one.")
    page.click("#tab-paths")
    page.click("#panel-paths button.taken")
    tells("a path", "3 traces: INITIAL, login, search, checkout, TERMINAL")


def check_readers(page):
    page.open(page.js("return location.href"))
    nodes = tree(page)
    graph = [(value(z, "role"), value(z, "description")) for z in nodes
             if value(z, "name") == "Graph of the model shop.model" and value(z, "description")]
    same("shop: the graph has a title and a description", graph, [(
        "group", "10 partitions and 14 edges. Each trace of the log is a path from INITIAL to TERMINAL. "
        "cart has 2 partitions.")])
    names = [value(z, "name") for z in nodes if value(z, "role") == "button"]
    same("shop: the boxes and the dashed line are buttons", [z for z in names if "cart" in z], [
        "Why two partitions of cart?", "Why two: cart @6 and cart @10", "cart, partition 6, 5 of 7 events",
        "cart, partition 10, 2 of 7 events"])
    page.click("#hint button")
    page.after_walk()
    check_active(page, "shop, partition")
    page.click_drawn("#p3 rect")
    same("shop: the partition that is shown is the current one", page.js(
        "return [...document.querySelectorAll('[aria-current]')].map(x => x.id)"), ["p3"])
    heads = [value(z, "name") for z in tree(page) if value(z, "role") == "columnheader"]
    same("shop: columns have titles", heads, ["from", "count there", "share here", "to", "count", "share"])
    for tab in ("invariants", "steps", "paths"):
        page.click("#tab-" + tab)
        check_active(page, "shop, " + tab)
        chosen = [value(z, "name") for z in tree(page) if value(z, "role") == "tab" and state(z, "selected")]
        same(f"shop, {tab}: the open tab is selected", chosen, [page.text("#tab-" + tab)])
    page.click("#tab-partition")
    check_said(page)


def check_policy(page):
    page.js("window.refused = []; document.addEventListener('securitypolicyviolation', event => {"
            "  window.refused.push(event.effectiveDirective) })")
    page.js("const x = document.createElement('script'); x.textContent = 'window.ran = 1'; document.body.append(x)")
    page.js("new Image().src = 'http://127.0.0.1:9/x.png'")
    end = time.time() + 30
    while len(page.js("return window.refused")) < 2 and time.time() < end:
        time.sleep(0.05)
    same("shop: the policy refuses a script and a picture",
         (page.js("return window.ran === undefined"), sorted(page.js("return window.refused"))),
         (True, ["img-src", "script-src-elem"]))
    page.browser.get_log("browser")


def check_shop(page, room):
    page.open(os.path.abspath(os.path.join(SHOP, "shop.html")))
    for part in (check_first, check_titles, check_graph, check_view, check_search, check_slider, check_partition,
                 check_why, check_invariants, check_steps, check_paths, check_readers):
        part(page)
    check_closed(page, "shop")
    check_policy(page)
    check_stored(room)


def check_stored(room):
    """The stored page is what is made of the stored model and of the paths in the guide, but for the drawing."""
    with open(os.path.join(HERE, "..", "docs", "GUIDE.md"), encoding="utf-8") as guide:
        paths = re.findall(r"^    ([0-9]+: INITIAL .* TERMINAL)$", guide.read(), flags=re.M)
    file = os.path.join(room, "shop.paths")
    with open(file, "w", encoding="utf-8") as report:
        report.write("\n".join(paths) + "\n")
    made = make(room, "shop.html", os.path.join(SHOP, "shop.model"), "--paths", file)
    with open(made, encoding="utf-8") as new, open(os.path.join(SHOP, "shop.html"), encoding="utf-8") as stored:
        same("shop: the stored page is up to date", undrawn(new.read()) == undrawn(stored.read()), True)


def undrawn(text):
    """A page without what depends on the version of dot."""
    return re.sub(r'"places":\{.*?\}', "", re.sub(r"<svg.*?</svg>", "", text, flags=re.S))
