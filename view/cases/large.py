"""Pages of large models: how fast one opens, what is drawn on demand, and a graph that is too large for dot."""
import os
import subprocess
import sys
import time

from cases.browser import HERE, Keys, check_closed, make, same, store

OPENS_WITHIN = 3000  # milliseconds by the clock, for the page of the large model
OWN_WORK = 1000  # milliseconds of the processor that it may take, however busy the machine is
BUSY = 2  # times longer by the clock than by the processor: beyond this the clock says nothing of the page
CLICK_WORK = 500  # milliseconds of the processor for a click
KINDS, LANES = 24, (38, 37)


def large_model():
    """900 partitions: lanes from INITIAL to TERMINAL, each with a partition of each type, and a block for each two
    partitions of a type. The model is well shaped, but it is not the model of a log."""
    lanes = [LANES[0] if t < 10 else LANES[1] for t in range(KINDS)]
    ids, splits, fresh = [[2 + t] for t in range(KINDS)], [], 2 + KINDS
    for t in range(KINDS):
        for _ in range(lanes[t] - 1):
            splits.append([t, t + 1, [0] + list(range(2, 2 + KINDS)) + [1]])
            ids[t].append(fresh)
            fresh += 1
    edges = {(0, p) for p in ids[0]} | {(p, 1) for p in ids[-1]}
    for t in range(KINDS - 1):
        for lane, p in enumerate(ids[t]):
            edges |= {(p, ids[t + 1][lane % lanes[t + 1]]), (p, ids[t + 1][(lane * 7 + t) % lanes[t + 1]])}
    partitions = sorted([p, t + 2, 10] for t in range(KINDS) for p in ids[t])
    labels = "1" * (len(partitions) + 2)
    invariants = [["AF", 0, 2 + t, labels] for t in range(KINDS)]
    for a in range(2, 2 + KINDS):
        for b in range(2, 2 + KINDS):
            kinds = ("AF", "AP") if a < b else ("NF",)
            invariants += [[kind, a, b, labels] for kind in kinds]
    path = lambda t, p: [0] + [p if u == t else ids[u][3] for u in range(KINDS)] + [1]
    pairs = [(t, p, q) for t in range(KINDS) for at, p in enumerate(ids[t]) for q in ids[t][at + 1 :]]
    return {"blocks": sorted([p, q, t, path(t, p)] for t, p, q in pairs),
            "edges": sorted([p, q, 1 + (p + q) % 10] for p, q in edges), "invariants": invariants, "merges": [],
            "partitions": [[0, 0, 380], [1, 1, 380]] + partitions, "splits": splits,
            "types": [f"call{t}" for t in range(KINDS)], "kinds": ["AF", "NF", "AP"], "version": 2}


DRAWN = "const done = arguments[0]; requestAnimationFrame(() => setTimeout(() => done(performance.now())))"
CLICK = "document.getElementById('p30').dispatchEvent(new MouseEvent('click', {bubbles: true}))"


def worked(page):
    """The milliseconds of the processor that the main thread of the page has taken since this began to be counted."""
    found = page.browser.execute_cdp_cmd("Performance.getMetrics", {})["metrics"]
    return 1000 * next(entry["value"] for entry in found if entry["name"] == "TaskDuration")


def measured(page, act):
    """How many milliseconds of the clock pass from an act until its picture is drawn, by the clock of the page that is
    there at the end, and how many of the processor's the page's main thread takes for it."""
    page.browser.execute_cdp_cmd("Performance.enable", {"timeDomain": "threadTicks"})
    before, began = worked(page), act()
    passed, after = page.browser.execute_async_script(DRAWN), worked(page)
    page.browser.execute_cdp_cmd("Performance.disable", {})
    return passed - (began or 0), after - before


def opening(page, file):
    """What it takes to open a page, from the call of the page on."""
    page.open("about:blank")
    return measured(page, lambda: page.open(file))


# Whether the first script hides the graph before it is read, and what then shows it again.
WAITS = """const root = document.documentElement, first = document.scripts[0], graph = document.getElementById('drawing');
    const before = (first.compareDocumentPosition(graph) & Node.DOCUMENT_POSITION_FOLLOWING) > 0;
    const shown = getComputedStyle(graph).display;
    root.className = (/"(.*)"/.exec(first.textContent) || ["", ""])[1];
    const hidden = getComputedStyle(graph).display;
    root.className = "";
    return [before, shown, hidden]"""


def slowness():
    """How many times longer by the clock than by the processor this script works now: 1 on an idle machine."""
    passed, own = time.monotonic(), time.process_time()
    while time.process_time() < own + 0.2:
        pass
    return (time.monotonic() - passed) / 0.2


def check_opening(page, made):
    """Opens a page five times. The middle one counts: neither the luckiest nor the one that met a busy machine."""
    times = [(*opening(page, made), slowness()) for _ in range(5)]
    passed, own, slow = (sorted(column)[2] for column in zip(*times))
    print("        opened in " + ", ".join(f"{z:.0f} ms ({o:.0f} of the processor)" for z, o, _ in times)
          + f"; work of this script takes {slow:.1f} times longer than on an idle machine")
    if slow <= BUSY:
        same("large: it opens within 3 s by the clock, the middle one of five", passed <= OPENS_WITHIN, True)
    else:
        print("        the machine is so busy that the clock says nothing of the page: that case is left out")
    same("large: the graph is hidden while the page is read", page.js(WAITS), [True, "block", "none"])
    same("large: the page's own work takes at most 1 s, the middle one of five", own <= OWN_WORK, True)


def check_large(page, room):
    root = large_model()
    same("large: 900 partitions, and more than 16,000 blocks", (len(root["partitions"]), len(root["blocks"])), (
        900, 16354))
    began = time.time()
    made = make(room, "large.html", store(room, "large.model", root))
    print(f"        made in {time.time() - began:.1f} s, {os.path.getsize(made)} bytes, {len(root['edges'])} edges")
    check_opening(page, made)
    same("large: the line above the graph", page.text("#hint"),
         "".join(f"call{t} is 38 boxes in the graph. Why 38?" for t in range(3)) + "21 more types")
    ready = page.js("return document.documentElement.dataset.ready")
    same("large: it is ready, without dashed lines", (ready, page.count(".dash")), ("yes", 0))
    passed, own = measured(page, lambda: page.js("const began = performance.now();" + CLICK + "; return began"))
    print(f"        a click is answered in {passed:.0f} ms ({own:.0f} of the processor)")
    same("large: a click takes at most half a second of the processor", own <= CLICK_WORK, True)
    same("large: its blocks are drawn on demand", (
        page.count(".dash"), page.count("#panel-partition > ul > li")), (37, 37))
    page.js("document.querySelector('#panel-partition ul button').click()")
    page.after_walk()
    same("large: a block's path", page.count("#nodes .on"), KINDS + 3)
    page.find("#search").send_keys("call23")
    page.find("#search").send_keys(Keys.ENTER)
    same("large: the search", (page.text("#found"), page.text("#panel-partition h3")), (
        "37 partitions", "call23 @25"))
    page.click("#tab-steps")
    same("large: steps come by the hundred", page.count("#panel-steps ol > li"), 100)
    page.click("#panel-steps .more")
    same("large: a hundred more, said and with the keyboard at the first of them", (
        page.count("#panel-steps ol > li"), page.text("#told"),
        page.js("return [...document.querySelectorAll('#panel-steps .step')].indexOf(document.activeElement)")), (
        200, f"200 of {len(root['splits'])} are shown", 100))
    page.js("document.querySelector('#panel-steps .step').click()")
    page.after_walk()
    same("large: what was one at the first split", page.count("#nodes .on"), 900)
    check_closed(page, "large")


def dense_model():
    """70 types, each followed by each: more edges than dot lays out in a few seconds."""
    types = range(2, 72)
    edges = [[0, t, 1] for t in types] + [[t, 1, 1] for t in types] + [[t, u, 1] for t in types for u in types]
    return {"blocks": [], "edges": sorted(edges), "invariants": [], "merges": [],
            "partitions": [[0, 0, 70], [1, 1, 70]] + [[t, t, 71] for t in types], "splits": [],
            "types": [f"call{t}" for t in types], "kinds": ["AF", "NF", "AP"], "version": 2}


def check_dense(page, room):
    file = store(room, "dense.model", dense_model())
    command = [sys.executable, os.path.join(HERE, "model-page"), file]
    done = subprocess.run(command, stdout=subprocess.PIPE, stderr=subprocess.PIPE)
    same("dense: what is said of the layout", done.stderr.decode(),
         "model-page: the graph is too large for dot, and is laid out in columns\n")
    with open(os.path.join(room, "dense.html"), "wb") as opened:
        opened.write(done.stdout)
    page.open(os.path.join(room, "dense.html"))
    boxes = page.js("return [...document.querySelectorAll('.node rect')]"
                    "  .map(box => box.getAttribute('x') + ' ' + box.getAttribute('y'))")
    same("dense: no box is on another", (len(boxes), len(set(boxes))), (72, 72))
    same("dense: its edges", page.text("#carried"),
         "5040 of 5040 edges are shown. They carry 5040 of 5040 steps (100 %).")
    page.choose("least", "2")
    same("dense: the slider hides its rare edges", page.count(".edge:not(.rare)"), 0)
