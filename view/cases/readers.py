"""What a screen reader gets of a page, by the browser's own tree."""
from cases.browser import same

ACTIVE = ("button", "searchbox", "slider", "combobox", "checkbox", "tab", "tabpanel", "group")
CONTROLS = """return [...document.querySelectorAll('button, input, select, [tabindex], [role=button]')]
    .filter(x => x.checkVisibility()).length"""


def value(node, key):
    return node.get(key, {}).get("value", "")


def state(node, name):
    """A state of a node of the tree, or None if it has none of this name."""
    return next((z["value"].get("value") for z in node.get("properties", []) if z["name"] == name), None)


def tree(page):
    """The browser's accessibility tree: the nodes that it hands to a screen reader."""
    page.browser.execute_cdp_cmd("Accessibility.enable", {})
    found = page.browser.execute_cdp_cmd("Accessibility.getFullAXTree", {})["nodes"]
    page.browser.execute_cdp_cmd("Accessibility.disable", {})
    return [node for node in found if not node.get("ignored")]


def check_active(page, name):
    """Each thing that takes clicks or keys is in the tree, with the role of such a thing and a name."""
    nodes = [z for z in tree(page) if state(z, "focusable") and value(z, "role") not in ("RootWebArea", "option")]
    same(f"{name}: each control is in the tree", len(nodes), page.js(CONTROLS))
    found = [(value(z, "role"), value(z, "name")) for z in nodes]
    same(f"{name}: each has a role and a name", [z for z in found if z[0] not in ACTIVE or not z[1]], [])


def said(page):
    """The texts of all parts of the page whose changes a screen reader says."""
    spoken = [z for z in tree(page) if value(z, "role") == "status" and state(z, "live") == "polite"]
    found = [page.browser.execute_cdp_cmd("DOM.resolveNode", {"backendNodeId": z["backendDOMNodeId"]}) for z in spoken]
    texts = []
    for node in found:
        text = "function () { return this.textContent }"
        call = {"objectId": node["object"]["objectId"], "functionDeclaration": text}
        texts.append(page.browser.execute_cdp_cmd("Runtime.callFunctionOn", call)["result"]["value"])
    return texts
