"""A model of four kinds of invariants: its sentences, its lists, and a comparison with a model of three kinds."""
from cases.browser import check_closed, make, same, store


def visits_model():
    """The model of four kinds of three visits: login browse logout login, browse login, and browse logout."""
    return {
        "blocks": [[2, 5, 0, [0, 2, 1]], [3, 6, 2, [0, 2, 3, 5, 1]]],
        "edges": [[0, 2, 1], [0, 3, 1], [0, 6, 1], [2, 3, 1], [3, 4, 2], [4, 1, 1], [4, 5, 1], [5, 1, 2], [6, 5, 1]],
        "invariants": [["AF", 0, 3, "2121111"], ["IB", 2, 3, "1321121"], ["IB", 2, 4, "1323121"],
                       ["IB", 3, 2, "1312212"], ["NF", 3, 3, "1212222"], ["AP", 3, 4, "1212222"],
                       ["IB", 3, 4, "1312132"], ["IB", 4, 2, "1311211"], ["NF", 4, 3, "1311231"],
                       ["IB", 4, 3, "1311231"], ["NF", 4, 4, "1311231"]],
        "kinds": ["AF", "NF", "AP", "IB"], "merges": [],
        "partitions": [[0, 0, 3], [1, 1, 3], [2, 2, 1], [3, 3, 2], [4, 4, 2], [5, 2, 2], [6, 3, 1]],
        "splits": [[0, 1, [0, 2, 1]], [2, 2, [0, 2, 3, 5, 1]]], "types": ["login", "browse", "logout"], "version": 2,
    }


def of_three():
    """The model of three kinds of the same visits."""
    return {
        "blocks": [[2, 5, 0, [0, 2, 1]]],
        "edges": [[0, 2, 1], [0, 3, 2], [2, 3, 1], [3, 4, 2], [3, 5, 1], [4, 1, 1], [4, 5, 1], [5, 1, 2]],
        "invariants": [["AF", 0, 3, "212111"], ["NF", 3, 3, "121222"], ["AP", 3, 4, "121222"],
                       ["NF", 4, 3, "131123"], ["NF", 4, 4, "131123"]],
        "kinds": ["AF", "NF", "AP"], "merges": [],
        "partitions": [[0, 0, 3], [1, 1, 3], [2, 2, 1], [3, 3, 3], [4, 4, 2], [5, 2, 2]],
        "splits": [[0, 1, [0, 2, 1]]], "types": ["login", "browse", "logout"], "version": 2,
    }


def check_kinds(page, room):
    four, three = store(room, "four.model", visits_model()), store(room, "three.model", of_three())
    page.open(make(room, "four.html", four))
    page.js("document.querySelector('#p3').dispatchEvent(new MouseEvent('click', {bubbles: true}))")
    page.after_walk()
    same("kinds: why two", page.text("#panel-partition .sentence"),
         "browse @3 and browse @6 are two, because in the log between any two login there is a logout "
         "(login InterruptedBy logout). Some paths reach browse @3 after login with no logout since. "
         "Some paths lead from browse @6 to login with no logout before it. "
         "If the two were one, the graph would have the path below, which no trace took. "
         "It breaks the invariant: it has two login without a logout between.")
    same("kinds: the path", page.texts("#panel-partition .path li"),
         ["INITIAL", "login @2", "browse (@3 and @6 as one)", "login @5", "TERMINAL"])
    same("kinds: the caption of a path that no trace took", page.text("#caption"),
         "Marked: the path of browse @3 and browse @6 as one. "
         "No trace took this path: it would be possible if the two were one. "
         "Its counts are of traces that take parts of it.")
    page.js("document.querySelector('#p2').dispatchEvent(new MouseEvent('click', {bubbles: true}))")
    page.after_walk()
    same("kinds: the lists of a type", page.texts("#lists > div"),
         ["Always before itnone", "Always after itnone", "Never after itnone", "Between any two of itlogoutbrowse"])
    page.js("document.querySelector('#p0').dispatchEvent(new MouseEvent('click', {bubbles: true}))")
    same("kinds: the lists of INITIAL", page.texts("#lists > div"),
         ["Always before itnone", "In each tracebrowse", "Never after itnone"])
    check_lists(page)
    page.click("#tab-steps")
    same("kinds: a split", page.text("#panel-steps ol > li:nth-child(2)"),
         "The graph had a path that breaks between any two login there is a logout (login InterruptedBy logout): "
         "it has two login without a logout between. Traces followed it as far as browse @3, and none went on along it. "
         "So the browse events there that are followed at once by login got a partition of their own, @6. run its path")
    check_closed(page, "kinds")
    check_compared(page, room, four, three)


def check_lists(page):
    page.click("#tab-invariants")
    same("kinds: all of them can be chosen", page.texts("#kind option"),
         ["all kinds", "AlwaysFollowedBy", "NeverFollowedBy", "AlwaysPrecedes", "InterruptedBy"])
    page.choose("kind", "IB")
    same("kinds: the telling ones come first, and of these the one that a block names", page.texts("#rows tbody tr"), [
        "login InterruptedBy logout", "login InterruptedBy browse",
        "browse InterruptedBy loginfollows: browse NeverFollowedBy browse",
        "browse InterruptedBy logoutfollows: browse NeverFollowedBy browse",
        "logout InterruptedBy loginfollows: logout NeverFollowedBy logout",
        "logout InterruptedBy browsefollows: logout NeverFollowedBy logout"])
    page.choose("hide", True)
    same("kinds: the telling ones alone", page.texts("#rows tbody tr"),
         ["login InterruptedBy logout", "login InterruptedBy browse"])


def check_compared(page, room, four, three):
    """Two models of different kinds: what is said of it, and that only what both may have is compared."""
    for name, old, which in ((four, three, "this model"), (three, four, "the other model")):
        page.open(make(room, "compared.html", name, "--against", old))
        page.click("#tab-differences")
        same(f"kinds: only {which} has four", page.texts("#panel-differences .kinds"), [
            f"Only {which} was asked for invariants of the kind InterruptedBy, so these are not compared."])
        same(f"kinds: what is compared, only {which} has four", page.text("#statements h3"), "Invariants: 0 new, 0 gone")
    page.click("#tab-invariants")
    same("kinds: a model of three has three to be chosen", page.texts("#kind option"),
         ["all kinds", "AlwaysFollowedBy", "NeverFollowedBy", "AlwaysPrecedes"])
    page.open(make(room, "same.html", four, "--against", four))
    page.click("#tab-differences")
    same("kinds: nothing is said of two models of the same kinds", page.texts("#panel-differences .kinds"), [])
    check_closed(page, "compared")
