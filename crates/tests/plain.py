"""Plain readings: what has to come of a case, worked out in the most direct way, and by no program of this repository."""
import itertools

# Texts as Rust's `{:?}` shows them.
SHOWN = {"\n": "\\n", "\r": "\\r", "\t": "\\t", '"': '\\"', "\\": "\\\\"}


def quoted(text):
    return '"' + "".join(SHOWN.get(letter, letter) for letter in text) + '"'


def some(value):
    return "None" if value is None else "Some(%s)" % (value,)


def truth(value):
    return "true" if value else "false"


def decoded(word):
    return word.replace("%", "").replace("~", "\n").replace("^", "\r").replace("_", " ")


def checksum(data):
    """A number that tells long texts apart."""
    number = 7
    for byte in data:
        number = (number * 1000003 + byte) % 2**64
    return number


def shown(data):
    """Bytes: the text of a few, and of more how many they are, and their checksum."""
    if len(data) > 99:
        return "%d bytes, %d" % (len(data), checksum(data))
    return quoted(data.decode())


# Lines.


def piece(parts):
    text = decoded(parts[0])
    first, _, rest = text.partition("\n")
    line = first[:-1] if first.endswith("\r") else first
    return ["%s %s %s" % (quoted(first), quoted(line), quoted(rest))]


def fields(parts):
    words = parts[0].split(" ")
    line, behind = decoded(words[0]), decoded("".join(words[1:]))
    before, _, after = line.partition(" ")
    if not after:
        return ["None"]
    ahead = quoted(before), quoted(after), quoted(after + behind)
    return ["Some((%s, %s, %s))" % ahead]


# Made logs.


def made(parts):
    sessions, size = (int(word) for word in parts[0].split(" "))
    state, lines = 1, []
    for session in range(1, sessions + 1):
        calls = []
        for _ in range(4):
            state = (25173 * state + 13849) % 65536
            draw = state // 4096 % 4
            if draw == 3:
                break
            calls.append(("read", "write", "seek")[draw])
        sync = ["sync"] if "write" in calls else []
        lines += ["%d %s\n" % (session, call) for call in ["open"] + calls + sync + ["close"]]
    text = "".join(lines)
    ends = quoted(text[:size]), quoted(text[-size:] if size else "")
    return ["%d lines, %s %s %d" % ((len(lines),) + ends + (checksum(text.encode()),))]


# Candidates and monitors. An invariant is its kind and two numbers of types.


def candidates(kinds, types):
    numbers = range(2, types + 2)
    firsts = [("AF", 0, b) for b in numbers]
    asked = ("AF", "NF", "AP", "IB")[:kinds]
    return firsts + [(kind, a, b) for a in numbers for b in numbers for kind in asked if kind != "IB" or a != b]


def invariant(word):
    kind, a, b = word.split(",")
    return kind, int(a), int(b)


def candidate(parts):
    kinds, types, index = (int(word) for word in parts[0].split(" "))
    every = candidates(kinds, types)
    if index >= len(every):
        return ["%d None None" % len(every)]
    return ["%d Some(Invariant { kind: %s, a: %d, b: %d }) Some(%d)" % ((len(every),) + every[index] + (index,))]


def index(parts):
    kinds, types, inv = parts[0].split(" ")
    every = candidates(int(kinds), int(types))
    inv = invariant(inv)
    return [some(every.index(inv) if inv in every else None)]


def breaks(word, inv):
    """Whether a word breaks an invariant, by its places. The two ends are among its types."""
    kind, a, b = inv
    for place, number in enumerate(word):
        if kind == "AF" and number == a and b not in word[place + 1 :]:
            return True
        if kind == "NF" and number == a and b in word[place + 1 :]:
            return True
        if kind == "AP" and number == b and a not in word[:place]:
            return True
        if kind == "IB" and number == a and a in word[place + 1 :]:
            if b not in word[place + 1 : word.index(a, place + 1)]:
                return True
    return False


def state(word, inv):
    """The state of a monitor that has read the word."""
    kind, a, b = inv
    if kind == "AF":
        return 1 if breaks(word, inv) else 0
    if breaks(word, inv):
        return 2
    if kind == "IB" and a in word:
        last = max(place for place, number in enumerate(word) if number == a)
        return 0 if b in word[last + 1 :] else 1
    return 1 if a in word else 0


def monitor(parts):
    words = parts[0].split(" ")
    inv = invariant(words[0])
    word = [int(number) for number in words[1:]]
    states = [str(state(word[: place + 1], inv)) for place in range(len(word))]
    return [" ".join(states + [truth(breaks(word, inv))])]


# Lists and texts.


def seq(parts):
    numbers = [word for word in parts[0].split(" ") if word]
    return ["%d %s [%s]" % (len(numbers), truth(not numbers), ", ".join(numbers))]


def text(parts):
    return ["%d %s" % (len(parts[0].encode()), quoted(parts[0]))]


# Miners.


def numbered(parts):
    """The texts of the types, and the traces as words of numbers with the two ends."""
    types, traces = [], []
    for part in parts:
        events = [event.split("@")[0] for event in part.split(" ") if event]
        types += [event for event in dict.fromkeys(events) if event not in types]
        if events:
            traces.append([0] + [types.index(event) + 2 for event in events] + [1])
    return types, traces


def mine(parts):
    kinds = int(parts[0])
    types, traces = numbered(parts[1:])
    if len(types) > 20:
        found = mined_by_sets(kinds, types, traces)
    else:
        found = [inv for inv in candidates(kinds, len(types)) if not any(breaks(word, inv) for word in traces)]
    listed = "".join(" %s(%d,%d)" % inv for inv in found[:100])
    return ["%d:%s" % (len(found), listed), "the same"]


def mined_by_sets(kinds, types, traces):
    """The same of one trace that has each type once, where going by places for each candidate is too slow in Python."""
    (word,) = traces
    if sorted(word) != list(range(len(types) + 2)):
        raise ValueError("each type once, in one trace")
    at = {number: place for place, number in enumerate(word)}
    return [
        (kind, a, b)
        for kind, a, b in candidates(kinds, len(types))
        if kind == "IB" or (at[a] < at[b] if kind in ("AF", "AP") else at[a] >= at[b])
    ]


def numbers_from(seed):
    """Numbers that look random, as a function of the limit that each is below."""
    state = [seed]

    def below(limit):
        state[0] = (state[0] * 6364136223846793005 + 1442695040888963407) % 2**64
        return (state[0] >> 33) % limit

    return below


def random_logs(words):
    """`random_logs KINDS SEED LIMIT COUNT`: so many logs of three traces of fewer events than the limit, of up to four types."""
    kinds, seed, limit, count = (int(word) for word in words)
    below = numbers_from(seed)
    cases = []
    for number in range(count):
        traces = []
        for types in (4, 1 + number % 4, 4):
            traces.append(" ".join("abcd"[below(types)] for _ in range(below(limit))))
        cases.append(["mine", "|".join([str(kinds)] + traces)])
    return cases


def chain(words):
    """`chain KINDS COUNT`: a trace of so many types, each of them once."""
    return [["mine", words[0], "|"] + [str(number) for number in range(int(words[1]))]]


# Reports.


def name_of(types, number):
    ends = {0: "INITIAL", 1: "TERMINAL"}
    return ends.get(number) or (quoted(types[number - 2]) if number - 2 < len(types) else "")


def invariants(parts):
    types = parts[0].split(" ")
    verbs = {"AF": "AlwaysFollowedBy", "NF": "NeverFollowedBy", "AP": "AlwaysPrecedes", "IB": "InterruptedBy"}
    lines = []
    for word in parts[1].split(" "):
        kind, a, b = invariant(word)
        lines.append("%s %s %s" % (name_of(types, a), verbs[kind], name_of(types, b)))
    return lines + [""]


def graph(parts):
    types = parts[0].split(" ")
    found = {}
    for word in parts[1].split(" "):
        number, typ, count = (int(part) for part in word.split(","))
        found.setdefault(number, (typ, count))

    def box(number):
        ends = {0: "INITIAL", 1: "TERMINAL"}
        name = name_of(types, found[number][0]) if number in found else ""
        return ends.get(number) or "%s@%d" % (name, number)

    lines = []
    for word in parts[2].split(" ") if parts[2] else []:
        source, target, count = (int(part) for part in word.split(","))
        lines.append("%s -> %s: %d of %d" % (box(source), box(target), count, found.get(source, (0, 0))[1]))
    return lines + [""]


def paths(parts):
    counts, texts = {}, {}
    for part in parts:
        events = [event.split("@") for event in part.split(" ") if event]
        if events:
            ids = tuple(number for _, number in events)
            counts[ids] = counts.get(ids, 0) + 1
            texts.setdefault(ids, "".join(" %s@%s" % (quoted(word), number) for word, number in events))
    return ["%d: INITIAL%s TERMINAL" % (counts[ids], texts[ids]) for ids in counts] + [""]


# Rows of bits.

STEPS = {
    "nothing": lambda to, a, mask: to,
    "clear": lambda to, a, mask: False,
    "copy": lambda to, a, mask: a,
    "or": lambda to, a, mask: to or a,
    "and": lambda to, a, mask: to and a,
    "and_not": lambda to, a, mask: to and not a,
    "or_and": lambda to, a, mask: to or (a and mask),
    "or_and_not": lambda to, a, mask: to or (a and not mask),
}


def rows(parts):
    words = parts[0].split(" ")
    step, table = words[0], [[bit == "1" for bit in word] for word in words[1:]]
    new = [STEPS[step](to, a, mask) for to, a, mask in zip(*table[:3])]
    # a step that answers whether the row changed; taken twice, it changes nothing more
    changes = step in ("or", "or_and", "or_and_not") and new != table[0]
    lines = ["%s false" % truth(changes)]
    for row in [new] + table[1:]:
        on = [place for place, bit in enumerate(row) if bit]
        found = [truth(not on), some(on[0] if on else None)]
        for place in parts[1].split(" ") if len(parts) > 1 else []:
            found.append(some(next((bit for bit in on if bit >= int(place)), None)))
        lines.append("".join("1" if bit else "0" for bit in row) + " " + " ".join(found))
    return lines + [""]


# Inputs and sinks.


class Inputs:
    """Files by their names, of which a read gives at most a piece, and of which one call fails."""

    def __init__(self, files, piece=2**64, failing=0):
        self.files, self.piece, self.failing = files, piece, failing
        self.calls, self.rest = 0, b""

    def fails(self):
        self.calls += 1
        return self.calls == self.failing

    def open(self, name):
        self.rest = b""
        if self.fails():
            return "Failed"
        if name not in self.files:
            return "Missing"
        self.rest = self.files[name]
        return None

    def read(self, room):
        if self.fails():
            return None
        taken = self.rest[: min(room, self.piece)]
        self.rest = self.rest[len(taken) :]
        return taken

    def whole(self, name, limit):
        refused = self.open(name)
        if refused:
            return "Missing" if refused == "Missing" else "Fault"
        data = b""
        while len(data) <= limit:
            taken = self.read(min(65536, limit + 1 - len(data)))
            if taken is None:
                return "Fault"
            if not taken:
                break
            data += taken
        return shown(data)


class Real(Inputs):
    """Standard input, of which each byte is there once, and the files of a folder."""

    def open(self, name):
        self.rest = b""
        if name not in self.files and name != ".":
            return "Failed"
        self.name, self.rest = name, self.files.get(name, b"")
        return None

    def read(self, room):
        if self.rest is BROKEN or (self.rest == b"" and getattr(self, "name", "") == "."):
            return None
        taken = super().read(room)
        if getattr(self, "name", None) == "":
            self.files[""] = self.rest
        return taken


BROKEN = object()


def called(inputs, steps):
    lines = []
    for step in steps.split(" "):
        verb, rest = step.partition(",")[::2]
        name, number = rest.partition(",")[::2]
        name = decoded(name)
        if verb == "open":
            refused = inputs.open(name)
            lines.append("Err(%s)" % refused if refused else "Ok(())")
        elif verb == "read":
            taken = inputs.read(int(name))
            lines.append("Failed" if taken is None else shown(taken))
        elif verb == "whole":
            lines.append(inputs.whole(name, int(number)))
        elif verb == "make":
            data = bytes(place % 251 for place in range(int(number)))
            inputs.files[name] = data
            lines.append("true %d" % checksum(data))
        else:
            del inputs.files[name]
            lines.append("true")
    return lines + [""]


def memory(parts):
    words = parts[0].split(" ")
    files = {}
    for word in words[2:]:
        name, data = word.split("=")
        files.setdefault(decoded(name), decoded(data).encode())
    return called(Inputs(files, int(words[0]), int(words[1])), parts[1])


def real(parts):
    return called(Real({"": decoded(parts[0]).encode()}), parts[1])


def failing(parts):
    return called(Real({"": BROKEN}), parts[0])


def sink(parts):
    room, piece, fails = (int(word) for word in parts[0].split(" "))
    calls, held, lines = 0, "", []

    def write(data):
        nonlocal calls, held
        calls += 1
        if calls == fails or (data and len(held) == room):
            return None
        taken = data[: min(piece, room - len(held))]
        held += taken
        return len(taken)

    for step in parts[1].split(" "):
        verb, word = step.split(",")
        data = decoded(word)
        if verb == "write":
            done = write(data)
        else:
            done = 0
            while data and done is not None:
                done = write(data)
                data = data[done or 0 :]
            done = None if done is None else 0
        lines.append("%s %s" % ("Err(Failed)" if done is None else "Ok(%d)" % done, quoted(held)))
    return lines + [""]


# Command lines.

COMMANDS = {
    "invariants": "Invariants",
    "graph": "Graph",
    "infer": "Infer",
    "check": "Check",
    "replay": "Replay",
    "paths": "Paths",
    "migrate": "Migrate",
}


def options_of(words):
    """What the words give, by its name; None where they can't be read. An option may be there once."""
    given = {"flags": [], "operands": []}
    words = list(words)
    while words:
        word = words.pop(0)
        if word == "--":
            given["operands"] += words
            break
        if word in ("-e", "-m", "-n"):
            if word in given or not words or (len(words[0]) > 1 and words[0].startswith("-")):
                return None
            given[word] = words.pop(0)
        elif len(word) > 1 and word.startswith("-"):
            if word not in ("-p", "-i", "-j", "-r") or word in given["flags"]:
                return None
            given["flags"].append(word)
        else:
            given["operands"].append(word)
    return given


def task(words):
    """The task of the words, as it is shown, and None where they ask for none. `bench`, which alone takes -n, is not known here."""
    given = options_of(words)
    if given is None or not given["operands"] or "-n" in given:
        return None
    command, files = given["operands"][0], given["operands"][1:]
    rules, model, flags = given.get("-e"), given.get("-m"), given["flags"]
    if command not in COMMANDS or rules == "" or model == "" or "" in files:
        return None
    if "-r" in flags and command not in ("invariants", "infer", "paths"):
        return None
    name = COMMANDS[command]
    if command == "migrate" or (command == "graph" and model is not None):
        if model is None or rules is not None or flags or files:
            return None
        name = "Migrate" if command == "migrate" else "GraphOfModel"
    elif (command in ("check", "replay")) != (model is not None) or (rules is not None) == ("-p" in flags):
        return None
    form = "Plain" if "-p" in flags else None if rules is None else "Rules(%s)" % quoted(rules)
    shown = name, some(form), some(None if model is None else quoted(model))
    on = tuple(truth(flag in flags) for flag in ("-i", "-j", "-r"))
    listed = ", ".join(quoted(file) for file in files)
    return (
        "Task { command: %s, form: %s, model: %s, ignore: %s, join: %s, number: None, interrupted: %s, files: [%s] }"
        % (shown + on + (listed,))
    )


def arguments(parts):
    words = ["" if word == "%" else word for word in parts[0].split(" ") if word]
    return [task(words) or "Usage"]


def lines_of(words):
    """`lines COUNT FRONT .. of WORD WORD ..`: the front and behind it each row of so many of the words."""
    at = words.index("of")
    rows = itertools.product(words[at + 1 :], repeat=int(words[0]))
    return [["arguments"] + words[1:at] + list(row) for row in rows]


FAMILIES = {"random_logs": random_logs, "chain": chain, "lines": lines_of}
READINGS = {
    "piece": piece,
    "fields": fields,
    "made": made,
    "candidate": candidate,
    "index": index,
    "monitor": monitor,
    "seq": seq,
    "text": text,
    "mine": mine,
    "paths": paths,
    "invariants": invariants,
    "graph": graph,
    "rows": rows,
    "memory": memory,
    "real": real,
    "failing": failing,
    "sink": sink,
    "arguments": arguments,
}
