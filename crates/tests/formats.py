"""Makes the part `formats` of stdin and stdout from the cases in cases/formats/*.txt (the README there says how they are
written), and never runs the program; and COUNTS.md there, which says how many cases each group has, and had when they were
tests in code. `make` writes all of it.
"""

import functools
import json
import os
import re

HERE = os.path.dirname(os.path.abspath(__file__))
SUBJECTS = ["rules", "keys", "events", "lines", "logs", "texts", "drawn", "verdicts"]


class Fault(Exception):
    pass


# --- How bytes are written ---------------------------------------------------------------------------------------------


def bytes_of(text):
    """The bytes that a text of the cases writes."""
    out = b""
    place = 0
    for found in re.finditer(r"~(?:([nr])|<(\d+)>|\{(\d+) (.*?)\})", text):
        out += text[place : found.start()].encode()
        letter, byte, count, repeated = found.groups()
        if letter:
            out += b"\n" if letter == "n" else b"\r"
        elif byte:
            out += bytes([int(byte)])
        else:
            out += int(count) * bytes_of(repeated)
        place = found.end()
    return out + text[place:].encode()


def runs(data):
    """The bytes as pairs of a byte and how often it stands in a row."""
    found = []
    for byte in data:
        if found and found[-1][0] == byte:
            found[-1][1] += 1
        else:
            found.append([byte, 1])
    return found


def step_of(data):
    """The bytes as a step of stdin writes them."""
    try:
        data.decode()
        last = 256
    except UnicodeDecodeError:
        last = 127
    out = b""
    for byte, count in runs(data):
        if 32 <= byte < last and byte not in (126, 127) and count < 9:
            out += count * bytes([byte])
        else:
            out += b"~{%d %d}" % (count, byte)
    return out.decode() or "~{0 0}"


def shown(data):
    """The bytes as the program writes them."""
    out = ""
    for byte, count in runs(data):
        plain = 32 <= byte < 126 and count < 4
        out += count * chr(byte) if plain else "~{%d %d}" % (count, byte)
    return out


def wanted_of(text):
    """A line of output that is wanted, in which only what begins with ~ is written otherwise."""
    return re.sub(r"~(?:[nr]|<\d+>|\{\d+ .*?\})", lambda found: shown(bytes_of(found.group())), text)


# --- Cases, as the program reads them and answers --------------------------------------------------------------------


class Case:
    def __init__(self, heading, steps, output, count):
        self.heading = heading
        self.steps = steps
        self.output = output
        self.count = count


def typed(types):
    """The line of these types."""
    return "types" + "".join("|" + shown(typ.encode()) for typ in types)


# --- Rules -----------------------------------------------------------------------------------------------------------


def decision_of(text):
    """A decision as the program writes it."""
    if text.startswith("event "):
        what, typ = text[6:].split(": ", 1)
        name, start, end, time = re.fullmatch(r"(\w+\(.*\)) (\d+) (\d+) (\d+)", what).groups()
        event = "Event { name: %s, trace_from: %s, trace_to: %s, time: %s }" % (name, start, end, time)
        return "Ok(%s) %s" % (event, shown(bytes_of(typ)))
    if text == "BadTime":
        return "Err(BadTime) "
    if text in ("Skip", "Separator", "Undecided"):
        return "Ok(%s) " % text
    return text


def timed(text):
    """The line that begins with a time, and what is wanted of it."""
    time, billionths = text.split(" = ")
    if billionths == "bad":
        return time + " a", "BadTime"
    size = len(time)
    return time + " a", "event Part(%d, %d) 0 0 %s: a" % (size + 1, size + 2, billionths)


def rules(heading, steps, wanted):
    output = [decision_of(line) for line in wanted]
    file, lines = steps[0], []
    for step in steps[1:]:
        if step.startswith("time "):
            step, decision = timed(step[5:])
            output.append(decision_of(decision))
        lines.append(step_of(bytes_of(step)))
    return [Case(heading, [step_of(bytes_of(file))] + lines, output, max(1, len(lines)))]


def each_byte(heading, steps, wanted):
    most, other = wanted
    other, places = other.split(" at ")
    others = [int(place) for place in places.split()]
    return [
        Case("rules", [step_of(bytes([byte]))], [other if byte in others else most], 1)
        for byte in range(256)
    ]


# --- Keys ------------------------------------------------------------------------------------------------------------


def keys_of(steps, places, texts):
    """Keys at places that are known, and then all keys: their sections and texts."""
    output = ["Some(%d)" % place for place in places]
    output += ["0 %d %s" % (section, shown(text.encode())) for section, text in texts]
    return [Case("keys", ["%d %d %s" % step for step in steps], output, len(steps))]


def paired_keys(heading, steps, wanted):
    pairs = [pair.split(" ") for pair in steps[: steps.index("and then")]]
    texts = []
    for number in range(2 ** len(pairs)):
        chosen = [pair[number >> bit & 1] for bit, pair in enumerate(pairs)]
        texts.append("".join(chosen) + steps[-1])
    numbers = list(range(len(texts)))
    taken = [(numbers[-1] - number, 0, texts[number]) for number in numbers]
    return keys_of(taken + taken, numbers + numbers, [(0, text) for text in texts])


def numbered_keys(heading, steps, wanted):
    count, section = [int(word) for word in steps[0].split(" in section ")]
    near, other, text = steps[1].split(" ")
    numbers = list(range(count))
    put = [(0, section, str(number)) for number in numbers]
    found = [(number // 2, section, str(number)) for number in numbers]
    place = int(re.fullmatch(r"Some\((\d+)\)", wanted[0]).group(1))
    texts = [(section, str(number)) for number in numbers] + [(int(other), text)]
    return keys_of(put + [(int(near), int(other), text)] + found, numbers + [place] + numbers, texts)


# --- Events, lines and logs ------------------------------------------------------------------------------------------


def as_written(heading, steps, wanted):
    return [Case(heading, steps, [wanted_of(line) for line in wanted], 1)]


def falling_events(heading, steps, wanted):
    """Types `x` at odd times and `y` at even ones, the last first, and `x` at 0."""
    last = int(steps[0])
    added = ["1 0 0 %d t|%s" % (time, "yx"[time % 2]) for time in range(last, 0, -1)]
    times = list(range(last + 1))
    numbers = [2 if time > 0 and time % 2 == 0 else 3 for time in times]
    told = ["types|y|x", "1 traces, %d events" % len(times), "0 0 t|%s %s" % (numbers, times)]
    return [Case("events", added + ["1 0 0 0 t|x"], told, 1)]


def numbered_types(heading, steps, wanted):
    names = ["e%d" % number for number in range(int(steps[0]))]
    added = ["1 0 0 0 t|" + name for name in names]
    output = wanted[:-1] + [typed(names), wanted[-1]]
    return [Case("events", added + steps[1:], output, len(wanted))]


def one_input(heading, steps, wanted):
    return as_written(heading, [step_of(bytes_of(steps[0]))], wanted)


def inputs(heading, steps, wanted):
    written = [steps[0]]
    for step in steps[1:]:
        name, text = step.split("|", 1)
        written.append(name + "|" + step_of(bytes_of(text)))
    return as_written(heading, written, wanted)


# --- Texts of models -------------------------------------------------------------------------------------------------

# What a text of version 2 has of three kinds, and one of version 1 does not have.
THREE = b'"kinds":["AF","NF","AP"],'


def change_of(base, row):
    """What is wanted of a row of a table, the change as a step, and the changed text."""
    parts = row.split(" | ")
    new = bytes_of(parts[-1])
    if len(parts) == 2:
        return parts[0], "0 %d %s" % (len(base), step_of(new)), new
    wanted, old = parts[0], bytes_of(parts[1])
    at = base.find(old)
    if at < 0 or len(parts) != 3:
        raise Fault("no change of the text: " + row)
    changed = base[:at] + new + base[at + len(old) :]
    while old and new and old[0] == new[0]:
        at, old, new = at + 1, old[1:], new[1:]
    while old and new and old[-1] == new[-1]:
        old, new = old[:-1], new[:-1]
    return wanted, "%d %d %s" % (at, len(old), step_of(new)), changed


def text_case(base, changes, answers):
    """Changes of a text, which are refused, or give the same text again."""
    same = ""
    if "Same" in answers:
        same = "the same, " + typed(json.loads(base)["types"])
    output = [same if answer == "Same" else answer for answer in answers]
    return Case("text", [step_of(base)] + changes, output, len(changes))


def changes_of(base, way, steps):
    """The changes of a text, and what is wanted of each."""
    now = base
    changes, answers = [], []
    for row in steps:
        answer, change, after = change_of(now, row)
        if way == "one after the other":
            now = after
            change = "0 %d %s" % (len(base), step_of(after))
        changes.append(change)
        answers.append(answer)
    return changes, answers


def text_changes(heading, steps, wanted):
    name, _, way = heading[len("changes of ") :].partition(", ")
    base = bytes_of(TEXTS[name])
    return [text_case(base, *changes_of(base, way, steps))]


def in_version_1(base):
    """The text of the same model in version 1, which does not name the three kinds."""
    if base.count(THREE) != 1 or not base.endswith(b'"version":2}'):
        raise Fault("a text that version 1 does not have")
    return base.replace(THREE, b"").replace(b'"version":2}', b'"version":1}')


def old_case(base, changes, answers):
    """Changes of a text of version 1, which are refused, or give the text of version 2."""
    case = text_case(base, changes, answers)
    return Case("old", [case.steps[0], step_of(in_version_1(base))] + changes, case.output, case.count)


def old_changes(heading, steps, wanted):
    name, _, way = heading[len("old changes of ") :].partition(", ")
    base = bytes_of(TEXTS[name])
    return [old_case(base, *changes_of(in_version_1(base), way, steps))]


def fronts(heading, steps, wanted):
    text = bytes_of(TEXTS[heading.split(" ")[1]])
    told = "%d fronts, %d are no JSON" % (len(text), len(text))
    return [Case("fronts", [step_of(text)], [told], len(text))]


def said(heading, steps, wanted):
    return as_written("said", [step_of(bytes_of(TEXTS[heading.split(" ")[1]]))], wanted)


def file_with(types):
    """The file of a log of no events with these types, as they are written."""
    return TEXTS["NONE"].replace('"types":[]', '"types":[%s]' % types).encode()


def many_types(heading, steps, wanted):
    old, count, size = re.fullmatch(r"(old )?numbered types: (\d+) of (\d+) bytes", heading).groups()
    names = ['"%03d%s"' % (number, (int(size) - 3) * "x") for number in range(int(count))]
    return [(old_case if old else text_case)(file_with(",".join(names)), ["0 0 ~{0 0}"], wanted)]


def one_type(heading, steps, wanted):
    cases = []
    for row in steps:
        text, written, spelled = (row.split(" : ") + [row.split(" : ")[1]])[:3]
        base = file_with('"%s"' % bytes_of(written).decode())
        file = file_with('"%s"' % bytes_of(spelled).decode())
        case = text_case(base, ["0 %d %s" % (len(base), step_of(file))], ["Same"])
        if case.output != ["the same, types|" + shown(bytes_of(text))]:
            raise Fault("a type that is not as it is written: " + row)
        cases.append(case)
    return cases


def drawn(signs, seed):
    """A text that is drawn by numbers that look random."""
    out, state, kept = "", seed, True
    for sign in signs:
        state = ((state ^ (state >> 15)) * 747796405 + 2891336453) % 2**32
        if sign == "(":
            kept = state >> 31 == 0
        elif sign == ")":
            kept = True
        elif sign == "\n" or not kept or (sign == "," and out.endswith("[")):
            pass
        elif sign == "#":
            out += str((state >> 16) % 9 + 1)
        elif sign == "&":
            out += str((state >> 16) % 8)
        else:
            out += sign
    return out


def draw(heading, steps, wanted):
    """Texts that are drawn, of version 2. Those of three kinds are made ones of version 1 too, which give the same."""
    times = int(heading.split(" ")[1])
    texts = [drawn("\n".join(steps), seed).encode() for seed in range(times)]
    cases = [text_case(text, ["0 0 ~{0 0}"], ["Same"]) for text in texts]
    return cases + [old_case(text, ["0 0 ~{0 0}"], ["Same"]) for text in texts if THREE in text]


# --- Verdicts, by a plain search over the lists of a model ----------------------------------------------------------


def step(inv, state, typ):
    """The state of the monitor of an invariant after a type."""
    kind, first, second = inv
    if kind == "AF":
        return 1 if typ == first else 0 if typ == second else state
    if kind == "NF":
        return 2 if typ == second and state > 0 else 1 if typ == first and state == 0 else state
    if kind == "IB":
        return min(state + 1, 2) if typ == first else 0 if typ == second and state == 1 else state
    return 2 if typ == second and state == 0 else 1 if typ == first and state == 0 else state


def is_bad(inv, state):
    return state == (1 if inv[0] == "AF" else 2)


def is_broken(inv, word):
    """Whether a trace of these types breaks the invariant, by what it says and no monitor."""
    kind, first, second = inv
    word = [0] + word + [1]
    for place, typ in enumerate(word):
        if kind == "AF" and typ == first and second not in word[place + 1 :]:
            return True
        if kind == "NF" and typ == first and second in word[place + 1 :]:
            return True
        if kind == "AP" and typ == second and first not in word[:place]:
            return True
        if kind == "IB" and typ == first and first in word[place + 1 :]:
            if second not in word[place + 1 : word.index(first, place + 1)]:
                return True
    return False


def kept(words, types, kinds):
    """The invariants of these kinds that no trace breaks, in their order. No type is interrupted by itself."""
    ids = range(2, types + 2)
    candidates = [("AF", 0, typ) for typ in ids]
    candidates += [(kind, a, b) for a in ids for b in ids for kind in kinds if kind != "IB" or a != b]
    return [inv for inv in candidates if not any(is_broken(inv, word) for word in words)]


@functools.lru_cache(maxsize=None)
def known_of(traces, kinds):
    """The types of a log, its words in the numbers of these, and the invariants of these kinds that no trace breaks."""
    types, words = [], []
    for trace in traces.split(";"):
        word = []
        for typ in trace.split():
            if typ not in types:
                types.append(typ)
            word.append(types.index(typ) + 2)
        words.append(word)
    return types, words, kept(words, len(types), kinds)


def has_path(edges, typ_of, word):
    ids = {0}
    for typ in word + [1]:
        ids = {edge[1] for edge in edges if edge[0] in ids and typ_of[edge[1]] == typ}
    return bool(ids)


def states(label):
    return [state for state in range(3) if label >> state & 1]


def is_inductive(inv, label_of, edges, typ_of):
    if step(inv, 0, 0) not in states(label_of[0]):
        return False
    if any(is_bad(inv, state) for state in states(label_of[1])):
        return False
    return all(
        step(inv, state, typ_of[edge[1]]) in states(label_of[edge[1]])
        for edge in edges
        for state in states(label_of[edge[0]])
    )


def is_apart(block, invariants, edges, typ_of):
    """Whether the path of the block is one once its two partitions are merged, and breaks the invariant."""
    first, second, number, path = block

    def merged(number):
        return first if number == second else number

    joined = {(merged(edge[0]), merged(edge[1])) for edge in edges}
    if not path or path[0] != 0 or path[-1] != 1:
        return False
    if any(pair not in joined for pair in zip(path, path[1:])):
        return False
    inv, state = tuple(invariants[number][:3]), 0
    for id in path:
        state = step(inv, state, typ_of[id])
    return is_bad(inv, state)


def verdict(text, traces):
    """The verdict on the model of a text for the log of these traces."""
    model = json.loads(text)
    types, words, wanted = known_of(traces, tuple(model["kinds"]))
    if model["types"] != types:
        return "No(Types)"
    listed = [tuple(entry[:3]) for entry in model["invariants"]]
    for place in range(max(len(listed), len(wanted))):
        if listed[place : place + 1] != wanted[place : place + 1]:
            return "No(Listing(%d))" % place
    edges = model["edges"]
    typ_of = {entry[0]: entry[1] for entry in model["partitions"]}
    for number, word in enumerate(words):
        if not has_path(edges, typ_of, word):
            return "No(Trace(%d))" % number
    for number, entry in enumerate(model["invariants"]):
        label_of = dict(zip([part[0] for part in model["partitions"]], map(int, entry[3])))
        if not is_inductive(listed[number], label_of, edges, typ_of):
            return "No(Label(%d))" % number
    apart = [block[:2] for block in model["blocks"] if is_apart(block, model["invariants"], edges, typ_of)]
    for first in typ_of:
        for second in typ_of:
            if first < second and typ_of[first] == typ_of[second] and [first, second] not in apart:
                return "No(Block(%d, %d))" % (first, second)
    return "Yes"


def named_log(words):
    return re.sub(r"\b[A-Z]+\b", lambda found: LOGS.get(found.group(), found.group()), words)


def verdict_case(name, traces, rows):
    """The verdicts on these changes of a model, each of which has to be as its row says."""
    base = bytes_of(TEXTS[name])
    steps, output = [step_of(base)], []
    for row in rows:
        wanted, change, text = change_of(base, row)
        found = verdict(text, traces)
        if wanted not in (found, found.split("(")[0], "?"):
            raise Fault("the plain search says %s of %s" % (found, row))
        steps.append(change)
        output.append(found)
    return Case("verdict " + traces, steps, output, len(rows))


def verdicts(heading, steps, wanted):
    name, log = heading[len("verdicts on ") :].split(" for ")
    return [verdict_case(name, named_log(log), steps)]


def lists_of(name, key):
    return json.loads(TEXTS[name])[key]


def listed_text(entry):
    return json.dumps(entry, separators=(",", ":"))


def other_digits(entry, digits):
    """Rows for each of the digits in the place of another one in the labels of an invariant."""
    labels, rows = entry[3], []
    for place in range(len(labels)):
        for digit in digits.replace(labels[place], ""):
            other = entry[:3] + [labels[:place] + digit + labels[place + 1 :]]
            rows.append("? | %s | %s" % (listed_text(entry), listed_text(other)))
    return rows


def each_digit(heading, steps, wanted):
    """Each digit of each label with another in its place: how many are good; where one is not, its own label fails."""
    pattern = r"each digit (\d+) on (\w+): (\d+) Yes of (\d+) lines"
    digits, name, good, lines = re.fullmatch(pattern, heading).groups()
    rows, own = [], []
    for number, entry in enumerate(lists_of(name, "invariants")):
        more = other_digits(entry, digits)
        rows += more
        own += len(more) * ["No(Label(%d))" % number]
    case = verdict_case(name, LOGS[name], rows)
    if any(found not in ("Yes", label) for found, label in zip(case.output, own)):
        raise Fault("something else than the changed label fails")
    if (case.output.count("Yes"), number + 1) != (int(good), int(lines)):
        raise Fault("%d are good: %s" % (case.output.count("Yes"), heading))
    return [case]


def left_out(name, key, places):
    """Rows that leave out each entry of a list, with the comma at it."""
    entries = [listed_text(entry) for entry in lists_of(name, key)]
    rows = []
    for number, entry in enumerate(entries):
        old = "," + entry + "]" if number + 1 == len(entries) else entry + ","
        new = "]" if number + 1 == len(entries) else "~{0 x}"
        rows.append("No(%s) | %s | %s" % (places(number), old, new))
    return rows


def each_left_out(heading, steps, wanted):
    key, name = re.fullmatch(r"each (\w+) left out of (\w+)", heading).groups()
    told = [int(word) for word in wanted[0].split()]
    if key == "edge":
        rows = left_out(name, "edges", lambda number: "Trace(%d)" % told[number])
    else:
        rows = left_out(name, "invariants", lambda number: "Listing(%d)" % number)
    if len(rows) not in (len(told), told[0]):
        raise Fault("not so many: " + heading)
    return [verdict_case(name, LOGS[name], rows)]


# --- The files of cases ----------------------------------------------------------------------------------------------

# What makes the cases of a kind, by how its first line begins; the longer beginnings stand first.
KINDS = [
    ("each byte is a file", each_byte),
    ("each digit ", each_digit),
    ("each ", each_left_out),
    ("rules", rules),
    ("keys of one of each pair", paired_keys),
    ("keys of numbers", numbered_keys),
    ("events at falling times", falling_events),
    ("events of numbered types", numbered_types),
    ("events", as_written),
    ("lines ", one_input),
    ("logs ", inputs),
    ("made ", as_written),
    ("changes of ", text_changes),
    ("old changes of ", old_changes),
    ("fronts ", fronts),
    ("said ", said),
    ("numbered types", many_types),
    ("old numbered types", many_types),
    ("one type", one_type),
    ("draw ", draw),
    ("verdicts on ", verdicts),
]
TEXTS = {}
LOGS = {}


class Group:
    def __init__(self, subject, name, before):
        self.subject = subject
        self.name = name
        self.before = before
        self.cases = []


def repeated(lines):
    """The lines with each of the words of a `for` in the place of its name. An underscore is a space there."""
    found = re.fullmatch(r"for (\w) in (.*)", lines[0])
    if not found:
        return [lines]
    name, words = "$" + found.group(1), found.group(2).split(" ")
    written = [word.replace("_", " ") for word in words]
    return [
        more for word in written for more in repeated([line.replace(name, word) for line in lines[1:]])
    ]


def cases_of(lines):
    """The cases of the lines between two empty ones."""
    cases = []
    for heading, *rest in repeated(lines):
        steps = [line for line in rest if not line.startswith("= ")]
        wanted = [line[2:] for line in rest if line.startswith("= ")]
        made = [make for start, make in KINDS if heading.startswith(start)]
        if not made:
            raise Fault("no such kind: " + heading)
        cases += made[0](heading, steps, wanted)
    return cases


def take_lines(lines, groups, subject):
    """Takes the lines between two empty ones: a group begins, texts and logs have names, or there are cases."""
    if not lines:
        return
    group = re.fullmatch(r"\[(.*): (\d+)\]", lines[0])
    named = re.fullmatch(r"(text|log) ([A-Z]+) = (.*)", lines[0])
    if group:
        groups.append(Group(subject, group.group(1), int(group.group(2))))
    elif named:
        (TEXTS if named.group(1) == "text" else LOGS)[named.group(2)] = named.group(3)
    else:
        groups[-1].cases += cases_of(lines)


def groups_of(subject):
    """The groups of a file, each case with the line at which it stands."""
    path = os.path.join(HERE, "cases", "formats", subject + ".txt")
    with open(path, encoding="utf-8", newline="\n") as file:
        lines = file.read().split("\n") + [""]
    groups, block, start = [], [], 1
    for number, line in enumerate(lines, 1):
        if line.startswith("# "):
            continue
        if line:
            start = start if block else number
            block.append(line)
            continue
        try:
            take_lines(block, groups, subject)
        except (Fault, LookupError, ValueError, AttributeError) as fault:
            raise SystemExit("make: %s.txt, line %d: %r" % (subject, start, fault))
        for case in groups[-1].cases if groups else []:
            case.place = getattr(case, "place", "cases/formats/%s.txt, line %d" % (subject, start))
        block = []
    return groups


def written(groups):
    """Standard input, the output that is wanted, and where the case of each of its lines stands."""
    given, output, places = [], [], []
    for group in groups:
        for case in group.cases:
            given += [case.heading] + case.steps + [""]
            output += [case.heading] + case.output
            places += (1 + len(case.output)) * [case.place]
    return ["\n".join(lines).encode() + b"\n" for lines in (given, output)] + [places]


def counted(groups):
    """How many cases each group has, and had."""
    lines = ["| cases of | group | as tests in code | now |", "|---|---|---|---|"]
    for group in groups:
        now = sum(case.count for case in group.cases)
        if now < group.before:
            raise SystemExit("make: fewer cases than before: " + group.name)
        lines.append("| %s | %s | %d | %d |" % (group.subject, group.name, group.before, now))
    return "\n".join(lines).encode() + b"\n"


def made():
    """The part of stdin, that of stdout, where the case of each line of stdout stands, and COUNTS.md."""
    groups = [group for subject in SUBJECTS for group in groups_of(subject)]
    return (*written(groups), counted(groups))
