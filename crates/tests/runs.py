"""Makes the part `runs` of stdin and stdout from cases/runs/*.txt, and never runs the program. `make` writes all of it.

cases/runs/README.md describes the files of cases. examples/cases reads them by this script too.
"""
import glob
import itertools
import os
import re
import sys

HERE = os.path.dirname(os.path.realpath(__file__))
ENDINGS = {
    "Done": 0,
    "NoCheck": 1,
    "NoReplay": 1,
    "Usage": 2,
    "Expressions": 3,
    "Log": 4,
    "Limit": 5,
    "ReadFault": 6,
    "WriteFault": 7,
    "Memory": 8,
    "ModelFile": 9,
}
PLAIN_ESCAPES = {"n": b"\n", "r": b"\r", "t": b"\t", "\\": b"\\"}
TEXTS = ("text", "stdin", "endless", "file", "out", "out-front", "err", "err-front")
MANY = ("args", "stdin")
RANGES = ("piece", "room", "byte", "front", "fail input", "fail build", "fail out", "fail err")
SINGLE = ("status", "opened", "seek", "no stdin", "err-texts")


class Bad(Exception):
    """A line of a file of cases that says nothing known."""


def unescaped(spelled, byte=None):
    """The bytes of a spelled text. `\\*` is the byte of the run, and `\\#` its two hexadecimal digits."""
    made = bytearray()
    at = 0
    while at < len(spelled):
        if spelled[at] != "\\":
            made += spelled[at].encode()
            at += 1
            continue
        letter = spelled[at + 1 : at + 2]
        at += 2
        if letter in PLAIN_ESCAPES:
            made += PLAIN_ESCAPES[letter]
        elif letter == "x":
            made.append(int(spelled[at : at + 2], 16))
            at += 2
        elif letter == "*" and byte is not None:
            made.append(byte)
        elif letter == "#" and byte is not None:
            made += b"%02x" % byte
        else:
            raise Bad(f"there is no escape \\{letter}")
    return bytes(made)


class Text:
    """A text by its parts: what is put, how often, and by which rule it was spelled."""

    def __init__(self):
        self.parts = []

    def add(self, times, spelled):
        self.parts.append((times, spelled))

    def pieces(self, byte, names, front=None):
        """The parts as pairs of a count and bytes; None for the output of the run before."""
        made = []
        for times, spelled in self.parts:
            if spelled == "@LAST":
                made.append((1, None))
            elif times == "@":
                made += names[spelled].pieces(byte, names)
            elif times == "~":
                old, new = (unescaped(it, byte) for it in re.split(" => ?", spelled, maxsplit=1))
                whole = b"".join(count * piece for count, piece in made)
                if whole.count(old) != 1:
                    raise Bad(f"the text does not have once what is to be replaced: {spelled}")
                made = [(1, whole.replace(old, new))]
            elif times == "^":
                made = [(1, b"".join(count * piece for count, piece in made)[:front])]
            else:
                made.append((times, unescaped(spelled, byte)))
        return made

    def bytes(self, byte, names):
        return b"".join(count * piece for count, piece in self.pieces(byte, names))


def numbers(spelled):
    """Numbers and ranges, as in `1 7..9`; a range with its numbers left out by `-` before each."""
    made = []
    for word in spelled.split():
        if word.startswith("-"):
            made.remove(int(word[1:]))
            continue
        first, _, last = word.partition("..")
        made += range(int(first), int(last or first) + 1)
    return made


def words_of(spelled):
    """The arguments, between single spaces; '' is the empty one, and WORD*N stands for N times the word."""
    made = []
    for word in spelled.split(" ") if spelled else []:
        word, star, count = word.partition("*")
        made += [b"" if word == "''" else unescaped(word)] * (int(count) if star else 1)
    return made


class Block:
    """What the lines of a block say."""

    def __init__(self, kind, name, place):
        self.kind, self.name, self.place = kind, name, place
        self.said = {}
        self.files = {}

    def take(self, line):
        """Takes a line; gives the text that the lines after it go on with, if it has one."""
        for word in TEXTS + MANY + RANGES + SINGLE:
            if line == word or line.startswith(word + " "):
                break
        else:
            raise Bad(f"no such line: {line}")
        rest = line[len(word) + 1 :]
        if word not in TEXTS:
            value = words_of(rest) if word == "args" else numbers(rest) if word in RANGES else rest
            self.said.setdefault(word, []).append(value)
            return None
        name, text = "", Text()
        if word == "file":
            name, _, rest = rest.partition(" ")
        if rest.startswith("@"):
            text.add("@", rest if rest == "@LAST" else rest[1:])
        elif rest:
            text.add(1, rest)
        if word == "file":
            self.files[name] = text
        else:
            self.said.setdefault(word, []).append(text)
        return text


def go_on(text, line):
    """Takes a line that goes on with a text."""
    rest = line[2:]
    if line[0] == "|":
        text.add(1, rest + "\\n")
    elif line[0] == "+":
        text.add(1, rest)
    elif line[0] == "*":
        count, _, rest = rest.partition(" ")
        text.add(int(count), rest)
    elif line[0] == "!":
        span, _, rest = rest.partition(" ")
        for number in numbers(span):
            text.add(1, rest.replace("\\d", str(number)))
    else:
        text.add(line[0], rest)


def blocks_of(path):
    """The blocks of a file of cases."""
    block = text = None
    with open(path, encoding="utf-8") as lines:
        for number, line in enumerate(lines, 1):
            line = line.rstrip("\n")
            try:
                if line.startswith("#"):
                    continue
                if not line:
                    if block:
                        yield block
                    block = text = None
                elif not block:
                    kind, _, name = line.partition(" ")
                    if kind not in ("text", "group", "given", "case"):
                        raise Bad(f"a block begins with text, group, given or case, and not with {kind}")
                    block = Block(kind, name, f"{os.path.basename(path)}:{number}")
                    if kind == "text":
                        block.name, _, rest = name.partition(" ")
                        text = block.take(f"text {rest}".rstrip(" ") if not rest else f"text {rest}")
                elif text and line[0] in "|+*!@~^":
                    go_on(text, line)
                else:
                    text = block.take(line)
            except (Bad, ValueError) as fault:
                sys.exit(f"{path}:{number}: {fault}")
    if block:
        yield block


class Run:
    """One run: what it is given, and what has to come of it."""

    def __init__(self, name, block, given, choice, names):
        self.name, self.place = name, block.place
        said = dict(given.said if given else {})
        said.update(block.said)
        said = {word: values[-1] for word, values in said.items()}
        said.update(choice)
        self.byte = said.get("byte")
        self.args = said.get("args", [])
        self.piece = said.get("piece", 100000)
        self.room = said.get("room", 4000000)
        self.fail = {what: said.get("fail " + what, 0) for what in ("input", "build", "out", "err")}
        self.has_stdin = "no stdin" not in said
        self.files = {}
        files = dict(given.files if given else {})
        files.update(block.files)
        if self.has_stdin:
            files[""] = said.get("stdin", Text())
        for file in sorted(files):
            self.files[file] = files[file].pieces(self.byte, names, said.get("front"))
        self.endless = said["endless"].bytes(self.byte, names) if "endless" in said else None
        self.status = said.get("status", "Done")
        self.code = ENDINGS[self.status.split("(")[0]]
        self.seek = None
        if "seek" in said:
            count, _, spelled = said["seek"].partition(" ")
            self.seek = (int(count), unescaped(spelled, self.byte))
        self.out = self.written("out", said, names, min(self.room, self.taken("out", said)))
        self.err = self.written("err", said, names, self.taken("err", said))
        self.opened = said["opened"] if "opened" in said else self.usually_opened()

    def taken(self, which, said):
        """How many bytes a sink takes before the write that fails."""
        before = (self.fail[which] or 1 << 40) - 1
        if which + "-texts" not in said:
            return self.piece * before
        cuts = [min(self.piece, size - at) for size in numbers(said[which + "-texts"]) for at in range(0, size, self.piece)]
        return sum(cuts[:before])

    def written(self, which, said, names, taken):
        """What has to stand in a sink that takes so many bytes."""
        if which + "-front" in said:
            return said[which + "-front"].bytes(self.byte, names)[:taken]
        return said[which].bytes(self.byte, names) if which in said else b""

    def usually_opened(self):
        """What the run opens, by what it is asked to read and by its status, where no call of the inputs fails."""
        sources = [("Expressions", "-e"), ("ModelFile", "-m")]
        options, free, rest = {}, [], [word.decode() for word in self.args]
        while rest:
            word = rest.pop(0)
            if word == "--":
                free += rest
                break
            if word in ("-e", "-m", "-n"):
                options[word] = rest.pop(0) if rest else ""
            elif not word.startswith("-") or word == "-":
                free.append(word)
        read = [(source, options[option]) for source, option in sources if option in options]
        if self.status == "Usage" or free[:1] == ["bench"]:
            return ""
        if not (free[0] in ("graph", "migrate") and "-m" in options):
            read += [(f"Log({at})", name) for at, name in enumerate(free[1:] or [""])]
        kind, _, inner = self.status.partition("(")
        last = len(read)
        if kind in ("Expressions", "ModelFile"):
            last = [source for source, _ in read].index(kind) + 1
        elif kind == "Log":
            file = inner.partition("file: ")[2].partition(",")[0]
            last = [source for source, _ in read].index(f"Log({file})") + 1
        elif kind == "ReadFault":
            if self.fail["input"]:
                raise Bad("where a call of the inputs fails, the case has to say what was opened")
            last = [source for source, _ in read].index(inner[:-1])
            if read[last][1] in self.files:
                raise Bad("an input that is there could not be read")
        return "".join(f"[{name}]" for _, name in read[:last])

    def steps(self):
        """The lines that have the program make this run."""
        yield b"name " + self.name.encode()
        for word in self.args:
            yield b"word " + word
        for name, pieces in self.files.items():
            yield from text_steps(pieces)
            yield b"file " + name.encode()
        if self.endless is not None:
            yield from text_steps([(1, self.endless)])
            yield b"endless"
        yield b"piece %d" % self.piece
        yield b"room %d" % self.room
        for what, number in self.fail.items():
            if number:
                yield b"fail-%s %d" % (what.encode(), number)
        if self.seek:
            yield from text_steps([(1, self.seek[1])])
            yield b"seek"
        yield b"run"

    def told(self):
        """What the program has to print of this run."""
        out = b"%d\n%s" % (len(self.out), self.out)
        if self.seek:
            out = b"has %d times\n%s" % self.seek
        head = f"{self.name}\n{self.code} {self.status}\nopened {self.opened}\n".encode()
        return head + b"out %s\nerr %d\n%s\n\n" % (out, len(self.err), self.err)


def joined(pieces):
    """The pieces, where those that stand once and beside one another are one."""
    for is_single, group in itertools.groupby(pieces, lambda piece: piece[0] == 1 and piece[1] is not None):
        if is_single:
            yield 1, b"".join(piece for _, piece in group)
        else:
            yield from group


def text_steps(pieces):
    """The steps that write a text."""
    for count, piece in joined(pieces):
        if piece is None:
            yield b"last"
            continue
        if count > 1:
            if any(byte != 10 and not 32 <= byte < 126 for byte in piece) or piece.endswith(b" "):
                raise Bad("what is repeated has to be plain")
            yield b"times %d %s" % (count, piece.replace(b"\n", b"~"))
            continue
        for is_plain, part in itertools.groupby(piece, lambda byte: byte == 10 or 32 <= byte < 126):
            part = bytes(part)
            if is_plain:
                bare = part.rstrip(b" ")
                if bare:
                    yield b"put " + bare.replace(b"\n", b"~")
                part = part[len(bare) :]
            for byte in part:
                yield b"byte %d" % byte


def runs(folder=os.path.join(HERE, "cases", "runs")):
    """The runs of all cases, file by file, as triples of the file, the group and the run."""
    names = {}
    all_blocks = [(path, list(blocks_of(path))) for path in sorted(glob.glob(os.path.join(folder, "*.txt")))]
    for _, blocks in all_blocks:
        names.update({block.name: block.said["text"][0] for block in blocks if block.kind == "text"})
    for path, blocks in all_blocks:
        group, given, number = "", None, 0
        for block in blocks:
            if block.kind in ("group", "given"):
                if block.kind == "group":
                    group, number = block.name, 0
                given = block
            if block.kind != "case":
                continue
            said = dict(given.said if given else {})
            said.update(block.said)
            axes = [(word, said[word] if word in MANY else said[word][-1]) for word in MANY + RANGES if word in said]
            for values in itertools.product(*(values for _, values in axes)):
                number += 1
                title = f"{group} {number}" + (f": {block.name}" if block.name else "")
                try:
                    run = Run(title, block, given, dict(zip((word for word, _ in axes), values)), names)
                except (Bad, KeyError, ValueError, IndexError) as fault:
                    sys.exit(f"{block.place}: {type(fault).__name__}: {fault}")
                yield os.path.basename(path), group, run


def made():
    """The part of stdin, that of stdout, and how many runs there are by file and group."""
    steps, told, counts = [], [], {}
    for path, group, run in runs():
        steps += [step + b"\n" for step in run.steps()]
        told.append(run.told())
        counts[path, group] = counts.get((path, group), 0) + 1
    return b"".join(steps), b"".join(told), counts
