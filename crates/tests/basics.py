"""Makes the parts `basics` and `arguments` of stdin and stdout from cases/basics/*.txt, and never runs the program. `make`
writes all of it.

cases/basics/README.md says how a case is written. What comes of a case stands below it, or is worked out by plain.py, or
both: then the two have to agree.
"""
import os
import re
import sys

import plain

HERE = os.path.dirname(os.path.abspath(__file__))

TOKEN = re.compile(r'(?:"(?:[^"\\]|\\.)*"|[^\s"])+')
QUOTED = re.compile(r'"((?:[^"\\]|\\.)*)"')
LETTERS = {"\n": "~", "\r": "^", " ": "_"}


def stop(why):
    sys.exit("make: " + why)


def encoded(text):
    """The text as one word of standard input."""
    for letter in "~^_%":
        if letter in text:
            stop("a text may not have " + letter)
    return "".join(LETTERS.get(letter, letter) for letter in text) or "%"


def unquoted(found):
    return encoded(found.group(1).encode("latin-1", "backslashreplace").decode("unicode_escape"))


def row(word):
    """The bits of `LENGTH:REST%STEP` or `LENGTH:PLACE,PLACE..`, as a text of 0 and 1."""
    length, places = word.split(":")
    if "%" in places:
        rest, step = (int(number) for number in places.split("%"))
        on = range(rest, int(length), step)
    else:
        on = [int(place) for place in places.split(",") if place]
    bits = ["0"] * int(length)
    for place in on:
        bits[place] = "1"
    return "".join(bits)


def words_of(line):
    """The words of a line of cases, as standard input has them."""
    words = []
    if "".join(TOKEN.findall(line)) != re.sub(r'("(?:[^"\\]|\\.)*")|\s+', lambda found: found.group(1) or "", line):
        stop("a text does not end: " + line)
    for token in TOKEN.findall(line):
        token, times = re.sub(r"\*\d+$", "", token), re.search(r"\*(\d+)$", token)
        if re.match(r"\d+:", token):
            token = row(token)
        words += [QUOTED.sub(unquoted, token)] * (int(times.group(1)) if times else 1)
    return words


def cases_of(path):
    """The cases of a file: the place, the name, the words and the lines that stand below."""
    cases = []
    with open(path, encoding="utf-8") as file:
        for number, line in enumerate(file, 1):
            line = line.rstrip("\n")
            if not line.strip() or line.startswith("#"):
                continue
            if line.startswith("    "):
                cases[-1][3].append("" if line[4:] == "~" else line[4:])
                continue
            words = words_of(line)
            place = "%s:%d" % (os.path.basename(path), number)
            if words[0] in plain.FAMILIES:
                cases += [(place, words[0], made, []) for made in plain.FAMILIES[words[0]](words[1:])]
            else:
                cases.append((place, words[0], words, []))
    return cases


def joined(words):
    return " ".join(words).replace(" | ", "|").replace(" |", "|").replace("| ", "|")


def fit(given, lines):
    """Whether the lines are those given. At `..` all further lines are left to the plain reading, and so is the rest of a line
    that ends with ` ..`."""
    if given[-1] == "..":
        given, lines = given[:-1], lines[: len(given) - 1]
    if len(given) != len(lines):
        return False
    return all(
        line.startswith(one[:-2]) if one.endswith(" ..") else line == one for one, line in zip(given, lines)
    )


def answer(place, words, given):
    """What has to come of a case."""
    name, parts = words[0], joined(words[1:]).split("|")
    if name not in plain.READINGS:
        return given or stop("%s: nothing says what comes of it" % place)
    lines = plain.READINGS[name](parts)
    if given and not fit(given, lines):
        stop("%s: the case says %r, and its plain reading %r" % (place, given, lines))
    return lines


def made():
    """What stdin and stdout have of each part, and how many cases there are by file and name."""
    parts = {"basics": ([], []), "arguments": ([], [])}
    counts = {}
    folder = os.path.join(HERE, "cases", "basics")
    for name in sorted(os.listdir(folder)):
        if not name.endswith(".txt"):
            continue
        part = "arguments" if name == "arguments.txt" else "basics"
        stdin, stdout = parts[part]
        for place, kind, words, given in cases_of(os.path.join(folder, name)):
            rest = joined(words[1:])
            stdin.append(rest if part == "arguments" else (words[0] + " " + rest).rstrip(" "))
            stdout.extend(answer(place, words, given))
            counts[name, kind] = counts.get((name, kind), 0) + 1
    return {part: [("\n".join(lines) + "\n").encode() for lines in both] for part, both in parts.items()}, counts
