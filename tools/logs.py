"""Reads what `synoptic-events` writes of a log, for the scripts beside it: the traces with their events and lines."""
import itertools
import json
import operator
import os
import re

import models

NODE = r'(INITIAL|TERMINAL|"(?:[^"\\]|\\.)*")(?:@[0-9]+)?'
EDGE = re.compile(f"{NODE} -> {NODE}: ([0-9]+) of ([0-9]+)")


def edges_of(report):
    """The lines of the report `graph`, each as the names of its ends, how many events take it, and how many could."""
    return [(a, b, int(count), int(size)) for a, b, count, size in (EDGE.fullmatch(line).groups() for line in report)]


def names_of(edges):
    """INITIAL, TERMINAL and the types of a log in their order: each type begins some edges, and these are in that order."""
    return list(dict.fromkeys(["INITIAL", "TERMINAL", *(a for a, _, _, _ in edges)]))


def columns_of(lines):
    """The columns of each line: trace, place, name of the trace, type, and the time if the log has times."""
    return map(bytes.split, lines, itertools.repeat(b"\t"))


def bare_name(text):
    """The name of a trace as a script shows it, of the name as `synoptic-events` does."""
    return models.bare(json.loads(text))


class Trace:
    """A trace: its number, the type and the place of each event in their order, and its name."""

    def __init__(self, number, types, places, text):
        self.number, self.types, self.places, self.text = int(number), types, places, text

    def name(self):
        return bare_name(self.text)


class Log:
    """The log of a run, and `names` as in `names_of`. A type is a number, its place among the names; a place of the log is
    FILE:LINE as `synoptic-events` writes it."""

    def __init__(self, arguments, names):
        self.arguments, self.names = arguments, names
        self.files = {os.fsencode(file): models.bare(file) for file in arguments.files}
        for file, shown in self.files.items():
            if b"\t" in file or b"\n" in file:
                models.fail(f"{shown} has a tab or a line feed in its name: give it another")
        if not arguments.files:
            self.files[b"standard input"] = "standard input"

    def traces(self):
        """The traces, one after the other."""
        numbers = {text: typ for typ, name in enumerate(self.names) for text in (name.encode(), name.encode() + b"\n")}
        for number, group in itertools.groupby(columns_of(self.arguments.events()), operator.itemgetter(0)):
            types, places = [], []
            for row in group:
                if row[3] not in numbers:
                    models.fail("the log has changed since it was read first")
                types.append(numbers[row[3]])
                places.append(row[1])
            yield Trace(number, tuple(types), places, row[2])

    def place(self, place):
        file, _, line = place.rpartition(b":")
        return f"{self.files[file]}:{line.decode()}"

    def shown(self, trace):
        """The name of a trace with its first and its last line in each file that has some of it."""
        lines = {file: [] for file in self.files}
        for place in trace.places:
            file, _, line = place.rpartition(b":")
            lines[file].append(int(line))
        parts = [f"{self.files[file]}:{min(of)}" + f" to {max(of)}" * (min(of) < max(of))
                 for file, of in lines.items() if of]
        return f"{trace.name()} ({', '.join(parts)})"
