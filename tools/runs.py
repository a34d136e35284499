"""Runs `synoptic` and `synoptic-events` for the scripts beside it: the programs that the variables SYNOPTIC and
SYNOPTIC_EVENTS name, or else those of the folder above."""
import os
import shutil
import subprocess
import sys
import tempfile

import models

TOP = os.path.dirname(os.path.dirname(os.path.realpath(__file__)))
PROGRAM = os.environ.get("SYNOPTIC") or os.path.join(TOP, "synoptic")
EVENTS = os.environ.get("SYNOPTIC_EVENTS") or os.path.join(TOP, "synoptic-events")


def is_pipe(file):
    """Whether a file is one that a second run may not read again, as a pipe or /dev/stdin."""
    return os.path.exists(file) and (file.startswith(("/dev/", "/proc/")) or not (os.path.isfile(file) or os.path.isdir(file)))


def number_of(words, option, usual, usage):
    """Takes an option with a whole number out of the words; if it is not there, the usual number."""
    if option not in words[: words.index("--") if "--" in words else len(words)]:
        return usual
    at = words.index(option)
    if not (len(words) > at + 1 and words[at + 1].isascii() and words[at + 1].isdigit() and len(words[at + 1]) < 4):
        models.fail(usage)
    del words[at]
    return int(words.pop(at))


def copied(source):
    """A copy of what comes from a pipe, which can be read more than once."""
    copy = tempfile.NamedTemporaryFile()
    shutil.copyfileobj(source, copy)
    copy.flush()
    return copy


class Arguments:
    """What follows the name of the script: options as `synoptic` takes them, and the files of a log. `flags` has the
    letters of options, `valued` of those with a value, and `given` the value of each that is given, or True. If no file is
    named, standard input is read here, once, and each run gets a copy of it."""

    def __init__(self, words, flags, valued, usage):
        self.given, self.files, self.copies, self.usage, words = {}, [], [], usage, list(words)
        while words:
            word = words.pop(0)
            if word == "--":
                self.files += words
                break
            if word.startswith("-") and word != "-":
                self.options(word[1:], words, flags, valued)
            else:
                self.files.append(word)
        if ("p" in self.given) == ("e" in self.given) or ("m" in valued and "m" not in self.given):
            models.fail(usage)
        for file in filter(is_pipe, self.files):
            models.fail(f"{models.bare(file)} is read more than once: write it to a file first")
        for letter in "em":
            if is_pipe(self.given.get(letter, "")):
                with open(self.given[letter], "rb") as opened:
                    self.copies.append(copied(opened))
                self.given[letter] = self.copies[-1].name
        self.input = None if self.files else copied(sys.stdin.buffer)

    def options(self, letters, words, flags, valued):
        """Takes the letters after one `-`; the last may have its value after it or in the next word."""
        while letters:
            letter, letters = letters[0], letters[1:]
            if letter in self.given or letter not in flags + valued:
                models.fail(self.usage)
            self.given[letter] = True
            if letter in valued:
                value = letters[letters.startswith("=") :] if letters else words.pop(0) if words else ""
                if not value or (not letters and value.startswith("-")):
                    models.fail(self.usage)
                self.given[letter], letters = value, ""

    def start(self, program, words, letters):
        """Starts a program on the log, with those of these options that are given."""
        for letter in letters:
            if letter in self.given:
                words.append(f"-{letter}" if self.given[letter] is True else f"-{letter}={self.given[letter]}")
        if self.input:
            self.input.seek(0)
        try:
            return subprocess.Popen([program, *words, "--", *self.files], stdin=self.input or subprocess.DEVNULL,
                                    stdout=subprocess.PIPE)
        except OSError:
            models.fail(f"there is no program {models.bare(program)}")

    def run(self, command, letters):
        """The output and the status of a run of `synoptic`; status 2 if a signal ended it."""
        with self.start(PROGRAM, [command], letters) as started:
            output = started.stdout.read()
        return output, started.returncode if started.returncode >= 0 else 2

    def report(self, command, letters="epij"):
        """The lines of a report. If there is none, the message of `synoptic` is shown, and the script ends as it did."""
        output, status = self.run(command, letters)
        if status:
            sys.exit(status)
        return output.decode("utf-8").split("\n")[:-1]

    def events(self, *mode):
        """The lines of `synoptic-events`, as bytes, one after the other. If it refuses, the script ends as it did."""
        with self.start(EVENTS, list(mode), "epij") as started:
            yield from started.stdout
        if started.returncode:
            sys.exit(started.returncode if started.returncode > 0 else 2)
