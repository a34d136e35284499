"""Texts of unknown origin, made safe to show: a character without a visible form is shown as a mark."""
import json
import unicodedata

# Letters and signs that are drawn as nothing, or as a blank, though their category does not say so.
INVISIBLE = {0x034F, 0x115F, 0x1160, 0x17B4, 0x17B5, 0x2800, 0x3164, 0xFFA0, 0xFFFD}


def is_mark(text, at):
    """Whether the character at this place is shown as a mark: controls, blanks but for single spaces between other
    characters, changes of direction, unassigned codes, and accents that have no letter before them."""
    c = text[at]
    code = ord(c)
    if c == " ":
        return at == 0 or at + 1 == len(text) or text[at - 1] == " "
    kind = unicodedata.category(c)
    if kind[0] in "CZ" or code in INVISIBLE or 0xFE00 <= code <= 0xFE0F or 0xE0000 <= code <= 0xE0FFF:
        return True
    return kind[0] == "M" and (at == 0 or is_mark(text, at - 1))


def mark(c):
    """The mark that is shown instead of such a character."""
    return "space" if c == " " else f"U+{ord(c):04X}"


def segments(text):
    """The text in pieces [is a mark, what is shown], in order."""
    pieces = []
    for at, c in enumerate(text):
        if is_mark(text, at):
            pieces.append([1, mark(c)])
        elif pieces and pieces[-1][0] == 0:
            pieces[-1][1] += c
        else:
            pieces.append([0, c])
    return pieces


def plain(text):
    """The text in one piece, with marks in brackets: for titles and for screen readers."""
    return "".join(f"[{shown}]" if marked else shown for marked, shown in segments(text))


def width(text):
    """How many columns of a fixed-width font the text takes, about."""
    return sum(2 if unicodedata.east_asian_width(c) in "WF" or ord(c) > 0x1F000 else 1 for c in text)


def plural(count, word):
    return f"{count} {word}" if count == 1 else f"{count} {word}s"


def shortened(text, most):
    """The text itself if it has at most so many characters, else its beginning and its end around an ellipsis."""
    if len(text) <= most:
        return text
    tail = most // 3
    return text[: most - tail - 1] + "…" + text[len(text) - tail :]


def escaped(text):
    """A text with escapes for HTML and SVG, between tags or between quotes."""
    for c, name in (("&", "amp"), ("<", "lt"), (">", "gt"), ('"', "quot"), ("'", "#39")):
        text = text.replace(c, f"&{name};")
    return text


def json_in_page(value):
    """A value as JSON that no page takes for tags, comments or ends of lines."""
    text = json.dumps(value, ensure_ascii=False, separators=(",", ":"))
    for c in "<>&\u2028\u2029":
        text = text.replace(c, f"\\u{ord(c):04x}")
    return text
