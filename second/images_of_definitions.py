"""Compares the table of images of the definitions, crates/strings/specs/Images.antt, with Python's stringprep and Unicode 3.2 data, entry by entry.

    python3 second/images_of_definitions.py    says how many characters were compared, and fails if any differs
"""

import pathlib
import re
import sys

import images

FILE = pathlib.Path(__file__).resolve().parent.parent / "crates/strings/specs/Images.antt"
NUMBER = r"(0x[0-9A-F]{4})"
ROWS = {
    "run": re.compile(rf"run {NUMBER} {NUMBER} ()(.*)"),
    "one": re.compile(rf"one {NUMBER}()() (.*)"),
    "folded_run": re.compile(rf"folded_run {NUMBER} {NUMBER} (\d) (.*)"),
    "folded_one": re.compile(rf"folded_one {NUMBER}()() (.*)"),
}
TWOFOLD = re.compile(rf"twofold {NUMBER} \((.*?)\) \((.*?)\)")


def characters(text):
    """The code points of a list."""
    return [int(number, 16) for number in re.findall(NUMBER, text)]


def field(code, text):
    """An image, as the line of a character has it; a space among characters is one that NFKC puts there."""
    text = text.strip()
    text = text[1:-1] if text.startswith("(") else text
    kind, _, rest = text.partition(" ")
    if kind == "nothing":
        return "-"
    if kind == "space":
        return "0020"
    if kind in ("above", "below"):
        return "%04X" % (code + int(rest) if kind == "above" else code - int(rest))
    if kind == "characters":
        return " ".join("0020*" if one == 0x20 else "%04X" % one for one in characters(rest))
    raise ValueError(text)


def row(text):
    """First, last, step, the image with folding, the image without, None for the character itself."""
    found = TWOFOLD.fullmatch(text)
    if found:
        first = int(found[1], 16)
        return first, first, 1, "characters (%s)" % found[2], "characters (%s)" % found[3]
    kind = text.split()[0]
    found = ROWS[kind].fullmatch(text)
    first = int(found[1], 16)
    last = int(found[2], 16) if found[2] else first
    return first, last, int(found[3] or 1), found[4], None if kind.startswith("folded") else found[4]


def rows(text):
    """The rows of the table."""
    body = text[text.index("\ntable =\n") + len("\ntable =\n"):]
    lines = body[:body.index("\n    ∷ []\n")].splitlines()
    return [row(line.split("--")[0].strip().removeprefix("∷").strip()) for line in lines]


def line(table, code):
    """The line of a character, by the first row that has it."""
    for first, last, step, folded, exact in table:
        if first <= code <= last and (code - first) % step == 0:
            return "%04X\t%s\t%s" % (code, field(code, exact) if exact else "%04X" % code, field(code, folded))
    return "%04X\t%04X\t%04X" % (code, code, code)


def lines():
    """The lines of all characters up to U+017F."""
    table = rows(FILE.read_text(encoding="utf-8"))
    return [line(table, code) for code in range(0x180)]


def main():
    """Compare, and say what differs."""
    found = images.differences(lines())
    for one, other in found:
        print("expected %r, found %r" % (one, other))
    print("%d characters, %d differ" % (len(lines()), len(found)))
    sys.exit(1 if found else 0)


if __name__ == "__main__":
    main()
