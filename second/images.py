"""The image of each character up to U+017F under string preparation, before spaces are trimmed and joined.

    python3 second/images.py                   prints a line for each character
    python3 second/images.py --compare FILE    compares such lines, `-` for standard input, and fails if any entry differs

A line has three fields with a tab between them: the code point, its image for caseExactMatch, its image for caseIgnoreMatch. An image is
code points of four hexadecimal digits with a space between them, `-` if there are none. `*` follows a space that NFKC puts before a combining
mark, which is neither trimmed nor joined.
"""

import sys

from preparation import LAST, SPACE, image

KEPT = (SPACE, False)


def shown(pairs):
    """An image as a field."""
    return " ".join("%04X%s" % (ord(pair[0]), "*" if pair == KEPT else "") for pair in pairs) or "-"


def lines():
    """All lines, in the order of the code points."""
    return ["%04X\t%s\t%s" % (code, shown(image(chr(code), False)), shown(image(chr(code), True))) for code in range(ord(LAST) + 1)]


def differences(others):
    """Each of our lines that is not in its place among the others, with what is there, and each line too many."""
    ours = lines()
    size = max(len(ours), len(others))
    ours, others = [one + ["nothing"] * (size - len(one)) for one in (ours, others)]
    return [(one, other) for one, other in zip(ours, others) if one != other]


def main():
    """Print the lines, or compare them with those of a file."""
    if sys.argv[1:2] != ["--compare"]:
        print("\n".join(lines()))
        return
    if len(sys.argv) != 3:
        sys.exit("images.py --compare FILE")
    with open(0 if sys.argv[2] == "-" else sys.argv[2], encoding="utf-8") as file:
        others = file.read().splitlines()
    found = differences(others)
    for one, other in found:
        print("expected %r, found %r" % (one, other))
    print("%d entries, %d differ" % (len(lines()), len(found)))
    sys.exit(1 if found else 0)


if __name__ == "__main__":
    main()
