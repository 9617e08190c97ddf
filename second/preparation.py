"""String preparation for caseExactMatch and caseIgnoreMatch: Q-1 of document 02, by the steps of RFC 4518 section 2.

Characters up to U+017F are mapped and normalized, each by itself; those above stand for themselves. Q-1 names neither the Prohibit
step nor the check of bidirectional text, so there is none.
"""

import stringprep
from itertools import groupby
from unicodedata import ucd_3_2_0 as unicode_3_2

LAST = "\u017f"
SPACE = "\u0020"
SOFT_HYPHEN = "\u00ad"
# CHARACTER TABULATION, LINE FEED, LINE TABULATION, FORM FEED, CARRIAGE RETURN, NEXT LINE.
CONTROLS_TO_SPACE = "\u0009\u000a\u000b\u000c\u000d\u0085"


def mapped(character, fold):
    """2.2 Map: the characters that one character becomes; `fold` asks for case folding by RFC 3454 table B.2."""
    if character in CONTROLS_TO_SPACE:
        return SPACE
    if character == SOFT_HYPHEN or unicode_3_2.category(character) == "Cc":
        return ""
    if unicode_3_2.category(character) == "Zs":
        return SPACE
    return stringprep.map_table_b2(character) if fold else character


def normalized(character):
    """2.3 Normalize: the NFKC form of a single character, by Unicode 3.2."""
    return unicode_3_2.normalize("NFKC", character)


def marked(form):
    """2.6.1: each character of a form with whether it is a space, which is a SPACE with no combining mark after it in that form."""
    return [(one, one == SPACE and not unicode_3_2.category(after).startswith("M")) for one, after in zip(form, form[1:] + SPACE)]


def image(character, fold):
    """What the steps before the removal of spaces make of a character: characters, each with whether it is a space."""
    if character > LAST:
        return [(character, False)]
    return [pair for one in mapped(character, fold) for pair in marked(normalized(one))]


def prepared(string, fold):
    """2.6.1 Insignificant Space Handling as Q-1 has it: spaces at both ends are dropped, inner runs of space made one."""
    images = [pair for character in string for pair in image(character, fold)]
    words = ["".join(one for one, _ in run) for is_space, run in groupby(images, key=lambda pair: pair[1]) if not is_space]
    return SPACE.join(words)
