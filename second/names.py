"""Distinguished names (Q-3 of document 02): the RFC 4514 strings that assert them, and when two names are the same.

A pair is an attribute type, as a tuple of arcs, and an attribute value. An RDN is a sequence of pairs, a name a sequence of RDNs, the first RDN
of the RDNSequence first.
"""

import re
from collections import Counter

import der
from dotted import DOTTED, arcs_of
from preparation import prepared

# RFC 4514 section 3: `pair`, and `leadchar`, `stringchar` and `trailchar` by the characters that they are not.
PAIR = r'\\(?:[\\"+,;<> #=]|[0-9A-Fa-f]{2})'
LEAD = r'[^\0 "#+,;<>\\]'
INNER = r'[^\0"+,;<>\\]'
TRAIL = r'[^\0 "+,;<>\\]'
# `string`, which may be empty. `hexstring` is left out, as is `descr` for a type: Q-3 has dotted types only, and no `#` values.
STRING = f"(?:(?:{LEAD}|{PAIR})(?:(?:{INNER}|{PAIR})*(?:{TRAIL}|{PAIR}))?)?"
TYPE_AND_VALUE = re.compile(f"({DOTTED})=({STRING})")
ESCAPED = re.compile(rb"\\(?:([0-9A-Fa-f]{2})|(.))")


def unescaped(text):
    """The value that a `string` stands for, or None: its octets, hex pairs taken for theirs, are valid UTF-8."""
    octets = ESCAPED.sub(lambda found: bytes.fromhex(found[1].decode()) if found[1] else found[2], text.encode("utf-8"))
    try:
        return octets.decode("utf-8", "strict")
    except UnicodeDecodeError:
        return None


def rdns_of(text):
    """The RDNs of a `distinguishedName` in the order of the text, or None if it isn't one of at most 16 RDNs of at most 4 pairs each."""
    rdns, place, before = [], 0, "," if text else ""
    while before:
        found = TYPE_AND_VALUE.match(text, place)
        value = unescaped(found[2]) if found else None
        if before not in ",+" or value is None:
            return None
        if before == ",":
            rdns.append([])
        rdns[-1].append((arcs_of(found[1]), value))
        place = found.end() + 1
        before = text[place - 1:place]
    return rdns if len(rdns) <= der.MOST_RDNS and all(len(rdn) <= der.MOST_PAIRS for rdn in rdns) else None


def name_of(text):
    """The name that an RFC 4514 string asserts, or None. The string has the last RDN first (RFC 4514 section 2.1); the empty one has none."""
    rdns = rdns_of(text)
    return None if rdns is None else rdns[::-1]


def rdn_of(text):
    """The RDN that an RFC 4514 string of exactly one RDN asserts, or None."""
    rdns = rdns_of(text)
    return rdns[0] if rdns is not None and len(rdns) == 1 else None


def comparable(pair):
    """A pair as what it is compared by: the arcs of its type, exactly, and its value as caseIgnoreMatch prepares it."""
    return pair[0], prepared(pair[1], fold=True)


def same_rdn(stored, asserted):
    """Pairs in an RDN match one to one, in any order."""
    return Counter(map(comparable, stored)) == Counter(map(comparable, asserted))


def same_name(stored, asserted):
    """Source document 004 section 4.2.10: the same number of RDNs, and corresponding RDNs, by position, are the same."""
    return len(stored) == len(asserted) and all(map(same_rdn, stored, asserted))
