"""Dotted OIDs, as the section "Rules" of document 01 has them."""

import re

# Two arcs or more, first 0..2, second below 40 under 0 and 1, of any size, no leading zeros.
DOTTED = r"(?:[01]\.(?:[0-9]|[123][0-9])|2\.(?:0|[1-9][0-9]*))(?:\.(?:0|[1-9][0-9]*))*"
OID_TEXT = re.compile(DOTTED)


def arcs_of(text):
    """The arcs of a dotted OID."""
    return tuple(int(arc) for arc in text.split("."))
