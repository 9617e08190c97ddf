"""Component filters (RFC 3687) over DER records whose types are given by a table.

The five entries of Tezqulom's C interface (include/tezqulom.h) over ctypes: `check_table`, `check_value`,
`part`, `list_into` (with `listing`, which makes its own room) and `ask` (with `asker`, for many values). Each
answers for any octets and any numbers, so nothing has to be checked first; a refusal is the exception `Refused`.
Octets are any object that gives its bytes (bytes, bytearray, memoryview); a filter and a reference may be str as
well, which is taken as UTF-8. Numbers are integers from 0 on, of any size. Nothing is kept between calls, and
calls may run on several threads at once.

A list of two INTEGERs, and whether one of them is below 6:

    >>> table = bytes.fromhex("0E000102")  # row 0: SEQUENCE OF row 1; row 1: INTEGER
    >>> value = bytes.fromhex("3006020107020105")
    >>> ask(table, value, 'item:{component "*",rule integerOrderingMatch,value 6}')
    Answer(truth=<Truth.TRUE: 17>, tests=2)
    >>> listing(table, value, "*")
    [Stored(place=2, length=3), Stored(place=5, length=3)]
    >>> value_of(Kind.INTEGER, part(value, 5, 3))
    5

A text goes into a filter by `quoted`, never by itself: `item("event", "caseExactMatch", quoted(event))`. Names of bits go into it by `bit_list`:
`item("rights", "bitStringMatch", bit_list(["print", "perform"]))`. A distinguished name goes into it by `quoted_name`:
`item("holder", "distinguishedNameMatch", quoted_name([[("2.5.4.6", "AU")], [("2.5.4.3", holder)]]))`.

`tezqulom.builder` makes tables; `python -m tezqulom` is the command. The shared library is the file that the
environment variable TEZQULOM_LIBRARY names, else libtezqulom.so beside the package or in a folder above it, else
target/bindings/libtezqulom.so of the repository; docs/BINDINGS.md says how it is made.
"""

from .distinguished import NotName, name_text, quoted_name, rdns_of
from .engine import (MOST_TESTS, Answer, Component, Count, Default, NotQuoted, Octets, Refusal, Refused, Stored, Text,
                     Truth, ask, asker, bit_list, check_table, check_value, escaped, escaped_by_library, item, list_into,
                     listing, part, quoted, quoted_by_library, room_for)
from .values import Kind, Time, value_of
from .version import VERSION

__version__ = VERSION
__all__ = ["MOST_TESTS", "Answer", "Component", "Count", "Default", "Kind", "NotName", "NotQuoted", "Octets", "Refusal",
           "Refused", "Stored", "Text", "Time", "Truth", "ask", "asker", "bit_list", "check_table", "check_value", "escaped",
           "escaped_by_library", "item", "list_into", "listing", "name_text", "part", "quoted", "quoted_by_library",
           "quoted_name", "rdns_of", "room_for", "value_of"]
