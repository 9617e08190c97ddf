"""Distinguished names: their texts by RFC 4514, and the octets that are stored.

A name is its RDNs in stored order, the highest first; an RDN is pairs of an attribute's type, a dotted OID, and its value. The text of a name has the
last RDN first.
"""

import re
from typing import Any, Iterable, List, Mapping, Tuple, Union

from .der import dotted, encoded, oid_contents, within
from .engine import LONGEST_VALUE, counted, escaped, quoted

MOST_RDNS, MOST_PAIRS = 16, 4
OID = r"(?:[01]\.[1-3]?[0-9]|2\.(?:0|[1-9][0-9]*))(?:\.(?:0|[1-9][0-9]*))*"

Pair = Tuple[str, str]
Rdn = Iterable[Pair]
Name = Union[str, Iterable[Rdn]]
"""A name given: its RFC 4514 text, or its RDNs in stored order."""

_SEQUENCE, _SET, _OID, _UTF8_STRING, _PRINTABLE_STRING = 0x30, 0x31, 0x06, 0x0C, 0x13
_TYPE = re.compile(OID)
_PRINTABLE = re.compile("[A-Za-z0-9 '()+,./:=?-]*")
_BARE = r'[^\0"+,;<>\\]'
_ESCAPE = r'\\(?:[\\"+,;<> #=]|[0-9A-Fa-f]{2})'
_VALUE = re.compile("(?:%s|%s)*" % (_BARE, _ESCAPE))
_HEX = re.compile(rb"\\(?:([0-9A-Fa-f]{2})|(.))", re.DOTALL)


class NotName(ValueError):
    """What is no name, or one beyond the limits, and why."""


def name_text(rdns: Iterable[Rdn]) -> str:
    """The RFC 4514 text of a name, of its RDNs in stored order: the last RDN stands first. A NotName beyond the limits.

    >>> name_text([[("2.5.4.6", "AU")], [("2.5.4.10", "Adacel")], [("2.5.4.3", "Legg, Steven")]])
    '2.5.4.3=Legg\\\\, Steven,2.5.4.10=Adacel,2.5.4.6=AU'
    """
    return ",".join("+".join("%s=%s" % (attribute, escaped(value)) for attribute, value in rdn) for rdn in reversed(_checked(rdns)))


def quoted_name(name: Name) -> str:
    """A name, of its RDNs in stored order or of its text, as the string that stands for it in a filter; nothing in it can end its item.

    An RDN for rdnMatch is a name of one RDN.

    >>> print(quoted_name([[('2.5.4.3', 'a"b')]]), quoted_name([]))
    "2.5.4.3=a\\""b" ""
    """
    text = name_text(rdns_of(name) if isinstance(name, str) else name)
    return quoted(text) if text else '""'


def rdns_of(text: str) -> List[List[Pair]]:
    """The RDNs of an RFC 4514 text in stored order. Types are dotted, and no value starts with a bare `#`. A NotName for any other text.

    >>> rdns_of("2.5.4.3=Legg\\\\2C Steven+2.5.4.5=7,2.5.4.6=AU")
    [[('2.5.4.6', 'AU')], [('2.5.4.3', 'Legg, Steven'), ('2.5.4.5', '7')]]
    """
    if not isinstance(text, str):
        raise TypeError("text: str is needed, not %s" % type(text).__name__)
    rdns: List[List[Pair]] = []
    at, before = 0, "," if text else ""
    while before:
        pair, at = _read_pair(text, at)
        if before == ",":
            rdns.append([])
        rdns[-1].append(pair)
        before, at = text[at:at + 1], at + 1
    return _checked(reversed(rdns))


def _not_name(at: int, sentence: str) -> NotName:
    return NotName("at character %d of the name: %s" % (at + 1, sentence))


def _read_pair(text: str, at: int) -> Tuple[Pair, int]:
    """The pair at a place, and where it ends: at a comma, at a plus sign, or at the end."""
    attribute = _TYPE.match(text, at)
    if attribute is None or not text.startswith("=", attribute.end()):
        raise _not_name(at, "a dotted type and = are needed")
    start = attribute.end() + 1
    value = _VALUE.match(text, start)
    assert value is not None
    end = value.end()
    if text[end:end + 1] == "\\":
        raise _not_name(end, "a backslash stands before neither two hexadecimal digits nor a character that is escaped")
    if text[end:end + 1] not in ("", ",", "+"):
        raise _not_name(end, "%s is not escaped" % ("NUL" if text[end] == "\0" else text[end]))
    return (attribute.group(), _unescaped(text, start, end)), end


def _unescaped(text: str, start: int, end: int) -> str:
    """The value of an escaped one."""
    raw = text[start:end]
    if raw[:1] in (" ", "#"):
        raise _not_name(start, "%s is not escaped at the start of a value" % ("a space" if raw[0] == " " else "#"))
    if re.sub(_ESCAPE, "x", raw).endswith(" "):
        raise _not_name(end - 1, "a space is not escaped at the end of a value")
    try:
        return _HEX.sub(lambda one: bytes.fromhex(one[1].decode()) if one[1] else one[2], raw.encode("utf-8")).decode("utf-8")
    except UnicodeError:
        raise _not_name(start, "the value is not UTF-8") from None


def _checked(rdns: Iterable[Rdn]) -> List[List[Pair]]:
    """RDNs within the limits."""
    found = [_checked_rdn(rdn) for rdn in _listed(rdns, "a name is a list of RDNs")]
    if len(found) > MOST_RDNS:
        raise NotName("the name has %d RDNs, more than %d" % (len(found), MOST_RDNS))
    return found


def _listed(given: Any, sentence: str) -> List[Any]:
    """A list of what is given in an order."""
    if isinstance(given, (str, bytes, Mapping, set, frozenset)):
        raise TypeError("name: %s, not %s" % (sentence, type(given).__name__))
    try:
        return list(given)
    except TypeError:
        raise TypeError("name: %s, not %s" % (sentence, type(given).__name__)) from None


def _checked_rdn(rdn: Rdn) -> List[Pair]:
    """An RDN within the limits."""
    pairs = [_checked_pair(pair) for pair in _listed(rdn, "an RDN is a list of pairs")]
    if not 1 <= len(pairs) <= MOST_PAIRS:
        raise NotName("an RDN has %s, not 1 to %d" % (counted(len(pairs), "pair"), MOST_PAIRS))
    return pairs


def _checked_pair(pair: Any) -> Pair:
    """A dotted type and a text."""
    if not isinstance(pair, (tuple, list)) or len(pair) != 2 or not all(isinstance(one, str) for one in pair):
        raise TypeError("name: a pair is a type and a value, both str, not %r" % (pair,))
    if not _TYPE.fullmatch(pair[0]):
        raise NotName("%r is no dotted type" % pair[0])
    return pair[0], pair[1]


def encoded_name(name: Name) -> bytes:
    """The octets of an RDNSequence, of its text or of its RDNs in stored order. A NotName beyond what can be stored.

    A value is a PrintableString where its characters allow it, else a UTF8String: the rules don't look at the kind.

    >>> encoded_name("2.5.4.3=é,2.5.4.6=AU").hex(" ")
    '30 1a 31 0b 30 09 06 03 55 04 06 13 02 41 55 31 0b 30 09 06 03 55 04 03 0c 02 c3 a9'
    """
    return _encoded(_SEQUENCE, [_encoded_rdn(rdn) for rdn in (rdns_of(name) if isinstance(name, str) else _checked(name))])


def encoded_rdn(rdn: Union[str, Rdn]) -> bytes:
    """The octets of a RelativeDistinguishedName, of its text or of its pairs, in the order of a SET OF. A NotName beyond what can be stored.

    >>> encoded_rdn([("2.5.4.5", "7"), ("2.5.4.3", "b")]).hex(" ")
    '31 14 30 08 06 03 55 04 03 13 01 62 30 08 06 03 55 04 05 13 01 37'
    """
    rdns = rdns_of(rdn) if isinstance(rdn, str) else [_checked_rdn(rdn)]
    if len(rdns) != 1:
        raise NotName("%s, not one" % counted(len(rdns), "RDN"))
    return _encoded_rdn(rdns[0])


def _encoded_rdn(pairs: List[Pair]) -> bytes:
    return _encoded(_SET, sorted(map(_encoded_pair, pairs)))


def _encoded_pair(pair: Pair) -> bytes:
    try:
        attribute, value = oid_contents(pair[0]), pair[1].encode("utf-8")
    except UnicodeError:
        raise NotName("a value with a lone surrogate has no octets") from None
    except ValueError as error:
        raise NotName("the type %s" % error) from None
    tag = _PRINTABLE_STRING if _PRINTABLE.fullmatch(pair[1]) else _UTF8_STRING
    return _encoded(_SEQUENCE, [encoded(_OID, attribute), _encoded(tag, [value])])


def _encoded(tag: int, parts: List[bytes]) -> bytes:
    """An encoding that a value has room for."""
    contents = b"".join(parts)
    if len(contents) > LONGEST_VALUE:
        raise NotName("it has %d octets, and a value at most %d" % (len(contents), LONGEST_VALUE))
    return encoded(tag, contents)


def text_of_name(contents: bytes) -> str:
    """The text of an RDNSequence's good contents."""
    return name_text([_pairs(rdn) for _, rdn in within(contents)])


def text_of_rdn(contents: bytes) -> str:
    """The text of a RelativeDistinguishedName's good contents."""
    return name_text([_pairs(contents)])


def _pairs(contents: bytes) -> List[Pair]:
    """The pairs in an RDN's good contents."""
    both = [within(pair) for _, pair in within(contents)]
    return [(dotted(attribute), value.decode("utf-8")) for (_, attribute), (_, value) in both]


def shown(text: str) -> str:
    """A name's text as a filter takes it, which can be shown on a terminal: other characters are hexadecimal pairs.

    >>> print(shown('2.5.4.3=a\\x1b\\\\"b'))
    "2.5.4.3=a\\1B\\""b"
    """
    printed = "".join(one if one.isprintable() else "".join("\\%02X" % octet for octet in one.encode("utf-8")) for one in text)
    return '"%s"' % printed.replace('"', '""')


NotName.__module__ = "tezqulom"
