"""Encodings in DER: headers, and the contents of OBJECT IDENTIFIERs."""

from typing import List, Tuple

MOST_SUBIDENTIFIERS = 32
LARGEST_SUBIDENTIFIER = 2 ** 32 - 1


def encoded(tag: int, contents: bytes) -> bytes:
    """An encoding: tag octet, shortest length, contents.

    >>> encoded(2, b"\\5").hex()
    '020105'
    """
    size = len(contents)
    length = bytes([size]) if size < 128 else bytes([0x81, size]) if size < 256 else b"\x82" + size.to_bytes(2, "big")
    return bytes([tag]) + length + contents


def contents_of(octets: bytes) -> bytes:
    """The contents of an encoding that the engine has found good."""
    return octets[2 + max(0, octets[1] - 0x80):]


def within(contents: bytes) -> List[Tuple[int, bytes]]:
    """The tag octet and the contents of each encoding in contents that the engine has found good.

    >>> within(bytes.fromhex("0201050500"))
    [(2, b'\\x05'), (5, b'')]
    """
    found, place = [], 0
    while place < len(contents):
        length = contents[place + 1]
        start = place + 2 + max(0, length - 0x80)
        end = start + (length if length < 0x80 else int.from_bytes(contents[place + 2:start], "big"))
        found.append((contents[place], contents[start:end]))
        place = end
    return found


def dotted(contents: bytes) -> str:
    """The dotted form of an OBJECT IDENTIFIER's contents.

    >>> dotted(bytes.fromhex("2a0304"))
    '1.2.3.4'
    """
    numbers, number = [], 0
    for octet in contents:
        number = number << 7 | octet & 0x7F
        if octet < 0x80:
            numbers.append(number)
            number = 0
    first = min(numbers[0] // 40, 2)
    return ".".join(map(str, [first, numbers[0] - 40 * first] + numbers[1:]))


def oid_contents(text: str) -> bytes:
    """The contents of an OBJECT IDENTIFIER, of its dotted form. A ValueError where a stored one can't be so long.

    >>> oid_contents("1.2.3.4").hex(), oid_contents("2.999").hex()
    ('2a0304', '8837')
    """
    first, *arcs = [min(int(arc[:len(str(LARGEST_SUBIDENTIFIER)) + 1]), LARGEST_SUBIDENTIFIER + 1) for arc in text.split(".")]
    numbers = [40 * first + arcs[0]] + arcs[1:]
    if len(numbers) > MOST_SUBIDENTIFIERS or max(numbers) > LARGEST_SUBIDENTIFIER:
        raise ValueError("%s has more than %d subidentifiers, or one above %d" % (text, MOST_SUBIDENTIFIERS, LARGEST_SUBIDENTIFIER))
    return b"".join(map(_subidentifier, numbers))


def _subidentifier(number: int) -> bytes:
    """A subidentifier: seven bits in an octet, the last one below 80."""
    octets = [number & 0x7F]
    while number > 0x7F:
        number >>= 7
        octets.append(0x80 | number & 0x7F)
    return bytes(reversed(octets))
