"""The command's inputs: files and standard input, in DER, hexadecimal digits or PEM."""

import base64
import binascii
import re
import sys
from typing import NamedTuple, NoReturn

USAGE, NO_INPUT, WRITE_ERROR = 64, 66, 74
LARGEST = 1 << 20
_HEX = re.compile(rb"[0-9A-Fa-f\s]*[0-9A-Fa-f][0-9A-Fa-f\s]*")
_PEM = re.compile(rb"-----BEGIN [^\r\n]*-----\s(.*?)-----END [^\r\n]*-----", re.DOTALL)
_FILTER = ("item:", "and:", "or:", "not:")


class Stop(Exception):
    """Ends the command with a status and a message."""

    def __init__(self, status: int, message: str) -> None:
        super().__init__(message)
        self.status = status


class Input(NamedTuple):
    """An input: the name that messages use, and its octets."""

    name: str
    octets: bytes


def recognised(octets: bytes) -> bytes:
    """The octets that DER, hexadecimal digits or PEM stand for. A ValueError for digits or PEM that are damaged.

    No good value and no admitted table is hexadecimal digits and spaces alone, and none starts as PEM does, so none is mistaken: a SEQUENCE of such
    octets has contents, and in them only further SEQUENCEs and SETs could start; and no kind of row is a digit or a letter.

    >>> recognised(b"02 01\\n05\\n"), recognised(b"\\x02\\x01\\x05")
    (b'\\x02\\x01\\x05', b'\\x02\\x01\\x05')
    """
    if octets.startswith(b"-----BEGIN "):
        return _of_pem(octets)
    if not _HEX.fullmatch(octets):
        return octets
    try:
        return bytes.fromhex(b"".join(octets.split()).decode("ascii"))
    except ValueError:
        raise ValueError("an odd number of hexadecimal digits") from None


def _of_pem(octets: bytes) -> bytes:
    """The octets of a PEM text's one block."""
    blocks = _PEM.findall(octets)
    if len(blocks) != 1:
        raise ValueError("PEM with %d whole blocks, not one" % len(blocks))
    try:
        return base64.b64decode(b"".join(blocks[0].split()), validate=True)
    except binascii.Error:
        raise ValueError("PEM whose base64 is damaged") from None


def no_file(name: str, error: OSError) -> NoReturn:
    """Ends the command for a file that can't be read."""
    raise Stop(NO_INPUT, "%s: %s" % (name, (error.strerror or str(error)).lower())) from None


class Inputs:
    """Reads inputs; standard input once."""

    def __init__(self) -> None:
        self.taken = False

    def raw(self, path: str) -> Input:
        """A file's octets as they are."""
        if path == "-":
            return Input("standard input", self._standard())
        try:
            with open(path, "rb") as file:
                return Input(path, self._whole(path, file))
        except OSError as error:
            no_file(path, error)
        except ValueError as error:
            raise Stop(NO_INPUT, "%r: %s" % (path, error)) from None

    @staticmethod
    def _whole(name: str, file: object) -> bytes:
        octets = file.read(LARGEST + 1)  # type: ignore[attr-defined]
        if len(octets) > LARGEST:
            raise Stop(NO_INPUT, "%s: more than %d octets" % (name, LARGEST))
        return octets

    def _standard(self) -> bytes:
        if self.taken:
            raise Stop(USAGE, "standard input can be read once only")
        self.taken = True
        try:
            if sys.stdin is None:
                raise OSError("it is closed")
            return self._whole("standard input", sys.stdin.buffer)
        except OSError as error:
            no_file("standard input", error)

    def octets(self, path: str) -> Input:
        """A table or a record."""
        given = self.raw(path)
        try:
            return Input(given.name, recognised(given.octets))
        except ValueError as error:
            raise Stop(NO_INPUT, "%s: %s" % (given.name, error)) from None

    def filter(self, given: str) -> Input:
        """A filter: its text, which starts with item:, and:, or: or not:, else a file of it. A line feed that ends the file is dropped."""
        if given.startswith(_FILTER):
            return Input("the filter", given.encode("utf-8", "surrogateescape"))
        try:
            found = self.raw(given)
        except Stop as stop:
            raise Stop(stop.status, "%s (a filter's text starts with item:, and:, or: or not:)" % stop) from None
        return Input(found.name, re.sub(rb"\r?\n\Z", b"", found.octets))
