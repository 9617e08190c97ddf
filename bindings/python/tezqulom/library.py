"""The shared library: which file it is, and its functions as include/tezqulom.h declares them."""

import ctypes
import os
import pathlib
from typing import Any, Iterator

VARIABLE = "TEZQULOM_LIBRARY"
NAME = "libtezqulom.so"
FUNCTIONS = tuple("tezqulom_" + name for name in ("check_table", "check_value", "part", "list", "ask", "quote", "escape"))
WRITERS = FUNCTIONS[-2:]
"""Those that a library may lack."""


class CAnswer(ctypes.Structure):
    """The C interface's answer."""

    _fields_ = [("number", ctypes.c_uint64), ("count", ctypes.c_uint64)]


def _places() -> Iterator[pathlib.Path]:
    """Where the library may stand: in the package, in the folders above it (an installation), in the repository."""
    here = pathlib.Path(__file__).resolve().parent
    yield here / NAME
    for folder in list(here.parents)[:4]:
        yield folder / NAME
    for folder in list(here.parents)[:3]:
        yield folder / "target" / "bindings" / NAME


def file() -> str:
    """The file that the environment names, else the first that is there."""
    named = os.environ.get(VARIABLE)
    if named is not None:
        if os.path.isfile(named):
            return named
        raise ImportError("there is no %s, which %s names" % (named, VARIABLE))
    for place in _places():
        if place.is_file():
            return str(place)
    raise ImportError("there is no %s: make it by bindings/run, or set %s to it" % (NAME, VARIABLE))


def load() -> ctypes.CDLL:
    """The library with its functions declared, those that write texts where the library has them."""
    number = [ctypes.c_uint64]
    octets, room = [ctypes.c_char_p] + number, [ctypes.POINTER(ctypes.c_uint64)] + number
    try:
        loaded = ctypes.CDLL(file())
    except OSError as error:
        raise ImportError("the library can't be loaded: %s" % error) from None
    written = octets + [ctypes.POINTER(ctypes.c_uint8)] + number
    declared = (octets, octets * 2, octets + number * 2, octets * 2 + number + octets + number + room, octets * 3 + number, written, written)
    for name, arguments in zip(FUNCTIONS, declared):
        function = getattr(loaded, name, None)
        if function is None and name not in WRITERS:
            raise ImportError("%s has no %s" % (loaded._name, name))
        if function is not None:
            function.argtypes, function.restype = arguments, CAnswer
    return loaded


class Library:
    """The library, loaded when a function is first asked for. An ImportError where there is none."""

    def __getattr__(self, name: str) -> Any:
        loaded = load()
        for function in FUNCTIONS:
            if hasattr(loaded, function):
                self.__dict__[function] = getattr(loaded, function)
        self.__dict__["file"] = loaded._name
        if name not in self.__dict__:
            raise AttributeError("%s has no %s" % (loaded._name, name))
        return self.__dict__[name]


library = Library()
