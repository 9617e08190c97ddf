"""Member rows as octets, of kind 16 and of kind 21 (Q-4 of document 02)."""

import der


def name_field(name, size):
    """A name, as a text or as octets, in a field of so many octets."""
    return (name.encode() if isinstance(name, str) else name).ljust(size, b"\0")


def after_name(row, mode=0, number=0, presence=0, default=b"", fill=b""):
    """What stands in a member row after the name."""
    return row.to_bytes(2, "big") + bytes([mode, number, presence, len(default)]) + (default + fill).ljust(8, b"\0")


def member(name, row, *others, **more):
    """A member row of kind 16, for a name of at most 24 characters; after the row number what `after_name` takes."""
    return bytes([der.MEMBER]) + name_field(name, 24) + after_name(row, *others, **more)


def long_member(name, row, *others, **more):
    """A member row of kind 21, for a name of 25 to 48 characters (Q-4); after the row number what `after_name` takes."""
    return bytes([der.LONG_MEMBER]) + name_field(name, 48) + after_name(row, *others, **more)


def either_member(name, row, *others, **more):
    """A member row of the kind that the length of its name asks for."""
    return (member if len(name) <= 24 else long_member)(name, row, *others, **more)
