"""RFC 4514 strings: names and RDNs written in one of the many ways there are, and others that are close to them."""

ESCAPES = '\\"+,;<> #='
# Strings that aren't of RFC 4514's form, or not of Q-3's: no dotted type, a `#` value, spaces, separators and escapes that are wrong.
ODD_NAMES = ["cn=a", "OID.2.5.4.3=a", "2.5.4.3=#0C0161", "2.5.4.3=#", "2.5.4.3= a", "2.5.4.3=a ", "2.5.4.3 =a", " 2.5.4.3=a", "2.5.4.3=a, 2.5.4.3=b",
             "2.5.4.3=a ,2.5.4.3=b", "2.5.4.3=a;2.5.4.3=b", "2.5.4.3=a,", ",2.5.4.3=a", "2.5.4.3=a+", "+2.5.4.3=a", "2.5.4.3=a,,2.5.4.3=b", "2.5.4.3", "=a",
             "2.5.4.03=a", "1.40=a", "3.1=a", "2=a", "2.5.=a", "2.5.4.3=\\", "2.5.4.3=a\\", "2.5.4.3=\\n", "2.5.4.3=\\-", "2.5.4.3=\\4", "2.5.4.3=\\C3a",
             "2.5.4.3=\\80", "2.5.4.3=\\ED\\A0\\80", "2.5.4.3=\"a\"", "2.5.4.3=<a>", "2.5.4.3=a\0", "2.5.4.3=\\Adacel", "2.5.4.3= ", "2.5.4.3=a\\  "]


def hex_pairs(dice, character):
    """A character as the hex pairs of its octets."""
    return "".join(("\\%02x" if dice.random() < 0.5 else "\\%02X") % octet for octet in character.encode("utf-8"))


def needs_escape(string, at):
    """Whether the character there can't stand bare in an attribute value."""
    character = string[at]
    return character in '\\"+,;<>\0' or (character == " " and at in (0, len(string) - 1)) or (character == "#" and at == 0)


def value_text(dice, string):
    """An attribute value, its characters escaped where they need it and now and then where they don't."""
    parts = []
    for at, character in enumerate(string):
        needed, way = needs_escape(string, at), dice.random()
        if character in ESCAPES and (way < 0.6 if needed else way < 0.15):
            parts.append("\\" + character)
        elif needed or way > 0.92:
            parts.append(hex_pairs(dice, character))
        else:
            parts.append(character)
    return "".join(parts)


def dotted(arcs):
    """The arcs of a type as a text."""
    return ".".join(str(arc) for arc in arcs)


def rdn_text(dice, pairs):
    """An RDN as an RFC 4514 string, its pairs in any order."""
    return "+".join("%s=%s" % (dotted(arcs), value_text(dice, string)) for arcs, string in dice.sample(pairs, len(pairs)))


def name_text(dice, rdns):
    """A name as an RFC 4514 string: the last RDN first."""
    return ",".join(rdn_text(dice, rdn) for rdn in reversed(rdns))


def like(dice, string):
    """A string that caseIgnoreMatch mostly takes for this one: spaces and case changed, something put in that is mapped to nothing."""
    way = dice.randrange(6)
    if way == 0:
        return string.swapcase() if string.isascii() else string.upper()
    if way == 1:
        return " %s " % string.replace(" ", "   ")
    if way == 2:
        at = dice.randint(0, len(string))
        return string[:at] + dice.choice(["\u00ad", "\0", "\x7f", "\u009f"]) + string[at:]
    return string


def near_pair(dice, pair):
    """A pair that differs a little: in its type or in its value."""
    arcs, string = pair
    way = dice.randrange(6)
    if way == 0:
        return arcs + (0,), string
    if way == 1:
        return arcs[:-1] + (arcs[-1] + dice.choice([2 ** 32, 2 ** 64]),) if len(arcs) > 2 else (2, 2 ** 32 + 5), string
    if way == 2:
        return (2, 5, 4, 3) if arcs != (2, 5, 4, 3) else (2, 5, 4, 6), string
    return arcs, dice.choice([string + dice.choice("bB #=\u0301\u00e9"), string[:-1], string[1:], "", "a", string + " " + string])


def near_rdn(dice, pairs):
    """An RDN that differs in one pair, has one more or one less, or one of them twice."""
    pairs, at = [*pairs], dice.randrange(len(pairs))
    way = dice.randrange(5)
    if way == 0 and len(pairs) > 1:
        del pairs[at]
    elif way == 1:
        pairs.append(dice.choice(pairs))
    elif way == 2:
        pairs[at] = dice.choice(pairs)
    else:
        pairs[at] = near_pair(dice, pairs[at])
    return pairs


def near_name(dice, rdns):
    """A name that differs in one RDN, has one more or one less, or others in another order or joined."""
    rdns = [*rdns]
    if not rdns:
        return [[((2, 5, 4, 3), dice.choice(["", "a"]))]]
    at, way = dice.randrange(len(rdns)), dice.randrange(7)
    if way == 0:
        return rdns[::-1]
    if way == 1:
        return rdns[:at] + rdns[at + 1:]
    if way == 2:
        return rdns[:at] + [rdns[at]] + rdns[at:]
    if way == 3 and at:
        return rdns[:at - 1] + [rdns[at - 1] + rdns[at]] + rdns[at + 1:]
    if way == 4 and len(rdns[at]) > 1:
        return rdns[:at] + [[one] for one in rdns[at]] + rdns[at + 1:]
    rdns[at] = near_rdn(dice, rdns[at])
    return rdns
