#!/usr/bin/env python3
"""Brings this repository's own names to the kit's spelling, after port.py has run: words in snake case, a dash between two names alone.

usage: python3 tools/spell.py [--names]     at the top of the repository, once; --names prints each name beside its new one and writes nothing

It goes by words over crates/*/specs, crates/*/proofs, the crates' sources and their must-fail edits. Text in double quotes stays, comments change only
between backticks, and names of the kit's library stay. It stops where two names would fall together.
"""

import os
import re
import subprocess
import sys

KIT = os.path.dirname(subprocess.run(["rt", "doc"], capture_output=True, text=True, check=True).stdout.strip())
WORD = re.compile(r"[^\s(){}\[\].,;:\"`⟦⟧]+")
DEFINED = re.compile(r"^\s*((?:(?:pub|unfoldable|abbrev|opaque|private|data|record) )*)([^\s(){}\[\].,;:\"`]+(?: [^\s(){}\[\].,;:\"`]+)*) :(?:\s|$)")
CONSTRUCTOR = re.compile(r"^\s*\| ?([^\s(){}\[\].,;:\"`]+)")
# the path of an import, whose parts are modules and functions
USE = re.compile(r"^(?:pub )?(?:ghost )?use [^{ ]+(?= as |\.\{|$|;)|^\s*(?:ghost )?use [^{ ]+(?= as |\.\{|$|;)")
MODULE = re.compile(r"(?<=\.specs\.)inner(?=\.)|(?<=^pub mod )inner$")
HUMP = re.compile(r"(?<=[a-z0-9₀-₉'′])(?=[A-Z])")
WORDS_BEFORE = {"let", "in", "use", "mod", "module", "where", "λ", "rw", "ap", "subst"}


def files(root, ends):
    for folder, dirs, names in os.walk(os.path.join(root, "crates")):
        dirs[:] = sorted(d for d in dirs if d != "out")
        for name in sorted(names):
            if name.endswith(ends):
                yield os.path.join(folder, name)


def read(path):
    with open(path, encoding="utf-8") as f:
        return f.read()


def defined_in(text, definitions=None):
    """The names that a file of antt defines: definitions, lemmas, constructors, fields. Those that are no lemmas go into definitions too."""
    found = set()
    inside = False
    for line in text.splitlines():
        if line.lstrip().startswith(("--", "use ", "let ")):
            continue
        m = DEFINED.match(line)
        if line and not line[0].isspace():
            inside = bool(re.match(r"(pub )?(data|record) ", line))
        if m:
            names = m.group(2).split(" ")
            if not WORDS_BEFORE & set(names):
                found.update(names)
                if definitions is not None and (inside or re.search("unfoldable|abbrev|data|record", m.group(1))):
                    definitions.update(names)
    return found


def library_words():
    """Every word of the kit's own antt and sources: a name that the kit uses stays as it is."""
    found = set()
    for top in ("rattle", ):
        for folder, dirs, names in os.walk(os.path.join(KIT, top)):
            dirs[:] = [d for d in dirs if d not in ("out", "examples", "tests")]
            for name in names:
                if name.endswith(".antt"):
                    try:
                        found |= defined_in(read(os.path.join(folder, name)))
                    except UnicodeDecodeError:
                        pass
    return found


def snake(part):
    if not part or not part[0].islower():
        return part
    return HUMP.sub("_", part).lower() if HUMP.search(part) else part


def respelled(name, definitions):
    """A word in its new spelling. A dash stays where it joins two definitions; a plain word is added with an underscore."""
    parts = [snake(p) for p in name.split("-")]
    if not all(re.match(r"^[\w'′]+$", p) for p in parts):
        return name
    for k in range(1, len(parts)):
        left, right = "_".join(parts[:k]), "_".join(parts[k:])
        if left in definitions and right in definitions:
            return left + "-" + right
    return "_".join(parts)


def cut(line, comment):
    """A line in pieces: (text, whether it is code). Text in double quotes and comments are no code, but for what stands between backticks in a comment."""
    out, i, n = [], 0, len(line)
    start = 0
    while i < n:
        if line[i] == '"':
            out.append((line[start:i], True))
            j = i + 1
            while j < n and line[j] != '"':
                j += 2 if line[j] == "\\" else 1
            out.append((line[i:j + 1], False))
            i = start = j + 1
        elif line.startswith(comment, i) and (i == 0 or line[i - 1] in " \t"):
            out.append((line[start:i], True))
            rest = line[i:].split("`")
            for k, piece in enumerate(rest):
                out.append((piece, k % 2 == 1))
                if k + 1 < len(rest):
                    out.append(("`", False))
            return out
        else:
            i += 1
    out.append((line[start:], True))
    return out


def turned(text, comment, table):
    def word(m):
        return table.get(m.group(0), m.group(0))

    lines = []
    for line in text.split("\n"):
        path = USE.match(line)
        head = path.group(0) if path else ""
        body = "".join(WORD.sub(word, piece) if code else piece for piece, code in cut(line[len(head):], comment))
        lines.append(MODULE.sub("Inner", head) + MODULE.sub("Inner", body))
    return "\n".join(lines)


def names_of(root):
    """The repository's own names, but for those of a function's proof that port.py and the check go by; and which of them are definitions."""
    own, definitions = set(), set()
    for path in files(root, ".antt"):
        found = defined_in(read(path), definitions)
        if path.endswith("/Proof.antt") or "/proofs/+" in path:
            found = {f for f in found if not re.match(r"(invariant|decreases|requires|returns)-|.*-spec$", f)}
        own |= found
    return own, definitions


def table_of(root):
    own, definitions = names_of(root)
    library = library_words()
    generated = re.compile(r"^(invariant|decreases|loop|returns|then|else|the)-|-spec$|-(variants|fields)$")
    known = {snake(n) for n in definitions if "-" not in n and len(n) > 1} | {"length", "take", "drop", "append", "add", "sub"}
    table = {}
    for name in sorted(own):
        if name in library or generated.search(name):
            continue
        new = respelled(name, known)
        if new != name:
            table[name] = new
    # words in mixed case that are no definitions: parameters, fields by another form, aliases
    for path in files(root, (".antt", )):
        for line in read(path).split("\n"):
            for piece, code in cut(re.sub(r"(^|\s)-- .*", "", line), "--"):
                for w in WORD.findall(piece) if code else ():
                    if w not in table and w not in library and re.match(r"^[a-z][\w'′]*$", w) and HUMP.search(w):
                        table[w] = snake(w)
    table["is-basic"] = "is_basic_type"  # beside the test `is_basic`
    # a lemma that would have its definition's name
    by_new = {}
    for old, new in table.items():
        by_new.setdefault(new, []).append(old)
    for new, olds in by_new.items():
        for old in olds:
            if len(olds) > 1 and old not in definitions and old in own and "-" in old:
                table[old] = new + "_lem"
        if new in own and new not in definitions and any(o in definitions for o in olds):
            table[new] = new + "_lem"
    return table, own, library


def fall_together(root, table, library):
    """Names that differed and would no longer: each new name has one old name, and isn't a word already in use in a file with the old one."""
    bad, by_new = [], {}
    for old, new in table.items():
        by_new.setdefault(new, []).append(old)
    bad += [f"{', '.join(olds)} -> {new}" for new, olds in by_new.items() if len(olds) > 1]
    for path in files(root, (".antt", ".rt")):
        comment = "--" if path.endswith(".antt") else "//"
        words = set()
        for line in read(path).split("\n"):
            for piece, code in cut(line, comment):
                if code:
                    words.update(WORD.findall(piece))
        for w in words & set(table):
            if table[w] in words:
                bad.append(f"{os.path.relpath(path, root)}: {w} -> {table[w]}, which stands there already")
    return bad


def main(argv):
    root = subprocess.run(["git", "rev-parse", "--show-toplevel"], capture_output=True, text=True, check=True).stdout.strip()
    table, own, library = table_of(root)
    together = fall_together(root, table, library)
    if argv == ["--names"]:
        for old in sorted(table):
            print(old, table[old])
        print("\n".join(together), file=sys.stderr)
        return 0
    if argv:
        print(__doc__)
        return 2
    # sources and edits name functions too, which keep their names: there only names that no function can have are turned
    ghost = {old: new for old, new in table.items() if "-" in old or HUMP.search(old)}
    for path in files(root, (".antt", ".rt", ".edit")):
        text = read(path)
        if path.endswith(".edit"):
            new = turned(text, "\0", ghost)
        else:
            new = turned(text, "--" if path.endswith(".antt") else "//", table if path.endswith(".antt") else ghost)
        if new != text:
            with open(path, "w", encoding="utf-8") as f:
                f.write(new)
    for folder, dirs, names in os.walk(os.path.join(root, "crates")):
        if os.path.basename(folder) == "specs":
            for name in ("inner", "inner.antt"):
                if name in dirs + names:
                    os.rename(os.path.join(folder, name), os.path.join(folder, "I" + name[1:]))
    print(f"spell: {len(table)} names")
    for line in together:
        print("together: " + line)
    return 0


if __name__ == "__main__":
    sys.exit(main(sys.argv[1:]))
