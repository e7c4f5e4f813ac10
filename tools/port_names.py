#!/usr/bin/env python3
"""port_names.py ROOT: brings the repository's own definitions and lemmas to the spelling of today's Rattle, in crates/ below ROOT.

Run once, right after the toolchain's port.py. Words are in snake case: shiftTables becomes shift_tables. In a lemma's name a dash joins two
names of definitions, and a plain word is added with '_': length-setAll becomes length-set_all, cleared-none becomes cleared_none. Types keep
their capitals. Where two names would fall together, the lemma gets '_lem', and both are listed. Proof files, contracts and must-fail edits follow.
"""
import glob
import os
import re
import sys

IDENT = r"[^\s(){}.;,@\"«»\[\]\\⌜⌝|]+"
TOKEN = re.compile(r"--[^\n]*|//[^\n]*|\"(?:[^\"\\]|\\.)*\"|" + IDENT)
DECLARED = re.compile(r"(?m)^[ \t]*(?:(?:abbrev|unfoldable|pub|inline|opaque) )*(" + IDENT + r") :(?= |$)")
ITEM = re.compile(r"(?m)^[ \t]*(?:(?:abbrev|unfoldable|pub) )*(?:record|data|ruleset|syntax) (?:pub )?(" + IDENT + r")")
STD_USE = re.compile(r"use (?:Rattle\.std|native|lib|mathlib|Prim|borrow|denote)\.[^\n{]*\{([^}]*)\}")
# Words of the library that a dash joins, beside the repository's own definitions.
WORDS = set(
    "length map take drop set get_or append reverse sum replicate add sub mul div mod pow suc zero min max cond not and or filter foldr foldl concat zip eqb leb ltb slice_range"
    " of_bits to_bits head tail".split()
)
MADE = re.compile(r"^(Need|calls|Live|Entry|Args|In|At|After|Start|tie|c|goal)-")


def snake(part):
    """A camel-case word in snake case; a word that begins with a capital, or has none, stays."""
    if not part or not part[0].islower() or part.upper() == part:
        return part
    part = part.replace("getD", "get_or")
    part = re.sub(r"(?<=[a-z0-9'])([A-Z])(?=[A-Z0-9']*(?:[a-z]|$))", lambda m: "_" + m[1], part)
    part = re.sub(r"(?<=[a-z0-9'])([A-Z])", lambda m: "_" + m[1], part)
    return part.lower() if part.isascii() else part


def read(path):
    with open(path, encoding="utf-8") as f:
        return f.read()


def own_files(root):
    for part in ("specs", "proofs"):
        for top, dirs, files in os.walk(os.path.join(root, "crates")):
            dirs[:] = sorted(d for d in dirs if d != "out")
            if os.sep + part in top[len(root):] + os.sep:
                for f in sorted(files):
                    if f.endswith(".antt") and f != "Proof.antt":
                        yield os.path.join(top, f)


def names(root):
    """The renamed names, old to new."""
    declared, library = set(), set()
    for path in own_files(root):
        text = read(path)
        declared.update(DECLARED.findall(text))
        declared.update(ITEM.findall(text))
    for path in glob.glob(os.path.join(root, "crates", "**", "*.*t*"), recursive=True):
        if path.endswith((".rt", ".antt")) and "/out/" not in path:
            for group in STD_USE.findall(read(path)):
                library.update(w.strip().split(" ")[0] for w in group.split(","))
    declared = {n for n in declared if n not in library and not n.startswith(("--", "«", "◌")) and re.match(r"[^\W\d]", n)}
    plain = {n: snake(n) for n in declared if "-" not in n}
    heads = set(plain.values()) | WORDS | {n for n in declared if n[0].isupper()}
    out = {n: s for n, s in plain.items() if s != n}
    for n in declared:
        if "-" not in n:
            continue
        if n[0].isupper() and not n[1:2].islower():
            continue
        parts = [snake(p) for p in n.split("-")]
        new = parts[0]
        for before, part in zip(parts, parts[1:]):
            joined = part and (part in heads or part.rstrip("'") in heads) and before in heads
            new += ("-" if joined or not part[:1].isalnum() or not before[-1:].replace("'", "x").isalnum() else "_") + part
        if new != n:
            out[n] = new
    # names that fall together: a definition has the name, and a lemma gets '_lem'
    taken = (declared - set(out)) | library
    clash = []
    for n in sorted(out, key=lambda n: ("-" in n, n)):
        new = out[n]
        if new in taken:
            clash.append((n, new))
            if "-" in n:
                out[n] += "_lem"
            elif new in declared and new not in library and new + "_lem" not in taken:
                out[new] = new + "_lem"
                taken.add(new + "_lem")
            else:
                out[n] += "_of"
        taken.add(out[n])
    return out, clash


def renamed(text, table, fields=None):
    """The text of a file of specs/ or proofs/; with fields, of a proof of a function, where a name after a dot is the program's unless it is a field."""

    aliases = set(re.findall(r"(?m)^use Rattle\.(?!std\.)[^\s{]* as (\S+)$", text))

    def aliased(at):
        head = re.search(r"(?:^|[\s(\[{,])([^\s(\[{,.]+)\.$", text[max(0, at - 60):at])
        return bool(head) and head[1] in aliases and head[1] != "tie"

    def one(m):
        t = m[0]
        if t.startswith(("--", "//")):
            return re.sub(r"`(" + IDENT + r")`", lambda k: "`" + table.get(k[1], k[1]) + "`", t)
        if fields is not None and m.start() and text[m.start() - 1] == "." and t not in fields and not aliased(m.start()):
            return t
        return table.get(t, t)

    return TOKEN.sub(one, text)


def source(text, table):
    """A .rt file: only camel-case or dashed names change, and no name of the code has either."""

    def one(m):
        return m[0] if m[0].startswith(("//", '"')) or m[0].replace("_", "").islower() else table.get(m[0], m[0])

    return TOKEN.sub(one, text)


def fields_of(root):
    """The fields of the repository's records."""
    out = set()
    for path in own_files(root):
        for record in re.findall(r"(?ms)^[ \t]*(?:pub )?record .*?(?=\n\n|\Z)", read(path)):
            out.update(DECLARED.findall(record))
    return out


def main(root):
    table, clash = names(root)
    if "--table" in sys.argv:
        for k in sorted(table):
            print(k, table[k])
        for k in clash:
            print("clash", *k)
        return
    fields = fields_of(root)
    for top, dirs, files in os.walk(os.path.join(root, "crates")):
        dirs[:] = sorted(d for d in dirs if d != "out")
        for f in sorted(files):
            path = os.path.join(top, f)
            if f.endswith((".antt", ".rt", ".edit")):
                text = read(path)
                new = source(text, table) if f.endswith((".rt", ".edit")) else renamed(text, table, fields if f == "Proof.antt" else None)
                if new != text:
                    with open(path, "w", encoding="utf-8") as out:
                        out.write(new)
    for n, new in clash:
        print(f"{n}: {new} is taken, {table[n]} instead")
    print(f"{len(table)} names")


main(sys.argv[1])
