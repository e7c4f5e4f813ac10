#!/usr/bin/env python3
"""port_ghosts.py ROOT: turns contracts over a ghost value into contracts of today's form, in crates/*/src below ROOT.

    ghost { ShiftTables }
    requires* tie { λ T. ⌜ shift_tables p2s.now .. ≡ T ⌝ }                                      (gone)
    requires* fact { λ T. ⌜ Ready .. T ⌝ }       ->   requires ready { let T : ShiftTables = shift_tables p2s.now .. in Ready .. T }
    ensures* { λ T r. ⌜ r ≡ f T ⌝ }              ->   ensures { let T : ShiftTables = shift_tables p2s.now .. in result ≡ f T }

The value was fixed by the equation, so the contract says the same. A clause's name is the first fact that it states.
"""
import glob
import os
import re
import sys

HEAD = re.compile(r"\n[ \t]*ghost \{ (\w+) \}\n")
CLAUSE = re.compile(r"[ \t]*(requires|ensures)\*? ?(\w+)? ?\{ λ ([^.]*)\. ⌜(.*?)⌝ \}\n", re.S)
TIE = re.compile(r"^(.*) ≡ (\w+)$", re.S)


def snake(word):
    return re.sub(r"(?<=[a-z0-9])(?=[A-Z])", "_", word).lower()


def name_of(text, taken):
    word = re.match(r"([A-Z]\w*)", text)
    name = snake(word[1]) if word and len(word[1]) > 1 else "in_range"
    k, out = 2, name
    while out in taken:
        out, k = f"{name}_{k}", k + 1
    taken.add(out)
    return out


def turn(text, path):
    at = 0
    while head := HEAD.search(text, at):
        kind, start, end = head[1], head.start() + 1, head.end()
        clauses = []
        while m := CLAUSE.match(text, end):
            clauses.append((m[1], m[2], m[3].split(), " ".join(m[4].split())))
            end = m.end()
        if not re.match(r"\s*\{", text[end:]):
            print(f"look: {path}: {text[end:end + 200]!r}")
        ties = [(i, TIE.match(c[3])) for i, c in enumerate(clauses) if c[0] == "requires"]
        tie = next((i, m) for i, m in ties if m and m[2] == clauses[i][2][0])
        value, out, count = tie[1][1], [], {}
        for i, (word, _, _, _) in enumerate(clauses):
            if i != tie[0]:
                count[word] = count.get(word, 0) + 1
        taken, renames = set(), []
        for i, (word, old, binders, fact) in enumerate(clauses):
            if i == tie[0]:
                continue
            g = binders[0]
            if word == "ensures" and len(binders) > 1 and binders[1] != "_":
                fact = re.sub(rf"(?<![\w.'«-]){re.escape(binders[1])}(?![\w'-])", "result", fact)
            bound = f"let {g} : {kind} = {value} in " if re.search(rf"(?<![\w.'«-]){re.escape(g)}(?![\w'-])", fact) else ""
            name = " " + name_of(fact, taken) if count[word] > 1 else ""
            renames.append((word, old, name.strip()))
            out.append(f"    {word}{name} {{ {bound}{fact} }}\n")
        text = text[:start] + "".join(out) + text[end:]
        at = start
    return text


def main(root):
    for path in sorted(glob.glob(os.path.join(root, "crates", "*", "src", "**", "*.rt"), recursive=True)):
        with open(path, encoding="utf-8") as f:
            text = f.read()
        new = turn(text, path)
        if new != text:
            with open(path, "w", encoding="utf-8") as f:
                f.write(new)


main(sys.argv[1])
