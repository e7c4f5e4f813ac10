#!/usr/bin/env python3
"""port_proofs.py ROOT NAMES: turns each proof of a function that answers its goals one by one (Proof.antt) into Invariants.antt and Answers.antt.

NAMES has a folder for each crate with the names.json that 'rattle check --generated DIR --old-names' writes. A chain of .before goes: in today's
answers each step is a field of c. An answer that only says 'search rules' is left out, since the check tries more than that by itself.
A file of another shape stays and is named.
"""
import glob
import json
import os
import re
import sys

IDENT = r"[^\s(){}.;,@\"«»\[\]\\]+"
PATH = re.compile(IDENT + r"(?:\." + IDENT + r")*")
plain = lambda it: it.replace("_", "-")


def read(path):
    with open(path, encoding="utf-8") as f:
        return f.read()


def clauses_in(root):
    """For each function the names of its requires and of its ensures, by its path and by its name."""
    out = {}
    for path in glob.glob(os.path.join(root, "crates", "*", "src", "**", "*.rt"), recursive=True):
        crate = path[len(root):].strip("/").split("/")[1]
        module = os.path.relpath(path, os.path.join(root, "crates", crate, "src"))[:-3].split("/")
        module = [m for m in module if m not in ("lib", "main")]
        text = re.sub(r"//[^\n]*", "", read(path))

        def closed(at, pair):
            depth = 1
            while depth:
                depth += {pair[0]: 1, pair[1]: -1}.get(text[at], 0)
                at += 1
            return at

        for m in re.finditer(r"\bfn (\w+)(?:<[^>]*>)?\(", text):
            at = closed(m.end(), "()")
            at += re.match(r"(?:\s*->\s*[^{]*?)?(?=\s*(?:requires|ensures|ghost|\{|$))", text[at:]).end()
            names = {"requires": [], "ensures": []}
            while k := re.match(r"\s*(requires|ensures)\*? ?(\w+)? ?\{", text[at:]):
                at = closed(at + k.end(), "{}")
                names[k[1]].append(k[2])
            out["::".join([crate, *module, m[1]])] = names
            out.setdefault(m[1], names)
    return out


def split_top(text):
    """The parts of '(a, b, c)' between its outer commas, or None."""
    text = text.strip()
    if not (text.startswith("(") and text.endswith(")")):
        return None
    depth, parts, start = 0, [], 1
    for i, ch in enumerate(text):
        if ch in "([{":
            depth += 1
        elif ch in ")]}":
            depth -= 1
            if depth == 0 and i < len(text) - 1:
                return None
        elif ch == "," and depth == 1:
            parts.append(text[start:i].strip())
            start = i + 1
    parts.append(text[start:-1].strip())
    if not parts[-1]:
        parts.pop()
    return parts if len(parts) > 1 else None


def as_record(body, names):
    """A body that ends in a tuple, as a record of the clauses' names."""
    lets, rest = re.match(r"(?s)((?:\s*let .*? in(?=\s))*)(.*)$", body).groups()
    parts, before = split_top(rest), ""
    if not parts and rest.lstrip().startswith("rw "):
        # the tuple after a rewriting
        depth, start = 0, None
        text = rest.rstrip()
        for i in range(len(text) - 1, -1, -1):
            depth += {")": 1, "]": 1, "}": 1, "(": -1, "[": -1, "{": -1}.get(text[i], 0)
            if depth == 0:
                start = i
                break
        parts = split_top(text[start:]) if start is not None else None
        before = text[:start] if parts else ""
    if not parts:
        return None
    while len(parts) < len(names):
        more = split_top(parts[-1])
        if not more:
            return None
        parts[-1:] = more
    if len(parts) > len(names):
        parts[len(names) - 1:] = ["(" + ", ".join(parts[len(names) - 1:]) + ")"]
    record = "record { " + "; ".join(f"{n} = {p}" for n, p in zip(names, parts)) + " }"
    return (lets + " " if lets else "") + (f"{before.strip()} ({record})" if before else record)


class Function:
    def __init__(self, of, own, calls, words):
        self.of, self.own, self.calls = of, own, calls
        self.places = {p[0]: p for p in of["places"]}
        self.arms = {p[0]: a for p, a in zip(of["places"], of["arms"])}
        self.needs = {plain(o): (n, at) for (o, n), at in zip(of["needs"], of["asked_at"])}
        self.typed = {p[0]: v for p, v in zip(of["places"], of["typed"])}
        self.words = words
        self.args = {}
        for o, n in of["args"]:
            if o.startswith(".args "):
                self.args[o[7:]] = n[7:]

    def chain(self, place):
        out = []
        while place in self.places:
            out.append(place)
            place = self.places[place][1]
        return out

    def step(self, place, goal, head):
        """The place whose step has that name: the one that the path leads to, else the one of the goal's chain."""
        each = [place, *self.chain(place), *self.chain(goal)]
        for name in (head, re.sub(r"_lem$", "", head), re.sub(r"\d+$", "", head)):
            for at in each:
                if at in self.places and self.places[at][2] and plain(self.places[at][2][0]).lower() == plain(name).lower():
                    return at
        return None

    def field(self, place, goal, parts):
        """The parts of a path below the place, as today's answers have them."""
        if not parts:
            return parts
        head, rest = parts[0], [self.words.get(p, p) for p in parts[1:]]
        for at in [place, *self.chain(goal)]:
            arm = self.arms.get(at)
            for new, step, prefix in arm[2] if arm else []:
                if plain(step) == plain(head) and prefix and rest[:len(prefix)] == prefix:
                    return [arm[0], new, *rest[len(prefix):]]
            for new, step, prefix in arm[2] if arm else []:
                if plain(step) == plain(head) and not prefix and rest:
                    return [arm[0], new, *rest]
        if rest[:1] == ["given"]:
            for at in self.chain(goal):
                for var, step in self.typed.get(at, []):
                    if plain(step) == plain(head):
                        return ["type_inv", var, *rest[1:]]
        if at := self.step(place, goal, head):
            at = self.places[at]
            swap = dict((o, n) for o, n in at[4])
            if rest and rest[0] in swap:
                rest = [swap[rest[0]], *rest[1:]]
            return [at[2][1], *self.product(at[3], rest)]
        if head in ("args", "ranges") and rest:
            return [head, self.args.get(rest[0], rest[0]), *rest[1:]]
        head = "requires" if head == "pre" else head
        if head == "requires" and rest and len(self.own["requires"]) > 1:
            return [head, *self.clause(self.own["requires"], rest)]
        return [head, *rest]

    def clause(self, names, rest):
        k, i = 0, 0
        while i < len(rest) and rest[i] == "1" and k < len(names) - 1:
            k, i = k + 1, i + 1
        if k < len(names) - 1:
            if i < len(rest) and rest[i] == "0":
                i += 1
            elif i < len(rest) and rest[i].isdigit() and int(rest[i]) < len(names):
                k, i = int(rest[i]), i + 1
            else:
                return rest
        return [names[k] or str(k), *rest[i:]]

    def product(self, callee, rest):
        """.auto.1.0 of a call, by the parameter's name."""
        ensures = self.calls.get(callee or "", {}).get("ensures", [])
        if rest[:1] == ["ensures"] and len(rest) > 1 and len(ensures) > 1:
            return [rest[0], *self.clause(ensures, rest[1:])]
        names = self.of["params"].get(callee or "", [])
        if rest and rest[0] in ("auto", "new") and len(rest) > 1 and rest[1].isdigit() and names:
            k, i = 0, 1
            while i < len(rest) and rest[i] == "1" and k < len(names) - 1:
                k, i = k + 1, i + 1
            if k < len(names) - 1 and i < len(rest) and rest[i].isdigit():
                if rest[i] != "0":
                    k = int(rest[i]) + k
                i += 1
            if (rest[0] == "new" or len(names) == 1) and i < len(rest) and rest[i] == "0":
                i += 1
            if k < len(names):
                return [rest[0], names[k], *rest[i:]]
        return rest

    def body(self, text, place):
        env = {"c": ("ctx", place)}

        def one(path):
            parts = path.split(".")
            kind = env.get(parts[0])
            if not kind:
                return path, None
            if kind[0] == "ctx":
                at, i = kind[1], 1
                while i < len(parts) and parts[i] == "before":
                    at, i = (self.places[at][1] if at in self.places else None), i + 1
                if i == len(parts):
                    return "c", ("ctx", at or place)
                new = self.field(at, place, parts[i:])
                return ".".join(["c", *new]), ("step", at, parts[i:])
            if kind[0] == "step":
                whole = self.field(kind[1], place, kind[2] + parts[1:])
                base = self.field(kind[1], place, kind[2])
                if whole[:len(base)] == base:
                    return ".".join([parts[0], *whole[len(base):]]), None
                return ".".join(["c", *whole]), None
            return path, None

        out, at = [], 0
        for m in re.finditer(r"--[^\n]*|let (" + IDENT + r")( :[^=]*)? = (" + PATH.pattern + r")(?= in\b)|" + PATH.pattern, text):
            out.append(text[at:m.start()])
            if m[1]:
                new, kind = one(m[3])
                if kind:
                    env[m[1]] = kind
                else:
                    env.pop(m[1], None)
                kinds = PATH.sub(lambda k: one(k[0])[0], m[2] or "")
                out.append(f"let {m[1]}{kinds} = {new}")
            elif m[0].startswith("--"):
                out.append(m[0])
            else:
                out.append(one(m[0])[0])
            at = m.end()
        out.append(text[at:])
        text = "".join(out)
        # 'let s = c in' goes
        for name in re.findall(r"let (" + IDENT + r") = c in\b", text):
            text = re.sub(r"[ \t]*let " + re.escape(name) + r" = c in[ \t]*\n?", "", text, count=1)
            text = re.sub(r"(?<![^\s(){};,@\[\]])" + re.escape(name) + r"(?=[.\s)},;\]]|$)", "c", text)
        return text


def substitute(text, table):
    """Variables for terms, but where a binder hides them."""
    stack, out, at = [set()], [], 0
    tokens = list(re.finditer(r"--[^\n]*|λ[^.]*\.|[(\[{]|[)\]}]|let " + IDENT + r"|" + PATH.pattern, text))
    for m in tokens:
        out.append(text[at:m.start()])
        at = m.end()
        t = m[0]
        hidden = set().union(*stack)
        if t.startswith("--"):
            out.append(t)
        elif t.startswith("λ"):
            names = re.findall(r"\(([^:]*):|(" + IDENT + ")", t[1:-1])
            for a, b in names:
                stack[-1].update((a or b).split())
            out.append(t)
        elif t in "([{":
            k = re.match(r"((?:" + IDENT + r" )+): ", text[at:]) if t in "({" else None
            if k and re.search(r"^[^()]*\) →", text[at:]):
                stack[-1].update(k[1].split())
            stack.append(set())
            out.append(t)
        elif t in ")]}":
            if len(stack) > 1:
                stack.pop()
            out.append(t)
        elif t.startswith("let "):
            stack[-1].add(t[4:])
            out.append(t)
        else:
            head, *rest = t.split(".")
            out.append(".".join([table[head], *rest]) if head in table and head not in hidden else t)
    out.append(text[at:])
    return "".join(out)


def blocks_of(text):
    """The use lines, and each later declaration with the comment above it."""
    uses, decls, cur = [], [], []
    lines = text.split("\n")
    i = 0
    while i < len(lines):
        l = lines[i]
        if re.match(r"(pub )?use ", l):
            uses.append(l)
        elif not l.strip():
            if cur:
                decls.append("\n".join(cur))
                cur = []
        else:
            cur.append(l)
        i += 1
    if cur:
        decls.append("\n".join(cur))
    return uses, decls


def turn(path, of, own, calls, words, module):
    text = read(path)
    if "tie.close" not in text or "Tie as tie" not in text:
        return "another shape"
    uses, decls = blocks_of(text)
    uses = [u for u in uses if not re.search(r"\.(Tie as tie|Statement\.\{statement\})$", u)]
    f = Function(of, own, calls, words)
    inv, ans, left, head = [], [], [], []
    loops = {plain(o): (n, names, changed) for ((o, n), names), changed in zip(of["loops"], of["changed"])}
    for d in decls:
        m = re.search(r"(?m)^(?:abbrev )?(?:pub )?(" + IDENT + r") : tie\.(invariant|decreases)-(" + IDENT + r")", d)
        if m:
            loop = loops.get(plain(m[3]))
            if not loop:
                return f"no loop {m[3]}"
            new, names, changed = loop
            k = re.search(r"(?ms)^" + re.escape(m[1]) + r"((?: " + IDENT + r")*) =(.*)$", d[m.end():])
            if not k:
                return f"no body of {m[1]}"
            params = k[1].split()
            moving = [n for n, c in zip(names, changed) if c]
            if len(params) != len(names) + len(moving):
                return f"{m[1]} has {len(params)} parameters for {names} {changed}"
            record = next(r for r in ("l", "v", "at") if r not in params and not re.search(r"(?<![\w.'-])" + r + r"(?![\w'-])", k[2]))
            table = {}
            for p, n, c in zip(params, names, changed):
                table[p] = f"{record}.initial.{n}" if c else f"{record}.{n}"
            for p, n in zip(params[len(names):], moving):
                table[p] = f"{record}.{n}"
            table.pop("_", None)
            unfold = re.findall(r"(?m)^unfolding .*$", d)
            inv.append("\n".join([f"abbrev pub {m[2]}-{new} : goal.{m[2]}-{new}", *unfold, f"{m[2]}-{new} {record} ={substitute(k[2], table)}"]))
            continue
        m = re.search(r"(?m)^(" + IDENT + r") : tie\.Need-(" + IDENT + r")", d)
        if m:
            key = plain(m[2])
            need = f.needs.get(key) or f.needs.get(re.sub("^overflow-", "", key)) or f.needs.get(plain(m[1]))
            if not need:
                if m[2] in of["settled"] or plain(m[2]) in map(plain, of["settled"]):
                    continue
                left.append(f"no goal for {m[2]}")
                continue
            new, (place, _) = need
            k = re.search(r"(?ms)^" + re.escape(m[1]) + r"((?: [^\s=]+)*) =(.*)$", d[m.end():])
            if not k:
                left.append(f"no body of {m[2]}")
                continue
            params = k[1].split()
            unfold = re.findall(r"(?m)^unfolding .*$", d)
            comment = re.findall(r"(?m)^--.*$", d[:m.start()])
            body = k[2]
            if params and params[0] not in ("c", "_"):
                body = re.sub(r"(?<![\w.'-])" + re.escape(params[0]) + r"(?=[.\s])", "c", body)
            if body.strip() == "search rules" and not unfold:
                continue
            body = f.body(body, place)
            body = re.sub(r"(?<![\w-])not-(?:true|false) _ (c\.[^\s()]*\.(?:true|false))-raw(?![\w-])", r"\1", body)
            body = re.sub(r"\((c\.[^\s()]*\.(?:true|false))\)", r"\1", body)
            if new.endswith("-requires") or re.search(r"-requires-", new):
                step = re.sub(r"-requires.*", "", new)
                callee = next((p[3] for p in of["places"] if p[2] and p[2][1] == step and p[3]), None) or step.split("-")[0]
                names = calls.get(callee, {}).get("requires", [])
                if len(names) > 1:
                    body2 = as_record(body, names)
                    if body2:
                        body = (" " if not body.startswith("\n") else "\n    ") + body2.strip()
            if re.match(r"returns(?!\w)", new) and len(own["ensures"]) > 1:
                body2 = as_record(body, own["ensures"])
                body = " " + body2.strip() if body2 else body
            body = body if body[:1] in " \n" else " " + body
            body = re.sub(r"^\n(?=\S)", "\n    ", body)
            ans.append("\n".join([*comment, f"pub {new} : goal.{new}", *unfold, f"{new} {'c' if params else ''}".rstrip() + f" ={body}"]))
            continue
        if re.search(r": \{M : Type 1\} → statement", d):
            continue
        if d.lstrip().startswith("--") and not re.search(r"(?m)^[^-\s]", d):
            head.append(d)
            continue
        ans.append(d)
        left.append("a lemma of its own")
    folder = os.path.dirname(path)
    need = lambda texts: [u for u in uses]
    if inv:
        with open(os.path.join(folder, "Invariants.antt"), "w", encoding="utf-8") as out:
            out.write("\n".join([*uses, f"use {module}.Given as goal", "", *("\n\n".join(inv) + "\n").split("\n")]))
    if ans:
        with open(os.path.join(folder, "Answers.antt"), "w", encoding="utf-8") as out:
            out.write("\n".join([*uses, f"use {module}.Goals as goal", "", *("\n\n".join(ans) + "\n").split("\n")]))
    os.remove(path)
    return "; ".join(left) or None


def main(root, names):
    calls = clauses_in(root)
    for crate in sorted(os.listdir(os.path.join(root, "crates"))):
        file = os.path.join(names, crate, "names.json")
        if not os.path.exists(file):
            continue
        table = {k: v for k, v in json.loads(read(file)).items() if k.startswith(f"Rattle-{crate}-proofs.") and ".Lts" in k}
        source = " ".join(read(p) for p in glob.glob(os.path.join(root, "crates", crate, "src", "**", "*.rt"), recursive=True))
        words = {w.replace("_", "-"): w for w in re.findall(r"\w+", source) if "_" in w}
        for key, of in sorted(table.items()):
            where = key[len(f"Rattle-{crate}-proofs."):].rsplit(".Lts", 1)[0]
            path = os.path.join(root, "crates", crate, "proofs", *where.split("."), "Proof.antt")
            if os.path.exists(path):
                said = turn(path, of, calls.get("::".join([crate, *where.split(".")]), {"requires": [], "ensures": []}), calls, words, f"Rattle.{crate}.proofs.{where}")
                if said:
                    print(f"{crate} {where}: {said}")


main(*sys.argv[1:3])
