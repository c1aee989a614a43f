#!/usr/bin/env python3
"""Brings this repository's own names of antt to the spelling of today's Rattle: words in snake case, no dash, no capital inside.

usage: tools/respell.py [--dry]      at the top of the checkout, once, after the port's scripts

Turned are the names that files of specs/ and proofs/ declare or bind, and where clauses, ghost imports and must-fail edits cite them.
A name that a file imports from a library of the kit stays in that file. Functions, parameters, fields and constants of src/ stay.
A label of a walk, as in c.before.free-slot, stays too: it is not ours.
"""
import collections
import os
import re
import sys

NAME = r"[^\s(){}.;,@\"«»\[\]|`]+"
OURS = {line.split(":")[0].split()[0] for line in open("crates.txt") if line.strip() and not line.startswith("#")}
# Names that only binders have.
BOUND = set("bufferLength bufferLength₀ userAt denyCount denyAt sidCount long-q n-live m-live f-g all-ok owner-ok group-ok".split())
BOUND |= set("owner-was group-was size-was dacl-was in-dacls of-e of-f".split())


def snake(name):
    name = name.replace("getD", "get_or")
    name = re.sub(r"(?<=[a-z0-9])[A-Z](?![A-Z]*[₀-₉']?$)", lambda m: "_" + m[0].lower(), name)
    name = re.sub(r"(?<=[a-z0-9])[A-Z]+(?=[₀-₉']?$)", lambda m: "_" + m[0].lower(), name)
    return name.replace("-", "_")


def is_old(name):
    return bool(re.match(r"[a-z]", name)) and bool(re.search(r"(?<=\w)-(?=\w)|[a-z0-9][A-Z]", name)) and "→" not in name


def files():
    for folder, dirs, names in os.walk("crates"):
        dirs[:] = sorted(d for d in dirs if d != "out")
        for name in sorted(names):
            if name.endswith((".rt", ".antt", ".edit")):
                yield os.path.join(folder, name)


def read(path):
    with open(path, encoding="utf-8") as f:
        return f.read()


def imports(text):
    """Each name that the text imports, with whether it is from a crate of ours."""
    found = {}
    for m in re.finditer(r"\buse ([^\s;{]+)\.\{([^}]*)\}", text):
        path = m[1].split(".")
        ours = path[0] == "Rattle" and len(path) > 1 and path[1] in OURS
        for it in m[2].split(","):
            it = it.strip()
            if it:
                found[it] = ours
                for a in it.split(" as ")[1:]:
                    found[a.strip()] = True
                found[it.split(" as ")[0].strip()] = ours
    return found


def declared(text):
    """The names that a text of antt declares, records' fields and constructors among them."""
    names = set()
    for line in text.split("\n"):
        m = re.match(r" *((?:(?:abbrev|unfoldable|pub|record|data|open|mutual) )*)(" + NAME + r") (.*)$", line)
        if not m:
            continue
        depth, rest = 0, m[3]
        for i, ch in enumerate(rest):
            depth += (ch in "({") - (ch in ")}")
            if depth == 0 and ch == "=":
                break
            if depth == 0 and ch == ":" and (i == 0 or rest[i - 1] == " ") and rest[i + 1 : i + 2] in ("", " "):
                names.add(m[2])
                break
    return names


def fields(text):
    names, inside = set(), False
    for line in text.split("\n"):
        if re.match(r" *(pub )?record ", line):
            inside = len(line) - len(line.lstrip())
        elif inside is not False and line.strip() and len(line) - len(line.lstrip()) <= inside:
            inside = False
        elif inside is not False:
            m = re.match(r" +pub (" + NAME + r") :", line)
            if m:
                names.add(m[1])
    return names


def labels_after(text):
    """Places of names that are labels of a walk: right behind c, a place bound by 'let', or .before."""
    places = set()
    heads = {"c", "w", "l", "k"} | set(re.findall(r"let (\w+) = \w+(?: ?\.before)+ in", text))
    for m in re.finditer(r"(?<![\w.\-])(" + "|".join(map(re.escape, heads)) + r")((?:\.[^\s(){}.;,]+)+)", text):
        at = m.end(1)
        for part in re.finditer(r"\.([^\s(){}.;,]+)", m[2]):
            if part[1] == "before":
                continue
            places.add(at + part.start(1))
            break
    return places


def in_module(text, at, aliases):
    """Says whether the name at the place is a member of a module of ours, as Head.used."""
    head = re.search(r"(?<![\w.])(\w+)\.$", text[max(0, at - 60) : at])
    return bool(head) and (head[1][0].isupper() or head[1] in aliases)


def main(dry):
    texts = {p: read(p) for p in files()}
    own, own_fields = set(), set()
    for p, t in texts.items():
        if p.endswith(".antt"):
            own |= declared(t)
            own_fields |= fields(t)
    turned = {n: snake(n) for n in own | BOUND if is_old(n) and snake(n) != n}
    # A lemma that would have its definition's name gets '_lem'.
    alike = collections.defaultdict(set)
    for n in own | BOUND:
        alike[turned.get(n, n)].add(n)
    for new, olds in alike.items():
        if len(olds) > 1:
            lemma = next((n for n in olds if "-" in n), new)
            turned[lemma] = new + "_lem"
    token = re.compile(r"--[^\n]*|" + NAME)
    loose = collections.Counter()
    clash = collections.defaultdict(set)
    out = {}
    for p, t in texts.items():
        imported = imports(t)
        kit = {n for n, ours in imported.items() if not ours}
        labels = labels_after(t) if "/proofs/" in p and p.endswith("Proof.antt") else set()
        ours = set(re.findall(r"\buse Rattle\.(?:" + "|".join(OURS) + r")\.(?:specs|proofs)\.(?!contracts)[A-Z]\w* as (\w+)", t))
        parts, last, used, plain = [], 0, set(), set()
        for m in token.finditer(t):
            name = m[0]
            if name.startswith("--"):
                continue
            behind = t[m.start() - 1 : m.start()] == "."
            if name in turned and not (p.endswith(".rt") and "_" in name) and name not in kit and m.start() not in labels and not (behind and name not in own_fields and not in_module(t, m.start(), ours)):
                parts.append(t[last : m.start()] + turned[name])
                last = m.end()
                used.add(name)
            else:
                if is_old(name) and name not in kit and not behind:
                    loose[name] += 1
                if not behind:
                    plain.add(name)
        out[p] = "".join(parts) + t[last:]
        for n in used:
            if turned[n] in plain:
                clash[n].add(p)
    new = collections.defaultdict(set)
    for n in own | BOUND:
        new[turned.get(n, n)].add(n)
    together = {k: v for k, v in new.items() if len(v) > 1}
    # A parameter hides a word that its function's clauses cite.
    hidden = []
    values = set(turned.values())
    for p, t in out.items():
        if not p.endswith(".rt"):
            continue
        for m in re.finditer(r"\bfn (\w+)[^(]*\(((?:[^()]|\([^()]*\))*)\)([^{]*?)((?:\s*(?:requires|ensures|ghost)\*?(?: \w+:?)? \{.*?\}\n)+)", t, re.S):
            params = set(re.findall(r"(\w+):", m[2]))
            cited = set(re.findall(r"(?<![\w.])\w+", m[4])) & values & params
            if cited:
                hidden.append((p, m[1], cited))
    if dry:
        print("hidden:", hidden)
        print("together:", together)
        print("clash:", {k: (turned[k], sorted(v)[:3], len(v)) for k, v in clash.items()})
        print("loose:", loose.most_common(400))
        print(len(turned))
        return
    for p, t in out.items():
        if t != texts[p]:
            with open(p, "w", encoding="utf-8") as f:
                f.write(t)


main("--dry" in sys.argv)
