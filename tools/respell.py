#!/usr/bin/env python3
"""Brings the repository's own names in specs/ and proofs/ to today's spelling: words in snake case, facts and types in camel case.

usage: python3 tools/respell.py [--dry]      at the top of the repository, once, after the kit's port.py

A name is the repository's own where an .antt file declares it, as a definition, a lemma, a field or a constructor, or where an import gives it by `as`. Each is respelled wherever it stands as a
word of its own in .antt files and in the clauses of .rt files; comments, texts in quotes, names of src/ and the names that Rattle makes stay.
A dash stays beside an operator, as in ∈-each, in a name that std's library has too, and in a step of the code, as c.event-read, unless it is a call of
a function of src/. Where a file has a word of the new spelling already, the script says so: these were looked at, and are functions of src/.
"""

import os
import re
import sys

WORD = re.compile(r"[A-Za-z_0-9ℕΣ◌∈≡≤<>+∷∙*!?%&|^/\\~#$@′'\-₀-₉ᶜᴰ″⊎×∪∘⊥]+")
DECLARED = re.compile(r"^(\s*)((?:abbrev |unfoldable |pub |data |record |opaque |ruleset )*)([^(){}\[\];,:=\"→λ.]+?)\s*(?:[({].*)?\s:\s")
LIBRARY = {"map-append"}
SYMBOL = set("◌∈≡≤<>+∷∙*!?%&|^/\\~⊎×∪∘⊥")


def files(root):
    for folder, dirs, names in os.walk(os.path.join(root, "crates")):
        dirs[:] = sorted(d for d in dirs if d != "out")
        for f in sorted(names):
            if f.endswith((".antt", ".rt")):
                yield os.path.join(folder, f)


def of_function(path):
    """Whether a file holds the proof of one function: its public names are goals, which Rattle names."""
    rest = path.partition("/proofs/")[2]
    return "/" in rest


def declared(root):
    """Each own name with whether some declaration makes it a type or a fact."""
    found = {}
    for path in files(root):
        if not path.endswith(".antt"):
            continue
        lines = open(path, encoding="utf-8").read().split("\n")
        for i, line in enumerate(lines):
            if line.lstrip().startswith("--"):
                continue
            m = DECLARED.match(line)
            if not m:
                continue
            marks, names = m.group(2).split(), m.group(3).split()
            if any(n in ("let", "in", "use", "module", "where", "elim", "mod") for n in names):
                continue
            if of_function(path) and "pub" in marks:
                continue
            whole = line
            for more in lines[i + 1:i + 12]:
                if not more.startswith(" " * (len(m.group(1)) + 4)):
                    break
                whole += more
            fact = "record" in marks or "data" in marks or whole.rstrip().endswith("Type 0") or whole.rstrip().endswith("Type 0 where")
            for n in names:
                found[n] = found.get(n, False) or fact
    return found


def renamed(root):
    """Each name that an import gives by `as`: it is spelled as what it stands for, a type or a word."""
    found = {}
    for path in files(root):
        for a, b in re.findall(r"([\w'-]+) as ([\w'-]+)", "\n".join(l for l in open(path, encoding="utf-8").read().split("\n") if re.match(r"(?:ghost )?use ", l))):
            if "-" in b:
                found[b] = b[:1].lower() + b[1:] if a[0].islower() or b[0].islower() else b
    return found


def respelled(name, fact):
    if "-" not in name and "_" not in name:
        return name
    parts = re.split(r"(?<=[^-])-(?=[^-])", name)
    if fact and name[0].isupper():
        return "".join(p[:1].upper() + p[1:] for q in parts for p in q.split("_"))
    out = parts[0]
    for p in parts[1:]:
        out += ("-" if out[-1] in SYMBOL or p[0] in SYMBOL else "_") + p
    return out


def functions(root):
    """The names of the functions of src/."""
    return {n for p in files(root) if p.endswith(".rt") for n in re.findall(r"\bfn (\w+)", open(p, encoding="utf-8").read())}


def turned(text, names, rt, fns):
    """The text with each own name respelled, outside comments and quotes."""
    out, i, n = [], 0, len(text)
    comment = "//" if rt else "--"
    while i < n:
        if text.startswith(comment, i) and (i == 0 or text[i - 1] in " \t\n"):
            j = text.find("\n", i)
            j = n if j < 0 else j
            out.append(text[i:j])
            i = j
            continue
        if text[i] == '"':
            j = i + 1
            while j < n and text[j] != '"':
                j += 2 if text[j] == "\\" else 1
            out.append(text[i:j + 1])
            i = j + 1
            continue
        m = WORD.match(text, i)
        if m:
            w = m.group(0)
            step = re.search(r"(?<![\w'-])c\.$", text[max(0, i - 8):i])
            out.append(w if step and names.get(w, w) not in fns else names.get(w, w))
            i = m.end()
            continue
        out.append(text[i])
        i += 1
    return "".join(out)


def main():
    dry = "--dry" in sys.argv
    root = "."
    own = declared(root)
    names = {a: respelled(b, False) for a, b in renamed(root).items()}
    names.update({n: respelled(n, fact) for n, fact in own.items()})
    names = {a: b for a, b in names.items() if a != b and a not in LIBRARY}
    together = {}
    for a, b in names.items():
        together.setdefault(b, []).append(a)
    bad = [(b, sorted(xs)) for b, xs in together.items() if len(xs) > 1 or b in own]
    texts = {p: open(p, encoding="utf-8").read() for p in files(root)}
    for p, t in texts.items():
        words = set(WORD.findall(t))
        for a in words & names.keys():
            if names[a] in words:
                bad.append((names[a], [a, p]))
    for b, xs in sorted(bad):
        print(f"falls together: {b}: {', '.join(xs)}")
    if dry:
        for a, b in sorted(names.items()):
            print(a, b)
        return 0
    changed, fns = 0, functions(root)
    for p, t in texts.items():
        new = turned(t, names, p.endswith(".rt"), fns)
        if new != t:
            open(p, "w", encoding="utf-8").write(new)
            changed += 1
    print(f"{len(names)} names, {changed} files")
    return 0


if __name__ == "__main__":
    raise SystemExit(main())
