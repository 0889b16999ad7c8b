#!/usr/bin/env python3
"""Brings the names of this repository's own definitions and lemmas to one spelling: words in snake case.

Run once at the top, after the port's own script. A name declared in specs/, or in a file of lemmas of proofs/, that has a dash or a
capital inside it is written with underscores, wherever a text of the crates or a page of docs/ has it as a whole word. Types and modules
keep their capitals. Names of src/, exported names, strings, inputs and outputs are not touched, nor a name that a file has from
elsewhere. With --list it only prints what it would do, and which names would fall together.
"""
import os
import re
import sys

EDGE = r"[\s(){}\[\],;.`'\"]"
DECLARED = re.compile(r"^( *)((?:abbrev|unfoldable|pub|data|record|constructor) )*([^\s(){},;.]+(?: [^\s(){},;.:=]+)*) :(?: |$)")


def files(ends):
    for top, folders, names in os.walk("crates"):
        folders[:] = sorted(f for f in folders if f != "out")
        for n in sorted(names):
            if n.endswith(ends):
                yield os.path.join(top, n)


def is_function_proof(path):
    return "/proofs/" in path and os.path.basename(path) in ("Proof.antt", "Answers.antt", "Invariants.antt")


# `fixOf`, the fix that a struct of the code stands for, and `fix-of`, the fix at a position of a record's bytes, would fall together;
# `Room-for` is a type.
APART = {"fix-of": "fix_in", "Room-for": "RoomFor"}


def snake(name):
    if name in APART:
        return APART[name]
    parts = re.sub(r"([a-z])([A-Z])", r"\1_\2", name) if name[:1].islower() else name
    out = parts.replace("-", "_")
    if name[:1].islower():
        out = re.sub(r"_([A-Z])(?=[a-z_]|$)", lambda m: "_" + m.group(1) if keeps(name, m.group(1)) else "_" + m.group(1).lower(), out)
    return out


def keeps(name, letter):
    # A letter that names a number of the papers, as N or E, keeps its capital where a dash stood before it.
    return "-" + letter in name


def declared(text):
    for line in text.split("\n"):
        m = DECLARED.match(line)
        if m:
            for n in m.group(3).split(" "):
                yield n
        # what a law takes, and a name that a file has for another's
        for n in re.findall(r"[({]([^\s(){}]+) : ", line) + re.findall(r"^ *use [^\n]* as ([^\s,}]+)", line) + re.findall(r"\S as ([^\s,}]+)[,}]", line):
            if "-" in n:
                yield n


def imported(text):
    """The names that a file has from elsewhere, by the module that they are from."""
    for m in re.finditer(r"^ *(?:ghost )?(?:pub )?use ([^\s{;]+?)\.?\{([^}]*)\}", text, re.M):
        for n in m.group(2).split(","):
            yield m.group(1), n.split(" as ")[0].strip()


def main():
    crates = set(os.listdir("crates"))
    texts = {p: open(p, encoding="utf-8").read() for p in files((".antt", ".rt", ".edit"))}
    own, foreign = {}, {}
    for p, t in texts.items():
        if p.endswith(".antt") and not is_function_proof(p):
            for n in declared(t):
                if re.search(r"\w-\w", n) or re.search(r"^[a-z].*[a-z][A-Z]", n):
                    if not re.search(r"[◌→≡≤<+*∷]", n) and snake(n) != n:
                        own.setdefault(n, set()).add(p)
        for module, n in imported(t):
            parts = module.split(".")
            if not (parts[0] == "Rattle" and len(parts) > 1 and parts[1] in crates):
                foreign.setdefault(n, set()).add(p)
    every = {}
    for p, t in texts.items():
        for w in re.split(EDGE, t):
            every.setdefault(w, set()).add(p)
    pattern = re.compile(r"(?<![^\s(){}\[\],;.`'\"¬∥⌜])(" + "|".join(sorted(map(re.escape, own), key=len, reverse=True)) + r")(?![^\s(){}\[\],;.:`'\"∥⌝])")
    if "--list" in sys.argv:
        by = {}
        for n in own:
            by.setdefault(snake(n), []).append(n)
        for s, ns in sorted(by.items()):
            if len(ns) > 1:
                print("TOGETHER", s, ns)
            for n in ns:
                if s in every:
                    both = every[s] & every.get(n, set())
                    print("MEETS", s, n, "in", sorted(every[s])[:4], "BOTH" if both else "", sorted(both)[:3])
        for n in sorted(set(own) & set(foreign)):
            print("FOREIGN", n, sorted(foreign[n])[:3], sorted(own[n])[:3])
        print(len(own), "names")
        return
    extra = [os.path.join(top, n) for top, _, ns in os.walk("docs") for n in ns if n.endswith(".md")] + ["README.md"]
    for p in list(texts) + [p for p in extra if os.path.exists(p)]:
        t = texts.get(p) or open(p, encoding="utf-8").read()
        keep = {n for n in foreign if p in foreign[n]}
        new = pattern.sub(lambda m: m.group(1) if m.group(1) in keep else snake(m.group(1)), t)
        if new != t:
            open(p, "w", encoding="utf-8").write(new)


main()
