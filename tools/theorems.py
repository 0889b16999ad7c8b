#!/usr/bin/env python3
"""Compares the declarations of specs/ of a port by the scripts alone with those of today: theorems.py OLD NEW [LIST].

A theorem is compared by its statement, anything else (definitions, records, data) whole, each under the parameters of the section in which
it stands; only whether a path of laws says specs or proofs makes no difference. What stands in proofs/ now is written to LIST, whole."""
import collections
import os
import re
import sys

WORDS = r"(?:(?:abbrev|unfoldable|pub|data|record) )*"


def declarations(path):
    """The declarations of a file: name, section, kind and text, comments and layout aside."""
    found, current, sections = [], None, []
    lines = iter(open(path, encoding="utf-8").read().split("\n"))
    for line in lines:
        text, indent = line.strip(), len(line) - len(line.lstrip())
        if not text or text.startswith("--"):
            continue
        while sections and indent <= sections[-1][0]:
            sections.pop()
        level = sections[-1][0] + 2 if sections else 0
        if indent == 0 and text.startswith("use "):
            current = None
            continue
        if text.startswith("module _"):
            header = text
            while not header.endswith("where"):
                header += " " + next(lines).strip()
            sections.append((indent, header))
            current = None
            continue
        named = re.match(r"^(%s)([^\s(){}:;,]+(?: [^\s(){}:;,=]+)*)((?: [({].*?)?) :( |$)" % WORDS, text)
        is_type = re.match(r"^(pub )?(data|record) ", text)
        if indent == level and (is_type or named and not text.startswith(("unfolding", "let ", "where"))):
            name = re.sub("^" + WORDS, "", text).split(" ")[0] if is_type else named.group(2)
            kind = "definition" if is_type or re.match(r"^(abbrev|unfoldable) ", text) else "theorem"
            current = [name, " | ".join(h for _, h in sections), kind, [text]]
            found.append(current)
        elif current:
            current[3].append(text)
    return [(name, section, kind, said(name, kind, text)) for name, section, kind, text in found]


def said(name, kind, lines):
    if kind == "theorem":
        first = re.escape(name.split(" ")[0])
        end = next((k for k, l in enumerate(lines) if k and (l.startswith("unfolding ") or re.match(r"^%s( |$)" % first, l))), len(lines))
        lines = lines[:end]
    return re.sub(r"\s+", " ", " ".join(lines))


def plain(text):
    return re.sub(r"Rattle\.(\w+)\.(specs|proofs)\.", r"Rattle.\1.", text)


def files(folder):
    for top, _, names in os.walk(folder):
        for name in sorted(names):
            if name.endswith(".antt"):
                yield os.path.join(top, name)


def main(old, new, listed=None):
    same, moved, others = 0, collections.defaultdict(list), []
    for crate in sorted(os.listdir(f"{old}/crates")):
        now = collections.defaultdict(list)
        for part in ("specs", "proofs"):
            for path in files(f"{new}/crates/{crate}/{part}"):
                for name, section, kind, text in declarations(path):
                    now[name].append((part, os.path.relpath(path, f"{new}/crates/{crate}"), plain(section + " :: " + text)))
        for path in files(f"{old}/crates/{crate}/specs"):
            where = os.path.relpath(path, f"{old}/crates/{crate}/specs")
            for name, section, kind, text in declarations(path):
                stands = [it for it in now[name] if it[2] == plain(section + " :: " + text)]
                stands.sort(key=lambda it: (not it[1].endswith("/" + where), it[0] != "specs"))
                if not stands:
                    others.append((crate, where, name, section, text, [it[1:] for it in now[name]]))
                    continue
                same += 1
                if stands[0][0] == "proofs" or not stands[0][1].endswith("/" + where):
                    moved[crate, where, stands[0][1]].append((section, text))
    print(f"the same {same}, of which moved {sum(map(len, moved.values()))}; others {len(others)}")
    for crate, where, name, section, text, found in others:
        print(f"{crate}/specs/{where} {name}\n  old {section} :: {text}")
        for file, words in found:
            print(f"  new {file} {words}")
    if listed:
        with open(listed, "w", encoding="utf-8") as out:
            for (crate, where, to), its in sorted(moved.items()):
                out.write(f"\n`{crate}/specs/{where}` to `{crate}/{to}`:\n\n")
                last = ""
                for section, text in its:
                    if section != last and section:
                        out.write(f"    {section}\n")
                    last = section
                    out.write(("      " if section else "    ") + text + "\n")


main(*sys.argv[1:])
