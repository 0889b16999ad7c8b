#!/usr/bin/env python3
"""Counts, in crates/*/src, the places that docs/DESIGN-PASS.md speaks of, a line each.

usage: tools/places.py [ROOT] [POINT..]
"""
import collections
import glob
import re
import sys

ROOT = sys.argv[1] if len(sys.argv) > 1 else "."
POINTS = set(sys.argv[2:])
SKIP = {"Kind", "Unit", "Reading", "Refusal", "UnknownKind"}


def sources():
    for path in sorted(glob.glob(ROOT + "/crates/*/src/**/*.rt", recursive=True)):
        yield path[len(ROOT) + 8:].replace("/src", ""), open(path, encoding="utf8").read()


def functions(text):
    """Name, parameters, clauses and body of each function."""
    for found in re.finditer(r"\bfn (\w+)(?:<[^(]*>)?\(([^{]*?)\)(?: -> ((?:\[[^\]]*\]|[^\n{;])*))?", text):
        rest = text[found.end():]
        start = re.match(r" ?\{\n", rest) or re.search(r"\n *\{\n|;\n", rest)
        if not start or start.group(0) == ";\n":
            continue
        depth, end = 0, 0
        body = rest[start.end() - 2:]
        for end, letter in enumerate(body):
            depth += (letter == "{") - (letter == "}")
            if depth == 0 and letter == "}":
                break
        head = rest[:start.start()]
        yield found.group(1), re.sub(r"\s+", " ", found.group(2)), head, body[:end + 1]


def say(point, name, places):
    if POINTS and point not in POINTS:
        return
    print(f"{point} {name}: {len(places)}")
    for place in places:
        print("    " + place)


texts = list(sources())
all_functions = [(file, *f) for file, text in texts for f in functions(text)]

enums = []
for file, text in texts:
    for name, variants in re.findall(r"^(?:pub(?:\(crate\))? )?enum (\w+)[^{]*\{(.*?)^\}", text, re.M | re.S):
        if name not in SKIP:
            enums.append(f"{file} enum {name}: " + " ".join(re.findall(r"(\w+)(?:\(|,)", variants)))
say("1", "enums of the shape of Option or Result", enums)
say("1", "numbers for refusals", [f"{file} {line.strip()}" for file, text in texts for line in text.split("\n")
                                  if re.search(r"Refused\((\w+, )?\d+\)|Refused\((State, )?u8\)", line)])
say("1", "structs with a flag and a value beside it",
    [f"{file} struct {name}" for file, text in texts
     for name, fields in re.findall(r"struct (\w+)[^{;]*\{(.*?)^\}", text, re.M | re.S)
     if re.search(r": bool,|(?:refusal|found|seen|crosses|approaches|applies): u32|said: ", fields)])

shapes = collections.defaultdict(list)
for file, name, parameters, clauses, body in all_functions:
    plain = re.sub(r"\b[A-Z]\w*\b|\b\w*_?(?:words?|word|wide|narrow|silence|silences|centimetres|millimetres)_?\w*\b|\d+", "T", body)
    plain = re.sub(r"\b(two|four|eight|nine|twelve)\b|_(two|four|eight|nine|twelve)\b", "N", plain)
    if body.count("\n") > 2:
        shapes[re.sub(r"\s+", " ", plain)].append(f"{file} {name}")
twins = [" = ".join(s) for s in shapes.values() if len(s) > 1]
say("2", "functions alike but for types, sizes and constants", twins)

say("3", "loops that count an index by hand", [f"{file} {name}" for file, name, _, _, body in all_functions if re.search(r"^\s+while ", body, re.M)])

say("4", "equality, order and conversion by hand",
    [f"{file} {name}" for file, name, p, c, body in all_functions
     if re.match(r"^(same|same_step|greater|code_of|magnitude|least|excess|whole|wide|complement|state_of|state_numbers|(length|count|step|spot|crossing|approach|run|applied)_of)$", name)])
say("4", "functions that print word by word", [f"{file} {name}" for file, name, p, c, body in all_functions if re.search(r"(printing::)?(word|number)\(", body) and "printing" in file + body])

facts = collections.defaultdict(set)
for file, name, _, clauses, _ in all_functions:
    for kind, clause in re.findall(r"(requires|ensures)\s*\w*\s*\{ (.*?) \}(?:\n|$)", clauses):
        for part in clause.split(" × "):
            part = part.strip("() ")
            if len(part) > 12 and not part.startswith(("result", "(result")):
                facts[re.sub(r"\.(now|old|new|entry)\b", "", part)].add(f"{file} {name}")
say("5", "facts in the clauses of three functions or more", [f"{len(who)} × {fact}" for fact, who in sorted(facts.items()) if len(who) > 2])

together = collections.defaultdict(set)
for file, name, parameters, _, _ in all_functions:
    names = tuple(p.split(":")[0].strip() for p in parameters.split(", ") if ":" in p)
    for i in range(len(names)):
        for j in range(i + 1, len(names)):
            together[(file.split("/")[0], names[i], names[j])].add(name)
say("5", "pairs of parameters that travel together through four functions or more of a crate",
    [f"{crate} {a}, {b}: {len(who)} functions" for (crate, a, b), who in sorted(together.items()) if len(who) > 3])

say("6", "functions that take a buffer with a length or a place beside it",
    [f"{file} {name}({parameters})" for file, name, parameters, _, _ in all_functions
     if re.search(r"\[[^\]]*\]", parameters) and re.search(r"\b(n|at|k|lo): usize", parameters)])
say("6", "functions that take three slices or more", [f"{file} {name}" for file, name, parameters, _, _ in all_functions if len(re.findall(r"&(?:mut )?\[", parameters)) > 2])

say("7", "switches on which step to run", [f"{file} {name}" for file, name, _, _, body in all_functions if re.search(r"Stage::\w+", body)])
