#!/usr/bin/env python3
"""Counts the places that docs/DESIGN-PASS.md speaks of: tools/design_count.py [TOP] [--list]

TOP is the top of a checkout (of any commit; '.' if none is given). --list prints each place too."""

import glob
import os
import re
import sys

arguments = [a for a in sys.argv[1:] if a != "--list"]
listed = "--list" in sys.argv
top = os.path.join(arguments[0] if arguments else ".", "crates")
found = {}


def place(point, text):
    found.setdefault(point, []).append(text)


def body(lines, start):
    """The lines of a block from its first line to the one that closes it."""
    indent = len(lines[start]) - len(lines[start].lstrip())
    end = start + 1
    while not lines[end].startswith(" " * indent + "}"):
        end += 1
    return lines[start:end]


for path in sorted(glob.glob(top + "/*/src/*.rt")):
    name = os.path.relpath(path, top)
    text = open(path).read()
    lines = text.split("\n")
    for i, line in enumerate(lines):
        code = line.split("//")[0]
        if re.match(r"(pub )?enum ", code):
            variants = [re.sub(r"[({=].*", "", v.split("//")[0]).strip(" ,") for v in body(lines, i)[1:]]
            place("1 enums", f"{name}: {code.strip(' {')}: {' '.join(v for v in variants if v)}")
        if re.match(r"\s*(while .*|loop) \{", code):
            place("3 loops, while or loop", f"{name}: {code.strip()}")
            if re.search(r"\b\w+ [+-]= 1;", "\n".join(body(lines, i))):
                place("3 of these, an index counted by one", f"{name}: {code.strip()}")
        if re.match(r"\s*for ", code):
            place("3 loops, for", f"{name}: {code.strip()}")
        if re.search(r"\.(iter|all|any|position|fold|map|find|zip|copy_from_slice|rposition|filter|rev)\(", code):
            place("3 iterator chains and library methods", f"{name}: {code.strip()}")
        if re.search(r"\?[;).]|\?$", code) and not code.lstrip().startswith(("ensures", "requires")):
            place("1 uses of ?", f"{name}: {code.strip()}")
        if re.match(r"\s*#\[derive\(", code):
            place("4 derives", f"{name}: {code.strip()}")
        if re.match(r"impl", code):
            place("4, 5 impls", f"{name}: {code.strip(' {')}")
    for function in re.finditer(r"\bfn (\w+)[^(]*\(([^)]*)\)", text):
        called, parameters = function.groups()
        at = f"{name}: {called}"
        three = ("codes: &", "places: &", "values: &"), ("heads: &", "fields: &", "ints: &")
        if any(all(p in parameters for p in names) for names in three):
            written = re.search(r"(codes|heads): &mut", parameters)
            if re.search(r"codes: &('\w+ )?\[", parameters):
                place("5 codes, places, values, read", at)
                if "root: usize" in parameters:
                    place("5 of these, with the root", at)
            if written:
                place("5 codes, places, values, written", at)
        if re.search(r"given: (bool|u32)", parameters) and "context" in parameters:
            place("5 given, context, id", at)
        if re.search(r"\b(zero: &mut bool|high: &mut u64)", parameters):
            place("1 a flag or half a value, left beside a value", at)
        if re.search(r"\b(op|code): u8\b|\bown: u32\b", parameters):
            place("1 numbers for kinds, as parameters", at)

for path in glob.glob(top + "/*/proofs/**/Answers.antt", recursive=True):
    for answer in re.findall(r"^pub ([^ ]+) : goal\.", open(path).read(), re.M):
        place("8 answers", f"{os.path.relpath(path, top)}: {answer}")

for point in sorted(found):
    print(f"{len(found[point]):5} {point}")
    if listed and not point.startswith("8"):
        print("".join(f"      {text}\n" for text in found[point]), end="")
