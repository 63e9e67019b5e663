#!/usr/bin/env python3
"""Respells the names of this repository's own definitions and lemmas: words in snake case, types and modules in camel case.

usage: tools/port_names.py [--check]      at the top of the repository, once, after the kit's port.py

It reads what specs/ and the shared files of proofs/ declare, and writes each such name new in specs/, proofs/, the contracts of src/ and,
in backquotes, in README.md, CONTRIBUTING.md and docs/. Functions of src/, their types, variants and fields keep their names, as does what the kit's
libraries name; so do strings and must-fail/, which are brought over by hand. Two names that would fall together are refused.
--check writes nothing and prints each name with its new spelling.
"""
import os
import re
import sys

ID = r"[^\s(){}\[\],;.:=`]+"
START = r"(?<![\w'⁻-])"
END = r"(?![\w'⁻-])"
WORD = re.compile(START + r"[A-Za-z][\w']*(?:-[\w']+)*" + END)


def files(endings, *tops):
    for top in tops:
        if os.path.isfile(top):
            yield top
        for folder, folders, names in os.walk(top):
            folders[:] = sorted(f for f in folders if f not in ("out", "target", ".git"))
            for name in sorted(names):
                if name.endswith(endings):
                    yield os.path.join(folder, name)


def read(path):
    with open(path, encoding="utf-8") as f:
        return f.read()


def crates():
    return sorted(c for c in os.listdir("crates") if os.path.isdir(os.path.join("crates", c, "src")))


def shared(path):
    parts = path.split(os.sep)
    return parts[2] == "specs" or (parts[2] == "proofs" and len(parts) == 4)


def declared():
    """The names that specs/ and the shared files of proofs/ declare: at the top, in a module's body, fields and constructors."""
    found = set()
    for path in files(".antt", "crates"):
        if not shared(path):
            continue
        for line in read(path).split("\n"):
            if re.match(r"\s*(--|use |pub use |pub mod |mod |unfolding )", line):
                continue
            top = re.match(r"(?:(?:abbrev|unfoldable)\s+)?(?:pub\s+)?(?:(?:data|record|ruleset)\s+)?(" + ID + r")\s*[:({]", line)
            inner = re.match(r"\s+(?:(?:abbrev|unfoldable)\s+)?(?:pub\s+)?((?:" + ID + r"\s+)*" + ID + r")\s*:(?!=)", line)
            if top:
                found.add(top[1])
            elif inner:
                found.update(inner[1].split())
    return found - {"|"}


def foreign(own):
    """Names that files bring from the kit's libraries, and what src/ declares."""
    found = set()
    for path in files((".antt", ".rt"), "crates"):
        for root, names in re.findall(r"^\s*(?:ghost |pub |unfoldable )*use ([^\s{;]+)\.\{([^}]*)\}", read(path), re.M):
            crate = root.split(".")[1] if root.startswith("Rattle.") else ""
            if crate not in own or ".declared." in root or ".contracts." in root:
                found.update(n.split(" as ")[0].strip() for n in names.split(","))
    for path in files(".rt", "crates"):
        found.update(re.findall(r"\b(?:fn|struct|enum|const|static)\s+(\w+)", read(path)))
    return found


def functions():
    return {n for path in files(".rt", "crates") for n in re.findall(r"\bfn\s+(\w+)", read(path))}


def respelled(name):
    if name[0].isupper():
        return name
    name = re.sub(r"([a-z0-9])([A-Z])", lambda m: m[1] + "_" + m[2], name.replace("-", "_"))
    return name.lower()


def spellings():
    """Each old name with its new one. A lemma that would have the name of a definition or of a function of src/ gets '_lem'."""
    all_names = {n for n in declared() if WORD.fullmatch(n)}
    theirs, fns = foreign(set(crates())), functions()
    names = {n: respelled(n) for n in all_names if n not in theirs and respelled(n) != n}
    definitions = {new for n, new in names.items() if "-" not in n}
    for n in names:
        if "-" in n and (names[n] in definitions or names[n] in all_names or names[n] in fns):
            names[n] += "_lem"
    # a lemma that has its new spelling already, under which a definition comes to stand
    for n in sorted(all_names & definitions):
        names[n] = n + "_lem"
    return names, all_names, fns


def turned(text, names, fns, source=False):
    def one(m):
        name = m[0]
        if name.endswith("-spec") and name[:-5].replace("-", "_") in fns:
            return name[:-5].replace("-", "_") + "_spec"
        if name not in names:
            return name
        new = names[name]
        # what has a function's name is the function in src/, and in a proof, after a dot, a step of the code
        if new.endswith("_lem") and new[:-4] in fns and (source or text[m.start() - 1 : m.start()] == "."):
            return new[:-4]
        return new

    return WORD.sub(one, text)


def write(path, text, new):
    if new != text:
        with open(path, "w", encoding="utf-8") as f:
            f.write(new)


def main():
    names, all_names, fns = spellings()
    meet = {}
    for n in all_names:
        meet.setdefault(names.get(n, n), []).append(n)
    together = {new: old for new, old in meet.items() if len(old) > 1}
    for new, old in sorted(together.items()):
        print("together:", new, "<-", *sorted(old))
    if "--check" in sys.argv:
        for n in sorted(names):
            print(n, names[n])
        return
    if together:
        raise SystemExit("port_names: names would fall together; nothing was written")
    for path in files((".antt", ".rt", ".edit"), "crates"):
        text = read(path)
        write(path, text, turned(text, names, fns, not path.endswith(".antt")))
    for path in files(".md", "README.md", "CONTRIBUTING.md", "docs"):
        text = read(path)
        write(path, text, re.sub(r"`[^`\n]+`", lambda q: turned(q[0], names, fns, True), text))


if __name__ == "__main__":
    main()
