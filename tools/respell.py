#!/usr/bin/env python3
"""Respells the definitions and lemmas of this repository, run once, after the toolchain's own port.py.

usage: python3 tools/respell.py        at the top of the repository

Words are in snake case: hubOf becomes hub_of, and accepted-facts accepted_facts. Types keep their capitals. Functions of src/,
exported C names, strings, inputs and outputs keep their names. Where a definition and a lemma fall together, the lemma gets _lem.
"""

import os
import re

# Names that no line of its own declares: a constructor beside others, and parameters.
BESIDE = ["maximumPeers", "regionBefore", "regionAfter", "hubAfter", "outAfter", "heldAfter", "tableAfter", "recordsAfter"]

NAME = r"[A-Za-zℕℤ_][A-Za-z0-9_'ℕℤ-]*[A-Za-z0-9_'ℕℤ]|[A-Za-zℕℤ_]"
DECLARED = re.compile(r"^ *(?:pub |abbrev |unfoldable )*(" + NAME + r")(?: \{[^}]*\}| \([^)]*\))* *:(?: |$)")
HEADED = re.compile(r"^ *(?:pub |abbrev |unfoldable )*(?:data|record) (" + NAME + r")")


def files(*endings):
    for top in ("crates", "docs"):
        for folder, dirs, names in os.walk(top):
            dirs[:] = sorted(d for d in dirs if d != "out")
            for n in sorted(names):
                if n.endswith(endings):
                    yield os.path.join(folder, n)
    if ".md" in endings:
        yield "README.md"


def read(path):
    with open(path, encoding="utf-8") as f:
        return f.read()


def of_function(path):
    """Whether a file lies in the proof folder of one function: some of its names are Rattle's own."""
    parts = path.split(os.sep)
    return parts[2] == "proofs" and len(parts) > 4


def snake(name):
    name = name.replace("-", "_")
    if re.match(r"[a-z]", name):
        name = re.sub(r"([a-z0-9])([A-Z])", lambda m: m.group(1) + "_" + m.group(2).lower(), name)
    return name


def declared():
    """Each name with the files that declare it. Goals of a function, which Rattle names, are left out."""
    found = {}
    for path in files(".antt"):
        for line in read(path).split("\n"):
            m = DECLARED.match(line) or HEADED.match(line)
            if not m or line.lstrip().startswith("--"):
                continue
            if of_function(path) and (re.search(r": (?:tie|goal)\.", line) or re.search(r"-spec\b", m.group(1))):
                continue
            found.setdefault(m.group(1), set()).add(path)
    return found


def renaming(found):
    said = {}
    for name in found:
        said.setdefault(snake(name), set()).add(name)
    to = {}
    for new, olds in said.items():
        for old in olds:
            to[old] = new
        camel = [o for o in olds if re.search(r"[a-z0-9][A-Z]", o)]
        plain = [o for o in olds if o not in camel]
        if len(olds) == 1:
            continue
        keep = camel[0] if camel else next(o for o in plain if "-" not in o)
        for old in olds - {keep}:
            if old != new or found[old] & found[keep]:
                to[old] = new + "_lem"
    to |= {old: snake(old) for old in BESIDE}
    return {old: new for old, new in to.items() if old != new}


def respelled(text, to, own=True):
    """Each name in text by its new spelling; behind a dot a name with a dash may be Rattle's, and stays where own is False."""

    def one(m):
        name = m.group(0)
        if not own and "-" in name and text[m.start() - 1 : m.start()] == ".":
            return name
        return to.get(name, name)

    return re.sub(r"(?<![\w'-])(?:" + NAME + r")(?![\w'])", one, text)


def lines(path, to):
    out = []
    camel = {o: n for o, n in to.items() if "-" not in o}
    for line in read(path).split("\n"):
        mark = "//" if path.endswith(".rt") else "--"
        at = line.find(mark) if line.lstrip().startswith(mark) or path.endswith(".rt") else -1
        code, said = (line, "") if at < 0 else (line[:at], line[at:])
        clause = path.endswith(".antt") or re.search(r"ghost|requires|ensures|^ {8}", code)
        code = respelled(code, to if clause else camel, not of_function(path)) if path.startswith("crates") else code
        out.append(code + respelled(said, camel))
    return "\n".join(out)


def main():
    found = declared()
    to = renaming(found)
    for path in files(".antt", ".rt"):
        old = read(path)
        new = lines(path, to)
        if new != old:
            with open(path, "w", encoding="utf-8") as f:
                f.write(new)
    for path in files(".md"):
        old = read(path)
        new = re.sub(r"`[^`\n]*`", lambda m: respelled(m.group(0), to), old)
        if new != old:
            with open(path, "w", encoding="utf-8") as f:
                f.write(new)
    for old in sorted(to):
        print(old, to[old])


if __name__ == "__main__":
    main()
