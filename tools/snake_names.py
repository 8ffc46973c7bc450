#!/usr/bin/env python3
"""Brings the repository's own definitions and lemmas to snake case, once, after the kit's port.py.

usage: python3 tools/snake_names.py [--dry]    at the top of the repository

A name that an .antt file below crates/ declares in lower case, as `maskOf` or `each-keeps`, becomes `mask_of` and `each_keeps`, wherever it stands in
specs/, proofs/, the clauses of src/ and the edits, in strings of the sources too, which are to be looked through afterwards. Types, modules, and names
of the Rattle sources stay. Where a lemma's name falls together with a definition's, the lemma gets `_lem` at its end.
"""

import os
import re
import sys

TOKEN = re.compile(r"(?<![\w'-])(\.?)([^\W\d][\w'₀-₉-]*)")
DECLARED = re.compile(r"^(\s*)((?:pub|abbrev|unfoldable|rec|ruleset|instance)\s+)*([^\W\d][\w'₀-₉-]*(?:\s+[^\W\d][\w'₀-₉-]*)*)\s*:(?:\s|$)")


def files(root, *ends):
    for folder, dirs, names in os.walk(os.path.join(root, "crates")):
        dirs[:] = sorted(d for d in dirs if d != "out")
        for n in sorted(names):
            if n.endswith(ends):
                yield os.path.join(folder, n)


def snake(name):
    name = re.sub(r"(?<=[a-z0-9])([A-Z])", r"_\1", name.replace("-", "_"))
    return re.sub(r"_[A-Z]+", lambda m: m.group(0).lower(), name)


def kept(name):
    return name[0].isupper() or name[0] == "_" or name == snake(name)


def of_a_function(path):
    """Whether the file is the proof of a function: what it declares are the names of its goals."""
    return os.path.basename(path) == "Proof.antt"


def declared(root):
    """The names to turn, those of them that are fields of a record, and the names that stay."""
    names, fields, standing = {}, set(), set()
    for path in files(root, ".antt"):
        if of_a_function(path):
            continue
        in_record = False
        for line in open(path, encoding="utf-8"):
            if line.strip().startswith(("--", "use ", "infix")):
                continue
            if line.strip() and not line[0].isspace():
                in_record = bool(re.match(r"(abbrev\s+|pub\s+|unfoldable\s+)*(record|data)\b", line))
            m = DECLARED.match(line)
            if not m:
                continue
            for n in m.group(3).split():
                if kept(n):
                    standing.add(n)
                else:
                    names[n] = snake(n)
                    if in_record and line[0].isspace():
                        fields.add(n)
    return names, fields, standing


def sources(root):
    """The words of the Rattle sources outside clauses: they keep their spelling."""
    words = set()
    for path in files(root, ".rt"):
        text = open(path, encoding="utf-8").read()
        text = re.sub(r"ghost use [^;]*;", "", text)
        text = re.sub(r"\b(ensures|requires)\b[^{]*\{[^{}]*(\{[^{}]*\}[^{}]*)*\}", "", text)
        text = re.sub(r"//.*", "", text)
        words |= set(re.findall(r"[A-Za-z_]\w*", text))
    return words


def turn(text, names, fields):
    def of_a_module(m):
        before = re.search(r"([\w'-]+)$", text[: m.start()])
        return bool(before) and before.group(1)[0].isupper()

    def one(m):
        dot, word = m.group(1), m.group(2)
        if word not in names or dot and word not in fields and not of_a_module(m):
            return m.group(0)
        return dot + names[word]

    return TOKEN.sub(one, text)


def together(names, standing):
    """Names that fall together: the definition, in camel case, keeps the name, and the lemma gets `_lem`."""
    camel = {new for n, new in names.items() if "-" not in n}
    for n, new in list(names.items()):
        if "-" in n and (new in camel or new in standing):
            names[n] = new + "_lem"
            print("lemma:", n, "is", names[n])
        elif "-" not in n and new in standing:
            names[new] = new + "_lem"
            print("lemma:", new, "is", names[new])


def main():
    names, fields, standing = declared(".")
    words = sources(".")
    for n in [n for n in names if n in words]:
        print("kept, a word of the sources:", n)
        del names[n]
    together(names, standing)
    for path in files(".", ".antt", ".rt", ".edit"):
        text = open(path, encoding="utf-8").read()
        new = turn(text, names, fields)
        if new != text and "--dry" not in sys.argv:
            open(path, "w", encoding="utf-8").write(new)
    print(len(names), "names turned")


main()
