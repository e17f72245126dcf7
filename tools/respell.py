#!/usr/bin/env python3
"""Brings the names of this repository's own definitions and lemmas to one spelling: words in snake case, types in camel case.

usage: python3 tools/respell.py        at the top of the repository, once, after the kit's own script

A name counts as ours where a file of specs/, or a lemma file right in proofs/, declares it: a definition, a lemma, a data type,
a constructor, a field, a parameter, a `let` or an import's new name. It is then rewritten wherever it stands as a whole word in
the text of crates/ (comments only between backquotes). Goal names and the library's names keep their hyphens, and so does every
function, string, input and output. The script stops, and writes nothing, where two names would fall together.
"""

import os
import re
import sys

WORD = re.compile(r"[A-Za-z_][A-Za-z0-9_'-]*")
DECLARED = re.compile(r"(?m)^\s*(?:(?:abbrev|unfoldable|pub|data|record)\s+)*([A-Za-z_][A-Za-z0-9_'-]*)(?=\s*(?:[({][^\n]*)?\s:\s)")
BOUND = re.compile(r"\blet ([A-Za-z_][A-Za-z0-9_'-]*)|\bas ([A-Za-z_][A-Za-z0-9_'-]*)|\(([A-Za-z_][A-Za-z0-9_' -]*) : ")


def files(root):
    for folder, dirs, names in os.walk(os.path.join(root, "crates")):
        dirs[:] = sorted(d for d in dirs if d != "out")
        for name in sorted(names):
            if name.endswith((".antt", ".rt")):
                yield os.path.join(folder, name)


def is_our_page(root, path):
    """A file of specs/, or a lemma file: not a function's Answers or Invariants, whose names Rattle gives."""
    parts = os.path.relpath(path, root).split(os.sep)
    return path.endswith(".antt") and (parts[2] == "specs" or (parts[2] == "proofs" and len(parts) == 4))


def respelled(name):
    if name[0].isupper():
        return "".join(w[:1].upper() + w[1:] for w in name.split("-"))
    return name.replace("-", "_")


def is_local(root, path):
    return path.endswith(".antt") and not is_our_page(root, path)


def names_of(root, texts):
    found = set()
    for path, text in texts.items():
        code = re.sub(r"--.*", "", text)
        if is_our_page(root, path):
            found |= {m[1] for m in DECLARED.finditer(code)}
            for m in BOUND.finditer(code):
                found |= {w for w in (m[1] or m[2] or m[3]).split()}
        elif is_local(root, path):
            found |= {m[1] for m in re.finditer(r"\blet ([A-Za-z_][A-Za-z0-9_'-]*)", code)}
    return {n: respelled(n) for n in found if "-" in n}


def turned(text, comment, names):
    def word(m):
        return names.get(m[0], m[0])

    def quoted(m):
        return WORD.sub(word, m[0])

    lines = []
    for line in text.split("\n"):
        at = line.find(comment)
        code, note = (line, "") if at < 0 else (line[:at], line[at:])
        if '"' not in code:
            code = WORD.sub(word, code)
        lines.append(code + re.sub(r"`[^`]*`", quoted, note))
    return "\n".join(lines)


def main():
    root = os.getcwd()
    if not os.path.isdir(os.path.join(root, "crates")):
        sys.exit("run it at the top of the repository")
    texts = {}
    for path in files(root):
        with open(path, encoding="utf-8") as f:
            texts[path] = f.read()
    names = names_of(root, texts)
    words = {w for t in texts.values() for w in WORD.findall(t)}
    together = sorted(n for n, to in names.items() if to in words) + sorted(n for n in names if list(names.values()).count(names[n]) > 1)
    if together:
        sys.exit("these would fall together with another name: " + ", ".join(together))
    changed = 0
    for path, text in texts.items():
        new = turned(text, "--" if path.endswith(".antt") else "//", names)
        if new != text:
            changed += 1
            with open(path, "w", encoding="utf-8") as f:
                f.write(new)
    print(f"respell: {len(names)} names, {changed} files")
    for name in sorted(names):
        print(f"  {name} -> {names[name]}")


if __name__ == "__main__":
    main()
