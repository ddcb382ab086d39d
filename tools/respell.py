#!/usr/bin/env python3
"""Brings this repository's own names to today's spelling: words in snake case, where the kit's port.py left the older one.

usage: tools/respell.py [--list]

Run once, at the top, after the kit's port.py. A definition, a lemma, a constructor or a variable in mixed case becomes
snake case; a lemma or definition of specs/ or proofs/ with dashes gets underscores, and `_lem` behind it where a word has that name. Types, modules and facts keep their
capital. Names of Rattle's library, of Rust items and of the goals that rt makes stay. With --list nothing is written and
the table of names is printed. A new name that a file has already is reported by a line that begins 'clash:'.
"""
import os
import re
import sys

NAME = re.compile(r"[^\s(){}.;,@\"«»]+")
DECLARED = re.compile(r"\s*(?:(?:abbrev|pub|unfoldable|data|record)\s+)*([^\s(){}.;,@\"«»]+)(?: [^:]*)? :(?:\s|$)")
MIXED = re.compile(r"(?:^|-)[a-z][A-Za-z0-9]*[A-Z]")
COMMENT = re.compile(r"(?:^|\s)(?:--|//)(?:\s.*|$)")


def texts():
    for folder, dirs, files in os.walk("crates"):
        dirs[:] = sorted(d for d in dirs if d != "out")
        for f in sorted(files):
            if f.endswith((".antt", ".rt", ".edit")):
                yield os.path.join(folder, f)


def is_lemma_file(path):
    folder = os.path.dirname(path)
    return path.endswith(".antt") and (folder.endswith("/proofs") or "/specs" in folder)


def snake(name):
    parts = name.split("-")
    words = [re.sub(r"(?<=[a-z0-9])[A-Z]", lambda m: "_" + m[0].lower(), p) if re.match(r"[a-z]", p) else p for p in parts]
    return words


def code_of(line):
    """The line without its comment, and the comment."""
    m = COMMENT.search(line)
    return (line, "") if m is None else (line[: m.start()], line[m.start() :])


def main(argv):
    contents, declared, tokens = {}, set(), {}
    for path in texts():
        with open(path, encoding="utf-8") as f:
            contents[path] = f.read()
        tokens[path] = set()
        for line in contents[path].splitlines():
            code, _ = code_of(line)
            tokens[path].update(NAME.findall(code))
            m = DECLARED.match(code)
            if m and is_lemma_file(path):
                declared.add(m[1])
    used = set().union(*tokens.values())
    words = {n: "_".join(snake(n)) if n in declared else "-".join(snake(n)) for n in used if MIXED.search(n) and not ("-" in n and n in declared)}
    # A lemma whose new name is a word's gets `_lem`.
    lemmas = {n: n + "_lem" for n in used & declared if n in set(words.values())}
    for n in sorted(n for n in used & declared if "-" in n and re.match(r"[a-z]", n)):
        new = "_".join(snake(n))
        taken = used | set(words.values()) | set(lemmas.values())
        lemmas[n] = new + "_lem" if new in taken else new
    table = words | lemmas
    for old, new in sorted(table.items()):
        if new in used - set(lemmas) or list(table.values()).count(new) > 1:
            where = [p for p in tokens if new in tokens[p] and old in tokens[p]]
            print(f"clash: {old} -> {new}: {len(where)} files have both {where[:3]}")
    if "--list" in argv:
        print("\n".join(f"{a}\t{b}" for a, b in table.items()))
        return
    for path, text in contents.items():
        out = []
        for line in text.split("\n"):
            code, comment = code_of(line)
            out.append(NAME.sub(lambda m: table.get(m[0], m[0]), code) + re.sub(r"`([^`\s]+)`", lambda m: "`" + NAME.sub(lambda n: table.get(n[0], n[0]), m[1]) + "`", comment))
        new = "\n".join(out)
        if new != text:
            with open(path, "w", encoding="utf-8") as f:
                f.write(new)


main(sys.argv[1:])
