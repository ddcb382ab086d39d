#!/usr/bin/env python3
"""Counts, in the code of every crate, the places where an older form of Rattle may stand; docs/DESIGN-PASS.md has the counts.

usage: tools/forms.py [--places] [COMMIT]      (without a commit: the files as they are)

Each kind of place is found by a pattern, so a line here is a place to look at and no verdict.
"""
import re
import subprocess
import sys

TOP = subprocess.run(["git", "rev-parse", "--show-toplevel"], capture_output=True, text=True, check=True).stdout.strip()
words = [w for w in sys.argv[1:] if w != "--places"]
SHOW = "--places" in sys.argv
COMMIT = words[0] if words else None


def git(*args):
    return subprocess.run(["git", "-C", TOP, *args], capture_output=True, text=True, check=True).stdout


def files(pattern):
    listed = git("ls-tree", "-r", "--name-only", COMMIT) if COMMIT else git("ls-files", "-co", "--exclude-standard")
    for path in sorted(listed.splitlines()):
        if re.fullmatch(pattern, path):
            yield path, git("show", f"{COMMIT}:{path}") if COMMIT else open(f"{TOP}/{path}").read()


CODE = [(path, re.sub(r"//[^\n]*", "", text)) for path, text in files(r"crates/\w+/src/\w+\.rt")]
FOUND = {}


def found(kind, path, at, text, what):
    line = text.count("\n", 0, at) + 1
    FOUND.setdefault(kind, []).append(f"{path}:{line} {what.strip()}")


def lines(kind, pattern):
    FOUND.setdefault(kind, [])
    for path, text in CODE:
        for m in re.finditer(pattern, text, re.M):
            found(kind, path, m.start(), text, m.group(0).splitlines()[-1] if "\n" in m.group(0).strip() else m.group(0))


def enums():
    kind = "1a own enums of the shape of Option or Result"
    FOUND[kind] = []
    for path, text in CODE:
        for m in re.finditer(r"enum (\w+) \{(.*?)\n\}", text, re.S):
            variants = re.findall(r"^    (\w+)(\(?)", m.group(2), re.M)
            refusal = [v for v, _ in variants if re.fullmatch(r"(No|Not)([A-Z]\w*)?|Nothing|Broken|Wrong", v)]
            if refusal and any(data for _, data in variants) and not re.search(r"(Error|Refusal)$", m.group(1)):
                found(kind, path, m.start(), text, f"enum {m.group(1)}")


def facts():
    said = {}
    for path, text in CODE:
        for m in re.finditer(r"requires \{(.*?)\}\s*(?=ensures|\{|requires)", text, re.S):
            for fact in re.split(r"×", m.group(1)):
                fact = re.sub(r"\s+", " ", fact).strip().strip("()").strip()
                said.setdefault(fact, []).append(path)
    kind = "5a facts that stand in the requires of three or more functions"
    FOUND[kind] = [f"{len(where)} times: {fact}" for fact, where in sorted(said.items()) if len(where) >= 3]


def many():
    kind = "5b functions of six or more parameters"
    FOUND[kind] = []
    for path, text in CODE:
        for m in re.finditer(r"fn (\w+)(?:<(?:->|[^>])*>)?\(([^)]*)\)", text, re.S):
            if len([p for p in m.group(2).split(",") if ":" in p or "self" in p]) >= 6:
                found(kind, path, m.start(), text, f"fn {m.group(1)}")


NUMBER = r"(?:0|[1-9]\d*)"
enums()
lines("1b a flag or a number beside a value", r"^    pub (?:hit|number|kind): (?:bool|u8|u16|u32)\b|^    (?:number): u16\b|^    pub limit: u32\b")
lines("1c numbers for kinds or refusals",
      rf"^\s*{NUMBER}(?: \| {NUMBER})* => [^\n]*"
      rf"|\b(?:tag|kind|k|t|head\.word|[abh]\.word|word_at\([^)\n]*(?:\([^)\n]*\))?[^)\n]*\)) (?:==|!=|<=|<) {NUMBER}\b[^\n]*"
      rf"|\b{NUMBER} (?:==|<=|<) (?:tag|word_at\()[^\n]*"
      rf"|\b(?:No|refuse|refused)\({NUMBER}\)[^\n]*|return {NUMBER};[^\n]*|_at\(s, {NUMBER}, [^\n]*|next_leaf\([^\n]*, {NUMBER}\)[^\n]*")
lines("3 loops by hand", r"^\s*(?:while|loop)\b[^\n]*")
lines("4a types with no derive but Drop", r"#\[derive\(Drop\)\]\s*(?:pub )?(?:struct|enum) \w+")
lines("4b conversions and comparisons by hand", r"^(?:pub )?fn (?:stepped|loaded|ran|checked|refuse|refused|equal|load_number|script_number|magnitude)\b")
facts()
many()
lines("6a a length beside its buffer", r"&mut \[u16\],\s*(?:length|n): usize|state: &mut \[u16\], n: usize")
lines("6b parallel or packed tables", r"^const \w+: \[\w+; \d+\]")
lines("7 switches on a number", r"^\s*match (?:kind|k|number|tag|word_at\([^{]*) \{|^\s*if tag == \d+ \{")
for kind in sorted(FOUND):
    print(f"{len(FOUND[kind]):4d}  {kind}")
    if SHOW:
        for place in FOUND[kind]:
            print(f"        {place}")
proofs = list(files(r"crates/\w+/proofs/.+/(?:Answers|Invariants)\.antt"))
answers = sum(len(re.findall(r"^pub [\w-]+ : goal", text, re.M)) for _, text in proofs)
lemmas = list(files(r"crates/\w+/proofs/\w+\.antt"))
print(f"{answers:4d}  8a answers in {len(proofs)} files of {sum(t.count(chr(10)) for _, t in proofs)} lines")
print(f"{len(lemmas):4d}  8b files of lemmas, of {sum(t.count(chr(10)) for _, t in lemmas)} lines")
