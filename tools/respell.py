#!/usr/bin/env python3
"""Brings the repository's own names to snake case: `orderBytes` and `order-bytes` become `order_bytes`.

usage: python3 tools/respell.py OLD    at the top of the repository; OLD is a folder with the tree as it was before port.py

Types keep their capitals, modules, functions of src/ and file names theirs. Where a definition and a lemma would fall together,
the lemma gets `_lem`. Strings and prose stay; a name in back quotes follows, in comments and in documents.
"""

import collections
import os
import re
import sys

DECLARED = re.compile(
    r"^\s*(?:(?:abbrev|unfoldable|pub|data|record|infixl?|infixr|ruleset|syntax|private|inline)\s+)*"
    r"([^\s(){};.,@λ:]+)\s*(?:\([^)]*\)\s*|\{[^}]*\}\s*)*:\s"
)
TOKEN = re.compile(r"[^\s(){}\[\];.,@\"`λ→⟨⟩]+")


def files(root, endings):
    for folder, dirs, names in os.walk(os.path.join(root, "crates")):
        dirs[:] = sorted(d for d in dirs if d not in ("out", ".git"))
        for name in sorted(names):
            if name.endswith(endings):
                yield os.path.join(folder, name)


def declared(root):
    found = collections.defaultdict(set)
    for path in files(root, (".antt",)):
        for line in open(path, encoding="utf-8"):
            m = DECLARED.match(line.split("--")[0])
            if m:
                found[m.group(1)].add(os.path.relpath(path, root))
    return found


def snake(name):
    name = name.replace("-", "_")
    return re.sub(r"([a-z0-9])([A-Z])", lambda m: m.group(1) + "_" + m.group(2).lower(), name)


def is_word(name):
    return re.fullmatch(r"[a-z][A-Za-z0-9_'₀-₉-]*", name) is not None


def table(old, new):
    """From each present spelling to its last one."""
    before = {n for n in old if is_word(n)}
    now = {n for n in new if is_word(n)}
    forms = collections.defaultdict(set)
    for n in before:
        forms[snake(n)].add(n)
    to = {}
    for s, names in forms.items():
        camel = {n for n in names if re.search("[A-Z]", n)}
        kebab = names - camel
        for n in names:
            to[n] = s if n in camel or not camel else s + "_lem"
        if camel and kebab and s in now:
            # port.py has turned one of the two: the one whose old spelling is gone
            left = {n for n in names if n in now}
            turned = names - left
            if turned and turned <= kebab:
                to[s] = s + "_lem"
    return {a: b for a, b in to.items() if a != b}


def foreign(text, own):
    """The names that a file brings in from elsewhere than this repository's crates."""
    out = set()
    for m in re.finditer(r"use\s+([\w.+\-·]+?)\.\{([^}]*)\}", text):
        path = m.group(1)
        if path.startswith("Rattle.") and path.split(".")[1] in own:
            continue
        out |= {w.strip() for w in m.group(2).split(",")}
    return out


def respelled(text, to, skip, comment):
    lines = []
    for line in text.split("\n"):
        code, mark, prose = line.partition(comment)
        parts = re.split(r'("(?:\\.|[^"\\])*")', code)
        code = "".join(p if i % 2 else TOKEN.sub(lambda m: turned(m.group(0), to, skip), p) for i, p in enumerate(parts))
        lines.append(code + mark + quoted(prose, to, skip))
    return "\n".join(lines)


def turned(word, to, skip):
    if word in skip:
        return word
    return to.get(word, word)


def quoted(prose, to, skip):
    return re.sub(r"`([^`]*)`", lambda m: "`" + TOKEN.sub(lambda w: turned(w.group(0), to, skip), m.group(1)) + "`", prose)


def clauses(text, to, skip):
    """In source files only what is antt: the imports and the braces of clauses and ghost items."""
    out, depth, antt = [], 0, False
    for line in text.split("\n"):
        code = line.partition("//")[0]
        starts = re.match(r"\s*(ghost use|requires|ensures|ghost|decreases|invariant)\b", code) is not None
        if depth == 0:
            antt = starts
        one = respelled(line, to, skip, "//") if antt else line.partition("//")[0] + line.partition("//")[1] + quoted(line.partition("//")[2], to, skip)
        out.append(one)
        if antt:
            depth += code.count("{") - code.count("}")
            if depth <= 0:
                depth, antt = 0, False
    return "\n".join(out)


def main(old_root):
    old, new = declared(old_root), declared(".")
    to = table(old, new)
    own = set(os.listdir("crates"))
    changed = 0
    for path in files(".", (".antt", ".rt")):
        text = open(path, encoding="utf-8").read()
        skip = foreign(text, own)
        after = respelled(text, to, skip, "--") if path.endswith(".antt") else clauses(text, to, skip)
        if after != text:
            open(path, "w", encoding="utf-8").write(after)
            changed += 1
    for path in ["README.md"] + [os.path.join("docs", n) for n in os.listdir("docs")] + [os.path.join("docs/changes", n) for n in os.listdir("docs/changes")]:
        if path.endswith(".md"):
            text = open(path, encoding="utf-8").read()
            to_docs = dict(to)
            for n in old:
                if is_word(n) and n not in to_docs and snake(n) != n:
                    to_docs[n] = snake(n)
            after = quoted(text, to_docs, set())
            if after != text:
                open(path, "w", encoding="utf-8").write(after)
                changed += 1
    print(f"{len(to)} names, {changed} files")
    for a in sorted(to):
        if to[a].endswith("_lem"):
            print(f"  {a} -> {to[a]}")


if __name__ == "__main__":
    main(sys.argv[1])
