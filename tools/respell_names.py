#!/usr/bin/env python3
"""Brings the repository's own definitions and lemmas to the spelling of today's Rattle.

usage: tools/respell_names.py [--list]      at the top of the repository, once, after the toolchain's port.py

Words are in snake case: `lettersFor` becomes `letters_for` and `posted-is` becomes `posted_is`. Types, modules, names of
src/, generated names and names of the library stay. Only names that a file of specs/ or proofs/ declares are turned,
as whole words, in .antt files, in the clauses of .rt files, and in pages between backticks. --list prints the table and
what falls together, and changes nothing.
"""

import os
import re
import sys

ROOT = os.path.dirname(os.path.dirname(os.path.realpath(__file__)))
CRATES = os.path.join(ROOT, "crates")
WORD = r"[^\s(){}\[\];,.:`\"]+"
SIGNATURE = re.compile(r"^(\s*)(?:(?:abbrev|unfoldable|mutual)\s+)*(?:pub\s+)?(?:(?:record|data)\s+)?(" + WORD + r")\s*(?:\([^)]*\)\s*|\{[^}]*\}\s*)*:\s")
MANY = re.compile(r"^\s+pub\s+((?:" + WORD + r"\s+)+" + WORD + r")\s*:\s")
GENERATED = re.compile(r":\s*(?:goal|need)\.")
IMPORT = re.compile(r"\.(?:Goals|Given|Needs)\.\{[^}]*\}")
CAMEL = re.compile(r"^[a-z][a-z0-9]*[A-Z]")
PIECE = re.compile(r"[^\s(){}\[\];,.:`\"]+|.", re.S)
# names that a file declares and that Rattle makes or the library has
LEFT = {"getD"}


def files(endings):
    for folder, dirs, names in os.walk(CRATES):
        dirs[:] = sorted(d for d in dirs if d != "out")
        for n in sorted(names):
            if n.endswith(endings):
                yield os.path.join(folder, n)


def read(path):
    with open(path, encoding="utf-8") as f:
        return f.read()


def declared():
    """Names that the repository declares, and which of them are fields."""
    names, fields = set(), set()
    for p in files(".antt"):
        inside = False
        for line in read(p).splitlines():
            code = line.split("--")[0]
            if re.match(r"^\s*pub record|^\s*record", code):
                inside = True
            elif code and not code[0].isspace():
                inside = False
            if GENERATED.search(code) or code.strip().startswith("let "):
                continue
            m = SIGNATURE.match(code)
            found = [m[2]] if m else []
            many = MANY.match(code)
            if many:
                found = many[1].split()
            for n in found:
                names.add(n)
                if inside and code[0].isspace() and re.match(r"^\s+pub\s", code):
                    fields.add(n)
    # ghost members of traits and ghost fields are Rust identifiers
    for p in files(".rt"):
        for n in re.findall(r"^\s*(?:pub\s+)?(?:ghost|law) (\w+)\s*[:=]", read(p), re.M):
            names.add(n)
    for p in files((".rt", ".antt")):
        for line in re.findall(r"^(?:ghost )?use .*$", read(p), re.M):
            names.update(re.findall(r" as ([a-z]\w*)", line))
    return names, fields


def snake(name):
    name = name.replace("getD", "get_or").replace("′", "'")
    name = re.sub(r"(?<=[a-z0-9])([A-Z])", lambda m: "_" + m[1].lower(), name)
    return name.replace("-", "_")


def table():
    names, fields = declared()
    turned = {}
    for n in sorted(names):
        if n in LEFT or not re.match(r"^[a-z]", n):
            continue
        if "-" in n or CAMEL.match(n) or "′" in n:
            if not re.search(r"[^\w'′-]", n):
                turned[n] = snake(n)
    # a lemma that would have its function's name gets `_lem`
    taken = {new for old, new in turned.items() if CAMEL.match(old)} | {n for n in names if n not in turned}
    for old, new in turned.items():
        if not CAMEL.match(old) and new in taken:
            turned[old] = new + "_lem"
    return turned, fields


def turn(text, turned, fields):
    """The text with each whole word of the table turned; a word behind a dot only where it is a field."""
    kept = [(m.start(), m.end()) for m in IMPORT.finditer(text)]
    aliases = set(re.findall(r" as ([A-Z]\w*)", text))
    out = []
    before, above = "", ""
    for m in PIECE.finditer(text):
        w = m[0]
        while kept and m.start() >= kept[0][1]:
            kept.pop(0)
        new = turned.get(w)
        if new and (CAMEL.match(w) or not (kept and kept[0][0] <= m.start() < kept[0][1])):
            if before != "." or w in fields or CAMEL.match(w) or above in aliases:
                w = new
        out.append(w)
        before, above = m[0], before
    return "".join(out)


def blank_strings(text):
    """Splits a .rt file into code and what is a comment or a string, in turn."""
    parts, i, start = [], 0, 0
    n = len(text)
    while i < n:
        if text.startswith("//", i):
            j = text.find("\n", i)
            j = n if j < 0 else j
        elif text[i] == '"':
            j = i + 1
            while j < n and text[j] != '"':
                j += 2 if text[j] == "\\" else 1
            j += 1
        else:
            i += 1
            continue
        parts.append((True, text[start:i]))
        parts.append((False, text[i:j]))
        i = start = j
    parts.append((True, text[start:]))
    return parts


def main(argv):
    turned, fields = table()
    together = {}
    for p in files((".antt", ".rt")):
        words = set(re.findall(WORD, read(p)))
        for old, new in turned.items():
            if old in words and new in words:
                together.setdefault((old, new), []).append(os.path.relpath(p, CRATES))
    by_new = {}
    for old, new in turned.items():
        by_new.setdefault(new, []).append(old)
    for new, olds in by_new.items():
        if len(olds) > 1:
            print(f"look: {', '.join(olds)} all become {new}")
    for (old, new), where in sorted(together.items()):
        print(f"look: {old} becomes {new}, which is there already, in {', '.join(where[:4])}")
    if argv == ["--list"]:
        for old, new in turned.items():
            print(old, new, "field" if old in fields else "")
        return 0
    changed = 0
    for p in files((".antt", ".rt", ".edit")):
        text = read(p)
        if p.endswith(".antt"):
            new = turn(text, turned, fields)
        elif p.endswith(".edit"):
            new = turn(text, {o: n for o, n in turned.items() if CAMEL.match(o)}, fields)
        else:
            new = "".join(turn(t, turned, fields) if code else t for code, t in blank_strings(text))
        if new != text:
            with open(p, "w", encoding="utf-8") as f:
                f.write(new)
            changed += 1
    pages = [os.path.join(ROOT, "README.md")] + [os.path.join(ROOT, "docs", n) for n in sorted(os.listdir(os.path.join(ROOT, "docs"))) if n.endswith(".md") and not n.startswith("PORT")]
    for p in pages:
        text = read(p)
        new = re.sub(r"`[^`\n]+`", lambda m: turn(m[0], {o: n for o, n in turned.items() if CAMEL.match(o)}, fields), text)
        if new != text:
            with open(p, "w", encoding="utf-8") as f:
                f.write(new)
            changed += 1
    print(f"{len(turned)} names, {changed} files changed")
    return 0


if __name__ == "__main__":
    raise SystemExit(main(sys.argv[1:]))
