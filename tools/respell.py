#!/usr/bin/env python3
"""Spells the repository's own definitions, lemmas, fields and constructors in snake case, as the library's are.

usage: tools/respell.py [--list] [--text FILE..]

It reads which names the .antt files of crates/ declare, and writes each that has a capital inside or a dash with underscores: in the
.antt and .rt files, in the must-fail edits, and between backticks in the papers (but the notes of landings, which stay as they were).
Types, modules, answers to goals (whose names rt makes), what is imported from a library, code and strings keep their spelling.
--list prints the names, old and new, and where two would fall together; it writes nothing.
"""

import os
import re
import sys

TOP = os.path.join(os.path.dirname(os.path.abspath(__file__)), "..")
NAME = r'[^\s(){}.;,@"«»`]+'
BINDERS = r"(?: (?:\{[^{}]*\}|\([^()]*\)))*"
DECLARED = re.compile(rf"^ *((?:(?:unfoldable|abbrev|pub) )*)({NAME}(?: {NAME})*?){BINDERS} :(?: (.*)|)$")
FOREIGN = re.compile(r"^\s*(?:pub )?(?:ghost )?use ((?:Rattle\.(?:std|core|libc|os|io|std_\w+)\b|Prim|native|mathlib|lib|borrow|contract|denote|seplogic|cubical|logic)(?:\.[^\s{};.]+)*)(?:\.\{([^}]*)\})?", re.M)
SKIPPED = {"use", "mod", "module", "data", "record", "let", "in", "where", "elim", "import", "open", "|", "λ", "unfolding", "--", "="}
KEPT_WORDS = {"then"}


def new_name(name):
    if name[:1].isupper():
        return name.replace("-", "_")
    return re.sub(r"(?<=[a-z0-9])[A-Z]", lambda m: "_" + m[0].lower(), name).replace("-", "_")


def files(ending, below="crates"):
    for folder, dirs, names in os.walk(os.path.join(TOP, below)):
        dirs[:] = sorted(d for d in dirs if d not in ("out", "target", ".git"))
        for n in sorted(names):
            if n.endswith(ending):
                yield os.path.join(folder, n)


def read(path):
    with open(path, encoding="utf-8", newline="") as f:
        return f.read()


def declared(path, text):
    walk = os.path.basename(path) == "Proof.antt"
    for line in text.split("\n"):
        m = DECLARED.match(line)
        if not m:
            continue
        names = m.group(2).split(" ")
        if names[0] in SKIPPED or any(n in SKIPPED or n in ("→", "≡", "×") for n in names):
            continue
        kind = m.group(3) or ""
        if walk and re.match(r"(tie|goal)\w*\.", kind):
            continue
        for n in names:
            if re.search(r"[a-z0-9][A-Z]", n) and not n[:1].isupper() or re.search(r"[^-]-[^-]", n):
                if re.fullmatch(r"[\w'₀-₉ℕℤ-]+", n):
                    yield n, False
            else:
                yield n, True


def turn_code(text, table):
    """Renames in antt or in clauses: whole names, but not in strings; in comments between backticks alone."""
    out = []
    for line in text.split("\n"):
        m = re.search(r"(?:^|\s)(--|//)(?=\s|$)", line)
        code, said = (line[: m.start(1)], line[m.start(1):]) if m else (line, "")
        parts = re.split(r'("(?:[^"\\]|\\.)*")', code)
        for i in range(0, len(parts), 2):
            parts[i] = re.sub(NAME, lambda t: table.get(t[0], t[0]), parts[i])
        said = re.sub(r"`([^`\n]*)`", lambda t: "`" + re.sub(NAME, lambda u: table.get(u[0], u[0]), t[1]) + "`", said)
        out.append("".join(parts) + said)
    return "\n".join(out)


def turn_paper(text, table):
    return re.sub(r"`([^`\n]*)`", lambda t: "`" + re.sub(NAME, lambda u: table.get(u[0], u[0]), t[1]) + "`", text)


def foreign(text):
    names = set()
    for m in FOREIGN.finditer(text):
        names |= {n.strip().split(" as ")[-1] for n in (m.group(2) or "").split(",")}
        names |= {n.strip().split(" as ")[0] for n in (m.group(2) or "").split(",")}
    return names


def tokens(text):
    text = re.sub(r"(?m)(^|\s)(--|//)(\s.*|)$", r"\1", text)
    text = re.sub(r'"(?:[^"\\\n]|\\.)*"', "", text)
    text = re.sub(r"\buse [^\s;{]+", "", text)
    return set(re.findall(rf"(?<![.:]){NAME}", text))


def main(argv):
    table, where, plain = {}, {}, set()
    for path in files(".antt"):
        for n, stays in declared(path, read(path)):
            if stays:
                plain.add(n)
                continue
            table[n] = new_name(n)
            where.setdefault(n, path)
    table = {a: b for a, b in table.items() if a != b}
    # a lemma that would have its definition's name
    camel = {b for a, b in table.items() if "-" not in a}
    table = {a: b + "_lem" if "-" in a and (b in camel or b in plain) else b for a, b in table.items()}
    for b in camel & plain:
        table[b] = b + "_lem"
        where[b] = ""
    clash = 0
    for path in list(files(".antt")) + list(files(".rt")):
        text = read(path)
        own = {a: b for a, b in table.items() if a not in foreign(text)}
        there = tokens(text)
        made = {}
        for a in sorted(there & own.keys()):
            b = own[a]
            if b in there or b in made:
                clash += 1
                print(f"look: {os.path.relpath(path, TOP)}: {a} -> {b} meets {made.get(b, b)}")
            made[b] = a
    if "--list" in argv:
        for a in sorted(table):
            print(f"{a}\t{table[a]}\t{where[a] and os.path.relpath(where[a], TOP)}")
        return 0
    for path in list(files(".antt")) + list(files(".rt")) + list(files(".edit")):
        text = read(path)
        own = {a: b for a, b in table.items() if a not in foreign(text)}
        new = turn_code(text, own)
        if new != text:
            with open(path, "w", encoding="utf-8", newline="") as f:
                f.write(new)
    papers = [os.path.join(TOP, "README.md")] + [p for p in files(".md", "docs") if "/landings/" not in p and not p.endswith("PORT.md")]
    for path in papers:
        text = read(path)
        new = turn_paper(text, table)
        if new != text:
            with open(path, "w", encoding="utf-8", newline="") as f:
                f.write(new)
    return 0


if __name__ == "__main__":
    sys.exit(main(sys.argv[1:]))
