#!/usr/bin/env python3
"""Gives the proofs that walk the code (proofs/F/Proof.antt) today's labels: goals, places, steps and loops.

usage: tools/relabel.py CRATE NAMES

NAMES is the names.json that `rt check --generated FOLDER --old-names` writes in the crate's folder. Each Proof.antt is turned once: run it
once for a crate, before any of its proofs is edited by hand. What it cannot tell (one old name of a step that has two new ones) it leaves,
with a line on standard output.
"""

import json
import os
import re
import sys

TOP = os.path.join(os.path.dirname(os.path.abspath(__file__)), "..")
NAME = r'[^\s(){}.;,@"«»`]+'


def norm(x):
    """Old names had a dash where Rust has an underscore, and a count with no dash."""
    return re.sub(r"-(\d+)$", r"\1", x.replace("_", "-"))


def merged(it):
    """Of each old place within an arm of a match, the arm's whole record."""
    last = {}
    for arm in it["arms"]:
        if arm:
            last[arm[0]] = arm[0]
    names = set(it["places_by_name"])
    out = {}
    for p, arm in zip(it["places"], it["arms"]):
        if arm:
            new = "I" + arm[0][1:]
            if new in names:
                out[norm(p[0])] = new
    return out


def befores(text, it, say):
    """Counts the steps back anew: the places of an arm of a match are one now; and what an arm binds goes by its name there."""
    parent = {p[0]: p[1] for p in it["places"]}
    group = {p[0]: arm and arm[0] for p, arm in zip(it["places"], it["arms"])}
    by_norm = {norm(p[0]): p[0] for p in it["places"]}
    asked = {norm(n[0]): a[0] for n, a in zip(it["needs"], it["asked_at"])}
    bound = {}
    for arm in it["arms"]:
        for field in arm[2] if arm else ():
            if field[2]:
                bound.setdefault((norm(field[1]), ".".join(field[2])), set()).add(f"{arm[0]}.{field[0]}")

    def up(at, n):
        steps = 0
        for _ in range(n):
            to = parent.get(at)
            if to is None:
                return None, None
            if not (group[at] and group[at] == group[to]):
                steps += 1
            at = to
        return at, steps

    def chains(line, vars):
        def one(m):
            at = vars.get(m[1])
            if not at:
                return m[0]
            to, steps = up(at, m[2].count(".before"))
            return m[0] if to is None else m[1] + ".before" * steps

        return re.sub(r"(?<![\w.-])(\w+)((?:\.before)+)\b(?!-)", one, line)

    lines, inside, here = [], {}, {}
    for line in text.split("\n"):
        m = re.match(r"module _ \((\w+) : tie\.(%s)[^)]*\) where" % NAME, line)
        if m:
            inside, here = {m[1]: by_norm.get(norm(m[2]))}, {}
        elif line and not line.startswith((" ", "--")):
            d = re.match(r"(?:abbrev |pub |unfoldable )*(%s) : (?:\((\w+) : )?tie\.(Need-)?(%s)" % (NAME, NAME), line)
            if d:
                inside = {}
                key = norm(d[4])
                at = (asked.get(key) or asked.get(re.sub("^(overflow|bounds)-", "", key))) if d[3] else by_norm.get(key)
                here = {d[2] or "c": at, "c": at}
            elif re.match(r"(?:abbrev |pub |unfoldable )*%s(?: \{[^}]*\}| \([^)]*\))* :" % NAME, line):
                inside, here = {}, {}
        vars = {**inside, **here}
        a = re.search(r"let (\w+) = c((?:\.before)+) in", line)
        if a and vars.get("c"):
            to, _ = up(vars["c"], a[2].count(".before"))
            if to:
                here = {**here, a[1]: to}
        if not line.lstrip().startswith("--"):
            line = chains(line, vars)

            def arm(m):
                new = bound.get((norm(m[1]), m[2]))
                return "." + next(iter(new)) if new and len(new) == 1 else m[0]

            line = re.sub(r"\.(%s)\.(given(?:\.[01])+)(?![.\w-])" % NAME, arm, line)
        lines.append(line)
    return "\n".join(lines)


def turn(text, it, say):
    needs, seen = {}, set()
    for old, new in it["needs"]:
        for k in (old, "overflow-" + old, "bounds-" + old):
            needs.setdefault(norm(k), new)
    for old, new in it["needs"]:
        needs[norm(old)] = new
    news = {norm(n): n for _, n in it["needs"]}
    places = {}
    for (old, *_), new in zip(it["places"], it["places_by_name"]):
        places[norm(old)] = new
    steps = {}
    for p in it["places"]:
        old, new = p[2]
        # (what is known of a variable, as `out-1` of `out`, has the name of the variable itself)
        if old and (new != old + "-1" or re.match(r"(shared-)?slice-known|mut-slice-known|known-told|enum-|.*-arg$", old.replace("_", "-"))):
            steps.setdefault(norm(old), set()).add(new)
    loops = {norm(l[0][0]): l[0][1] for l in it["loops"]}

    def label(m):
        x = m[1]
        new = needs.get(norm(x)) or news.get(norm(x))
        if not new:
            say(f"no goal for {x}")
            return m[0]
        return "tie.Need-" + new

    last = merged(it)

    def place(m):
        new = last.get(norm(m[1])) or places.get(norm(m[1]))
        return "tie." + new if new else m[0]

    def loop(m):
        new = loops.get(norm(m[2]))
        return f"tie.{m[1]}-{new}" if new else m[0]

    text = befores(text, it, say)
    text = re.sub(rf"\btie\.Need-({NAME})", label, text)
    text = re.sub(rf"\btie\.(?!Need-|spec\b|close\b|invariant-|decreases-)({NAME})", place, text)
    text = re.sub(rf"\btie\.(invariant|decreases)-({NAME})", loop, text)

    def step(m):
        new = steps.get(norm(m[1]))
        if not new:
            return m[0]
        if len(new) > 1:
            if m[1] not in seen:
                say(f"step .{m[1]} is one of {sorted(new)}")
                seen.add(m[1])
            return m[0]
        return "." + next(iter(new))

    # what a `&mut` holds after a call goes by the parameter's name, and no longer by its place
    callees = {p[2][1]: it["params"].get(p[3]) for p in it["places"] if p[3]}

    def after(m):
        params = callees.get(m[1])
        n = m[2].count(".1")
        return f".{m[1]}.new.{params[n]}" if params and n < len(params) else m[0]

    # what a slice holds goes by the slice's own name
    own = set(re.findall(r"\.args\.(\w+?)-?1\b", text))

    lines = []
    for line in text.split("\n"):
        if re.match(r"\s*(--|use |pub use )", line):
            lines.append(line)
            continue
        line = re.sub(rf"(?<=[\w)'])(?<!\.args)(?<!\.ranges)\.({NAME})", step, line) if "Need-" not in line or " = " in line else line
        line = re.sub(rf"\.({NAME})\.new((?:\.1)*)\.0(?![\w-])", after, line)
        line = re.sub(r"\.(\w+?)-?1(?![\w-])", lambda m: "." + m[1] if m[1] in own else m[0], line)
        line = re.sub(r"\.type-inv\b", ".type_inv", line)
        line = re.sub(r"\.inv\b(?!-)", ".invariant", line)
        line = re.sub(r"\.pre\b(?!-)", ".requires", line)
        lines.append(line)
    return "\n".join(lines)


def main(argv):
    crate, names = argv
    with open(names) as f:
        names = json.load(f)
    for key, it in sorted(names.items()):
        m = re.fullmatch(rf"Rattle-{crate}-proofs\.(.*)\.Lts", key)
        if not m:
            continue
        path = os.path.join(TOP, "crates", crate, "proofs", *m[1].split("."), "Proof.antt")
        if not os.path.exists(path):
            continue
        with open(path, encoding="utf-8") as f:
            text = f.read()
        new = turn(text, it, lambda s: print(f"{m[1]}: {s}"))
        if new != text:
            with open(path, "w", encoding="utf-8") as f:
                f.write(new)


if __name__ == "__main__":
    main(sys.argv[1:])
