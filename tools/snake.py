#!/usr/bin/env python3
"""Bring the repository's own names in specs/, proofs/, clauses and must-fail edits to snake case.

    snake.py [--dry] [--docs] [ROOT]

Run once, right behind the toolchain's port.py, when the repository came over to a Rattle whose names are in snake case.
camelCase and dashed lower-case names become snake_case; types and modules keep their capitals (TYPES has the few that had
a dash), names of libraries stay. A proof that walks a function (proofs/F/Proof.antt) is only brought along: what it declares
itself is left. A dashed name that would fall together with another gets `_lem`. Where two names still fall together nothing
is written: the pairs are printed, and MEND is where to choose for the camelCase or dashed one of them. The edits of
tests/more-edits are turned too; with --docs also README.md and docs/*.md, between backticks alone.
"""
import collections
import os
import re
import sys

NAME = re.compile(r"[^\W\d_ℕ][\w'₀-₉-]*|_[\w'-]+", re.U)
IMPORT = re.compile(r"^\s*(?:pub )?(?:ghost )?use\s+([\w.·+'-]+?)(?:\.\{([^}]*)\})?(?:\s+as\s+(\S+?))?;?\s*$", re.M)
MEND = {
    "notWider": "none_wider",
    "fourBytes": "has_four_bytes",
    "is-not": "is_formula_not",
    "is-and": "is_formula_and",
    "is-or": "is_formula_or",
}
TYPES = {
    "Row-of": "RowOf",
    "Works-one": "WorksOne",
    "Works-two": "WorksTwo",
    "Judges-two": "JudgesTwo",
    "Operand-term": "OperandTerm",
    "A-written": "a_written",  # no type: the law that sheet A is written so
}


def new_name(name):
    if name in MEND or name in TYPES:
        return MEND.get(name) or TYPES[name]
    parts = []
    for part in name.split("-"):
        if part[:1].islower():
            part = re.sub(r"(?<=[a-z0-9'])([A-Z])", lambda m: "_" + m[1].lower(), part)
            part = re.sub(r"([A-Z])", lambda m: m[1].lower(), part)
        parts.append(part)
    return "_".join(parts)


def wants(name):
    head = name.split("-")[0]
    return name in TYPES or head[:1].islower() and (("-" in name) or re.search(r"[a-z0-9][A-Z]", name) is not None)


def files(root):
    for top, ends in (("crates", (".antt", ".rt", ".edit")), ("tests/more-edits", (".edit",))):
        for folder, folders, names in os.walk(os.path.join(root, top)):
            folders[:] = sorted(f for f in folders if f not in ("out", "data"))
            for name in sorted(names):
                if name.endswith(ends):
                    yield os.path.join(folder, name)


def ghost_parts(text):
    """The spans of a .rt file that hold antt: ghost use lines, clauses in braces, attributes."""
    for m in re.finditer(r"^\s*ghost use [^;]*;", text, re.M):
        yield m.span()
    for m in re.finditer(r"(?:requires|ensures|ghost(?: invariant)?)(?: \w+)?\*? \{|#\[tactic\(|ghost \w+:[^{;]*\{", text):
        at, deep = m.end(), 1
        while at < len(text) and deep:
            deep += {"{": 1, "(": 1, "}": -1, ")": -1}.get(text[at], 0)
            at += 1
        yield m.start(), at


def main():
    words = [w for w in sys.argv[1:] if not w.startswith("--")]
    root = words[0] if words else "."
    crates = set(os.listdir(os.path.join(root, "crates")))
    texts = {p: open(p, encoding="utf-8").read() for p in files(root)}
    libs, seen, modules = set(), collections.Counter(), collections.defaultdict(set)
    for path, text in texts.items():
        for m in IMPORT.finditer(text):
            parts = m[1].split(".")
            own = parts[0].startswith("Rattle") and len(parts) > 1 and parts[1] in crates
            if not own:
                libs.update(NAME.findall(m[2] or ""))
                libs.update(parts)
        code = re.sub(r"--.*", "", text)
        libs.update(w for q in re.findall(r"\b(?:lib|mathlib|borrow|native|Prim|specs)(?:\.[\w'-]+)+", code) for w in q.split("."))
        if path.endswith(".antt") and os.path.basename(path) not in ("Proof.antt",):
            for name in NAME.findall(re.sub(r"^\s*(?:pub )?use .*?$", "", code, flags=re.M)):
                seen[name] += 1
    change = {n: new_name(n) for n in seen if wants(n) and n not in libs}
    clash = collections.defaultdict(set)
    for old, new in change.items():
        clash[new].add(old)
    for name in list(seen) + list(libs):
        if name in clash and name not in change:
            clash[name].add(name)
    for new, olds in clash.items():
        for old in olds if len(olds) > 1 else ():
            if "-" in old and old not in MEND:
                change[old] = new + "_lem"
    clash = {new: {o for o in olds if change.get(o, o) == new} for new, olds in clash.items()}
    bad = {new: olds for new, olds in clash.items() if len(olds) > 1}
    for new, olds in sorted(bad.items()):
        print("fall together:", " ".join(sorted(olds)), "->", new)
    print(len(change), "names;", len(bad), "fall together")
    if bad or "--dry" in sys.argv:
        return 1 if bad else 0
    sub = lambda part: NAME.sub(lambda m: change.get(m[0], m[0]), part)
    changed = 0
    for path, text in texts.items():
        if path.endswith(".rt"):
            out, at = [], 0
            for start, end in sorted(ghost_parts(text)):
                if start < at:
                    continue
                out += [text[at:start], sub(text[start:end])]
                at = end
            turned = "".join(out) + text[at:]
        elif path.endswith(".edit"):
            known = set(seen) | set(change.values())
            turned = NAME.sub(lambda m: change.get(m[0]) or (new_name(m[0]) if wants(m[0]) and new_name(m[0]) in known else m[0]), text)
        else:
            turned = sub(text)
        if turned != text:
            changed += 1
            open(path, "w", encoding="utf-8").write(turned)
    if "--docs" in sys.argv:
        known = set(seen) | set(change.values())
        word = lambda m: change.get(m[0]) or (new_name(m[0]) if wants(m[0]) and new_name(m[0]) in known else m[0])
        pages = [os.path.join(root, "README.md")] + [os.path.join(root, "docs", n) for n in sorted(os.listdir(os.path.join(root, "docs"))) if n.endswith(".md") and not n.startswith("PORT")]
        for path in pages:
            text = open(path, encoding="utf-8").read()
            turned = re.sub(r"`[^`\n]+`", lambda m: NAME.sub(word, m[0]), text)
            if turned != text:
                changed += 1
                open(path, "w", encoding="utf-8").write(turned)
    print(changed, "files")
    return 0


sys.exit(main())
