#!/usr/bin/env python3
"""Brings this repository's own definitions and lemmas to snake case, after the toolchain's port.py: `siblingPlace` is `sibling_place`,
`passed-more` is `passed_more`; a type keeps its capitals. Run once, at the top.

A name turns where crates/*/specs or proofs declare it and no file imports it from the toolchain's library. A name that would meet another
keeps its dashes. Strings stay; so does all Rust outside clauses, which has no such names.
"""

import collections
import pathlib
import re

WORD = re.compile(r'[^\s(){}.;,@"«»\[\]\\`|]+')
STRING = re.compile(r'"(?:\\.|[^"\\\n])*"')
DECLARED = re.compile(r"(?m)^ *(?:(?:pub|abbrev|unfoldable|let|in) )*([^\s(){}:]+)((?: [^\s(){}:]+)*)(?: \{[^{}\n]*\})* :(?= |$)")
USE = re.compile(r"\buse ([^\s;{]+)(?:\{([^}]*)\})?")
# A definition takes the name, and a lemma that port.py had given it gets its dashes back.
BY_HAND = {
    "allThere": "all_there",
    "all_there": "all-there",
    "elementPlace": "element_place",
    "element_place": "element-place",
    "inOrder": "in_order",
    "joinedWords": "joined_words",
    "joined_words": "joined-words",
    "onLine": "on_line",
    "on_line": "on-line",
    "greatestOf": "greatest_of",
    "idC": "id_c",
    "leastOf": "least_of",
    "walkFrom": "walked_from",
}
KEEP = set("let in where rw simp λ".split())


def snake(part):
    if part[:1].isupper():
        return part
    part = re.sub(r"(?<=[a-z0-9])([A-Z])(?=[A-Z]?[a-z0-9₀-₉']|$)", lambda m: "_" + m[0].lower(), part)
    return re.sub(r"(?<=[a-z0-9_])([A-Z]+)(?![a-z])", lambda m: "_" + m[0].lower(), part)


def turned(name, dashes):
    parts = [snake(p) for p in name.split("-")]
    if any(p[:1].isupper() for p in parts) or any(not p for p in parts):
        return "-".join(parts)
    return ("-" if dashes else "_").join(parts)


def main():
    top = pathlib.Path("crates")
    own = sorted(p.name for p in top.iterdir() if (p / "src").is_dir())
    files = [p for c in own for p in sorted((top / c).rglob("*.antt")) if "out" not in p.parts]
    texts = {p: p.read_text(encoding="utf-8") for p in files}
    declared, imported, used = set(), set(), collections.defaultdict(set)
    for p, t in texts.items():
        bare = re.sub(r"(?m)--.*$", "", t)
        # what a function's proof file declares goes by the goals that the toolchain names
        if p.name != "Proof.antt":
            for m in DECLARED.finditer(bare):
                declared.update(w for w in (m[1] + m[2]).split() if w not in KEEP)
        for m in USE.finditer(bare):
            path = m[1].rstrip(".")
            names = [n.strip() for n in (m[2] or "").split(",") if n.strip()]
            parts = path.split(".")
            if len(parts) > 1 and parts[0] == "Rattle" and parts[1] in own:
                continue
            imported.update(w for n in names for w in n.replace(" as ", " ").split())
    candidates = {n for n in declared if n not in imported and re.fullmatch(r"[a-zA-Z][\w\-'′₀-₉ᵇ]*", n)}
    table, skipped = {}, []
    taken = {n for n in declared | imported if n not in candidates or turned(n, False) == n}
    wanted = collections.defaultdict(list)
    for n in candidates:
        if turned(n, False) != n:
            wanted[turned(n, False)].append(n)
    for new, olds in sorted(wanted.items()):
        if len(olds) == 1 and new not in taken:
            table[olds[0]] = new
            continue
        for n in olds:
            other = turned(n, True)
            if other != n and other not in taken and other not in table.values():
                table[n] = other
            skipped.append((n, table.get(n, n), new))
    for n in [n for n in table if n in BY_HAND]:
        del table[n]
    table.update(BY_HAND)
    for n, now, new in skipped:
        print(f"meets another: {n} is {now}, not {new}")

    def turn(text):
        out, at = [], 0
        for m in STRING.finditer(text):
            out.append(WORD.sub(lambda w: table.get(w[0], w[0]), text[at : m.start()]))
            out.append(m[0])
            at = m.end()
        out.append(WORD.sub(lambda w: table.get(w[0], w[0]), text[at:]))
        return "".join(out)

    rust = [p for c in own for p in sorted((top / c / "src").rglob("*.rt"))]
    edits = [p for c in own for p in sorted((top / c / "must-fail").glob("*.edit"))]
    for p in files + rust + edits:
        t = p.read_text(encoding="utf-8")
        # strings of an edit's text are code's
        n = turn(t)
        if n != t:
            p.write_text(n, encoding="utf-8")
    pathlib.Path("tools/respelled.tsv").write_text("".join(f"{a}\t{b}\n" for a, b in sorted(table.items())), encoding="utf-8")
    print(f"{len(table)} names turned")


main()
