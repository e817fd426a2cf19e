#!/usr/bin/env python3
"""Brings the definitions, lemmas, fields and constructors of this repository's specs/ and proofs/ to snake case.

usage: python3 tools/names.py [TREE]

Run once, right after the kit's port.py and with its result committed; a second run changes nothing. A name that a text of specs/ or of
proofs/ declares, that begins in lower case and has a dash or a capital, gets underscores: `first-none` is `first_none`, `pushOf` is
`push_of`. It turns in every .antt file, in the clauses and `ghost use` lines of .rt files, in must-fail edits, and in the code spans of
comments and pages. A name that a file imports from the kit's libraries stays there. Where two names of the repository would fall
together in one file, the script stops and names them.
"""
import collections
import glob
import os
import re
import sys

TOP = sys.argv[1] if len(sys.argv) > 1 else "."
TOKEN = re.compile(r"[^\s(){}.;,@\"«»\[\]`]+")
USE = re.compile(r"(?m)^(?:ghost )?use ([^\s;{]+?)(?:\.\{([^}]*)\})?(?: as \S+)?;?$")
KEYWORDS = "abbrev unfoldable opaque pub private data record module mutual let where infixl infixr infix mod use".split()
DECLARED = re.compile(r"^\s*((?:(?:abbrev|unfoldable|opaque|pub|private|data|record) +)*)([^\s(){}.;,:=→λ]+)([^=→λ]*?) :(?:\s|$)")


def snake(name):
    if not name[0].islower() or not re.search(r"[A-Z-]", name):
        return name
    words = re.sub(r"(?<=[a-z0-9])[A-Z]", lambda m: "_" + m[0].lower(), name)
    words = re.sub(r"(?<=[A-Z])[A-Z]", lambda m: m[0].lower(), words)
    return words.replace("-", "_").lower()


def read(p):
    with open(p, encoding="utf-8") as f:
        return f.read()


def own_files():
    out = []
    for c in sorted(glob.glob(f"{TOP}/crates/*/")):
        for part in ("specs", "proofs"):
            out += sorted(glob.glob(f"{c}{part}/*.antt"))
    return out


def declared(text):
    out = set()
    for line in text.splitlines():
        m = DECLARED.match(line)
        if m and m[2] not in KEYWORDS and not line.lstrip().startswith(("--", "→", "use ")):
            out.add(m[2])
        # several names of one type
        head = line.split(" : ")[0].split()
        if len(head) > 1 and " : " in line and head[0] not in (*KEYWORDS, "--", "→") and all(re.fullmatch(r"[^(){}.;,:=→λ]+", w) for w in head):
            out.update(head)
    return out


# Names that would fall together where neither is a lemma's.
BY_HAND = {
    "false-there": "is_false_there",
    "long-name": "name_long",
    "noPlan": "no_plan_said",
    "tokens-of": "cut_tokens",
}


def main():
    names, where = {}, collections.defaultdict(set)
    for p in own_files():
        for n in declared(read(p)):
            where[n].add(p)
            if snake(n) != n:
                names[n] = snake(n)
    names.update(BY_HAND)
    crates = {os.path.basename(c.rstrip("/")) for c in glob.glob(f"{TOP}/crates/*/")}

    def imports(text):
        foreign = set()
        for m in USE.finditer(text):
            own = m[1].startswith("Rattle.") and m[1].split(".")[1] in crates
            if not own and m[2]:
                foreign.update(w.split(" as ")[-1].strip() for w in m[2].split(","))
        return foreign

    def is_lemma(n):
        return n in where and all("/proofs/" in p for p in where[n])

    def turned(text, path):
        foreign = imports(text) if path.endswith((".antt", ".rt")) else set()
        seen = collections.defaultdict(set)

        def one(m):
            w = m[0]
            if w in names and w not in foreign:
                seen[names[w]].add(w)
                return names[w]
            if not (m.start() and m.string[m.start() - 1] == "."):
                seen[w].add(w)
            return w

        def words(s):
            return TOKEN.sub(one, s)

        if path.endswith((".antt", ".edit")):
            out = words(text)
        elif path.endswith(".rt"):
            lines, deep = [], 0
            for line in text.split("\n"):
                if deep > 0 or re.match(r"\s*(requires|ensures|ghost)\b", line):
                    lines.append(words(line))
                    deep += line.count("{") - line.count("}")
                    if re.match(r"\s*ghost use", line):
                        deep = 0
                else:
                    lines.append(re.sub(r"`[^`\n]*`", lambda s: words(s[0]), line) if "//" in line else line)
            out = "\n".join(lines)
        else:
            out = re.sub(r"`[^`\n]*`", lambda s: words(s[0]), text)
        return out, {k: v for k, v in seen.items() if len(v) > 1}

    todo = []
    for pattern in ("crates/*/src/**/*.rt", "crates/*/specs/**/*.antt", "crates/*/proofs/**/*.antt", "crates/*/must-fail/*.edit", "*.md", "docs/*.md", "docs/landings/*.md"):
        todo += sorted(glob.glob(f"{TOP}/{pattern}", recursive=True))
    todo = {p: read(p) for p in todo}
    # a lemma that would have its function's name gets _lem
    for _ in range(3):
        left = False
        for p, text in todo.items():
            if not p.endswith((".md", ".edit")):
                bare = re.sub(r"(?m)(?:^|(?<=\s))(?:--|//).*$", "", text)
                for k, v in turned(bare, p)[1].items():
                    lemmas = [n for n in v if is_lemma(n)]
                    if len(lemmas) == len(v):
                        lemmas = [n for n in v if n != k and "-" in n] or lemmas[1:]
                    for n in lemmas:
                        if not names.get(n, n).endswith("_lem"):
                            names[n] = k + "_lem"
                            print("lemma", n, names[n])
                    if not lemmas:
                        left = True
                        print(f"{p}: fall together as {k}: {sorted(v)}", {n: sorted(where.get(n, ())) for n in v})
        if left:
            return 1
    if "--say" in sys.argv:
        for n in sorted(names):
            print(n, names[n])
        return 0
    n = 0
    for p, text in todo.items():
        out = turned(text, p)[0]
        if out != text:
            n += 1
            with open(p, "w", encoding="utf-8") as f:
                f.write(out)
    print(f"{len(names)} names, {n} files")
    return 0


if __name__ == "__main__":
    raise SystemExit(main())
