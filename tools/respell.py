#!/usr/bin/env python3
"""Respells the repository's own definitions, lemmas and rulesets as the kit's CONTRACT_STYLE.md has it: words in snake case, and a dash only between two words
that are definitions themselves. Run once, at the top, after the kit's own scripts: `python3 tools/respell.py`; with --dry it only tells.

What is declared in specs/ and proofs/ is respelled wherever it stands: in specs, proofs, contracts, must-fail and other edits, and in docs/. A name that a file
imports from outside of the repository stays as it is in that file, and so does everything in Rust's code and in strings."""
import collections
import glob
import os
import re
import sys

DRY = "--dry" in sys.argv
IDENT = r"[^\s:(){}\[\]=,;.λ\"`]+"
TOKEN = re.compile(r"(?<![\w'◌-])[\w'-]*[\w']")
DECL = re.compile(r"^(\s*)((?:abbrev |pub |unfoldable |private |opaque |ghost )*)(" + IDENT + r")((?: " + IDENT + r")*) :(?: |$)")
HEAD = re.compile(r"^\s*(?:abbrev )?(?:pub )?(?:record|data|ruleset) (" + IDENT + ")")
KIT = {"length", "take", "drop", "append", "get_or", "set", "sets", "map", "filter", "reverse", "sum", "replicate", "concat", "head", "tail", "zip", "cond", "eqb",
       "leb", "ltb", "and", "or", "not", "le", "lt", "eq", "ne"}
# Lemmas that bear a definition's name once that is respelled, by the files in which they stand.
LEMMAS = {
    "crates/overlaps/proofs/Laws.antt": {"same_names": "same_names_lem"},
    "crates/header_validations/proofs/Laws.antt": {"ruled_out": "ruled_out_lem"},
    "crates/command_schema/proofs/Told.antt": {"group_at": "group_at_lem"},
    "crates/command_walk/proofs/Outer.antt": {"group_at": "group_at_lem"},
}


def files():
    found = []
    for part in ("specs", "proofs"):
        found += glob.glob(f"crates/*/{part}/**/*.antt", recursive=True)
    return sorted(f for f in set(found) if "/out/" not in f)


def text_of(f):
    with open(f, encoding="utf-8") as it:
        return it.read()


def snake(piece):
    if not piece or piece[0].isupper():
        return piece
    return re.sub(r"(?<=[a-z0-9])(?=[A-Z])", "_", piece).lower() if re.search(r"[A-Z]", piece) else piece


def declared(f, t):
    """The names that a file declares: (name, is it a definition at the left margin)."""
    for line in t.split("\n"):
        m = DECL.match(line)
        if m and not m[3].startswith("use") and m[3] not in ("let", "module", "where", "in"):
            for n in [m[3], *m[4].split()]:
                yield n, not m[1]
            continue
        m = HEAD.match(line)
        if m:
            yield m[1], True


def outside(t):
    """The names that a text imports from outside of the repository."""
    names = set()
    for m in re.finditer(r"(?m)^\s*(?:pub )?(?:ghost )?use ([\w.·'+-]+)\.\{([^}]*)\}", t):
        own = m[1].startswith("Rattle.") and m[1].split(".")[1] in CRATES and "declared" not in m[1].split(".") and "contracts" not in m[1].split(".")
        if not own:
            names |= {n.strip().split(" as ")[-1].strip() for n in m[2].split(",")} | {n.strip().split(" as ")[0].strip() for n in m[2].split(",")}
    return names


CRATES = set(os.listdir("crates"))
TEXTS = {f: text_of(f) for f in files()}
NAMES, WORDS = collections.defaultdict(set), set(KIT)
for f, t in TEXTS.items():
    for n, at_margin in declared(f, t):
        # the names of goals in a function's proof are the checker's
        if f.endswith("Proof.antt") and "-" in n and not n.endswith("-spec"):
            continue
        NAMES[n].add(f)
        if at_margin and "/specs/" in f and "-" not in n:
            WORDS.add(snake(n))


def respelled(n):
    if n.endswith("-spec"):
        return n[:-5].replace("-", "_") + "_spec" if not n.startswith("+") else n
    pieces = [snake(p) for p in n.split("-")]
    out = pieces[0]
    for a, b in zip(pieces, pieces[1:]):
        out += ("-" if a in WORDS and b in WORDS else "_") + b
    return out


MAP = {n: respelled(n) for n in NAMES if re.match(r"^[+]?[\w'-]+$", n) and respelled(n) != n}
# a lemma that would have its function's name
for n, new in list(MAP.items()):
    if "-" in n and "-" not in new and not n.endswith("-spec") and (new in WORDS or any(MAP.get(o) == new for o in NAMES if "-" not in o)):
        MAP[n] = new + "_lem"


def turn(t, skip=frozenset(), lemmas=None):
    def new(m):
        if lemmas and m[0] in lemmas:
            return lemmas[m[0]]
        if m[0] in skip or t[max(0, m.start() - 4) : m.start()] == "tie.":
            return m[0]
        return MAP.get(m[0], m[0])

    return TOKEN.sub(new, t)


def in_clauses(t):
    """A .rt text with its ghost parts turned: comments, `ghost` items and clauses."""
    out, i = [], 0
    for m in re.finditer(r"(?m)//[^\n]*|^\s*ghost use [^;]*;|\b(?:requires|ensures|ghost \w+:?|invariant|decreases)\b[^{;\n]*\{", t):
        if m.start() < i:
            continue
        end = m.end()
        if t[end - 1] == "{":
            deep = 1
            while deep:
                deep += (t[end] == "{") - (t[end] == "}")
                end += 1
        out += [t[i:m.start()], turn(t[m.start():end], outside(t))]
        i = end
    return "".join(out + [t[i:]])


def report():
    back = collections.defaultdict(set)
    for a, b in MAP.items():
        back[b].add(a)
    bad = 0
    for f, t in TEXTS.items():
        bare = re.sub(r"(?m)^\s*(?:pub )?use [^{\n]*|--[^\n]*", "", t)
        tokens = {m[0] for m in TOKEN.finditer(bare) if bare[m.start() - 1 : m.start()] != "."}
        skip = outside(t)
        for a in tokens & set(MAP):
            if a in skip:
                continue
            b = MAP[a]
            clash = (back[b] - {a}) & tokens
            if (b in tokens and b not in LEMMAS.get(f, {})) or clash:
                bad += 1
                print(f"falls together: {f}: {a} -> {b} {sorted(clash)}")
    print(f"{len(MAP)} names, {bad} places to look at")


def main():
    report()
    if DRY:
        return
    for f, t in TEXTS.items():
        new = turn(t, outside(t), LEMMAS.get(f))
        if new != t:
            with open(f, "w", encoding="utf-8") as it:
                it.write(new)
    for f in sorted(glob.glob("crates/*/src/**/*.rt", recursive=True)):
        t = text_of(f)
        new = in_clauses(t)
        if new != t:
            with open(f, "w", encoding="utf-8") as it:
                it.write(new)
    for f in sorted(glob.glob("crates/*/*/*.edit")):
        t = text_of(f)
        new = turn(t)
        if new != t:
            with open(f, "w", encoding="utf-8") as it:
                it.write(new)
    for f in sorted(glob.glob("docs/**/*.md", recursive=True)) + ["README.md", *glob.glob("crates/*/*.md")]:
        t = text_of(f)
        new = re.sub(r"`[^`\n]+`", lambda m: turn(m[0]), t)
        if new != t:
            with open(f, "w", encoding="utf-8") as it:
                it.write(new)


main()
