#!/usr/bin/env python3
"""Spells this repository's own definitions and lemmas as Rattle's guides spell names. Run once, at the top, after port.py.

usage: python3 tools/respell.py [--check]

- A name in mixed case that is no type becomes snake case: planSize -> plan_size, upTo-few -> up_to-few.
- A dash stays only between two names that are declared, as in length-drop; elsewhere the words of a lemma are joined by `_`:
  every-row-holds -> every_row_holds.

It goes by whole words of antt, in specs/, proofs/, the clauses and comments of src/, and in the text of must-fail edits. Names that only a
function's Proof.antt declares stay, and so do the names that the checker makes (they are goals and steps). A name stays too where its new
spelling is a word of the same crate, or of one that cites it, already; --check lists these and writes nothing.
"""
import collections
import os
import re
import sys

WORD = r'[^\s(){}.;,@"«»`]+'
HEAD = re.compile(r"(?m)^ *((?:(?:pub|abbrev|unfoldable|data|record|ruleset|pattern)\s+)*)(" + WORD + r")(?= (?:\{[^{}\n]*\} )*(?:\([^\n]*\) )*:(?:\s|$))")
TYPE = re.compile(r"(?m)^ *(?:(?:pub|abbrev|unfoldable) +)*(?:data|record) +(?:pub +)?(" + WORD + ")")
USE = re.compile(r"(?m)^(?: *pub)? *(?:ghost )?use ([^{;\n]*)\{([^}]*)\}")

# Definitions that would meet a function of src/ of the same words, and lemmas that would meet a definition that port.py has respelled.
CHOSEN = {
    "markAt": "mark_found",
    "mayFollow": "can_follow",
    "putWord": "word_put",
    "zeroCase": "case_of_zeros",
    "positionAfter": "next_position",
    "systemTokens": "tokens_of_system",
    "patternTokens": "tokens_of_pattern",
    "all-below": "all_below_lem",
    "all-of": "all_of_lem",
}


def files(ends):
    for top, dirs, names in os.walk("crates"):
        dirs[:] = sorted(d for d in dirs if d not in ("out", "target"))
        for it in sorted(names):
            if it.endswith(ends):
                yield os.path.join(top, it)


def read(path):
    with open(path, encoding="utf-8") as f:
        return f.read()


def crate(path):
    return path.split(os.sep)[1]


def declared():
    """The names that the repository declares: each with the crates that do, and whether a Proof.antt alone does."""
    where, types = collections.defaultdict(set), set()
    for p in files(".antt"):
        if p.endswith("/Proof.antt"):
            continue
        text = re.sub(r"(?m)--.*$", "", read(p))
        for m in HEAD.finditer(text):
            where[m[2]].add(crate(p))
        types.update(TYPE.findall(text))
    return where, types


def known(types):
    """The names that a lemma can be named after: what specs/ define, and the plain words that files import from the libraries."""
    names = set(types)
    for p in files(".antt"):
        text = re.sub(r"(?m)--.*$", "", read(p))
        if "/specs/" in p:
            names.update(m[2] for m in HEAD.finditer(text) if m[0][0] != " " and "-" not in m[2])
    for p in files((".antt", ".rt")):
        for module, items in USE.findall(read(p)):
            if not re.match(r"Rattle\.(?!std\b)", module):
                names.update(n for n in (it.split(" as ")[0].strip() for it in items.split(",")) if "-" not in n)
    return names


def snake(word):
    return re.sub(r"(?<=[a-z0-9])[A-Z]", lambda m: "_" + m[0].lower(), word)


def respelled(name, names):
    if name[0].isupper() or not re.fullmatch(r"[A-Za-z0-9_'\-]+", name):
        return name
    parts = name.split("-")
    out = parts[0]
    for at in range(1, len(parts)):
        left, right = "-".join(parts[:at]), "-".join(parts[at:])
        whole = left in names and right in names and not left.isdigit() and not right.isdigit()
        out += ("-" if whole else "_") + parts[at]
    return snake(out)


def main(argv):
    check = argv == ["--check"]
    where, types = declared()
    names = known(types)
    table = {n: respelled(n, names) for n in where if n not in types and n not in CHOSEN}
    table = {n: to for n, to in table.items() if n != to}
    words = collections.defaultdict(set)
    for p in files((".antt", ".rt")):
        text = read(p)
        if p.endswith(".rt"):
            # A function's name and a clause's label stand where no definition can be meant.
            text = re.sub(r"\b\w+(?=(?:<[^()\n]*>)?\()", " ", text)
            text = re.sub(r"\b(requires|ensures) +\w+(?= *\{)", r"\1", text)
        # A field stands behind a dot.
        text = re.sub(r"(?<=[\w')])\." + WORD, " ", text)
        for w in re.findall(WORD, re.sub(r"(?m)(?:--|//).*$", "", text)):
            words[w].add(crate(p))
    for old, new in sorted(table.items()):
        # A lemma that would be called as the definition that it speaks of.
        if "-" in old and any(to == new and "-" not in it for it, to in table.items() if it != old):
            table[old] = new + "_lem"
    ends = collections.Counter(table.values())
    stays = []
    for old, new in sorted(table.items()):
        if ends[new] > 1 or (words[new] & (words[old] | where[old])):
            stays.append(f"stays: {old} (not {new}): {', '.join(sorted(words[new] & (words[old] | where[old])))}")
            table.pop(old)
    for old, new in CHOSEN.items():
        if words[new]:
            raise SystemExit(f"respell: {new}, chosen for {old}, is a word already: {sorted(words[new])}")
    table.update((old, new) for old, new in CHOSEN.items() if old in where)
    print("\n".join(stays))
    print(f"respell: {len(table)} names, {len(stays)} stay")
    if check:
        for old, new in sorted(table.items()):
            print(f"{old} -> {new}")
        return 0
    whole = re.compile(WORD)
    turn = lambda m: table.get(m[0], m[0])
    for p in files((".antt", ".rt", ".edit")):
        text = read(p)
        if p.endswith(".antt"):
            new = whole.sub(turn, text)
        else:
            # Rust's own words are never in mixed case, and no expression of ours is written with a dash and no spaces.
            new = whole.sub(turn, text)
        if new != text:
            with open(p, "w", encoding="utf-8") as f:
                f.write(new)
    return 0


if __name__ == "__main__":
    raise SystemExit(main(sys.argv[1:]))
