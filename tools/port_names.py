#!/usr/bin/env python3
"""Brings the repository's own definitions and lemmas to the spelling of today's Rattle, once, after the kit's port.py.

usage: tools/port_names.py [--map FILE]      at the top of the repository

Words are in snake case; what is a type or a fact is in camel case. Functions of src/, exported names, strings, inputs and
outputs are left as they are. A lemma that would have a definition's name gets _lem, and is said; two definitions that would
have one name are told apart by CHOSEN. --map writes the renamings, a line each.
"""

import collections
import glob
import re
import sys

DECLARED = re.compile(r"^(\s*)((?:abbrev |unfoldable |pub |data |record )*)([^\s:(){}\[\];,.]+)((?:\s*\{[^}]*\}|\s*\([^)]*\))*)\s*:(?:\s(.*)|$)")
TOKEN = re.compile(r"[^\s(){}\[\];,.`]+")
OPERATOR = re.compile(r"◌([^◌\s]+)◌")
# The constants that mirror one of the source: lower case, since a definition does not have a constant's name.
CONSTANTS = re.compile(r"[A-Z][A-Z0-9]*([-_][A-Z0-9]+)+$")
# Sizes and places whose names differed from those of other definitions, or of lemmas, only by a dash or a capital.
CHOSEN = {
    "body-text": "body_text_size",
    "number-text": "number_text_size",
    "part-name": "part_word",
    "part-words": "part_word_count",
    "settings-words": "settings_word_count",
    "sheet-words": "sheet_word_count",
    "reynolds-at": "reynolds_place",
    "machs-at": "machs_place",
    "nozzle-at": "nozzle_place",
    "parts_at": "parts_place",
    "frictionRow": "friction_row_cells",
    "oneMore": "counted_on",
    "short-of": "is_short_of",
    "curveOf": "curve_from",
}


def proof_files():
    files = glob.glob("crates/*/specs/**/*.antt", recursive=True) + glob.glob("crates/*/proofs/**/*.antt", recursive=True)
    return sorted(f for f in files if "/out/" not in f)


def source_files():
    return sorted(glob.glob("crates/*/src/**/*.rt", recursive=True))


def is_walk(path):
    """The proof of one function, whose names are Rattle's goals."""
    return re.search(r"/(specs|proofs)/.+/(Proof|Answers|Invariants)\.antt$", path) is not None


def read(path):
    with open(path, encoding="utf-8") as f:
        return f.read()


def words_of(name):
    return re.sub(r"([a-z0-9])([A-Z])", r"\1_\2", name).lower()


def camel(name):
    return "".join(w[:1].upper() + w[1:] for w in re.split("[-_]", words_of(name)))


def collect():
    """The names that the crates declare, whether each is a definition, and whether it is a fact; and those that are imported from the logic."""
    names, definitions, facts, imported = set(), set(), set(), set()
    for path in proof_files() + source_files():
        for line in read(path).splitlines():
            use = re.match(r"\s*(?:pub |ghost )*use ([^\s{]+?)(?:\.\{(.*)\})?;?\s*$", line)
            if use:
                own = use[1].startswith("Rattle.") and not use[1].startswith("Rattle.std")
                for n in (use[2] or "").split(","):
                    n, _, alias = n.strip().partition(" as ")
                    if n and not own:
                        imported.add(n)
                    if alias and alias[0].islower():
                        names.add(alias)
                continue
            if path.endswith(".rt") or line.lstrip().startswith("--") or is_walk(path):
                continue
            found = DECLARED.match(line)
            if not found or found[3] in ("use", "where", "let", "infix", "infixl", "infixr", "module"):
                continue
            names.add(found[3])
            if re.search(r"\b(abbrev|unfoldable|data|record)\b", found[2]):
                definitions.add(found[3])
            if re.search(r"Type 0\s*$", re.split(r"\swhere\b", found[5] or "")[0]):
                facts.add(found[3])
    return names, definitions, facts, imported


def renamings():
    names, definitions, facts, imported = collect()
    new = {}
    for name in sorted(names - imported):
        operator = OPERATOR.fullmatch(name)
        if operator:
            if "-" in operator[1]:
                new[operator[1]] = operator[1].replace("-", "_")
                new[name] = "◌" + new[operator[1]] + "◌"
        elif name in CHOSEN:
            new[name] = CHOSEN[name]
        elif CONSTANTS.match(name):
            new[name] = name.lower().replace("-", "_") if name in definitions else name
        elif name in facts and name in definitions and name[0].islower():
            new[name] = camel(name)
        elif name[0].islower():
            new[name] = words_of(name).replace("-", "_")
    new = {a: b for a, b in new.items() if a != b}
    # Names that fall together, with one that stays, with one of the logic's or with another's new name.
    stay = (names | imported) - set(new)
    by_new = collections.defaultdict(list)
    for a, b in new.items():
        by_new[b].append(a)
    for b, olds in sorted(by_new.items()):
        others = olds + ([b] if b in stay else [])
        if len(others) < 2:
            continue
        plain = [a for a in others if a in definitions or a in imported]
        if len(plain) > 1:
            print(f"falls together, and not chosen: {' '.join(others)}")
        for a in others:
            if a not in plain[:1] and a not in imported:
                new[a] = b + "_lem"
                print(f"falls together: {a}, so {new[a]}")
    return new


def respell(text, new):
    return TOKEN.sub(lambda m: new.get(m[0], m[0]), text)


def in_comment(text, new):
    """In prose only what stands between backticks, and words in camel case."""
    text = re.sub(r"`[^`\n]*`", lambda m: respell(m[0], new), text)
    return TOKEN.sub(lambda m: new.get(m[0], m[0]) if re.search("[a-z][A-Z]", m[0]) else m[0], text)


def antt(text, new):
    lines = []
    for line in text.split("\n"):
        code, dash, comment = line.partition("-- ") if line.lstrip().startswith("-- ") or " -- " in line else (line, "", "")
        lines.append(respell(code, new) + dash + in_comment(comment, new))
    return "\n".join(lines)


def clauses(text, new):
    """In a source file: ghost use lines, what stands in a clause's braces, and names in comments."""
    out, at = [], 0
    start = re.compile(r"^ghost use [^;]*;|^\s*(?:pub )?(?:ghost(?: invariant)?\b[^{;\n]*|(?:requires|ensures)\*?(?: \w+)?) ?\{|//[^\n]*", re.M)
    while True:
        m = start.search(text, at)
        if not m:
            return "".join(out) + text[at:]
        out.append(text[at : m.start()])
        end = m.end()
        if m[0].startswith("//"):
            out.append(in_comment(m[0], new))
        elif m[0].startswith("ghost use"):
            out.append(respell(m[0], new))
        else:
            depth = 1
            while depth:
                depth += {"{": 1, "}": -1}.get(text[end], 0)
                end += 1
            out.append(m[0] + respell(text[m.end() : end], new))
        at = end


def main():
    new = renamings()
    turns = [(path, antt) for path in proof_files()] + [(path, clauses) for path in source_files()]
    for path, turn in turns:
        old = read(path)
        text = turn(old, new)
        if text != old:
            with open(path, "w", encoding="utf-8") as f:
                f.write(text)
    if "--map" in sys.argv:
        with open(sys.argv[sys.argv.index("--map") + 1], "w", encoding="utf-8") as f:
            f.writelines(f"{a} {b}\n" for a, b in sorted(new.items()))
    print(f"{len(new)} names respelled")


main()
