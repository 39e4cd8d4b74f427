"""Lists the places of docs/DESIGN-PASS.md in crates/*/src: what an older form of the language may be behind.

usage: python3 tools/places.py [FOLDER] [-v]     FOLDER has crates/ (default: this repository); -v prints each place

By text alone, so it finds candidates: the page says of each what became of it.
"""

import collections
import glob
import itertools
import re
import sys

FN = re.compile(r"^( *)(?:pub(?:\(crate\))? )?(?:const )?(?:extern \"C\" )?fn (\w+)", re.M)
TYPE = re.compile(r"^ *(?:pub(?:\(crate\))? )?(enum|struct) (\w+)[^{;\n]*\{(.*?)^ *\}", re.M | re.S)


def code(text):
    return re.sub(r"^ *//.*$|^ghost use .*$", "", text, flags=re.M)


def functions(text):
    """Each function's name, its clauses and its body."""
    for m in FN.finditer(text):
        end = re.compile("^" + m[1] + r"\}$", re.M).search(text, m.end())
        whole = text[m.start() : end.end() if end else len(text)]
        clauses = re.findall(r"^ *(?:requires|ensures)[^{\n]*\{ (.*) \}$", whole, re.M)
        body = re.split(r"^" + m[1] + r"\{$", whole, maxsplit=1, flags=re.M)[-1]
        yield m[2], clauses, body


def split_facts(clause):
    """The conjuncts of a clause, brackets off."""
    deep, part, out = 0, "", []
    for c in clause:
        deep += (c in "([{") - (c in ")]}")
        if c == "×" and deep == 0:
            out.append(part)
            part = ""
        else:
            part += c
    return [re.sub(r"^\((.*)\)$", r"\1", p.strip()) for p in out + [part]]


def shape(body):
    """A body with names and numbers blanked, but for the words of the language."""
    words = "let mut if else match for while in return as true false Ok Err Some None self".split()
    blank = lambda m: m[0] if m[0] in words else "x"
    return re.sub(r"\s+", " ", re.sub(r"\w+", blank, body)).strip()


def places(folder):
    found = collections.defaultdict(list)
    facts, bodies, parameters = collections.defaultdict(set), collections.defaultdict(list), collections.defaultdict(set)
    for path in sorted(glob.glob(folder + "/crates/*/src/*.rt")):
        name = path.split("/crates/")[1]
        crate = name.split("/")[0]
        text = code(open(path).read())
        for kind, it, body in TYPE.findall(text):
            variants = [v for v in re.sub(r"\{[^}]*\}|\([^)]*\)", "()", body).replace("\n", " ").split(",") if v.strip()]
            where = f"{name} {kind} {it}"
            if kind == "enum" and ("AeroError" in body or (len(variants) == 2 and sum("()" in v for v in variants) == 1)):
                found["1 enums of the shape of Option or Result"].append(where)
            if kind == "struct" and re.search(r"\b\w+: (bool|Check|Result<\(\), AeroError>),|\bflag: ", body):
                found["1 a flag or an outcome with values beside it"].append(where)
            if kind == "struct" and re.search(r"\b(count|len|size): usize", body) and re.search(r": (&\S* )?(&mut )?\[", body):
                found["6 a length beside a buffer, in a type"].append(where)
            if kind == "struct" and len(re.findall(r": \[(\w+); (\w+)\]", body)) > 1:
                found["6 parallel arrays in a type"].append(where)
        for i, line in enumerate(text.split("\n"), 1):
            where = f"{name}:{i} {line.strip()}"
            if re.search(r"\b(while|loop)\b", line):
                found["3 while and loop"].append(where)
            if re.match(r"\s*(match|if) (kind|which|tag|number|code|what)\b", line):
                found["1 and 7 a number that says which"].append(where)
            if re.search(r"(\w+) != \1\b", line):
                found["4 a NaN told by x != x"].append(where)
            if re.search(r"\bio::(write_all|print_decimal)|b'0' \+|b'a' - |\b(48|87) \+", line):
                found["4 printing by hand"].append(where)
        for fn, clauses, body in functions(text):
            for fact in {f for c in clauses for f in split_facts(c) if re.search(r"≤|<|Fits|long|Room", f)}:
                facts[crate, re.sub(r"\b(self|result)\b", "x", fact)].add(f"{name} {fn}")
            if len(body) > 60:
                bodies[crate, shape(body)].append(f"{name} {fn}")
    for (crate, fact), where in sorted(facts.items()):
        if len(where) > 2:
            found["5 a fact in the contracts of three or more functions"].append(f"{crate}: {fact}: {len(where)}")
    for (crate, _), where in sorted(bodies.items()):
        if len(where) > 1:
            found["2 functions alike but for names and numbers"].append(", ".join(where))
    for path in glob.glob(folder + "/crates/*/proofs/**/Answers.antt", recursive=True):
        if "/out/" not in path:
            found["8 files of answers"].append(path.split("/crates/")[1])
    for path in glob.glob(folder + "/crates/*/proofs/**/Invariants.antt", recursive=True):
        if "/out/" not in path:
            found["8 files of invariants"].append(path.split("/crates/")[1])
    return found


if __name__ == "__main__":
    arguments = [a for a in sys.argv[1:] if a != "-v"]
    for point, where in sorted(places(arguments[0] if arguments else ".").items()):
        print(len(where), point)
        if "-v" in sys.argv:
            print("\n".join("    " + w for w in where))
