#!/usr/bin/env python3
"""Spells this repository's own definitions, lemmas and fields as today's Rattle spells words: in snake case.

usage: python3 tools/respell.py            in the repository, once, after the port's own script
       python3 tools/respell.py --names    prints the names and how they are spelled afterwards, and changes nothing

A definition like `indexesBelow` becomes `indexes_below`, a lemma like `le-or-lt` becomes `le_or_lt`. It turns specs/ and proofs/, the clauses of
src/, and the definitions that the wrong programs in must-fail/ name. It leaves: types and modules, functions of src/, strings, names that a file
takes from the library, and the names of goals and answers, which the prover makes.
"""
import os
import re
import sys

ROOT = os.path.join(os.path.dirname(os.path.realpath(__file__)), "..", "crates")
# A name of antt: anything but white space and the signs that end a name.
NAME = re.compile(r"[^\s(){}\[\],;.:=\"`|→λ∙≡×⊎«»←]+")
WORD = re.compile(r"^[^\W\d]")
DASHED = re.compile(r"^[^\W\d][\w'₀-₉]*(-[\w'₀-₉]+)+$")
CAMEL = re.compile(r"^[a-z][a-z0-9_]*[A-Z]")
USE = re.compile(r"(?m)^\s*(?:ghost |pub )*use ([\w.'+-]+?)(?:\.\{([^}]*)\})?(?: as (\S+?))?;?$")


# A lemma that would have its definition's name, as today's rules have it.
LEMMAS = {n: n.replace("-", "_") + "_lem" for n in "entry-words first-line in-union order-back same-entry summed-back bit-at entry-of is-nan nan-bits pair-of in-float".split()}
LEMMAS |= {n: n + "_lem" for n in "distance_back told_back same_entries".split()}


def crates():
    return sorted(c for c in os.listdir(ROOT) if os.path.isdir(os.path.join(ROOT, c)))


def files(ending):
    for folder, dirs, names in os.walk(ROOT):
        dirs[:] = sorted(d for d in dirs if d != "out")
        for n in sorted(names):
            if n.endswith(ending):
                yield os.path.join(folder, n)


def spelled(name):
    name = re.sub(r"(?<=[\w'])-(?=[\w'])", "_", name)
    return re.sub(r"(?<=[a-z0-9_])([A-Z])", lambda m: ("" if name[m.start() - 1] == "_" else "_") + m.group(1).lower(), name) if CAMEL.match(name) else name


def wanted(name):
    return bool(DASHED.match(name) or CAMEL.match(name))


def bare(text):
    return re.sub(r"--[^\n]*", "", text)


def from_the_library(text):
    """The names that a file takes from elsewhere than this repository."""
    own = set(crates())
    found = set()
    for path, names, other in USE.findall(text):
        parts = path.split(".")
        if parts[0] == "Rattle" and len(parts) > 1 and parts[1] in own and not (len(parts) > 3 and parts[2] == "proofs" and parts[-1] in ("Tie", "Goals", "Given", "Statement")):
            continue
        for n in re.split(r",\s*", names.strip()) if names else []:
            found.add(n.split(" as ")[-1].strip())
        if other:
            found.add(other)
    return found


def declared(text):
    """The names that a file declares: at the head of a line, before a colon, with its fields; and those of records' parameters."""
    return {n for n in re.findall(r"(?m)^\s*(?:abbrev |unfoldable |pub |record |data |ruleset )*([^\s(){}\[\],;.:]+) :", bare(text))}


def is_answer(path):
    return os.path.basename(path) in ("Proof.antt", "Answers.antt", "Invariants.antt") and os.path.basename(os.path.dirname(path)) != "proofs" and "/proofs/" in path


def table():
    ours = set()
    for p in files(".antt"):
        with open(p, encoding="utf-8") as f:
            t = f.read()
        if is_answer(p):
            continue
        taken = from_the_library(t)
        ours |= {n for n in NAME.findall(bare(t)) if wanted(n) and n not in taken}
    return {n: LEMMAS.get(n, spelled(n)) for n in sorted(ours | set(LEMMAS))}


def turn(text, names):
    return NAME.sub(lambda m: names.get(m.group(0), m.group(0)), text)


def lines_but_strings(text, names):
    """Rust's own text keeps its strings."""
    return "".join(p if i % 2 else turn(p, names) for i, p in enumerate(re.split(r'("(?:[^"\\\n]|\\.)*")', text)))


def main(argv):
    names = table()
    if argv:
        print("\n".join(f"{a} {b}" for a, b in names.items()))
        return 0
    for p in files((".antt", ".rt", ".edit")):
        with open(p, encoding="utf-8") as f:
            old = f.read()
        taken = from_the_library(old)
        here = {a: b for a, b in names.items() if a not in taken}
        if p.endswith(".rt"):
            new = lines_but_strings(old, {a: b for a, b in here.items() if CAMEL.match(a)})
        elif is_answer(p):
            # the helpers of a proof, and what it takes from this repository, but none of the prover's names
            made = {n for n in re.findall(r"(?m)^(?:abbrev |pub )*([^\s(){}\[\],;.:]+) :\s+tie\.", old)} | set(re.findall(r"tie\.([\w'-]+)", old))
            helpers = {n: spelled(n) for n in declared(old) if wanted(n) and n not in made and n not in taken}
            cited = set()
            for path, inner, other in USE.findall(old):
                if path.split(".")[0] == "Rattle" and path.split(".")[1] in crates():
                    cited |= {n.split(" as ")[0].strip() for n in re.split(r",\s*", inner)}
            fields = {a: b for a, b in here.items() if CAMEL.match(a)}
            new = turn(old, {**fields, **{a: b for a, b in here.items() if a in cited}, **helpers})
        else:
            new = turn(old, here)
        if new != old:
            with open(p, "w", encoding="utf-8") as f:
                f.write(new)
    return 0


if __name__ == "__main__":
    raise SystemExit(main(sys.argv[1:]))
