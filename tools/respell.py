#!/usr/bin/env python3
"""Brings the names of this repository's definitions and lemmas to the spelling of the language they are written in:
words in snake case, types in camel case. Run it once, at the top, on files whose paths have today's form.

usage: python3 tools/respell.py [--list]      --list prints the names and changes nothing

Renamed is what specs/ and proofs/ declare: definitions, lemmas, types, constructors, fields and local names.
Left alone are the library's names, the names that a check makes of the code (the goals and steps of a proof),
code, strings and comments.
"""

import os
import re
import sys

WORD = r"[A-Za-z_][A-Za-z0-9_'₀-₉]*(?:-[A-Za-z0-9_'₀-₉]+)+"
TOKEN = re.compile(r"(?<![\w'₀-₉+-])(" + WORD + r")(?![\w'₀-₉+-])")
USE = re.compile(r"^\s*(?:pub )?(?:ghost )?use\s+([\w.«»]+)\.\{([^}]*)\}", re.M)
DECLARED = re.compile(r"^\s*(?:abbrev |unfoldable |pub |record |data |ruleset )*(" + WORD + r")(?:[ \t][^\n]*?)?[ \t]:[ \t]([^\n]*(?:\n[ \t]+[^\n]*)*)", re.M)
CLAUSE_NAME = re.compile(r"\b(?:requires|ensures)\*?\s+(" + WORD + r")\s*\{")


def files(top):
    for folder, dirs, names in os.walk(os.path.join(top, "crates")):
        dirs[:] = sorted(d for d in dirs if d != "out")
        for n in sorted(names):
            if n.endswith((".rt", ".antt")):
                yield os.path.join(folder, n)


def pieces(path, text):
    """The text cut into (is it ghost text or code, piece): comments and strings are neither."""
    comment = r"--[^\n]*" if path.endswith(".antt") else r"//[^\n]*|b?\"(?:[^\"\\]|\\.)*\""
    at = 0
    for m in re.finditer(r"(?<![\w'-])(?:" + comment + r")" if path.endswith(".antt") else comment, text):
        yield True, text[at : m.start()]
        yield False, m.group(0)
        at = m.end()
    yield True, text[at:]


def made_by_check(text):
    """The names of goals and steps that this file imports or answers."""
    found = set(re.findall(r"\bgoal\.(" + WORD + ")", text))
    for module, names in USE.findall(text):
        if module.split(".")[-1] in ("Goals", "Given") or module.endswith(".specs.declared"):
            found |= {w for n in names.split(",") for w in re.split(r"\s+as\s+", n.strip())}
    return found


def of_library(text):
    found = set()
    for module, names in USE.findall(text):
        if module.split(".")[0] in ("borrow", "Prim", "mathlib", "lib") or module.startswith("Rattle.std"):
            found |= {n.strip().split(" as ")[0] for n in names.split(",")}
    return found


def is_type(signature):
    flat = re.sub(r"\s+", " ", signature).strip()
    return bool(re.search(r"(?:^|→ )Type \d+(?: where.*)?$", flat)) or flat.startswith("Type 0 where")


def spelled(name, kind):
    parts = name.split("-")
    if kind == "type" or name[0].isupper():
        return "".join(p[0].upper() + p[1:] for p in parts)
    return "_".join(parts)


def survey(top):
    texts = {}
    for p in files(top):
        with open(p, encoding="utf-8") as f:
            texts[p] = f.read()
    library, made, kinds = set(), set(), {}
    for p, t in texts.items():
        library |= of_library(t)
        made |= made_by_check(t)
        if p.endswith(".antt"):
            for n, signature in DECLARED.findall(t):
                if not signature.lstrip().startswith("goal."):
                    kinds.setdefault(n, "word")
                    if is_type(signature):
                        kinds[n] = "type"
        else:
            for n in CLAUSE_NAME.findall(t):
                kinds.setdefault(n, "word")
    return texts, library, made, kinds


def main(argv):
    top = os.getcwd()
    texts, library, made, kinds = survey(top)
    local = set()
    for p, t in texts.items():
        for plain, piece in pieces(p, t):
            if plain:
                for m in TOKEN.finditer(piece):
                    dotted = piece[: m.start(1)].endswith(".")
                    if not dotted and m.group(1) not in kinds:
                        local.add(m.group(1))
    local -= library | made
    names = {n: spelled(n, k) for n, k in kinds.items() if n not in library | made}
    for n in local:
        names.setdefault(n, spelled(n, "word"))
    taken = {}
    for p, t in texts.items():
        for w in re.findall(r"(?<![\w'-])[A-Za-z_][\w']*(?![\w'-])", t):
            taken.setdefault(w, p)
    clashes = {n: new for n, new in names.items() if new in taken}
    backward = {}
    for n, new in names.items():
        backward.setdefault(new, []).append(n)
    if "--list" in argv:
        print("declared:", *sorted(set(names) - local))
        print("local:", *sorted(local))
        print("library:", *sorted(w for w in library if "-" in w))
        print("declared, and the library's:", *sorted(n for n in kinds if n in library))
        print("declared, and made by a check:", *sorted(n for n in kinds if n in made))
        print("spelled alike already:", *sorted(f"{n}({taken[new].split('crates/')[1]})" for n, new in clashes.items()))
        print("fall together:", *[v for v in backward.values() if len(v) > 1])
        return 0
    for p, t in texts.items():
        answers = os.path.basename(p) in ("Answers.antt", "Invariants.antt", "Proof.antt")
        out = []
        for plain, piece in pieces(p, t):
            def turn(m):
                step = answers and re.search(r"(?<![\w'.])[clw]\.$", piece[: m.start(1)])
                return names.get(m.group(1), m.group(1)) if not step else m.group(1)
            out.append(TOKEN.sub(turn, piece) if plain else piece)
        new = "".join(out)
        if new != t:
            with open(p, "w", encoding="utf-8") as f:
                f.write(new)
    return 0


if __name__ == "__main__":
    raise SystemExit(main(sys.argv[1:]))
