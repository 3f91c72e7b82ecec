#!/usr/bin/env python3
"""Brings this repository's own definitions, lemmas, fields and constructors to snake case: `slotsOf` to `slots_of`, `fill-turn` to `fill_turn`.

usage: python3 tools/respell.py [--check]     at the top of the repository, once, after the kit's port.py

It goes by spelling. A name turns where specs/ or a file of laws of proofs/ declares it (a line `name : ..`, or a `let`), in the .antt files and in
the clauses and `ghost use` items of the .rt files; it stays in a file that imports the same spelling from a library, and in proofs/F/Proof.antt
only names that come from elsewhere turn, and no name of a step. Types, facts and modules keep their capitals; functions of src/, C names, strings, inputs and outputs
keep their names. It stops, and writes nothing, where two names of one file would fall together.
"""
import collections
import glob
import os
import re
import sys

WORD = r"[^\s(){}.;,@\"«»]+"
TOKEN = re.compile(r"--[^\n]*|" + WORD)
DECLARED = re.compile(r"^ *(?:pub |unfoldable |abbrev )*(" + WORD + r")(?: \{[^{}\n]*\})* :(?= |$)", re.M)
LET = re.compile(r"\blet (" + WORD + r")(?= [:=])")
CLAUSE = re.compile(r"(?:requires|ensures|ghost)\b[^{;\n]*\{|ghost use[^;]*;")
USE = re.compile(r"^(?:pub )?use (\S+?)\.\{([^}]*)\}", re.M)
# names whose new spelling is not made by rule, and why: the kit's getD is get_or today
SPECIAL = {"getD": "get_or"}
# names that would fall together with another of a file
OTHERWISE = {"is-nan": "is_nan_lem", "on_chain": "on_chain_lem"}
# clauses call what a function returns `result`, so the definition of that name, of rules/specs/Overlay.antt, gets another
RESULT = re.compile(r"rules\.specs\.Overlay\.\{[^}]*\bresult\b[^}]*\}|pub result :")
STARRED = re.compile(r"ensures\* \{ λ (\w+)\. ⌜ ([^⌜⌝]*) ⌝ \}")


def snake(name):
    for old, new in SPECIAL.items():
        name = re.sub(r"(?<![A-Za-z])" + old + r"(?![a-z])", new, name)
    name = re.sub(r"(?<=[a-z0-9₀-₉])([A-Z])", lambda m: "_" + m[0].lower(), name)
    return re.sub(r"(?<=.)-(?=.)", "_", name)


def uncommented(text):
    return re.sub(r"--[^\n]*", "", text)


def clauses(text):
    """The spans of clauses and ghost items of a .rt file."""
    at = 0
    while True:
        m = CLAUSE.search(text, at)
        if not m:
            return
        if m[0].endswith(";"):
            yield m.start(), m.end()
            at = m.end()
            continue
        depth, k = 1, m.end()
        while depth:
            depth += {"{": 1, "}": -1}.get(text[k], 0)
            k += 1
        yield m.end(), k
        at = k


def turn(text, names, undotted=()):
    def one(m):
        if m[0].startswith("--") or m[0] in undotted and text[: m.start()].endswith("."):
            return m[0]
        return names.get(m[0], m[0])

    return TOKEN.sub(one, text)


def plain_clauses(text):
    """The clauses that kept their λ for the sake of the name `result`."""

    def one(m):
        body = m[2] if m[1] == "_" else re.sub(rf"(?<![\w.]){m[1]}(?![\w'])", "result", m[2])
        return "ensures { " + body + " }"

    return STARRED.sub(one, text)


def comment_names(text, names):
    """Code names that a comment of an .antt or .rt file cites between ` and `."""
    return re.sub(r"`[^`\n]+`", lambda m: turn(m[0][1:-1], names).join("``"), text)


def main():
    check = "--check" in sys.argv
    every = sorted(glob.glob("crates/*/specs/**/*.antt", recursive=True) + glob.glob("crates/*/proofs/**/*.antt", recursive=True))
    walks = [f for f in every if os.path.basename(f) == "Proof.antt"]
    laws = [f for f in every if f not in set(walks)]
    texts = {f: open(f, encoding="utf-8").read() for f in every}
    code = sorted(glob.glob("crates/*/src/**/*.rt", recursive=True))
    texts |= {f: open(f, encoding="utf-8").read() for f in code}

    declared = collections.defaultdict(set)
    for f in laws:
        for pattern in (DECLARED, LET):
            for m in pattern.finditer(uncommented(texts[f])):
                declared[m[1]].add(f)
    alike = collections.defaultdict(set)
    for n in declared:
        alike[snake(n)].add(n)
    names = {}
    for n in declared:
        if n[0].isupper() or not n[0].isalpha():
            continue
        new = OTHERWISE.get(n) or snake(n)
        # a lemma that would have its function's name
        if "-" in n and len(alike[new]) > 1 and n not in OTHERWISE:
            new += "_lem"
        if new != n:
            names[n] = new

    own = {c.split("/")[1] for c in glob.glob("crates/*/src")}
    bad = 0
    out = {}
    for f, text in texts.items():
        here = dict(names)
        undotted = {"result"}
        if RESULT.search(text):
            here["result"] = "result_of"
        for m in USE.finditer(text.replace("ghost use", "use")):
            steps = m[1].split(".")
            if not (steps[0] == "Rattle" and len(steps) > 1 and steps[1] in own):
                for item in m[2].split(","):
                    for word in item.split(" as "):
                        if here.pop(word.strip(), None):
                            print(f"stays: {f}: {word.strip()} is the library's")
        if f in walks:
            mine = {m[1] for m in DECLARED.finditer(uncommented(text))} | {m[1] for m in LET.finditer(uncommented(text))}
            for n in mine:
                here.pop(n, None)
            # a step of the code is named behind a dot
            undotted |= {n for n in here if "-" in n}
        tokens = set()
        if f.endswith(".rt"):
            spans = list(clauses(text))
            for a, b in spans:
                tokens |= {t for t in re.findall(WORD, text[a:b])}
            new, at = [], 0
            for a, b in spans:
                new += [text[at:a], turn(text[a:b], here, undotted)]
                at = b
            new = plain_clauses("".join([*new, text[at:]]))
            plain = re.sub(r"//[^\n]*|ghost use[^;]*;|\b(?:pub )?(?:use|mod) [^;]*;|\bfn \w+", "", text)
            for a, b in reversed(list(clauses(plain))):
                plain = plain[:a] + plain[b:]
            idents = set(re.findall(r"[A-Za-z_]\w*\b(?!\(|::<)", plain))
            for t in tokens:
                if t in here and here[t] in idents:
                    print(f"meets: {f}: {t} would be {here[t]}, a name of the code")
                    bad += 1
        else:
            plain = re.sub(r"(?m)^((?:pub )?use) \S+?\.(?=\{)", r"\1 ", uncommented(text))
            tokens = set(re.findall(r"(?<![.\w'-])" + WORD, plain))
            new = turn(text, here, undotted)
        meet = collections.defaultdict(set)
        for t in tokens:
            meet[here.get(t, t)].add(t)
        for n, ts in meet.items():
            if len(ts) > 1:
                print(f"meets: {f}: {' and '.join(sorted(ts))} would be {n}")
                bad += 1
        out[f] = comment_names(new, here)
    across = collections.defaultdict(set)
    for n in declared:
        across[names.get(n, n)].add(n)
    for n, ns in sorted(across.items()):
        if len(ns) > 1:
            print(f"alike: {n} from {' and '.join(sorted(ns))}: {' '.join(sorted(f for x in ns for f in declared[x]))}")
    if bad:
        print(f"respell: {bad} meet; nothing written")
        return 1
    if check:
        print(f"respell: {len(names)} names would turn")
        return 0
    for f, text in out.items():
        if text != texts[f]:
            with open(f, "w", encoding="utf-8") as it:
                it.write(text)
    print(f"respell: {len(names)} names turned")
    return 0


if __name__ == "__main__":
    raise SystemExit(main())
