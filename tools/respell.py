#!/usr/bin/env python3
"""Respells the definitions and lemmas of this repository's own as Rattle spells them now: words in snake case, `'` for a prime.

usage: tools/respell.py [--list]      at the top of the repository, once, after port.py; --list prints the old and the new names and changes nothing

Names are those declared in crates/*/specs and crates/*/proofs, but for the proofs of functions, whose names Rattle makes. Types, facts and modules keep
their capitals, and a dash that joins two functions' names stays. Where a lemma would get the name of a function, it gets `_lem`. In comments and pages only
what stands between backticks is respelled. Functions of src/ keep their names.
"""
import collections
import glob
import os
import re
import sys

WORD = r"[^\s(){}.;,@\"«»\[\]\\`]+"
TOKEN = re.compile(r"«[^»]*»|" + WORD)
DECLARED = re.compile(r"^\s*(?:(?:pub|abbrev|unfoldable|package) )*([^\s:(){}]+(?: [^\s:(){}]+)*) : ")
RECORD = re.compile(r"^\s*(?:pub )?(?:data|record) (\S+)")
# Words of the library that a lemma's name begins or ends with: a dash joins them.
OF_STD = set("add sub mul div neg abs zero one append length take drop concat replicate map min max not".split())
# A lemma's or a definition's name, where the rule alone would make two things fall together.
CHOSEN = {
    "centerDifference": "center_difference_of",
    "deltaRot": "delta_rot_of",
    "header-bytes": "header_bytes_lem",
    "nan-bits": "nan_bits_lem",
    "preSolve": "pre_solve_of",
    "rotationDifference": "rotation_difference_of",
}


def antt():
    return sorted(p for p in glob.glob("crates/*/specs/**/*.antt", recursive=True) + glob.glob("crates/*/proofs/**/*.antt", recursive=True))


def of_a_function(path):
    return os.path.basename(path) in ("Proof.antt", "Answers.antt", "Invariants.antt")


def read(path):
    with open(path, encoding="utf-8", newline="") as f:
        return f.read()


def declared():
    where = collections.defaultdict(list)
    for p in antt():
        # A function's proof: its helpers alone, and not the names that Rattle asks for.
        asked = set(re.findall(r"(?m)^(\S+) : tie\.", read(p))) if of_a_function(p) else set()
        for line in read(p).split("\n"):
            if line.lstrip().startswith("--"):
                continue
            m = DECLARED.match(line)
            for n in m[1].split() if m else []:
                if n not in asked and not n.endswith("-spec") and n not in ("data", "record"):
                    where[n].append(p)
    return where


def humps(word):
    word = re.sub(r"(?<=[a-z0-9])([A-Z])(?=[a-z])", lambda m: "_" + m[1].lower(), word)
    return re.sub(r"(?<=[a-z0-9])([A-Z])$", lambda m: "_" + m[1].lower(), word)


def spelled(name, names):
    if name in CHOSEN:
        return CHOSEN[name]
    if not re.search(r"[A-Za-z]", name):
        return name
    if name[0].isupper():
        head, dash, rest = name.partition("-")
        if not dash:
            return name
        return head + "-" + rest.replace("-", "_")
    parts = [humps(p) for p in name.split("-")]
    joined = parts[0]
    functions = {humps(n) for n in names if "-" not in n} | OF_STD
    for i, p in enumerate(parts[1:], 1):
        both = len(parts) == 2 and parts[0] in functions and p in functions and parts[0] in OF_STD | {"numbers", "line", "steps"} and p in OF_STD
        joined += ("-" if both else "_") + p
    return joined.replace("′", "'")


def table():
    where = declared()
    new = {n: spelled(n, where) for n in where}
    taken = collections.defaultdict(set)
    for n, m in new.items():
        taken[m].add(n)
    for m, olds in taken.items():
        if len(olds) < 2:
            continue
        # The definition keeps the name, and the lemma gets `_lem`.
        lemmas = [n for n in olds if "-" in n]
        for n in lemmas[0 if len(lemmas) < len(olds) else 1:]:
            new[n] = m + "_lem"
    return where, {n: m for n, m in new.items() if n != m}


def main(argv):
    where, new = table()
    calls = functions()
    if argv == ["--list"]:
        for n in sorted(new):
            print(n, new[n], sep="\t")
        return 0
    files = antt() + sorted(glob.glob("crates/*/src/**/*.rt", recursive=True) + glob.glob("crates/*/must-fail/*.edit") + glob.glob("docs/**/*.md", recursive=True) + ["README.md"])
    for p in files:
        old = read(p)
        text = turned(p, old, new, calls)
        if text != old:
            with open(p, "w", encoding="utf-8", newline="") as f:
                f.write(text)
    return 0


def functions():
    return {m for p in glob.glob("crates/*/src/**/*.rt", recursive=True) for m in re.findall(r"\bfn (\w+)", read(p))}


def imported_elsewhere(text):
    """Names that this file takes from the library: they stay."""
    names = set()
    for path, items in re.findall(r"(?m)^\s*(?:pub )?(?:ghost )?use (\S+?)\.\{([^}]*)\}", text):
        if not re.match(r"Rattle\.(?!std\b|core\b|std_)", path):
            for it in items.split(","):
                names.update(it.split()[:1])
    return names


def turned(path, text, new, calls):
    stay = imported_elsewhere(text)
    steps = of_a_function(path)

    def word(m):
        t = m[0]
        # A step of a function's proof, as `c.within-one.ensures`, is named after the call.
        if steps and m.string[m.start() - 1 : m.start()] == "." and t.replace("-", "_") in calls:
            return t.replace("-", "_")
        if t.startswith("«") or t in stay:
            return t
        return new.get(t, t)

    def ticks(s):
        return re.sub(r"`[^`]*`", lambda m: TOKEN.sub(lambda w: new.get(w[0], w[0]), m[0]), s)

    if path.endswith(".md"):
        return ticks(text)
    mark = "--" if path.endswith(".antt") else "//"
    lines = []
    for line in text.split("\n"):
        s = line.lstrip()
        if path.endswith(".edit"):
            head, sep, rest = line.partition(": ")
            if head in ("old", "new"):
                if rest.lstrip().startswith(("//", "--")):
                    lines.append(ticks(line))
                else:
                    lines.append(head + sep + TOKEN.sub(word, rest))
            elif head == "file":
                lines.append(line)
            else:
                lines.append(ticks(line))
            continue
        if s.startswith(mark):
            lines.append(ticks(line))
            continue
        # A comment behind code
        i = line.find(" " + mark + " ")
        code, tail = (line, "") if i < 0 else (line[:i], line[i:])
        lines.append(TOKEN.sub(word, code) + ticks(tail))
    return "\n".join(lines)


if __name__ == "__main__":
    raise SystemExit(main(sys.argv[1:]))
