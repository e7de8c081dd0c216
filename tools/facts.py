"""Counts facts of `requires` clauses that stand in three contracts or more, and triples of parameters that stand in three functions or more: usage: facts.py"""

import collections
import itertools
import pathlib
import re


def parts(text, mark):
    """The text between the marks that stand outside all brackets."""
    out, depth, start = [], 0, 0
    for i, c in enumerate(text):
        depth += (c in "({[") - (c in ")}]")
        if not depth and text.startswith(mark, i):
            out.append(text[start:i])
            start = i + len(mark)
    return [t for t in map(str.strip, [*out, text[start:]]) if t]


facts, triples, functions = collections.defaultdict(set), collections.defaultdict(set), 0
for path in sorted(pathlib.Path("crates").glob("*/src/*.rt")):
    source = path.read_text()
    for m in re.finditer(r"\bfn ([a-z_0-9]+)(?:<[^(]*>)?\(((?:[^()]|\([^()]*\))*)\)", source):
        place = f"{path.parts[1]}::{path.stem}::{m[1]}"
        functions += 1
        contract = re.split(r"\n\s*\{\n", source[m.end():], maxsplit=1)[0]
        for r in re.finditer(r"requires(?: [a-z_]+)? \{ (.*?) \}\s*(?:\n|$)", contract):
            for fact in parts(r[1], " × "):
                facts[re.sub(r"^\((.*)\)$", r"\1", fact)].add(place)
        named = [p.removeprefix("mut ") for p in parts(m[2].replace("\n", " "), ",") if ":" in p]
        for triple in itertools.combinations(named, 3):
            triples[triple].add(place)

often = {f: p for f, p in facts.items() if len(p) > 2}
together = {t: p for t, p in triples.items() if len(p) > 2}
print(f"{functions} functions; {len(often)} facts in three contracts or more, {sum(map(len, often.values()))} times; {len(together)} triples of parameters")
for fact, places in sorted(often.items(), key=lambda f: -len(f[1])):
    print(len(places), fact)
for triple, places in sorted(together.items(), key=lambda t: -len(t[1])):
    print(len(places), ", ".join(triple))
