#!/usr/bin/env python3
"""Brings the repository's own definitions and lemmas to the spelling of today's Rattle: words in snake case.

usage: tools/respell.py        at the top of the repository, once, right after port.py

The names are those that a file of specs/, or a file of lemmas in proofs/, declares: definitions, lemmas, constructors and fields.
`ruleCount` and `rule-count` become `rule_count`. A fact, whose type is Type 0, becomes `RuleCount`. The names of a function's goals, in the
folders below proofs/, belong to the prover and stay. Where a lemma and a definition would have one spelling, the lemma ends in `_is`.
It prints what it renames so, and each name that is now spelled as a word of src/. --dry only prints.
"""
import glob
import re
import sys

HEAD = re.compile(r"^\s*((?:(?:abbrev|unfoldable|pub|data|record|mutual|ruleset)\s+)*)([^\s:(){}]+)((?:\s*(?:\(.*?\)|\{.*?\}))*)\s*:(?:\s(.*))?$")
FIELD = re.compile(r"^\s+(?:pub\s+)?([^\s:(){}]+(?: [^\s:(){}]+)*)\s*:\s")
LET = re.compile(r"\blet ([a-z][a-z0-9]*[A-Z]\w*) =")
WORD = r"[^\s(){}\[\].;,\"«»`|/:*]+"
SKIP = ("--", "use ", "mod ", "pub mod", "open ")
# Names that would fall together with a parameter or a module, and what they are called instead.
SAID = {
    "filled": "IsFilled",
    "label-place": "label_place",
    "placeAfter": "place_after",
    "rule-id-place": "rule_id_place",
    "generatedLength": "generated_length_allowed",
    "modulusBits": "modulus_bits_allowed",
    "symmetricFormat": "symmetric_format_allowed",
}


def lemma_files():
    yield from sorted(glob.glob("crates/*/specs/**/*.antt", recursive=True))
    for f in sorted(glob.glob("crates/*/proofs/**/*.antt", recursive=True)):
        # crates/C/proofs/F/Answers.antt is of the function F, crates/C/proofs/Answers.antt is a file of lemmas
        if f.count("/") == 3 or not f.endswith(("/Proof.antt", "/Answers.antt", "/Invariants.antt")):
            yield f


def declared():
    names, facts = set(), set()
    for f in lemma_files():
        lines = open(f, encoding="utf-8").read().split("\n")
        body = False
        for i, l in enumerate(lines):
            if l.startswith(SKIP):
                continue
            m = HEAD.match(l)
            if m:
                names.add(m.group(2))
                words = m.group(1).split()
                if l.startswith(" ") and not words and not re.search("-|[a-z0-9][A-Z]", m.group(2)):
                    names.update([m.group(2)] if body else [])
                    continue
                if l.startswith(" ") and body:
                    continue
                body = "data" in words or "record" in words
                rest = m.group(4) or ""
                ends = re.sub(r"\([^()]*\)", "()", re.sub(r"\([^()]*\)", "()", rest))
                if "data" not in words and "record" not in words and re.search(r"(?:^|→\s*)Type \d\s*$", ends):
                    facts.add(m.group(2))
                continue
            m = FIELD.match(l)
            if m and body:
                names.update(m.group(1).split())
            names.update(LET.findall(l))
            if l and not l.startswith((" ", "\t")):
                body = False
    return names, facts


def snake(n):
    n = re.sub(r"([a-z0-9])([A-Z])", lambda m: m.group(1) + "_" + m.group(2).lower(), n)
    return n.replace("-", "_")


def camel(n):
    return "".join(w[:1].upper() + w[1:] for w in re.split(r"[-_]", n))


def texts():
    for pat in ("crates/**/*.antt", "crates/**/*.rt", "crates/**/*.edit"):
        for f in sorted(glob.glob(pat, recursive=True)):
            if "/out/" not in f:
                yield f


def main(argv):
    dry = "--dry" in argv
    names, facts = declared()
    table = {}
    for n in sorted(names):
        if not re.match(r"^[a-z]", n):
            continue
        new = SAID.get(n) or (camel(n) if n in facts else snake(n))
        if new != n:
            table[n] = new
    seen, functions = set(), set()
    for f in texts():
        text = open(f, encoding="utf-8").read()
        seen.update(re.findall(WORD, text))
        if f.endswith(".rt"):
            functions.update(re.findall(r"\bfn (\w+)", text))
    for n, t in sorted(table.items()):
        if n in SAID or t not in seen and sum(u == t for u in table.values()) == 1:
            continue
        if "-" in n:
            table[n] = t + "_is"
        elif t in names and t not in functions:
            table[t] = t + "_is"
            print("ends in _is:", t, table[t])
        if table.get(t) != t + "_is" and table[n] == t:
            print("as in src/:", n, t)
        elif table[n] != t:
            print("ends in _is:", n, table[n])
    print(len(table), "names;", "facts:", *sorted(n for n in facts if n in table))
    if dry:
        return
    word = re.compile(WORD)
    for f in texts():
        old = open(f, encoding="utf-8").read()
        new = word.sub(lambda m: table.get(m.group(0), m.group(0)), old)
        if new != old:
            open(f, "w", encoding="utf-8").write(new)


main(sys.argv[1:])
