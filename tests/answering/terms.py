"""Bytes, answers, rows and parts as terms of the definitions' language."""
from answering.cases import bytes_of

KINDS = {"110000": "public_key", "120000": "rule", "120001": "transport_variant", "120002": "transport_rule", "120003": "export_parameters",
         "120004": "source_rule", "120005": "token_parameters", "130000": "name", "140000": "information", "140001": "protection",
         "140002": "dates", "150000": "application_data"}
# The kinds whose values are not all runs of bytes, with what makes fields of them.
FIELDS = {"110000": "public_key_fields", "120000": "rule_fields", "120003": "export_fields", "140000": "information_fields", "140002": "date_fields"}
RUN = 6  # so many like bytes are written as a run


def runs(bs):
    """The bytes as runs: pairs of a byte and how often it stands there."""
    found = []
    for b in bs:
        if found and found[-1][0] == b:
            found[-1][1] += 1
        else:
            found.append([b, 1])
    return found


def numbers(ns):
    """A list of numbers, with runs for what repeats."""
    term = "[]"
    for b, n in reversed(runs(ns)):
        if n < RUN:
            term = f"{b} ∷ " * n + term
        else:
            term = f"replicate {n} {b}" if term == "[]" else f"(replicate {n} {b} ++ ({term}))"
    return term


def changed(name, base, bs):
    """The token of this name with some bytes set, or cut with its length in line; None where that is not short."""
    if len(bs) > len(base):
        return None
    differ = [i for i in range(len(bs)) if bs[i] != base[i]]
    if len(differ) > 4:
        return None
    term = name if len(bs) == len(base) else f"take {len(bs)} {name}"
    for i in differ:
        term = f"set ({term}) {i} {bs[i]}"
    return term


def token(bases, bs):
    """The shortest of the ways to write the bytes."""
    ways = [numbers(bs)] + [changed(name, base, bs) for name, base in bases.items()]
    return "(" + min((w for w in ways if w), key=len) + ")"


def answer(number, second):
    return f"(Accepted {second})" if number == "0" else f"(Refused {number} {second})"


def row(word):
    kind, offset, length, owner, rule = word.split(",")
    return f"(record {{ kind = {kind}; offset = {offset}; length = {length}; owner = {owner}; rule = {rule} }})"


def truth(word):
    return "true" if word == "1" else "false"


def value(word):
    """A part's value: a number, or bytes."""
    return "(" + numbers(bytes_of(word)) + ")" if word.startswith("x") else word


def part(words):
    """Kind and fields of the part that the words begin with, and the words after it."""
    kind, n = words[0], int(words[1])
    values, rest = [value(w) for w in words[2:2 + n]], words[2 + n:]
    if kind in FIELDS:
        return KINDS[kind], "(" + " ".join([FIELDS[kind]] + values) + ")", rest
    return KINDS[kind], "(" + " ∷ ".join(values + ["[]"]) + ")", rest


def parts_of(words):
    """All parts of the words, each as a term."""
    found = []
    while words:
        kind, fields, words = part(words)
        found.append(f"record {{ kind = {kind}; fields = {fields} }}")
    return found


def list_of(some):
    return "(" + " ∷ ".join(some + ["[]"]) + ")"
