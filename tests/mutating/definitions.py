"""Mutants of definitions: one small change of meaning each, on the right-hand sides and in the fields of records."""
import re

from mutating.mutant import Mutant, LITERAL, other_number, numbers_beside, spans_to_mutants

KINDS = ["public_key", "rule", "transport_variant", "transport_rule", "export_parameters", "source_rule", "token_parameters",
         "name", "information", "protection", "dates", "application_data"]
TESTS = ["leb", "ltb", "eqb"]
# Old, new, the kind of change, and what the file must import for the new one.
OPERATORS = [
    (" && ", " || ", "logic", "◌||◌"), (" || ", " && ", "logic", "◌&&◌"),
    (" + ", " - ", "arithmetic", "◌-◌"), (" - ", " + ", "arithmetic", "◌+◌"), (" * ", " + ", "arithmetic", "◌+◌"),
    (" / ", " % ", "arithmetic", "◌%◌"), (" % ", " / ", "arithmetic", "◌/◌"),
    (" ≤ ", " < ", "comparison", "◌<◌"), (" < ", " ≤ ", "comparison", "◌≤◌"),
]
ATOM = r"(?:[\w.?]+|\((?:[^()]|\((?:[^()]|\([^()]*\))*\))*\))"
# Calls whose arguments are exchanged: two that stand behind each other.
PAIRS = re.compile(r"(?<![\w·])(?:leb|ltb|fault|check|count|zeros|code|between|bytes_at \w+|At|Missing|Refused) "
                   rf"({ATOM}) ({ATOM})(?![\w.])")


def right_side(line):
    """Where the part of a line begins that may change, or None: behind `=` of an equation, behind `:` of a record's field."""
    if not line.strip() or line.strip().startswith("--"):
        return None
    if re.match(r"(abbrev|unfoldable|pub|data|record|use|theorem|instance)\b", line):
        return None
    field = re.match(r"  (?:pub )?\w+ : ", line)
    if field:
        return field.end() if line.startswith("  pub ") else None
    if line.startswith(" "):
        return len(line) - len(line.lstrip())
    equation = re.search(r" =( |$)", line)
    return equation.end() if equation else None


def place_of(lines, i):
    """The name that is defined at line i."""
    for line in reversed(lines[:i + 1]):
        head = re.match(r"(?:abbrev |unfoldable )?(?:pub )?(?:data |record )?([\w?-]+)", line)
        if head and not line.startswith((" ", "--")):
            return head.group(1)
    return "?"


def number_changes(text, start, numbers):
    for m in LITERAL.finditer(text, start):
        if not text[:m.start()].endswith(("Type ", "{")):
            for new in numbers_beside(m.group(1)) + other_number(m.group(1), numbers):
                yield m.start(1), m.end(1), new, "number"


def word_changes(text, start, imports):
    for test in TESTS:
        other = [t for t in TESTS if t != test and re.search(rf"\b{t}\b", imports)]
        for m in re.finditer(rf"\b{test}\b", text):
            yield from ((m.start(), m.end(), t, "test") for t in other[:1] if m.start() >= start)
    for old, new in (("true", "false"), ("false", "true")):
        for m in re.finditer(rf"\b{old}\b(?! ↦)", text):
            if m.start() >= start:
                yield m.start(), m.end(), new, "truth"
    for m in re.finditer(r"\bnot (?=[\w(])", text):
        if m.start() >= start:
            yield m.start(), m.end(), "", "negation dropped"
    for m in re.finditer(r"(?<![\w.])[a-z]\w+(?!\w| :| =|-)", text):
        if m.start() >= start and m.group(0) in KINDS and (text[start:].strip() != m.group(0)):
            yield m.start(), m.end(), KINDS[(KINDS.index(m.group(0)) + 1) % len(KINDS)], "other kind"


def items(text, start):
    """The spans of the items of a list that stands on one line: `a ∷ b ∷ []`."""
    spans, depth, begin = [], 0, start
    for i in range(start, len(text)):
        depth += text[i] in "([{"
        depth -= text[i] in ")]}"
        if depth == 0 and text.startswith(" ∷ ", i):
            spans.append((begin, i))
            begin = i + 3
    return spans


def list_changes(text, start):
    spans = items(text, start)
    for a, b in spans:
        yield a, min(b + 3, len(text)), "", "item dropped"
    for (a, b), (c, d) in zip(spans, spans[1:]):
        yield a, d, text[c:d] + " ∷ " + text[a:b], "items exchanged"


def other_changes(text, start, imports):
    for old, new, kind, needs in OPERATORS:
        for m in re.finditer(re.escape(old), text):
            if m.start() >= start - 1 and needs in imports:
                yield m.start(), m.end(), new, kind
    for m in PAIRS.finditer(text, start):
        yield m.start(1), m.end(2), m.group(2) + " " + m.group(1), "arguments exchanged"
    for m in re.finditer(r"\[ (true) ↦ [^|]* \| (false) ↦ ", text):
        inner = text[m.end(1):m.start(2)]
        yield m.start(1), m.end(2), "false" + inner + "true", "branches exchanged"
    if not text.strip().startswith("∷"):
        yield from list_changes(text, start)


def exchanged_lines(path, lines):
    """Neighbours of a list that has a line for each item, exchanged; an item of such a list dropped."""
    for i in range(len(lines) - 1):
        a, b = lines[i], lines[i + 1]
        first, second = re.match(r"( +)(∷ )?(\S.*)$", a), re.match(r"( +)∷ (\S.*)$", b)
        if not first or a.strip().startswith("--"):
            continue
        if first.group(2) and first.group(3) != "[]":
            yield Mutant(path, i, i, [a], [], "item dropped", place_of(lines, i))
        if second and second.group(1) == first.group(1) and "[]" not in (second.group(2), first.group(3)):
            new = [first.group(1) + (first.group(2) or "") + second.group(2), second.group(1) + "∷ " + first.group(3)]
            yield Mutant(path, i, i + 1, [a, b], new, "items exchanged", place_of(lines, i))


def mutants(path, text):
    """All mutants of a file, in order of lines."""
    lines, found = text.split("\n"), []
    imports = " ".join(l for l in lines if l.startswith("use "))
    sides = {i: right_side(l) for i, l in enumerate(lines)}
    numbers = [m.group(1) for i, s in sides.items() if s is not None for m in LITERAL.finditer(lines[i].split(" -- ")[0], s)]
    for i, start in sides.items():
        if start is not None:
            part = lines[i].split("  -- ")[0]
            spans = list(number_changes(part, start, numbers)) + list(word_changes(part, start, imports))
            found += spans_to_mutants(path, lines, i, spans + list(other_changes(part, start, imports)), place_of(lines, i))
    found += exchanged_lines(path, lines)
    return sorted(found, key=lambda m: m.first)
