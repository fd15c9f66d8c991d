"""Mutants of Rattle code: one small change of meaning each, inside function bodies and constants, never in a contract."""
import re

from mutating.mutant import Mutant, LITERAL, other_number, numbers_beside, spans_to_mutants

# Operators with a space on both sides, as the formatter writes them.
OPERATORS = [
    (" < ", " <= ", "comparison"), (" <= ", " < ", "comparison"), (" > ", " >= ", "comparison"),
    (" == ", " != ", "comparison"), (" != ", " == ", "comparison"),
    (" && ", " || ", "logic"), (" || ", " && ", "logic"),
    (" + ", " - ", "arithmetic"), (" - ", " + ", "arithmetic"), (" * ", " + ", "arithmetic"),
    (" / ", " % ", "arithmetic"), (" % ", " / ", "arithmetic"), (" += ", " -= ", "arithmetic"), (" -= ", " += ", "arithmetic"),
]
WORDS = [(r"\btrue\b", "false", "truth"), (r"\bfalse\b", "true", "truth"), (r"(?<=[ (])!(?=[a-z])", "", "negation dropped")]
PARAMETER = re.compile(r"(\w+): ([^,:()]+?)(?=[,)]|$)")
CALL = re.compile(r"\b([A-Za-z_]\w*(?:::\w+)*)\(")


class Function:
    """A function's name, its parameters by type, and the numbers of its body's lines."""

    def __init__(self, name, signature, first, last):
        self.name, self.first, self.last = name, first, last
        self.by_type = {}
        for parameter, type_ in PARAMETER.findall(signature):
            self.by_type.setdefault(type_.strip(), []).append(parameter)

    def beside(self, name):
        """The other parameters of the same type."""
        for names in self.by_type.values():
            if name in names:
                return [n for n in names if n != name]
        return []


def functions(lines):
    """The functions and methods of a file: the body lies between a line that ends in `{` and a line `}`, both as far in as `fn`."""
    found, i = [], 0
    while i < len(lines):
        head = re.match(r"( *)(?:#\[no_mangle\] )?(?:pub(?:\(crate\))? )?(?:extern \"C\" )?fn (\w+)", lines[i])
        if not head:
            i += 1
            continue
        start, edge = i, head.group(1)
        while not re.match(edge + r"(\S.*)?\{$", lines[i]):
            i += 1
        signature = " ".join(l.strip() for l in lines[start:i + 1] if not l.strip().startswith(("requires", "ensures")))
        first = i + 1
        while lines[i] != edge + "}":
            i += 1
        found.append(Function(head.group(2), signature.split("->")[0], first, i - 1))
    return found


def code_part(line):
    return line.split(" //")[0] if not line.strip().startswith("//") else ""


def arguments(text, start):
    """The spans of a call's arguments, from behind its opening bracket on; none where the call goes on in the next line."""
    spans, depth, begin = [], 0, start
    for i in range(start, len(text)):
        c = text[i]
        if c in "([{":
            depth += 1
        elif c in ")]}" and depth > 0:
            depth -= 1
        elif c == ")":
            return spans + [(begin, i)] if i > start else []
        elif c == "," and depth == 0:
            spans.append((begin, i))
            begin = i + 2
    return []


def exchanged_arguments(text):
    for call in CALL.finditer(text):
        spans = arguments(text, call.end())
        for (a, b), (c, d) in zip(spans, spans[1:]):
            if text[a:b] != text[c:d]:
                yield a, d, text[c:d] + ", " + text[a:b], "arguments exchanged"


def other_operands(text, function):
    for word in re.finditer(r"(?<![\w.':])[a-z_]\w*(?![\w(:])", text):
        for other in function.beside(word.group(0))[:1]:
            yield word.start(), word.end(), other, "other operand"


def changes(text, function, numbers):
    """The changes of one line: where, what stands there instead, and the kind of change."""
    for m in LITERAL.finditer(text):
        kind = "returned number" if re.match(r"\s*return\b|\s*\d+$|.*\bRefused\($", text[:m.end()]) else "number"
        for new in numbers_beside(m.group(1)) + other_number(m.group(1), numbers):
            yield m.start(1), m.end(1), new, kind
    for m in re.finditer(r"b'(.)'", text):
        yield m.start(1), m.end(1), chr(ord(m.group(1)) + 1), "character"
    for m in re.finditer(r'b"(\w)', text):
        yield m.start(1), m.end(1), chr(ord(m.group(1)) ^ 32), "character"
    for old, new, kind in OPERATORS:
        for m in re.finditer(re.escape(old), text):
            yield m.start(), m.end(), new, kind
    for old, new, kind in WORDS:
        for m in re.finditer(old, text):
            yield m.start(), m.end(), new, kind
    yield from exchanged_arguments(text)
    yield from other_operands(text, function)


def is_test(lines, i, last):
    """Whether the lines i to i + 2 are `if .. {`, `return ..;`, `}`."""
    if i + 2 > last:
        return False
    a, b, c = (l.strip() for l in lines[i:i + 3])
    return a.startswith("if ") and a.endswith("{") and b.startswith("return") and b.endswith(";") and c == "}"


def whole_lines(path, lines, function):
    """Tests dropped and exchanged, statements dropped."""
    for i in range(function.first, function.last + 1):
        if is_test(lines, i, function.last):
            yield Mutant(path, i, i + 2, lines[i:i + 3], [], "test dropped", function.name)
            if is_test(lines, i + 3, function.last) and lines[i:i + 3] != lines[i + 3:i + 6]:
                yield Mutant(path, i, i + 5, lines[i:i + 6], lines[i + 3:i + 6] + lines[i:i + 3], "tests exchanged", function.name)
        text = lines[i].strip()
        if text.endswith(";") and not re.match(r"let |return|continue|break|[})]", text):
            yield Mutant(path, i, i, lines[i:i + 1], [], "statement dropped", function.name)


def mutants(path, text):
    """All mutants of a file, in order of lines."""
    lines, found = text.split("\n"), []
    for i, line in enumerate(lines):
        constant = re.match(r"(?:pub )?const (\w+): \w+ = ", line)
        if constant:
            for m in LITERAL.finditer(code_part(line), constant.end()):
                spans = [(m.start(1), m.end(1), new, "number") for new in numbers_beside(m.group(1))]
                found += spans_to_mutants(path, lines, i, spans, constant.group(1))
    for function in functions(lines):
        body = lines[function.first:function.last + 1]
        numbers = [m.group(1) for l in body for m in LITERAL.finditer(code_part(l))]
        for i in range(function.first, function.last + 1):
            found += spans_to_mutants(path, lines, i, changes(code_part(lines[i]), function, numbers), function.name)
        found += whole_lines(path, lines, function)
    return sorted(found, key=lambda m: m.first)
