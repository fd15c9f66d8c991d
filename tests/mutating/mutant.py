"""A mutant: some lines of a file with others in their place. And what code and definitions share."""
import re

# A number that is no part of a name; `0u64` is the number 0 with its type.
LITERAL = re.compile(r"(?<![\w'.])(0x[0-9a-fA-F]+|\d+)(?=(?:u8|u16|u32|u64|usize)?\b)")


class Mutant:
    def __init__(self, path, first, last, old, new, kind, place):
        self.path, self.first, self.last = path, first, last  # the lines first to last, numbered from 0
        self.old, self.new, self.kind, self.place = old, new, kind, place
        self.turn = 1  # which of the mutants with the same words it is

    def key(self):
        """What names the mutant in tests/mutants.equivalent: no line number, so that it holds when lines move."""
        return " | ".join([self.path, self.place, str(self.turn), self.words(self.old), self.words(self.new)])

    def words(self, lines):
        return " / ".join(" ".join(l.split()) for l in lines) or "(nothing)"

    def shown(self):
        return f"{self.path}:{self.first + 1}: {self.kind}: {self.words(self.old)} → {self.words(self.new)}"

    def applied(self, text):
        lines = text.split("\n")
        assert lines[self.first:self.last + 1] == self.old, "the file has changed under the mutant"
        return "\n".join(lines[:self.first] + self.new + lines[self.last + 1:])


def numbers_beside(number):
    """One more and one less, written as the number is."""
    n = int(number, 0)
    form = (lambda k: hex(k)) if number.startswith("0x") else str
    return [form(n + 1)] + ([form(n - 1)] if n > 0 else [])


def other_number(number, numbers):
    """The first number behind this one that is neither it nor beside it, round and round; none where there is none."""
    n = int(number, 0)
    at = numbers.index(number)
    for other in numbers[at:] + numbers[:at]:
        if abs(int(other, 0) - n) > 1:
            return [other]
    return []


def spans_to_mutants(path, lines, i, spans, place):
    """Mutants of the line i from changes of spans of it; changes that give the same line count once."""
    seen, found = {lines[i]}, []
    for start, end, new, kind in spans:
        line = lines[i][:start] + new + lines[i][end:]
        if line not in seen:
            seen.add(line)
            found.append(Mutant(path, i, i, [lines[i]], [line], kind, place))
    return found


def numbered(mutants):
    """Gives mutants with the same words their turns."""
    seen = {}
    for m in mutants:
        seen[m.key()] = seen.get(m.key(), 0) + 1
        m.turn = seen[m.key()]
    return mutants
