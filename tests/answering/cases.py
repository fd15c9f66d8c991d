"""The questions with the answers of the second reader and writer, as the program tests/src/bin/answers prints them."""
import os
import subprocess


class Case:
    """A question: its sort, its words, what the second reader says, and its name, which is the sort and a number."""

    def __init__(self, line, turn):
        question, says = line.split(" = ")
        self.sort, *self.words = question.split(" ")
        self.says = says.split(" ")
        self.name = f"{self.sort}-{turn}"

    def shown(self):
        return f"{self.name}: {' '.join(self.words)}\n    the second reader says {' '.join(self.says)}"

    def short(self):
        """The question and the answer on one line of some length."""
        words = [w if len(w) < 60 else w[:40] + f".. ({len(w) // 2} bytes)" for w in self.words]
        return f"{' '.join(words)[:160]} = {' '.join(self.says)[:60]}"


def bytes_of(word):
    """The bytes of a word `x1E00`."""
    return bytes.fromhex(word[1:])


def program(root, folder):
    """Builds the program, which needs nothing but its source, and gives what it prints."""
    built = os.path.join(folder, "second-reader")
    source = os.path.join(root, "tests", "src", "bin", "answers", "main.rs")
    subprocess.run(["rustc", "--edition", "2021", "-O", "-o", built, source], check=True)
    return subprocess.run([built], check=True, stdout=subprocess.PIPE).stdout.decode()


def read_cases(text):
    """The tokens that others are told by, and the cases."""
    bases, cases, turns = {}, [], {}
    for line in text.splitlines():
        sort = line.split(" ")[0]
        turns[sort] = turns.get(sort, 0) + 1
        case = Case(line, turns[sort])
        if sort == "base":
            bases[case.words[0]] = bytes_of(case.says[0])
        else:
            cases.append(case)
    return bases, cases
