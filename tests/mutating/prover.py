"""A copy of the repository in a folder of its own, in which mutants are checked."""
import os
import re
import shutil
import signal
import subprocess
import time

from answering import cases as second_reader
from answering import crate as answers

LATE = 124
ANSWERS = {"some answers": 5, "answers": 1}  # stages that ask the second reader, each with one of so many cases
LEFT_OUT = (".git", "__pycache__", "must-fail", "out")
ERROR = re.compile(r"^(\S*?/)?(crates/\S+?):(\d+):\d+: error(?:\[[\w-]+\])?: (.*(?:\n  .*)?)$", re.M)
NOTE = re.compile(r"^note: (\S*?/)?(crates/\S+?):(\d+):\d+: (it is not proved .*)$", re.M)  # of a proof that rattle makes
IN_CRATE = re.compile(r"^(note: )?(?:\./)?((?:src|specs|proofs)/\S+?:\d+:)", re.M)  # a place as rt check prints it, in the crate's folder
FOLLOWS = "not admitted"  # an error that only follows from another
SHAPE = re.compile(r"has no (field )?`|this pattern needs")  # the proof no longer fits the function's places


class Verdict:
    """refused: by what, and the first error; or one of the other words of `WORDS`."""

    def __init__(self, word, by="", error=""):
        self.word, self.by, self.error = word, by, error


def crates_of(root):
    """The crates with what each depends on, in the order of crates.txt. After a name may stand that it is a static library."""
    with open(os.path.join(root, "crates.txt")) as f:
        lines = [l.split("#")[0].split(":") for l in f if ":" in l.split("#")[0]]
    return {name.split()[0]: needs.split() for name, needs in lines}


def crates_above(root, crate):
    """The crates that depend on this one, by others too, in the order of crates.txt."""
    above = {crate}
    for name, needs in crates_of(root).items():
        if above & set(needs):
            above.add(name)
    return [name for name in crates_of(root) if name in above and name != crate]


class Cache:
    """What the prover keeps between checks of one crate, put back after each mutant to what it was without any."""

    def __init__(self, folder, clean):
        self.folder, self.clean = folder, clean
        shutil.rmtree(self.clean, ignore_errors=True)
        shutil.copytree(folder, self.clean)
        self.before = self.state()

    def state(self):
        found = {}
        for base, _, names in os.walk(self.folder):
            for name in names:
                s = os.stat(os.path.join(base, name))
                found[os.path.relpath(os.path.join(base, name), self.folder)] = (s.st_mtime_ns, s.st_size)
        return found

    def restore(self):
        now = self.state()
        for name in set(now) - set(self.before):
            os.remove(os.path.join(self.folder, name))
        for name, was in self.before.items():
            if now.get(name) != was:
                shutil.copy2(os.path.join(self.clean, name), os.path.join(self.folder, name))
                s = os.stat(os.path.join(self.folder, name))
                self.before[name] = (s.st_mtime_ns, s.st_size)


class Copy:
    def __init__(self, root, folder, log):
        self.root, self.folder, self.log = root, os.path.join(folder, "copy"), log
        self.format = os.path.join(self.folder, "crates", "format")
        # What the second reader says of the definitions, for each stage that asks; the last folder is for cases alone.
        self.asked = {stage: os.path.join(folder, stage.replace(" ", "-")) for stage in list(ANSWERS) + ["each answer"]}
        self.clean = os.path.join(folder, "clean")
        self.laws, self.caches = {}, {}
        self.changed = {}  # the files that have mutants in them, as they were without
        self.touched = set()  # the stages that were checked with mutants
        self.clear()
        without = LEFT_OUT + (("target",) if os.path.isdir(os.path.join(self.folder, "target")) else ())
        shutil.copytree(root, self.folder, ignore=shutil.ignore_patterns(*without), dirs_exist_ok=True, symlinks=True)
        for crate in crates_of(root):  # the library and the programs, which the tests run
            for name in (crate, f"lib{crate}.a"):
                built = os.path.join("crates", crate, "out", name)
                if os.path.isfile(os.path.join(root, built)):
                    os.makedirs(os.path.dirname(os.path.join(self.folder, built)), exist_ok=True)
                    shutil.copy2(os.path.join(root, built), os.path.join(self.folder, built))

    def clear(self):
        """Of a folder that was kept: target and what the prover keeps for each crate stand, the rest is copied anew."""
        for base, folders, names in os.walk(self.folder, topdown=False):
            inside = os.path.relpath(base, self.folder).split(os.sep)
            if inside[0] == "target" or (inside[0] == "crates" and inside[2:3] == ["out"]):
                continue
            for name in names:
                os.remove(os.path.join(base, name))
            for name in folders:
                path = os.path.join(base, name)
                if os.path.islink(path):
                    os.remove(path)
                elif not os.listdir(path):
                    os.rmdir(path)

    def run(self, words, where=None, env=None, seconds=900):
        """A command's exit status and what it printed, at low priority; LATE where it does not end in time."""
        start = time.monotonic()
        ran = subprocess.Popen(["nice", "-n", "19"] + words, cwd=where or self.folder, stdin=subprocess.DEVNULL, start_new_session=True,
                               stdout=subprocess.PIPE, stderr=subprocess.STDOUT, env={**os.environ, **(env or {})})
        try:
            text, status = ran.communicate(timeout=seconds)[0].decode("utf-8", "replace"), ran.returncode
        except subprocess.TimeoutExpired:
            os.killpg(ran.pid, signal.SIGKILL)  # the command and what it started, no other process
            ran.communicate()
            text, status = f"no end within {seconds} s", LATE
        self.log.write(f"$ {' '.join(words)[:200]}  # {time.monotonic() - start:.1f} s\n{text}\n")
        return status, text

    def check_command(self, crate):
        """The command that checks a crate, and the folder to run it in."""
        words, where = answers.check_command(self.asked[crate]) if crate in ANSWERS else (["rt", "check"], os.path.join(self.folder, "crates", crate))
        return words + ["--jobs", "1"], where

    def check(self, crate):
        """Checks one crate: the exit status, and what was printed, with places from the top of the copy on."""
        words, where = self.check_command(crate)
        status, text = self.run(words, where)
        return status, IN_CRATE.sub(rf"\1crates/{os.path.basename(where)}/\2", text)

    def make_ready(self, crate):
        """Fills the cache of a crate, which must be proved as it stands, without the mutants."""
        if crate in self.caches:
            return
        inside = {path: self.read(path) for path in self.changed}
        for path, text in self.changed.items():
            self.write(path, text)
        if crate in ANSWERS:
            self.ask_second_reader(crate)
        status, text = self.check(crate)
        if status != 0:
            raise SystemExit(f"mutants: {crate} is not proved as it stands:\n" + "\n".join(text.splitlines()[-5:]))
        where = self.check_command(crate)[1]
        folders = [os.path.join(os.path.dirname(where), name) for name in ("format", "answers")] if crate in ANSWERS else [where]
        self.caches[crate] = [Cache(os.path.join(f, "out"), os.path.join(self.clean, crate, os.path.basename(f))) for f in folders]
        for path, text in inside.items():
            self.write(path, text)

    def dev(self, crate, changed):
        """Checks one crate, over what was kept of it without mutants; `changed` is the crate that has them, the same or one below it."""
        self.make_ready(crate)
        if crate in ANSWERS:
            answers.copy_definitions(self.asked[crate], self.format)
        self.touched |= {crate, changed}
        return self.check(crate)

    def runs_as_its_example(self, program):
        """Whether the program, proved and built anew, prints the file stdout when it reads the file stdin."""
        where = os.path.join(self.folder, "crates", program)
        with open(os.path.join(where, "stdin"), "rb") as given, open(os.path.join(where, "stdout"), "rb") as wanted:
            ran = subprocess.run(["nice", "-n", "19", "rt", "run"], cwd=where, stdin=given, stdout=subprocess.PIPE, stderr=subprocess.PIPE)
            self.log.write(f"$ rt run  # in {program}\n{ran.stderr.decode('utf-8', 'replace')}\n")
            good = ran.returncode == 0 and ran.stdout == wanted.read()
        return good

    def ask_second_reader(self, stage):
        """Writes the crate of what the second reader says, with one of so many cases."""
        folder = self.asked[stage]
        os.makedirs(folder, exist_ok=True)
        self.bases, cases = second_reader.read_cases(second_reader.program(self.folder, folder))
        self.laws[stage] = answers.write_crate(folder, self.format, self.bases, cases[::ANSWERS[stage]])

    def case_that_fails(self, stage, text):
        """The first case on which the definitions and the second reader differ, by what the check of all printed; or None."""
        laws = answers.failed_laws(text, self.laws[stage])
        if not laws:
            return None
        group, folder = self.laws[stage][laws[0][0]], self.asked["each answer"]
        os.makedirs(folder, exist_ok=True)
        alone = answers.write_crate(folder, self.format, self.bases, group, 1)
        failed = answers.failed_laws(self.run(*answers.check_command(folder))[1], alone)
        return alone[failed[0][0]][0] if failed else None

    def put_in(self, texts):
        """Writes files that have mutants in them."""
        for path, text in texts.items():
            self.changed.setdefault(path, self.read(path))
            self.write(path, text)

    def take_out(self):
        """Writes the files as they were without the mutants, and puts back what the prover then kept."""
        for path, text in self.changed.items():
            self.write(path, text)
        for cache in (cache for stage in self.touched for cache in self.caches.get(stage, [])):
            cache.restore()
        self.changed, self.touched = {}, set()

    def write(self, path, text):
        with open(os.path.join(self.folder, path), "w") as f:
            f.write(text)

    def read(self, path):
        with open(os.path.join(self.folder, path)) as f:
            return f.read()


def all_errors(text):
    """File, line and words of each error."""
    return [(m.group(2), m.group(3), " ".join(m.group(4).split())) for m in ERROR.finditer(text)]


def errors_in(text):
    """The errors that do not only follow from another, at least one."""
    errors = all_errors(text)
    notes = [m.groups()[1:] for m in NOTE.finditer(text)]
    own = [e for e in errors if FOLLOWS not in e[2]] or notes or errors
    return own or [("", "", (text.strip().splitlines() or ["(nothing said)"])[-1])]


def shown_error(errors):
    """The first of the errors, in few words."""
    file, line, words = errors[0]
    return f"{file.split('/', 2)[-1]}:{line}: {words[:140]}"


def refusal(by, errors):
    """A code mutant is refused by the proof of a function, with these errors."""
    shape = any(SHAPE.search(e[2]) for e in errors)
    return Verdict("refused by shape" if shape else "refused by a fact", by, shown_error(errors))


def verdict_of_code(status, text):
    """What a check of the mutated crate says of a code mutant."""
    if status == 0:
        return Verdict("SURVIVED")
    errors = errors_in(text)
    if status != 1:
        return Verdict("could not tell", error=shown_error(errors))
    if "logic=not-proved" not in text:
        return Verdict("stillborn", error=shown_error(errors))
    function = re.search(r"^fn (\S+): (?:not proved|no proof: expected)", text, re.M)
    return refusal(function.group(1) if function else errors[0][0], errors)


def verdict_of_answers(copy, stage, status, text):
    """What the second reader's cases say of a definition mutant."""
    if status == 0:
        return Verdict("SURVIVED")
    case = copy.case_that_fails(stage, text) if status == 1 else None
    if case is None:
        return Verdict("could not tell", error=shown_error(errors_in(text)))
    return Verdict("refused by the second reader", case.name, case.short())


def verdict_of_definition(status, text, path, stage):
    """What a check says of a definition mutant: of the theorems first, then of the crates above."""
    if status == 0:
        return Verdict("SURVIVED")
    file, line, words = errors_in(text)[0]
    shown = f"{file}:{line}: {words[:140]}"
    if status != 1:
        return Verdict("could not tell", error=shown)
    if file == path or "logic=not-proved" not in text:
        return Verdict("stillborn", error=shown)
    name = re.match(r"`([^`]+)`", words)
    by = f"{file.split('/')[1]}: {name.group(1) if name else file}"
    if stage == "format":
        return Verdict("refused by an example" if file.endswith("Examples.antt") else "refused by a theorem", by, shown)
    return Verdict("refused by code", by, shown)
