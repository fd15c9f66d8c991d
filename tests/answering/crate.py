"""The crate `answers`: laws of some cases each, over the definitions of `format` without its proofs."""
import os
import re
import shutil

from answering import laws, terms

OF_MODULE = 10  # laws in one module
OF_LAW = 20  # cases in one law: quicker than a law for each
# The files of definitions that a sort of case needs, and what else it names of them.
READING = {"Bytes": "", "Forms": "", "Reading": "row_count Outcome"}
KINDS = ("Part public_key rule transport_variant transport_rule export_parameters source_rule token_parameters name information protection "
         "dates application_data")
FIELDS = "write_answer draft_after public_key_fields rule_fields export_fields information_fields date_fields"
WRITING = {**READING, "Parts": KINDS, "Writer": FIELDS}
PARTS = {**WRITING, "Parts": KINDS + " written", "Reading": "parts_of row_count", "Rules": "sections_of", "Legal": "rule_count joined", "Table": "rows",
         "Views": "", "Claims": "rule_rows subs_of sections_end walk walk_place restate"}
SORTS = {"read": (laws.of_reading, READING), "draft": (laws.of_reading, READING), "finish": (laws.of_reading, WRITING),
         "start": (laws.of_writing, WRITING), "add": (laws.of_writing, WRITING), "table": (laws.of_table, {**READING, "Table": ""}),
         "view": (laws.of_view, {**READING, "Views": ""}), "views": (laws.of_views, {**READING, "Views": "", "Claims": "views_from"}),
         "step": (laws.of_step, {**READING, "Views": "place_after"}),
         "first": (laws.of_line, {"Lines": ""}), "line": (laws.of_line, {"Lines": ""}), "date": (laws.of_form, {"Bytes": "", "Forms": ""}),
         "ruleid": (laws.of_form, {"Forms": ""}), "label": (laws.of_form, {"Forms": ""}), "given": (laws.of_given, {"GivenNumbers": ""}),
         "example": (laws.of_example, {"Examples": "starred Example read read_any date", "DateExamples": "dates_read"}), "parts": (laws.of_parts, PARTS)}
HEAD = """use Rattle.std.specs.Prelude.{◌≡◌, refl, Bool, true, false, List, [], ◌∷◌, ◌++◌, ℕ, replicate, set, take, get_or, length}
use Rattle.format.specs.declared.Row.{Row}
use Rattle.format.specs.Answers.{Answer, Accepted, Refused, Where, At, Missing, Step, Record, End, Stopped}
"""
# The crate's code: none.
SOURCE = "#![tactic(auto)]\n\npub fn nothing() {}\n"
FAILED = re.compile(r"error: `(\w+-\d+(?:-to-\d+)?)`: (.*\n(?:  .*\n)*)")
# What comes of a call on a draft: the answer and what the draft then holds.
CALLED = """
abbrev called : Outcome (List ℕ) → List ℕ → Answer × List ℕ
called o d = (write_answer o, draft_after o d)
"""
# What an example shows, whichever sort of example it is.
EXAMPLES = """
abbrev example_bytes : ℕ → Example → List ℕ
example_bytes b (read bs a) = bs
example_bytes b (read_any f a) = f b
example_bytes b (date d t) = d

abbrev example_answer : Example → Answer
example_answer (read bs a) = a
example_answer (read_any f a) = a
example_answer (date d t) = Accepted 0

abbrev example_date : Example → Bool
example_date (read bs a) = true
example_date (read_any f a) = true
example_date (date d t) = t
"""


def unfoldable(specs, name):
    """The definitions of a file that compute only where they are named."""
    with open(os.path.join(specs, name + ".antt")) as f:
        return re.findall(r"^unfoldable pub (\S+) :", f.read(), re.M)


def groups(cases, size):
    """The cases in groups of this size at most, in each group cases of one shape: like equations may stand in one law."""
    found = []
    for case in cases:
        if found and len(found[-1]) < size and found[-1][0].shape == case.shape:
            found[-1].append(case)
        else:
            found.append([case])
    return found


def law(group):
    """A group as a law: its name, what it claims, equation by equation of all its cases, and its proof."""
    claims = []
    for same in zip(*(case.equations for case in group)):
        left, right = (" ∷ ".join([f"({side})" for side in sides] + ["[]"]) for sides in zip(*same))
        claims.append(f"({left} ≡ {right})")
    proof = ["refl"] * len(claims)
    name = group_name(group)
    return f"{name} : {' × '.join(claims)}", f"{name} = " + (f"({', '.join(proof)})" if len(proof) > 1 else "refl")


def group_name(group):
    """The name of the first case, and of the last where there are more."""
    return group[0].name + (f"-to-{group[-1].name.split('-')[1]}" if len(group) > 1 else "")


def module(sort, some_groups, bases, specs):
    """The text of a module with these groups of one sort."""
    needs = SORTS[sort][1]
    hidden = [name for file in needs for name in unfoldable(specs, file)]
    text = HEAD + "use Rattle.answers.proofs.Bases.{" + ", ".join(bases) + "}\n"
    for file, words in needs.items():
        names = unfoldable(specs, file) + words.split()
        text += f"use Rattle.format.specs.{file}.{{{', '.join(names)}}}\n" if names else ""
    text += {"example": EXAMPLES, "start": CALLED, "add": CALLED}.get(sort, "")
    unfolding = f"unfolding {' '.join(hidden)}\n" if hidden else ""
    for claim, proof in map(law, some_groups):
        text += f"\n{claim}\n{unfolding}{proof}\n"
    return text


def bases_module(bases):
    """The tokens that others are told by."""
    text = "use Rattle.std.specs.Prelude.{List, [], ◌∷◌, ◌++◌, ℕ, replicate}\n"
    for name, bs in bases.items():
        text += f"\nabbrev pub {name} : List ℕ\n{name} = {terms.numbers(bs)}\n"
    return text


def modules(bases, cases, size, specs):
    """The modules by name, and the cases of each law by its name."""
    found, by_law = {"Bases": bases_module(bases)}, {}
    for case in cases:
        case.equations = SORTS[case.sort][0](case, bases)
        case.shape = (len(case.equations), case.words[2] if case.sort == "example" else "")
    for sort in SORTS:
        of_sort = groups([c for c in cases if c.sort == sort], size)
        by_law.update((group_name(g), g) for g in of_sort)
        for i in range(0, len(of_sort), OF_MODULE):
            found[f"{sort.capitalize()}{i // OF_MODULE + 1}"] = module(sort, of_sort[i:i + OF_MODULE], bases, specs)
    return found, by_law


def copy_definitions(folder, format_crate):
    """Copies `format` without its proofs beside the crate."""
    for part in ("src", "specs"):
        copy = os.path.join(folder, "crates", "format", part)
        shutil.rmtree(copy, ignore_errors=True)
        shutil.copytree(os.path.join(format_crate, part), copy)


def write_crate(folder, format_crate, bases, cases, size=OF_LAW):
    """Writes the crate and a copy of `format` without its proofs, and gives the cases of each law by its name."""
    proofs, source = (os.path.join(folder, "crates", "answers", part) for part in ("proofs", "src"))
    for path in (proofs, source):
        shutil.rmtree(path, ignore_errors=True)
        os.makedirs(path)
    copy_definitions(folder, format_crate)
    texts = {os.path.join(folder, "crates.txt"): "format:\nanswers: format\n", os.path.join(source, "lib.rt"): SOURCE}
    written, by_law = modules(bases, cases, size, os.path.join(format_crate, "specs"))
    texts[os.path.join(proofs, "Lib.antt")] = "".join(f"pub mod {name}\n" for name in written)
    texts.update((os.path.join(proofs, name + ".antt"), text) for name, text in written.items())
    for path, text in texts.items():
        with open(path, "w") as f:
            f.write(text)
    return by_law


def check_command(folder):
    """The command that checks the crate, and the folder to run it in."""
    return ["rt", "check"], os.path.join(folder, "crates", "answers")


def failed_laws(text, by_law):
    """The laws that do not hold, by what the prover printed, each with its words; not those over a definition that is none."""
    return [(name, words) for name, words in FAILED.findall(text) if name in by_law and "not admitted" not in words]
