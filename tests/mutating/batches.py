"""Code mutants tried together: one in each of several functions of a crate, in one check of the crate.

A function's proof speaks of its own body and of the contracts of what it calls, and contracts do not change. So an
error in a function's own proof refuses the mutant in it, whatever the other functions hold. A mutant of which the
check says nothing of this sort is tried alone: its function is still proved, or only calls one that is not."""
import os
import re

from mutating import code, prover

SEARCHED = "`search` did not prove"  # of a function without a proof file: a goal that rattle's own proof leaves open


def crate_of(mutant):
    return mutant.path.split("/")[1]


def names(mutant):
    """The mutant's function as the prover prints it, and the folder of its proof."""
    module = os.path.basename(mutant.path)[:-len(".rt")]
    inside = ([] if module in ("lib", "main") else [module]) + [mutant.place]
    return "::".join([crate_of(mutant)] + inside), "/".join(["crates", crate_of(mutant), "proofs"] + inside) + "/"


def batches(mutants):
    """Batches of one crate each: the first mutant of each function, the second of each, and so on; a constant's alone."""
    found, count = {}, {}
    for m in mutants:
        name = names(m)[0]
        count[name] = count.get(name, 0) + 1
        found.setdefault((crate_of(m), name if m.place.isupper() else "", count[name]), []).append(m)
    return list(found.values())


def texts_with(copy, batch):
    """The files of a batch with all its mutants; the last mutant first, so that lines do not move."""
    new = {path: copy.read(path) for path in {m.path for m in batch}}
    for m in sorted(batch, key=lambda m: -m.first):
        new[m.path] = m.applied(new[m.path])
    return new


def stillborn(batch, new, text):
    """The mutants in whose functions the code is refused before any proof, each with the error."""
    found = {}
    for path, line, words in prover.all_errors(text):
        for f in code.functions(new[path].split("\n")) if path in new else []:
            for m in batch:
                if m.path == path and m.place == f.name and f.first <= int(line) - 1 <= f.last + 1:
                    found.setdefault(m, f"{path.split('/', 2)[-1]}:{line}: {words[:140]}")
    return found


def own_verdict(text, errors, mutant):
    """What a check says of one of its mutants by itself, or None."""
    name, folder = names(mutant)
    own = [e for e in errors if e[0].startswith(folder) and prover.FOLLOWS not in e[2]]
    if own:
        return prover.refusal(name, own)
    said = re.search(rf"^fn {re.escape(name)}: (no proof: .*)$", text, re.M)
    if said and SEARCHED in said.group(1):
        return prover.Verdict("refused by a fact", name, SEARCHED + said.group(1).split(SEARCHED)[1])
    return None


def check(copy, batch, new):
    """What one check says: verdicts of some mutants, and whether it came as far as the proofs."""
    copy.log.write("".join(f"=== {m.shown()}\n" for m in batch))
    crate = crate_of(batch[0])
    status, text = copy.dev(crate, crate)
    if status == 1 and "logic=not-proved" not in text:
        return {m: prover.Verdict("stillborn", error=e) for m, e in stillborn(batch, new, text).items()}, False
    if status not in (0, 1):
        return {}, False
    errors = prover.all_errors(text)
    verdicts = {m: own_verdict(text, errors, m) for m in batch}
    return {m: v for m, v in verdicts.items() if v}, True


def verdicts_together(copy, batch):
    """Verdicts of the mutants of a batch that several checks of them together decide; the others are to be tried alone."""
    if len(batch) < 2:
        return {}
    new = texts_with(copy, batch)
    copy.put_in(new)
    try:
        found, proofs = check(copy, batch, new)
    finally:
        copy.take_out()
    left = [m for m in batch if m not in found]
    if proofs:
        return found
    if found:
        return {**found, **verdicts_together(copy, left)}
    half = len(left) // 2
    return {**verdicts_together(copy, left[:half]), **verdicts_together(copy, left[half:])}
