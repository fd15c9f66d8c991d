"""What a case says of the definitions: one or more equations between what they compute and what the second reader says."""
from answering import terms
from answering.cases import bytes_of

SMALL = 100  # of tokens up to so many bytes more is asked


def of_reading(case, bases):
    asked = {"read": "answer {}", "draft": "as_answer row_count (reading false {})", "finish": "finish {}"}[case.sort]
    return [(asked.format(terms.token(bases, bytes_of(case.words[0]))), terms.answer(*case.says))]


def of_writing(case, bases):
    """The answer of a call on a draft, and what the draft then holds."""
    if case.sort == "start":
        draft = terms.token(bases, bytes_of(case.words[1]))
        call = f"(start {case.words[0]} {draft})"
    else:
        draft = terms.token(bases, bytes_of(case.words[0]))
        kind, fields, _ = terms.part(case.words[1:])
        call = f"(addition {kind} {fields} {draft})"
    number, second, after = case.says
    return [(f"called {call} {draft}", f"{terms.answer(number, second)}, {terms.token(bases, bytes_of(after))}")]


def of_table(case, bases):
    token, room = terms.token(bases, bytes_of(case.words[0])), int(case.words[1])
    table = "(" + terms.numbers(range(1, room + 1)) + ")"
    after = terms.numbers([int(n) for n in case.says[2].split(",") if n])
    return [(f"table_answer {token} {table}", terms.answer(*case.says[:2])), (f"table_after {token} {table}", after)]


def of_view(case, bases):
    bs = bytes_of(case.words[0])
    asked = " ".join([terms.token(bases, bs)] + case.words[1:])
    word, first, second = case.says
    at = word == "at"
    laws = [(f"field_at {asked}", f"{'At' if at else 'Missing'} {first} {second}")]
    if len(bs) <= SMALL:
        there = bs[int(first):int(first) + int(second)] if at else b""
        laws.append((f"view {asked}", terms.numbers(there)))
        laws.append((f"view_answer {asked}", terms.answer("0", "0") if at else terms.answer(first, second)))
    return laws


def of_views(case, bases):
    """The views of a row's fields, laid end to end."""
    token, index, fields = terms.token(bases, bytes_of(case.words[0])), *case.words[1:]
    return [(f"views_from {token} {index} 0 {fields}", terms.numbers(bytes_of(case.says[0])))]


def step(says):
    if says[0] == "row":
        return f"(Record {terms.row(says[1])} {says[2]})"
    return "End" if says[0] == "end" else f"(Stopped {says[1]} {says[2]})"


def of_step(case, bases):
    bs, place = bytes_of(case.words[0]), case.words[1]
    asked = f"step_at {terms.token(bases, bs)} {place}"
    after = case.says[2] if case.says[0] == "row" else place
    return [(asked, step(case.says))] + ([(f"place_after {place} ({asked})", after)] if len(bs) <= SMALL else [])


def of_line(case, bases):
    if case.sort == "first":
        asked = f"first_line {case.words[0]} {case.words[1]} {terms.answer(*case.words[2:])}"
    else:
        asked = f"row_line {case.words[0]} {terms.row(case.words[1])}"
    return [(asked, terms.numbers(bytes_of(case.says[0])))]


def of_form(case, bases):
    """Whether the field has its form, and of characters where the form ends."""
    names = {"date": ["date_exists"], "ruleid": ["rule_id_form", "rule_id_reach"], "label": ["label_form", "label_reach"]}[case.sort]
    says = [terms.truth(case.says[0])] + case.says[1:]
    return [(f"{name} ({terms.numbers(bytes_of(case.words[0]))})", said) for name, said in zip(names, says)]


def of_given(case, bases):
    """The numbers that are given back for an answer, a place or a step."""
    sort, *words = case.words
    if sort == "answer":
        asked, names = terms.answer(*words), ["number_of", "second_of"]
    elif sort == "where":
        asked, names = f"({'At' if words[0] == 'at' else 'Missing'} {words[1]} {words[2]})", ["offset_of", "length_of"]
    else:
        asked = step(words)
        names = ["step_number", "row_answer", "step_second", "row_kind", "row_offset", "row_length", "row_owner", "row_rule", "next_of"]
    return [(f"{name} {asked}", number) for name, number in zip(names, case.says)]


def of_example(case, bases):
    """The bytes of an example of a list, the last of them where it holds for any, and what it says of them."""
    examples, turn, sort, bs = *case.words[:3], bytes_of(case.words[3])
    example = f"(get_or {examples} {turn} (date [] true))"
    laws = [(f"example_bytes {bs[-1] if bs else 0} {example}", terms.numbers(bs))]
    if sort == "date":
        return laws + [(f"example_date {example}", terms.truth(case.says[0]))]
    return laws + [(f"example_answer {example}", terms.answer(*case.says))]


def of_parts(case, bases):
    """A token's written form, rows, count of rules and walk from its parts, and the token built by additions."""
    i, count, *words = case.words
    ps, bs = terms.list_of(terms.parts_of(words)), bytes_of(case.says[0])
    token, rows = terms.token(bases, bs), terms.list_of([terms.row(r) for r in case.says[1:]])
    rules = sum(r.startswith(f"{0x120000},") for r in case.says[1:])
    first, *others = terms.parts_of(words)
    subs = sum(r.split(",")[3] == "0" for r in case.says[1:]) - 1  # the rows that the first one owns, but itself
    started = f"({i} ∷ 0 ∷ 0 ∷ 8 ∷ replicate 4 0 ++ replicate {len(bs) - 8} 7)"
    return [(f"written {i} {ps}", token), (f"rows {ps}", rows), (f"rule_count {ps}", str(rules)), (f"rule_rows {rows}", str(rules)),
            (f"parts_of (sections_of {ps})", ps), (f"sections_end (sections_of {ps})", str(len(bs))),
            (f"length (subs_of ({first}) {terms.list_of(others)})", str(subs)),
            (f"walk {int(count) + 1} {token} 8", rows), (f"walk_place {count} {token} 8", str(len(bs))),
            (f"draft_after (additions {ps} {started}) {started}", token),
            (f"restate 0 {len(bs)} (set (set {token} 2 9) 3 9)", token), (f"joined ({token} ∷ [] ∷ {token} ∷ [])", f"{token} ++ {token}")]
