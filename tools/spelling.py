#!/usr/bin/env python3
"""Spells the names that this repository declares in specs/ and proofs/ as Rattle spells them: words in snake case, types in camel case, no middle dot.

usage: python3 tools/spelling.py [--check]      at the top of the repository, once, on what port.py left

A name that is declared here turns wherever it stands as a whole word: in specs/, proofs/, the clauses and imports of src/ and the edits of must-fail/; in comments and in README and docs/ inside backticks.
It stays in a file that imports the same spelling from a library. Where two names would fall together one has a name of its own (SPECIAL); a line 'meets:' says what still does.
Names of functions, types and fields of src/, strings, inputs and outputs stay. The rules of report R (PICK-l, JOIN-t) keep R's names.
"""

import os
import re
import sys

WORD = r'[^\s(){}.;,@"«»`]+'
DECLARED = re.compile(r"(?m)^ *(?:(?:pub|abbrev|unfoldable) +)*(" + WORD + r")(?: \{[^{}\n]*\})* :(?= )")
HEADED = re.compile(r"(?m)^ *(?:(?:pub|unfoldable|abbrev) +)*(?:record|data) +(" + WORD + r")")
USE = re.compile(r"(?m)^ *(?:ghost +)?(?:pub +)?use +([^\s;{]+?)\.?(?:\{([^}]*)\})?(?: +as +([^\s;]+))?;? *$")
RULES = re.compile(r"(PICK|FLOW|JOIN|OUT|ACT|END|NIL)-\w+")
# where the plain spelling is the name of something else: a law of the definition that has it, or a field
SPECIAL = {
    "Holds-in": "HoldsIn",
    "Move-of": "MoveOf",
    "allUnset": "unset_lanes",
    "all_set": "all_set_law",
    "any-unset": "any_unset_law",
    "asked-at": "asked_at_law",
    "bit-and": "bit_and_law",
    "bit-or": "bit_or_law",
    "clear-fit": "clear_fit_holds",
    "condition-at": "condition_at_law",
    "condition-by": "condition_by_law",
    "condition-rows": "condition_rows_law",
    "counts-fit": "counts_fit_holds",
    "enabled-word": "enabled_word_law",
    "fail-at": "fail_at_law",
    "fewLinks": "few_links_rule",
    "finished-word": "finished_word_law",
    "is_false": "value_is_false",
    "is_join": "row_is_join",
    "join-condition": "join_condition_law",
    "join-kind": "join_kind_law",
    "join-noted": "join_noted_law",
    "join-ok": "join_ok_law",
    "join-turn": "join_turn_law",
    "join-value": "join_value_law",
    "kept-condition": "kept_condition_law",
    "kind-by": "kind_by_law",
    "kind-from": "kind_from_law",
    "link-bit": "link_bit_law",
    "links-at": "links_at_law",
    "links-fit": "links_fit_holds",
    "links-in": "links_in_law",
    "listed-rows": "listed_rows_law",
    "listed_in": "listed_in_law",
    "lower_by": "lower_by_law",
    "marks-fit": "marks_fit_holds",
    "mask-by": "mask_by_law",
    "mask_at": "mask_at_law",
    "no-link": "has_no_link",
    "one-source": "one_source_law",
    "own-link": "own_link_law",
    "own-sets": "own_sets_law",
    "reaches-row": "reaches_row_law",
    "row-by": "row_by_law",
    "row-kind": "row_kind_law",
    "seen-in": "seen_in_law",
    "set-one": "set_one_law",
    "sets-at": "sets_at_law",
    "sheet-made": "sheet_made_law",
    "sheet-read": "sheet_read_law",
    "sheet-shown": "sheet_shown_law",
    "source-noted": "source_noted_law",
    "state-checks": "state_checks_law",
    "state-made": "state_made_law",
    "step-refused": "step_refused_law",
    "stepped_by": "stepped_by_law",
    "steps-from": "steps_from_law",
    "table-made": "table_made_law",
    "table-shown": "table_shown_law",
    "top-by": "top_by_law",
    "turn_by": "turn_by_law",
    "two_bytes": "two_bytes_law",
    "value-by": "value_by_law",
    "waiting-by": "waiting_by_law",
    "waiting-from": "waiting_from_law",
    "waiting-in": "waiting_in_law",
    "waiting-rows": "waiting_rows_law",
    "waiting-word": "waiting_word_law",
    "waits-fit": "waits_fit_holds",
}


def in_snake_case(name):
    """lowerCamel and kebab-case in snake case; 'Valid·run' is 'valid_run'."""
    if name in SPECIAL:
        return SPECIAL[name]
    if RULES.fullmatch(name):
        return name
    if "·" in name:
        head, rest = name.split("·", 1)
        name = head[:1].lower() + head[1:] + "_" + rest
    elif not (name[0].islower()):
        return name
    name = re.sub(r"(?<=[a-z0-9])[A-Z]", lambda m: "_" + m[0].lower(), name)
    return re.sub(r"(?<=\w)-(?=\w)", "_", name).replace("·", "_")


def files(*ends):
    for top in ("crates",):
        for folder, dirs, names in os.walk(top):
            dirs[:] = sorted(d for d in dirs if d not in ("out", "data"))
            for n in sorted(names):
                if n.endswith(ends):
                    yield os.path.join(folder, n)


def read(path):
    with open(path, encoding="utf-8") as f:
        return f.read()


def is_function_proof(path):
    """proofs/F/Proof.antt, whose labels Rattle makes."""
    parts = path.split(os.sep)
    return "proofs" in parts and parts.index("proofs") < len(parts) - 2


def own(module, crates):
    steps = module.split(".")
    return steps[0] == "Rattle" and len(steps) > 1 and steps[1] in crates


def foreign(text, crates):
    """The names that a file imports from a library."""
    found = set()
    for m in USE.finditer(text):
        if own(m[1], crates):
            continue
        for it in (m[2] or "").split(","):
            for word in it.split(" as "):
                found.add(word.strip())
        if not m[2]:
            found.add((m[3] or m[1].split(".")[-1]).strip())
    return found


def code_words(text):
    """The words of a file outside comments and strings."""
    text = re.sub(r"(?m)(^|\s)(--|//).*$", " ", text)
    text = re.sub(r'"(?:[^"\\\n]|\\.)*"', " ", text)
    return set(re.findall(WORD, text))


def turned(text, table, kept, fields, labels, line_comment):
    """The text with each word of the table turned; in a comment only inside backticks."""

    def words(part):
        def one(m):
            w = m[0]
            if w in kept or w not in table:
                return w
            dotted = m.start() > 0 and part[m.start() - 1] == "."
            if dotted and w not in fields and (labels or "-" not in w and w.islower()):
                return w
            return table[w]

        return re.sub(WORD, one, part)

    out = []
    for line in text.split("\n"):
        m = re.search(r"(^|(?<=\s))" + re.escape(line_comment), line)
        code, comment = (line[: m.start()], line[m.start() :]) if m else (line, "")
        pieces = re.split(r'("(?:[^"\\]|\\.)*")', code)
        code = "".join(p if i % 2 else words(p) for i, p in enumerate(pieces))
        comment = re.sub(r"`[^`]*`", lambda s: words(s[0]), comment)
        comment = re.sub(r"(?<![\w`-])[a-z]+[A-Z]\w*(?![\w`])", lambda s: table.get(s[0], s[0]), comment)
        out.append(code + comment)
    return "\n".join(out)


def main():
    check = "--check" in sys.argv[1:]
    crates = set(os.listdir("crates"))
    lemmas = [p for p in files(".antt") if not is_function_proof(p)]
    declared, fields = set(), set()
    for p in lemmas:
        text = read(p)
        for m in DECLARED.finditer(text):
            declared.add(m[1])
        for m in HEADED.finditer(text):
            declared.add(m[1])
        for block in re.split(r"(?m)^(?=\S)", text):
            if re.match(r"(?:pub )?record ", block):
                fields |= {m[1] for m in DECLARED.finditer(block)}
    table = {n: in_snake_case(n) for n in declared if in_snake_case(n) != n}
    # names that fall together
    for p in lemmas:
        text = read(p)
        here = code_words(text)
        for w in sorted(here & set(table)):
            if table[w] in here and table[w] not in table:
                print(f"meets: {w} -> {table[w]}: {p}")
    back = {}
    for old in sorted(declared):
        new = table.get(old, old)
        if new in back:
            print(f"meets: {old} and {back[new]} -> {new}")
        back[new] = old
    count = 0
    for p in files(".antt", ".rt", ".edit"):
        text = read(p)
        kept = foreign(text, crates) if not p.endswith(".edit") else set()
        comment = "//" if p.endswith(".rt") else "--" if p.endswith(".antt") else "#"
        if p.endswith(".edit"):
            new = "\n".join(l if l.startswith("#") or l.startswith("file:") else turned(l, table, kept, fields, False, "//" if "src/" in text else "--") for l in text.split("\n"))
        else:
            new = turned(text, table, kept, fields, is_function_proof(p), comment)
        if new != text:
            count += 1
            if not check:
                with open(p, "w", encoding="utf-8") as f:
                    f.write(new)
    names = set(table.values()) | declared
    for p in ["README.md"] + [os.path.join(d, n) for d, _, ns in os.walk("docs") for n in ns if n.endswith(".md")]:
        text = read(p)

        def span(m):
            def one(w):
                t = w[0]
                if t in table:
                    return table[t]
                s = in_snake_case(t)
                return s if s != t and t not in names and s in names else t

            return re.sub(r"[^\s(){}.;,@\"«»`/]+", one, m[0])

        new = re.sub(r"`[^`\n]*`", span, text)
        if new != text:
            count += 1
            if not check:
                with open(p, "w", encoding="utf-8") as f:
                    f.write(new)
    print(f"{len(table)} names, {count} files")


if __name__ == "__main__":
    main()
