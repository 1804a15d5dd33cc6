#!/usr/bin/env python3
"""Counts, in the source of every crate, the places that the eight points of docs/DESIGN-PASS.md speak of.

usage: places.py [-v] [FOLDER]     FOLDER: a checkout, this one by default; -v names each place
"""
import collections, pathlib, re, sys

loud = "-v" in sys.argv
rest = [a for a in sys.argv[1:] if a != "-v"]
top = pathlib.Path(rest[0] if rest else pathlib.Path(__file__).parent.parent)
files = {p.relative_to(top / "crates"): p.read_text() for p in sorted(top.glob("crates/*/src/**/*.rt"))}
bare = {p: re.sub(r"//.*", "", s) for p, s in files.items()}


def lines(rx, keep=lambda s: True):
    return [(p, i + 1, l.strip()) for p, s in bare.items() for i, l in enumerate(s.split("\n")) if re.search(rx, l) and keep(l)]


def matches():
    # a `match` whose arms are numbers
    for p, s in bare.items():
        for m in re.finditer(r"match ([^{]*)\{\s*\n\s*\d+ (\||=>)", s):
            yield p, s[: m.start()].count("\n") + 1, "match " + m.group(1).strip()


def functions():
    for p, s in bare.items():
        for m in re.finditer(r"\bfn (\w+)(?:<.*?>)?\(([^{]*?)\)\s*(?:->|\{|\n\s*(?:requires|ensures)|;)", s):
            yield p, s[: m.start()].count("\n") + 1, m.group(1), " ".join(m.group(2).split())


def twins():
    # one name in two library crates, neither of which only hands the call on
    names = collections.defaultdict(list)
    for p, n, f, _ in functions():
        if f not in ("main", "run", "new", "fmt", "from"):
            names[f].append((p, n))
    for f, at in sorted(names.items()):
        if len({p.parts[0] for p, _ in at}) > 1:
            for p, n in at:
                yield p, n, "fn " + f


def together(rx):
    return [(p, n, f"fn {f}({a})"[:110]) for p, n, f, a in functions() if re.search(rx, a)]


points = {
    "1 answers: a case or field for a refusal, a flag beside a value": lines(r"Refused\(u8, usize\)|^\s*(pub )?(ok|failed): bool|^\s*None,$|-> Refusal$|^\s*(pub )?number: u8,$"),
    "1 kinds: a match on numbers": list(matches()),
    "1 refusals by number": lines(r"\bnumber: \d+,?|Refused\(\d+,"),
    "2 twins: one name in two crates": list(twins()),
    "2 twins: flags and numbers that pick a twin": together(r"\b(thirds|lazy): bool|\basked: u8|\bo: u8"),
    "3 loops that count by hand": lines(r"^\s*while "),
    "4 conversions and copies by hand": lines(r"fn (wide|copy|two|digits|letter_of)\b|\b256 \*|[/%] 256\b"),
    "5 table: head, terms and conditions together": together(r"h: Head, ts: &\[u8\], cs: &\[u8\]"),
    "5 terms: rows and their number together": together(r"\bts: &\[u8\], n: usize|\bn: usize, ts: &\[u8\]"),
    "5 page: a buffer and a place in it together": together(r"out: &mut \[u8\], at: usize"),
    "5 clause: the table is well formed, the rows are a tree": lines(r"WellFormed \((table_of|lent_table)|RowsLent ts\.now|After(Rows|Conditions) \((table_of|lent_table)"),
    "6 parallel arrays": together(r"trues: &\[u64|lt: &\[u64"),
    "6 buffers with a length beside": together(r"\bmarks: &\[u8; 256\], n: usize|from: &\[u8\], count: usize|flags: &\[u8; 256\], n: usize|flags: &\[bool; 256\], n: usize"),
    "7 a number picks the rule": lines(r"\basked ==|const (REACHED|HELD|LIVE)|if thirds"),
}
proofs = list(top.glob("crates/*/proofs/**/*.antt"))
for name, at in points.items():
    print(f"{len(at):5}  {name}")
    if loud:
        for p, n, l in at:
            print(f"           {p}:{n}  {l}")
answers = [p for p in proofs if p.name in ("Answers.antt", "Invariants.antt", "Proof.antt")]
print(f"{len(answers):5}  8 proof files of functions, {sum(len(p.read_text().splitlines()) for p in answers)} lines")
print(f"{len(proofs) - len(answers):5}  8 files of laws, {sum(len(p.read_text().splitlines()) for p in proofs if p not in answers)} lines")
