#!/usr/bin/env python3
"""tools/design/count.py [FOLDER]: counts the places of each point of docs/DESIGN-PASS.md in the code below FOLDER (this repository, if none is given).

For an older commit: git archive COMMIT | tar -x -C FOLDER. With --list each place is printed.
"""
import collections
import pathlib
import re
import sys

LIST = "--list" in sys.argv
given = [a for a in sys.argv[1:] if not a.startswith("--")]
top = pathlib.Path(given[0] if given else pathlib.Path(__file__).resolve().parents[2])
code = {p: p.read_text() for p in sorted(top.glob("crates/*/src/**/*.rt"))}
proofs = {p: p.read_text() for p in sorted(top.glob("crates/*/proofs/**/*.antt"))}


def line_of(text, at):
    return text.count("\n", 0, at) + 1


def count(name, what, pattern, where=None, files=code, flags=re.M):
    """Prints how often a pattern stands in the files whose path has one of `where`."""
    found = []
    for path, text in files.items():
        crate = path.relative_to(top / "crates").parts[0]
        if where is None or crate in where:
            for m in re.finditer(pattern, text, flags):
                found.append((path, line_of(text, m.start()), m.group(0).strip().split("\n")[0]))
    report(name, what, len(found), found)


def report(name, what, n, found=()):
    print(f"{name:4} {n:5}  {what}")
    if LIST:
        for path, line, text in found:
            print(f"        {path.relative_to(top)}:{line}: {text[:110]}")


def clauses():
    """The conjuncts of all `requires`, each with how many contracts have it."""
    n = collections.Counter()
    for text in code.values():
        for m in re.finditer(r"^ *requires \{ (.*) \}$", text, re.M):
            for part in set(m.group(1).split(" × ")):
                n[part.strip().removeprefix("(").removesuffix(")")] += 1
    return n


count("1a", "constants that number refusals", r"^pub const [A-Z_]+: u8 = \d+;", {"refusals"})
count("1b", "functions that answer such a number", r"fn \w+\([^{}]*?\) -> u8\n", {"refusals", "envelope", "calls", "desk"})
count("1c", "numbers with a value beside them", r"^    pub number: u8")
count("1d", "tests of such a number", r"(!=|==) DONE\b")
count("1e", "places that say 0 or zeros for none", r"^ *//.*(or 0\b|`hidden` is 0|all 0 on refusal|zeros where|0 where it names).*$")
count("2a", "functions that are another one with room lent to it", r"^ *// .*(The same, (with room|and the room)|with room (for|to keep)).*$")
count("2b", "functions that make a byte a number of another type", r"fn wide\(")
count("2c", "functions whose names end in the number in which they differ", r"fn (stage|load|store)\d+\(")
count("2d", "functions that copy or clear one type of number", r"fn (copy|copy_words|clear)\(")
count("3", "loops by `while` or `loop`", r"^ *(while|loop)\b")
count("3+", "loops by `for`", r"^ *('\w+: )?for ")
count("4a", "conversions by `as`", r" as (usize|u64|u32|u16|u8)\b")
count("4b", "comparisons, minima and decimals by hand", r"fn (equal|lesser|put_decimal)\(")
n = clauses()
often = {c: k for c, k in n.items() if k >= 3}
report("5a", "facts that stand in three or more contracts", len(often))
report("5b", "places of these", sum(often.values()))
if LIST:
    for c, k in sorted(often.items(), key=lambda x: -x[1]):
        print(f"        {k:4} {c}")
found = []
for path, text in code.items():
    for m in re.finditer(r"fn (\w+)(<[^(]*>)?\(([^{}]*?)\)( ->|\n)", text):
        k = len([p for p in m.group(3).split(",") if ":" in p or "self" in p])
        if k >= 7:
            found.append((path, line_of(text, m.start()), f"{m.group(1)} {k}"))
report("5c", "functions of seven or more parameters", len(found), found)
count("6a", "parallel arrays", r"^const [A-Z_]+: \[usize; 7\]", {"sets"})
count("6b", "buffers with a count of their bytes beside them", r"\w+: &(mut )?\[u8[^]]*\], (n|count|end): usize", {"report", "sponge", "checking", "lines", "envelope"})
count("7", "loops that change each word by its place", r"^ *words\[k\] = ")
count("7+", "closures", r"\|[a-z_, &()]*\| ")
count("8a", "answers", r"^(pub )?[a-z][^\s:]* c =", files=proofs)
count("8b", "answers that are one tactic with no fact", r"^\S+ c = (search rules|omega arith)$", files=proofs)
count("8c", "lines of proofs", r"\n", files=proofs)
count("", "lines of code", r"\n")
count("", "places that stay, with their reason", r"^ *// Stays: .*$")
