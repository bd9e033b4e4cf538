#!/usr/bin/env python3
"""Brings the definitions and lemmas of this repository to today's spelling, once, right after turn.py: run it at the top.

usage: names.py [--list]      --list prints the table of old and new names, and changes nothing

Words, lemmas, fields and constructors are in snake case. A dash stays between the names of two functions, as in `length-table`. The mark of a prime is
an apostrophe (port.py did that). Functions, fields and constants of src/, goals of proofs (their names are Rattle's), types and modules keep their names.
A new name never falls together with another one: where it would, TABLE says what is written.
"""
import collections
import os
import re
import sys

DECLARED = re.compile(r"^\s*(?:(?:pub|unfoldable|abbrev|ruleset)\s+)*([^\s(){};,.:\"|]+)\s*:(?:\s|$)")
HEADED = re.compile(r"^\s*(?:(?:pub|unfoldable|abbrev)\s+)*(?:ruleset)\s+([^\s(){};,.:\"|]+)")
TOKEN = re.compile(r"[^\s(){}\[\];,.:\"|«»`∷≡→×λ]+")
FUNCTIONS = set(
    "length take drop set get_or append map flatten replicate reverse zip xor and or add suc zero mul sub div mod pow shl shr sum nil cons snoc min max lt le eq".split()
)
# By hand: the spelling where the rule's own would fall together with another name, or be no name.
TABLE = {"header_of": "header_of_lem", "bit-and": "bit-and", "bit-or": "bit-or", "bit-xor": "bit-xor"}


def files():
    for folder, dirs, names in os.walk("crates"):
        dirs[:] = sorted(d for d in dirs if d != "out")
        for n in sorted(names):
            if n.endswith((".antt", ".rt", ".edit")):
                yield os.path.join(folder, n)


def read(path):
    with open(path, encoding="utf-8") as f:
        return f.read()


def snake(part):
    part = part.replace("getD", "get_or")
    out = ""
    for i, ch in enumerate(part):
        if ch.isupper() and ch.isascii() and i and part[i - 1] not in "_-":
            if not (part[i - 1].isupper() and (i + 1 == len(part) or not part[i + 1].islower())):
                out += "_"
        out += ch.lower() if ch.isascii() else ch
    return out


def lead_is_lower(name):
    return bool(re.match(r"[a-z]", name))


def spelled(name, functions):
    """Today's spelling: parts in snake case, a dash only between two functions' names. A type among the parts keeps its capital."""
    parts = [p if re.match(r"[A-Z]", p) else snake(p) for p in name.split("-")]
    # what is said of a function of src/ has that function's name in it
    if parts[-1] == "spec" or parts[-2:] == ["one", "outcome"]:
        return "_".join(parts)
    out = parts[0]
    for a, b in zip(parts, parts[1:]):
        both = (a in functions or re.match(r"[A-Z]", a)) and (b in functions or re.match(r"[A-Z]", b))
        out += ("-" if both else "_") + b
    return out


def goals_of(text):
    """The names of a Proof.antt that are Rattle's: what its own module `tie` asks for."""
    return set(re.findall(r"(?m)^(?:abbrev )?(\S+) : tie\.", text))


def only_called(name, text, path):
    """Whether a .rt or .edit file has the name only as a function of src/, which an import of a word does not hide."""
    if path.endswith(".antt"):
        return False
    return not re.search(rf"(?<![\w:.]){name}\b(?!\s*\(|::|\s*\}})", text)


def table():
    declared, foreign, tokens = collections.defaultdict(set), set(), set()
    texts = {p: read(p) for p in files()}
    sources = set()
    for p, t in texts.items():
        tokens.update(TOKEN.findall(t))
        if p.endswith(".rt"):
            sources.update(re.findall(r"\b(?:fn|const|static|mod)\s+(\w+)", t))
            continue
        if not p.endswith(".antt"):
            continue
        own = goals_of(t) if p.endswith("Proof.antt") else set()
        for line in t.split("\n"):
            if line.strip().startswith("--"):
                continue
            m = DECLARED.match(line) or HEADED.match(line)
            if m and m[1] not in own:
                declared[m[1]].add(p)
        for m in re.finditer(r"(?m)^\s*use ([\w.'◌-]+)\.\{([^}]*)\}", t):
            if not re.match(r"Rattle\.(\w+)\b", m[1]) or m[1].split(".")[1] in ("std", "core"):
                foreign.update(x.split(" as ")[0].strip() for x in m[2].split(","))
    functions = set(FUNCTIONS)
    for n, at in declared.items():
        if any("/specs/" in p for p in at) and lead_is_lower(n) and "-" not in n:
            functions.add(snake(n))
    # a name behind a dot is a field or a part of a path
    inside = {p: {m[0] for m in TOKEN.finditer(t) if t[m.start() - 1 : m.start()] != "."} for p, t in texts.items()}
    named, clash = {}, []
    # definitions first: a lemma that would have its function's name gets _lem
    for n in sorted(declared, key=lambda n: ("-" in n, n)):
        if not lead_is_lower(n) or n in foreign or "◌" in n:
            continue
        new = TABLE.get(n) or spelled(n, functions)
        if new == n:
            continue
        # no other name may stand under the new one: not another declaration, not the library's, not a parameter or a variable of a file that has the old one
        bad = [p for p in inside if n in inside[p] and new in inside[p] and not only_called(new, texts[p], p)]
        taken = (new in declared and new not in TABLE) or new in foreign or new in named.values()
        if (bad or taken) and n not in TABLE:
            if "-" in n:
                new += "_lem"
            if new in declared or new in foreign or new in named.values() or "-" not in n:
                clash.append((n, new, *(bad[:3] or ["declared" if new in declared else "foreign" if new in foreign else "twice"])))
        named[n] = new
    return named, clash, texts


def turned(text, named, kept):
    out, last = [], 0
    for m in TOKEN.finditer(text):
        t = m[0]
        if t in named and t not in kept:
            if text[m.start() - 1 : m.start()] == "." and "-" in t:
                # after a dot stands a field, or a name by its path: a name with a dash there is a step of Rattle's
                if not re.search(r"(?:Rattle\.[\w.'-]*)\.$", text[max(0, m.start() - 200) : m.start()].split()[-1] if text[max(0, m.start() - 200) : m.start()].split() else ""):
                    continue
            out.append(text[last : m.start()])
            out.append(named[t])
            last = m.end()
    out.append(text[last:])
    return "".join(out)


def main():
    named, clash, texts = table()
    if "--list" in sys.argv[1:]:
        for a, b in sorted(named.items()):
            print(f"{a}\t{b}")
        for it in clash:
            print("falls together:", *it, file=sys.stderr)
        return
    for p, t in texts.items():
        kept = goals_of(t) if p.endswith("Proof.antt") else set()
        new = turned(t, named, kept)
        if new != t:
            with open(p, "w", encoding="utf-8") as f:
                f.write(new)
    # pages name theorems and definitions between backticks, also those that port.py has turned
    now = set()
    for p in files():
        if p.endswith(".antt"):
            now.update(m[1] for m in map(DECLARED.match, read(p).split("\n")) if m)

    def page(it):
        text = turned(it[0], named, set())
        return TOKEN.sub(lambda m: m[0] if m[0] in now or snake(m[0]).replace("-", "_") not in now else snake(m[0]).replace("-", "_"), text)

    for p in ["README.md", *(os.path.join("docs", n) for n in sorted(os.listdir("docs")) if n.endswith(".md"))]:
        t = read(p)
        new = re.sub(r"`[^`\n]+`", page, t)
        if new != t:
            with open(p, "w", encoding="utf-8") as f:
                f.write(new)
    with open("tools/port/names.tsv", "w", encoding="utf-8") as f:
        f.writelines(f"{a}\t{b}\n" for a, b in sorted(named.items()))


main()
