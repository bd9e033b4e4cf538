#!/usr/bin/env python3
"""Turns the old Proof.antt files into Invariants.antt and Answers.antt, once: answers.py NAMES CRATE.., at the top of the repository.

NAMES is the folder that `rt names NAMES` wrote with today's kit. An old proof walks the code by hand: a goal takes the record `c` of its place, and `.before`
leads to the place before. Today each step is a field of `c`, so `c.before.before.STEP` is `c.NEW`, with NEW from NAMES. Goals whose answer was only
`search rules` are left to the check. What this script cannot turn it names on a line `look:`.
"""
import json
import os
import re
import sys

TOK = re.compile(r"[^\s(){}\[\];,.:\"|«»`]+")


def norm(s):
    return re.sub(r"-lem$", "", s.replace("_", "-").lower())


def blocks_of(text):
    """Top-level blocks: lists of lines that begin at column 0 with something else than a comment or `use`."""
    uses, blocks, head, cur = [], [], [], None
    pending = []
    for line in text.split("\n"):
        if line.startswith("use "):
            uses.append(line)
            continue
        if not line.strip():
            if cur is not None:
                cur.append(line)
            continue
        if line.startswith("--"):
            if not uses and cur is None:
                head.append(line)
            else:
                pending.append(line)
                cur = None
            continue
        if line[0].isspace():
            cur.append(line)
            continue
        # column 0: a new block, or a further line of the one whose name it begins with
        name = TOK.match(re.sub(r"^(pub |abbrev |unfoldable |ruleset )*", "", line))
        name = name[0] if name else ""
        if cur is not None and (line.startswith("unfolding ") or name == cur_name):
            cur.append(line)
        else:
            cur = pending + [line]
            pending = []
            cur_name = name
            blocks.append((name, cur))
    return head, uses, [(n, "\n".join(b).rstrip("\n")) for n, b in blocks]


def split_top(s, sep=","):
    out, depth, last = [], 0, 0
    for i, ch in enumerate(s):
        if ch in "([{":
            depth += 1
        elif ch in ")]}":
            depth -= 1
        elif ch == sep and depth == 0:
            out.append(s[last:i])
            last = i + 1
    out.append(s[last:])
    return [x for x in out if x.strip()]


def matching(s, i):
    depth = 0
    for j in range(i, len(s)):
        if s[j] in "([{":
            depth += 1
        elif s[j] in ")]}":
            depth -= 1
            if depth == 0:
                return j
    return -1


class Fn:
    def __init__(self, names, say):
        self.n, self.say = names, say
        self.by_place = {p[0]: i for i, p in enumerate(names["places"])}

    def chain(self, place):
        i = self.by_place.get(place)
        out = []
        while i is not None:
            out.append(i)
            parent = self.n["places"][i][1]
            i = self.by_place.get(parent) if parent else None
        return out

    def step(self, place, old):
        """The index of the ancestor place whose step has this old name."""
        want = norm(old)
        for i in self.chain(place):
            if norm(self.n["places"][i][2][0]) == want:
                return i
        cand = [i for i, p in enumerate(self.n["places"]) if norm(p[2][0]) == want or norm(p[2][1]) == want]
        return cand[0] if cand else None

    def loop_args(self, old):
        for k, ((o, new), vs) in enumerate(self.n["loops"]):
            if norm(o) == norm(old):
                return new, vs, self.n["changed"][k]
        return None


FIELD_SRC = lambda s: s.replace("-", "_")


def fields(fn, i, rest):
    """The fields after a step: positions become names."""
    if not rest:
        return ""
    place = fn.n["places"][i]
    callee, parts = place[3], rest[1:].split(".")
    if parts[0] in ("new", "auto") and callee:
        params = fn.n["params"].get(callee)
        k, j = 0, 1
        while j < len(parts) and parts[j] == "1":
            k, j = k + 1, j + 1
        if params and j < len(parts) and parts[j] == "0" and k < len(params):
            tail = parts[j + 1 :]
            return "." + parts[0] + "." + params[k] + "".join("." + FIELD_SRC(x) for x in tail)
        fn.say(f"{place[2][1]}{rest}")
        return rest
    if parts[0] == "ensures":
        cl = fn.n["clauses"][i]
        if cl and cl.get("fields") and len(parts) > 1 and parts[1].isdigit():
            names, j, k = cl["fields"], 1, 0
            # right-nested pairs
            while j < len(parts):
                if parts[j] == "0" or k == len(names) - 2 and parts[j] == "1":
                    k = k if parts[j] == "0" else k + 1
                    return ".ensures." + names[k] + "".join("." + x for x in parts[j + 1 :])
                if parts[j] == "1":
                    k, j = k + 1, j + 1
                    continue
                break
            fn.say(f"{place[2][1]}{rest}")
            return rest
        return rest
    if place[2][0] == "loop" or place[0].startswith("At-"):
        return "." + FIELD_SRC(parts[0]) + "".join("." + x for x in parts[1:])
    return rest


PATH = r"(?<![\w.'₀-]){v}((?:\.[^\s(){{}}\[\];,.:\"|«»`]+)+|(?![\w'₀-]))"


def turn_body(fn, place, body, var):
    """Rewrites the paths from c and from the names that stand for a record of an earlier place or for a step."""
    aliases = {var: ("c", None)}
    # names bound by let to `c.before..` or to a step
    changed = True
    lets = re.compile(r"\blet ([^\s(){}\[\];,.:]+) = ([^\s(){}\[\];,:]+) in\b[ ]?")
    dropped = []
    pos = 0
    out = body
    # collect
    for m in lets.finditer(body):
        name, rhs = m[1], m[2]
        root, _, tail = rhs.partition(".")
        if root not in aliases:
            continue
        kind, at = aliases[root]
        tail = "." + tail if tail else ""
        if kind == "c":
            t = re.sub(r"^(\.before)+", "", tail)
            if t == "":
                aliases[name] = ("c", None)
                dropped.append(m[0])
            else:
                parts = t[1:].split(".")
                if len(parts) == 1 and parts[0] not in ("args", "requires", "ranges", "lifetimes", "type_inv"):
                    i = fn.step(place, parts[0])
                    if i is not None:
                        aliases[name] = ("step", i)
    for d in dropped:
        out = out.replace(d, "")

    def path(m):
        root, tail = m[1], m[2] or ""
        kind, at = aliases[root]
        if kind == "step":
            return root + fields(fn, at, tail)
        t = re.sub(r"^(\.before)+", "", tail)
        if t == "":
            if root != var or tail:
                fn.say(f"bare {root}{tail}")
            return var
        parts = t[1:].split(".")
        h = parts[0]
        if h in ("args", "ranges"):
            return "c." + h + "".join("." + FIELD_SRC(x) for x in parts[1:])
        if h in ("requires", "lifetimes", "type_inv"):
            return "c." + ".".join(parts)
        if h.endswith("known") or re.search(r"known\d*$", h):
            i = fn.step(place, h)
            if i is not None:
                step = fn.n["places"][i][2][0]
                for v, s in fn.n["typed"][fn.by_place[place]] or []:
                    if s == step:
                        return "c.type_inv." + v
                for row in fn.n["typed"]:
                    for v, s in row:
                        if s == step:
                            return "c.type_inv." + v
            fn.say(f"known {h}")
            return "c" + t
        i = fn.step(place, h)
        if i is None:
            fn.say(f"no step {h}")
            return "c" + t
        rest = t[1 + len(h) :]
        return "c." + fn.n["places"][i][2][1] + fields(fn, i, rest)

    rx = re.compile(r"(?<![^\s(){}\[\];,:\"|«»`←¬])(" + "|".join(sorted(map(re.escape, aliases), key=len, reverse=True)) + r")((?:\.[^\s(){}\[\];,.:\"|«»`]+)+)?(?![^\s(){}\[\];,:\"|«»`])")

    def guard(m):
        # a let that binds the name, or a λ
        before = out[: m.start()]
        if re.search(r"\blet $", before) or re.search(r"λ [^.]*$", before.split("\n")[-1]) and not m[2]:
            return m[0]
        return path(m)

    return rx.sub(guard, out)


def as_record(fn, body, names):
    """The answer of a goal with named clauses: a tuple at the end of the body becomes a record."""
    # the end: after the last top-level ` in `
    s, i, depth = body, 0, 0
    last = 0
    for m in re.finditer(r"[()\[\]{}]|\bin\b", s):
        if m[0] in "([{":
            depth += 1
        elif m[0] in ")]}":
            depth -= 1
        elif depth == 0:
            last = m.end()
    head, tail = s[:last], s[last:].strip()

    def pieces(t, k):
        t = t.strip()
        if t.startswith("(") and matching(t, 0) == len(t) - 1:
            parts = split_top(t[1:-1])
            if len(parts) == k:
                return parts
            if len(parts) == 2 and k > 2:
                more = pieces(parts[1], k - 1)
                return [parts[0], *more] if more else None
        return None

    got = pieces(tail, len(names))
    if got:
        return head + " record { " + "; ".join(f"{n} = {p.strip()}" for n, p in zip(names, got)) + " }"
    if re.match(r"^(search|omega|grind|cc|assumption)\b", tail):
        return None if tail == "search rules" and not head.strip() else head + " " + tail
    path = lambda k: "".join(".1" for _ in range(k)) + (".0" if k < len(names) - 1 else "")
    return head + f" let done = {tail} in record {{ " + "; ".join(f"{n} = done{path(k)}" for k, n in enumerate(names)) + " }"


def convert(crate, folder, names, say):
    at = os.path.join(folder, "Proof.antt")
    with open(at, encoding="utf-8") as f:
        text = f.read()
    head, uses, blocks = blocks_of(text)
    module = os.path.relpath(folder, f"crates/{crate}/proofs").replace(os.sep, ".")
    fn = Fn(names, say)
    uses = [u for u in uses if ".Tie as " not in u and ".Statement." not in u]
    needs = {}
    for k, (o, new) in enumerate(names["needs"]):
        needs.setdefault(norm(o), (k, new))
    rename = {"loop-holds": "loop-init", "loop-less": "loop-smaller", "loop-again": "loop-preserved"}
    inv, ans, helpers = [], [], []
    for name, b in blocks:
        m = re.search(r"(?m)^(?:pub |abbrev )*(\S+)\s*:\s*tie\.(\S+)", b)
        if re.search(r"\btie\.close\b", b):
            continue
        if not m:
            helpers.append(b)
            continue
        sig = re.search(r"(?m)^(?:pub |abbrev )*\S+\s*:\s*tie\.[^\n]*(?:\n[ ]+[^\n]*)*?(?=\n(?:unfolding |\S+ )|\Z)", b)
        comments = [l for l in b.split("\n") if l.startswith("--")]
        unf = [l for l in b.split("\n") if l.startswith("unfolding ")]
        eq = re.search(rf"(?ms)^{re.escape(m[1])} ([^=\n:]*)=(.*)\Z", b)
        if not eq:
            eq = re.search(rf"(?ms)^{re.escape(m[1])} ([^=\n:]*?)\s=(.*)\Z", b)
        if not eq:
            say(f"{at}: no equation for {m[1]}")
            continue
        args, body = eq[1].split(), eq[2]
        if m[2].startswith(("invariant", "decreases")):
            kind, old = m[2].split("-", 1)
            got = fn.loop_args(old)
            if not got:
                say(f"{at}: no loop {old}")
                continue
            new, vs, ch = got
            subst = {}
            if len(args) == len(vs) + sum(ch):
                for a, v, c in zip(args, vs, ch):
                    subst[a] = f"l.initial.{v}" if c else f"l.{v}"
                for a, v in zip(args[len(vs) :], [v for v, c in zip(vs, ch) if c]):
                    subst[a] = f"l.{v}"
            else:
                say(f"{at}: {m[1]}: {len(args)} arguments for {list(zip(vs, ch))}")
                for a in args:
                    v = FIELD_SRC(a.rstrip("₀"))
                    subst[a] = f"l.initial.{v}" if a.endswith("₀") else f"l.{v}"

            def put(t):
                before = body[: t.start()]
                if t[0] in subst and not before.endswith("."):
                    return subst[t[0]]
                return t[0]

            new_body = TOK.sub(put, body)
            inv.append("\n".join([*comments, f"abbrev pub {kind}-{new} : goal.{kind}-{new}", *unf, f"{kind}-{new} l ={new_body}"]))
            continue
        key = norm(rename.get(m[1], m[1]))
        if m[1].startswith("loop") and key not in needs:
            key = re.sub(r"^(loop\d*)-(holds|less|again)$", lambda q: q[1] + "-" + {"holds": "init", "less": "smaller", "again": "preserved"}[q[2]], norm(m[1]))
        got = needs.get(key)
        plain = re.sub(r"\s+", " ", body).strip()
        if plain == "search rules" and not unf:
            continue
        if not got:
            if not key.startswith("same-length"):
                say(f"{at}: no goal {m[1]} ({key}) among {[x[1] for x in names['needs']]}")
                ans.append("-- look: no such goal\n" + b)
            continue
        k, new = got
        if new.startswith("shape_of-"):
            continue
        if new in names.get("settled", []):
            continue
        place = names["asked_at"][k][0]
        var = args[0] if args else "c"
        if len(args) > 2 or (len(args) == 2 and re.search(rf"(?<![\w.]){args[1]}(?![\w'])", body)):
            say(f"{at}: {m[1]}: arguments {args}")
        body2 = turn_body(fn, place, body, var)
        asked = names["asked"].get(key) or names["asked"].get(names["needs"][k][0])
        if asked:
            r = as_record(fn, body2, asked)
            if r is None:
                continue
            body2 = r
        body2 = re.sub(r"\n[ ]+(?=\n)", "", body2)
        ans.append("\n".join([*comments, f"pub {new} : goal.{new}", *unf, f"{new} {var} ={body2}"]))
    os.remove(at)
    told = "\n".join(head)

    def write(name, given, parts):
        if not parts:
            return
        with open(os.path.join(folder, name), "w", encoding="utf-8") as f:
            f.write((told + "\n" if told else "") + "\n".join(uses) + f"\nuse Rattle.{crate}.proofs.{module}.{given} as goal\n\n" + "\n\n".join(parts) + "\n")

    write("Invariants.antt", "Given", inv)
    if ans:
        write("Answers.antt", "Goals", helpers + ans)
    elif helpers:
        say(f"{at}: helpers with no answer: {len(helpers)}")
    if not os.listdir(folder):
        os.rmdir(folder)


def main():
    top, crates = sys.argv[1], sys.argv[2:]
    for crate in crates:
        with open(f"{top}/crates/{crate}/names.json", encoding="utf-8") as f:
            names = json.load(f)
        for folder, dirs, found in list(os.walk(f"crates/{crate}/proofs")):
            if "Proof.antt" not in found:
                continue
            module = os.path.relpath(folder, f"crates/{crate}/proofs").replace(os.sep, ".")
            it = names.get(f"Rattle-{crate}-proofs.{module}.Lts")
            if not it:
                print(f"look: {folder}: no names", flush=True)
                continue
            try:
                convert(crate, folder, it, lambda s: print(f"look: {folder}: {s}", flush=True))
            except Exception as why:
                print(f"look: {folder}: FAILED {why!r}", flush=True)


main()
