#!/usr/bin/env python3
"""Turns a function's proof from the older form, a Proof.antt that walks the code, to Invariants.antt and Answers.antt.

usage: tools/port/answers.py CRATE NAMES [FUNCTION..]

NAMES is names.json of `rt check --generated FOLDER --old-names`, run in the crate. Answers that say only `search rules` go.
What it can't turn it says, by file.
"""

import json
import os
import re
import sys

CHARS = r"[^\s(){}.;,@\"«»\[\]|⌜⌝:]"
NAME = CHARS + "+"


def norm(n):
    return re.sub(r"(?<=[a-z])-?(\d+)$", r"-\1", n.replace("_", "-"))


def contracts(top):
    """The names of each function's clauses, by crate::path."""
    found = {}
    for crate in os.listdir(os.path.join(top, "crates")):
        src = os.path.join(top, "crates", crate, "src")
        if not os.path.isdir(src):
            continue
        for f in sorted(os.listdir(src)):
            with open(os.path.join(src, f), encoding="utf-8") as it:
                lines = it.read().split("\n")
            owner, name = "", None
            for l in lines:
                m = re.match(r"impl(?:<[^>]*>)? (?:\w+ for )?(\w+)", l)
                if m:
                    owner = m[1] + "::"
                if re.match(r"}", l):
                    owner = ""
                m = re.match(r"\s*(?:pub )?(?:extern \"C\" )?fn (\w+)", l)
                if m:
                    name = f"{crate}::{owner if l.startswith(' ') else ''}{m[1]}"
                    found[name] = {"requires": [], "ensures": []}
                m = re.match(r"\s*(requires|ensures)\*? *(\w*) *\{", l)
                if m and name:
                    found[name][m[1]].append(m[2])
    return found


def blocks(text):
    head, uses, found = [], [], []
    for l in text.split("\n"):
        if l.startswith("use "):
            uses.append(l)
        elif re.match(r"\S", l) and not l.startswith("--"):
            m = re.match(rf"(?:abbrev )?(?:pub )?({NAME})(?: \{{[^}}]*\}})* :(?= )", l)
            if m or re.match(r"(where|infix)", l):
                found.append([m[1] if m else l, [l]])
            else:
                found[-1][1].append(l)
        elif l.startswith("--") and not found:
            head.append(l)
        elif found:
            found[-1][1].append(l)
    for b in found:
        while b[1] and not b[1][-1].strip():
            b[1].pop()
    return head, uses, found


def top_tuple(text):
    """The parts of a tuple that is the whole text, or None."""
    t = text.strip()
    if not t.startswith("("):
        return None
    depth, parts, last = 0, [], 1
    for i, ch in enumerate(t):
        if ch in "([{":
            depth += 1
        elif ch in ")]}":
            depth -= 1
            if depth == 0 and i != len(t) - 1:
                return None
        elif ch == "," and depth == 1:
            parts.append(t[last:i].strip())
            last = i + 1
    parts.append(t[last:-1].strip())
    return parts if len(parts) > 1 else None


def split_lets(text):
    """The lets before the last value, and the value."""
    depth, at = 0, 0
    for m in re.finditer(r"[(\[{]|[)\]}]|(?<![\w\-'])in(?![\w\-'])", text):
        if m[0] in "([{":
            depth += 1
        elif m[0] in ")]}":
            depth -= 1
        elif depth == 0:
            at = m.end()
    return text[:at], text[at:]


def free(text, table):
    """The text with its free names replaced; what a λ binds stays, up to the end of its parenthesis."""
    out, i, bound = [], 0, [set()]
    while i < len(text):
        ch = text[i]
        if ch in "([{":
            bound.append(set(bound[-1]))
        elif ch in ")]}":
            bound.pop()
        m = re.compile(r"λ ([^.]*)\.").match(text, i)
        if m:
            bound[-1] |= set(re.findall(NAME, re.sub(r":[^()]*", "", m[1])))
            out.append(m[0])
            i = m.end()
            continue
        m = re.compile(rf"{NAME}(?:\.{CHARS}+)*").match(text, i)
        if m:
            first, _, rest = m[0].partition(".")
            new = table.get(first, first) if first not in bound[-1] else first
            out.append(new + ("." + rest if rest else ""))
            i = m.end()
            continue
        out.append(ch)
        i += 1
    return "".join(out)


def used(uses, text):
    words = set(re.findall(NAME, text)) | set(re.findall(r"[^\w\s(){}.;,@\"«»\[\]:]+", text)) | ({"[]"} if "[]" in text else set())
    kept = []
    for u in uses:
        m = re.match(r"use (\S+?)\.\{([^}]*)\}$", u)
        if not m:
            m2 = re.match(r"use \S+ as (\S+)$", u) or re.match(r"use \S*?([^.\s]+)$", u)
            if m2 and re.search(rf"(?<![\w]){re.escape(m2[1])}\.", text):
                kept.append(u)
            continue
        names = []
        for n in m[2].split(","):
            n = n.strip()
            mid = n.strip("◌") if "◌" in n else n
            if mid in words or any(mid in w for w in words if "◌" in n):
                names.append(n)
        if names:
            kept.append(f"use {m[1]}.{{{', '.join(names)}}}")
    return kept


class Function:
    def __init__(self, key, names, clauses, me):
        self.key, self.v, self.clauses, self.me = key, names, clauses, me
        v = names
        self.steps, self.callee, self.callee_of, self.vars = {}, {}, {}, {}
        for p in v["places"]:
            old, new = p[2]
            self.steps[norm(old)] = new
            if p[3]:
                self.callee[norm(old)] = p[3]
                self.callee_of[new] = p[3]
        for t in v["typed"]:
            for var, step in t:
                self.vars.setdefault(norm(step), var)
        self.needs = {norm(a): b for a, b in v["needs"]}
        self.loops = {norm(l[0][0]): l for l in v["loops"]}
        # parameters that are called otherwise now
        self.params = {tuple(a.strip(".").split(" .")): tuple(b.strip(".").split(" .")) for a, b in v["args"]}
        # what an arm binds and knows, by the older step and its path
        self.arms = {}
        for a in v["arms"]:
            for field, step, path in a[2] if a else []:
                if path:
                    self.arms[norm(step), tuple(path)] = (a[0], field)
        self.said = []
        # the lemmas that put back the `not` of a test
        self.nots = set()

    def need(self, x):
        for q in (x, x.replace("overflow-", "", 1), x.replace("nonzero-", "", 1), x.replace("shape-of-", "same-length", 1)):
            if norm(q) in self.needs:
                return self.needs[norm(q)]
        return None

    def path(self, m):
        parts = m[0].split(".")
        root, rest = parts[0], parts[1:]
        while rest and rest[0] == "before":
            rest = rest[1:]
        if not rest:
            return root
        s = norm(rest[0])
        if s in self.vars and len(rest) > 1 and rest[1] == "given":
            return ".".join([root, "type_inv", self.vars[s]] + rest[2:])
        if tuple(rest[:2]) in self.params:
            rest[:2] = self.params[tuple(rest[:2])]
        for n in range(len(rest), 1, -1):
            arm = self.arms.get((s, tuple(rest[1:n])))
            if arm:
                return ".".join([root, *arm] + rest[n:])
        if rest[0] in ("args", "ranges", "requires", "well_formed", "lifetimes"):
            if rest[0] == "requires" and len(rest) > 1 and rest[1].isdigit():
                names = self.clauses.get(self.me, {}).get("requires", [])
                if len(names) > 1 and int(rest[1]) < len(names):
                    rest[1] = names[int(rest[1])]
            if rest[0] in ("args", "ranges") and len(rest) > 1:
                rest[1] = rest[1].replace("-", "_")
            return ".".join([root] + rest)
        if s not in self.steps:
            like = [q for q in self.steps if q.lower() == s.lower() or q == norm(rest[0]).lower().replace("is", "", 1)]
            s = like[0] if len(like) == 1 else s
        if s in self.steps:
            new = self.steps[s]
            if len(rest) > 2 and rest[1] in ("ensures", "requires") and rest[2].isdigit() and s in self.callee:
                names = self.clauses.get(self.callee[s], {}).get(rest[1], [])
                if len(names) > 1 and int(rest[2]) < len(names):
                    rest[2] = names[int(rest[2])]
            if new.startswith("if-not-") and rest[1:] in (["true"], ["false"]):
                lemma = {"true": "not_from_false", "false": "not_from_true"}[rest[1]]
                self.nots.add(lemma)
                return f"({lemma} _ {root}.{new}.{rest[1]})"
            return ".".join([root, new] + rest[1:])
        self.said.append(f"no step {rest[0]}")
        return ".".join([root] + rest)

    def body(self, text):
        return re.sub(rf"(?<![\w.\-'])c(?:\.{CHARS}+)+", self.path, text)

    def invariant(self, name, lines):
        kind = "invariant" if name.startswith("invariant") else "decreases"
        loop = self.loops.get(norm(name.split("-", 1)[1]))
        if loop is None:
            self.said.append(f"no loop of {name}")
            return None
        i = self.v["loops"].index(loop)
        (old, new), variables = loop
        changed = self.v["changed"][i]
        text = "\n".join(lines[1:])
        m = re.match(rf"{re.escape(name)} ((?:\S+ )*?)=(?=\s)", text)
        if not m:
            self.said.append(f"no equation of {name}")
            return None
        args, body = m[1].split(), text[m.end():]
        want = [("l.initial." if c else "l.") + x for x, c in zip(variables, changed)] + ["l." + x for x, c in zip(variables, changed) if c]
        if len(args) != len(want):
            self.said.append(f"{name} has {len(args)} arguments, {len(want)} are known: {args} {want}")
            return None
        table = dict(zip(args, want))
        body = free(body, table)
        label = f"{kind}-{new}"
        extra = [l for l in lines[1:] if l.startswith("unfolding")]
        return f"abbrev pub {label} : goal.{label}\n{label} l ={body}"


def convert(top, crate, path, key, names, clauses):
    with open(path, encoding="utf-8") as f:
        text = f.read()
    head, uses, found = blocks(text)
    fn = key.split("-proofs.", 1)[1][: -len(".Lts")]
    me = f"{crate}::{fn.replace('.', '::')}"
    it = Function(key, names, clauses, me)
    uses = [u for u in uses if not re.search(r"\.(Statement|Tie)\b", u)]
    invariants, answers, helpers = [], [], []
    for name, lines in found:
        whole = "\n".join(lines)
        if name.endswith(("_spec", "-spec")) and "tie." in whole:
            continue
        m = re.search(r": tie\.(Need-|(?=invariant-|decreases-))(\S+)", lines[0])
        if not m:
            if "tie." in whole:
                it.said.append(f"a helper names the walk: {name}")
            helpers.append(it.body(whole))
            continue
        if not m[1]:
            q = it.invariant(name, lines)
            if q:
                invariants.append(q)
            continue
        new = it.need(m[2])
        if new is None and re.search(r"= search rules$", whole):
            continue
        if new is None:
            it.said.append(f"no goal {m[2]}")
            continue
        rest = [l for l in lines[1:]]
        unfolding = [l for l in rest if l.startswith("unfolding")]
        rest = "\n".join(l for l in rest if not l.startswith("unfolding"))
        m = re.match(rf"{re.escape(name)} (?:c|_)(?: κs)?((?: [^\s=]+| \([^()]*\)| {{[^{{}}]*}})*) =", rest)
        if not m:
            it.said.append(f"no equation of {name}: {rest[:60]}")
            continue
        body = rest[m.end():]
        if body.strip() == "search rules" and not unfolding:
            continue
        body = it.body(body)
        own = clauses.get(me, {}).get("ensures", [])
        if new.startswith("returns") and len(own) > 1:
            lets, value = split_lets(body)
            parts = top_tuple(value)
            if parts and len(parts) == len(own):
                fields = "; ".join(f"{n} = {p}" for n, p in zip(own, parts))
                body = f"{lets} record {{ {fields} }}"
            else:
                it.said.append(f"{new}: {len(own)} clauses")
        m2 = re.match(r"(.+)-requires((?:-.+)?)$", new)
        callee = it.callee_of.get(m2[1] + m2[2]) if m2 else None
        asked = clauses.get(callee, {}).get("requires", [])
        if len(asked) > 1:
            lets, value = split_lets(body)
            parts = top_tuple(value)
            if parts and len(parts) == len(asked):
                fields = "; ".join(f"{n} = {q}" for n, q in zip(asked, parts))
                body = f"{lets} record {{ {fields} }}"
            else:
                it.said.append(f"{new}: {len(asked)} clauses")
        answers.append("\n".join([f"pub {new} : goal.{new}"] + unfolding + [f"{new} c{m[1]} ={body}"]))
    folder = os.path.dirname(path)
    module = f"Rattle.{crate}.proofs.{fn}"
    made = []
    if invariants:
        body = "\n\n".join(invariants)
        lines = ([] if answers else head) + used(uses, body) + [f"use {module}.Given as goal", "", body, ""]
        made.append(("Invariants.antt", "\n".join(lines)))
    if answers:
        body = "\n\n".join(helpers + answers)
        if it.nots:
            uses = uses + [f"use Rattle.std.proofs.lemmas.Bool.{{{', '.join(sorted(it.nots))}}}"]
        lines = head + used(uses, body) + [f"use {module}.Goals as goal", "", body, ""]
        made.append(("Answers.antt", "\n".join(lines)))
    for name, text in made:
        with open(os.path.join(folder, name), "w", encoding="utf-8") as f:
            f.write(text)
    os.remove(path)
    if not made:
        os.rmdir(folder)
        if not os.listdir(os.path.dirname(folder)):
            os.rmdir(os.path.dirname(folder))
    for s in it.said:
        print(f"{crate}: {fn}: {s}")


def main(argv):
    crate, file, only = argv[0], argv[1], argv[2:]
    top = os.getcwd()
    with open(file, encoding="utf-8") as f:
        names = json.load(f)
    clauses = contracts(top)
    proofs = os.path.join(top, "crates", crate, "proofs")
    for folder, _, files in os.walk(proofs):
        if "Proof.antt" not in files:
            continue
        fn = os.path.relpath(folder, proofs).replace(os.sep, ".")
        if only and fn not in only:
            continue
        key = f"Rattle-{crate}-proofs.{fn}.Lts"
        if key not in names:
            print(f"{crate}: {fn}: not in {file}")
            continue
        convert(top, crate, os.path.join(folder, "Proof.antt"), key, names[key], clauses)


if __name__ == "__main__":
    main(sys.argv[1:])
