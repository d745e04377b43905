#!/usr/bin/env python3
"""Moves theorems of a crate from specs/ to proofs/, with all that rest on them, and the lines that import them everywhere.

usage: tools/port/move_laws.py CRATE LOGS    at the top of the repository; LOGS is a folder with what `rt check` said of the crate under each edit of specs/

Where an edit of a definition makes a theorem of specs/ false, what rests on that theorem there isn't checked, and the kit takes
the edit for one that can't be read. So what rests on a theorem that an edit makes false stands in proofs/, its statement unchanged;
the definition, and the theorem that the edit makes false, stay where they are.
"""

import glob
import os
import re
import sys

CHARS = r"[^\s(){}.;,@\"«»\[\]|⌜⌝:]"
NAME = CHARS + "+"
START = re.compile(rf"^((?:pub |abbrev |unfoldable )*)(data |record )?({NAME})((?: \{{[^{{}}]*\}}| \([^()]*\))*) :(?=\s|$)")
USE = re.compile(r"^use (\S+?)(?:\.\{([^}]*)\})?(?: as (\S+))?$")


OTHER = re.compile(rf"^(?:(?:pub |abbrev |unfoldable )*(data|record|ruleset) ({NAME})|(module) _ )")


class Block:
    def __init__(self, module, name, lines, kind):
        self.module, self.name, self.lines, self.kind = module, name, lines, kind
        # what is declared inside: a type's constructors, a section's theorems
        self.inner = set()

    def text(self):
        return "\n".join(self.lines)

    def bare(self):
        return re.sub(r"--[^\n]*", "", self.text())

    def words(self):
        return set(re.findall(NAME, self.bare()))


def parse(path, module):
    head, uses, blocks, wait = [], [], [], []
    with open(path, encoding="utf-8") as f:
        lines = f.read().rstrip("\n").split("\n")
    current = None
    for l in lines:
        if l.startswith("use "):
            uses.append(l)
            continue
        m, o = START.match(l), OTHER.match(l)
        if o:
            current = Block(module, o[2] or f"the section of {len(blocks)} blocks", wait + [l], o[1] or o[3])
            blocks.append(current)
            wait = []
        elif m:
            current = Block(module, m[3], wait + [l], "def")
            blocks.append(current)
            wait = []
        elif re.match(r"infix", l):
            wait.append(l)
            current = None
        elif l.startswith("--"):
            wait.append(l)
            if not blocks and not uses:
                head, wait = head + wait, []
            current = None
        elif not l.strip():
            if wait:
                wait.append(l)
            elif current:
                current.lines.append(l)
        elif re.match(r"\s", l):
            if current is None:
                raise SystemExit(f"{path}: {l}")
            current.lines += wait + [l]
            wait = []
        else:
            if current is None or wait:
                # an equation behind a remark
                current = blocks[-1]
                current.lines += wait
                wait = []
            current.lines.append(l)
    for b in blocks:
        while b.lines and not b.lines[-1].strip():
            b.lines.pop()
        if b.kind == "data":
            b.inner = set(re.findall(rf"^  ((?:{NAME} )+):", b.bare(), re.M))
            b.inner = {n for s in b.inner for n in s.split()}
        if b.kind == "module":
            b.inner = set(re.findall(rf"^  (?:pub |abbrev |unfoldable )*(?:record |data )?({NAME})(?: \{{[^{{}}]*\}})* :", b.bare(), re.M))
    return head, uses, blocks, wait


def imports(uses, crate):
    """name -> (module, name or type) of this crate's specs."""
    found = {}
    for u in uses:
        m = USE.match(u)
        p = m[1].split(".")
        if p[:3] == ["Rattle", crate, "specs"] and m[2]:
            for n in m[2].split(","):
                n = n.strip()
                if len(p) == 4:
                    found[n] = (p[3], n)
                elif len(p) == 5:
                    found[n] = (p[3], p[4])
    return found


def load(crate):
    modules = {}
    for p in sorted(glob.glob(f"crates/{crate}/specs/*.antt")):
        m = os.path.basename(p)[:-5]
        if m != "Lib":
            modules[m] = (p, *parse(p, m))
    return modules


def graph(modules, crate):
    """What each block names."""
    edges = {}
    block_of = {(m, n): b.name for m, (p, head, uses, blocks, _) in modules.items() for b in blocks for n in {b.name} | (b.inner if b.kind == "module" else set())}
    for m, (p, head, uses, blocks, _) in modules.items():
        own = {b.name: b.name for b in blocks}
        own.update({n: b.name for b in blocks for n in b.inner})
        brought = imports(uses, crate)
        alias = {USE.match(u)[3] or USE.match(u)[1].split(".")[-1]: USE.match(u)[1].split(".")[3] for u in uses if USE.match(u)[1].startswith(f"Rattle.{crate}.specs.") and not USE.match(u)[2]}
        for b in blocks:
            seen = set()
            for w in b.words():
                if w in own and own[w] != b.name:
                    seen.add((m, own[w]))
                elif w in brought:
                    q = brought[w]
                    seen.add((q[0], block_of.get(q, q[1])))
            for a, mod in alias.items():
                for q in re.findall(rf"(?<![\w.]){re.escape(a)}\.({NAME})", b.bare()):
                    seen.add((mod, block_of.get((mod, q), q)))
            edges[m, b.name] = seen
    return edges


def rejected(logs, modules):
    found = set()
    for f in sorted(glob.glob(os.path.join(logs, "*.log"))):
        with open(f, encoding="utf-8") as it:
            text = it.read()
        bad = re.search(r"^(?:\./)?specs/\S+: error: (?!`)", text, re.M)
        if not bad:
            continue
        for m in re.finditer(r"^(?:\./)?specs/(\w+)\.antt:\d+:\d+: error: `([^`]+)`", text, re.M):
            found.add((m[1], m[2]))
        for m in re.finditer(r"^(?:\./)?specs/(\w+)\.antt:\d+:\d+: error: \d+ declarations? that depends? on `([^`]+)`", text, re.M):
            found.add((m[1], m[2]))
    return found


def closure(edges, roots):
    names = {}
    for m, n in edges:
        names.setdefault(n, set()).add((m, n))
    start = set()
    for m, n in roots:
        start |= names.get(n, set()) if (m, n) not in edges else {(m, n)}
    moved, again = set(), True
    while again:
        again = False
        for d, seen in edges.items():
            if d not in moved and seen & (start | moved):
                moved.add(d)
                again = True
    return moved


def kept_uses(uses, text):
    words = set(re.findall(NAME, text)) | ({"[]"} if "[]" in text else set())
    signs = set(re.findall(r"[^\w\s(){}.;,@\"«»\[\]:]+", text))
    kept = []
    for u in uses:
        m = USE.match(u)
        if not m[2]:
            if re.search(rf"(?<![\w.]){re.escape(m[3] or m[1].split('.')[-1])}\.", text):
                kept.append(u)
            continue
        names = []
        for n in (x.strip() for x in m[2].split(",")):
            bare = n.split(" as ")[-1].strip("◌")
            if bare in words or bare in signs or any(bare in w for w in signs if "◌" in n) or ("◌" in n and bare in text):
                names.append(n)
        if names:
            kept.append(f"use {m[1]}.{{{', '.join(names)}}}")
    return kept


def main(argv):
    crate, logs = argv[0], argv[1]
    modules = load(crate)
    edges = graph(modules, crate)
    roots = rejected(logs, modules)
    # a theorem of a where block stands under its owner
    owners = {}
    for m, (p, head, uses, blocks, _) in modules.items():
        for b in blocks:
            if b.kind == "module":
                owners.update({(m, n): b.name for n in re.findall(rf"^  (?:pub |abbrev |unfoldable )*(?:record |data )?({NAME})(?: \{{[^{{}}]*\}})* :", b.bare(), re.M)})
    for m, (p, head, uses, blocks, _) in modules.items():
        for b in blocks:
            for n in re.findall(rf"^\s+(?:pub )?({NAME})(?: \{{[^{{}}]*\}})* :", b.bare(), re.M):
                owners.setdefault((m, n), b.name)
    roots = {(m, n) if (m, n) in edges else (m, owners.get((m, n), n)) for m, n in roots}
    moved = closure(edges, roots)
    if not moved:
        print(f"{crate}: nothing to move")
        return
    taken = {m for m, _ in moved}
    lib = f"crates/{crate}/proofs/Lib.antt"
    os.makedirs(os.path.dirname(lib), exist_ok=True)
    old_lib = open(lib, encoding="utf-8").read() if os.path.exists(lib) else ""
    opened = set()
    for m in sorted(taken):
        p, head, uses, blocks, tail = modules[m]
        for b in blocks:
            if (m, b.name) in moved:
                for line in re.findall(r"^\s*unfolding ([^\n]*)", b.bare(), re.M):
                    opened |= {(m, n) for n in line.split()}
    # what has to be seen from outside: what the moved ones name, the types of its statements, and a rule set's members
    seen = {d for e in moved for d in edges[e] if d not in moved}
    again = True
    while again:
        again = False
        for m, (p, head, uses, blocks, _) in modules.items():
            for b in blocks:
                if (m, b.name) in moved or (m, b.name) not in seen:
                    continue
                said = b.bare() if b.kind in ("record", "data", "ruleset") else re.split(r"\n(?=\S)", b.bare().strip())[0]
                for w in set(re.findall(NAME, said)):
                    for c in blocks:
                        if c.name == w and (m, w) not in seen and (m, w) not in moved and c.kind != "module":
                            seen.add((m, w))
                            again = True
    for m in modules:
        p, head, uses, blocks, tail = modules[m]
        if m not in taken:
            continue
        for b in blocks:
            if (m, b.name) in moved:
                continue
            if b.kind == "record" and (m, b.name) in seen:
                b.lines = [re.sub(rf"^(  )(?!pub )({NAME}(?: \{{[^{{}}]*\}})* :)", r"\1pub \2", l) for l in b.lines]
            needed = (m, b.name) in seen
            if b.kind == "module" and needed:
                wanted = {w for c in blocks if (m, c.name) in moved for w in c.words()} & b.inner
                b.lines = [re.sub(rf"^  ((?:abbrev |unfoldable )*)(?=({NAME})(?: \{{[^{{}}]*\}})* :)", lambda q: f"  {q[1]}pub " if q[2] in wanted else q[0], l) for l in b.lines]
            for i, l in enumerate(b.lines):
                s = START.match(l)
                if not s and OTHER.match(l) and OTHER.match(l)[2] == b.name and needed and not l.startswith("pub "):
                    b.lines[i] = "pub " + l
                    break
                if s and s[3] == b.name:
                    words = s[1].split()
                    if needed and "pub" not in words:
                        words.append("pub")
                    if (m, b.name) in opened and "unfoldable" not in words and "abbrev" not in words:
                        words.insert(0, "unfoldable")
                    order = [w for w in ("abbrev", "unfoldable", "pub") if w in words]
                    b.lines[i] = " ".join(order + [""] if order else []) + l[len(s[1]):] if order else l
                    break
    # a theorem that an edit changes stands in another file than what rests on it
    edited = set()
    edits = {}
    for e in sorted(glob.glob(f"crates/{crate}/must-fail/*.edit")):
        with open(e, encoding="utf-8") as f:
            edits[e] = f.read()
        path = ""
        for l in edits[e].split("\n"):
            path = l[6:] if l.startswith("file: ") else path
            if l.startswith("old: ") and path.startswith("specs/"):
                m = os.path.basename(path)[:-5]
                edited |= {(m, b.name) for b in modules[m][3] if l[5:] in b.text() and (m, b.name) in moved}
    level = {}

    def level_of(d):
        if d not in level:
            level[d] = 0
            level[d] = max([level_of(e) + (e in edited) for e in edges[d] if e in moved and e[0] == d[0]] + [0])
        return level[d]

    place = {d: d[0] + ("" if level_of(d) == 0 else "Then" if level_of(d) == 1 else f"Then{level_of(d)}") for d in moved}
    listed = []
    for m in sorted(taken):
        p, head, uses, blocks, tail = modules[m]
        stay = [b for b in blocks if (m, b.name) not in moved]
        for target_module in sorted({place[m, b.name] for b in blocks if (m, b.name) in moved}, key=lambda n: (len(n), n)):
            go = [b for b in blocks if (m, b.name) in moved and place[m, b.name] == target_module]
            text = "\n\n".join(b.text() for b in go)
            bare = "\n".join(b.bare() for b in go)
            own = []
            words = set(re.findall(NAME, bare))
            plain = [n for b in stay for n in ([b.name] if b.kind != "module" else sorted(n for n in b.inner if re.search(rf"^  (?:abbrev |unfoldable )*pub (?:record |data )?{re.escape(n)} ", b.text(), re.M))) if n in words or n.strip("◌") in bare and "◌" in n]
            if plain:
                own.append(f"use Rattle.{crate}.specs.{m}.{{{', '.join(plain)}}}")
            for b in stay:
                if b.kind == "data" and b.inner & words:
                    own.append(f"use Rattle.{crate}.specs.{m}.{b.name}.{{{', '.join(sorted(b.inner & words))}}}")
            for other in sorted({place[m, b.name] for b in blocks if (m, b.name) in moved} - {target_module}):
                brought = [b.name for b in blocks if (m, b.name) in moved and place[m, b.name] == other and b.name in words and any((m, b.name) in edges[m, c.name] for c in go)]
                if brought:
                    own.append(f"use Rattle.{crate}.proofs.{other}.{{{', '.join(brought)}}}")
            target = f"crates/{crate}/proofs/{target_module}.antt"
            if os.path.exists(target):
                raise SystemExit(f"{target} is there")
            with open(target, "w", encoding="utf-8") as f:
                f.write("\n".join(head + kept_uses(uses, bare) + own + ["", text, ""]))
            listed += [f"{target_module}: {b.name}" for b in go]
            old_lib += f"pub mod {target_module}\n"
        rest = "\n".join(b.bare() for b in stay)
        if stay:
            with open(p, "w", encoding="utf-8") as f:
                f.write("\n".join(head + kept_uses(uses, rest) + ["", "\n\n".join(b.text() for b in stay)] + tail + [""]))
        else:
            os.remove(p)
            spec_lib = f"crates/{crate}/specs/Lib.antt"
            with open(spec_lib, encoding="utf-8") as f:
                t = f.read()
            with open(spec_lib, "w", encoding="utf-8") as f:
                f.write(t.replace(f"pub mod {m}\n", ""))
    with open(lib, "w", encoding="utf-8") as f:
        f.write(old_lib)
    # a module that is not in this crate's taken ones is written where a word was added
    for m, (p, head, uses, blocks, tail) in modules.items():
        if m not in taken:
            with open(p, encoding="utf-8") as f:
                was = f.read()
            new = "\n".join(head + uses + ["", "\n\n".join(b.text() for b in blocks)] + tail + [""])
            if re.sub(r"\s+", " ", new) != re.sub(r"\s+", " ", was):
                print(f"look: {p}")
    # the lines that import what moved
    homes = {(m, n): place[m, b.name] for m, (p, head, uses, blocks, _) in modules.items() for b in blocks if (m, b.name) in moved for n in {b.name} | b.inner}
    names = {(m, n) for m, (p, head, uses, blocks, _) in modules.items() for b in blocks if (m, b.name) in moved for n in {b.name} | b.inner}
    for f in sorted(glob.glob("crates/*/src/*.rt") + glob.glob("crates/*/specs/*.antt") + glob.glob("crates/*/proofs/**/*.antt", recursive=True)):
        with open(f, encoding="utf-8") as it:
            text = it.read()
        out = []
        for l in text.split("\n"):
            m = re.match(rf"((?:ghost )?use )Rattle\.{crate}\.specs\.(\w+)\.\{{([^}}]*)\}}(;?)$", l)
            if not m:
                q = re.match(rf"(?:ghost )?use Rattle\.{crate}\.specs\.(\w+)(?: as (\w+))?;?$", l)
                if q and q[1] in taken:
                    print(f"look: {f}: {l}")
                q = re.match(rf"(?:ghost )?use Rattle\.{crate}\.specs\.(\w+)\.(\w+)\.\{{", l)
                if q and (q[1], q[2]) in names:
                    l = l.replace(f"Rattle.{crate}.specs.", f"Rattle.{crate}.proofs.", 1)
                out.append(l)
                continue
            all_names = [x.strip() for x in m[3].split(",")]
            gone = [x for x in all_names if (m[2], x.split(" as ")[0]) in names]
            here = [x for x in all_names if x not in gone]
            if here:
                out.append(f"{m[1]}Rattle.{crate}.specs.{m[2]}.{{{', '.join(here)}}}{m[4]}")
            for home in sorted({homes[m[2], x.split(" as ")[0]] for x in gone}):
                some = [x for x in gone if homes[m[2], x.split(" as ")[0]] == home]
                out.append(f"{m[1]}Rattle.{crate}.proofs.{home}.{{{', '.join(some)}}}{m[4]}")
        new = "\n".join(out)
        if new != text:
            with open(f, "w", encoding="utf-8") as it:
                it.write(new)
    # an edit of what moved goes with it
    for e, text in edits.items():
        path, pairs, new = "", [], text
        for l in text.split("\n"):
            path = l[6:] if l.startswith("file: ") else path
            if l.startswith("old: "):
                pairs.append((path, l[5:]))
        m = os.path.basename(pairs[-1][0])[:-5]
        homes_of = {place[d] for d in edited if d[0] == m and pairs[-1][0].startswith("specs/") for b in modules[m][3] if b.name == d[1] and pairs[-1][1] in b.text()}
        if not homes_of and pairs[-1][0].startswith("specs/") and m in taken and not any(pairs[-1][1] in b.text() for b in modules[m][3]):
            print(f"look: {e}")
        if homes_of:
            new = text.replace(f"file: specs/{m}.antt", f"file: proofs/{homes_of.pop()}.antt")
        if new != text:
            with open(e, "w", encoding="utf-8") as f:
                f.write(new)
            print(f"edit: {e}")
    print(f"{crate}: {len(listed)} moved")
    print("\n".join(listed))


if __name__ == "__main__":
    main(sys.argv[1:])
