#!/usr/bin/env python3
"""Spells the definitions, lemmas, fields and constructors that this repository declares in snake case: `fieldAt` becomes
`field_at`, `bit-past-end` becomes `bit_past_end`. Types and modules keep their spelling, and so do the functions of src/,
what a library declares, and the labels that the check makes for a function's goals.

usage: tools/port/respell.py [--say] [TOP]     at the top of the repository, after the kit's own script; --say only lists what would fall together

It goes by text. A name that is imported from a library in some file stays there.
"""

import collections
import glob
import os
import re
import sys

CHARS = r"[^\s(){}.;,@\"«»\[\]|⌜⌝:]"
NAME = CHARS + "+"
DECLARED = re.compile(rf"^(\s*)((?:pub |abbrev |unfoldable )*)({NAME})((?: \{{[^{{}}\n]*\}})*) :(?=\s|$)", re.M)
BOUND = re.compile(rf"^\s*({NAME}) ←", re.M)
USE = re.compile(r"\buse ([^\s;{]+?)(?:\.\{([^}]*)\})?(?: as ([^\s;]+))?(?=;|\s*$)", re.M)
PATH = re.compile(rf"{CHARS}+(?:\.{CHARS}+)*")
LABEL = re.compile(r"^(?:abbrev )?(?:pub )?(\S+) : (?:tie|goal)\.", re.M)
# lemmas named like the definition that they are about
LEMMAS = """all-letters every-below every-part extension-good extension-of flags-from from-section heads-at is-sentence is_word length-after
parts-good rbsp-with run-with set-bit three-words trailer-at code-at code-of start-of""".split()
OWN = {n: n.replace("-", "_") + "_lem" for n in LEMMAS}


def snake(name):
    if not re.match(r"[a-z]", name) or not re.fullmatch(r"[A-Za-z0-9_'\-₀-₉]+", name):
        return name
    if name in OWN:
        return OWN[name]
    return re.sub(r"(?<=[a-z0-9])[A-Z]", lambda m: "_" + m[0].lower(), name).replace("-", "_")


def bare(text):
    return re.sub(r"--[^\n]*", "", text)


def files(top):
    for kind in ("src/*.rt", "specs/*.antt", "proofs/**/*.antt"):
        yield from sorted(glob.glob(os.path.join(top, "crates/*", kind), recursive=True))


def of_function(path):
    return "/proofs/" in path and os.path.basename(path) in ("Proof.antt", "Answers.antt", "Invariants.antt")


def declared(top):
    names = set()
    for p in files(top):
        if p.endswith(".antt"):
            with open(p, encoding="utf-8") as f:
                text = bare(f.read())
            labels = set(LABEL.findall(text)) if of_function(p) else set()
            names |= ({m[3] for m in DECLARED.finditer(text)} | set(BOUND.findall(text))) - labels
    return {n: snake(n) for n in names if snake(n) != n}


def fields(top):
    found = set()
    for p in files(top):
        if not p.endswith(".antt"):
            continue
        inside = False
        with open(p, encoding="utf-8") as f:
            for line in bare(f.read()).split("\n"):
                if re.match(r"^(pub |abbrev )*record\b", line):
                    inside = True
                elif re.match(r"^\S", line):
                    inside = False
                m = re.match(r"^\s+(?:pub )?(\S+)(?: \{[^{}]*\})* :", line)
                if inside and m:
                    found.add(m[1])
    return found


def of_libraries(text, own):
    """Names that a file takes from what this repository doesn't declare."""
    names = set()
    for m in USE.finditer(text):
        parts = m[1].split(".")
        if parts[0] == "Rattle" and len(parts) > 1 and parts[1] in own:
            continue
        names |= {n.strip() for n in (m[2] or "").split(",")}
    return names


def end_of_code(l, mark):
    """Where a line's remark begins, outside its strings."""
    inside, i = False, 0
    while i < len(l):
        if l[i] == "\\" and inside:
            i += 1
        elif l[i] == '"' and l[i - 1 : i + 2] != "'\"'":
            inside = not inside
        elif not inside and l.startswith(mark, i):
            return i
        i += 1
    return len(l)


def turn(text, path, table, field, own):
    kept = of_libraries(text, own)
    labels = set(LABEL.findall(text)) if of_function(path) else set()

    def word(n, is_field):
        if is_field:
            return table[n] if n in field and n in table else n
        return table.get(n, n) if n not in kept and n not in labels else n

    def path_of(m):
        parts = m[0].split(".")
        if len(parts) == 1:
            return word(parts[0], False)
        if parts[0] == "tie" or parts[0] == "goal":
            return m[0]
        if re.match(r"[A-Z]", parts[0]):
            return ".".join(p if p in own or re.match(r"[A-Z]", p) else table.get(p, p) for p in parts)
        return ".".join([word(parts[0], False)] + [word(p, True) for p in parts[1:]])

    def line(l):
        mark = "--" if path.endswith(".antt") else "//"
        at = end_of_code(l, mark)
        code, rest = l[:at], l[at:]
        return "".join(q if i % 2 else plain(q) for i, q in enumerate(re.split(r"(\"(?:[^\"\\\\]|\\\\.)*\")", code))) + remark(rest)

    def remark(rest):
        return re.sub(r"(?<![\w.\-])[a-z][\w'\-]*[\w']", lambda m: table.get(m[0], m[0]) if re.search(r"[A-Z]", m[0]) else m[0], rest)

    def plain(code):
        # a projection from something in parentheses
        code = re.sub(rf"(?<=[)}}\]])\.({CHARS}+(?:\.{CHARS}+)*)", lambda m: "." + ".".join(word(p, True) for p in m[1].split(".")), code)
        code = re.sub(rf"(?<![.)}}\]]){PATH.pattern}", path_of, code)
        return code

    return "\n".join(line(l) for l in text.split("\n"))


def main(argv):
    say = "--say" in argv
    top = next((a for a in argv if not a.startswith("--")), ".")
    own = {os.path.basename(c) for c in glob.glob(os.path.join(top, "crates/*"))}
    table, field = declared(top), fields(top)
    olds = collections.defaultdict(set)
    for a, b in table.items():
        olds[b].add(a)
    twins = [a for a in olds.values() if len(a) > 1]
    for p in files(top):
        with open(p, encoding="utf-8") as f:
            text = f.read()
        new = turn(text, p, table, field, own)
        if p.endswith(".antt"):
            words = {m[0] for m in re.finditer(rf"(?<![.{CHARS[2:-1]}]){NAME}(?![.\w])", re.sub(r"\"[^\"]*\"", "", bare(text)))}
        else:
            words = set(re.findall(r"(?<![\w.:])[a-z]\w*(?!\w*[(!])", re.sub(r"//.*|\b(?:ensures|requires|fn) \w+|use [a-z_]+::.*", "", text)))
        for a in twins:
            if len(a & words) > 1:
                print(f"together: {p}: {sorted(a & words)}")
        for a, b in sorted(table.items()):
            if a in words and b in words and b not in table:
                print(f"stands there: {p}: {a} -> {b}")
        if not say and new != text:
            with open(p, "w", encoding="utf-8") as f:
                f.write(new)
    print(f"{len(table)} names")


if __name__ == "__main__":
    main(sys.argv[1:])
