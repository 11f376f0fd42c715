#!/usr/bin/env python3
"""Brings the repository's own definitions, lemmas and fields of antt to snake case, as today's Rattle spells them.

usage: tools/respell.py            once, at the top, on what port.py left

`oneName` and `one-name` become `one_name`; types, predicates and modules (upper case first), names of src/, and what a
library has keep their spelling. A lemma that would fall together with another name of the repository gets `_lem` after it.
It reads each file's `use` lines: a word is turned where the file defines it or takes it from a module of the repository.
Names of goals and steps, which Rattle makes, are left alone.
"""

import collections
import glob
import os
import re
import sys

WORD = r"[^\s(){}.;,@\"«»\[\]\\`]+"
TOKEN = re.compile(r"--[^\n]*|//[^\n]*|\"(?:[^\"\\]|\\.)*\"|\.?(?:" + WORD + ")")
SIGNED = re.compile(r"^( *)((?:abbrev |unfoldable |pub |ghost )*)(" + WORD + r")(?: \{[^}]*\})? :(?= |$)")
RECORD = re.compile(r"^( *)(?:pub )?record \S+")
USE = re.compile(r"^\s*(?:pub |ghost )*use ([\w.]+)\.\{([^}]*)\}", re.M)
MADE = ("Tie", "Goals", "Given", "Statement", "Met", "Code", "Symbol", "Lts", "TheVariants")


def turned(name):
    if not re.match(r"[a-z]", name) or name in FIXED:
        return name
    parts = name.split("-")
    if not all(re.fullmatch(r"[A-Za-z0-9_'½₀-₉]+", p) for p in parts):
        return name
    words = [re.sub(r"(?<=[a-z0-9])(?=[A-Z])", "_", p).lower() if re.search(r"[a-z][A-Z]", p) else p for p in parts]
    return "_".join(words)


FIXED = set()
# functions of src/, whose names stand in paths of proofs/
MODULES = set()


def read(path):
    with open(path, encoding="utf-8") as f:
        return f.read()


def own_crates():
    return sorted(c for c in os.listdir("crates") if os.path.isdir(os.path.join("crates", c)))


def is_walk(path):
    return os.path.basename(path) == "Proof.antt"


def signed(path, text):
    """The names that a file signs, and the fields of its records."""
    names, fields, depth = set(), set(), None
    for line in text.split("\n"):
        at = RECORD.match(line)
        if at and line.rstrip().endswith("where"):
            depth = len(at[1])
            continue
        it = SIGNED.match(line)
        if line.strip() and depth is not None and len(line) - len(line.lstrip()) <= depth:
            depth = None
        if it:
            if depth is not None:
                fields.add(it[3])
            elif is_walk(path) and re.search(r": tie\.|: \{M : Type 1\} → statement M", line):
                continue
            else:
                names.add(it[3])
    return names, fields


def main():
    paths = sorted(glob.glob("crates/*/specs/**/*.antt", recursive=True) + glob.glob("crates/*/proofs/**/*.antt", recursive=True))
    crates = own_crates()
    for p in glob.glob("crates/*/src/**/*.rt", recursive=True):
        MODULES.update(re.findall(r"\bfn (\w+)", read(p)))
        MODULES.add(os.path.basename(p)[:-3])
    own = re.compile(r"Rattle\.(" + "|".join(crates) + r")\.(specs|proofs)\b")
    texts = {p: read(p) for p in paths}
    names, fields = collections.defaultdict(set), set()
    for p, t in texts.items():
        n, f = signed(p, t)
        for it in n:
            names[it].add(p)
        fields |= f
    # What stands as it is: other words of the repository, so that none falls together with one.
    kept = set(n for n in list(names) + list(fields) if turned(n) == n)
    # and what a file that signs or takes a name has from a library under the new spelling
    for p, t in texts.items():
        words = set(w.lstrip(".") for w in TOKEN.findall(t) if not w.startswith(("--", '"')))
        mine = {n for n in words if n in names and turned(n) != n}
        kept |= {turned(n) for n in mine} & words - set(names) - MODULES
    table, taken = {}, {}
    for n in sorted(list(names) + [f for f in fields if f not in names], key=lambda n: ("-" in n, n)):
        new = turned(n)
        if new == n:
            continue
        if n in fields and n not in names:
            table[n] = new
            continue
        if new in kept or taken.get(new, n) != n:
            new += "_lem"
            print(f"falls together: {n} -> {new}")
        taken[new] = n
        table[n] = new

    def turn(path, text):
        is_rt = path.endswith(".rt")
        here = set() if is_rt else signed(path, text)[0]
        others = set()
        for m in USE.finditer(text):
            mine = own.match(m[1]) and not any(m[1].split(".")[-1] == it for it in MADE)
            for it in m[2].split(","):
                word = it.strip().split(" ")[0]
                (here if mine else others).add(word)
                if " as " in it:
                    others.add(it.strip().split(" ")[-1])
        good = {n for n in here if n in table}
        used = set(TOKEN.findall(text))
        for n in sorted(good):
            new = table[n]
            if re.search(rf"(?<![\w.]){re.escape(new)}: ", text) if is_rt else new in used and new not in here and new not in MODULES:
                print(f"look: {path}: {new} stood here beside {n}")

        def one(m):
            w = m[0]
            if w.startswith(("--", "//")):
                return re.sub(WORD, lambda c: table[c[0]] if c[0] in names and c[0] in table and re.search(r"[a-z][A-Z]", c[0]) else c[0], w)
            if w.startswith('"'):
                return w
            if w.startswith("."):
                return "." + table[w[1:]] if w[1:] in fields and w[1:] in table and not is_rt else ("." + table[w[1:]] if is_rt and w[1:] in fields and w[1:] in table else w)
            if w in good:
                return table[w]
            if w in fields and w in table and w not in others and not is_rt:
                return table[w]
            return w

        return TOKEN.sub(one, text)

    count = 0
    for p in paths + sorted(glob.glob("crates/*/src/**/*.rt", recursive=True)):
        old = texts.get(p) or read(p)
        new = turn(p, old)
        if new != old:
            count += 1
            with open(p, "w", encoding="utf-8") as f:
                f.write(new)
    # Pages and edits name them too, in backticks or in a clause.
    words = {n: new for n, new in table.items() if n in names}
    for p in sorted(glob.glob("docs/*.md") + ["README.md"] + glob.glob("crates/*/must-fail/*.edit")):
        old = read(p)
        if p.endswith(".edit"):
            new = re.sub(WORD, lambda m: words.get(m[0], m[0]) if re.search(r"[a-z][A-Z]", m[0]) else m[0], old)
        else:
            new = re.sub(r"`[^`\n]*`", lambda s: re.sub(WORD, lambda m: words.get(m[0], m[0]), s[0]), old)
        if new != old:
            count += 1
            with open(p, "w", encoding="utf-8") as f:
                f.write(new)
    print(f"respell: {len(table)} names, {count} files")


if "--help" in sys.argv:
    print(__doc__.strip())
elif __name__ == "__main__":
    sys.exit(main())
