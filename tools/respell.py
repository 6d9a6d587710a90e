#!/usr/bin/env python3
"""Brings this repository's own definitions and lemmas to one spelling: words in snake case, and no dash between two words.

usage: respell.py [--check] [FOLDER]

It was run once, right behind the toolchain's own port script, which respells only some of our names. Types and modules keep their
capitals, functions of src/ keep their names, and what a library, or the toolchain, named is left as it is: in each file a name is turned
only where the file declares it, or imports it from a crate of ours. A lemma that would fall together with its function gets `_lem`.
--check writes nothing, and says which names would fall together.
"""
import collections
import os
import re
import sys

TOKEN = re.compile(r"[^\s(){}.;,@\"«»`:]+|:[^\s(){}.;,@\"«»`]+|:")
USE = re.compile(r"(?m)^[ \t]*(?:ghost )?(?:unfoldable )?(?:pub )?use +([^\s;{]+?)\.?(?:\{([^}]*)\})?(?: +as +([^\s;]+))?;?[ \t]*$")
DECLARES = re.compile(r"(?m)^( *)((?:[^\s(){}.;,@\"«»:`]+ +)+?)((?:[({][^\n]*?)?):(?= |$)")
RECORD = re.compile(r"(?m)^( *)(?:(?:pub|abbrev|unfoldable|mutual) +)*(record|data) +(\S+)[^\n]*")
WORDS = {"pub", "abbrev", "unfoldable", "data", "record", "axiom", "mutual", "let", "module", "in", "elim", "where", "λ", "→"}
# generated beside the functions of src/, or from its types
MADE = re.compile(r"\.(?:declared|contracts|Statement|Tie|Lts|Reads|Goals|Given|Met|Named)(?:\.|$)")
MADE_BY_NAME = {"Statement", "Tie", "Lts", "Reads", "Goals", "Given", "Met", "Named"}
# Where a plain turn would meet another name: a lemma beside its function, as it stands behind the port script.
LEMMAS = (
    "block-bits block-count bytes-more by-block channel-in coefficients-in decode-price double-sum entry-of factors-at file-drawn in-segment "
    "is-at is-none pack-from place-from put-all quants-fit rest-bits samples-of value-bits value-turn went-by with-quantizer word-bits zigzag-place"
).split()
OTHERWISE = {name: name.replace("-", "_") + "_lem" for name in LEMMAS} | {"Read-out": "ReadOut", "Option-some": "option_some"}
# The same of names with no dash, each in the antt of its crate or file alone.
ALONE = {
    "jpeg_bits_wide/": {"byte_more": "byte_more_lem"},
    "jpeg_header_state/": {"numbers_fit": "numbers_fit_lem"},
    "jpeg_write_scan/": {"written_on": "written_on_lem"},
    "reading/proofs/HeaderPrefix.antt": {"record_of": "record_reached"},
}


def turned(name):
    if name in OTHERWISE:
        return OTHERWISE[name]
    if name[:1].isupper():
        return name
    name = re.sub(r"(?<=[a-z0-9])([A-Z])", lambda m: "_" + m[1].lower(), name)
    return re.sub(r"(?<=[\w'₀-₉ℤℕ])-(?=[\w])", "_", name)


def texts(root):
    for folder, dirs, files in os.walk(root):
        dirs[:] = sorted(d for d in dirs if d != "out")
        for f in sorted(files):
            if f.endswith((".antt", ".rt")):
                yield os.path.join(folder, f)


class File:
    def __init__(self, path, own):
        self.path = path
        with open(path, encoding="utf-8") as f:
            self.text = f.read()
        self.declared, self.fields, self.ours, self.library, self.heads = set(), set(), set(), set(), set()
        for m in USE.finditer(self.text):
            module, items, alias = m[1], m[2], m[3]
            steps = module.split(".")
            mine = steps[0] == "Rattle" and len(steps) > 1 and steps[1] in own and not MADE.search(module + ".")
            if items is None:
                if mine:
                    self.heads.add(alias or steps[-1])
                continue
            for item in items.split(","):
                for word in item.replace(" as ", " ").split():
                    (self.ours if mine else self.library).add(word)
        if path.endswith(".antt"):
            for m in DECLARES.finditer(self.text):
                self.declared |= {w for w in m[2].split() if w not in WORDS}
            inside = None
            for line in self.text.split("\n"):
                indent = len(line) - len(line.lstrip())
                if inside is not None and line.strip() and indent <= inside:
                    inside = None
                if inside is not None:
                    m = DECLARES.match(line)
                    if m:
                        self.fields |= {w for w in m[2].split() if w not in WORDS}
                m = RECORD.match(line)
                if m and m[2] == "record":
                    inside = len(m[1])


def main(argv):
    check = "--check" in argv
    root = next((a for a in argv if not a.startswith("-")), ".")
    inside = os.path.join(root, "crates")
    own = {c for c in os.listdir(inside) if os.path.isdir(os.path.join(inside, c))}
    files = [File(p, own) for p in texts(inside)]
    fields = set().union(*(f.fields for f in files))
    fields = {f for f in fields if turned(f) != f}
    clashes = 0
    changed = 0
    total = collections.Counter()
    for f in files:
        scope = (f.declared | f.ours) - (f.library - f.declared)
        present = set(TOKEN.findall(f.text))
        alone = {}
        for part, words in ALONE.items():
            if "/crates/" + part in os.path.abspath(f.path) and f.path.endswith(".antt"):
                alone.update({w: n for w, n in words.items() if w in f.declared | f.ours})
        table = {t: turned(t) for t in scope if turned(t) != t} | alone
        by = collections.defaultdict(set)
        for t in present:
            by[table.get(t, t)].add(t)
        for new, olds in sorted(by.items()):
            if len(olds) > 1:
                clashes += 1
                print(f"falls together: {f.path}: {new} from {' '.join(sorted(olds))}")

        def put(m, text=f.text, table=table, f=f):
            t = m[0]
            before = text[: m.start()]
            if before.endswith(".") and not before.endswith(". "):
                head = re.search(r"([^\s(){}.;,@\"«»`:]+)\.$", before)
                if head and head[1] in f.heads:
                    return turned(t)
                return turned(t) if t in fields else t
            if t in table:
                total[t] += 1
                return table[t]
            if t in fields and t not in f.library:
                return turned(t)
            return t

        new = TOKEN.sub(put, f.text)
        if new != f.text:
            changed += 1
            if not check:
                with open(f.path, "w", encoding="utf-8") as out:
                    out.write(new)
    print(f"respell: {len(total)} names, {changed} files, {clashes} that fall together; fields: {' '.join(sorted(fields))}")


main(sys.argv[1:])
