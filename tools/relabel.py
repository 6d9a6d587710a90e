#!/usr/bin/env python3
"""Rewrites the names that the toolchain gives the places, steps and goals of a function, in the crate's proofs/F/Proof.antt.

usage: relabel.py CRATE_FOLDER NAMES.json [FUNCTION..]

NAMES.json is what `rt check --generated FOLDER --old-names` writes in the crate's folder. A file is rewritten once: what already has the
new names is left. What could not be followed is printed.
"""
import json
import os
import re
import sys

CHAIN = re.compile(r"(?<![\w'.⁻-])([A-Za-z_][\w']*(?:-[\w']+)*)((?:\.[A-Za-z0-9_«»'-]+)+)")
START = {"args", "requires", "ranges", "well-formed", "well_formed"}


def canon(s):
    return s.replace("-", "_").lower()


class Places:
    def __init__(self, e):
        self.names = [p[0] for p in e["places"]]
        self.new = e["places_by_name"]
        self.prev = [self.names.index(p[1]) if p[1] in self.names else None for p in e["places"]]
        self.field = [p[2] for p in e["places"]]
        self.subs = [dict(map(tuple, p[4])) for p in e["places"]]
        self.arms = e["arms"]
        # old names can stand twice; the index of a place by its old name
        self.index = {}
        for i, n in enumerate(self.names):
            self.index.setdefault(canon(n), i)

    def path(self, i):
        while i is not None:
            yield i
            i = self.prev[i]

    def inner(self, k):
        """Whether place k is inside an arm that goes on, so that its record has another form."""
        a = self.arms[k]
        if not a:
            return False
        for j, p in enumerate(self.prev):
            if p == k and self.arms[j] and self.arms[j][0] == a[0] and self.arms[j][1] == a[1] + 1:
                return True
        return False

    def closing(self, k):
        """The place at which the arm that place k is inside of is whole, or k."""
        while self.inner(k):
            a = self.arms[k]
            k = next(j for j, p in enumerate(self.prev) if p == k and self.arms[j] and self.arms[j][0] == a[0] and self.arms[j][1] == a[1] + 1)
        return k

    def back(self, i, n):
        for _ in range(n):
            if i is None:
                return None
            i = self.prev[i]
        return i

    def steps(self, i, j):
        """The number of new `.before` from the record of place i to that of place j, or None."""
        n = 0
        while i != j:
            if i is None:
                return None
            if self.arms[i] and not self.inner(i):
                for _ in range(self.arms[i][1]):
                    if i == j:
                        return None
                    i = self.prev[i]
            else:
                i = self.prev[i]
            n += 1
        return n


class Text:
    def __init__(self, e, text, said, drop=False):
        self.e, self.text, self.said, self.drop = e, text, said, drop
        self.p = Places(e)

    def run(self):
        self.text = self.text.replace(".type-inv", ".type_inv").replace(".well-formed", ".well_formed")
        self.text = re.sub(r"\.pre(?![\w-])", ".requires", self.text)
        self.goals()
        blocks = re.split(r"(?m)^(?=\S)", self.text)
        # a signature and its clause belong together
        joined, current = [], ""
        name = None
        for b in blocks:
            m = re.match(r"(?:(?:pub|abbrev|unfoldable) +)*(\S+)", b)
            w = m[1] if m else None
            if w == "unfolding" or (name is not None and w == name):
                current += b
            else:
                joined.append(current)
                current = b
                name = w if re.match(r"(?:(?:pub|abbrev|unfoldable) +)*\S+(?: \{[^\n]*\})* :", b) else None
        joined.append(current)
        return "".join(self.block(b, {}) for b in joined)

    def nested(self, b, env):
        """A module over places: its header's places are known in all that it holds."""
        head, rest = b.split(" where", 1)
        env = dict(env)
        for m in re.finditer(r"\(([\w' ]+) : tie\.([\w-]+)", head):
            for x in m[1].split():
                if m[2] in self.old_places:
                    env[x] = self.old_places[m[2]]
        head = self.rewrite(head, env)
        indent = re.search(r"(?m)^( +)\S", rest)
        if not indent:
            return head + " where" + rest
        pad = indent[1]
        lines = [line[len(pad) :] if line.startswith(pad) else line for line in rest.split("\n")]
        flat = "\n".join(lines)
        parts = re.split(r"(?m)^(?=[^\s-])", flat)
        joined, current, name = [], "", None
        for part in parts:
            m = re.match(r"(?:(?:pub|abbrev|unfoldable) +)*(\S+)", part)
            w = m[1] if m else None
            if w == "unfolding" or (name is not None and w == name):
                current += part
            else:
                joined.append(current)
                current = part
                name = w if re.match(r"(?:(?:pub|abbrev|unfoldable) +)*\S+(?: \{[^\n]*\})* :", part) else None
        joined.append(current)
        done = "".join(self.block(part, env) for part in joined)
        back = "\n".join(pad + line if line.strip() else line for line in done.split("\n"))
        # the first part is what stands behind `where` on its line
        return head + " where" + back[len(pad) if back.startswith(pad) and not rest.startswith(pad) else 0 :]

    def goals(self):
        """Goals by their place in the list that `tie.spec` takes."""
        needs = self.e["needs"]
        by = {}
        for old, new in needs:
            by.setdefault(canon(old), new)
            for prefix in ("overflow_", "nonzero_"):
                by.setdefault(prefix + canon(old), new)
            # both ends of a part of a slice
            by.setdefault(canon("slice_bounds" + old[4:]) if old.startswith("part-") else canon(old), new)
        self.asked = {}
        for (old, new), at in zip(needs, self.e["asked_at"]):
            self.asked[new] = at[0]
        loops = {canon(l[0][0]): l[0][1] for l in self.e["loops"]}
        place = {canon(o): self.p.new[self.p.closing(k)] for k, o in enumerate(self.p.names)}

        def put(m):
            t = m[1]
            if t.startswith("Need-"):
                new = by.get(canon(t[5:]))
                if new is None:
                    self.said.append(f"no goal {t}")
                    return m[0]
                return "tie.Need-" + new
            for head in ("invariant-", "decreases-"):
                if t.startswith(head):
                    new = loops.get(canon(t[len(head) :]))
                    if new is None:
                        self.said.append(f"no loop {t}")
                        return m[0]
                    return "tie." + head + new
            new = place.get(canon(t))
            if new is None:
                if t not in ("spec", "close"):
                    self.said.append(f"no place {t}")
                return m[0]
            self.where[m.start()] = t
            return "tie." + new

        self.where = {}
        self.old_places = {}
        # remember the old place of each `tie.Place` by its new name
        for k, n in enumerate(self.p.new):
            self.old_places.setdefault(n, k)
        self.text = re.sub(r"(?<![\w.-])tie\.([\w-]+)", put, self.text)

    def block(self, b, outer):
        if re.match(r"module _? *", b) and " where" in b:
            return self.nested(b, outer)
        if "tie.spec" in b:
            b = self.inline(b)
        head = re.match(r"(?:(?:pub|abbrev|unfoldable) +)*(\S+)(?: \{[^\n]*\})* : *(.*)", b)
        if not head:
            return b
        env = dict(outer)
        name = head[1]
        need = re.search(r"(?m)^(?:(?:pub|abbrev|unfoldable) +)*" + re.escape(name) + r" : tie\.Need-([\w-]+)", b)
        clause = re.search(r"(?m)^" + re.escape(name) + r"((?: +[^\s=:(→]+)*) +=", b)
        params = clause[1].split() if clause else []
        if need:
            at = self.asked.get(need[1])
            if at is not None and params:
                env[params[0]] = self.p.index[canon(at)] if canon(at) in self.p.index else None
        else:
            signature = b[: clause.start()] if clause else b
            for m in re.finditer(r"\((\w+) : tie\.([\w-]+)", signature):
                if m[2] in self.old_places:
                    env[m[1]] = self.old_places[m[2]]
            m = re.search(r" : tie\.([A-Z][\w-]*)[^→]*→", signature)
            if m and params and m[1] in self.old_places and params[0] not in env:
                env[params[0]] = self.old_places[m[1]]
        return self.rewrite(b, env)

    def inline(self, b):
        """Answers that are written where `tie.spec` takes them, by their place."""
        k = b.index("tie.spec") + len("tie.spec")
        args, i, depth, start = [], k, 0, None
        while i < len(b):
            ch = b[i]
            if ch in "([{":
                if depth == 0 and start is None:
                    start = i
                depth += 1
            elif ch in ")]}":
                if depth == 0:
                    if start is not None:
                        args.append((start, i))
                    start = None
                    break
                depth -= 1
                if depth == 0 and start is not None and b[start] == "(":
                    args.append((start, i + 1))
                    start = None
            elif ch.isspace():
                if depth == 0 and start is not None:
                    args.append((start, i))
                    start = None
            elif depth == 0 and start is None:
                start = i
            i += 1
        if start is not None:
            args.append((start, i))
        loops = len(self.e["loops"])
        needs = self.e["needs"]
        if len(args) == len(needs) + 2 * loops:
            args = args[2 * loops :]
        elif len(args) != len(needs):
            self.said.append(f"{len(args)} answers for {len(needs)} goals")
            return b
        for (x, y), at in reversed(list(zip(args, self.e["asked_at"]))):
            t = b[x:y]
            m = re.match(r"\(λ ([\w']+)", t)
            if m and canon(at[0]) in self.p.index:
                b = b[:x] + self.rewrite(t, {m[1]: self.p.index[canon(at[0])]}) + b[y:]
        return b

    def rewrite(self, b, env):
        # let-bound contexts
        out, last = [], 0
        pattern = re.compile(r"\blet +([\w'-]+)(?: : [^=\n]*)? = ([\w'-]+)((?:\.before)*) in\b|" + CHAIN.pattern)
        for m in pattern.finditer(b):
            out.append(b[last : m.start()])
            last = m.end()
            if m[1]:
                x, y, n = m[1], m[2], m[3].count(".before")
                if y in env:
                    i, at = env[y], self.p.back(env[y], 0 if self.drop else n)
                    k, j = self.record(i, at)
                    env[x] = j
                    out.append(f"let {x} = {y}{'.before' * k} in")
                else:
                    env.pop(x, None)
                    out.append(m[0])
            else:
                out.append(self.chain(m[4], m[5], env, m[0]))
        out.append(b[last:])
        return "".join(out)

    def record(self, i, at):
        """New steps from place i to a record from which place `at` can be seen, and its place."""
        if self.drop:
            return 0, i
        if at is None:
            return 0, i
        k = self.p.steps(i, at)
        if k is not None:
            return k, at
        best = (0, i)
        for j in self.p.path(i):
            if j == at:
                break
            k = self.p.steps(i, j)
            if k is not None:
                best = (k, j)
        self.said.append(f"place {self.p.names[at]} is inside an arm")
        return best

    def chain(self, x, rest, env, whole):
        comps = rest[1:].split(".")
        if x not in env:
            if "before" in comps:
                self.said.append(f"not followed: {whole}")
            return whole
        i = env[x]
        n = 0
        while comps and comps[0] == "before":
            comps.pop(0)
            n += 1
        if self.drop:
            n = 0
        at = self.p.back(i, n)
        if at is None:
            self.said.append(f"too far back: {whole}")
            return whole
        if not comps:
            k, j = self.record(i, at)
            return x + ".before" * k
        f = comps[0]
        if f in START:
            comps[0] = f.replace("-", "_")
            return ".".join([x, *comps])
        path = list(self.p.path(at))
        for name in (canon(f), canon(f).removesuffix("_lem")):
            for q in path:
                if canon(self.p.field[q][0]) == name and self.p.field[q][0]:
                    return self.step(x, i, q, comps, whole)
        self.said.append(f"no step {f}: {whole}")
        return whole

    def step(self, x, i, q, comps, whole):
        p = self.p
        old, new = p.field[q]
        rest = comps[1:]
        if p.arms[q] and not (p.inner(i) and q in self.same_arm(i)):
            # the closing place of q's arm on the path of i
            close = q
            for j in p.path(i):
                if p.arms[j] and p.arms[j][0] == p.arms[q][0] and p.arms[j][1] >= p.arms[q][1] and q in self.same_arm(j):
                    close = j
                    break
            arm, depth, entries = p.arms[close]
            best = None
            for field, step, path in entries:
                if canon(step) == canon(old) and path == rest[: len(path)]:
                    if best is None or len(path) > len(best[1]):
                        best = (field, path)
            if best is None:
                self.said.append(f"no part of arm {arm}: {whole}")
                return ".".join([x, arm, *comps])
            return ".".join([x, arm, best[0], *rest[len(best[1]) :]])
        if rest and rest[0] in p.subs[q]:
            rest = [p.subs[q][rest[0]], *rest[1:]]
        return ".".join([x, new, *rest])

    def same_arm(self, j):
        p = self.p
        out = []
        d = p.arms[j][1] if p.arms[j] else 0
        for _ in range(d):
            out.append(j)
            j = p.prev[j]
        return out


def main(folder, names, *dropped):
    with open(names) as f:
        table = json.load(f)
    for key, e in table.items():
        if "places" not in e:
            continue
        m = re.fullmatch(r"Rattle-\w+-proofs\.(.*)\.Lts", key)
        path = os.path.join(folder, "proofs", *m[1].split("."), "Proof.antt")
        if not os.path.exists(path):
            continue
        with open(path) as f:
            text = f.read()
        said = []
        try:
            new = Text(e, text, said, m[1] in dropped).run()
        except Exception as ex:
            said.append(f"failed: {ex!r}")
            new = text
        for s in said:
            print(f"{path}: {s}")
        if new != text:
            with open(path, "w") as f:
                f.write(new)


main(*sys.argv[1:])
