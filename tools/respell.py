#!/usr/bin/env python3
"""Brings the repository's own definitions and lemmas to one spelling: words in snake case, types and facts in camel case.

usage: tools/respell.py [--check] [FOLDER]     FOLDER holds crates/; run once, behind port.py

Names of the library, of the source, strings, inputs and outputs keep theirs. With --check it lists names that would fall together.
"""
import collections
import glob
import os
import re
import sys

CHECK = "--check" in sys.argv
ROOT = ([a for a in sys.argv[1:] if not a.startswith("-")] or ["."])[0]
# A name ends where a bracket, a space, a dot or a quote does.
EDGE = r"[^\s(){}\[\],;.`\"λ«»|:]"
DEFINED = re.compile(r"^\s*(?:pub |abbrev |unfoldable )*(" + EDGE + r"+)(?: \{[^}]*\})? :(?: |$)")
HEADED = re.compile(r"^\s*(?:pub |abbrev |unfoldable )*(?:record|data|ruleset) (" + EDGE + "+)")
BROUGHT = re.compile(r"^use ([\w.+'·-]+?)\.\{(.*)\}", re.M)
ALIAS = re.compile(r"^use (\S+) as (\S+)", re.M)
ANSWERS = re.compile(r"^(" + EDGE + r"+) : tie\.", re.M)


def files(root):
    for f in sorted(glob.glob(os.path.join(root, "crates/*/**/*"), recursive=True)):
        if f.endswith((".antt", ".rt")) and "/out/" not in f:
            yield f


def respelled(name):
    """The name's spelling today; the same name where it has it."""
    if re.fullmatch(r"[A-Z].*", name):
        parts = re.split(r"[-_](?=[A-Za-z])", name)
        return parts[0] + "".join(p[0].upper() + p[1:] for p in parts[1:])
    snake = re.sub(r"(?<=[\w'ℕℤ₀-₉⊕])-(?=[\w'ℕℤ])", "_", name)
    if re.fullmatch(r"[a-z][a-z0-9]*(?:[A-Z][a-z0-9]*)+", snake):
        snake = re.sub(r"([a-z0-9])([A-Z])", r"\1_\2", snake).lower()
    return snake


def is_own(module, crates):
    m = re.match(r"Rattle\.(\w+)\.", module + ".")
    return bool(m) and m.group(1) in crates


def main():
    crates = {os.path.basename(c) for c in glob.glob(os.path.join(ROOT, "crates/*"))}
    text = {f: open(f, encoding="utf8").read() for f in files(ROOT)}
    own, library = set(), set()
    for f, t in text.items():
        if not f.endswith(".antt"):
            continue
        asked = set(ANSWERS.findall(t))
        for line in t.split("\n"):
            m = HEADED.match(line) or DEFINED.match(line)
            if m and m.group(1) not in asked:
                own.add(m.group(1))
        for module, names in BROUGHT.findall(t):
            if not is_own(module, crates):
                library |= {n.strip().split(" as ")[0] for n in names.split(",")}
    new = {n: respelled(n) for n in own if n not in library and respelled(n) != n}
    tokens = re.compile(r"(?<!" + EDGE + ")(" + EDGE + r"+)")
    skipped = re.compile(r"\"(?:[^\"\\\n]|\\.)*\"")
    clash = collections.defaultdict(set)
    taken = {n for n in own if n not in new} | library
    back = collections.defaultdict(set)
    for a, b in new.items():
        back[b].add(a)
    count = 0
    for f, t in text.items():
        foreign = {a for m, a in ALIAS.findall(t) if not is_own(m, crates)}
        said = set(tokens.findall(t))

        def turned(m):
            name = m.group(1)
            if name not in new:
                return name
            before = t[max(0, m.start() - 60) : m.start()]
            q = re.search(r"([^\s(){}\[\],;`\"λ]+)\.$", before)
            if q and (q.group(1) in foreign or q.group(1) == "tie"):
                return name
            return new[name]

        for a in said & set(new):
            if new[a] in said or (back[new[a]] & said) - {a}:
                clash[(a, new[a])].add(f)
        out, at = [], 0
        for s in skipped.finditer(t):
            out.append(t[at : s.start()]), out.append(None), out.append(s.group(0))
            at = s.end()
        # Strings stay: they are cut out, and the rest is turned with its place known.
        spans = [(s.start(), s.end()) for s in skipped.finditer(t)]

        def outside(m):
            for a, b in spans:
                if a <= m.start() < b:
                    return m.group(1)
            return turned(m)

        u = tokens.sub(outside, t)
        if u != t:
            count += 1
            if not CHECK:
                with open(f, "w", encoding="utf8") as it:
                    it.write(u)
    print(len(new), "names in", count, "files")
    for (a, b), where in sorted(clash.items()):
        print("clash", a, b, len(where), sorted(where)[0])
    for b, a in sorted(back.items()):
        if len(a) > 1 or b in taken:
            print("together", b, sorted(a), b in taken)


if __name__ == "__main__":
    main()
