#!/usr/bin/env python3
"""Brings the must-fail edits to today's spelling: the same change, of the same line, in today's words.

usage: tools/port_edits.py [--check] [CRATE..]     at the top of the repository; with --check nothing is written

An edit is read as it stood at the commit OLDER, beside the files that it changed there. How today's files spell the older words is
learnt from all lines that say the same in both. An edit is written where the turned texts stand in today's file and change its words as the
older texts changed the older words; one that does so as it stands is left alone. The rest are named, to be done by hand:
`stands` (a text does not stand exactly once), `words` (the changes differ). With --look the older texts are listed beside today's.
"""
import collections
import difflib
import glob
import os
import re
import subprocess
import sys

OLDER = "03769b2b"
CHECK, LOOK = "--check" in sys.argv, "--look" in sys.argv
ONLY = [a for a in sys.argv[1:] if not a.startswith("-")]
TOKEN = re.compile(r'\s+|"(?:[^"\\\n]|\\.)*"|[(){}\[\],;]|[^\s(){}\[\],;"]+')
PIECE = re.compile(r'"(?:[^"\\\n]|\\.)*"|[(){}\[\],;]|\.?[^\s(){}\[\],;".]+|\.')
CLOSES = {"(": ")", "{": "}", "[": "]"}
STOPS = re.compile(r"[^\w.'`\"(\[{]|.*[.,]$|(?:in|let|where|then|else|return|as|use)$")
NAMES = re.compile(r"(?:ghost )?use ([^\s{}]+)\.\{([^}]*)\};?")
# What the clauses of a contract no longer write, and what stands for it: `now (x .entry)` is `x.now` or `x.old`.
CLAUSE = {"(", ")", "now", ".now", ".entry", ".exit", ".old", ".new"}


def older_file(path, kept={}):
    if path not in kept:
        r = subprocess.run(["git", "show", f"{OLDER}:{path}"], capture_output=True, text=True)
        kept[path] = r.stdout
    return kept[path]


def today_file(path, kept={}):
    if path not in kept:
        kept[path] = open(path, encoding="utf8").read() if os.path.exists(path) else ""
    return kept[path]


def pairs(text):
    """The pairs (file, old, new) of an edit."""
    out, file, old = [], None, None
    for line in text.split("\n"):
        if line.startswith("file: "):
            file = line[6:]
        elif line.startswith("old: "):
            old = line[5:]
        elif line.startswith("new:"):
            out.append((file, old, line[5:]))
    return out


def edited(found, read, folder):
    """Each file that the pairs change, before and after; None where a text does not stand exactly once."""
    before, after = {}, {}
    for file, old, new in found:
        if file not in before:
            before[file] = after[file] = read(f"{folder}/{file}")
        if after[file].count(old) != 1:
            return None
        after[file] = after[file].replace(old, new)
    return {f: (before[f], after[f]) for f in before}


def tight(text):
    """A text with its projections written tight: `(x .f)` is `x.f`, and `g x .f` is `(g x).f`."""
    words = TOKEN.findall(text)

    def group(i, close):
        # Items are (space before, text, whether it is one word), and spine is where the last application begins.
        items, spine, space = [], 0, ""
        while i < len(words) and words[i] != close:
            w, i = words[i], i + 1
            if w.isspace():
                space = w
                continue
            if w in CLOSES:
                inner, i = group(i, CLOSES[w])
                closed, trail = i < len(words), words[i - 1] if words[i - 1].isspace() else ""
                if w == "(" and closed and len(inner) == 1 and inner[0][2] and (space or not items):
                    items.append((space, inner[0][1], True))
                else:
                    items.append((space, w + "".join(s + t for s, t, _ in inner) + trail + (CLOSES[w] if closed else ""), w == "("))
                i += closed
            elif re.match(r"\.[\w']", w) and len(items) > spine and (space or items[-1][2]):
                if space and len(items) - spine > 1:
                    of = "".join(s + t for s, t, _ in items[spine:])[len(items[spine][0]) :]
                    items[spine:] = [(items[spine][0], f"({of})", True)]
                items[-1] = (items[-1][0], items[-1][1] + w, True)
            else:
                items.append((space, w, bool(re.match(r"[\w\"]", w))))
                if STOPS.match(w):
                    spine = len(items)
            space = ""
        return items, i

    out, i = "", 0
    while i < len(words):
        inner, i = group(i, None)
        out += "".join(s + t for s, t, _ in inner)
    return out + (words[-1] if words and words[-1].isspace() else "")


def plain(text):
    """A text without the marks of the older clauses and paths."""
    text = re.sub(r"Rattle·(\w+)·(specs|proofs)\.\2", r"Rattle.\1.\2", text).replace("Rattle·", "Rattle.")
    return tight(text.replace("⌜ ", "").replace(" ⌝", ""))


def pieces(text):
    return PIECE.findall(plain(text))


def folded(piece):
    return re.sub(r"[-_·◌]", "", piece.replace("′", "'")).lower()


class Words:
    """How today's files spell the older words: in this file, else in most."""

    def __init__(self):
        self.all = collections.defaultdict(collections.Counter)
        self.here = collections.defaultdict(lambda: collections.defaultdict(collections.Counter))

    def learn(self, path):
        # (laws that moved are read where they stood)
        was = older_file(path) or older_file(path.replace("/proofs/", "/specs/"))
        a, b = [[pieces(l) for l in text.split("\n")] for text in (was, today_file(path))]
        keys = [[" ".join(map(folded, l)) for l in file] for file in (a, b)]
        for tag, i, j, k, l in difflib.SequenceMatcher(None, *keys, autojunk=False).get_opcodes():
            for x, y in zip(a[i:j], b[k:l]) if j - i == l - k else []:
                if len(x) == len(y) and (tag == "equal" or sum(folded(p) != folded(q) for p, q in zip(x, y)) <= 2):
                    for p, q in zip(x, y):
                        self.all[p][q] += 1
                        self.here[path][p][q] += 1

    def turn(self, piece, path):
        for learnt in (self.here[path], self.all):
            if piece in learnt:
                return learnt[piece].most_common(1)[0][0]
        if piece.startswith('"') or not re.search(r"\w", piece):
            return piece
        return re.sub(r"(?<=[\w'])-(?=[^\W\d])", "_", piece).replace("′", "'")

    def spell(self, text, path):
        return PIECE.sub(lambda m: self.turn(m.group(0), path), plain(text))


def brought(text):
    return {n.split(" as ")[0].strip() for _, names in NAMES.findall(text) for n in names.split(",")} - {""}


def change(before, after, spell=str):
    """What an edit does to a file: the words that go and come in each line, but those that bring names."""
    out = []
    for x, y in zip(before.split("\n"), after.split("\n")):
        if x != y and not NAMES.match(x):
            clause = re.match(r"\s*(?:requires|ensures)\b", x)
            x, y = ([p for p in pieces(spell(l)) if not (clause and p in CLAUSE)] for l in (x, y))
            for tag, i, j, k, l in difflib.SequenceMatcher(None, x, y, autojunk=False).get_opcodes():
                if tag != "equal":
                    out.append((" ".join(x[i:j]), " ".join(y[k:l])))
    return out


def main():
    words, said = Words(), collections.Counter()
    for path in sorted(path for files in ("specs/**/*.antt", "proofs/laws/**/*.antt", "src/**/*.rt") for path in glob.glob(f"crates/*/{files}", recursive=True)):
        words.learn(path)
    homes = collections.defaultdict(collections.Counter)
    for path in glob.glob("crates/*/specs/**/*.antt", recursive=True):
        for module, names in NAMES.findall(today_file(path)):
            for n in names.split(","):
                homes[n.strip()][module] += 1
    for path in sorted(glob.glob("crates/*/must-fail/*.edit")):
        folder = "/".join(path.split("/")[:2])
        if ONLY and os.path.basename(folder) not in ONLY:
            continue
        was, now = pairs(older_file(path)), pairs(open(path, encoding="utf8").read())
        spell = lambda text, f: words.spell(text, f"{folder}/{f}")
        wanted, names = {}, {}
        for f, (b, a) in edited(was, older_file, folder).items():
            wanted[f] = change(b, a, lambda l: spell(l, f))
            more = brought(a) - brought(b)
            names[f] = {words.turn(n, f"{folder}/{f}") for n in more} - brought(today_file(f"{folder}/{f}"))

        def fits(found):
            made = edited(found, today_file, folder)
            if made is None or any(re.search(r"\s\.\w", n) and not re.match(r"\s*\.", n) for _, _, n in found):
                return "stands"
            also = {new: old for _, _, n in found for old, new in re.findall(r"([\w-]+) as ([\w-]+)[,}]", n)}
            paths = {n for _, _, new in found for n in re.findall(r"Rattle[.\w]*\.specs\.\w+\.(\w+)", new)}
            meant = lambda l: PIECE.sub(lambda m: also.get(m.group(0), m.group(0)), re.sub(r"Rattle[.\w]*\.specs\.\w+\.(?=\w)", "", l))
            same = set(made) == set(wanted) and all(change(b, a, meant) == wanted[f] and names[f] - paths <= brought(a) - brought(b) for f, (b, a) in made.items())
            return "" if same else "words"

        why, turned = fits(now), None
        if why:
            turned = [(f, spell(o, f), spell(n, f)) for f, o, n in was if not NAMES.match(o) and not re.fullmatch(r"[\w.]*\{[^}]*\}", o)]
            for f, more in names.items():
                here = {m for m, _ in NAMES.findall(today_file(f"{folder}/{f}"))}
                beside = collections.defaultdict(list)
                for n in sorted(more):
                    beside[next((m for m, _ in homes[n].most_common() if m in here), None)].append(n)
                for m, found in sorted(beside.items(), key=str):
                    head = str(m).split(".")[-1] + ".{"
                    turned.append((f, head, head + ", ".join(found) + ","))
            why = fits(turned)
            if not why:
                said["turned"] += 1
                if not CHECK:
                    head = [l for l in older_file(path).split("\n") if l.startswith("#")]
                    lines = head + [l for f, o, n in turned for l in (f"file: {f}", f"old: {o}", f"new: {n}")]
                    with open(path, "w", encoding="utf8") as it:
                        it.write("\n".join(lines) + "\n")
            else:
                said["left"] += 1
                print(f"{why}: {path}")
        else:
            said["fits"] += 1
        if why or LOOK and (turned or was != now):
            print("\n".join(f"  was {o}\n      {n}" for _, o, n in was))
            print("\n".join(f"  now {o}\n      {n}" for _, o, n in turned or now))
    print(", ".join(f"{n} {k}" for k, n in sorted(said.items())))


if __name__ == "__main__":
    main()
