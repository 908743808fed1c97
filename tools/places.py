#!/usr/bin/env python3
"""Where the sources of the crates are written as an older Rattle had it: docs/DESIGN-PASS.md counts by this.

    tools/places.py            counts by point
    tools/places.py 3          the places of a point, one a line

It goes by text. A place that stays has its reason in a comment beside it; this finds it all the same."""
import collections
import pathlib
import re
import sys

ROOT = pathlib.Path(__file__).resolve().parent.parent
FILES = sorted(ROOT.glob("crates/*/src/**/*.rt"))
WIDTHS = r"(?:u8|u16|u32|u64|usize|i32|i64)"


def lines():
    for path in FILES:
        for number, line in enumerate(path.read_text().split("\n"), 1):
            yield path, number, line


def functions():
    """Each function: its file, line, name, signature, clauses and body."""
    head = re.compile(r"^( *)(?:pub(?:\(crate\))? )?fn (\w+)", re.M)
    for path in FILES:
        text = path.read_text()
        for m in head.finditer(text):
            brace = re.compile(r"^" + m[1] + r"\{$|\{$", re.M)
            end = re.compile(r"^" + m[1] + r"\}$", re.M).search(text, m.end())
            whole = text[m.start() : end.end() if end else len(text)]
            parts = re.split(r"^" + m[1] + r"\{$", whole, maxsplit=1, flags=re.M)
            if len(parts) == 1:
                parts = re.split(r"\{\n", whole, maxsplit=1)
            signature = parts[0]
            body = parts[1] if len(parts) > 1 else ""
            yield path, text.count("\n", 0, m.start()) + 1, m[2], signature, body


def structs():
    for path in FILES:
        text = path.read_text()
        for m in re.finditer(r"^(?:pub )?(struct|enum) (\w+)[^\n]*\{\n(.*?)^\}", text, re.M | re.S):
            yield path, text.count("\n", 0, m.start()) + 1, m[1], m[2], m[3]


def matching(pattern, say=lambda m: m[0]):
    want = re.compile(pattern)
    for path, number, line in lines():
        code = line.split("//")[0]
        if "ghost use" in code or re.match(r"\s*(requires|ensures)", code):
            continue
        for m in want.finditer(code):
            yield path, number, say(m).strip()


def point1():
    for path, number, kind, name, body in structs():
        variants = [v.strip(" ,") for v in body.split("\n") if v.strip() and not v.strip().startswith("//")]
        if kind == "enum" and len(variants) in (2, 3) and sum("(" in v or "{" in v for v in variants) == 1:
            yield path, number, f"enum {name}: {', '.join(variants)}"
        if kind == "struct" and re.search(r"\b(over|ends|picks|below|found|good|done|there|bad)\w*: bool", body):
            yield path, number, f"struct {name}: a flag with values"
        if kind == "struct" and re.search(r"\b(stop|number|refusal): (u32|usize)", body):
            yield path, number, f"struct {name}: a number for a refusal"
    yield from matching(r"if !?[\w.]+\.(stop|number) != 0")


def point2():
    shapes = collections.defaultdict(list)
    for path, number, name, _, body in functions():
        if body.count("\n") < 4:
            continue
        shape = re.sub(r"//.*", "", body)
        shape = re.sub(r'b?"[^"]*"|\b\d\w*\b', "N", shape)
        shape = re.sub(r"\b[A-Z]\w*(::[A-Z]\w*)?\b", "T", shape)
        keep = "let|mut|if|else|while|for|in|loop|match|return|as|true|false|Some|None|Ok|Err"
        shape = re.sub(r"\b(?!(?:%s|N|T)\b)[a-z_]\w*\b" % keep, "x", shape)
        shapes[re.sub(r"\s+", " ", shape)].append((path, number, name))
    for same in shapes.values():
        if len(same) > 1:
            for path, number, name in same:
                yield path, number, f"{name}: as {', '.join(n for _, _, n in same if n != name) or name}"


def point3():
    yield from matching(r"^\s*(while .*|loop) \{$")


def point4():
    yield from matching(r"[\w.\])]+ as " + WIDTHS)
    for path, number, name, signature, body in functions():
        if re.search(r"->\s*bool", signature) and len(re.findall(r"\.(\w+) != \w+\.\1\b", body)) > 1:
            yield path, number, f"{name}: fields compared one by one"


def point5():
    groups = collections.Counter()
    where = {}
    for path, number, name, signature, _ in functions():
        names = re.findall(r"(\w+): ", re.split(r"\b(?:requires|ensures)\b", signature)[0])
        for group in (("nodes", "work", "cap", "count"), ("horizon", "nodes", "stages"), ("text", "i"), ("words", "stages")):
            if all(n in names for n in group):
                yield path, number, f"{name}: {', '.join(group)}"


def point6():
    for path, number, kind, name, body in structs():
        if kind == "struct" and re.search(r": \[", body) and re.search(r"\b(len|count|used|size|levels): ", body):
            yield path, number, f"struct {name}: an array with a length beside it"


def point7():
    yield from matching(r"if op (==|!=|<|>|<=|>=) \w+")
    yield from matching(r"if \w*\.?(kind|command|byte) == \w+ \{")


def point8():
    for path in sorted(ROOT.glob("crates/*/proofs/**/Answers.antt")):
        for number, line in enumerate(path.read_text().split("\n"), 1):
            if re.match(r"pub [\w\-']+ : goal\.", line):
                yield path, number, line[4:].split(" ")[0]


POINTS = [point1, point2, point3, point4, point5, point6, point7, point8]


def main():
    if len(sys.argv) > 1:
        for path, number, said in POINTS[int(sys.argv[1]) - 1]():
            print(f"{path.relative_to(ROOT)}:{number}: {said}")
        return
    for i, point in enumerate(POINTS, 1):
        print(i, sum(1 for _ in point()))


main()
