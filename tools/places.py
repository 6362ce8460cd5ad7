#!/usr/bin/env python3
"""Lists the places of each point of docs/DESIGN-PASS.md in the crates' sources.

usage: places.py [--list] [FOLDER]     counts by point and crate, and with --list each place; FOLDER is a checkout, this one if left out
"""
import collections
import os
import re
import sys

args = [a for a in sys.argv[1:] if a != "--list"]
if "-h" in args or "--help" in args or len(args) > 1:
    print(__doc__.strip())
    sys.exit(0 if len(args) <= 1 else 2)
root = args[0] if args else os.path.join(os.path.dirname(os.path.abspath(__file__)), "..")
crates = os.path.join(root, "crates")
if not os.path.isdir(crates):
    sys.exit(f"places.py: no folder crates in {root}")

places = collections.defaultdict(list)  # point -> [(crate, file, what)]
functions = []  # (crate, file, name, params, result, body)

FN = re.compile(r"(?m)^( *)(?:pub(?:\([a-z]+\))? )?(?:extern \"C\" )?fn (\w+)(?:<[^>]*>)?\(")
ENUMS = r"(?:RefType|LoadKind|StoreKind|PageSize|IndexType|Width|Number|Word)"
INT = r"(?:u8|u16|u32|u64|usize|bool)"


def bare(text):
    """The text without comments, contracts and ghost items."""
    text = re.sub(r"(?m)//[^\n]*", "", text)
    text = re.sub(r"(?ms)^\s*(?:requires|ensures)\b[^\n{]*\{(?:[^{}]|\{[^{}]*\})*\}\s*$", "", text)
    return re.sub(r"(?m)^\s*ghost use [^\n]*", "", text)


def matching(text, i, open_, close):
    depth = 0
    for k in range(i, len(text)):
        if text[k] == open_:
            depth += 1
        elif text[k] == close:
            depth -= 1
            if depth == 0:
                return k
    return len(text)


def split(params):
    out, depth, cur = [], 0, ""
    for ch in params:
        depth += ch in "<([" 
        depth -= ch in ">)]"
        if ch == "," and depth == 0:
            out.append(cur.strip())
            cur = ""
        else:
            cur += ch
    return [p for p in out + [cur.strip()] if p]


for crate in sorted(os.listdir(crates)):
    src = os.path.join(crates, crate, "src")
    for folder, _, files in sorted(os.walk(src)):
        for name in sorted(files):
            if not name.endswith(".rt"):
                continue
            path = os.path.join(folder, name)
            text = bare(open(path, encoding="utf-8").read())
            at = f"{crate}/{os.path.relpath(path, src)}"
            add = lambda point, what: places[point].append((crate, at, what))
            # 1: enums of the shape of Option or Result
            for m in re.finditer(r"enum (\w+) \{(.*?)\n\}", text, re.S):
                cases = split(re.sub(r"\s+", " ", m.group(2)))
                if len(cases) == 2 and any("(" in c for c in cases) and all(c.count("(") <= 1 and "{" not in c for c in cases):
                    add("1a", f"enum {m.group(1)}")
            # 1: a flag with values beside it
            for m in re.finditer(r"struct (\w+)(?:<[^>]*>)? \{(.*?)\n\}", text, re.S):
                fields = split(re.sub(r"\s+", " ", m.group(2)))
                flags = [f.split(":")[0].replace("pub ", "").strip() for f in fields if re.search(r": bool$", f)]
                if flags and len(fields) > 1:
                    add("1b", f"struct {m.group(1)}: {', '.join(flags)}")
                # 6: a count beside an array or numbered fields
                if any(re.match(r"(?:pub )?(?:count|len|size): ", f) for f in fields) and any(re.search(r": \[|first|digits", f) for f in fields):
                    add("6", f"struct {m.group(1)}")
            # 1: a bare number for a refusal
            for m in re.finditer(r"number: (\d+)|(?:refused|refuses|not_spanned|unchanged|refuse)\((?:words, )?(\d+)", text):
                add("1c", m.group(0))
            # 3: loops by index
            for m in re.finditer(r"(?m)^ *while .*$", text):
                add("3", m.group(0).strip())
            for m in FN.finditer(text):
                i = text.index("(", m.end() - 1)
                j = matching(text, i, "(", ")")
                k = text.index("{", j) if "{" in text[j:] else len(text)
                end = matching(text, k, "{", "}")
                params = split(re.sub(r"\s+", " ", text[i + 1:j]))
                result = text[j + 1:k].strip()
                body = text[k:end + 1]
                functions.append((crate, at, m.group(2), params, result, body))
                # 1: a number that stands for none or for a refusal
                if re.fullmatch(r"-> (?:u8|u64|usize)", result) and re.search(r"return (?:0|19|18);", body):
                    add("1d", f"fn {m.group(2)} {result}")
                # 4: equality, order and conversions by hand
                if m.group(2) in ("same", "eq", "min", "max", "cmp", "unsigned", "signed64"):
                    add("4", f"fn {m.group(2)}")
                elif len(params) == 1 and re.fullmatch(rf"-> {ENUMS}", result) and re.search(rf": {INT}$", params[0]):
                    add("4", f"fn {m.group(2)}({params[0]}) {result}")
                elif len(params) == 1 and re.fullmatch(rf"-> {INT}", result) and re.search(rf"(?:: |^){ENUMS}$|: bool$", params[0]):
                    add("4", f"fn {m.group(2)}({params[0]}) {result}")
                # 5: parameters that travel together
                if len(params) >= 6:
                    add("5", f"fn {m.group(2)} with {len(params)} parameters")
                # 7: a flag that chooses the code
                if any(re.search(r"\w+: bool$", p) for p in params) and re.search(r"\bif !?(?:" + "|".join(p.split(":")[0].strip() for p in params if p.endswith(": bool")) + r")\b", body):
                    add("7", f"fn {m.group(2)}")

# 2: functions that are one but for the names of a type, a width or a constant
KIN = [(r"\b(?:memory|table|segment|memories|tables|segments|Memory|Table|ElementSegment|byte|cell|item|bytes|cells|items|page|pages)\b", "X"), (r"_(?:memory|table|segment|memories|tables|segments|byte|cell|item|bytes|cells|items|pages)\b", "_X"), (r"\b(?:memory|table|segment|memories|tables|segments|byte|cell|item|made|no|put|new|sound)_(?=\w)", "X_"),
       (r"[A-Z]\w*(?:Memory|Table|Segment)\b", "X"), (r"\b(?:u8|u64|u32|f32|f64|i32|i64)\b", "T"), (r"\b\w*(?:32|64)\w*\b", "W"), (r"\b\d+\b", "0"), (r"\b[A-Z][A-Z0-9_]+\b", "C"), (r"\b(?:room|places|size)\b", "S"), (r"\b(?:ty|element|index)\b", "F")]
seen = collections.defaultdict(list)
for crate, at, name, params, result, body in functions:
    key = body
    for pattern, word in KIN:
        key = re.sub(pattern, word, key)
    key = re.sub(r"\s+", " ", key)
    if len(key) > 24:
        seen[crate if crate in ("edges", "timing", "yshankelt") else "core", key].append((crate, at, name))
for group in seen.values():
    if len(group) > 1 and len({n for _, _, n in group} | {a for _, a, _ in group}) > 1:
        for crate, at, name in group:
            others = ", ".join(n for c, a, n in group if (a, n) != (at, name))
            places["2"].append((crate, at, f"fn {name}, as {others}"))

# 8: answers
for crate in sorted(os.listdir(crates)):
    for folder, _, files in os.walk(os.path.join(crates, crate, "proofs")):
        for name in files:
            if name == "Answers.antt":
                path = os.path.join(folder, name)
                text = open(path, encoding="utf-8").read()
                for m in re.finditer(r"(?m)^pub \S+ : goal\.", text):
                    places["8"].append((crate, os.path.relpath(path, crates), m.group(0)))

names = sorted({c for p in places.values() for c, _, _ in p})
TITLES = {
    "1a": "enums of the shape of Option or Result", "1b": "flags with values beside them", "1c": "bare numbers for refusals", "1d": "numbers for none or a refusal",
    "2": "functions that differ in a name", "3": "loops by index (while)", "4": "equality, order, conversion by hand", "5": "functions of six or more parameters",
    "6": "buffers with a length beside", "7": "flags that choose the code", "8": "answers in Answers.antt",
}
for point in TITLES:
    by = collections.Counter(c for c, _, _ in places[point])
    print(f"{point:3} {len(places[point]):4}  {TITLES[point]}: " + ", ".join(f"{c} {n}" for c, n in sorted(by.items())))
    if "--list" in sys.argv and point != "8":
        for crate, at, what in places[point]:
            print(f"        {at}: {what}")
