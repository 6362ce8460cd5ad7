#!/usr/bin/env python3
"""Spells this repository's own definitions and lemmas as the installed Rattle does: words in snake case, types in camel case.

usage: python3 tools/respell.py [FOLDER]     after port.py, once, in a repository at FOLDER (this one)

Names go by tools/respelled.tsv, beside this file. Two names that would fall together: the definition takes the spelling, and the lemma
gets _lem (CLASHES below, by file). What follows c, w, l, g, goal or tie by a dot is a name that the check makes, and stays;
so does the name of a goal that a Proof.antt declares. Names of src/, C names, strings, inputs and outputs are not in the table.
It turns .antt and .rt files, must-fail edits, and code spans of pages.
"""
import os
import re
import sys

HERE = os.path.dirname(os.path.realpath(__file__))
TOP = os.path.realpath(sys.argv[1]) if len(sys.argv) > 1 else os.path.dirname(HERE)
NAME = r"[^\s(){}.;,@\"«»`]+"
CHAIN = re.compile(rf"{NAME}(?:\.{NAME})*")
MADE = {"c", "w", "l", "g", "goal", "tie"}

# a lemma that already had the spelling which a definition now takes, in the files that speak of the lemma
CLASHES = {
    "crates/yshankelt/proofs/Tells.antt": {"turn_in": "turn_in_lem"},
    "crates/lines/proofs/CodeLaws.antt": {"by_code": "by_code_lem"},
    "crates/lines/proofs/code/operation_by/Proof.antt": {"by_code": "by_code_lem"},
    "crates/machine/proofs/Touched.antt": {"table_at": "table_at_lem"},
    "crates/claims/proofs/Left.antt": {"made_table": "made_table_lem"},
    "crates/claims/proofs/Agreeing.antt": {"made_table": "made_table_lem"},
    "crates/claims/proofs/Ledger.antt": {"memory_kept": "memory_kept_lem", "table_kept": "table_kept_lem"},
    "crates/lent/proofs/GrowthLaws.antt": {"memory_kept": "memory_kept_lem", "table_kept": "table_kept_lem"},
    "crates/memory/proofs/Frames.antt": {"made_by": "made_by_lem"},
    "crates/table/proofs/Frames.antt": {"made_by": "made_by_lem"},
    "crates/table/proofs/Copies.antt": {"same_kind": "same_kind_lem"},
    # and a name for a module of variants, which now is a definition's
    "crates/machine/proofs/Written.antt": {"made-memory": "making_memory", "made-table": "making_table", "made-segment": "making_segment"},
    "crates/claims/proofs/Alike.antt": {"made-segment": "making_segment"},
}
# a value in a walk by hand, which is no definition of specs/
CLASHES_BELOW = {"crates/lent/proofs/": {"record_of": "record_val"}}


def table():
    with open(os.path.join(HERE, "respelled.tsv"), encoding="utf-8") as f:
        return dict(line.rstrip("\n").split("\t") for line in f if line.strip())


def turned(text, names, stay=()):
    def chain(m):
        parts = m[0].split(".")
        if parts[0] in MADE and len(parts) > 1:
            return m[0]
        return ".".join(p if p in stay else names.get(p, p) for p in parts)

    return CHAIN.sub(chain, text)


def main():
    names = table()
    spans = re.compile(r"`[^`\n]+`")
    for root, dirs, files in os.walk(TOP):
        dirs[:] = sorted(d for d in dirs if d not in ("out", ".git", "target", "oracle"))
        for file in sorted(files):
            path = os.path.join(root, file)
            if os.path.islink(path) or os.path.dirname(path) == HERE:
                continue
            kind = os.path.splitext(file)[1]
            if kind not in (".antt", ".rt", ".edit", ".md"):
                continue
            with open(path, encoding="utf-8") as f:
                old = f.read()
            rel = os.path.relpath(path, TOP)
            mine = dict(names)
            new = old
            clash = dict(CLASHES.get(rel, {}))
            for below, more in CLASHES_BELOW.items():
                if rel.startswith(below):
                    clash.update(more)
            if clash:
                new = turned(new, clash)
            if kind == ".md":
                new = spans.sub(lambda m: turned(m[0], mine), new)
            else:
                stay = set(re.findall(rf"(?m)^({NAME}) : tie\.Need-", new)) if file == "Proof.antt" else ()
                new = turned(new, mine, stay)
            if new != old:
                with open(path, "w", encoding="utf-8") as f:
                    f.write(new)


main()
