#!/usr/bin/env python3
"""Turns a crate's older Proof.antt files, which close each goal by hand, to today's Invariants.antt and Answers.antt.

usage: answers.py invariants CRATE OLD NAMES        writes Invariants.antt where the old proof has invariants or measures
       answers.py answers CRATE OLD NAMES LOG       writes Answers.antt for the goals that the check in LOG left open

CRATE is the crate's folder, OLD the folder with its older proofs/ (as port.py left them), NAMES the names.json of
'rt check --generated FOLDER --old-names'. A function whose open goals have no old answer is listed; rt check decides about the rest.
"""
import json
import os
import re
import sys

NAME = r"[^\s(){}.;,@\"«»`]+"
CHAIN = re.compile(rf"{NAME}(?:\.{NAME})*")
flat = lambda s: s.replace("-", "_")


def blocks(text):
    """Top-level pieces: lines that begin at column 0 and what hangs below them."""
    out = []
    for line in text.split("\n"):
        if line and not line[0].isspace() and line[0] not in ")}" and not line.startswith("unfolding ") and line.strip() != "where":
            out.append([line])
        elif out:
            out[-1].append(line)
    return ["\n".join(b).rstrip() for b in out]


class Old:
    def __init__(self, path):
        text = open(path, encoding="utf-8").read()
        self.head = text.split("\n", 1)[0]
        self.uses, self.goals, self.inv, self.rest, self.measure = [], {}, {}, [], {}
        sig = None
        pieces = blocks(text)
        i = 0
        while i < len(pieces):
            p = pieces[i]
            m = re.match(rf"(?:abbrev )?(\S+) : (?:\(\S+ : [^)]*\) → )*(?:tie|{NAME})\.(Need-\S+|invariant-\S+|decreases-\S+)", p)
            if p.startswith("--") and i == 0:
                pass
            elif p.startswith("use "):
                self.uses.append(p)
            elif m and i + 1 < len(pieces) and re.match(rf"{re.escape(m[1])}( |$)", pieces[i + 1]):
                unf = re.findall(r"(?m)^unfolding .*$", p)
                body = []
                j = i + 1
                while j < len(pieces) and re.match(rf"{re.escape(m[1])}( |$)", pieces[j]):
                    body.append(pieces[j])
                    j += 1
                if m[2].startswith("Need-"):
                    it = m[2][5:]
                    it = re.sub(r"^(overflow|nonzero|offset)-", "", it)
                    it = re.sub(r"^slice-bounds-", "part-", it)
                    self.goals[flat(it)] = (m[1], unf, body)
                else:
                    self.inv[m[2]] = (m[1], unf, body)
                i = j
                continue
            elif (q := re.match(r"abbrev (μ_\S+) : Measures ", p)) and i + 1 < len(pieces):
                self.measure[q[1][2:]] = pieces[i + 1]
                i += 2
                continue
            elif re.match(r"abbrev \S+_(at|below) : ℕ → In ", p):
                i += 2
                continue
            elif re.match(r"pub \S+[-_]spec ", p) or re.match(r"\S+[-_]spec( \S+)* =", p):
                pass
            else:
                self.rest.append(p)
            i += 1


class Names:
    def __init__(self, e):
        self.e = e
        self.goal = {flat(a): (b, i) for i, (a, b) in enumerate(e["needs"])}
        self.places = {p[0]: (i, p) for i, p in enumerate(e["places"])}

    def chain(self, place):
        out = []
        while place is not None and place in self.places:
            i, p = self.places[place]
            out.append((i, p))
            place = p[1]
        return out

    def path(self, chain, parts):
        """Parts behind c (with 'before' gone) by today's names, and the function that the step calls."""
        step, rest = parts[0], list(parts[1:])
        if flat(step) in ("args", "requires", "ranges", "type_inv", "utf8", "auto", "well_formed"):
            return [flat(step)] + rest, None
        for i, p in chain:
            arm = self.e["arms"][i]
            if arm:
                for field, s, prefix in arm[2]:
                    if flat(s) == flat(step) and prefix and rest[: len(prefix)] == list(prefix):
                        return [arm[0], field] + rest[len(prefix) :], None
        for same in (lambda s: flat(s), lambda s: flat(s).lower(), lambda s: re.sub("_lem$", "", flat(s)).lower()):
            for which in (0, 1):
                for i, p in chain:
                    if same(p[2][which]) == same(step):
                        return [p[2][1]] + self.lent(p[3], rest), p[3]
        return parts, None

    def lent(self, f, rest):
        """new.1.0 and auto.1.0 by the parameter's name."""
        params = self.e["params"].get(f) if f else None
        if not params or len(rest) < 2 or rest[0] not in ("new", "auto") or rest[1] not in ("0", "1"):
            return rest
        k, q = 0, rest[1:]
        while q and q[0] == "1" and k + 1 < len(params):
            k, q = k + 1, q[1:]
        if q and q[0] == "0":
            q = q[1:]
        return [rest[0], params[k]] + q


def rewrite(text, n, place, recursive=False):
    chain = n.chain(place)
    here, steps = {"c"}, {}

    def one(m):
        parts = m[0].split(".")
        if len(parts) == 1:
            return m[0]
        if parts[0] in steps:
            return ".".join([parts[0]] + n.lent(steps[parts[0]], parts[1:]))
        if parts[0] not in here:
            return m[0]
        tail = [p for p in parts[1:] if p != "before"]
        if not tail:
            return parts[0]
        if tail[:2] == ["match", "rest"] or tail[:2] == ["in_default", "rest"]:
            return ".".join([parts[0], "in_default-own"] + tail[1:])
        return ".".join([parts[0]] + n.path(chain, tail)[0])

    for m in re.finditer(rf"let (\S+) = ({NAME}(?:\.{NAME})*) in(?=\s)", text):
        parts = m[2].split(".")
        if parts[0] in here:
            tail = [p for p in parts[1:] if p != "before"]
            if not tail:
                here.add(m[1])
            elif len(tail) == 1:
                f = n.path(chain, tail)[1]
                if f:
                    steps[m[1]] = f
    text = CHAIN.sub(one, text)
    text = re.sub(rf"(?<![\w.])now ({NAME}(?:\.{NAME})*)", r"\1.now", text)
    text = re.sub(r"\bnot-(?:true|false) _ (?=\w+\.)", "", text)
    if recursive:
        text = re.sub(r"\.requires\.1(?![0-9])", ".requires", text)
    return text


def keys(crate, names):
    for k, e in names.items():
        m = re.match(rf"Rattle-{crate}-proofs\.(.*)\.Lts(?:-(\S+))?$", k)
        if m:
            yield m[1].split("."), m[2], e


def module(crate, parts):
    return "Rattle." + ".".join([crate, "proofs"] + parts)


def uses_of(old):
    """The use lines without what only a Proof.antt names."""
    gone = re.compile(r"(^|\.)(statement|Statement|Tie|Reads|Kinds)(\.|$)|Lts-|^Fn\.|^borrow\.Fn\.")
    keep = []
    for u in old.uses:
        m = re.match(r"use (\S+?)\.\{([^}]*)\}(.*)$", u, re.S)
        if not m:
            if not gone.search(u[4:].split(" ")[0]):
                keep.append(u)
            continue
        if gone.search(m[1]):
            continue
        items = [x.strip() for x in m[2].split(",")]
        items = [x for x in items if x and x != "now" and not gone.search(x.split(" ")[0])]
        if items:
            keep.append(f"use {m[1]}.{{{', '.join(items)}}}{m[3]}")
    return keep


def main():
    mode, folder, old, names = sys.argv[1:5]
    crate = os.path.basename(os.path.realpath(folder))
    names = json.load(open(os.path.join(names, "names.json") if os.path.isdir(names) else names))
    open_goals = {}
    if mode == "answers":
        for line in open(sys.argv[5]):
            m = re.match(r"fn (\S+): no proof: expected answers in \./proofs/(\S+)/Answers\.antt; `search` did not prove (.*)", line)
            if m:
                open_goals[m[2]] = re.findall(r"`([^`]+)`", m[3].split(";")[0])
            m = re.match(r"fn (\S+): no proof: expected answers in \./proofs/(\S+)/(?:Answers|Invariants)\.antt", line)
            if m and m[2] not in open_goals:
                open_goals.setdefault(m[2], [])
    missing = []
    for parts, sub, e in keys(crate, names):
        rel = "/".join(parts)
        path = os.path.join(old, "proofs", rel, "Proof.antt")
        if not os.path.isfile(path):
            if rel in open_goals:
                missing.append((rel, open_goals[rel], "no old proof"))
            continue
        o, n = Old(path), Names(e)
        to = os.path.join(folder, "proofs", rel)
        if mode == "invariants":
            if not o.inv and not o.measure:
                continue
            out = []
            for kind, (name, unf, body) in o.inv.items():
                what, loop = kind.split("-", 1)
                got = [(i, l) for i, l in enumerate(e["loops"]) if flat(l[0][0]) == flat(loop)]
                if not got:
                    missing.append((rel, kind, "no such loop"))
                    continue
                i, ((_, new), vars_) = got[0]
                changed = e["changed"][i]
                head, rhs = body[0].split("=", 1)
                args = head.split()[1:]
                table = {}
                want = len(vars_) + sum(changed)
                shift = len(args) - want
                for v, ch, a in zip(vars_, changed, args[shift:]):
                    table[a] = f"l.initial.{v}" if ch else f"l.{v}"
                for v, a in zip([v for v, ch in zip(vars_, changed) if ch], args[shift + len(vars_) :]):
                    table[a] = f"l.{v}"
                if shift:
                    missing.append((rel, kind, f"arguments {args} for {vars_} {changed}"))

                def sub_(m):
                    p = m[0].split(".")
                    return ".".join([table.get(p[0], p[0])] + p[1:])

                rhs = CHAIN.sub(sub_, rhs)
                out.append(f"abbrev pub {what}-{new} : goal.{what}-{new}\n{what}-{new} l ={rhs}")
            for f, line in o.measure.items():
                params = next((v for k, v in e["params"].items() if k.split("::")[-1] == f), [])

                def arg(m):
                    q = m[0].split(".")
                    if q[0] != "a" or len(q) == 1:
                        return m[0]
                    k, q = 0, q[1:]
                    while q and q[0] == "1":
                        k, q = k + 1, q[1:]
                    return ".".join(["l", params[k]] + q[1:])

                rhs = CHAIN.sub(arg, line.split("=", 1)[1])
                out.append(f"abbrev pub decreases-{f} : goal.decreases-{f}\ndecreases-{f} l ={rhs}")
            if out:
                os.makedirs(to, exist_ok=True)
                uses = uses_of(o) + [f"use {module(crate, parts)}.Given as goal"]
                with open(os.path.join(to, "Invariants.antt"), "w") as f:
                    need, text = [], "\n".join(out)
                    for r in reversed(o.rest):
                        n_ = re.match(r"(?:abbrev )?(\S+)", r)[1]
                        if n_ not in ("", "--") and re.search(rf"(?<![\w.'-]){re.escape(n_)}(?![\w'-])", text):
                            need.insert(0, r)
                            text += "\n" + r
                    f.write("\n".join(uses) + "\n\n" + "\n\n".join(need + out) + "\n")
        else:
            if rel not in open_goals:
                continue
            out = []
            t = "t " if parts[-1].startswith("+") else ""
            for g in open_goals[rel]:
                found = [(a, b, i) for a, (b, i) in n.goal.items() if b == g and a in o.goals]
                if not found:
                    missing.append((rel, g, "no old answer"))
                    out.append(f"pub {g} : goal.{g}\n{g} {t}c = ?")
                    continue
                a, b, i = found[0]
                name, unf, body = o.goals[a]
                place = e["asked_at"][i][0]
                lines = []
                for piece in body:
                    h = re.match(rf"{re.escape(name)}((?: \S+)*?) =", piece)
                    rest = piece[h.end() :] if h else piece[len(name) :]
                    lines.append(f"{g} {t}c ={rewrite(rest, n, place, bool(t))}")
                u = "".join("\n" + x for x in unf)
                out.append(f"pub {g} : goal.{g}{u}\n" + "\n".join(lines))
            if out:
                os.makedirs(to, exist_ok=True)
                uses = uses_of(o) + [f"use {module(crate, parts)}.Goals as goal"]
                helpers = [r for r in o.rest]
                with open(os.path.join(to, "Answers.antt"), "w") as f:
                    f.write("\n".join(uses) + "\n\n" + "\n\n".join(helpers + out) + "\n")
    for x in missing:
        print(*x)


main()
