#!/usr/bin/env python3
"""Counts the places that docs/DESIGN-PASS.md is about, in crates/*/src (and proofs for the last point).

usage: tools/design.py [POINT]     at the top of the repository; all points, or one with its places
"""

import collections
import glob
import itertools
import os
import re
import sys

FN = re.compile(r"^( *)(?:pub(?:\(crate\))? )?(?:extern \"C\" )?fn (\w+)(?:<[^(]*>)?\(")


def functions():
    """Each function of crates/*/src as (file, line, name, parameters, clauses, body)."""
    for path in sorted(glob.glob("crates/*/src/**/*.rt", recursive=True)):
        text = open(path, encoding="utf-8").read()
        for it in re.finditer(FN.pattern, text, re.M):
            depth, at = 1, it.end()
            while depth:
                depth += {"(": 1, ")": -1}.get(text[at], 0)
                at += 1
            taken = text[it.end() : at - 1]
            end = re.search(r"^( *)\{$|\{\s*$|;\s*$", text[at:], re.M)
            head = text[at : at + end.start()] if end else text[at:]
            clauses = re.findall(r"^ *(?:requires|ensures)\*?(?: \w+)? \{((?:.|\n)*?)\}$", head, re.M)
            close = re.search(rf"^{it.group(1)}\}}", text[at:], re.M)
            body = text[at + (end.end() if end else 0) : at + (close.start() if close else 0)]
            parameters = [p.strip() for p in re.split(r",(?![^<(]*[>)])", taken) if p.strip()]
            yield path, text.count("\n", 0, it.start()) + 1, it.group(2), parameters, [" ".join(c.split()) for c in clauses], body


def lines(pattern, flags=0):
    for path in sorted(glob.glob("crates/*/src/**/*.rt", recursive=True)):
        for number, line in enumerate(open(path, encoding="utf-8"), 1):
            if re.search(pattern, line, flags) and not line.lstrip().startswith("//"):
                yield f"{path}:{number}: {line.strip()}"


def shape(body):
    """A body with names and numbers blanked; comments don't count."""
    body = re.sub(r"//.*", "", body)
    body = re.sub(r"\b\d\w*\b", "0", body)
    body = re.sub(r"\b(?!(?:let|mut|if|else|while|for|in|return|match|as|usize|Some|None|Ok|Err)\b)[A-Za-z_]\w*", "x", body)
    return " ".join(body.split())


def twins():
    """Functions whose bodies have one shape."""
    groups = collections.defaultdict(list)
    for path, number, name, _, _, body in functions():
        if shape(body):
            groups[shape(body)].append(f"{path}:{number} {name}")
    for them in groups.values():
        if len(them) > 1:
            yield " = ".join(them)


def facts():
    """What stands in the requires and ensures of three or more functions, part by part, with names blanked where they are parameters."""
    where = collections.defaultdict(set)
    for path, number, name, _, clauses, _ in functions():
        for clause in clauses:
            for part in re.split(r" × ", clause):
                where[part.strip(" ()")].add(f"{path}:{number} {name}")
    for part, them in sorted(where.items(), key=lambda it: -len(it[1])):
        if len(them) >= 3 and "result" not in part:
            yield f"{len(them)} functions: {part}"


def together():
    """Pairs of parameters, by name and type, that three or more functions take."""
    where = collections.Counter()
    for _, _, _, parameters, _, _ in functions():
        names = sorted(set(parameters))
        for i, one in enumerate(names):
            for other in names[i + 1 :]:
                where[one + ", " + other] += 1
    for pair, number in where.most_common():
        if number >= 3:
            yield f"{number} functions: {pair}"


POINTS = {
    "1 enums": lambda: lines(r"^(pub(\(crate\))? )?enum "),
    "1 flags": lambda: lines(r"\b\w+: bool\b"),
    "1 refusals": lambda: itertools.chain(
        (it for it in lines(r"^pub const ") if "/refusals.rt" in it),
        (f"{p}:{n} {f}" for p, n, f, _, cs, _ in functions() if any("status = result" in it and "status = result." not in it for it in cs)),
        lines(r"\bstatus: u32|: isize|-> isize"),
    ),
    "1 kinds": lambda: lines(r"\bkind: u32|^pub const (TOTALS|GREATEST|LEAST)\b"),
    "2 twins": twins,
    "3 loops": lambda: lines(r"^\s*(while|loop)\b"),
    "4 by hand": lambda: lines(r"\bsame_pair\(|\balike\(|\bsum: 0, count: 0|(\b\w+): \1\b(?=,| \})|fn (signed|bits)\d\d|fn magnitude|fn in_numbers|fn refused"),
    "5 facts": facts,
    "5 together": together,
    "6 buffers": lambda: (f"{p}:{n} {f}" for p, n, f, ps, _, _ in functions() if any("[u8]" in it for it in ps) and any(re.match(r"(at|n|from|len): usize", it) for it in ps)),
    "7 switches": lambda: lines(r"\bif (!)?(q\.)?(known|writing|withdraws|entering|old)\b"),
    "8 proofs": lambda: sorted(glob.glob("crates/*/proofs/**/Proof.antt", recursive=True)),
}


def main():
    os.chdir(os.path.join(os.path.dirname(os.path.realpath(__file__)), ".."))
    for name, places in POINTS.items():
        if len(sys.argv) > 1 and not name.startswith(sys.argv[1]):
            continue
        found = list(places())
        print(f"{name}: {len(found)}")
        if len(sys.argv) > 1:
            print("\n".join("    " + it for it in found))


main()
