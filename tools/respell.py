#!/usr/bin/env python3
"""Spells the repository's own definitions, lemmas and fields as the library spells its own: words in snake case, types in camel case.

usage: tools/respell.py [--check]     at the top of the repository, once, behind the port to this Rattle

A name of ours with a dash gets an underscore in its place, as `pair-eq` `pair_eq`; one that begins with a capital is a type's and loses
its dashes, as `Left-at` `LeftAt`. A name that a file imports from a library of the toolchain stays in that file, and so does what follows
a generated module, as in `tie.After-find`. In code it turns clauses and `ghost use` lines alone, in comments and pages only what stands in
backquotes. Functions, strings, inputs and outputs keep their names. --check writes nothing and tells where two names would fall together.
"""

import os
import re
import sys

WORD = re.compile(r'[^\s(){}.;,@"«»`]+')
NAME = re.compile(r"^[^\W\d_][\w']*(?:-[\w']+)+$|^(?:Goes|Laid)_\w+$")
INNER = {"getD": "get_or", "natAbs": "nat_abs", "leZ": "le_z"}
CAMEL = re.compile(r"^(?:%s)$" % "|".join(INNER))
IMPORT = re.compile(r"\buse\s+([^\s;{]+?)(?:\.\{([^}]*)\})?(?:\s+as\s+\S+?)?\s*(?:;|$)", re.M)
GENERATED = ("tie", "goal", "lts", "reads", "kinds")
CLAUSE = re.compile(r"(?:requires|ensures)\*?\s*(?:\w+\s*)?\{|ghost\s+(?:\w+\s*(?::\s*|=\s*))\{")


def spelled(name):
    """A name of ours, spelled anew."""
    if not NAME.match(name):
        return name
    parts = re.split("[-_]" if name[0].isupper() else "-", name)
    if name[0].isupper():
        return "".join(it[:1].upper() + it[1:] for it in parts)
    return "_".join(INNER.get(it, it.lower() if it.isupper() else it) for it in parts)


def sources(top):
    for folder, dirs, files in os.walk(os.path.join(top, "crates")):
        dirs[:] = sorted(it for it in dirs if it != "out")
        for it in sorted(files):
            if it.endswith((".antt", ".rt")):
                yield os.path.join(folder, it)


def of_libraries(text, ours):
    """The names that a file imports from the toolchain's libraries."""
    found = set()
    for it in IMPORT.finditer(text):
        steps = it.group(1).split(".")
        if steps[0] == "Rattle" and len(steps) > 1 and steps[1] in ours:
            continue
        found.update(x.split(" as ")[0].strip() for x in (it.group(2) or "").split(","))
        found.add(steps[-1])
    return found


def turn_code(text, keep, turned):
    """A stretch of antt, without comments and quoted text."""

    def one(it):
        word = it.group(0)
        if word in keep or not NAME.match(word):
            return word
        head = re.search(r"([\w']+)\.$", text[max(0, it.start() - 60) : it.start()])
        if head and head.group(1) in GENERATED:
            return word
        new = spelled(word)
        turned.setdefault(new, set()).add(word)
        return new

    return WORD.sub(one, text)


def turn_comment(text, keep, known):
    """What stands in backquotes, where it names something of ours by its new spelling."""

    def one(it):
        word = it.group(0)
        return spelled(word) if word not in keep and NAME.match(word) and spelled(word) in known else word

    return re.sub(r"`[^`\n]*`", lambda it: WORD.sub(one, it.group(0)), text)


def pieces(text):
    """The pieces of antt: (is a comment or quoted, text)."""
    at = 0
    for it in re.finditer(r'"(?:[^"\\\n]|\\.)*"|(?<![^\s(){}.;,@"«»])--[^\n]*', text):
        yield False, text[at : it.start()]
        yield True, it.group(0)
        at = it.end()
    yield False, text[at:]


def turn_antt(text, keep, known, turned):
    return "".join(turn_comment(x, keep, known) if quiet else turn_code(x, keep, turned) for quiet, x in pieces(text))


def clauses(text):
    """The stretches of a .rt file that are antt: (begin, end)."""
    for it in re.finditer(r"ghost\s+use\b[^;]*;", text):
        yield it.start(), it.end()
    for it in CLAUSE.finditer(text):
        depth, at = 1, it.end()
        while depth and at < len(text):
            depth += {"{": 1, "}": -1}.get(text[at], 0)
            at += 1
        yield it.end(), at


def turn_rt(text, keep, known, turned):
    spans = sorted(clauses(text))
    made, at = [], 0
    for begin, end in spans:
        if begin < at:
            continue
        made.append(re.sub(r"//[^\n]*", lambda it: turn_comment(it.group(0), keep, known), text[at:begin]))
        made.append(turn_code(text[begin:end], keep, turned))
        at = end
    made.append(re.sub(r"//[^\n]*", lambda it: turn_comment(it.group(0), keep, known), text[at:]))
    return "".join(made)


def main(argv):
    check = "--check" in argv
    ours = set(os.listdir("crates"))
    texts = {p: open(p, encoding="utf-8").read() for p in sources(".")}
    known = set()  # every word of our code, as it is spelled then
    for path, text in texts.items():
        keep = of_libraries(text, ours)
        for quiet, x in pieces(text):
            if not quiet:
                known.update(spelled(w) for w in WORD.findall(x) if w not in keep)
    for path, text in texts.items():
        keep, turned = of_libraries(text, ours), {}
        new = turn_antt(text, keep, known, turned) if path.endswith(".antt") else turn_rt(text, keep, known, turned)
        before = set(WORD.findall("".join(x for quiet, x in pieces(text) if not quiet)))
        for it, olds in sorted(turned.items()):
            if len(olds) > 1 or it in before:
                print(f"look: {path}: {it}: {' '.join(sorted(olds))}{' beside a name of that spelling' if it in before else ''}")
        if new != text and not check:
            open(path, "w", encoding="utf-8").write(new)
    for folder in ("docs", "docs/landings", "."):
        for it in sorted(os.listdir(folder)):
            path = os.path.join(folder, it)
            if it.endswith(".md") and it not in ("PORT.md",):
                text = open(path, encoding="utf-8").read()
                new = turn_comment(text, set(), known)
                if new != text and not check:
                    open(path, "w", encoding="utf-8").write(new)


if __name__ == "__main__":
    main(sys.argv[1:])
