#!/usr/bin/env python3
"""Every must-fail edit changes code or a definition, and neither a proof nor a contract: no clause, no ghost item, no tactic.

usage: tests/edits/check.py     in the repository; prints what is wrong, then how many edits were read; fails if one is wrong or there is none
"""

import glob
import os
import re
import sys

CLAUSE = re.compile(r"\b(?:requires|ensures)\*?\s*(?:\w+\s*)?\{|\bghost \w+\s*[:=]\s*\{")


def clauses(text):
    """The contracts of a file of code: its tactics, and what stands in the braces behind requires, ensures and a ghost item's name."""
    found = re.findall(r"^\s*#!?\[tactic\b.*$", text, re.M)
    for it in CLAUSE.finditer(text):
        depth, at = 1, it.end()
        while depth and at < len(text):
            depth += {"{": 1, "}": -1}.get(text[at], 0)
            at += 1
        found.append(text[it.start() : at])
    return found


def wrong(edit):
    """Why an edit is none of code or of a definition, or None."""
    crate = edit.split("/must-fail/")[0]
    with open(edit, encoding="utf-8") as it:
        lines = it.read().split("\n")
    files = [it[6:] for it in lines if it.startswith("file: ")]
    olds = [it[5:] for it in lines if it.startswith("old: ")]
    news = [it[5:] for it in lines if it.startswith("new:")]
    if len(files) != 1 or not re.match(r"(src|specs)/[\w/]+\.(rt|antt)$", files[0]):
        return "it edits no file of src/ or specs/, or more than one"
    path = f"{crate}/{files[0]}"
    if not os.path.isfile(path):
        return f"no {path}"
    with open(path, encoding="utf-8") as it:
        before = after = it.read()
    if not olds or len(olds) != len(news):
        return "an old text has no new one"
    for old, new in zip(olds, news):
        if after.count(old) != 1:
            return f"an old text stands {after.count(old)} times"
        after = after.replace(old, new)
    if after == before:
        return "it changes nothing"
    if path.endswith(".rt") and clauses(before) != clauses(after):
        return "it edits a contract"
    return None


def main():
    os.chdir(os.path.join(os.path.dirname(os.path.realpath(__file__)), "..", ".."))
    edits = sorted(glob.glob("crates/*/must-fail/*.edit"))
    said = [(it, wrong(it)) for it in edits]
    bad = [f"edits: {it}: {why}" for it, why in said if why]
    print("\n".join(bad + [f"edits: {len(edits)} read, {len(bad)} wrong"]))
    return 1 if bad or not edits else 0


if __name__ == "__main__":
    sys.exit(main())
