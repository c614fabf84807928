#!/usr/bin/env python3
"""Each function that the archive exports says what its namesake in `luwhenoka` says: the same parameters, result and clauses, and calls it.

`promises` calls the functions of `luwhenoka` under the words of the demands; no crate can call an archive's. This ties the one to the other.

usage: tests/exports/check.py     in the repository; prints what differs, then how many were compared; fails if one differs or there is none
"""

import glob
import os
import re
import sys

EXPORT = re.compile(r'#\[unsafe\(no_mangle\)\]\npub extern "C" fn (\w+)(.*?)\n\{\n(.*?)\n\}', re.S)
PLAIN = re.compile(r"^pub fn (luw_\w+)(.*?)\n\{\n", re.S | re.M)


def text(paths):
    return "\n".join(open(it, encoding="utf-8").read() for it in sorted(paths))


def words(it):
    return " ".join(it.split())


def main():
    os.chdir(os.path.join(os.path.dirname(os.path.realpath(__file__)), "..", ".."))
    archive = text(glob.glob("crates/luwhenoka_c/src/**/*.rt", recursive=True))
    library = {name: words(head) for name, head in PLAIN.findall(text(glob.glob("crates/luwhenoka/src/**/*.rt", recursive=True)))}
    exports = EXPORT.findall(archive)
    bad = []
    if len(exports) != archive.count("no_mangle"):
        bad.append("exports: an export has another form")
    # Names mean what they mean in the library: nothing is imported under another name, and code and promises come from there alone.
    for line in re.findall(r"^(?:ghost )?use [^;]*;", archive, re.M):
        if " as " in line or not re.match(r"use luwhenoka::|ghost use Rattle\.(luwhenoka\.specs\.Promises|calls\.specs\.Changes)\.\{", line):
            bad.append(f"exports: {words(line)} brings in what the library doesn't have by that name")
    for path in sorted(glob.glob("crates/*/src/**/*.rt", recursive=True)):
        if "no_mangle" in text([path]) and not path.startswith("crates/luwhenoka_c/"):
            bad.append(f"exports: {path} exports a name, too")
    for name, head, body in exports:
        arguments = ", ".join(re.findall(r"(\w+):", re.match(r"\((.*?)\)", head, re.S).group(1)))
        if library.get(name) != words(head):
            bad.append(f"exports: {name}: its head or clauses are not those of luwhenoka")
        if not re.fullmatch(rf"\w+::{name}\({arguments}\)", body.strip()):
            bad.append(f"exports: {name}: it does more than to call its namesake with what it is given")
    for name in sorted(set(library) - {it[0] for it in exports}):
        bad.append(f"exports: {name} of luwhenoka is not exported")
    print("\n".join(bad + [f"exports: {len(exports)} compared, {len(bad)} wrong"]))
    return 1 if bad or not exports else 0


if __name__ == "__main__":
    sys.exit(main())
