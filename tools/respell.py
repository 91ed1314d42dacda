#!/usr/bin/env python3
"""Brings the repository's own names to snake case: python3 tools/respell.py, at the top, once, right after port.py.

Every definition and lemma that stands in a file of crates/*/specs or crates/*/proofs and has a dash or a capital inside
(first-in, backAt) becomes first_in, back_at, in .antt and .rt files and, between backticks, in docs/*.md.
Types keep their capitals. Goals keep Rattle's own names: a folder of answers declares nothing that is renamed,
and a name behind a dot in an answer is one of the check's.
"""

import glob
import os
import re
import sys

# Names that would fall together: lemmas that get another name, so that the definitions backAt and strokeIn get theirs.
APART = {"back_at": "back_is", "stroke-in": "stroke_read"}
GOALS = ("Answers.antt", "Invariants.antt", "Proof.antt", "Choices.antt")
DECLARED = re.compile(r"^\s*(?:abbrev |unfoldable |ruleset )?(?:pub )?(?:abbrev |unfoldable |ruleset )?([a-z][\w'-]*)\s*(?::|=)", re.M)
WORD = r"[\w'\-]"


def snake(name):
    return re.sub(r"(?<=[a-z0-9])([A-Z])", lambda m: "_" + m[1].lower(), name).replace("-", "_")


def main():
    files = sorted(glob.glob("crates/*/specs/**/*.antt", recursive=True) + glob.glob("crates/*/proofs/**/*.antt", recursive=True))
    names = set()
    for path in files:
        if os.path.basename(path) not in GOALS:
            with open(path, encoding="utf-8") as f:
                names |= set(DECLARED.findall(f.read()))
    turned = {n: APART.get(n, snake(n)) for n in names if APART.get(n, snake(n)) != n}
    for new in sorted(set(turned.values())):
        olds = [n for n in turned if turned[n] == new] + [n for n in names if n == new and n not in turned]
        if len(olds) > 1:
            print("names fall together: " + ", ".join(sorted(olds)), file=sys.stderr)
            return 1
    any_name = "|".join(sorted(map(re.escape, turned), key=len, reverse=True))
    plain = re.compile(rf"(?<!{WORD})(?<!\.)({any_name})(?!{WORD})")
    ticked = re.compile(r"`[^`\n]*`")
    n = 0
    for path in files + sorted(glob.glob("crates/*/src/**/*.rt", recursive=True)) + sorted(glob.glob("docs/*.md")):
        with open(path, encoding="utf-8") as f:
            old = f.read()
        if path.endswith(".md"):
            new = ticked.sub(lambda m: plain.sub(lambda k: turned[k[1]], m[0]), old)
        else:
            new = plain.sub(lambda m: turned[m[1]], old)
        if new != old:
            n += 1
            with open(path, "w", encoding="utf-8") as f:
                f.write(new)
    print(f"{len(turned)} names, {n} files")
    return 0


if __name__ == "__main__":
    sys.exit(main())
