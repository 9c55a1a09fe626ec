#!/usr/bin/env python3
"""Gives the goals and steps that a crate's proof files cite the names that Rattle makes of them today.

usage: python3 tools/rename_goals.py CRATE NAMES.json

NAMES.json is written by `rt check --generated FOLDER --old-names` in the crate's folder. A name that is not one of the function's
own and differs from exactly one of them only in dashes and underscores is respelled; the others are printed.
"""

import glob
import json
import os
import re
import sys

WORD = re.compile(r"(?<![\w'\\])[A-Za-z_«»][\w'«»-]*")


def flat(name):
    return re.sub(r"[-_]", "", name).lower()


def names_of(entry):
    """All names that the proof files of a function may cite."""
    found = set()

    def walk(x):
        if isinstance(x, str):
            if re.fullmatch(r"[\w'+-]+", x):
                found.add(x)
        elif isinstance(x, list):
            for y in x:
                walk(y)
        elif isinstance(x, dict):
            for k, y in x.items():
                walk(y)

    today = set()
    for key in ("needs", "asked_at"):
        for _, new in entry.get(key, []):
            today.add(new)
    for place in entry.get("places", []):
        if place[2]:
            today.add(place[2][1])
    today |= set(entry.get("places_by_name", []))
    for arm in entry.get("arms", []):
        if arm:
            today.add(arm[0])
    for pair in entry.get("loops", []):
        today.add(pair[0][1])
        today.add("invariant-" + pair[0][1])
        today.add("decreases-" + pair[0][1])
    walk(entry)
    return today, found


def main():
    crate, path = sys.argv[1], sys.argv[2]
    with open(path) as f:
        entries = json.load(f)
    for key, entry in entries.items():
        m = re.fullmatch(r"Rattle-%s-proofs\.(.*)\.Lts" % re.escape(os.path.basename(crate)), key)
        if not m:
            continue
        folder = os.path.join(crate, "proofs", *m.group(1).split("."))
        today, known = names_of(entry)
        by_flat = {}
        for n in today:
            by_flat.setdefault(flat(n), set()).add(n)
        idents = sorted({part for n in today for part in n.split("-") if "_" in part and part not in ("in_ok", "in_err", "in_default")}, key=len, reverse=True)
        for p in glob.glob(os.path.join(glob.escape(folder), "*.antt")):
            with open(p, encoding="utf-8") as f:
                text = f.read()
            own = set(re.findall(r"(?m)^(?:abbrev |unfoldable )*([a-z][\w'-]*) *[:(]", text))
            left = set()

            def turn(m):
                w = re.sub(r"^((?:[a-z][\w-]*-)?)in-(ok|err|default)(?=-|$)", r"\1in_\2", m.group())
                if w in today or w in own or "-" not in w:
                    return w
                fits = by_flat.get(flat(w), set())
                if len(fits) == 1:
                    return next(iter(fits))
                for ident in idents:
                    w = re.sub(r"(?<![^-])" + ident.replace("_", "-") + r"(?![^-])", ident, w)
                if w in today or any(i in w for i in idents):
                    return w
                if re.match(r"(returns|loop|if|in|invariant|decreases|overflow|After|At|Then|Else|In)-", w):
                    left.add(w)
                return w

            new = "\n".join(l if l.startswith("--") or re.match(r"use (?!.*proofs\.%s\.)" % re.escape(m.group(1)), l) else WORD.sub(turn, l) for l in text.split("\n"))
            if new != text:
                with open(p, "w", encoding="utf-8") as f:
                    f.write(new)
            if left:
                print(os.path.relpath(p, crate) + ": " + ", ".join(sorted(left)))


if __name__ == "__main__":
    main()
