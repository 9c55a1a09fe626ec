#!/usr/bin/env python3
"""Brings the names of this repository's definitions and lemmas to today's spelling, after port.py has turned the rest.

usage: python3 tools/respell.py [FOLDER]     in a repository that port.py has just turned (here, if no folder is given)

Functions, lemmas, fields and constructors of antt get snake case (payloadSays, ack-of-five: payload_says, ack_of_five), facts and
types upper camel case (Round-trip: RoundTrip). Names that Rattle makes of a function's code, names of src/, strings, inputs and
outputs stay. Names that would fall together stop the script, and nothing is written.
"""

import glob
import os
import re
import sys

WORD = re.compile(r"(?<![\w'\\])[A-Za-z_«»][\w'«»-]*")
TOP = re.compile(r"^(\s*)((?:(?:pub|abbrev|unfoldable|data|record)\s+)*)([A-Za-z_][\w'-]*)\s*(?:\(|\{|:)")
USED = re.compile(r"\buse [\w.+'-]*[\w+'-]")
GOALS = ("Answers.antt", "Invariants.antt", "Proof.antt")
# A lemma that would have the name of the definition that it speaks of ends in _lem.
LEMMAS = {
    name: name.replace("-", "_") + "_lem"
    for name in ("bit-and", "bit-or", "body-from", "content-in", "entry-octets", "if-accepted", "is-datagram", "is-fresh", "is-there", "judged-at", "judged-number", "kept-unless")
    + ("last-time", "noted-at", "own-place", "peer-of", "said_in", "same-peer", "sender-place", "settled-as", "stop-text", "wrote_at")
}
# Definitions that would have the name of a function of src/ or of a constructor.
OTHERS = {"ackOfFive": "ack_of_five_octets", "twoRecords": "two_records_octets", "keptAlive": "last_kept_alive", "sentAgain": "resent_message"}
# Fields of a definition's record that the code's struct has under the same name.
SHARED = ("wants_ack", "wants_reply")
# Names of ours that the kit's lemmas have too, in the same form.
KEPT = ("not-true", "or-false")


def spelled(name):
    """The name in today's spelling."""
    if name in LEMMAS:
        return LEMMAS[name]
    if name in OTHERS:
        return OTHERS[name]
    if name[0].isupper():
        return "".join(part[0].upper() + part[1:] for part in name.split("-") if part)
    name = re.sub(r"([a-z0-9])([A-Z])", lambda m: m.group(1) + "_" + m.group(2).lower(), name)
    return name.replace("-", "_").lower() if re.search(r"[a-z]", name) else name


def is_odd(name):
    return "-" in name or bool(re.search(r"[a-z0-9][A-Z]", name)) and name[0].islower()


def files(root):
    for kind in ("antt", "rt", "edit"):
        yield from sorted(glob.glob(os.path.join(root, "crates", "*", "**", "*." + kind), recursive=True))


def in_out(path):
    return "/out/" in path


def declared(paths):
    """Names that the repository's antt files declare, but for answers to goals; and the names of those answers."""
    own, goals = {}, set()
    for path in paths:
        if not path.endswith(".antt"):
            continue
        with open(path, encoding="utf-8") as f:
            lines = f.read().split("\n")
        answers = os.path.basename(path) in GOALS
        for line in lines:
            m = TOP.match(line)
            if not m or m.group(3) in ("use", "mod", "ghost", "let", "elim", "unfolding", "rw", "in"):
                continue
            indent, words, name = m.groups()
            if answers and not indent and "pub" in words.split():
                goals.add(name)
            else:
                own.setdefault(name, path)
    return own, goals


def imported(paths):
    """Names that files import from the kit's libraries."""
    found = set()
    for path in paths:
        with open(path, encoding="utf-8") as f:
            for line in f:
                m = re.match(r"\s*(?:ghost )?use (?:Rattle\.(?:std|core)|mathlib|Prim|lib|denote)[\w.+'-]*\.\{(.*)\}", line)
                if m:
                    found |= set(WORD.findall(m.group(1)))
    return found


def spans_of_code(text):
    """The parts of a .rt file that are antt: clauses, ghost items and comments."""
    spans = []
    for m in re.finditer(r"//[^\n]*|\"(?:\\.|[^\"\\])*\"|\bghost use[^;]*;|\bghost \w+[^{};]*\{|\b(?:requires|ensures)\*?\s*\w*\s*\{", text):
        if m.group().startswith("//"):
            spans.append((m.start(), m.end()))
        elif m.group().startswith("ghost use"):
            spans.append((m.start(), m.end()))
        elif m.group().endswith("{"):
            depth, i = 1, m.end()
            while i < len(text) and depth:
                depth += {"{": 1, "}": -1}.get(text[i], 0)
                i += 1
            spans.append((m.start(), i))
    return spans


def main():
    root = os.path.abspath(sys.argv[1] if len(sys.argv) > 1 else ".")
    paths = [p for p in files(root) if not in_out(p)]
    own, goals = declared(paths)
    kit = imported(paths)
    names = {n: spelled(n) for n in own if (is_odd(n) or n in LEMMAS) and n not in KEPT and spelled(n) != n}
    # Names in lower camel case that are bound inside a term go the same way: the kit has none.
    for path in paths:
        if path.endswith(".antt"):
            with open(path, encoding="utf-8") as f:
                text = re.sub(r'"[^"\n]*"', "", f.read())
            for w in WORD.findall(text):
                if re.match(r"[a-z][a-z0-9_]*[A-Z]\w*'*$", w) and w not in goals and w not in kit:
                    names.setdefault(w, spelled(w))
    bad = sorted(n for n in names if n in goals or n in kit)
    texts = {}
    for path in paths:
        with open(path, encoding="utf-8") as f:
            texts[path] = f.read()
    back = {}
    for old, new in names.items():
        back.setdefault(new, []).append(old)
    clash = {new: olds for new, olds in back.items() if len(olds) > 1}
    for path, text in texts.items():
        if path.endswith(".antt"):
            said = set(WORD.findall(USED.sub("", text)))
            for w in said & set(names):
                if names[w] in said and names[w] not in names and names[w] not in SHARED:
                    clash.setdefault(names[w], []).append(f"{w} in {os.path.relpath(path, root)}")
    if bad or clash:
        for n in bad:
            print(f"respell: {n} is a goal's or the kit's name too")
        for new, olds in sorted(clash.items()):
            print(f"respell: {new}: {', '.join(olds)}")
        return 1

    declared_now = {names.get(n, n) for n in own}

    def words(part):
        return WORD.sub(lambda m: names.get(m.group(), m.group()), part)

    def prose(part):
        """Turns names in what a reader reads, those too that port.py has turned in the code."""
        return WORD.sub(lambda m: names.get(m.group()) or (spelled(m.group()) if is_odd(m.group()) and spelled(m.group()) in declared_now else m.group()), part)

    def turn(part):
        """Turns the names, but for the path of an import, which is of modules."""
        new, at = "", 0
        for m in USED.finditer(part):
            new += words(part[at : m.start()]) + m.group()
            at = m.end()
        return new + words(part[at:])

    count = 0
    for path, text in texts.items():
        if path.endswith(".rt"):
            new, at = "", 0
            for a, b in spans_of_code(text):
                if a < at:
                    continue
                new += text[at:a] + turn(text[a:b])
                at = b
            new += text[at:]
        elif path.endswith(".edit"):
            lines, code = text.split("\n"), True
            for i, line in enumerate(lines):
                if line.startswith("#"):
                    lines[i] = prose(line)
                elif line.startswith("file:"):
                    code = line.strip().endswith(".rt")
                elif not code:
                    lines[i] = words(line)
            new = "\n".join(lines)
        else:
            new = "".join(part if part.startswith('"') else turn(part) for part in re.split(r'("[^"\n]*")', text))
        if new != text:
            with open(path, "w", encoding="utf-8") as f:
                f.write(new)
            count += 1
    # The documents name definitions and theorems between backticks.
    for path in sorted(glob.glob(os.path.join(root, "*.md")) + glob.glob(os.path.join(root, "docs", "*.md"))):
        with open(path, encoding="utf-8") as f:
            text = f.read()
        new = re.sub(r"`[^`\n]+`", lambda m: prose(m.group()), text)
        if new != text:
            with open(path, "w", encoding="utf-8") as f:
                f.write(new)
            count += 1
    print(f"respell: {len(names)} names in {count} files")
    return 0


if __name__ == "__main__":
    sys.exit(main())
