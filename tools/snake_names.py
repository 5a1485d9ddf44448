#!/usr/bin/env python3
"""Brings the names that this repository's .antt files declare to snake case: words-fit and wordsFit are words_fit.

usage: tools/snake_names.py [--list]      at the top of the checkout, once, behind the kit's port.py

A declared name is a definition, a lemma, a field or a constructor of specs/ or proofs/. Types keep their capitals, and the
goals that a proof answers (their type names a generated module) keep the name that Rattle gives them. Names that fall
together are printed, and nothing is written then. Pages (.md) are turned inside backticks.
"""
import collections
import os
import re
import sys

WORD = re.compile(r"[^\s(){}\[\];,.«»\"`]+")
TOP = re.compile(r"^((?:pattern |abbrev |unfoldable |axiom |pub |data |record |ruleset )*)([^\s(){}\[\];,.«»]+)(?: [({].*)? :(?: |$)")
TOP_BARE = re.compile(r"^((?:abbrev |unfoldable |pub )*)([^\s(){}\[\];,.«»]+)$")
INNER = re.compile(r"^ +(?:pub |unfoldable |abbrev )*([^\s(){}\[\];,.«»]+)(?: [({].*)? :(?: |$)")


# lemmas beside a Rust function of their name; a lemma that port.py gave the name of a field, and a field beside a definition
FUNCTIONS = {"has_point", "edge_fits", "list_fits", "put_mid", "report_first"}
FELL = {"written_read": "written_read_lem", "no-half": "no_entries"}


def files(ending):
    for folder, dirs, names in os.walk("."):
        dirs[:] = sorted(d for d in dirs if d not in ("out", "target", ".git"))
        for n in sorted(names):
            if n.endswith(ending):
                yield os.path.join(folder, n)


def snake(name):
    name = name.replace("′", "'").replace("-", "_")
    return re.sub(r"(?<=[a-z0-9])([A-Z])", lambda m: "_" + m.group(1).lower(), name)


def is_type(name):
    return name[0].isupper()


def declared():
    names = collections.defaultdict(set)
    for path in files(".antt"):
        by_hand = path.endswith(("/Proof.antt", "/Answers.antt", "/Invariants.antt"))
        lines = open(path).read().split("\n")
        for i, line in enumerate(lines):
            m = TOP.match(line) or INNER.match(line)
            if m:
                if by_hand and re.search(r":\s*(\{.*\} → )?(tie|goal|given|statement)\b", line):
                    continue
                names[m.groups()[-1]].add(path)
                continue
            m = TOP_BARE.match(line)
            if m and i + 1 < len(lines) and lines[i + 1].lstrip().startswith(":"):
                if by_hand and re.search(r":\s*(tie|goal|given|statement)\b", lines[i + 1]):
                    continue
                names[m.group(2)].add(path)
    return names


def line_turned(line, turn):
    """A line with its names turned; half-space in a comment is English."""
    m = re.search(r"(^|\s)(--|//)(\s|$)|^#", line)
    code, said = (line[: m.start()], line[m.start() :]) if m else (line, "")
    code = WORD.sub(lambda w: turn.get(w.group(0), w.group(0)), code)
    said = WORD.sub(lambda w: w.group(0) if w.group(0) == "half-space" else turn.get(w.group(0), w.group(0)), said)
    return code + said


def main():
    names = declared()
    turn = {}
    for n in names:
        if "◌" in n or is_type(n) or n in ("_", "→"):
            continue
        if "-" in n or "′" in n or re.search(r"[a-z0-9][A-Z]", n):
            turn[n] = snake(n)
    # a lemma that would have its function's name ends in _lem
    olds = collections.defaultdict(list)
    for a, b in turn.items():
        olds[b].append(a)
    spelled = {n for n in names if n not in turn}
    for b, them in olds.items():
        for a in them:
            if "-" in a and (len(them) > 1 or b in spelled or b in FUNCTIONS):
                turn[a] = b + "_lem"
    turn |= FELL
    used = collections.defaultdict(set)  # each word of a file that is not renamed
    imported = collections.defaultdict(set)  # what is imported from a library
    for path in list(files(".antt")) + list(files(".rt")):
        text = open(path).read()
        for w in WORD.findall(text):
            used[w].add(path)
        for m in re.finditer(r"use ([\w.]+)\.\{([^}]*)\}", text):
            own = re.match(r"Rattle\.(\w+)\.", m.group(1))
            if own and os.path.isdir("crates/" + own.group(1)):
                continue
            for w in m.group(2).split(","):
                imported[w.strip()].add(path)
    bad = 0
    back = collections.defaultdict(list)
    for a, b in turn.items():
        back[b].append(a)
    for b, olds in sorted(back.items()):
        if len(olds) > 1:
            print("together:", olds, "->", b, sorted(set().union(*(names[a] for a in olds))))
            bad += 1
        if used.get(b):
            print("in use:", olds, "->", b, sorted(used[b])[:6])
            bad += 1
    for a in sorted(turn):
        if a in imported:
            print("of a library too:", a, sorted(imported[a])[:4], "declared in", sorted(names[a])[:4])
            bad += 1
    print(len(turn), "names to turn,", bad, "to look at")
    if "--list" in sys.argv or (bad and "--force" not in sys.argv):
        return 1 if bad else 0
    for path in list(files(".antt")) + list(files(".rt")) + list(files(".edit")):
        text = open(path).read()
        new = "\n".join(line_turned(line, turn) for line in text.split("\n"))
        if new != text:
            open(path, "w").write(new)
    for path in files(".md"):
        text = open(path).read()
        new = re.sub(r"`[^`\n]*`", lambda c: WORD.sub(lambda m: m.group(0) if m.group(0) == "half-space" else turn.get(m.group(0), m.group(0)), c.group(0)), text)
        if new != text:
            open(path, "w").write(new)
    return 0


if __name__ == "__main__":
    sys.exit(main())
