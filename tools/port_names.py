#!/usr/bin/env python3
"""Brings this repository's own definitions and lemmas to the spelling of today's Rattle: words in snake case, types and facts in camel case, a
prime as an apostrophe. Run once, right after port.py, at the top of the repository; --check lists the names and where two fall together.

A name is turned wherever it stands as a whole word in .antt files, in the clauses and `ghost use` lines of .rt files and in must-fail edits."""

import collections
import glob
import os
import re
import sys

NAME = r"[^\s(){};,\[\].:«»λ⌜⌝]+"
# Part of a lemma's name that is another word of the library now.
WORDS = {"getD": "get_or", "bitXor": "bit_xor", "bitAnd": "bit_and", "eqb": "eqb"}
# Names whose plain spelling is another thing's.
BY_HAND = {}
# Lemmas that would have their function's name, in the files that name both.
LEMMAS = {
    "bristol_text/proofs/Numbers.antt": ["all_digits"],
    "gates/proofs/Holding.antt": ["and_word"],
    "growing/proofs/Growing.antt": ["node_row"],
    "marked/proofs/Table.antt": ["same_answer", "same_outcome"],
    "planes/proofs/Stored.antt": ["rows_in"],
    "planes/proofs/Turning.antt": ["rows_in"],
}


def names(root):
    """Each name that specs/ or proofs/ declares, with how: def, field or constructor."""
    found = collections.defaultdict(set)
    for kind in ("specs", "proofs"):
        for path in glob.glob(f"{root}/crates/*/{kind}/*.antt"):
            with open(path, encoding="utf-8") as f:
                for line in f:
                    top = re.match(rf"(?:unfoldable |abbrev )?(?:pub )?(?:data |record )?(?:pub )?({NAME}) (?:[({{].*[)}}] )?:(?![:=])", line)
                    if top:
                        found[top[1]].add((kind, "def"))
                    inner = re.match(rf"\s+(?:pub )?({NAME})((?: {NAME})*) :(?![:=])", line)
                    if inner and line.startswith("  ") and not line.startswith("    ") and not re.match(r"\s+(let|in)\b", line):
                        for name in [inner[1], *inner[2].split()]:
                            found[name].add((kind, "field"))
    return found


def snake(part):
    if part in WORDS:
        return WORDS[part]
    part = re.sub(r"(?<=[a-z0-9])([A-Z])(?![A-Z0-9])", lambda m: "_" + m[1].lower(), part)
    return re.sub(r"(?<=[a-z])([A-Z])$", lambda m: "_" + m[1].lower(), part)


def turned(name, how):
    if name in BY_HAND:
        return BY_HAND[name]
    if not re.search(r"[a-z]", name):
        return name
    new = name.replace("′", "'")
    parts = new.split("-")
    parts = [p if re.match(r"[A-Z]", p) and (len(p) > 1) else snake(p) for p in parts]
    return ("_" if ("specs", "field") in how or ("specs", "def") in how else "-").join(parts)


def table(root):
    made = {}
    for name, how in names(root).items():
        if re.match(r"[A-Z][a-z]", name) and "-" not in name and "′" not in name:
            continue
        new = turned(name, how)
        if new != name and re.search(r"[a-zA-Z]", name):
            made[name] = new
    return made


TOKEN = re.compile(r"[^\s(){};,\[\].:«»λ⌜⌝`\"]+")


def turn(text, made):
    return TOKEN.sub(lambda m: made.get(m[0], m[0]), text)


def ghost_parts(text):
    """The ranges of a .rt file that are antt: clauses, ghost lines."""
    for m in re.finditer(r"ghost use [^;]*;|\b(?:requires|ensures)\*?(?: \w+)? \{|\bghost \w+: \{", text):
        if m[0].startswith("ghost use"):
            yield m.start(), m.end()
            continue
        deep, k = 1, m.end()
        while deep:
            deep += {"{": 1, "}": -1}.get(text[k], 0)
            k += 1
        yield m.end(), k


def turn_rt(text, made):
    out, at = [], 0
    for a, b in ghost_parts(text):
        out += [text[at:a], turn(text[a:b], made)]
        at = b
    return "".join(out) + text[at:]


def main():
    root = "."
    made = table(root)
    check = "--check" in sys.argv
    if check:
        for old, new in sorted(made.items()):
            print(old, new)
    for path in sorted(glob.glob(f"{root}/crates/*/**/*", recursive=True)):
        if not os.path.isfile(path) or "/out/" in path or not path.endswith((".rt", ".antt", ".edit")):
            continue
        with open(path, encoding="utf-8") as f:
            text = f.read()
        if check:
            tokens = set(TOKEN.findall("\n".join(l for l in text.splitlines() if not l.lstrip().startswith(("--", "//")))))
            both = sorted(f"{old} and {new}" for old, new in made.items() if old in tokens and new in tokens)
            if both:
                print("look:", path, "; ".join(both))
            continue
        if path.endswith(".rt"):
            new = turn_rt(text, made)
        elif path.endswith(".edit"):
            # of the text lines alone, since the first lines say in words what is wrong
            new = "".join(turn(l, made) if l.startswith(("old:", "new:")) else l for l in text.splitlines(keepends=True))
        else:
            for place, lemmas in LEMMAS.items():
                for name in lemmas if path.endswith("/" + place) else []:
                    text = re.sub(rf"(?<![\w.'-]){name}(?![\w.'-])", name + "_lem", text)
            new = turn(text, made)
        if new != text:
            with open(path, "w", encoding="utf-8") as f:
                f.write(new)


main()
