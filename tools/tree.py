#!/usr/bin/env python3
"""Checks of the tree that the prover does not make. Prints what is wrong, and fails if anything is.

- every file of Rattle and of antt starts with a comment that says what it is for;
- a public function has an `ensures`, and no `requires`;
- each public function has at least two wrong answers in must-fail, whose labels begin with its name, or its type's and its name, or
  which say that it is to be refused; a method that only passes its call on, in a crate of such methods, has at least one;
- no proof rests on an axiom of its own, nor on `lem` or `ac`.
"""
import pathlib
import re
import sys

from edits import answers, labels, path_is, refused_names

ROOT = pathlib.Path(__file__).resolve().parent.parent
# The crates whose methods only pass their calls on, to functions that have their own edits.
FORWARDING = ("cursor_mut", "xor_linked_list")
wrong = []


def public_functions(text):
    """Pairs of a public function's name, with its type's if it has one, and its contract."""
    text = re.sub(r"//[^\n]*", "", text)
    owner = None
    for m in re.finditer(r"^impl(?:<[^>]*>)? (\w+)|^\}|^\s*pub (?:extern \"C\" )?fn (\w+)(.*?)\n\s*\{\n", text, re.M | re.S):
        if m.group(1):
            owner = m.group(1)
        elif m.group(2):
            yield (f"{owner}::" if owner else "") + m.group(2), m.group(3)
        else:
            owner = None


def edits_of(crate, name):
    """How many of a crate's wrong answers are to this function: by their labels, or by what they say is to be refused."""
    edits = list(crate.glob("must-fail/*.edit"))
    labelled = sum(label.startswith(labels(name)) for edit in edits for label in answers(edit))
    return max(labelled, sum(any(path_is(name, other) for other in refused_names(edit)) for edit in edits))


for crate in sorted((ROOT / "crates").iterdir()):
    least = 1 if crate.name in FORWARDING else 2
    for path in sorted(path for part in ("src", "specs", "proofs") for path in (crate / part).rglob("*")):
        where = path.relative_to(ROOT)
        if path.suffix not in (".rt", ".antt"):
            continue
        text = path.read_text(encoding="utf-8")
        if not text.startswith("//" if path.suffix == ".rt" else "--"):
            wrong.append(f"{where}: does not say what it is for")
        if path.suffix == ".antt" and re.search(r"^\s*axiom\b|Prim\.Axiom", text, re.M):
            wrong.append(f"{where}: an axiom")
        if path.suffix == ".rt":
            for name, contract in public_functions(text):
                if "requires" in contract:
                    wrong.append(f"{where}: {name} is public and has a requires")
                if "ensures" not in contract:
                    wrong.append(f"{where}: {name} is public and has no ensures")
                if edits_of(crate, name) < least:
                    wrong.append(f"{where}: {name} has fewer than {least} wrong answers in must-fail")

print("\n".join(wrong) if wrong else "the tree is as it should be")
sys.exit(1 if wrong else 0)
