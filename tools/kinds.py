#!/usr/bin/env python3
"""Node numbers and names are two types, `Node` and `Name`, and meet in `Node::to_name` and `Name::decode` alone. This checks that no
source makes one from the other, or from a number that it computed: it fails at each `Node(..)`, `Name(..)` and `.0` that is not one of
the forms below, and at a row below that is of no use.

In a form, NAME is a variable or a field that holds a name, and NUMBER is a number that is written out. Kinds go by what a variable is
called: a node is a `node`, and what a name may be called is never declared or matched as a node. Comments, clauses and imports of
definitions are not read: they make nothing that runs.
"""
import pathlib
import re
import sys

CRATES = pathlib.Path(__file__).resolve().parent.parent / "crates"
NAMES = "head tail current prev next ptr start end old new side word at prev_head next_tail".split()

# Everywhere.
FORMS = {
    "node.0 as usize": "a node's number is its place in a slice",
    "Node(NUMBER)": "no other kind of number is in it",
    "Name(NUMBER)": "no other kind of number is in it",
}
# In one file.
PLACES = {
    "words/src/names.rt": {
        "Name(2 * (i + 1))": "naming",
        "let i = self.0;": "naming",
        "Node(self.0 / 2 - 1)": "decoding",
        "let w = self.0;": "whether a word can be decoded",
        "self.0 == 0": "whether a word is null",
        "pub struct Node(pub u32);": "the type",
        "pub struct Name(pub u32);": "the type",
    },
    "links/src/xor_ops.rt": {
        "Name(LinkOps::get(words, ptr).0 ^ NAME.0)": "a node's word holds its neighbours' names",
        "LinkOps::put(words, ptr, NAME.0 ^ NAME.0)": "as above",
        "LinkOps::put(words, ptr, LinkOps::get(words, ptr).0 ^ NAME.0 ^ NAME.0)": "as above",
    },
    "words/src/link_ops.rt": {"self.0 != Link::UNLINKED_MARKER": "the field of a `Link`"},
    "ends/src/tests.rt": {
        "Name(LinkOps::get(words, NAME).0)": "the word of a list's end is the name of its one neighbour",
        "LinkOps::get(words, current).0 == NAME.0 ^ NAME.0": "a node's word holds its neighbours' names",
    },
    "audit/src/directory.rt": {
        "Name(self.heads[list])": "ends are lent as words",
        "Name(self.tails[list])": "ends are lent as words",
    },
    "rewzhanok_pools/src/lib.rt": {"Name(NAME)": "ends are handed in as words"},
    "rows/src/lib.rt": {
        "Ends::new(Name(NAME), Name(NAME))": "ends and cursors are lent as words",
        "Cursor::new(Name(NAME), Name(NAME), Name(NAME))": "ends and cursors are lent as words",
        "NAME.0,": "ends and cursors are lent as words",
    },
    "example_loop/src/lib.rt": {"Node(i)": "the nodes of an example, counted"},
    "desk/src/work.rt": {"Node(node)": "the node field of a command line"},
    "replies/src/lib.rt": {"found.map_or(NO_NODE, |node| node.0)": "the node field of an answer"},
}


def pattern(form):
    """A form as a regular expression: blanks are free, NAME is a path that ends in a name."""
    text = re.sub(r"(?:\\ )+", r"\\s*", re.escape(form))
    text = text.replace("NAME", r"(?:\w+\.)*\b(?:" + "|".join(NAMES) + r")\b")
    return re.compile(r"(?<![\w.])" + text.replace("NUMBER", r"[0-9][0-9_a-fx]*"))


def blanked(text, form):
    """The text with what has this form blanked out, and how often that is."""
    return pattern(form).subn(lambda m: re.sub(r"\S", " ", m.group()), text)


def code(text):
    """The text with comments, clauses and imports of definitions blanked out."""
    hide = lambda part: re.sub(r"\S", " ", part)
    text = re.sub(r"//[^\n]*|^ghost use [^;]*;", lambda m: hide(m.group()), text, flags=re.M)
    for clause in re.finditer(r"\b(?:ensures|requires)\b[^{};]*\{", text):
        end, depth = clause.end(), 1
        while depth:
            depth += {"{": 1, "}": -1}.get(text[end], 0)
            end += 1
        text = text[:clause.start()] + hide(text[clause.start():end]) + text[end:]
    return text


def main():
    wrong = [f"{name}: there is no such file" for name in PLACES if not (CRATES / name).is_file()]
    for path in sorted(CRATES.glob("*/src/**/*.rt")):
        name = str(path.relative_to(CRATES))
        text = code(path.read_text(encoding="utf-8"))
        # A program that tests hands in what it likes and shows fields; it does not make the one from the other either.
        program = (CRATES / name.split("/")[0] / "src" / "main.rt").is_file()
        for called in re.findall(r"\b(\w+): Node\b" + (r"()" if program else r"|\bSome\((\w+)\)"), text):
            wrong += [f"{name}: a node is called `{c}`, as names are" for c in called if c in NAMES]
        for form in PLACES.get(name, {}):
            text, found = blanked(text, form)
            if not found:
                wrong.append(f"{name}: nothing is `{form}`")
        for form in FORMS:
            text, _ = blanked(text, form)
        bad = r"\b(?:Node|Name)\((?:[^()]|\((?:[^()]|\([^()]*\))*\))*?\.0\b" if program else r"\b(?:Node|Name)\(|[\w)\]]\.0\b"
        lines = path.read_text(encoding="utf-8").splitlines()
        at = sorted({text.count("\n", 0, found.start()) for found in re.finditer(bad, text)})
        wrong += [f"{name}:{line + 1}: {lines[line].strip()}" for line in at]
    print("\n".join(wrong) if wrong else "node numbers and names are kept apart")
    sys.exit(1 if wrong else 0)


if __name__ == "__main__":
    main()
