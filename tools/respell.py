#!/usr/bin/env python3
"""Brings the repository's own definitions to the toolchain's spelling: words in snake case. Run once, at the top, after the kit's port.py.

A definition of specs/ or proofs/ whose name has a capital inside, as `poolFits`, gets underscores, as `pool_fits`. Functions of src/,
exported names, strings, inputs and outputs are in another case already and keep their names. Where a lemma, a field or a constructor would
then have a definition's name, it keeps its dash: port.py gave it an underscore because a library has a word of that spelling.
Wrong answers, pages and tools that cite a name are turned alike. The rest of a wrong answer's text is fitted by hand.
"""
import pathlib
import re

ROOT = pathlib.Path(".")
NAME = r"[^\s(){};,.λ:]+"
DECLARED = re.compile(rf"^\s*(?:(?:unfoldable|abbrev|pub) )*({NAME})(?: [({{].*)? : ", re.M)
# crate: names of lemmas, fields and constructors that keep their dash.
DASHED = {
    "walk": ["at_tail"],
    "batch_desk": ["zip_ends"],
    "history": ["on_list", "on_both", "by_code"],
    "promises": ["split_after", "on_list", "by_code", "by_next", "no_room"],
    "table": ["split_after", "on_list", "by_next", "at_back", "at_front"],
    "stream": ["no_room"],
    "rewzhanok": ["no_room"],
    "links": ["taken_out"],
    "remove": ["taken_out"],
}
PAGES = ["README.md", "docs/*.md", "tools/*.py", "host/*", "include/*.h"]


def word(name):
    return re.compile(rf"(?<![\w'·-]){re.escape(name)}(?![\w'-])")


def antt():
    return [p for p in sorted(ROOT.glob("crates/*/*/**/*.antt")) if p.parts[2] in ("specs", "proofs")]


def snake(name):
    return re.sub("[A-Z]", lambda m: "_" + m.group().lower(), name)


def camel_names():
    found = set()
    for path in antt():
        found |= {n for n in DECLARED.findall(path.read_text(encoding="utf-8")) if re.match(r"[a-z]\w*[A-Z]\w*$", n)}
    return sorted(found)


def rewrite(path, change):
    text = path.read_text(encoding="utf-8")
    new = change(text)
    if new != text:
        path.write_text(new, encoding="utf-8")


def main():
    names = camel_names()
    table = {n: snake(n) for n in names}
    every = re.compile(r"(?<![\w'·-])(" + "|".join(sorted(names, key=len, reverse=True)) + r")(?![\w'-])")
    for path in antt():
        crate = path.parts[1]

        def dash(text):
            for name in DASHED.get(crate, []):
                text = word(name).sub(lambda m: m.group().replace("_", "-"), text)
            return text
        rewrite(path, dash)
    pages = [p for pattern in PAGES for p in sorted(ROOT.glob(pattern)) if p.is_file() and p.name != "respell.py"]
    for path in antt() + sorted(ROOT.glob("crates/*/src/**/*.rt")) + sorted(ROOT.glob("crates/*/must-fail/*.edit")) + pages:
        rewrite(path, lambda text: every.sub(lambda m: table[m.group()], text))
    print(f"respell: {len(names)} names in snake case")
    print(" ".join(names))


if __name__ == "__main__":
    main()
