#!/usr/bin/env python3
"""Checks docs/PROMISES.md: every name that its tables give exists, and every public function and every wrong answer of must-fail
stands in one of them.

A row is: rule | definition | contract | theorem | must-fail edit | run. In its cells
  `words.Names.name`              is a definition of crates/words/specs/Names.antt,
  `words::names::Node::to_name`   a public function of crates/words/src,
  `words.Laws.Names.name-is`      a law of crates/words/proofs/Laws/Names.antt,
  `words/to_name-twice_i`         a wrong answer in crates/words/must-fail: an edit, or one of several in an edit,
  `cases` or `host/x.sh`          a program, or a script of this repository.
"""
import pathlib
import re
import sys

from edits import answers

ROOT = pathlib.Path(__file__).resolve().parent.parent
CRATES = ROOT / "crates"
COLUMNS = ["rule", "definition", "contract", "theorem", "edit", "run"]
wrong = []


def declared(folder, name):
    """Whether a module below a folder declares a name: crate.Module.name, or crate.Module.Module.name."""
    crate, *modules, last = name.split(".")
    path = CRATES / crate / folder / ("/".join(modules) + ".antt")
    if not path.is_file():
        return False
    text = path.read_text(encoding="utf-8")
    last = re.escape(last)
    return re.search(rf"^\s*(?:(?:unfoldable|abbrev|pub) )*(?:record |data )?{last}(?: |$)[^=\n]*(?::|$)", text, re.M) is not None


def functions():
    """Every public function, by its path."""
    for path in sorted(CRATES.glob("*/src/**/*.rt")):
        crate = path.relative_to(CRATES).parts[0]
        inner = [] if path.stem in ("lib", "main") else [path.stem]
        owner = None
        for m in re.finditer(r'^impl(?:<[^>]*>)? (\w+)|^\}|^\s*pub (?:extern "C" )?fn (\w+)', path.read_text(encoding="utf-8"), re.M):
            if m.group(1):
                owner = m.group(1)
            elif m.group(2):
                yield "::".join([crate, *inner, *([owner] if owner else []), m.group(2)])
            else:
                owner = None


PUBLIC = set(functions())
EDITS = {f"{path.parts[-3]}/{label}" for path in CRATES.glob("*/must-fail/*.edit") for label in answers(path)}


def exists(column, name):
    if column == "definition":
        return declared("specs", name)
    if column == "theorem":
        return declared("proofs", name)
    if column == "contract":
        return name in PUBLIC
    if column == "edit":
        return name in EDITS
    return (CRATES / name / "src" / "main.rt").is_file() or (ROOT / name).is_file()


named = set()
rows = 0
for number, line in enumerate((ROOT / "docs" / "PROMISES.md").read_text(encoding="utf-8").splitlines(), 1):
    cells = [c.strip() for c in line.strip().strip("|").split("|")]
    if not line.startswith("|") or set(cells[0]) <= set("-: ") or cells[0] == "Rule":
        continue
    if len(cells) != len(COLUMNS):
        wrong.append(f"docs/PROMISES.md:{number}: {len(cells)} cells, and not {len(COLUMNS)}")
        continue
    rows += 1
    for column, cell in list(zip(COLUMNS, cells))[1:]:
        for name in re.findall(r"`([^`]+)`", cell):
            if column in ("contract", "edit"):
                named.add(name)
            if not exists(column, name):
                wrong.append(f"docs/PROMISES.md:{number}: there is no {column} {name}")

wrong += [f"docs/PROMISES.md: {name} is public, and no row names its contract" for name in sorted(PUBLIC - named)]
wrong += [f"docs/PROMISES.md: no row names the wrong answer {name}" for name in sorted(EDITS - named)]
if rows == 0:
    wrong.append("docs/PROMISES.md: no rows")
print("\n".join(wrong) if wrong else f"{rows} rows of promises, every name is there")
sys.exit(1 if wrong else 0)
