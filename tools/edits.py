#!/usr/bin/env python3
"""Tries each wrong answer of crates/*/must-fail, looks at why it was refused, and fails unless a fact was missing.

Use: tools/edits.py [--after-ci] [CRATE[/EDIT] ..]

An edit is a wrong answer. It is worth something if the prover refuses it because something that the contract asks for is not so. If
it only makes the proof files unfit for the code, the prover would refuse a right answer of that shape as well, and nothing is shown.

An error tells which it is:
- a fact fails: two sides of an equation differ, a tactic does not close a goal of the function, or it is not proved that what the
  function ensures holds;
- it follows from another, or a goal, a field or a name is not there, or it is any error that this tool does not know: it says nothing.
  One about a name that is not there counts against the whole, whatever else is said: then the code has another shape.

A wrong answer to F has the label F-WHAT. It is an edit of its own, F-WHAT.edit, and must leave F unproved; or it is one of several in
an edit that makes many functions wrong at once, since each edit costs a check of its crate. There it begins with the comment lines
    # F-WHAT: what is wrong
    # refused: F
and each function that is named so, F or one that F calls, must be refused for a fact of its own. One that has no error of its own, as the
prover does not look at it while a function that it calls is unproved, is tried again with its own wrong answer alone.

`rt ci` refuses the same edits, but says one reason of each, and cuts it short. So they are tried here once more, over the libraries that
`rt ci` built (--after-ci), or else that `rt check` builds.
"""
import concurrent.futures
import os
import pathlib
import re
import shutil
import sys
import tempfile

from built import CRATES, left_by_ci, ran, rattle

PARTS = ("src", "specs", "proofs")

FOLLOWS = re.compile(r".*\bwas not admitted\b")
FACT = re.compile("|".join([
    r"(as printed|computed as far as they go), the two (types|sides)",
    r"expected type `[^`]*`, but this has type `[^`]*`\s*((as printed|computed as far as they go), the two types|one side )",
    r"give a proof of that as the last argument, `rw",  # it leaves two sides that differ
    r"`rw`: no (occurrence|part)",
    r"`(omega|grind|search|cc|simp|arith)`: (the goal does not follow|no proof|.* did not prove|.* does not close)",
    r"`(omega|grind|search|cc|simp|arith)` (does not close|found no|did not)",
    r"list the missing equation",  # of `cc`
    r"`[^`]*`\s*≟ `[^`]*`\s*does not hold",
    r"it is not proved that",
]))
UNFIT = re.compile(r"has no `|has no field `|is not in scope|exports no `|expected a type, but")
# The two types differ in which place of the code they speak of: the proof is of other code.
PLACES = re.compile(r"the two types[^`]*`[^` ]*Lts\.[A-Z][a-z][^` ]*`")
SEARCHED = re.compile(r"no proof: .*`search` (did not prove|does not close)")
NO_ERROR = "no error of its own"


def refused_names(edit):
    """The functions that an edit's `# refused:` lines name."""
    lines = re.findall(r"^# refused:(.*)$", edit.read_text(encoding="utf-8"), re.M)
    return [name for line in lines for name in line.split()]


def answers(edit):
    """The labels of the wrong answers in an edit."""
    return re.findall(r"^# (\w+-\w+):", edit.read_text(encoding="utf-8"), re.M) or [edit.stem]


def labels(name):
    """What the labels of a function's edits may begin with: `next-`, or `link_ops_next-`."""
    snake = "_".join(re.sub(r"(?<!^)(?=[A-Z])", "_", part).lower() for part in name.split("::"))
    return (name.split("::")[-1] + "-", snake + "-")


def path_is(path, name):
    return path == name or path.endswith("::" + name)


def kind(said):
    """What an error, without its place, comes to."""
    said = re.sub(r"^`[^`]*`: ", "", said)
    if FOLLOWS.match(said):
        return "follows"
    if UNFIT.search(said) or PLACES.search(said):
        return "unfit"
    return "fact" if FACT.match(said) else "unknown"


class Log:
    """What a check said of an edited crate."""

    def __init__(self, text):
        self.text = text
        self.refused = re.search(r"^logic=not-proved", text, re.M) is not None
        self.state, self.problems, notes = {}, [], []
        for where, said in re.findall(r"^(?:\./)?(\S+?):\d+:\d+: error: (.*(?:\n  .*)*)", text, re.M):
            self.problems.append((where, said))
        for line in text.splitlines():
            if note := re.match(r"note: src/\S+: (it is not proved that .*)", line):
                notes.append(note[1])
            elif state := re.match(r"fn \w+::(\S+): (.*)", line):
                self.state[state[1]] = state[2]
                self.problems += [(self.place(state[1]), said) for said in notes]
                notes = []

    @staticmethod
    def place(path):
        return "proofs/" + path.replace("::", "/") + "/"

    def unproved(self, name):
        """The functions of that name that are not proved."""
        return [path for path, state in self.state.items() if path_is(path, name) and state != "proved"]

    def proves(self, label):
        """Whether the function that a label is of is proved all the same."""
        meant = [state for path, state in self.state.items()
                 if label.startswith(labels(path)) or label.startswith(labels("::".join(path.split("::")[-2:])))]
        return bool(meant) and all(state == "proved" for state in meant)

    def fault(self, path=None):
        """What is wrong with this log as a refusal for a fact, of one function if a path is given; None if it is one."""
        place = "" if path is None else self.place(path)
        own = [(kind(said), where, said) for where, said in self.problems if where.startswith(place)]
        own = [one for one in own if one[0] != "follows"]
        unfit = [one for one in own if one[0] == "unfit"]
        if own:
            first = unfit[0] if unfit else own[0]
            return None if first[0] == "fact" else f"{first[1]}: {first[2].splitlines()[0][:160]}"
        if any(SEARCHED.match(state) for name, state in self.state.items() if path in (None, name)):
            return None
        return NO_ERROR


def apply(text, folder):
    """Makes the changes of an edit in a copy of its crate."""
    path, old = None, ""
    for line in text.split("\n"):
        if line.startswith("file: "):
            path = folder / line[6:].strip()
        elif line.startswith("old: "):
            old = line[5:]
        elif line.startswith("new:"):
            before = path.read_text(encoding="utf-8")
            if before.count(old) != 1:
                raise ValueError(f"it cannot be applied: {old!r} stands {before.count(old)} times in {path.name}")
            path.write_text(before.replace(old, re.sub("^ ", "", line[4:])), encoding="utf-8")


def alone(text, name):
    """The part of an edit that makes this function wrong, where each wrong answer has a label of its own."""
    path, parts = "", []
    for line in text.split("\n"):
        if line.startswith("file: "):
            path = line
        elif re.match(r"# \w+-\w+:", line):
            parts.append([path, line])
        elif parts:
            parts[-1].append(line)
    parts = [part for part in parts if any(line.startswith("# refused:") and name in line.split() for line in part)]
    return "\n".join(line for part in parts for line in part)


class Tries:
    """Checks of edited copies of one crate. What one proved, and another edit leaves as it is, is not proved again."""

    def __init__(self, crate, room):
        self.crate, self.copy, self.kept = crate, room / crate, room / f"{crate}-kept"

    def log(self, text):
        """What a check of the crate says with an edit of this text."""
        shutil.rmtree(self.copy, ignore_errors=True)
        for part in PARTS:
            if (CRATES / self.crate / part).is_dir():
                shutil.copytree(CRATES / self.crate / part, self.copy / part)
        apply(text, self.copy)
        return Log(rattle("check", self.crate, self.copy, "--incremental", self.kept)[1])

    def faults(self, edit):
        """What is wrong with one edit."""
        text = edit.read_text(encoding="utf-8")
        try:
            log = self.log(text)
        except (OSError, ValueError) as reason:
            return [str(reason)]
        if not log.refused:
            return ["it was not refused: " + log.text.strip()[-300:]]
        names, own = refused_names(edit), answers(edit)
        found = [f"{label} is proved all the same" for label in own if log.proves(label)]
        if not names:
            return found or [fault for fault in [log.fault()] if fault]
        if own != [edit.stem] and len(own) != len(names):
            found.append(f"{len(own)} wrong answers, and {len(names)} functions that are refused")
        for name in names:
            if not log.unproved(name):
                found.append(f"{name} is proved all the same, or is not there")
            for path in log.unproved(name):
                fault = log.fault(path)
                if fault == NO_ERROR and alone(text, name):
                    again = self.log(alone(text, name))
                    fault = again.fault(path) if again.refused and again.unproved(path) else "by itself it is proved all the same"
                found += [f"{name}: {fault}"] if fault else []
        return found


def tried(edits, after_ci):
    """Each edit with what is wrong with it, as they are tried: the edits of a crate one after another, and some crates at a time."""
    crates = {}
    for edit in edits:
        crates.setdefault(edit.parts[-3], []).append(edit)
    for crate in crates:
        if not (after_ci and left_by_ci(crate)):
            status, said = ran(["rt", "check"], CRATES / crate)
            if status:
                sys.exit(f"{crate} is not proved as it stands:\n{said[-2000:]}")
    with tempfile.TemporaryDirectory(prefix="rewzhanok-edits-") as room:
        def each(crate):
            tries = Tries(crate, pathlib.Path(room))
            found = [(edit, tries.faults(edit)) for edit in crates[crate]]
            shutil.rmtree(tries.kept, ignore_errors=True)
            return found
        with concurrent.futures.ThreadPoolExecutor(int(os.environ.get("RT_JOBS") or len(os.sched_getaffinity(0)))) as pool:
            for found in pool.map(each, sorted(crates, key=lambda crate: -len(crates[crate]))):
                yield from found


def main():
    wanted = {*sys.argv[1:]} - {"--after-ci"}
    edits = sorted(CRATES.glob("*/must-fail/*.edit"))
    edits = [it for it in edits if not wanted or wanted & {it.parts[-3], f"{it.parts[-3]}/{it.stem}"}]
    wrong = [f"{edit.parts[-3]}/{edit.stem}: {fault}" for edit, faults in tried(edits, "--after-ci" in sys.argv) for fault in faults]
    count = sum(max(len(answers(edit)), len(refused_names(edit))) for edit in edits)
    print("\n".join(wrong + [f"{len(edits)} edits, {count} wrong answers" +
                             (f", {len(wrong)} faults" if wrong else ", each refused for a fact")]))
    sys.exit(1 if wrong or not edits else 0)


if __name__ == "__main__":
    main()
