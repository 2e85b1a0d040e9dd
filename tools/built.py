"""How a crate is checked or compiled over the libraries below it that stand built, as `rt ci` leaves them.

`rt` itself would prove those once more: after `rt ci` no check has kept work beside them.
"""
import functools
import pathlib
import re
import subprocess

ROOT = pathlib.Path(__file__).resolve().parent.parent
CRATES = ROOT / "crates"


def library(crate):
    return CRATES / crate / "out" / "rlib" / f"{crate}.rlib"


def used(crate):
    """The crates that this one uses, as crates.txt says."""
    return re.search(rf"^{crate}(?: staticlib)?:(.*)$", (ROOT / "crates.txt").read_text(encoding="utf-8"), re.M)[1].split()


@functools.cache
def below(crate):
    """Those, and what they use in turn."""
    return sorted({*used(crate), *(it for one in used(crate) for it in below(one))})


def left_by_ci(crate):
    """Whether `rt ci` built the libraries below: it leaves no stamp beside one, as other commands do."""
    return all(library(it).is_dir() and not (library(it).parent / "stamp").exists() for it in below(crate))


def ran(words, folder):
    """The status of a command that is run in a folder, and what it said."""
    done = subprocess.run([str(word) for word in words], cwd=folder, stdin=subprocess.DEVNULL, stdout=subprocess.PIPE,
                          stderr=subprocess.STDOUT, text=True, errors="replace")
    return done.returncode, done.stdout


def rattle(verb, crate, folder, *flags):
    """What `ran` gives of the kit's `rattle`, on the crate's files in a folder and over the libraries below it."""
    kit = pathlib.Path(subprocess.run(["rt", "doc"], check=True, capture_output=True, text=True).stdout.strip()).parent
    top = next(it for it in ("src/lib.rt", "src/main.rt") if (folder / it).is_file())
    words = [kit / "bin/rattle", verb, "--crate-name", crate, top, "--extern", f"std={kit}/rlibs/std.rlib", "-L", f"dependency={kit}/rlibs"]
    for it in used(crate):
        words += ["--extern", f"{it}={library(it)}"]
    for it in below(crate):
        words += ["-L", f"dependency={library(it).parent}"]
    words += ["--antt-project", kit / "rattle/logic/antt-project.json", "--logic-built", kit / "logic_built", "--jobs", "1"]
    words += ["--toolchain", kit / "toolchain"] if verb == "build" else []
    return ran([*words, *flags], folder)
