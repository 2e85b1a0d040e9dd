"""Builds the programs of host/ into target/host, for the scripts beside it, if they are older than their sources."""
import pathlib
import shutil
import subprocess

HOST = pathlib.Path(__file__).resolve().parent
ROOT = HOST.parent
OUT = ROOT / "target" / "host"
# The program, as `rt run` and `rt ci` leave it, and what host/archives builds.
DESK = ROOT / "crates" / "desk_main" / "out" / "desk_main"
LIBRARY = ROOT / "target" / "staticlib" / "librewzhanok.a"
POOLS_LIBRARY = ROOT / "target" / "staticlib" / "librewzhanok_pools.a"
# A sample of lines, and what the Rust crate answers to them: host/sample makes both.
KEPT_LINES = ROOT / "crates" / "replay" / "stdin"
KEPT_ANSWERS = ROOT / "crates" / "replay" / "stdout"
# The source of the Rust crate that the lists are a port of. It is no part of this project.
CRATE = ROOT.parent / "shared" / "docs" / "src" / "src"


def have(tool):
    return shutil.which(tool) is not None


def made(target, sources, command):
    """Runs the command if the target is missing or older than a source."""
    OUT.mkdir(parents=True, exist_ok=True)
    newest = max(source.stat().st_mtime for source in sources)
    if not target.exists() or target.stat().st_mtime < newest:
        subprocess.run([str(part) for part in command], check=True)
    return target


def rust(name, *parts):
    """A Rust program of host/, with the other files that it is made of."""
    sources = [HOST / f"{part}.rs" for part in (name, *parts)]
    command = ["rustc", "--edition", "2021", "-O", "-o", OUT / name, sources[0]]
    return made(OUT / name, sources, command)


def plain():
    return rust("plain", "plain_lists")


def tuned():
    return rust("tuned", "tuned_lists")


def linked(name, parts, library, flags):
    """A C caller made of parts of host/, the main one first, linked with a static library."""
    sources = [HOST / part for part in parts]
    command = ["gcc", "-std=c11", "-O1", "-Wall", "-Wextra", "-Werror", *flags, "-I", ROOT / "include",
               "-o", OUT / name, sources[0], library]
    return made(OUT / name, [*sources, ROOT / "include" / f"{library.stem[3:]}.h", library], command)


def caller(name="caller", *flags):
    return linked(name, ["caller.c", "guarded.h"], LIBRARY, flags)


def pools_caller(name="pools_caller", *flags):
    return linked(name, ["pools_caller.c", "pools_calls.h", "pools_expected.h", "guarded.h"], POOLS_LIBRARY, flags)


def faults():
    """What makes reads and writes of the program fail, to be loaded into it."""
    target, source = OUT / "faults.so", HOST / "faults.c"
    return made(target, [source], ["gcc", "-std=c11", "-O1", "-Wall", "-Wextra", "-Werror", "-shared", "-fPIC", "-o", target, source])


def oracle():
    """The crate's own file behind the command lines."""
    sources = [HOST / "oracle.rs", HOST / "oracle_desk.rs", *CRATE.glob("*.rs")]
    command = ["rustc", "--edition", "2021", "-O", "-o", OUT / "oracle", sources[0]]
    return made(OUT / "oracle", sources, command)


def pools_race():
    """Walk and audit beside a plain loop, linked with the library of pools."""
    target, source = OUT / "pools_race", HOST / "pools_race.rs"
    command = ["rustc", "--edition", "2021", "-O", "-L", f"native={POOLS_LIBRARY.parent}", "-l", "static=rewzhanok_pools", "-o", target, source]
    return made(target, [source, POOLS_LIBRARY], command)
