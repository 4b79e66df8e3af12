"""What a stage runs and what it runs it on: the command, the proved programs, and files by seed."""
import os
import pathlib
import shlex
import subprocess

ROOT = pathlib.Path(__file__).resolve().parents[2]
WARNINGS = ["-Wall", "-Wextra", "-Wpedantic", "-Wconversion", "-Wshadow", "-Werror"]
PROVED = ("report", "carryprogram")


def ask(*words):
    """What a command prints, in lines. One that fails ends the stage."""
    return subprocess.run(words, cwd=ROOT, stdout=subprocess.PIPE, check=True, text=True).stdout.splitlines()


def words_of(program):
    """What runs a program for x86-64 on this machine: an emulator perhaps, and the program."""
    return ask("tools/x86-64", "--words", str(program))


def command(room):
    """The words that run octalmure, made from the present sources; COMMAND='...' has another tried in its place."""
    ask("make", "-s", f"BUILD={room}/build", "command")
    given = os.environ.get("COMMAND")
    return shlex.split(given) if given else words_of(f"{room}/build/octalmure")


def stale(program):
    """Whether a program is missing, or older than a source. What a crate's folder out/ holds is no source."""
    paths = (path for part in ("src", "specs", "proofs") for path in (ROOT / "crates").glob(f"*/{part}/**/*") if path.is_file())
    sources = [ROOT / "crates.txt", *paths]
    return not program.exists() or program.stat().st_mtime < max(path.stat().st_mtime for path in sources)


def proved():
    """The words that run each proved program, by its name. One that is missing or older than a source is made first."""
    for name in PROVED:
        folder = ROOT / "crates" / name
        program = folder / "out" / name
        if stale(program):
            with open(folder / "stdin", "rb") as given:
                subprocess.run([ROOT / "tools" / "alone", "rt", "run"], cwd=folder, stdin=given, stdout=subprocess.DEVNULL, check=True)
            program.touch()  # a source that is newer and says the same leaves the program as it was
    return {name: ask("tools/proved", "--words", name) for name in PROVED}


def generated(room, seed, first, count):
    """So many cases of tests/independent, from the number first on: each file's path, and what it is to be carried to."""
    sources = [f"tests/independent/{name}.c" for name in ("cases", "server", "spoil")]
    ask("cc", "-std=c11", "-O2", *WARNINGS, "-Itests/independent", "-o", f"{room}/files", "tests/files/files.c", *sources)
    lines = ask(f"{room}/files", str(room), str(seed), str(first), str(count))
    return [(room / f"{number}.run", int(horizon)) for number, horizon in (line.split() for line in lines)]
