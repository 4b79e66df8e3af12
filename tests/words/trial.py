"""Runs of the command, and what is held of each; for tests/command and tests/texts."""
import os
import pathlib
import shutil
import subprocess
import tempfile

import ready

ROOT = ready.ROOT
WRAPPED = ("read", "write", "close", "fsync", "fchmod", "rename", "mkstemp", "open_memstream")
NOBODY = 65534


class Room:
    """A folder for one stage, open to every user, with the command, the same with faults, and the worked runs."""

    def __init__(self):
        self.at = pathlib.Path(tempfile.mkdtemp(prefix="octalmure test "))
        self.at.chmod(0o755)
        # a name without a space: make's targets have none
        self.name = pathlib.Path(tempfile.mkdtemp()) / "room"
        self.name.symlink_to(self.at)
        self.name.parent.chmod(0o755)
        self.command = ready.command(self.name)
        self.compile_faulty()
        self.faulty = ready.words_of(self.at / "faulty")
        self.runs = self.at / "runs"
        shutil.copytree(ROOT / "examples", self.runs)

    def compile_faulty(self):
        sources = [*sorted(map(str, (ROOT / "host").glob("*.c"))), str(ROOT / "tests" / "words" / "faults.c")]
        wraps = [f"-Wl,--wrap={name}" for name in WRAPPED]
        archive = str(self.at / "build" / "liboctalmure.a")
        ready.ask(*ready.ask("tools/compiler", "cc"), "-std=gnu11", *ready.WARNINGS, "-Iinclude", "-static", "-o", str(self.at / "faulty"),
                  *sources, archive, *wraps)

    def clear(self):
        shutil.rmtree(self.at)
        shutil.rmtree(self.name.parent)

    def file(self, name, contents):
        path = self.runs / name
        path.write_bytes(contents)
        return path

    def run(self, *words, fault=None, user=None, env=None, **how):
        """Runs the command in the folder of the runs; what it wrote on both streams is kept unless they go elsewhere."""
        command = self.faulty if fault else self.command
        environment = {**os.environ, **(env or {}), **({"FAULT": fault} if fault else {})}
        how.setdefault("stdin", subprocess.DEVNULL)
        how.setdefault("stdout", subprocess.PIPE)
        how.setdefault("stderr", subprocess.PIPE)
        if "input" in how:
            del how["stdin"]
        if user is not None and os.getuid() == 0:  # another user than root is one already
            how.update(user=user, group=user, extra_groups=[])
        return subprocess.run([*command, *map(str, words)], cwd=self.runs, env=environment, timeout=300, **how)


def folder(path):
    """What stands in a folder: names, contents and rights."""
    return {entry.name: (entry.read_bytes() if entry.is_file() else None, entry.lstat().st_mode) for entry in sorted(path.iterdir())}


def contents(path):
    """None if there is no such file."""
    return path.read_bytes() if path.is_file() else None


def text(stream):
    return (stream or b"").decode(errors="replace")


def told(done, status, out, said):
    """Whether the run ended with this status, wrote just this on standard output, and said just this on standard error; None: not
    looked at."""
    return (done.returncode == status and (out is None or done.stdout == out)
            and (said is None or text(done.stderr) == said))


def seen(done):
    return f"status {done.returncode}, {text(done.stdout)[:80]!r}, {text(done.stderr)[:200]!r}"
