"""No verdict without a complete read."""
import os
import subprocess

from trial import NOBODY, seen, text, told

# each word with what stands behind it; None is the file that is in question
WORDS = (("check", None), ("carry", None, "30"), ("show", None), ("say", None), ("say", None, "30"), ("why", None, "0"), ("explain", None),
         ("explain", "--json", None), ("import", None, "c1.csv"), ("import", "c1.run", None), ("export", None))
# a names file may begin with '-', and may be empty
NAMING = ("explain", "c1.run", "--names", None)
C1 = b"1 1 0 0 0\n"
MOST_READ = 12949


def asked(word, name):
    return [name if part is None else part for part in word]


def trouble(room, name, reason, shown=None, **how):
    """Every word names the file and the reason, exits with 2, and leaves standard output empty."""
    for word in (*WORDS, NAMING):
        words = asked(word, name)
        done = room.run(*words, **how)
        yield f"{words}: {seen(done)}", told(done, 2, b"", f"octalmure: {shown or name}: {reason}\n")


def unreadable(room):
    yield from trouble(room, "nofile", "No such file or directory")
    yield from trouble(room, "", "No such file or directory")
    yield from trouble(room, ".", "Is a directory")
    yield from trouble(room, "c1.run/x", "Not a directory")
    yield from trouble(room, "/proc/self/mem", "Input/output error")
    yield from trouble(room, "nofile\x1b[2J\n", "No such file or directory", shown="nofile?[2J?")
    closed = room.file("closed.run", (room.runs / "c1.run").read_bytes())
    closed.chmod(0)
    yield from trouble(room, "closed.run", "Permission denied", user=NOBODY)
    closed.unlink()
    yield from trouble(room, "-", "Bad file descriptor", shown="standard input", stdin=None, preexec_fn=lambda: os.close(0))
    yield from trouble(room, "-", "Is a directory", shown="standard input", stdin=os.open(room.runs, os.O_RDONLY))
    yield from trouble(room, "c1.run", "Input/output error", fault="read")


def names(room):
    """A name that begins with '-' is an option unless it stands after '--' or a folder; '-' is standard input."""
    c1, c9, table = ((room.runs / name).read_bytes() for name in ("c1.run", "c9.run", "c1.csv"))
    made = [room.file("-x.run", c1), room.file("-", c9), room.file("--help", c1), room.file("-x.csv", table)]
    for words in (["check", "--", "-x.run"], ["check", "./-x.run"], ["check", "--", "--help"], ["check", str(room.runs / "-x.run")]):
        done = room.run(*words)
        yield f"{words}: {seen(done)}", told(done, 0, C1, "")
    done = room.run("carry", "--", "-x.run", "30")
    yield f"carry -- -x.run 30: {seen(done)}", told(done, 0, (room.runs / "c4.run").read_bytes(), "")
    for words, written in ((["import", "--", "-x.run", "-x.csv"], c1), (["export", "--", "-x.run"], table)):
        done = room.run(*words)
        yield f"{words}: {seen(done)}", told(done, 0, written, "")
    done = room.run("check", "./-")
    yield f"check ./-: {seen(done)}", told(done, 0, b"0 0 0 0 0\n", "")
    for words in (["check", "-"], ["check", "--", "-"]):
        done = room.run(*words, input=c1)
        yield f"{words} with C1 on standard input: {seen(done)}", told(done, 0, C1, "")
    for words, given, written in ((["import", "-", "c1.csv"], c1, c1), (["import", "c1.run", "-"], table, c1),
                                  (["export", "-"], c1, table)):
        done = room.run(*words, input=given)
        yield f"{words}: {seen(done)}", told(done, 0, written, "")
    for words in (["import", "-", "-"], ["import", "--", "-", "-"]):
        done = room.run(*words, input=c1)
        yield f"{words}: {seen(done)}", told(done, 2, b"", "octalmure: -: FILE and TABLE cannot both be standard input\n")
    for words in (asked(word, "-x.run") for word in WORDS):
        done = room.run(*words)
        yield f"{words}: {seen(done)}", done.returncode == 2 and done.stdout == b"" and "--" in text(done.stderr)
    for path in made:
        path.unlink()


def nothing(room):
    """Standard input without a byte is a file, and a table, that is refused."""
    for words in (asked(word, "-") for word in WORDS):
        line = None if words[0] in ("show", "say", "explain") else b"4 12 1 0 0\n" if words == ["import", "c1.run", "-"] else b"4 1 0 0 0\n"
        done = room.run(*words, input=b"")
        yield f"{words} with nothing on standard input: {seen(done)}", told(done, 3, line, "")


def lengths(room):
    """All bytes are read, however they come, up to one past the longest file; and no more."""
    c1, longest = (room.runs / "c1.run").read_bytes(), (room.runs / "longest.run").read_bytes()
    for contents, line in ((c1, C1), (b"", b"4 1 0 0 0\n"), (longest, b"1 496 1 0 0\n"), (longest + b"\0", b"4 8 0 0 0\n")):
        for how in ({"fault": "drops"}, {}):
            done = room.run("check", "-", input=contents, **how)
            yield f"{len(contents)} bytes, {how}: {seen(done)}", told(done, 3 if line[:1] == b"4" else 0, line, "")
    done = room.run("check", "/dev/zero")
    yield f"/dev/zero: {seen(done)}", told(done, 3, b"4 2 0 0 0\n", "")
    with subprocess.Popen(["cat", room.runs / "c1.run", "/dev/zero"], stdout=subprocess.PIPE) as endless:
        done = room.run("check", "-", stdin=endless.stdout)
        endless.stdout.close()
    yield f"C1 and zeros without end: {seen(done)}", told(done, 3, b"4 8 0 0 0\n", "")
    long = os.open(room.file("long.run", c1 + bytes(100000)), os.O_RDONLY)
    room.run("check", "-", stdin=long)
    yield "of a long input other than its first 12,949 bytes are read", os.lseek(long, 0, os.SEEK_CUR) == MOST_READ
    os.close(long)


def verdicts(room):
    yield from unreadable(room)
    yield from names(room)
    yield from nothing(room)
    yield from lengths(room)
