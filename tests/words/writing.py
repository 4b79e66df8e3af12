"""No success without a complete write."""
import os
import pathlib
import resource
import signal
import stat
import subprocess
import sys

from trial import NOBODY, contents, folder, seen, text, told

OLD = b"what stood there\n"
ENDS = ("SIGHUP", "SIGINT", "SIGQUIT", "SIGTERM")
# the words that write, each with what it writes, which has more than 8 KiB, and with what stands behind it where it is refused
WRITING = {
    ("carry", "c9.run", "512"): ("c9.run", {("c1.run", "19"): b"4 9 0 0 0\n", ("c5.run", "30"): b"4 10 0 0 0\n",
                                            ("c8.run", "30"): b"4 1 0 0 0\n"}),
    ("import", "c9.run", "c9.csv"): ("c9.run", {("c1.run", "c1.run"): b"4 12 1 0 0\n", ("c8.run", "c9.csv"): b"4 1 0 0 0\n"}),
    ("export", "c9.run"): ("c9.csv", {("c10.run",): b"4 6 0 0 0\n", ("c8.run",): b"4 1 0 0 0\n"}),
}
SAYING = (["check", "c1.run"], *map(list, WRITING), ["carry", "c1.run", "19"], ["import", "c1.run", "c1.run"], ["export", "c8.run"],
          ["show", "c9.run"], ["say", "c1.run", "30"], ["why", "c1.run", "1"], ["explain", "c1.run"],
          ["explain", "c1.run", "--json"], ["--help"], ["check", "--help"], ["--version"])


def failed(done, name, reason):
    return told(done, 2, None, f"octalmure: {name}: {reason}\n")


def standard_output(room):
    """A full device, a closed descriptor, one that can only be read, a pipe that ends early, a close that fails."""
    for words in SAYING:
        with open("/dev/full", "wb") as full, open("/dev/null", "rb") as null:
            ways = (({"stdout": full}, "No space left on device"), ({"stdout": null}, "Bad file descriptor"),
                    ({"stdout": None, "preexec_fn": lambda: os.close(1)}, "Bad file descriptor"),
                    ({"fault": "close"}, "Input/output error"), ({"fault": "write"}, "No space left on device"))
            for how, reason in ways:
                done = room.run(*words, **how)
                yield f"{words} {how}: {seen(done)}", failed(done, "standard output", reason)
        read, write = os.pipe()
        os.close(read)
        done = room.run(*words, stdout=write)
        os.close(write)
        yield f"{words} into a pipe that has ended: {seen(done)}", failed(done, "standard output", "Broken pipe")
        whole, drops = room.run(*words), room.run(*words, fault="drops")
        yield f"{words} in drops: {seen(drops)}", whole.stdout == drops.stdout and whole.returncode == drops.returncode
        done = room.run(*words, fault="memory")
        yield f"{words} without memory: {seen(done)}", told(done, 2, b"", "octalmure: memory: Cannot allocate memory\n")


def closed_streams(room):
    """Other closed descriptors are no trouble, and no file that is opened is taken for one of them."""
    c4 = (room.runs / "c4.run").read_bytes()
    for closed in ([0], [2], [0, 2]):
        done = room.run("check", "c1.run", stdin=None, preexec_fn=lambda closed=closed: [os.close(n) for n in closed])
        yield f"check with {closed} closed: {seen(done)}", done.returncode == 0 and done.stdout == b"1 1 0 0 0\n"
    out = room.runs / "all-closed.run"
    for fault in (None, "standard"):
        done = room.run("carry", "c1.run", "30", "-o", out, fault=fault, stdin=None, stdout=None, stderr=None,
                        preexec_fn=lambda: [os.close(n) for n in (0, 1, 2)])
        yield f"carry -o with all closed, {fault}: {seen(done)}", done.returncode == 0 and contents(out) == c4
        out.unlink(missing_ok=True)


def into(room, out, words, **how):
    """Writes into OUT, and gives what was done with what stood in its folder before and after."""
    before = folder(out.parent)
    done = room.run(*words, "-o", out, **how)
    return done, before, folder(out.parent)


def untouched(room, out, why, reason, words, **how):
    done, before, after = into(room, out, words, **how)
    yield f"{words[0]} -o, {why}: {seen(done)}", failed(done, str(out), reason) and done.stdout == b""
    yield f"{words[0]} -o, {why}: the folder is not as it was: {sorted(after)}", before == after


def whole_or_untouched(room):
    """OUT is the file that was to be written or what it was, and nothing else is left in its folder."""
    for words, (written, refused) in WRITING.items():
        yield from whole_or_untouched_by(room, words, (room.runs / written).read_bytes(), refused)


def whole_or_untouched_by(room, words, whole, refused):
    place = room.at / f"place of {words[0]}"
    place.mkdir()
    for name, old in (("new.run", None), ("old.run", OLD)):
        out = place / name
        if old is not None:
            out.write_bytes(old)
        for fault, reason in (("write", "No space left on device"), ("close", "Input/output error"), ("fsync", "Input/output error"),
                              ("fchmod", "Operation not permitted"), ("rename", "Invalid cross-device link")):
            yield from untouched(room, out, f"{name}, {fault} fails", reason, words, fault=fault)
        for given, line in refused.items():
            done, before, after = into(room, out, (words[0], *given))
            yield f"{words[0]} -o, refused: {seen(done)}", told(done, 3, line, "") and before == after
        done, before, after = into(room, out, (words[0], "nofile", *words[2:]))
        yield f"{words[0]} -o, no file: {seen(done)}", told(done, 2, b"", None) and before == after
        done, before, after = into(room, out, words, fault="drops")
        written, rights = after.get(name, (None, 0))
        yield f"{words[0]} -o: {seen(done)}", told(done, 0, b"", "") and written == whole
        yield f"{words[0]} -o: something else is left: {sorted(after)}", before.keys() | {name} == after.keys()
        yield f"{words[0]} -o: rights {rights:o}", rights & 0o7777 == (0o666 & ~mask())


def mask():
    given = os.umask(0)
    os.umask(given)
    return given


def usual_signals():
    """None is ignored, though this stage may run where some are, as in the background of a shell."""
    for name in ENDS:
        signal.signal(getattr(signal, name), signal.SIG_DFL)


def hold_back():
    """The caller holds a signal back: it is not for the command to let it come."""
    signal.signal(signal.SIGTERM, signal.SIG_DFL)
    signal.pthread_sigmask(signal.SIG_BLOCK, {signal.SIGTERM})


def signals(room):
    """A signal while the file stands under its other name removes it, and ends the program; one that is ignored does not."""
    place = room.at / "signals"
    place.mkdir()
    out = place / "out.run"
    out.write_bytes(OLD)
    words = ("carry", "c9.run", "512")
    for name in ENDS:
        done, before, after = into(room, out, words, fault=name, preexec_fn=usual_signals)
        yield f"-o, {name}: {seen(done)}", done.returncode == -getattr(signal, name)
        yield f"-o, {name}: {sorted(after)}", before == after
    done = into(room, out, words, fault="SIGHUP", preexec_fn=lambda: signal.signal(signal.SIGHUP, signal.SIG_IGN))[0]
    yield f"-o, SIGHUP ignored: {seen(done)}", done.returncode == 0 and contents(out) == (room.runs / "c9.run").read_bytes()
    out.write_bytes(OLD)
    done = into(room, out, words, fault="SIGTERM", preexec_fn=hold_back)[0]
    yield f"-o, SIGTERM held back: {seen(done)}", done.returncode == 0 and contents(out) == (room.runs / "c9.run").read_bytes()
    # while it waits for its input
    before = folder(place)
    with subprocess.Popen([*room.command, "carry", "-", "30", "-o", str(out)], stdin=subprocess.PIPE, preexec_fn=usual_signals) as waiting:
        waiting.send_signal(signal.SIGTERM)
        waiting.wait()
    yield f"a signal while it reads: {waiting.returncode}", waiting.returncode == -signal.SIGTERM and folder(place) == before


def full_device(place):
    """A device that is always full: one of its own for root, since a command that moves a file onto it would destroy the machine's."""
    if os.getuid() != 0:
        return pathlib.Path("/dev/full")
    own = place / "full"
    try:
        os.mknod(own, stat.S_IFCHR | 0o666, os.makedev(1, 7))
        open(own, "wb").close()
        return own
    except OSError as why:
        print(f"command: no device can be made here, so -o of one was not tried: {why}", file=sys.stderr)
        return None


def kinds(room):
    """What OUT can be besides a plain file, and whose."""
    c4 = (room.runs / "c4.run").read_bytes()
    place = room.at / "kinds"
    place.mkdir()
    device = full_device(place)
    for words, (written, _) in WRITING.items():
        if device is not None:
            done = room.run(*words, "-o", device)
            yield f"{words[0]} -o of a full device: {seen(done)}", failed(done, str(device), "No space left on device")
            yield f"{words[0]} -o of a device puts a file in its place", device.is_char_device()
        done = room.run(*words, "-o", "-")
        yield f"{words[0]} -o -: {seen(done)}", told(done, 0, (room.runs / written).read_bytes(), "")
        done = room.run(*words, "-o", place)
        yield f"{words[0]} -o of a folder: {seen(done)}", failed(done, str(place), "Is a directory")
        done = room.run(*words, "-o", place / "none" / "out")
        yield f"{words[0]} -o in no folder: {seen(done)}", failed(done, str(place / "none" / "out"), "No such file or directory")
        done = room.run(*words, "-o", "")
        yield f"{words[0]} -o of no name: {seen(done)}", failed(done, "", "No such file or directory")
    real, link = place / "real.run", place / "link.run"
    real.write_bytes(OLD)
    real.chmod(0o640)
    if os.getuid() == 0:
        os.chown(real, NOBODY, NOBODY)
    link.symlink_to("real.run")
    before = real.stat()
    done = room.run("carry", "c1.run", "30", "-o", link)
    yield f"-o of a link: {seen(done)}", told(done, 0, b"", "") and link.is_symlink() and contents(real) == c4
    after = real.stat()
    yield "the rights of a file that is replaced are lost", after.st_mode == before.st_mode
    yield "the owner of a file that is replaced is lost", (after.st_uid, after.st_gid) == (before.st_uid, before.st_gid)
    c1, table = (room.runs / "c1.run").read_bytes(), (room.runs / "c1.csv").read_bytes()
    without_records = c1[:96] + bytes(4)
    for words, old, new in ((["carry", "own.run", "30"], c1, c4), (["import", "own.run", "c11.csv"], c1, without_records),
                            (["import", "c1.run", "own.run"], table, c1), (["export", "own.run"], c1, table)):
        own = room.file("own.run", old)
        done = room.run(*words, "-o", "own.run")
        yield f"{words} -o of the file itself: {seen(done)}", told(done, 0, b"", "") and contents(own) == new
        own.unlink()
    os.mkfifo(place / "pipe")
    with subprocess.Popen(["cat", place / "pipe"], stdout=subprocess.PIPE) as reader:
        done = room.run("carry", "c1.run", "30", "-o", place / "pipe")
        if done.returncode != 0 or not (place / "pipe").is_fifo():
            reader.kill()  # nothing will come
        got = reader.stdout.read()
    yield f"-o of a pipe: {seen(done)}", told(done, 0, b"", "") and got == c4


def others(room):
    """A folder in which, and a file which, the user may not write."""
    place = room.at / "read-only"
    place.mkdir()
    place.chmod(0o555)
    words = ("carry", "c9.run", "512")
    yield from untouched(room, place / "out.run", "a folder that may only be read", "Permission denied", words, user=NOBODY)
    place = room.at / "open"
    place.mkdir()
    place.chmod(0o777)
    out = place / "out.run"
    out.write_bytes(OLD)
    yield from untouched(room, out, "a file that may only be read", "Permission denied", words, user=NOBODY)


def limited(room):
    """A file that may not grow beyond 8 KiB: a part is written, and then the write fails."""

    def limit():
        resource.setrlimit(resource.RLIMIT_FSIZE, (8192, 8192))

    place = room.at / "limited"
    place.mkdir()
    for words in WRITING:
        yield from untouched(room, place / "out.run", "a file may not grow", "File too large", words, preexec_fn=limit)
        with open(place / "standard", "wb") as out:
            done = room.run(*words, stdout=out, preexec_fn=limit)
        yield f"{words[0]}, standard output may not grow: {seen(done)}", failed(done, "standard output", "File too large")


# Within a name space of its own: a file system of 8 KiB, and the same made read-only.
MOUNTED = r"""
mount -t tmpfs -o size=8k none "$1" || exit 77
cd "$2" || exit 77
printf 'what stood there\n' >"$1/old.run"
shift 2
for out in old.run new.run; do
    "$@" carry c9.run 512 -o "$0/$out" >/dev/null 2>"$SAID"; echo "$out $? $(cat "$SAID") $(ls -A "$0") $(cat "$0/old.run")"
done
"$@" carry c9.run 512 2>"$SAID" >"$0/standard"; echo "standard $? $(cat "$SAID")"
rm "$0/standard"
TMPDIR=$0 "$@" carry c9.run 512 2>"$SAID" >"$SAID.out"; echo "elsewhere $? $(cat "$SAID")$(wc -c <"$SAID.out")"
mount -o remount,ro "$0" || exit 77
"$@" carry c1.run 30 -o "$0/old.run" >/dev/null 2>"$SAID"; echo "read-only $? $(cat "$SAID") $(ls -A "$0")"
"""


def tiny(room):
    place = room.at / "tiny"
    place.mkdir()
    spaces = ["unshare", "-m"] if os.getuid() == 0 else ["unshare", "-rm"]
    done = subprocess.run([*spaces, "bash", "-c", MOUNTED, str(place), str(place), str(room.runs), *room.command], capture_output=True,
                          env={**os.environ, "SAID": str(room.at / "said")})
    if done.returncode == 77 or done.stderr.startswith(b"unshare"):
        print(f"command: no file system can be mounted here, so a full one was not tried: {text(done.stderr).strip()}", file=sys.stderr)
        return
    full, only = "No space left on device", "Read-only file system"
    wanted = [f"old.run 2 octalmure: {place}/old.run: {full} old.run what stood there",
              f"new.run 2 octalmure: {place}/new.run: {full} old.run what stood there",
              f"standard 2 octalmure: standard output: {full}",
              "elsewhere 0 12328",
              f"read-only 2 octalmure: {place}/old.run: {only} old.run"]
    got = text(done.stdout).splitlines()
    for i, line in enumerate(wanted):
        yield f"a file system of 8 KiB: {got[i:i + 1]}, and not {line}", got[i:i + 1] == [line]


def verdicts(room):
    for part in (standard_output, closed_streams, whole_or_untouched, signals, kinds, others, limited, tiny):
        yield from part(room)
