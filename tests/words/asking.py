"""The exit scheme, the usage, the help, the width of the terminal."""
import fcntl
import os
import pty
import re
import struct
import subprocess
import termios

from trial import ROOT, seen, text, told

# what each worked run makes each word end with: check, show, say and explain alike; say and carry to a horizon. A file that is not
# refused is exported, and takes a table, whether its run breaks a rule or not.
SCHEME = {"c1": (0, 30, 0), "c2": (0, 20, 0), "c4": (0, 30, 0), "c5": (1, 30, 1), "c6": (1, 30, 1), "c7": (1, 30, 1), "c8": (3, 30, 3),
          "c9": (0, 512, 0), "c10": (3, 513, 3), "c11": (0, 1, 0), "beside": (1, 3, 1), "turn": (0, 9, 0), "turned": (0, 9, 0),
          "desk": (0, 60, 0), "attained": (0, 4, 0), "longest": (0, 512, 0)}
WRONG = ([], ["measure", "c1.run"], [""], ["check"], ["check", "c1.run", "c2.run"], ["carry", "c1.run"], ["carry", "c1.run", "30", "31"],
         ["carry", "c1.run", "twenty"], ["carry", "c1.run", ""], ["carry", "c1.run", "3x"], ["carry", "c1.run", " 3"],
         ["carry", "c1.run", "+30"], ["carry", "c1.run", "-20"], ["carry", "c1.run", "30", "-o"], ["check", "c1.run", "-o", "out"],
         ["carry", "c1.run", "30", "-o", "a", "-o", "b"], ["show"], ["show", "c1.run", "30"], ["say"], ["say", "c1.run", "3x"],
         ["say", "c1.run", "30", "31"], ["import"], ["import", "c1.run"], ["import", "c1.run", "c1.csv", "c1.csv"], ["import", "-", "-"],
         ["import", "c1.run", "c1.csv", "-o"], ["import", "c1.run", "c1.csv", "-o", "a", "-o", "b"], ["export"],
         ["export", "c1.run", "c1.csv"], ["export", "c1.run", "-o"], ["check", "--no-such", "c1.run"], ["--no-such"], ["help", "measure"],
         ["why"], ["why", "c1.run"], ["why", "c1.run", ""], ["why", "c1.run", "-1"], ["why", "c1.run", "1x"], ["why", "c1.run", "0", "1"],
         ["why", "c1.run", "0", "-o", "out"], ["explain"], ["explain", "c1.run", "c2.run"], ["explain", "c1.run", "--names"],
         ["explain", "c1.run", "--names", "desk.names", "--names", "desk.names"], ["explain", "c1.run", "--json", "--json"],
         ["explain", "c1.run", "--json=yes"], ["explain", "c1.run", "--name=desk.names"], ["say", "c1.run", "--json"],
         ["show", "c1.run", "--names", "desk.names"], ["explain", "-", "--names", "-"])


def scheme(room):
    for name, (checked, horizon, said) in SCHEME.items():
        file = f"{name}.run"
        for words in (["check", file], ["show", file], ["say", file], ["explain", file]):
            done = room.run(*words)
            yield f"{words}: {seen(done)}", done.returncode == checked and done.stdout and not done.stderr
        done = room.run("say", file, horizon)
        yield f"say {file} {horizon}: {seen(done)}", done.returncode == said and done.stdout and not done.stderr
        done = room.run("carry", file, horizon)
        yield f"carry {file} {horizon}: {seen(done)}", done.returncode == (3 if checked else 0) and done.stdout and not done.stderr
        done = room.run("why", file, 0)
        yield f"why {file} 0: {seen(done)}", done.returncode == (3 if checked or name == "c11" else 0) and done.stdout and not done.stderr
        for words in (["export", file], ["import", file, "c1.csv"]):
            done = room.run(*words)
            yield f"{words}: {seen(done)}", done.returncode == (3 if checked == 3 else 0) and done.stdout and not done.stderr
    for words in (["carry", "c1.run", "19"], ["say", "c1.run", "19"], ["carry", "c1.run", "1000001"], ["carry", "c9.run", "513"],
                  ["import", "c1.run", "c1.run"]):
        done = room.run(*words)
        yield f"{words}: {seen(done)}", done.returncode == 3 and done.stdout and not done.stderr


def horizons(room):
    c4 = (room.runs / "c4.run").read_bytes()
    for digits, status, out in (("30", 0, c4), ("0" * 40 + "30", 0, c4), ("4294967316", 3, b"4 9 0 0 0\n"), ("9" * 60, 3, b"4 9 0 0 0\n"),
                                ("18446744073709551646", 3, b"4 9 0 0 0\n"), ("0", 3, b"4 9 0 0 0\n")):
        done = room.run("carry", "c1.run", digits)
        yield f"carry to {digits}: {seen(done)}", told(done, status, out, "")


def usage(room):
    for words in WRONG:
        done = room.run(*words)
        said = text(done.stderr)
        yield f"{words}: {seen(done)}", told(done, 2, b"", None) and ("usage: octalmure" in said or said.startswith("octalmure: "))


def helps(room):
    done = room.run("--help")
    words = re.findall(r"^  (\w+) ", text(done.stdout), re.M)
    known = {"check", "carry", "show", "say", "why", "explain", "import", "export"}
    yield f"--help: {seen(done)}", told(done, 0, None, "") and known <= set(words)
    for words_ in (["-h"], ["help"]):
        yield f"{words_} is not --help", room.run(*words_).stdout == done.stdout
    page = (ROOT / "docs" / "octalmure.1").read_text()
    for word in words:
        own = room.run(word, "--help")
        yield f"{word} --help: {seen(own)}", told(own, 0, None, "") and text(own.stdout).startswith(f"usage: octalmure {word} ")
        yield f"{word} --help says no exit status", "Exit status" in text(own.stdout)
        yield f"help {word} and {word} FILE --help are not the same", own.stdout == room.run("help", word).stdout == room.run(
            word, "nofile", "--help").stdout
        yield f"the manual page does not explain {word}", f".BI {word} " in page
        yield f"the manual page has no example of {word}", re.search(rf"^\$ .*octalmure {word} ", page, re.M)
    version = re.search(r'OCTALMURE_VERSION "(.*)"', (ROOT / "include" / "octalmure.h").read_text())[1]
    done = room.run("--version")
    yield f"--version: {seen(done)}", told(done, 0, f"octalmure {version}\n".encode(), "")


def widest(shown):
    """The widest line of the picture, which ends with the deadlines of the last core."""
    lines = shown.replace("\r", "").split("\n\n")[-1].splitlines()
    last = max((i for i, line in enumerate(lines) if line.startswith("  due")), default=0)
    return max(map(len, lines[:last]), default=0)


def on_terminal(room, columns):
    """The status of 'show' and what it writes to a terminal of so many columns."""
    terminal, end = pty.openpty()
    fcntl.ioctl(end, termios.TIOCSWINSZ, struct.pack("HHHH", 24, columns, 0, 0))
    environment = {**os.environ, "COLUMNS": "44"}
    with subprocess.Popen([*room.command, "show", "c9.run"], cwd=room.runs, env=environment, stdin=subprocess.DEVNULL, stdout=end) as shows:
        os.close(end)
        got = b""
        try:
            while part := os.read(terminal, 65536):
                got += part
        except OSError:  # the other end is closed
            pass
    os.close(terminal)
    return shows.returncode, text(got)


def width(room):
    """The picture fills the width that there is: that of the terminal, or COLUMNS, or 80."""
    for columns in (50, 100, 190):
        status, shown = on_terminal(room, columns)
        got = widest(shown)
        yield f"on a terminal of {columns} columns the picture has {got}", status == 0 and columns // 2 <= got <= columns
    for said, columns in (("60", 60), ("200", 200), ("", 80), ("many", 80), ("1", 40), ("99999999999", 80), ("100000", 1000)):
        got = widest(text(room.run("show", "c9.run", env={"COLUMNS": said}).stdout))
        yield f"COLUMNS={said}: the picture has {got} columns", columns // 2 <= got <= columns


def verdicts(room):
    for part in (scheme, horizons, usage, helps, width):
        yield from part(room)
