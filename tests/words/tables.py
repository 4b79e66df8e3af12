"""Text tables: lines in any order, what makes a line bad and which line is named, what comes first, and how much of a table is read."""
import os
import re
import subprocess

from trial import ROOT, seen, told

HEADER = b"task,job,release,start,end,core\n"
GREATEST = 2**32 - 1
MOST_READ = 33890

# in the place of the third line of a table, without its line feed
BAD_LINES = (
    b"", b" ", b"0,1,10,17,19", b"0,1,10,17,19,", b"0,1,10,17,19,1,", b"0,1,10,17,19,1,1", b",0,1,10,17,19,1", b"0,1,,17,19,1",
    b"0 1 10 17 19 1", b" 0,1,10,17,19,1", b"0,1,10,17,19,1 ", b"0, 1,10,17,19,1", b"0,1,10,17,19,1\t", b"0,1,10,17,19,1\r", b"\r",
    b"+0,1,10,17,19,1", b"-0,1,10,17,19,1", b"0,-1,10,17,19,1", b"0,01,10,17,19,1", b"00,1,10,17,19,1", b"0,1,10,17,19,01", b"0,1,10,17,19,4294967296",
    b"4294967296,1,10,17,19,1", b"0,1,10,42949672950,19,1", b"0,18446744073709551616,10,17,19,1", b"0,1,10,17,19," + b"9" * 200,
    b"0,1,10,17,19," + b"0" * 200, b"0;1;10;17;19;1", b"0,1,10,17,19.0,1", b"0,1,1e1,17,19,1", b"0x0,1,10,17,19,1", b'"0",1,10,17,19,1',
    b'"0,1,10,17,19,1"', b"\xef\xbb\xbf0,1,10,17,19,1", b"\xd9\xa0,1,10,17,19,1", b"0,1,10,17,19,1\0", b"\0,1,10,17,19,1", b"# a word",
    b"0,1,10,17,19,one", HEADER[:-1])
GOOD_LINES = (b"0,1,10,17,19,1", b"0,0,0,0,0,0", b",".join([b"4294967295"] * 6), b"1000000000,10,100,1000,10000,100000")
# in the place of the first line, with what closes it
BAD_HEADERS = (
    b"\n", b"\r\n", b"task,job,release,start,end,core\r\n", b"\xef\xbb\xbf" + HEADER, b" " + HEADER, b"task,job,release,start,end,core \n",
    b"task,job,release,start,end\n", b"task,job,release,start,end,core,\n", b"Task,Job,Release,Start,End,Core\n",
    b"task;job;release;start;end;core\n", b"task, job, release, start, end, core\n", b"job,task,release,start,end,core\n",
    b'"task","job","release","start","end","core"\n', b"0,0,1,15,17,2\n", b"\n" + HEADER, b"")


def line(*numbers):
    return b",".join(b"%d" % number for number in numbers) + b"\n"


def records(file):
    """The records of a run file with C1's four tasks, as lines."""
    return [line(*(int.from_bytes(file[at:at + 4], "little") for at in range(k, k + 24, 4))) for k in range(100, len(file), 24)]


def imports(room, table, status, out, file="c1.run", **how):
    done = room.run("import", file, "-", input=table, **how)
    sentence = f"import {file}, a table of {len(table)} bytes that ends with {table[-60:]!r}: {seen(done)}"
    return sentence, told(done, status, out, "")


def refused(room, table, code, place=0, file="c1.run", **how):
    return imports(room, table, 3, b"4 %d %d 0 0\n" % (code, place), file, **how)


def orders(room):
    """Lines may stand in any order; some may be missing, and some be of jobs or tasks that there are not."""
    c1 = (room.runs / "c1.run").read_bytes()
    lines = records(c1)
    for turn in range(len(lines)):
        for turned in (lines[turn:] + lines[:turn], (lines[turn:] + lines[:turn])[::-1]):
            yield imports(room, HEADER + b"".join(turned), 0, c1)
    yield imports(room, HEADER + lines[4], 0, c1[:96] + b"\1\0\0\0" + c1[-24:])
    yield imports(room, HEADER, 0, c1[:96] + bytes(4))
    other = [(GREATEST, GREATEST, 0, 0, 0, 0), (4, 9, 1, 2, 3, 4), (4, 10, 1, 2, 3, 4)]
    yield imports(room, HEADER + b"".join(line(*numbers) for numbers in other), 0,
                  c1[:96] + b"\3\0\0\0" + b"".join(n.to_bytes(4, "little") for numbers in other[1:] + other[:1] for n in numbers))


def listed():
    """The lines that docs/FORMAT.md lists as bad."""
    rows = re.search(r"^\| In place of .*\n\|---\|---\|\n((?:\|.*\n)+)", (ROOT / "docs" / "FORMAT.md").read_text(), re.M)[1]
    return [re.match(r"\| `(.*?)` \| ", row)[1].encode() for row in rows.splitlines()]


def bad(room):
    """A bad line, or one that repeats a job, is named by its number; the first of them is the one."""
    first, *rest = records((room.runs / "c1.run").read_bytes())
    for wrong in (*BAD_LINES, *listed()):
        yield refused(room, HEADER + first + wrong + b"\n" + b"".join(rest), 12, 3)
    for good in GOOD_LINES:
        table = HEADER + rest[-1] + good
        yield imports(room, table + b"\n", 0, None)
        yield refused(room, table, 12, 3)
        yield refused(room, table + b"\n\n", 12, 4)
        yield refused(room, table + b"\n" + good + b"\n" + good, 13, 4)
    for wrong in BAD_HEADERS:
        yield refused(room, wrong + first + b"".join(rest), 12, 1)
    for table in (b"", HEADER[:-1]):
        yield refused(room, table, 12, 1)


def first_of_all(room):
    """The file's own refusals come before the table's, those of its records too; a 513th line is judged for 12, then 7, then 13."""
    c1 = (room.runs / "c1.run").read_bytes()
    room.file("cut.run", c1[:-1])
    room.file("one-more.run", c1 + bytes(1))
    room.file("count.run", c1[:96] + (513).to_bytes(4, "little") + c1[100:])
    for table in (b"", HEADER, HEADER + b"x\n"):
        for file, code in (("c8.run", 1), ("c10.run", 6), ("cut.run", 1), ("one-more.run", 8), ("count.run", 7)):
            yield refused(room, table, code, file=file)
    most = [line(0, job, 0, 0, 0, 1) for job in range(512)]
    for more, code, place in ((b"", 12, 514), (b"0,512,0,0,0,1", 7, 0), (b"0,0,0,0,0,1", 7, 0), (b"0,512,0,0,0,1 ", 12, 514)):
        yield refused(room, HEADER + b"".join(most) + more + b"\n", code, place)
        yield refused(room, HEADER + b"".join(most) + more + b"\n" + most[0], code, place)
    yield refused(room, HEADER + b"".join(most[:-1]) + most[7] + most[0], 13, 513)
    yield imports(room, HEADER + b"".join(most), 0, None)


def lengths(room):
    """All bytes are read, however they come, up to one line past the longest table; and no more."""
    longest = HEADER + b"".join(line(GREATEST - k, *[GREATEST] * 5) for k in range(512))
    more = line(10**9, *[GREATEST] * 5)
    for how in ({"fault": "drops"}, {}):
        yield imports(room, longest, 0, None, **how)
        yield refused(room, longest + more, 7, **how)
        for wrong in (more[:-1], b"1" + more, b"\n"):
            yield refused(room, longest + wrong, 12, 514, **how)
    done = room.run("import", "c1.run", "/dev/zero")
    yield f"/dev/zero for a table: {seen(done)}", told(done, 3, b"4 12 1 0 0\n", "")
    path = room.file("long.csv", longest + more)
    with subprocess.Popen(["cat", path, "/dev/zero"], stdout=subprocess.PIPE) as endless:
        done = room.run("import", "c1.run", "-", stdin=endless.stdout)
        endless.stdout.close()
    yield f"a table without end: {seen(done)}", told(done, 3, b"4 7 0 0 0\n", "")
    long = os.open(room.file("long.csv", longest + more + bytes(100000)), os.O_RDONLY)
    room.run("import", "c1.run", "-", stdin=long)
    yield f"of a long table other than its first {MOST_READ} bytes are read", os.lseek(long, 0, os.SEEK_CUR) == MOST_READ
    os.close(long)


def exports(room):
    """Records that rise strictly are exported, whatever their numbers; others are not."""
    c1 = (room.runs / "c1.run").read_bytes()
    front, first, second, rest = c1[:100], c1[100:124], c1[124:148], c1[148:]
    for not_rising in (second + first, first + first):
        done = room.run("export", "-", input=front + not_rising + rest)
        yield f"export of records that do not rise: {seen(done)}", told(done, 3, b"4 14 0 0 0\n", "")
    # in the place of the last record one of greatest numbers; of the others the last starts first
    done = room.run("export", "-", input=c1[:-24] + GREATEST.to_bytes(4, "little") * 6)
    *others, last, _ = records(c1)
    table = HEADER + last + b"".join(others) + line(*[GREATEST] * 6)
    yield f"export of the greatest numbers: {seen(done)}", told(done, 0, table, "")


def verdicts(room):
    for part in (orders, bad, first_of_all, lengths, exports):
        yield from part(room)
