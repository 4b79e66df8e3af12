#!/usr/bin/env python3
"""Writes runs whose jobs wait for each other in every way that a reason can tell, and names files, good and bad.

  waits.py FOLDER
"""
import pathlib
import struct
import sys


def run(cores, horizon, tasks, records):
    numbers = [2, cores, horizon, len(tasks), *(number for task in tasks for number in task)]
    numbers += [len(records), *(number for record in records for number in record)]
    return struct.pack(f"<{len(numbers)}I", *numbers)


# tasks: P, B, W, O, J; records: task, job, r, s, e, core
RUNS = {
    # Records 1 and 2 are late and due at one instant, 8, as is record 0, for which record 1 waits. Record 3 starts at its release, at
    # which record 2 ends: it waits for none, and the chain of record 4 ends there.
    "ties": (
        1, 8,
        [(8, 1, 9, 0, 0), (8, 1, 9, 0, 0), (7, 1, 9, 1, 0), (30, 1, 9, 7, 5), (7, 1, 9, 7, 6)],
        [(0, 0, 0, 0, 5, 1), (1, 0, 0, 5, 9, 1), (2, 0, 1, 9, 12, 1), (3, 0, 12, 12, 20, 1), (4, 0, 13, 20, 22, 1)],
    ),
    # At 6 both end: record 0, which is the job before record 1, and record 3, on the core that record 1 takes. Record 2 is the third job,
    # released at 8 while the second runs to 10.
    "both": (
        2, 9,
        [(4, 1, 10, 0, 0), (50, 1, 10, 0, 0)],
        [(0, 0, 0, 0, 6, 1), (0, 1, 4, 6, 10, 2), (0, 2, 8, 10, 14, 1), (1, 0, 0, 0, 6, 2)],
    ),
    # The same instants, but the third job is released when the second ends: it waits for none. One tick late.
    "met": (
        2, 9,
        [(4, 1, 10, 0, 2), (50, 1, 10, 0, 0)],
        [(0, 0, 0, 0, 6, 1), (0, 1, 4, 6, 10, 2), (0, 2, 10, 10, 13, 1), (1, 0, 0, 0, 6, 2)],
    ),
    # Record 1 is released at 5 and ready at 6, when record 0 ends. Then record 2 is due sooner and has the core to 8.
    "held": (1, 6, [(5, 1, 6, 0, 0), (4, 1, 2, 3, 0)], [(0, 0, 0, 0, 6, 1), (0, 1, 5, 8, 11, 1), (1, 0, 3, 6, 8, 1)]),
    # sixteen long jobs begin at 0, and three short ones are ready at 1: they get cores 16, 15 and 14, in the order of their deadlines
    "sixteen": (
        16, 10,
        [*[(100, 20, 40, 0, 0)] * 16, (12, 3, 3, 1, 0), (11, 3, 3, 1, 0), (20, 3, 3, 1, 0)],
        [*((i, 0, 0, 0, 36 - i, i + 1) for i in range(16)), (16, 0, 1, 22, 25, 15), (17, 0, 1, 21, 24, 16), (18, 0, 1, 23, 26, 14)],
    ),
    # As many tasks and records as a file can have, on one core without a break. The first job takes three ticks and every other two, so
    # that each but the first starts when the one before it ends, and the last of each period ends a tick after its deadline: the last
    # chain has 512 jobs.
    "greatest": (
        1, 1024,
        [(64, 2, 3, 0, 0)] * 32,
        [(i, j, 64 * j, 64 * j + 2 * i + (i + j > 0), 64 * j + 2 * i + 3, 1) for i in range(32) for j in range(16)],
    ),
}

MARK = b"\xef\xbb\xbf"
LONGEST = 65536
NAMES = {
    "plain": b"0,Exposure total\n3,Overnight valuation\n",
    "some": b"3,Overnight valuation\n31,A task of another run\n",
    "quoted": b'0,The "exposure" total\n3,Valuation, overnight, all of it\n2,back\\slash\n1,\n',
    "spreadsheet": MARK + b"0,Exposure total\r\n3,Overnight valuation\r\n",
    "not-closed": b"0,Exposure total\n3,Overnight valuation",
    "controls": b"0,\x1b[2Jgone\x07\n1,a\ttab, \x7f and \xc2\x85\n2,\xc2\xa0is none\n3,\xc2\x9b31mred \rback\n",
    "letters": "0,Größe Σ 総額 \U0001f4b6\n3,\u00e9 e\u0301 \u202fx\n".encode(),
    "every": b"".join(b"%d,task of number %d\n" % (task, task) for task in range(32)),
    "longest": b"3," + b"v" * (LONGEST - 3) + b"\n",
    "nothing": b"",
    "mark": MARK,
}
TASK = "no task before the comma: 0 to 31 is one, without leading zeros"
COMMA = "no comma: a line is TASK,NAME"
UTF8 = "bytes that are not UTF-8"
ZERO = "a zero byte: a name is text"
# what is said of each, behind its name
BAD_NAMES = {
    "empty-line": (b"0,Exposure total\n\n3,Valuation\n", f"line 2: {COMMA}"),
    "empty-last": (b"0,Exposure total\n\n", f"line 2: {COMMA}"),
    "returns": (b"\r\n", f"line 1: {COMMA}"),
    "no-comma": (b"0,Exposure total\n3;Valuation\n", f"line 2: {COMMA}"),
    "no-comma-last": (b"0,Exposure total\n3", f"line 2: {COMMA}"),
    "header": (b"task,name\n0,Exposure total\n", f"line 1: {TASK}"),
    "no-task": (b",Exposure total\n", f"line 1: {TASK}"),
    "leading-zero": (b"00,Exposure total\n", f"line 1: {TASK}"),
    "leading-zeros": (b"01,Exposure total\n", f"line 1: {TASK}"),
    "space": (b" 0,Exposure total\n", f"line 1: {TASK}"),
    "space-after": (b"0 ,Exposure total\n", f"line 1: {TASK}"),
    "sign": (b"+0,Exposure total\n", f"line 1: {TASK}"),
    "minus": (b"-1,Exposure total\n", f"line 1: {TASK}"),
    "point": (b"1.0,Exposure total\n", f"line 1: {TASK}"),
    "quoted-task": (b'"0",Exposure total\n', f"line 1: {TASK}"),
    "above": (b"31,the last\n32,one more\n", f"line 2: {TASK}"),
    "far-above": (b"18446744073709551616,none\n", f"line 1: {TASK}"),
    "very-far": (b"4294967296,none\n", f"line 1: {TASK}"),
    "digits": ("\u0663,three\n".encode(), f"line 1: {TASK}"),
    "second-mark": (MARK + MARK + b"0,Exposure total\n", f"line 1: {TASK}"),
    "later-mark": (b"0,Exposure total\n" + MARK + b"1,Payment release\n", f"line 2: {TASK}"),
    "return-in-task": (b"0\r,Exposure total\n", f"line 1: {TASK}"),
    "twice": (b"0,Exposure total\n1,Payment release\n0,Exposure total\n", "line 3: task 0 stands on line 1 already"),
    "twice-empty": (b"31,\n1,Payment release\n31,The last\n", "line 3: task 31 stands on line 1 already"),
    "latin-1": (b"0,Gr\xf6\xdfe\n", f"line 1: {UTF8}"),
    "cut": (b"0,total\n1,cut \xe2\x82", f"line 2: {UTF8}"),
    "cut-line": (b"0,cut \xe2\x82\n1,total\n", f"line 1: {UTF8}"),
    "lone": (b"0,\x80\n", f"line 1: {UTF8}"),
    "overlong": (b"0,\xc0\xaf\n", f"line 1: {UTF8}"),
    "overlong-2": (b"0,\xc1\xbf\n", f"line 1: {UTF8}"),
    "overlong-3": (b"0,\xe0\x9f\xbf\n", f"line 1: {UTF8}"),
    "overlong-4": (b"0,\xf0\x8f\xbf\xbf\n", f"line 1: {UTF8}"),
    "surrogate": (b"0,\xed\xa0\x80\n", f"line 1: {UTF8}"),
    "surrogate-last": (b"0,\xed\xbf\xbf\n", f"line 1: {UTF8}"),
    "too-high": (b"0,\xf4\x90\x80\x80\n", f"line 1: {UTF8}"),
    "far-too-high": (b"0,\xf5\x80\x80\x80\n", f"line 1: {UTF8}"),
    "utf-16": (b"\xff\xfe0\0,\0a\0\n\0", f"line 1: {ZERO}"),
    "zero": (b"0,Exposure\0total\n", f"line 1: {ZERO}"),
    "zero-last": (b"0,Exposure total\n1,\0", f"line 2: {ZERO}"),
    "a-run": (run(*RUNS["both"]), f"line 1: {ZERO}"),
    "too-long": (b"3," + b"v" * (LONGEST - 2) + b"\n", "too long: a names file has at most 65,536 bytes"),
    "much-too-long": (b"3,v\n" * 100000, "too long: a names file has at most 65,536 bytes"),
}


def write(folder):
    for name, made in RUNS.items():
        (folder / f"{name}.run").write_bytes(run(*made))
    for name, text in NAMES.items():
        (folder / f"{name}.names").write_bytes(text)
    for name, (text, _) in BAD_NAMES.items():
        (folder / f"bad-{name}.names").write_bytes(text)


if __name__ == "__main__":
    write(pathlib.Path(sys.argv[1]))
