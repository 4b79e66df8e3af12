#!/usr/bin/env python3
"""Writes run C1 with single numbers changed, and turned.run, which stands beside it, one file for each sentence that the examples do
not bring about, and C1's table with single lines changed.

  spoil.py C1.run FOLDER
"""
import pathlib
import struct
import sys

C1, FOLDER = pathlib.Path(sys.argv[1]).read_bytes(), pathlib.Path(sys.argv[2])
TURNED = pathlib.Path(sys.argv[1]).with_name("turned.run").read_bytes()
TABLE = pathlib.Path(sys.argv[1]).with_suffix(".csv").read_bytes()
FIRST_TASK = 4


def task(number, field):
    return FIRST_TASK + 5 * number + "PBWOJ".index(field)


def record(number, field, tasks=4):
    return FIRST_TASK + 5 * tasks + 1 + 6 * number + ("task", "job", "r", "s", "e", "core").index(field)


def spoiled(run, changes):
    numbers = list(struct.unpack(f"<{len(run) // 4}I", run))
    for at, value in changes.items():
        numbers[at] = value
    return struct.pack(f"<{len(numbers)}I", *numbers)


SPOILED = {
    "two-late": {task(1, "P"): 20},
    "rule-2": {record(0, "r"): 2},
    "rule-2-no-jitter": {task(0, "J"): 0},
    "rule-3": {record(0, "s"): 0},
    "rule-4-back": {record(0, "e"): 9},
    "rule-4-one-tick": {task(0, "B"): 2, record(0, "e"): 16},
    "rule-5": {record(0, "core"): 3},
    "rule-5-one-core": {1: 1},
    "rule-6": {record(0, "core"): 1},
    "rule-7": {
        record(0, "s"): 17, record(0, "e"): 19, record(0, "core"): 1,
        record(1, "s"): 19, record(1, "e"): 21,
        record(2, "s"): 15, record(2, "e"): 23,
    },
    # record 1 is released at 10 and ready at 17, when record 0 ends: then both cores are free
    "rule-8": {record(1, "s"): 18, record(1, "e"): 20, record(2, "s"): 18},
    "rule-1-other": {record(1, "job"): 7},
    "far": {task(2, "P"): 900000, task(3, "P"): 900000},
    "top": {record(0, "s"): 2**32 - 9, record(0, "e"): 2**32 - 1, record(1, "s"): 9, record(1, "e"): 3, record(2, "task"): 4},
    "refusal-2": {0: 3},
    "refusal-3": {1: 17},
    "refusal-4": {3: 33},
    "refusal-5": {task(1, "P"): 0},
    "refusal-7": {record(0, "task") - 1: 513},
    "not-rising": {record(1, "job"): 0},
}
# job 2 of task 0 starts at 10 on core 2, and job 1 ends at 12
BESIDE = {record(2, "s", tasks=2): 10, record(2, "e", tasks=2): 16, record(2, "core", tasks=2): 2}
# how many bytes are left
CUT = {"cut-count": 2, "cut-setting": 8, "cut-tasks": 61, "cut-records": 150}
# as spreadsheets and people write tables
HEADER, *LINES = TABLE.splitlines(keepends=True)
TABLES = {
    "carriage-returns": TABLE.replace(b"\n", b"\r\n"),
    "byte-order-mark": b"\xef\xbb\xbf" + TABLE,
    "semicolons": TABLE.replace(b",", b";"),
    "quoted": TABLE.replace(b"0,0,1,15,17,2", b'"0","0","1","15","17","2"'),
    "space": TABLE.replace(b"0,1,10,", b"0, 1,10,"),
    "leading-zero": TABLE.replace(b"0,1,10,", b"0,01,10,"),
    "not-closed": TABLE[:-1],
    "empty-line": TABLE + b"\n",
    "empty": b"",
    "repeated": TABLE + LINES[1],
    "too-many": HEADER + b"".join(b"0,%d,0,0,0,1\n" % job for job in range(513)),
}

for name, changes in SPOILED.items():
    (FOLDER / f"{name}.run").write_bytes(spoiled(C1, changes))
(FOLDER / "rule-9.run").write_bytes(spoiled(TURNED, BESIDE))
for name, length in CUT.items():
    (FOLDER / f"{name}.run").write_bytes(C1[:length])
for name, contents in TABLES.items():
    (FOLDER / f"{name}.csv").write_bytes(contents)
(FOLDER / "one-more.run").write_bytes(C1 + bytes(1))
(FOLDER / "too-long.run").write_bytes(C1 + bytes(20000))
