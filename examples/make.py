#!/usr/bin/env python3
"""Writes the paper's worked runs, runs in which a job is released before the one before it of its task has ended, a desk's run with
the names of its blocks, one in which a block waits as long as its bound, and the longest run file, as run files beside this script,
and the records of each that is not refused as a text table.

  make.py [FOLDER]
"""
import pathlib
import struct
import sys

folder = pathlib.Path(sys.argv[1]) if len(sys.argv) > 1 else pathlib.Path(__file__).parent


def run(cores, horizon, tasks, records):
    numbers = [2, cores, horizon, len(tasks)]
    for task in tasks:
        numbers += task
    numbers.append(len(records))
    for record in records:
        numbers += record
    return struct.pack(f"<{len(numbers)}I", *numbers)


def table(records):
    """The lines by start; those of equal starts in the order of the records, which Python's sort keeps."""
    lines = [("task", "job", "release", "start", "end", "core"), *sorted(records, key=lambda record: record[3])]
    return "".join(",".join(map(str, line)) + "\n" for line in lines).encode()


# Set S: P, B, W, O, J
S = [(10, 1, 2, 0, 1), (30, 6, 8, 0, 1), (60, 15, 17, 0, 2), (60, 15, 20, 0, 2)]
# records: task, job, r, s, e, core
LAST_TWO = [(2, 0, 0, 0, 17, 1), (3, 0, 0, 0, 15, 2)]
FIRST_TWO = [(0, 0, 1, 15, 17, 2), (0, 1, 10, 17, 19, 1)]
UNIT = (1, 1, 1, 0, 0)
# a task whose jobs take longer than its period, and another
IN_TURN = [(4, 1, 6, 0, 0), (20, 1, 2, 5, 0)]
LONG_ONES = [(0, 0, 0, 0, 6, 1), (0, 1, 4, 6, 12, 1)]
OTHER = (1, 0, 5, 5, 7, 2)

RUNS = {
    "c1": (2, 20, S, FIRST_TWO + [(1, 0, 1, 17, 25, 2)] + LAST_TWO),
    "c2": (2, 10, S, [(0, 0, 1, 15, 17, 2), (1, 0, 1, 17, 25, 1)] + LAST_TWO),
    "c4": (2, 30, S, FIRST_TWO + [(0, 2, 20, 20, 22, 1), (1, 0, 1, 17, 25, 2)] + LAST_TWO),
    "c5": (
        2, 10,
        [(20, 5, 5, 0, 0), (20, 5, 5, 5, 0), (20, 1, 1, 5, 0), (100, 3, 3, 2, 0)],
        [(0, 0, 0, 0, 5, 1), (1, 0, 5, 5, 10, 1), (2, 0, 5, 5, 6, 2), (3, 0, 2, 6, 9, 2)],
    ),
    "c6": (2, 20, S, [(0, 0, 1, 15, 18, 2), (0, 1, 10, 17, 19, 1), (1, 0, 1, 17, 25, 2)] + LAST_TWO),
    "c7": (2, 20, S, FIRST_TWO + [(1, 0, 1, 17, 25, 2)] + LAST_TWO[:1]),
    "c9": (1, 512, [UNIT], [(0, j, j, j, j + 1, 1) for j in range(512)]),
    "c11": (1, 1, [(1, 1, 1, 1, 0)], []),
    # Job 1 is released at 2 and starts at 3, while job 0 runs to 5: rule 9. No other rule is broken: job 1 is ready at 5, so core 2
    # may be idle at 2.
    "beside": (2, 3, [(2, 1, 5, 0, 0)], [(0, 0, 0, 0, 5, 1), (0, 1, 2, 3, 6, 2)]),
    # Job 1 of task 0 is released at 4 and ready at 6, when job 0 ends. Core 2 is idle from 4 to 5, and then takes the job of task 1,
    # which is due later. Job 0 ends at 6 and is due at 4, job 1 ends at 12 and is due at 8: two are late, and both begin before H.
    "turn": (2, 7, IN_TURN, [*LONG_ONES, OTHER]),
    # turn.run carried to 9. Job 2 of task 0 is released at 8 and ready at 12, when job 1 ends; core 2 is idle from 7 on.
    "turned": (2, 9, IN_TURN, [*LONG_ONES, (0, 2, 8, 12, 18, 1), OTHER]),
    # A correction reaches task 0 at 12, as its jitter permits, when both cores have begun a long block. It is due at 35, sooner than
    # either, and begins at 38, when the first of the two ends. Job 0 of task 1 is ready at 30 and gets core 2 at 41; its job 1 is
    # planned for 42 and has to wait for job 0, to 50. These three are late, the last of them from H on.
    "desk": (
        2, 45,
        [(30, 4, 6, 5, 10), (12, 4, 10, 30, 0), (120, 30, 40, 0, 5), (120, 30, 45, 0, 5)],
        [
            (0, 0, 12, 38, 43, 1), (0, 1, 35, 43, 48, 1), (1, 0, 30, 41, 50, 2), (1, 1, 42, 50, 57, 2),
            (2, 0, 0, 0, 38, 1), (3, 0, 2, 2, 41, 2),
        ],
    ),
    # Two blocks of 3 ticks hold both cores, and a third, ready with them, waits until both end: 2 cores times its wait of 3 are just
    # the 6 ticks that the two others take. It is due at 3, as they are, and is late, from H on.
    "attained": (
        2, 1, [(3, 3, 4, 0, 0), (3, 3, 4, 0, 0), (3, 1, 1, 0, 0)], [(0, 0, 0, 0, 3, 1), (1, 0, 0, 0, 3, 2), (2, 0, 0, 3, 4, 1)],
    ),
    # 32 tasks with 16 jobs each, released at 32j, two ticks long, on one core: they start one after the other, by job and then by
    # task, half of them from H on. Job j of task i ends at 64j + 2i + 2 and is due at 32j + 32, so it is in time only if j = 0 and
    # i < 16: 496 are late, and record 1 is the first. A carry to its own H starts those from H on in the same order, so it writes
    # the same bytes.
    "longest": (1, 512, [(32, 2, 2, 0, 0)] * 32, [
        (i, j, 32 * j, 64 * j + 2 * i, 64 * j + 2 * i + 2, 1) for i in range(32) for j in range(16)
    ]),
}

# what the desk calls its blocks, in the order of the tasks
NAMES = {"desk": ["Exposure total", "Payment release", "Overnight valuation", "Risk scenarios"]}

# runs that are refused, and so have no table
REFUSED = {"c8": b"", "c10": run(1, 513, [UNIT], [])}

for name, (*front, records) in RUNS.items():
    (folder / f"{name}.run").write_bytes(run(*front, records))
    (folder / f"{name}.csv").write_bytes(table(records))
for name, called in NAMES.items():
    (folder / f"{name}.names").write_text("".join(f"{task},{of_it}\n" for task, of_it in enumerate(called)))
for name, data in REFUSED.items():
    (folder / f"{name}.run").write_bytes(data)
