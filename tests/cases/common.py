"""What the case scripts share: run files, the paper's worked runs, and the kinds of case that the program 'cases' runs."""
import struct

REFUSAL, CHECK, CARRY, RECORD, TASKS, SHOWN = range(6)
TOP = 2**32 - 1


def numbers(*vs):
    return struct.pack(f"<{len(vs)}I", *vs)


def run(cores, horizon, tasks, records):
    """A run file. A task is P, B, W, O, J; a record is task, job, r, s, e, core."""
    return numbers(2, cores, horizon, len(tasks), *(v for t in tasks for v in t), len(records), *(v for r in records for v in r))


# Set S and the worked runs, as the arguments of run
S = [(10, 1, 2, 0, 1), (30, 6, 8, 0, 1), (60, 15, 17, 0, 2), (60, 15, 20, 0, 2)]
LAST_TWO = [(2, 0, 0, 0, 17, 1), (3, 0, 0, 0, 15, 2)]
UNIT = (1, 1, 1, 0, 0)
C1 = (2, 20, S, [(0, 0, 1, 15, 17, 2), (0, 1, 10, 17, 19, 1), (1, 0, 1, 17, 25, 2)] + LAST_TWO)
C2 = (2, 10, S, [(0, 0, 1, 15, 17, 2), (1, 0, 1, 17, 25, 1)] + LAST_TWO)
C5 = (2, 10, [(20, 5, 5, 0, 0), (20, 5, 5, 5, 0), (20, 1, 1, 5, 0), (100, 3, 3, 2, 0)],
      [(0, 0, 0, 0, 5, 1), (1, 0, 5, 5, 10, 1), (2, 0, 5, 5, 6, 2), (3, 0, 2, 6, 9, 2)])
C6 = (2, 20, S, [(0, 0, 1, 15, 18, 2)] + C1[3][1:])
C7 = (2, 20, S, C1[3][:4])
C9 = (1, 512, [UNIT], [(0, j, j, j, j + 1, 1) for j in range(512)])
C10 = (1, 513, [UNIT], [])
C11 = (1, 1, [(1, 1, 1, 1, 0)], [])


def refused(number, task=0):
    return f"4 {number} {task} 0 0"
