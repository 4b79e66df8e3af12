"""Worked runs, each rule at its borders, lateness at H. No expected line is computed: each is written beside its case, from the
paper's sentences."""
from common import C1, C2, C5, C6, C7, C9, C10, C11, CHECK, TOP, UNIT, run

cases = []


def case(line, *file):
    cases.append((CHECK, 0, 0, run(*file), b"", line.encode() + b"\n"))


# the worked runs
case("1 1 0 0 0", *C1)
case("2 1 0 0 0", *C2)
case("3 8 3 2 2", *C5)
case("3 4 0 0 0", *C6)
case("3 1 4 0 0", *C7)
cases.append((CHECK, 0, 0, b"", b"", b"4 1 0 0 0\n"))
case("0 0 0 0 0", *C9)
case("4 6 0 0 0", *C10)
case("0 0 0 0 0", *C11)

# C9 with its last job one tick later: it waits from 511 to 512 while core 1 idles at 511
case("3 8 511 511 1", 1, 512, [UNIT], [(0, j, j, j, j + 1, 1) for j in range(511)] + [(0, 511, 511, 512, 513, 1)])
# C9 with its last two jobs on one core at one time
case("3 6 510 511 0", 1, 512, [UNIT], [(0, j, j, j, j + 1, 1) for j in range(510)] + [(0, 510, 510, 511, 512, 1), (0, 511, 511, 511, 512, 1)])
# two-tick jobs every tick on one core: record k starts at 2k and ends at 2k + 2, and is due at k + 1. All 512 are late, and those
# with 2k < 512 begin before H
case("1 512 0 0 0", 1, 512, [(1, 2, 2, 0, 0)], [(0, k, k, 2 * k, 2 * k + 2, 1) for k in range(512)])
# numbers at the top of four bytes: a length above W, a core above N, a release too late, no such task
case("3 4 0 0 0", 1, 6, [(10, 2, 3, 5, 1)], [(0, 0, 5, 5, TOP, 1)])
case("3 5 0 0 0", 1, 6, [(10, 2, 3, 5, 1)], [(0, 0, 5, 5, 7, TOP)])
case("3 2 0 0 0", 1, 6, [(10, 2, 3, 5, 1)], [(0, 0, TOP, TOP, TOP, 1)])
case("3 1 0 0 0", 1, 6, [(10, 2, 3, 5, 1)], [(TOP, TOP, TOP, TOP, TOP, TOP)])

# one job, O = 5, J = 1, B = 2, W = 3: rules 2 to 5 at their borders
for line, record in (
    ("3 2 0 0 0", (4, 4, 6, 1)), ("0 0 0 0 0", (5, 5, 7, 1)), ("0 0 0 0 0", (6, 6, 8, 1)), ("3 2 0 0 0", (7, 7, 9, 1)),
    ("3 3 0 0 0", (6, 5, 7, 1)), ("3 4 0 0 0", (5, 5, 4, 1)), ("3 4 0 0 0", (5, 5, 6, 1)), ("0 0 0 0 0", (5, 5, 8, 1)),
    ("3 4 0 0 0", (5, 5, 9, 1)), ("3 5 0 0 0", (5, 5, 7, 0)), ("3 5 0 0 0", (5, 5, 7, 2)),
):
    case(line, 1, 6, [(10, 2, 3, 5, 1)], [(0, 0) + record])


def two(line, cores, horizon, first, second, a, b):
    """Two tasks with these periods and offsets, B 1, W 5, J 0; job 0 of each."""
    case(line, cores, horizon, [(first[0], 1, 5, first[1], 0), (second[0], 1, 5, second[1], 0)], [(0, 0) + a, (1, 0) + b])


two("0 0 0 0 0", 1, 1, (10, 0), (10, 0), (0, 0, 2, 1), (0, 2, 3, 1))
two("3 6 0 1 0", 1, 1, (10, 0), (10, 0), (0, 0, 2, 1), (0, 1, 3, 1))
two("3 6 0 1 0", 1, 1, (10, 0), (10, 0), (0, 1, 3, 1), (0, 0, 2, 1))
two("0 0 0 0 0", 2, 1, (10, 0), (10, 0), (0, 0, 2, 1), (0, 0, 2, 2))
two("0 0 0 0 0", 1, 1, (10, 0), (10, 0), (0, 1, 2, 1), (0, 0, 1, 1))
two("3 7 0 1 0", 1, 1, (10, 0), (5, 0), (0, 0, 1, 1), (0, 1, 2, 1))
two("3 7 1 0 0", 1, 1, (5, 0), (10, 0), (0, 1, 2, 1), (0, 0, 1, 1))
two("0 0 0 0 0", 1, 2, (5, 1), (10, 0), (1, 1, 2, 1), (0, 0, 1, 1))
two("3 8 0 1 1", 1, 1, (10, 0), (5, 0), (0, 2, 3, 1), (0, 0, 1, 1))
two("3 8 0 0 1", 2, 1, (10, 0), (5, 0), (0, 1, 2, 1), (0, 1, 2, 2))
two("2 1 1 0 0", 1, 2, (10, 0), (2, 1), (0, 0, 2, 1), (1, 2, 4, 1))
two("1 1 1 0 0", 1, 3, (10, 0), (2, 1), (0, 0, 2, 1), (1, 2, 4, 1))
two("0 0 0 0 0", 1, 3, (10, 0), (2, 1), (0, 0, 2, 1), (1, 2, 3, 1))

# A job is ready at the later of its release and the end of its task's preceding job, if there is one. Two cores, one task: its jobs
# are released at 0 and 4 and due at 4 and 8.


def follows(line, first, second, cores=2):
    case(line, cores, 8, [(4, 1, 9, 0, 0)], [(0, 0, 0) + first, (0, 1, 4) + second])


# rule 9: each job starts no earlier than the end of the one before. Core 2 is idle from 4 to 6, and no ready job waits for it
follows("1 1 0 0 0", (0, 6, 1), (6, 7, 2))
follows("1 1 0 0 0", (0, 6, 1), (6, 7, 1))
follows("3 9 1 0 0", (0, 6, 1), (5, 6, 2))
follows("3 9 1 0 0", (0, 6, 1), (4, 5, 2))
follows("3 6 0 1 0", (0, 6, 1), (5, 6, 1))
# rule 8: from ready to the start. It is ready at 6, where both cores are idle; at 4, where both are, since the one before is over
follows("3 8 1 6 1", (0, 6, 1), (7, 8, 2))
follows("3 8 1 6 1", (0, 6, 2), (8, 9, 1))
follows("3 8 1 4 1", (0, 4, 1), (5, 6, 2))
follows("3 8 1 4 1", (0, 3, 1), (5, 6, 2))
follows("0 0 0 0 0", (0, 4, 1), (4, 5, 2))
follows("0 0 0 0 0", (0, 3, 1), (4, 5, 2))
# the second job never starts first: it is due later, and the first is ready
follows("3 7 1 0 0", (5, 6, 1), (4, 5, 1), cores=1)
follows("3 7 1 0 0", (5, 6, 1), (4, 5, 2))
# both at once: the first waited from 0 on, and that is rule 8
follows("3 8 0 0 1", (4, 6, 1), (4, 5, 2))


def and_another(line, other, first, second, third):
    """The same task, and one with this period and offset, B 1, W 9, J 0; its job 0."""
    case(line, 2, 8, [(4, 1, 9, 0, 0), (other[0], 1, 9, other[1], 0)], [(0, 0, 0) + first, (0, 1, 4) + second, (1, 0, other[1]) + third])


# rule 7: if a starts strictly before b, then deadline of a <= deadline of b, or a starts strictly before b is ready. The other task's
# job is due after 100 and starts when job 1 is released and not ready; when it is ready; with it; and before its release
and_another("1 1 0 0 0", (100, 5), (0, 6, 1), (6, 7, 1), (5, 9, 2))
and_another("1 1 0 0 0", (100, 4), (0, 6, 1), (6, 7, 1), (4, 9, 2))
and_another("3 7 2 1 0", (100, 6), (0, 6, 1), (7, 8, 1), (6, 9, 2))
and_another("3 7 2 1 0", (100, 4), (0, 3, 1), (5, 6, 1), (4, 9, 2))
and_another("1 1 0 0 0", (100, 6), (0, 6, 1), (6, 7, 1), (6, 9, 2))
and_another("0 0 0 0 0", (100, 3), (0, 3, 1), (4, 5, 1), (3, 9, 2))
# beside itself: it is ready only at 6, so that rule 7 has nothing against what starts at 4 and rule 8 no instant; and rule 7 is told
# before rule 9, and rule 8 before rule 9
and_another("3 9 1 0 0", (100, 4), (0, 6, 1), (5, 6, 2), (4, 5, 2))
and_another("3 8 2 0 2", (8, 0), (0, 6, 1), (5, 6, 2), (1, 2, 2))
case("3 7 2 3 0", 3, 8, [(4, 1, 9, 0, 0), (100, 1, 9, 0, 0), (8, 1, 9, 0, 0)],
     [(0, 0, 0, 0, 6, 1), (0, 1, 4, 5, 6, 2), (1, 0, 0, 0, 1, 3), (2, 0, 0, 1, 2, 3)])
# due together, and core 1 is taken: core 2 is the idle one
and_another("3 8 1 6 2", (2, 6), (0, 6, 1), (7, 8, 2), (6, 9, 1))
# the first job of a task waits for none, though the record before it runs on
and_another("1 1 0 0 0", (100, 0), (0, 6, 1), (6, 7, 1), (0, 3, 2))
# ready, and no core is free until 8; and one tick longer
for line, start in (("1 3 0 0 0", 8), ("3 8 1 8 2", 9)):
    case(line, 2, 8, [(4, 1, 9, 0, 0), (8, 1, 50, 0, 0), (8, 1, 9, 0, 0)],
         [(0, 0, 0, 0, 6, 1), (0, 1, 4, start, start + 1, 2), (1, 0, 0, 0, 8, 2), (2, 0, 0, 6, 9, 1)])


def four(line, *times, cores=2):
    """Four jobs of one task, released at 0, 2, 4 and 6 and due at 2, 4, 6 and 8."""
    case(line, cores, 8, [(2, 1, 5, 0, 0)], [(0, j, 2 * j) + each for j, each in enumerate(times)])


# each as the one before ends: all are late, and the first begins before H
four("1 4 0 0 0", (0, 5, 1), (5, 10, 2), (10, 15, 1), (15, 16, 2))
four("3 9 2 0 0", (0, 5, 1), (5, 10, 2), (9, 14, 1), (14, 15, 2))
four("3 8 3 14 1", (0, 5, 1), (5, 10, 2), (9, 14, 1), (15, 16, 2))
four("3 9 1 0 0", (0, 5, 1), (4, 9, 2), (8, 13, 1), (13, 14, 2))
four("3 9 3 0 0", (0, 2, 1), (2, 4, 1), (4, 8, 1), (7, 8, 2))
# paper 01 let all four run beside each other
four("3 9 1 0 0", (0, 5, 1), (2, 7, 2), (4, 9, 3), (6, 11, 4), cores=4)
# released late by its jitter, long after the one before
case("0 0 0 0 0", 1, 11, [(10, 1, 9, 0, 5)], [(0, 0, 0, 0, 2, 1), (0, 1, 12, 12, 13, 1)])
# 512 two-tick jobs every tick on two cores: each starts as the one before ends, on the other core, which idles while they wait. The
# last one a tick early runs beside the one before it; a tick late it leaves core 1 idle at 1022
PAIRED = [(0, k, k, 2 * k, 2 * k + 2, 1 + k % 2) for k in range(512)]
for line, last in (("1 512 0 0 0", 1022), ("3 9 511 0 0", 1021), ("3 8 511 1022 1", 1023)):
    case(line, 2, 512, [(1, 2, 2, 0, 0)], PAIRED[:511] + [(0, 511, 511, last, last + 2, 2)])
