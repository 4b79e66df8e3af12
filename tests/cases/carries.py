"""Carries to longer horizons, each written file checked, and the refusals 9, 6, 10, 11 in their order. The lines of a refusal are
written beside their cases; those of a longer run come from the paper's sentences, followed tick by tick."""
from common import C1, C2, C5, C6, C7, C9, C10, C11, CARRY, S, TOP, UNIT, refused, run

cases = []


def room(tasks, jobs):
    """How many bytes the file of a run has."""
    return 20 + 20 * len(tasks) + 24 * jobs


def case(file, horizon, space, *lines):
    cases.append((CARRY, horizon, space, file, b"", "".join(line + "\n" for line in lines).encode()))


def opened(run, longer):
    """What stands at H: a record that starts before H is kept, another keeps its release, a new job is released at jP + O."""
    cores, horizon, tasks, records = run
    old = {(r[0], r[1]): list(r) for r in records}
    jobs = [(i, j) for i, (p, _, _, o, _) in enumerate(tasks) for j in range(longer) if j * p + o < longer]
    at = {}
    for i, j in jobs:
        p, _, _, o, _ = tasks[i]
        before = old.get((i, j))
        if before and before[3] < horizon:
            at[i, j] = before
        else:
            at[i, j] = [i, j, before[2] if before else j * p + o, None, None, 0]
    return [at[q] for q in jobs]


def carried(run, longer):
    """From instant H on, while a core is free and a ready job has not begun, the one due soonest starts on the lowest free core. Ready
    is one that is released, and whose task's preceding job, if there is one, has begun and ended."""
    cores, t, tasks, _ = run
    jobs = opened(run, longer)
    of = {(x[0], x[1]): x for x in jobs}
    due = lambda x: ((x[1] + 1) * tasks[x[0]][0] + tasks[x[0]][3], x[0], x[1])
    over = lambda x: x is None or (x[3] is not None and x[4] <= t)
    while any(x[3] is None for x in jobs):
        for core in range(1, cores + 1):
            ready = [x for x in jobs if x[3] is None and x[2] <= t and over(of.get((x[0], x[1] - 1)))]
            if ready and not any(x[3] is not None and x[5] == core and x[3] <= t < x[4] for x in jobs):
                first = min(ready, key=due)
                first[3:] = [t, t + tasks[first[0]][2], core]
        t += 1
    return jobs


def verdict(tasks, longer, jobs):
    """The check's line for a run that obeys the rules."""
    late = [k for k, x in enumerate(jobs) if x[4] > (x[1] + 1) * tasks[x[0]][0] + tasks[x[0]][3]]
    early = [k for k in late if jobs[k][3] < longer]
    return f"1 {len(late)} {early[0]} 0 0" if early else f"2 {len(late)} {late[0]} 0 0" if late else "0 0 0 0 0"


def longer(run_, horizon):
    tasks = run_[2]
    jobs = carried(run_, horizon)
    size = room(tasks, len(jobs))
    case(run(*run_), horizon, size, f"5 {size} 0 0 0", verdict(tasks, horizon, jobs))


for horizon in (20, 21, 30, 59, 60, 61, 120, 600, 3060):
    longer(C1, horizon)
for horizon in (10, 11, 20, 300, 1200):
    longer(C2, horizon)
longer(C9, 512)
longer((1, 1, [UNIT], [(0, 0, 0, 0, 1, 1)]), 512)
longer(C11, 513)
# two-tick jobs every tick on one core fall behind: each is late
for horizon in (1, 2, 100, 512):
    longer((1, 1, [(1, 2, 2, 0, 0)], [(0, 0, 0, 0, 2, 1)]), horizon)
# 32 tasks on 16 cores, all at once, equal deadlines; and offsets past the first horizon
CROWD = [(40 + i % 3, 1, 7 + i % 5, 0, 5) for i in range(32)]
longer((16, 1, CROWD[:16], [(i, 0, i % 2, i % 2, i % 2 + 3, i + 1) for i in range(16)]), 500)
longer((3, 5, [(9, 2, 4, 5 + i, 3) for i in range(32)], []), 120)
# a job that is released late by its jitter and had not begun at H keeps its release
longer((1, 1, [(100, 5, 9, 0, 80), (30, 2, 2, 0, 0)], [(0, 0, 50, 50, 57, 1), (1, 0, 0, 0, 2, 1)]), 200)

# Carrying starts ready jobs only. One task on two cores, its first job on one of them from 0 to 6, and the next is released at 4: it
# starts at 6, and so on, and one core stays idle
SLOW = (4, 1, 6, 0, 0)
for horizon in (1, 4, 5, 9, 100):
    longer((2, 1, [SLOW], [(0, 0, 0, 0, 6, 1)]), horizon)
    longer((2, 1, [SLOW], [(0, 0, 0, 0, 6, 2)]), horizon)
# to H itself: the job before outlasts H, ends at H, or begins anew itself, so that where it was recorded to end is of no account
for horizon in (5, 8, 60):
    longer((2, 5, [SLOW], [(0, 0, 0, 0, 6, 1), (0, 1, 4, 6, 7, 2)]), horizon)
    longer((2, 5, [(2, 1, 6, 0, 0)], [(0, 0, 0, 0, 6, 1), (0, 1, 2, 6, 7, 2), (0, 2, 4, 7, 8, 1)]), horizon)
longer((2, 6, [SLOW], [(0, 0, 0, 0, 6, 2), (0, 1, 4, 6, 9, 2)]), 6)
# two that are due at once get ready at once
for horizon in (5, 60):
    longer((2, 1, [SLOW, SLOW], [(0, 0, 0, 0, 6, 2), (1, 0, 0, 0, 6, 1)]), horizon)
    longer((2, 1, [SLOW, SLOW, SLOW], [(0, 0, 0, 0, 6, 2), (1, 0, 0, 0, 6, 1), (2, 0, 0, 6, 7, 2)]), horizon)
# a core falls free and no job is ready; one that is due later goes first; one that is due sooner takes the core at that end
for horizon in (5, 6, 100):
    longer((2, 1, [SLOW, (100, 1, 3, 0, 0)], [(0, 0, 0, 0, 6, 2), (1, 0, 0, 0, 3, 1)]), horizon)
    longer((2, 1, [SLOW, (100, 1, 3, 5, 0)], [(0, 0, 0, 0, 6, 1)]), horizon)
    longer((2, 1, [SLOW, (100, 1, 20, 0, 0), (2, 1, 3, 5, 0)], [(0, 0, 0, 0, 6, 1), (1, 0, 0, 0, 20, 2)]), horizon)
# many cores, and one job at a time; many tasks that all fall behind
longer((16, 1, [(1, 3, 3, 0, 0)], [(0, 0, 0, 0, 3, 7)]), 100)
longer((2, 1, [(1, 2, 2, 0, 0)], [(0, 0, 0, 0, 2, 2)]), 512)
longer((5, 1, [(3, 1, 8 + i, i, 2) for i in range(12)], [(0, 0, 0, 0, 4, 5)]), 60)

# 9: H' below H (C12) or above 1,000,000
one = run(*C1)
case(one, 19, 16384, refused(9))
case(one, 0, 16384, refused(9))
case(run(*C11), 1000000, 16384, refused(6))
case(run(1, 1, [(1000000, 1, 1, 0, 0)], [(0, 0, 0, 0, 1, 1)]), 1000000, 64, "5 64 0 0 0", "0 0 0 0 0")
case(run(1, 1, [(1000000, 1, 1, 0, 0)], [(0, 0, 0, 0, 1, 1)]), 1000001, 64, refused(9))
case(one, TOP, 16384, refused(9))
# 6: more than 512 jobs at H': 514, 513
case(one, 3061, 16384, refused(6))
case(run(*C11), 514, 16384, refused(6))
case(run(1, 1, [UNIT], [(0, 0, 0, 0, 1, 1)]), 513, 16384, refused(6))
# 10: a broken rule
BESIDE = (2, 8, [SLOW], [(0, 0, 0, 0, 6, 1), (0, 1, 4, 5, 6, 2)])  # rule 9
for broken in (C5, C6, C7, BESIDE):
    case(run(*broken), broken[1], 16384, refused(10))
# 11: a byte too few; exactly enough is above
case(one, 30, 243, refused(11))
case(one, 30, 0, refused(11))
# the file's own refusals, then 9, 6, 10, 11
case(b"", 0, 0, refused(1))
case(run(*C10), 0, 0, refused(6))
case(one + b"\0", 19, 0, refused(8))
case(run(*C6), 1000001, 0, refused(9))
case(run(*C6), 3080, 0, refused(6))
case(run(*C6), 20, 0, refused(10))
case(run(*BESIDE), 7, 0, refused(9))
case(run(*BESIDE), 2049, 0, refused(6))
case(run(*BESIDE), 2048, 0, refused(10))
