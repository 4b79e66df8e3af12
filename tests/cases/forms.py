"""The reader, the tasks in a lent list and the shown job, over the worked runs and over damaged files. No expected byte is computed:
each part is the record beside its case, packed as the paper says."""
from common import C1, C2, C5, C9, C10, C11, RECORD, S, SHOWN, TASKS, TOP, UNIT, numbers, run

cases = []
EMPTY = b"\n"


def part(record):
    return numbers(*record) + b"\n"


def lines(*rows):
    return "".join(" ".join(map(str, row)) + "\n" for row in rows).encode()


def record(file, k, printed):
    cases.append((RECORD, k, 0, file, b"", printed))


# What stands in each entry of the lent list of 32 before a file is decoded into it.
MARK = (71, 72, 73, 74, 75)


def tasks(file, space, plan, *stored):
    cases.append((TASKS, space, 0, file, b"", lines(plan, *stored, *[MARK] * (32 - len(stored)))))


def shown(recorded, carried, task, job, printed):
    cases.append((SHOWN, task, job, recorded, carried, printed))


one, two, five, nine = run(*C1), run(*C2), run(*C5), run(*C9)

# The reader gives record k; for a k not below the record count an empty part.
for file, records in ((one, C1[3]), (two, C2[3]), (five, C5[3])):
    for k, r in enumerate(records):
        record(file, k, part(r))
    for k in (len(records), len(records) + 1, 512, TOP):
        record(file, k, EMPTY)
for k in (0, 1, 255, 510, 511):
    record(nine, k, part(C9[3][k]))
record(nine, 512, EMPTY)
record(run(*C11), 0, EMPTY)
# a record that breaks every rule is a record
WILD = (TOP, 7, TOP, 0, 3, TOP)
record(run(1, 1, [UNIT], [WILD]), 0, part(WILD))
# A refused file gives an empty part: cut anywhere, a byte too many, a count too great, a task out of its ranges.
DAMAGED = [one[:n] for n in range(0, len(one), 9)] + [
    one + b"\0", numbers(3) + one[4:], numbers(2, 17) + one[8:], run(*C10), numbers(2, 2, 20, 0) + one[16:],
    one[:96] + numbers(513) + one[100:], one[:16] + numbers(0) + one[20:]]
for file in DAMAGED:
    record(file, 0, EMPTY)

# The tasks: refusal, task and count with so much space; and then a list of 32, in which entries past the last task keep their values
# and a refusal changes none.
tasks(one, 4, (0, 0, 4), *S)
tasks(one, 32, (0, 0, 4), *S)
tasks(one, 3, (11, 0, 0), *S)
tasks(one, 0, (11, 0, 0), *S)
tasks(nine, 1, (0, 0, 1), UNIT)
MANY = [(1000 + i, 1 + i, 100 + i, i, 3 * i) for i in range(32)]
tasks(run(1, 1, MANY, []), 32, (0, 0, 32), *MANY)
tasks(run(1, 1, MANY, []), 31, (11, 0, 0), *MANY)
# the file's own refusals come first
tasks(b"", 0, (1, 0, 0))
tasks(run(*C10), 0, (6, 0, 0))
tasks(one + b"\0", 0, (8, 0, 0))
tasks(run(1, 1, MANY[:7] + [(0, 1, 1, 0, 0)], []), 0, (5, 7, 0))

# The shown job: from the recorded file when it began before H. C2 carried to 20 is C1.
for r in C1[3]:
    shown(two, one, r[0], r[1], part(r))
for job in ((0, 2), (4, 0), (TOP, TOP)):
    shown(two, one, *job, EMPTY)
# Two files that differ in every record tell which one is shown.
OTHER = run(2, 20, S, [(i, j, r + 1, s + 1, e + 2, 3 - c) for i, j, r, s, e, c in C1[3]])
for k, r in enumerate(C1[3]):
    shown(one, OTHER, r[0], r[1], part(r))
    shown(two, OTHER, r[0], r[1], part(r if r[3] < 10 else (r[0], r[1], r[2] + 1, r[3] + 1, r[4] + 2, 3 - r[5])))
# H is the recorded file's: begun at H is not before it
EDGE = [(0, 0, 0, 19, 20, 1)]
shown(run(1, 20, [UNIT[:3] + (19, 0)], EDGE), one, 0, 0, part(EDGE[0]))
shown(run(1, 19, [UNIT[:3] + (19, 0)], EDGE), one, 0, 0, part(C1[3][0]))
# several records of the job: the least, whenever it began
EARLY, LATE = (0, 0, 0, 3, 4, 1), (0, 0, 0, 30, 31, 1)
shown(run(1, 20, [(20, 1, 1, 0, 0)], [LATE, EARLY]), one, 0, 0, part(C1[3][0]))
shown(run(1, 20, [(20, 1, 1, 0, 0)], [EARLY, LATE]), one, 0, 0, part(EARLY))
shown(b"", run(1, 20, [(20, 1, 1, 0, 0)], [LATE, EARLY]), 0, 0, part(LATE))
# a refused file has none; if neither gives a record, the part is empty
for file in DAMAGED:
    shown(file, one, 1, 0, part(C1[3][2]))
    shown(one, file, 1, 0, part(C1[3][2]))
    shown(two, file, 1, 0, EMPTY)
    shown(file, file, 1, 0, EMPTY)
