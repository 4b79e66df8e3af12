"""Every refusal 1 to 8 at its borders. No expected line is computed: each is written beside its case, from the paper's sentences
(the comment above each group)."""
from common import REFUSAL, TOP, numbers, refused

FINE = "fine"

# P, B, W, O, J: a task with one job before H = 20, within all ranges
PLAIN = (1000, 1, 1, 0, 0)


def file(cores=2, horizon=20, tasks=(PLAIN,), records=0, count=2, task_count=None, record_count=None):
    out = numbers(count, cores, horizon)
    out += numbers(len(tasks) if task_count is None else task_count)
    for task in tasks:
        out += numbers(*task)
    out += numbers(records if record_count is None else record_count)
    return out + bytes(24 * records)


def task(period=1000, least=1, greatest=1, offset=0, jitter=0):
    return (period, least, greatest, offset, jitter)


cases = []


def case(file, line):
    cases.append((REFUSAL, 0, 0, file, b"", line.encode() + b"\n"))


# "1: the bytes end inside a count or a section": every length at which a whole file can be cut, and the whole file.
whole = file(tasks=(PLAIN, PLAIN), records=3)
for length in range(len(whole)):
    case(whole[:length], refused(1))
case(whole, FINE)

# "2: the setting's count is not 2", judged once its four bytes are there, before its entries.
for count in (0, 1, 3, 4, 256, TOP):
    case(file(count=count), refused(2))
    case(numbers(count), refused(2))
    case(numbers(count)[:3], refused(1))

# "3: N or H out of range": N 1 to 16, H 1 to 1,000,000; both numbers must be there before either is judged.
for cores, line in ((0, refused(3)), (1, FINE), (16, FINE), (17, refused(3)), (TOP, refused(3))):
    case(file(cores=cores), line)
slow = task(period=1000000)
for horizon, line in ((0, refused(3)), (1, FINE), (1000000, FINE), (1000001, refused(3)), (TOP, refused(3))):
    case(file(horizon=horizon, tasks=(slow,)), line)
case(numbers(2, 0), refused(1))
case(numbers(2, 17) + b"\0\0\0", refused(1))
case(numbers(2, 17, 20), refused(3))
case(numbers(2, 2, 0), refused(3))

# "4: task count out of range", 1 to 32, judged before the entries.
case(file(tasks=()), refused(4))
case(file(tasks=(PLAIN,) * 32), FINE)
case(file(tasks=(PLAIN,) * 33), refused(4))
for count in (0, 33, 512, 513, TOP):
    case(numbers(2, 2, 20, count), refused(4))
for count in (1, 32):
    case(numbers(2, 2, 20, count), refused(1))
case(numbers(2, 2, 20, 33)[:15], refused(1))

# "5: a task out of its ranges; the least one is named".
borders = (
    (task(period=0), False), (task(period=1000), True), (task(period=1000000), True), (task(period=1000001), False), (task(period=TOP), False),
    (task(least=0), False), (task(least=1), True), (task(least=5, greatest=5), True), (task(least=6, greatest=5), False),
    (task(least=TOP, greatest=TOP), False), (task(greatest=0), False), (task(greatest=1000000), True), (task(greatest=1000001), False),
    (task(least=1000000, greatest=1000000), True), (task(greatest=TOP), False),
    (task(offset=0), True), (task(offset=1000000), True), (task(offset=1000001), False), (task(offset=TOP), False),
    (task(jitter=0), True), (task(jitter=999), True), (task(jitter=1000), False), (task(jitter=TOP), False), (task(period=1, offset=19), True), (task(period=1, offset=19, jitter=1), False),
)
for bad, fine in borders:
    case(file(tasks=(bad,)), FINE if fine else refused(5, 0))
    case(file(tasks=(PLAIN, bad, PLAIN)), FINE if fine else refused(5, 1))
    case(file(tasks=(PLAIN,) * 31 + (bad,)), FINE if fine else refused(5, 31))
case(file(tasks=(PLAIN, task(period=0), task(jitter=TOP))), refused(5, 1))
# all entries of the section must be there before any is judged
case(file(tasks=(task(period=0), PLAIN))[:16 + 39], refused(1))

# "6: more than 512 jobs at H", after all tasks are judged and before the record count is read. A task has the jobs j with jP + O < H.
quick = task(period=1)
case(file(horizon=512, tasks=(quick,)), FINE)
case(file(horizon=513, tasks=(quick,)), refused(6))
case(file(horizon=513, tasks=(task(period=1, offset=1),)), FINE)
case(file(horizon=514, tasks=(task(period=1, offset=1),)), refused(6))
case(file(horizon=1024, tasks=(task(period=2),)), FINE)
case(file(horizon=1025, tasks=(task(period=2),)), refused(6))
case(file(horizon=256, tasks=(quick, quick)), FINE)
case(file(horizon=257, tasks=(quick, quick)), refused(6))
case(file(horizon=16, tasks=(quick,) * 32), FINE)
case(file(horizon=17, tasks=(quick,) * 32), refused(6))
case(file(horizon=1000000, tasks=(quick,) * 32), refused(6))
case(file(horizon=1000000, tasks=(task(period=1, offset=1000000),)), FINE)
case(file(horizon=20, tasks=(task(period=1, offset=20),)), FINE)
case(file(horizon=513, tasks=(quick, task(period=0))), refused(5, 1))
case(numbers(2, 2, 513, 1, *quick), refused(6))
case(file(horizon=513, tasks=(quick,), record_count=513), refused(6))

# "7: record count above 512", judged before its entries.
case(file(records=512), FINE)
case(file(records=512, record_count=513), refused(7))
for count in (513, 514, 65536, TOP):
    case(file(record_count=count), refused(7))
for count in (1, 32, 33, 512):
    case(file(record_count=count), refused(1))
case(file(record_count=513)[:-1], refused(1))
case(file(record_count=0), FINE)

# "8: bytes after the last section", judged last.
case(file() + b"\0", refused(8))
case(file(records=2) + bytes(24), refused(8))
case(file(records=512) + b"\1", refused(8))
case(file(records=3, record_count=2), refused(8))
case(file(tasks=(PLAIN,) * 32, records=512), FINE)
case(file(tasks=(PLAIN,) * 32, records=512) + bytes(3000), refused(8))
