"""Why, at every border, run by tests/chains. No expected number is computed from another answer: the five numbers and the chain are
written beside each case, from the request's sentences (the comment above each group)."""
from common import C1, C2, C5, C6, C7, C9, C10, C11, S, TOP, numbers, run

WHY = 2
# (name, call, file, number of the record, length of the output, length of the answer, five numbers, what is written)
cases = []
ROOM = 2048


def why(name, file, record, chain, room=None, answer=20):
    """The chain is told: so many numbers, and no other byte of the output."""
    space = 4 * len(chain) if room is None else room
    cases.append((f"{name}, record {record}", WHY, run(*file), numbers(record), space, answer, (6, len(chain), 0, 0, 0), numbers(*chain)))


def no_why(name, file, record, number, place=0, room=ROOM, answer=20):
    cases.append((f"{name}, record {record}", WHY, file, numbers(record), room, answer, (4, number, place, 0, 0), b""))


def chains(name, file, *every):
    """Every record of the run in turn, and then the numbers that are none: "20 if there is no such record"."""
    for record, chain in enumerate(every):
        why(name, file, record, chain)
    for record in (len(every), len(every) + 1, TOP):
        no_why(name, run(*file), record, 20)


# "from the record asked about back to the first": the worked runs. In C1 record 0 waits for core 2, on which record 4 ended at 15; its
# next job, record 1, for record 0, though record 3 ended at 17 on the core that it takes; record 2 for core 2, on which record 0 ended.
chains("C1", C1, (0, 4), (1, 0, 4), (2, 0, 4), (3,), (4,))
chains("C2", C2, (0, 3), (1, 2), (2,), (3,))
chains("C11", C11)
# "a job that started at its release ends the chain", though the preceding one ended then, on the only core
for record in (0, 1, 255, 256, 511):
    why("C9", C9, record, (record,))
for record in (512, 513, 65536, 65536 + 511, 2**24 + 1, 2**31, TOP):
    no_why("C9", run(*C9), record, 20)

# One task on two cores. Its second job is released at 4; the first ends later, just then, or before; on the other core, or on the same.
SLOW = (4, 1, 9, 0, 0)
for end, start, chain in ((6, 6, (1, 0)), (5, 5, (1, 0)), (4, 4, (1,)), (3, 4, (1,))):
    for core in (1, 2):
        chains(f"the first ends at {end}, the second on core {core}",
               (2, 8, [SLOW], [(0, 0, 0, 0, end, 1), (0, 1, 4, start, start + 1, core)]), (0,), chain)
# "the preceding job of its task if that ended at this start, else the job on the same core that ended at this start": both ended then;
# the preceding one alone; the preceding one before, and after the release; the core's alone
BESIDE = (100, 1, 9, 0, 0)
chains("both ended", (2, 8, [SLOW, BESIDE], [(0, 0, 0, 0, 6, 1), (0, 1, 4, 6, 7, 2), (1, 0, 0, 0, 6, 2)]), (0,), (1, 0), (2,))
chains("both ended, the core's a tick before", (2, 8, [SLOW, BESIDE], [(0, 0, 0, 0, 6, 1), (0, 1, 4, 6, 7, 2), (1, 0, 0, 0, 5, 2)]),
       (0,), (1, 0), (2,))
chains("the preceding one ended before the release", (1, 8, [SLOW, (100, 1, 9, 3, 0)],
       [(0, 0, 0, 0, 2, 1), (0, 1, 4, 7, 8, 1), (1, 0, 3, 3, 7, 1)]), (0,), (1, 2), (2,))
chains("the preceding one ended after the release, and then the core was taken", (2, 8, [SLOW, (8, 1, 50, 0, 0), (8, 1, 9, 0, 0)],
       [(0, 0, 0, 0, 6, 1), (0, 1, 4, 8, 9, 2), (1, 0, 0, 0, 8, 2), (2, 0, 0, 6, 9, 1)]), (0,), (1, 2), (2,), (3, 0))
# "a job that started at its release": at 3 another ends on its core, and the third, released with it, waits for it and no farther
chains("another ends as it is released", (1, 4, [(10, 1, 5, 0, 0), (10, 1, 5, 3, 0), (20, 1, 5, 3, 0)],
       [(0, 0, 0, 0, 3, 1), (1, 0, 3, 3, 5, 1), (2, 0, 3, 5, 6, 1)]), (0,), (1,), (2, 1))
# a tick after its release it has waited for a tick
chains("another ends a tick after", (1, 3, [(10, 1, 5, 0, 0), (10, 1, 5, 2, 0)], [(0, 0, 0, 0, 3, 1), (1, 0, 2, 3, 5, 1)]), (0,), (1, 0))
# the release is the one that was recorded: job 0 is released late by its jitter, and starts just then
chains("released late", (1, 5, [(10, 1, 5, 0, 5), (20, 1, 5, 4, 0)], [(0, 0, 3, 3, 5, 1), (1, 0, 4, 5, 6, 1)]), (0,), (1, 0))
# sixteen cores fall free at once: each waits for its own
FIRST, LATER = (100, 4, 4, 0, 0), (200, 1, 2, 1, 0)
chains("sixteen over at once", (16, 2, [FIRST] * 16 + [LATER] * 16,
       [(i, 0, 0, 0, 4, i + 1) for i in range(16)] + [(16 + i, 0, 1, 4, 5, 16 - i) for i in range(16)]),
       *((i,) for i in range(16)), *((16 + i, 15 - i) for i in range(16)))

# "the chain always closes": the longest. Two-tick jobs every tick: through preceding jobs on one core, and on two by turns; and of 32
# tasks on one core, one after the other by their offsets, through the core. Record 16 i + j of the last is the (32 j + i)th to start.
BEHIND = (1, 512, [(1, 2, 2, 0, 0)], [(0, k, k, 2 * k, 2 * k + 2, 1) for k in range(512)])
TURNS = (2, 512, [(1, 2, 2, 0, 0)], [(0, k, k, 2 * k, 2 * k + 2, 1 + k % 2) for k in range(512)])
QUEUE = (1, 512, [(32, 2, 2, i, 0) for i in range(32)],
         [(i, j, 32 * j + i, 2 * (32 * j + i), 2 * (32 * j + i) + 2, 1) for i in range(32) for j in range(16)])
for record in (0, 1, 2, 255, 256, 510, 511):
    why("falling behind", BEHIND, record, tuple(range(record, -1, -1)))
    why("falling behind, by turns", TURNS, record, tuple(range(record, -1, -1)))
for place in (0, 1, 31, 32, 511):
    why("a queue", QUEUE, 16 * (place % 32) + place // 32, tuple(16 * (p % 32) + p // 32 for p in range(place, -1, -1)))
LONGEST = tuple(range(511, -1, -1))
why("falling behind: room to spare", BEHIND, 511, LONGEST, room=5000)
why("falling behind: seven bytes to spare", BEHIND, 511, LONGEST, room=2055)
no_why("falling behind: a byte too little", run(*BEHIND), 511, 11, room=2047)

# "then 11": four bytes for each number, of a chain of one and of three; "bytes after them keep their values"
for record, chain in ((4, (4,)), (1, (1, 0, 4))):
    size = 4 * len(chain)
    for room in (size, size + 1, size + 3, size + 4, size + 7, 5000):
        why(f"room for {room} bytes", C1, record, chain, room=room)
    for room in {0, 1, 3, 4, size - 4, size - 1} - {size}:
        no_why(f"room for {room} bytes", run(*C1), record, 11, room=room)

# "10 if a rule is broken, then 20 if there is no such record, then 11"
one = run(*C1)
BESIDE_ITSELF = (2, 8, [SLOW], [(0, 0, 0, 0, 6, 1), (0, 1, 4, 5, 6, 2)])
for name, broken in (("C5", C5), ("C6", C6), ("C7", C7), ("rule 9", BESIDE_ITSELF), ("a job missing", (2, 20, S, []))):
    for record in (0, 1, len(broken[3]), TOP):
        no_why(f"{name} breaks a rule", run(*broken), record, 10)
        no_why(f"{name} breaks a rule, no room", run(*broken), record, 10, room=0)
for record in (5, 6, 4 + 2**8, 4 + 2**16, 4 + 2**24, 4 + 2**31, TOP):
    no_why("no room", one, record, 20, room=0)
    no_why("room", one, record, 20)
no_why("no record, no room", run(*C11), 0, 20, room=0)

# "Refusals, after the file's own": of a record that there would be, and of none; with room, and without
OWN = (
    ("no byte", b"", 1, 0), ("cut in the records", one[:-1], 1, 0), ("setting's count", numbers(3) + one[4:], 2, 0),
    ("no core", numbers(2, 0) + one[8:], 3, 0), ("no task", numbers(2, 2, 20, 0) + one[16:], 4, 0),
    ("a task without a period", run(2, 20, S[:2] + [(0, 1, 1, 0, 0)], []), 5, 2), ("513 jobs", run(*C10), 6, 0),
    ("513 records", one[:96] + numbers(513) + one[100:], 7, 0), ("a byte behind the records", one + b"\n", 8, 0),
    ("a broken run with a byte behind it", run(*C6) + b"\0", 8, 0),
)
for name, file, number, place in OWN:
    for record in (0, TOP):
        for room in (ROOM, 0):
            no_why(f"{name}, room for {room} bytes", file, record, number, place, room=room)

# The five numbers go into the first 20 bytes of the answer; a shorter one is met first of all, and no byte changes.
for answer in (21, 40):
    why(f"answer of {answer} bytes", C1, 1, (1, 0, 4), answer=answer)
    for name, file, record, number in (("", one, 5, 20), (", broken", run(*C6), 0, 10), (", refused", b"", 0, 1)):
        no_why(f"answer of {answer} bytes{name}", file, record, number, answer=answer)
for answer in (0, 1, 19):
    for name, file, record in (("", one, 1), (", no such record", one, 5), (", broken", run(*C6), 0), (", refused", b"", 0)):
        no_why(f"answer of {answer} bytes{name}", file, record, 0, answer=answer)
    no_why(f"answer of {answer} bytes, no room", one, 1, 0, room=0, answer=answer)
