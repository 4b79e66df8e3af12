"""The sentences of 'octalmure say', and those of 'octalmure show': their numbers are those of the file."""
import re

from shown import hold

NAME = r"record (\d+) \(task (\d+), job (\d+)\)"
LATE = re.compile(rf"Late: {NAME} was due at (\d+), began at (\d+) and ended at (\d+): (\d+) ticks? late\.")
TICKS = 10**6


def numbers(line):
    return [int(number) for number in re.findall(r"\d+", line)]


def out_of_range(task):
    period, least, greatest, offset, jitter = task
    return not (1 <= period <= TICKS and 1 <= least <= greatest <= TICKS and offset <= TICKS and jitter < period)


def cut_short(file):
    """Where the bytes end: in which entry of how many, for a section of entries."""
    if file.record_count is not None:
        return [file.size, len(file.records), file.record_count]
    return [file.size, len(file.tasks), file.task_count] if len(file.tasks) < (file.task_count or 0) else [file.size]


def hold_stop(file, lines):
    """Of a file that is refused: the numbers of where it stops."""
    refusal = re.search(r"\(refusal (\d+)\)\.$", lines[0])
    hold(refusal and len(lines) > 1, f"refused, and it says {lines}")
    faulty = [[k, *task] for k, task in enumerate(file.tasks) if out_of_range(task)]
    cores, horizon = file.setting or (None, None)
    expected = {
        1: cut_short(file),
        2: [file.first],
        3: [cores, 1, 16, horizon, 1, TICKS],
        4: [file.task_count, 1, 32],
        5: faulty[0] if faulty else None,
        6: [horizon],
        7: [file.record_count],
        8: [file.end, file.read - (file.end or 0)],
    }[int(refusal[1])]
    hold(numbers(lines[1]) == expected, f"it stops at {expected}, and it says '{lines[1]}'")


def one_or_two(least, greatest):
    """A range as it is told."""
    return [least, greatest] if greatest > least else [least]


def hold_release(file, k, *told):
    task, job, release = file.records[k][:3]
    period, _, _, offset, jitter = file.tasks[task]
    least = job * period + offset
    hold([*told] == [release, *one_or_two(least, least + jitter)], f"record {k} is released at {release}, and may be from {least} on")
    hold(not least <= release <= least + jitter, f"record {k} is released when it may be")


def hold_start(file, k, *told):
    release, start = file.records[k][2:4]
    hold([*told] == [start, release] and start < release, f"record {k} starts at {start} and is released at {release}")


def hold_length(file, k, *told):
    task, _, _, start, end, _ = file.records[k]
    _, least, greatest, _, _ = file.tasks[task]
    expected = [end, start] if end < start else [start, end, end - start, *one_or_two(least, greatest)]
    hold([*told] == expected and not least <= end - start <= greatest, f"record {k} is as long as it may be, or not {told}")


def hold_core(file, k, *told):
    core, cores = file.records[k][5], file.setting[0]
    hold([*told] == [core, *one_or_two(1, cores)] and not 1 <= core <= cores, f"record {k} is on core {core} of {cores}")


def hold_overlap(file, a, *told):
    """The core stands behind the first record, and the number of the second behind the instants of that."""
    core, start, end, b, start_b, end_b = told
    first, second = file.records[a], file.records[b]
    hold((first[3:], second[3:]) == ((start, end, core), (start_b, end_b, core)), f"records {a} and {b} run otherwise")
    hold(a < b and start < end_b and start_b < end, f"records {a} and {b} do not overlap")


def hold_order(file, a, start, b, ready):
    first, second = file.records[a], file.records[b]
    hold((start, ready) == (first[3], file.ready(b)), f"record {a} starts at {first[3]}, and record {b} is ready at {file.ready(b)}")
    hold(start < second[3] and file.deadline(first) > file.deadline(second) and ready <= start, f"records {a} and {b} are in order")


def hold_idling(file, k, ready, start, instant, core):
    hold((ready, start) == (file.ready(k), file.records[k][3]), f"record {k} is ready at {file.ready(k)}")
    hold(ready <= instant < start and 1 <= core <= file.setting[0], f"record {k} does not wait at {instant} for core {core}")
    hold(not file.busy(core, instant), f"core {core} is not idle at {instant}")


def hold_turn(file, k, start, before, end):
    hold(before == file.before(k), f"before record {k} comes record {file.before(k)}")
    hold((start, end) == (file.records[k][3], file.records[before][4]) and start < end, f"record {k} starts at its turn")


# how many numbers the place of a rule is told with, and what is held of them
PLACES = {2: (hold_release, (3, 4)), 3: (hold_start, (3,)), 4: (hold_length, (3, 5, 6)), 5: (hold_core, (3, 4)), 6: (hold_overlap, (7,)),
          7: (hold_order, (4,)), 8: (hold_idling, (5,)), 9: (hold_turn, (4,))}


def hold_jobs(file, lines):
    """Rule 1: the number at which records and jobs differ, and the job of the record there."""
    jobs = [(i, j) for i, task in enumerate(file.tasks) for j in range(max(0, -(-(file.setting[1] - task[3]) // task[0])))]
    records = [record[:2] for record in file.records]
    k = next(k for k in range(len(jobs) + 1) if jobs[k:k + 1] != records[k:k + 1])
    hold(numbers(lines[1]) == [k, 0, *(records[k] if k < len(records) else ())], f"they differ at {k}, and it says '{lines[1]}'")


def hold_place(file, lines):
    """Of a run that breaks a rule: the numbers of the place are those of the file, and it is broken there."""
    rule = re.match(r"Not permitted: rule (\d+) \(", lines[0])
    hold(rule and len(lines) > 1, f"broken, and it says {lines}")
    if int(rule[1]) == 1:
        hold_jobs(file, lines)
        return
    told, counts = PLACES[int(rule[1])]
    place = numbers(re.sub(NAME, r"\1", lines[1]))
    hold(len(place) in counts, f"it says '{lines[1]}'")
    told(file, *place)


def hold_names(file, lines):
    """Every record is called by its own task and job."""
    for number, task, job in re.findall(NAME, "\n".join(lines)):
        hold(file.records[int(number)][:2] == (int(task), int(job)), f"record {number} is called task {task}, job {job}")


def hold_late(file, lines):
    """Every late record, with its numbers, and whether it began before H."""
    expected = []
    for k, record in enumerate(file.records):
        late = file.late(record)
        if late:
            expected.append((k, *record[:2], file.deadline(record), *record[3:5], late, record[3] < file.setting[1]))
    told = []
    for line, after in zip(lines, [*lines[1:], ""]):
        late = LATE.fullmatch(line)
        if late:
            told.append((*map(int, late.groups()), after.startswith(f"  It began before H = {file.setting[1]}:")))
    hold(told == expected, f"{told} are said to be late, and not {expected}")


def hold_sentences(file, lines, status):
    """What 'octalmure say' says of a file."""
    hold_names(file, lines)
    if status == 0:
        hold_late(file, lines)
    if status == 1:
        hold_place(file, lines)
    if status == 3:
        hold_stop(file, lines)
