"""What 'octalmure why' and 'octalmure explain' say of a file, read back. The chain, the instants and the sums are found anew, from the
numbers of the file and the request's sentences; every line must be one that is known here, and every number of it the right one; and
so must every field of the JSON."""
import json
import re

from shown import hold

N, WHO = r"(\d+)", r"(.+?)"
# every line of the reason of a late record
FORMS = {
    "late": rf"Late: {WHO} was released at {N} and due at {N}; it began at {N} and ended at {N}: {N} (ticks?) late\.",
    "stays": rf"  It began before H = {N}: its lateness stands unchanged in every carry of this run\.",
    "may change": rf"  It did not begin before H = {N}: a carry of this run may change it\.",
    "released": rf"  Why {WHO} began at {N}: it was released then\.",
    "preceding": rf"  Why {WHO} began at {N}: it waited for its own preceding job, {WHO}, which ran from {N} to {N}\.",
    "core": rf"  Why {WHO} began at {N}: it waited for core {N}, on which {WHO} ran from {N} to {N}\.",
    "busy": rf"    Every core was busy from {N}, when it was ready, to {N}\.",
    "busy in turn": rf"    Every core was busy from {N}, when its preceding job had ended and it was ready, to {N}\.",
    "sooner": rf"    It was due at {N}, sooner than the other, which was due at {N}; but the other had begun at {N}, before this one was "
              rf"ready at {N}\.",
    "sum": rf"  The sum: (\d+(?: \+ \d+)+) = {N}, due {N}: {N} late\.",
}
FORMS = {kind: re.compile(form) for kind, form in FORMS.items()}
NO_REASONS = "No reasons are given for a run that is not permitted."
BEGAN = {"released": "at_release", "preceding": "after_preceding_job", "core": "after_job_on_core"}


class Reasons:
    """The records of an accepted run: what each waited for, and what its task is called."""

    def __init__(self, file, names=None):
        self.file, self.names = file, names or {}
        self.over = {}
        for k, record in enumerate(file.records):
            self.over.setdefault(record[4], []).append(k)

    def cause(self, k):
        """How record k came to begin, and the record whose end it waited for, None where it began at its release."""
        task, job, release, start, _, core = self.file.records[k]
        if start == release:
            return "released", None
        over = {self.file.records[x][:2]: x for x in self.over.get(start, ())}
        if (task, job - 1) in over:
            return "preceding", over[task, job - 1]
        beside = [x for x in over.values() if self.file.records[x][5] == core]
        hold(len(beside) == 1, f"record {k} waited for {len(beside)} jobs on its core")
        return "core", beside[0]

    def chain(self, k):
        chain = [k]
        while (cause := self.cause(chain[-1])[1]) is not None:
            hold(cause not in chain, f"record {cause} stands twice in the chain of {k}")
            chain.append(cause)
        return chain

    def late(self):
        """The late records, soonest deadline first, of equal ones the least."""
        due = {k: self.file.deadline(record) for k, record in enumerate(self.file.records) if self.file.late(record)}
        return sorted(due, key=lambda k: (due[k], k))

    def called(self, k):
        task, job = self.file.records[k][:2]
        name = self.names.get(task)
        return f'"{name}", job {job} (record {k})' if name else f"record {k} (task {task}, job {job})"


# ---- the sentences ----


def busy_throughout(file, core, start, end):
    """Whether the core runs some record at each instant from start to end."""
    for _, _, _, begun, over, _ in sorted((record for record in file.records if record[5] == core), key=lambda record: record[3]):
        start = over if begun <= start < over else start
    return start >= end


def link_lines(reasons, k, subject):
    """The lines that say why record k began, each as its kind and what stands in it."""
    file, (kind, cause) = reasons.file, reasons.cause(k)
    _, _, release, start, _, core = file.records[k]
    if kind == "released":
        yield kind, subject, start
        return
    ran = file.records[cause][3:5]
    if kind == "preceding":
        yield kind, subject, start, reasons.called(cause), *ran
        return
    yield kind, subject, start, core, reasons.called(cause), *ran
    yield "busy" if file.ready(k) == release else "busy in turn", file.ready(k), start
    cores = range(1, file.setting[0] + 1)
    hold(all(busy_throughout(file, each, file.ready(k), start) for each in cores), f"a core was free before record {k} began")
    due, others = file.deadline(file.records[k]), file.deadline(file.records[cause])
    if due < others:
        yield "sooner", due, others, ran[0], file.ready(k)
        hold(ran[0] < file.ready(k), f"record {cause} had not begun before record {k} was ready")


def sum_of(file, chain):
    """The first release, the lengths from there on, and what they add up to."""
    lengths = [file.records[k][4] - file.records[k][3] for k in reversed(chain)]
    first, end = file.records[chain[-1]][2], file.records[chain[0]][4]
    hold(first + sum(lengths) == end, f"the chain of record {chain[0]} does not add up")
    return first, lengths, end


def reason_lines(reasons, k):
    file, chain = reasons.file, reasons.chain(k)
    _, _, release, start, end, _ = file.records[k]
    due, horizon = file.deadline(file.records[k]), file.setting[1]
    yield "late", reasons.called(k), release, due, start, end, end - due, "tick" if end - due == 1 else "ticks"
    yield "stays" if start < horizon else "may change", horizon
    for link in chain:
        yield from link_lines(reasons, link, "it" if link == k else reasons.called(link))
    first, lengths, _ = sum_of(file, chain)
    yield "sum", " + ".join(map(str, [first, *lengths])), end, due, end - due


def read_line(line):
    """Which kind of line it is, and what stands in it: numbers, and what a record is called."""
    read = [(kind, *(int(part) if part.isdecimal() else part for part in found.groups()))
            for kind, form in FORMS.items() if (found := form.fullmatch(line))]
    hold(len(read) == 1, f"a line that is not known: '{line}'")
    return read[0]


def hold_reason(reasons, k, paragraph):
    expected = list(reason_lines(reasons, k))
    for line, right in zip(paragraph, expected):
        hold(read_line(line) == right, f"record {k}: it says '{line}', and not {right}")
    hold(len(paragraph) == len(expected), f"record {k}: {len(paragraph)} lines, and not {len(expected)}")
    return {kind for kind, *_ in expected}


def paragraphs_of(lines):
    found = [[]]
    for line in lines:
        if line:
            found[-1].append(line)
        else:
            found.append([])
    return found


def hold_accepted(reasons, lines):
    first, *others = paragraphs_of(lines)
    late, count = reasons.late(), len(reasons.file.records)
    if late:
        right = [f"Accepted: this run obeys all rules. {len(late)} of its {count} {'record' if count == 1 else 'records'} "
                 f"{'is' if len(late) == 1 else 'are'} late."]
    else:
        right = ["Accepted: this run obeys all rules, and none of its jobs is late.", "That says nothing about other runs of these tasks."]
    hold(first == right, f"it begins with {first}")
    hold(len(others) == len(late), f"{len(others)} reasons, and {len(late)} are late")
    return set().union(*(hold_reason(reasons, k, paragraph) for k, paragraph in zip(late, others)))


def hold_explained(file, lines, status, said, names=None):
    """What 'explain' says; said is what 'say' does, which is held to the file elsewhere. Gives which kinds of line there are."""
    if status == 0:
        return hold_accepted(Reasons(file, names), lines)
    hold(lines == said + [NO_REASONS] * (status == 1), f"'explain' says {lines}, and 'say' {said}")
    return {NO_REASONS} if status == 1 else set()


# ---- the JSON ----


def job_fields(reasons, k):
    file, (task, job, release, start, end, core) = reasons.file, reasons.file.records[k]
    return {"record": k, "task": task, "job": job, "name": reasons.names.get(task), "release": release, "ready": file.ready(k), "start": start,
            "end": end, "length": end - start, "core": core, "deadline": file.deadline(file.records[k])}


def link_fields(reasons, k):
    kind, cause = reasons.cause(k)
    due = lambda number: reasons.file.deadline(reasons.file.records[number])
    return {**job_fields(reasons, k), "began": BEGAN[kind], "waited_for": cause, "due_sooner": None if cause is None else due(k) < due(cause)}


def late_fields(reasons, k, sentences):
    file, chain = reasons.file, reasons.chain(k)
    first, lengths, end = sum_of(file, chain)
    return {**job_fields(reasons, k), "late_by": file.late(file.records[k]), "begins_before_horizon": file.records[k][3] < file.setting[1],
            "chain": [link_fields(reasons, link) for link in chain], "sum": {"first_release": first, "lengths": lengths, "end": end},
            "sentences": sentences}


def rule_fields(five, sentence):
    number, place = five[1], five[2:]
    text = re.fullmatch(rf"Not permitted: rule {number} \((.*)\) is broken\.", sentence)
    pair, idle = number in (6, 7), number == 8
    return {"number": number, "text": text and text[1], "record": place[0], "other_record": place[1] if pair else None,
            "instant": place[1] if idle else None, "core": place[2] if idle else None}


def refusal_fields(five, sentence):
    text = re.fullmatch(rf"Refused: (.*) \(refusal {five[1]}\)\.", sentence)
    return {"number": five[1], "text": text and text[1], "task": five[2] if five[1] == 5 else None}


def task_fields(number, task, names):
    period, least, greatest, offset, jitter = task
    return {"task": number, "name": names.get(number), "period": period, "least": least, "greatest": greatest, "offset": offset, "jitter": jitter}


def document_of(file, lines, status, five, version, names):
    """The whole document: every key in its place."""
    first, *others = ([line.strip() for line in part] for part in paragraphs_of(lines))
    reasons, is_run = Reasons(file, names), status != 3
    return {
        "octalmure": version, "answer": five[0], "code": five[1], "place": five[2:],
        "verdict": {0: "accepted", 1: "not_permitted", 3: "refused"}[status], "sentences": first,
        "rule": rule_fields(five, first[0]) if status == 1 else None,
        "refusal": refusal_fields(five, first[0]) if status == 3 else None,
        "cores": file.setting[0] if is_run else None, "horizon": file.setting[1] if is_run else None,
        "record_count": len(file.records) if is_run else None,
        "tasks": [task_fields(i, task, names or {}) for i, task in enumerate(file.tasks)] if is_run else None,
        "late": [late_fields(reasons, k, part) for k, part in zip(reasons.late(), others)] if status == 0 else None,
    }


def hold_document(file, text, lines, status, five, version, names=None):
    """The JSON of a file, whose lines are those that 'explain' says of it without."""
    hold(text.endswith("}\n") and text.count("\n") == 1, "the document is not one line")
    expected, told = document_of(file, lines, status, five, version, names), json.loads(text)
    for key in expected:
        hold(told.get(key) == expected[key], f"'{key}' of the document is {told.get(key)}, and not {expected[key]}")
    hold(json.dumps(told) == json.dumps(expected), "the document has other keys, or in another order")


# ---- why ----


def five_of(file):
    """The five numbers of an accepted run."""
    late = [k for k, record in enumerate(file.records) if file.late(record)]
    before = [k for k in late if file.records[k][3] < file.setting[1]]
    return [1, len(late), before[0], 0, 0] if before else [2, len(late), late[0], 0, 0] if late else [0, 0, 0, 0, 0]


def hold_why(file, record, text, status, five):
    """One line: the chain of a record of an accepted run, and otherwise the refusal. The five numbers are those of a check."""
    accepted = five[0] < 3
    there = accepted and record < len(file.records)
    right = Reasons(file).chain(record) if there else [4, 20, 0, 0, 0] if accepted else [4, 10, 0, 0, 0] if five[0] == 3 else five
    hold(text == " ".join(map(str, right)) + "\n", f"why record {record}: it says {text!r}, and not {right}")
    hold(status == (0 if there else 3), f"why record {record}: status {status}")
