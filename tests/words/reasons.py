"""Request 4 read in its own way, in Python: the causes of a run's records, and what 'octalmure explain' has to say of an accepted run, in
sentences and as JSON. Nothing here is taken from the host or the library but the wording."""
import collections
import re
import struct

Record = collections.namedtuple("Record", "task job release start end core")
Task = collections.namedtuple("Task", "period least greatest offset jitter")
NAMED = re.compile(r"record (\d+) \(task (\d+), job (\d+)\)")
JOB = ("release", "ready", "start", "end", "length", "core", "deadline")


class Run:
    """A file that is not refused, and the names of its tasks, by their numbers."""

    def __init__(self, content, names=None):
        numbers = struct.unpack(f"<{len(content) // 4}I", content)
        _, self.cores, self.horizon, tasks = numbers[:4]
        at = 4 + 5 * tasks
        self.tasks = [Task(*numbers[i:i + 5]) for i in range(4, at, 5)]
        self.records = [Record(*numbers[i:i + 6]) for i in range(at + 1, len(numbers), 6)]
        self.names = names or {}
        self.where = {(record.task, record.job): k for k, record in enumerate(self.records)}
        self.ended = {(record.core, record.end): k for k, record in enumerate(self.records)}

    def deadline(self, k):
        record, task = self.records[k], self.tasks[self.records[k].task]
        return (record.job + 1) * task.period + task.offset

    def preceding(self, k):
        """The record of the job before, or None."""
        return self.where.get((self.records[k].task, self.records[k].job - 1))

    def ready(self, k):
        before = self.preceding(k)
        return self.records[k].release if before is None else max(self.records[k].release, self.records[before].end)

    def cause(self, k):
        """The record whose end this one waited for, and how it is told; None at the end of the chain."""
        record, before = self.records[k], self.preceding(k)
        if record.start == record.release:
            return None, "at_release"
        if before is not None and self.records[before].end == record.start:
            return before, "after_preceding_job"
        return self.ended[record.core, record.start], "after_job_on_core"

    def chain(self, k):
        while k is not None:
            yield k
            k, _ = self.cause(k)

    def late(self):
        """Late means e > deadline; soonest deadline first, then by number."""
        return sorted((k for k, record in enumerate(self.records) if record.end > self.deadline(k)), key=lambda k: (self.deadline(k), k))

    # ---- in sentences ----

    def visible(self, task):
        """A name as a sentence shows it: each control character as '?'."""
        name = self.names.get(task)
        return name and "".join("?" if ord(c) < 32 or 127 <= ord(c) < 160 else c for c in name)

    def called(self, k):
        record = self.records[k]
        name = self.visible(record.task)
        return f'"{name}", job {record.job} (record {k})' if name else f"record {k} (task {record.task}, job {record.job})"

    def link(self, k, subject):
        record = self.records[k]
        other, how = self.cause(k)
        why = f"  Why {subject} began at {record.start}: "
        if how == "at_release":
            yield why + "it was released then."
            return
        ran = f"ran from {self.records[other].start} to {self.records[other].end}."
        if how == "after_preceding_job":
            yield why + f"it waited for its own preceding job, {self.called(other)}, which {ran}"
            return
        yield why + f"it waited for core {record.core}, on which {self.called(other)} {ran}"
        held = "its preceding job had ended and " if self.ready(k) > record.release else ""
        yield f"    Every core was busy from {self.ready(k)}, when {held}it was ready, to {record.start}."
        if self.deadline(k) < self.deadline(other):
            yield (f"    It was due at {self.deadline(k)}, sooner than the other, which was due at {self.deadline(other)}; but the other "
                   f"had begun at {self.records[other].start}, before this one was ready at {self.ready(k)}.")

    def reason(self, k):
        """The lines of a late record."""
        record, due, chain = self.records[k], self.deadline(k), list(self.chain(k))
        by = record.end - due
        yield (f"Late: {self.called(k)} was released at {record.release} and due at {due}; it began at {record.start} and ended at "
               f"{record.end}: {by} {'tick' if by == 1 else 'ticks'} late.")
        yield (f"  It began before H = {self.horizon}: its lateness stands unchanged in every carry of this run."
               if record.start < self.horizon else f"  It did not begin before H = {self.horizon}: a carry of this run may change it.")
        for each in chain:
            yield from self.link(each, "it" if each == k else self.called(each))
        lengths = [self.records[each].end - self.records[each].start for each in chain[::-1]]
        sum_ = " + ".join(map(str, [self.records[chain[-1]].release, *lengths]))
        yield f"  The sum: {sum_} = {record.end}, due {due}: {by} late."

    def verdict(self):
        count, of = len(self.late()), len(self.records)
        if count == 0:
            return ["Accepted: this run obeys all rules, and none of its jobs is late.",
                    "That says nothing about other runs of these tasks."]
        return [f"Accepted: this run obeys all rules. {count} of its {of} {'record' if of == 1 else 'records'} "
                f"{'is' if count == 1 else 'are'} late."]

    def text(self):
        """All that is said of an accepted run."""
        lines = self.verdict()
        for k in self.late():
            lines += ["", *self.reason(k)]
        return "".join(line + "\n" for line in lines)

    # ---- as JSON ----

    def job(self, k):
        record = self.records[k]
        facts = (record.release, self.ready(k), record.start, record.end, record.end - record.start, record.core, self.deadline(k))
        return {"record": k, "task": record.task, "job": record.job, "name": self.names.get(record.task) or None, **dict(zip(JOB, facts))}

    def link_facts(self, k):
        other, how = self.cause(k)
        sooner = None if other is None else self.deadline(k) < self.deadline(other)
        return {**self.job(k), "began": how, "waited_for": other, "due_sooner": sooner}

    def late_facts(self, k):
        chain = list(self.chain(k))
        record = self.records[k]
        lengths = [self.records[each].end - self.records[each].start for each in chain[::-1]]
        return {**self.job(k), "late_by": record.end - self.deadline(k), "begins_before_horizon": record.start < self.horizon,
                "chain": [self.link_facts(each) for each in chain],
                "sum": {"first_release": self.records[chain[-1]].release, "lengths": lengths, "end": record.end},
                "sentences": [line.lstrip(" ") for line in self.reason(k)]}

    def facts(self):
        """What the document says of the run itself, whether it is accepted or not."""
        tasks = [{"task": i, "name": self.names.get(i) or None, **task._asdict()} for i, task in enumerate(self.tasks)]
        return {"cores": self.cores, "horizon": self.horizon, "record_count": len(self.records), "tasks": tasks}


def named(lines, run):
    """What 'say' says, with names: records by them, and tasks that stand alone."""
    by_name = lambda found: run.called(int(found[1]))
    alone = lambda found: f'"{run.visible(int(found[1]))}"{found[2]}' if run.visible(int(found[1])) else found[0]
    return [re.sub(r"task (\d+)(, job \d+)", alone, NAMED.sub(by_name, line)) for line in lines]
