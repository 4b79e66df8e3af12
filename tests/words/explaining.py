"""Why and explain: the chain of every record, the sentences and the JSON document, held to the request as tests/words/reasons.py reads
it, over the examples, spoiled runs, runs that wait in every way, and runs by seed; names files, good and bad; the options."""
import json
import random
import re
import subprocess
import sys

import waits
from reasons import Run, named
from trial import ROOT, seen, text, told

KEYS = ["octalmure", "answer", "code", "place", "verdict", "sentences", "rule", "refusal", "cores", "horizon", "record_count", "tasks",
        "late"]
VERSION = re.search(r'OCTALMURE_VERSION "(.*)"', (ROOT / "include" / "octalmure.h").read_text())[1]
NO_REASONS = "No reasons are given for a run that is not permitted."
SEED, BY_SEED = 17, 30


# ---- runs by seed ----

class Server:
    """Runs made by steps: at each instant ended jobs leave, and while a core is free and a job is ready, one of those that are due
    soonest starts on any free core."""

    def __init__(self, chance):
        self.chance = chance
        self.cores, self.horizon = chance.randint(1, 3), chance.randint(8, 40)
        self.tasks = [self.task() for _ in range(chance.randint(3, 6))]
        self.jobs = [(i, j, j * task[0] + task[3] + chance.randint(0, task[4])) for i, task in enumerate(self.tasks)
                     for j in range(max(0, -(-(self.horizon - task[3]) // task[0])))]

    def task(self):
        period, least = self.chance.randint(2, 20), self.chance.randint(1, 8)
        return period, least, least + self.chance.randint(0, 6), self.chance.randint(0, 12), self.chance.randint(0, min(period - 1, 5))

    def due(self, job):
        return (job[1] + 1) * self.tasks[job[0]][0] + self.tasks[job[0]][3]

    def ready(self, job, ends, now):
        return job[2] <= now and (job[1] == 0 or ends.get((job[0], job[1] - 1), now + 1) <= now)

    def records(self):
        waiting, ends, busy, records, now = list(self.jobs), {}, {}, [], 0
        while waiting:
            free = [core for core in range(1, self.cores + 1) if busy.get(core, 0) <= now]
            while free and (ready := [job for job in waiting if self.ready(job, ends, now)]):
                soonest = min(map(self.due, ready))
                job = self.chance.choice([job for job in ready if self.due(job) == soonest])
                core = free.pop(self.chance.randrange(len(free)))
                busy[core] = ends[job[:2]] = now + self.chance.randint(*self.tasks[job[0]][1:3])
                waiting.remove(job)
                records.append((*job, now, busy[core], core))
            now += 1
        return sorted(records)

    def run(self):
        return waits.run(self.cores, self.horizon, self.tasks, self.records())


# ---- what must be said ----

def five(run):
    """The five numbers of an accepted run."""
    late = sorted(run.late())
    before = [k for k in late if run.records[k].start < run.horizon]
    return [1, len(late), before[0], 0, 0] if before else [2, len(late), late[0], 0, 0] if late else [0] * 5


def accepted(run):
    answer, code, *place = five(run)
    return {"answer": answer, "code": code, "place": place, "verdict": "accepted", "sentences": run.verdict(), "rule": None,
            "refusal": None, **run.facts(), "late": [run.late_facts(k) for k in run.late()]}


def rule_facts(rule, words, place):
    """The place by the names of its numbers, as docs/FORMAT.md lists them."""
    record, second, third = place
    return {"number": rule, "text": words, "record": record, "other_record": second if rule in (6, 7) else None,
            "instant": second if rule == 8 else None, "core": third if rule == 8 else None}


def other(line, said, content, names):
    """Of a run that is not accepted: what check and say tell."""
    answer, code, *place = map(int, line.split())
    words = re.search(r"\((.*)\) is broken\.$" if answer == 3 else r"^Refused: (.*) \(refusal \d+\)\.$", said[0])[1]
    common = {"answer": answer, "code": code, "place": place}
    if answer == 4:
        nothing = dict.fromkeys(("cores", "horizon", "record_count", "tasks", "late"))
        refusal = {"number": code, "text": words, "task": place[0] if code == 5 else None}
        return {**common, "verdict": "refused", "sentences": said, "rule": None, "refusal": refusal, **nothing}
    run = Run(content, names)
    return {**common, "verdict": "not_permitted", "sentences": [*named(said, run), NO_REASONS], "rule": rule_facts(code, words, place),
            "refusal": None, **run.facts(), "late": None}


def document(done):
    """The document, if it is one on a line of its own, and in UTF-8."""
    try:
        return json.loads(done.stdout) if done.stdout.endswith(b"\n") and done.stdout.count(b"\n") == 1 else None
    except ValueError:
        return None


def same(done, wanted, status):
    """Whether this is the document, with its keys in order."""
    got = document(done)
    return told(done, status, None, "") and got == {"octalmure": VERSION, **wanted} and list(got) == KEYS


def explained(room, path, names=None, given=()):
    """Both forms of one file; the names are those that the options give."""
    content = path.read_bytes()
    line = text(room.run("check", path).stdout)
    status = {"3": 1, "4": 3}.get(line[0], 0)
    if status == 0:
        run = Run(content, names)
        wanted, whole = accepted(run), run.text()
    else:
        wanted = other(line, text(room.run("say", path).stdout).splitlines(), content, names)
        whole = "".join(sentence + "\n" for sentence in wanted["sentences"])
    done = room.run("explain", path, *given)
    yield f"explain {path.name} {given}: {seen(done)}", told(done, status, whole.encode(), "")
    done = room.run("explain", *given, "--json", path)
    yield f"explain --json {path.name} {given}: {seen(done)}", same(done, wanted, status)


def chains(room, path, every=1):
    """The chain of each record, or of some, and of the first that there is not."""
    run = Run(path.read_bytes())
    for k in range(0, len(run.records), every):
        done = room.run("why", path, k)
        wanted = " ".join(map(str, run.chain(k))) + "\n"
        yield f"why {path.name} {k}: {seen(done)}", told(done, 0, wanted.encode(), "")
    done = room.run("why", path, len(run.records))
    yield f"why {path.name}, one more than there are: {seen(done)}", told(done, 3, b"4 20 0 0 0\n", "")


# ---- the parts ----

def runs(room, place):
    """Every kind of run: each form, and chains."""
    subprocess.run([sys.executable, "-B", ROOT / "tests" / "words" / "spoil.py", room.runs / "c1.run", place], check=True)
    for path in (*sorted(room.runs.glob("*.run")), *sorted(place.glob("*.run"))):
        yield from explained(room, path)
    for name, every in (("c1", 1), ("c2", 1), ("turned", 1), ("desk", 1), ("longest", 73)):
        yield from chains(room, room.runs / f"{name}.run", every)
    for name, every in (("ties", 1), ("both", 1), ("met", 1), ("held", 1), ("sixteen", 5), ("greatest", 73)):
        yield from chains(room, place / f"{name}.run", every)
    late = 0
    for number in range(BY_SEED):
        path = place / "by-seed.run"
        path.write_bytes(Server(random.Random(f"{SEED} {number}")).run())
        yield from explained(room, path)
        late += bool(Run(path.read_bytes()).late())
    yield f"of {BY_SEED} runs by seed {late} have a late job", late > BY_SEED // 2


def refused(room, place):
    """The file's own refusals, then 10, then 20; a number that four bytes do not hold names no record."""
    for words, line in ((["c8.run", "0"], b"4 1 0 0 0\n"), (["c10.run", "9"], b"4 6 0 0 0\n"), (["c5.run", "0"], b"4 10 0 0 0\n"),
                        (["c5.run", "4"], b"4 10 0 0 0\n"), (["beside.run", "99"], b"4 10 0 0 0\n"), (["c11.run", "0"], b"4 20 0 0 0\n"),
                        (["c1.run", "5"], b"4 20 0 0 0\n"), (["c1.run", "4294967295"], b"4 20 0 0 0\n"),
                        (["c1.run", "4294967296"], b"4 20 0 0 0\n"), (["c1.run", "9" * 60], b"4 20 0 0 0\n")):
        done = room.run("why", *words)
        yield f"why {words}: {seen(done)}", told(done, 3, line, "")
    done = room.run("why", "c1.run", "0" * 40 + "1")
    yield f"why of a number with zeros in front: {seen(done)}", told(done, 0, b"1 0 4\n", "")


def meant(content):
    """The names that a good names file gives, read by another's rules: Python's."""
    names = {}
    for line in content.decode("utf-8-sig").replace("\r\n", "\n").split("\n"):
        task, _, name = line.partition(",")
        names.update({int(task): name} if task else {})
    return names


def names(room, place):
    """Every good names file on runs of each kind, and by each way of giving it."""
    for name, content in waits.NAMES.items():
        path = place / f"{name}.names"
        yield from explained(room, room.runs / "c1.run", meant(content), ("--names", path))
    for run in ("c5", "c7", "c8", "c9", "beside"):
        yield from explained(room, room.runs / f"{run}.run", meant(waits.NAMES["every"]), (f"--names={place / 'every.names'}",))
    for run in ("rule-1-other", "rule-2", "rule-6", "rule-7", "rule-8", "rule-9", "ties", "sixteen"):
        yield from explained(room, place / f"{run}.run", meant(waits.NAMES["controls"]), ("--names", place / "controls.names"))
    desk = (room.runs / "desk.names").read_bytes()
    whole = Run((room.runs / "desk.run").read_bytes(), meant(desk)).text().encode()
    for words, given in ((["desk.run", "--names", "-"], desk), (["--names=-", "desk.run"], desk), (["--names", "desk.names", "-"], None),
                         (["--names=desk.names", "--", "desk.run"], b"")):
        done = room.run("explain", *words, input=(room.runs / "desk.run").read_bytes() if given is None else given)
        yield f"explain {words}: {seen(done)}", told(done, 0, whole, "")
    done = room.run("explain", "desk.run", "--names", "desk.names", fault="drops")
    yield f"explain in drops: {seen(done)}", told(done, 0, whole, "")


def alone(room, place):
    """A task by itself, where a file is refused."""
    for run, words, with_name in (("refusal-5", "task 1:", '"task of number 1" (task 1):'),
                                  ("cut-tasks", "inside task 2, and", 'inside "task of number 2" (task 2), and')):
        plain, called = (room.run("explain", place / f"{run}.run", *given) for given in ((), ("--names", place / "every.names")))
        wanted = text(plain.stdout).replace(words, with_name)
        yield f"explain {run}.run with names: {seen(called)}", words in text(plain.stdout) and told(called, 3, wanted.encode(), "")


def bad_names(room, place):
    """A bad names file is told, with its line, and nothing else; the trouble of FILE comes first."""
    for number, (name, (_, why)) in enumerate(waits.BAD_NAMES.items()):
        path = place / f"bad-{name}.names"
        words = (["c1.run", "--names", path], ["c8.run", "--json", f"--names={path}"])[number % 2]
        done = room.run("explain", *words)
        yield f"explain {words}: {seen(done)}", told(done, 2, b"", f"octalmure: {path}: {why}\n")
    bad = place / "bad-no-comma.names"
    for words, said in ((["nofile", "--names", bad], "octalmure: nofile: No such file or directory\n"),
                        (["nofile", "--names", "nonames"], "octalmure: nofile: No such file or directory\n"),
                        (["c1.run", "--names", "nonames"], "octalmure: nonames: No such file or directory\n"),
                        (["c1.run", "--names="], "octalmure: : No such file or directory\n"),
                        (["c1.run", "--names", "."], "octalmure: .: Is a directory\n"),
                        (["-", "--names", "-"], "octalmure: -: FILE and NAMES cannot both be standard input\n")):
        done = room.run("explain", *words)
        yield f"explain {words}: {seen(done)}", told(done, 2, b"", said)
    done = room.run("explain", "c1.run", "--names", "-", input=b"0,a\n0,b\n")
    said = "octalmure: standard input: line 2: task 0 stands on line 1 already\n"
    yield f"bad names on standard input: {seen(done)}", told(done, 2, b"", said)
    done = room.run("explain", "c1.run", "--names", "/dev/zero")
    yield f"names without end: {seen(done)}", told(done, 2, b"", "octalmure: /dev/zero: too long: a names file has at most 65,536 bytes\n")


def options(room, place):
    """Where an option may stand, and what is said of one that is wrong."""
    whole = room.run("explain", "desk.run", "--names", "desk.names", "--json").stdout
    for words in (["--json", "desk.run", "--names=desk.names"], ["--names", "desk.names", "--json", "--", "desk.run"]):
        done = room.run("explain", *words)
        yield f"explain {words}: {seen(done)}", told(done, 0, whole, "")
    for words, said in ((["explain", "c1.run", "--json", "--json"], "--json: given twice"),
                        (["explain", "c1.run", "--names", "a", "--names=b"], "--names: given twice"),
                        (["explain", "c1.run", "--names"], "--names: the name of the file is missing"),
                        (["why", "c1.run", "0", "--json"], "--json: this word takes neither --names nor --json; explain does"),
                        (["check", "--names=x", "c1.run"], "--names=x: this word takes neither --names nor --json; explain does"),
                        (["explain", "c1.run", "-o", "out"], "-o: this word writes no file, so it takes no -o"),
                        (["explain", "--", "c1.run", "--json"], "--json: more than this word takes"),
                        (["why", "c1.run", "first"], "first: no record: a whole number, counted from 0, names one")):
        done = room.run(*words)
        yield f"{words}: {seen(done)}", done.returncode == 2 and not done.stdout and text(done.stderr).startswith(f"octalmure: {said}\n")
    done = room.run("explain", "c1.run", "--json", fault="scarce")
    yield f"without memory for the sentences: {seen(done)}", told(done, 2, b"", "octalmure: memory: Cannot allocate memory\n")


def verdicts(room):
    place = room.at / "reasons"
    place.mkdir()
    waits.write(place)
    for part in (runs, refused, names, alone, bad_names, options):
        yield from part(room, place)
