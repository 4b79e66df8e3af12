"""Trace: the document read in its own way and held to the file, event by event and number by number, over the examples, spoiled runs,
runs that wait in every way, runs by seed and runs of any numbers; hostile names; files that are refused; OUT."""
import collections
import json
import random
import re
import struct
import subprocess
import sys

import waits
from explaining import Server, VERSION, meant
from reasons import Run
from trial import ROOT, contents, seen, text, told

SEED, BY_SEED, WILD, TOP = 23, 20, 80, 2**32 - 1
OLD = b"what stood there\n"
CONTROL = re.compile("[\0-\x09\x0b-\x1f\x7f-\x9f]")
HOSTILE = {
    "markup": "0,</script><script>alert(1)</script>\n1,<!-- ]]> &amp; -->\n2,' onload='x\n3,\\u003c/script\\u003e\n",
    "quotes": '0,"\n1,\\\n2,\\"\n3,", "ph": "M"}], "x": [{"y": "\n4,\\',
    "formats": "0,%s%n%d\n1,100 %\n2,{0}\n3,$(x) `x`\n",
    "long": "0," + "x" * 10000 + "\n2," + "\\" * 10000 + "\n",
    "right-to-left": "0,\u202eelbuort\n1,\u05e9\u05dc\u05d5\u05dd, \u05e2\u05d5\u05dc\u05dd\n2,\u0645\u062c\u0645\u0648\u0639\u200f\n3,\u2066a\u2069 \u202cb\n",
    "separators": "0,a\u2028b\n1,\u2029\n2,\ufeff\n3,\U0010ffff \ufffe\n",
    "numbers": "0,0\n1,null\n2,job\n3,task 0, job 0\n",
}
TO_MEET = {*(f"rule {rule}" for rule in range(1, 10)), "none late", "late before H", "late from H", "a wait", "no record", "no such task",
           "a core 0", "a core above N", "an end before its start", "a start before its job is ready", "a deadline above 2^51",
           "the greatest instant"}


# ---- the document, read strictly ----

def members(pairs):
    """An object, none of whose keys stands there twice."""
    if len(dict(pairs)) != len(pairs):
        raise ValueError("a key stands there twice")
    return dict(pairs)


def not_whole(number):
    raise ValueError(f"{number} is no whole number")


def parsed(content):
    """The document, in UTF-8, with whole numbers only. What is wrong with one stands in its place."""
    try:
        return json.loads(content.decode(), object_pairs_hook=members, parse_float=not_whole, parse_constant=not_whole)
    except ValueError as why:
        return str(why)


def exact(value):
    """So written, true is not 1 and a number in a string is none."""
    return json.dumps(value, sort_keys=True)


# ---- what must stand in it ----

def called(run, k):
    record = run.records[k]
    return f"{run.names.get(record.task) or f'task {record.task}'}, job {record.job}"


def known(run, answer, k):
    """The record's numbers and what follows from them, by their names."""
    record, accepted = run.records[k], answer[0] <= 2
    deadline = run.deadline(k) if record.task < len(run.tasks) else None
    ready = run.ready(k) if accepted or answer[1] > 1 else None
    late = max(0, record.end - deadline) if accepted else None
    return {"record": k, **record._asdict(), "ready": ready, "deadline": deadline, "late_by": late}


def of_record(run, answer, k):
    """The events of one record."""
    record, name, args = run.records[k], called(run, k), known(run, answer, k)
    ready, deadline = args["ready"], args["deadline"]
    yield {"ph": "X", "cat": "job,late" if args["late_by"] else "job", "name": name, "pid": 1, "tid": record.core, "ts": record.start,
           "dur": max(0, record.end - record.start), "args": args}
    if ready is not None and ready < record.start:
        for ph, ts in (("b", ready), ("e", record.start)):
            yield {"ph": ph, "cat": "wait", "name": name, "id": k, "pid": 2, "tid": record.core, "ts": ts}
    if deadline is not None:
        yield {"ph": "i", "s": "t", "cat": "deadline", "name": f"due: {name}", "pid": 1, "tid": record.core, "ts": deadline,
               "args": {"record": k}}


def lanes(run):
    for pid, name in ((1, "cores"), (2, "waiting")):
        yield {"ph": "M", "name": "process_name", "pid": pid, "args": {"name": name}}
    for core in range(1, run.cores + 1):
        yield {"ph": "M", "name": "thread_name", "pid": 1, "tid": core, "args": {"name": f"core {core}"}}
        yield {"ph": "M", "name": "thread_sort_index", "pid": 1, "tid": core, "args": {"sort_index": core}}


def all_events(run, answer):
    yield from lanes(run)
    yield {"ph": "i", "s": "g", "cat": "horizon", "name": f"H = {run.horizon}", "pid": 1, "tid": 1, "ts": run.horizon}
    for k in range(len(run.records)):
        yield from of_record(run, answer, k)


def differs(got, wanted):
    """The first event that is not as it must be; None if all are."""
    pairs = zip(map(exact, got), map(exact, wanted))
    first = next((f"event {i} is {a[:300]} and not {b[:300]}" for i, (a, b) in enumerate(pairs) if a != b), None)
    return first or (f"{len(got)} events and not {len(wanted)}" if len(got) != len(wanted) else None)


# ---- one trace held to its file ----

def recorded(events):
    """The records as a run file has them, from the bars alone."""
    bars = [event["args"] for event in events if event["ph"] == "X"]
    numbers = [bar[key] for bar in bars for key in ("task", "job", "release", "start", "end", "core")]
    return struct.pack(f"<{1 + len(numbers)}I", len(bars), *numbers)


def counted(run, answer, events):
    """How many there are of each kind, told by the file, and of late bars by the check."""
    count = collections.Counter((event["ph"], event.get("cat")) for event in events)
    late = answer[1] if answer[0] in (1, 2) else 0
    due = sum(record.task < len(run.tasks) for record in run.records)
    waited = count["b", "wait"]
    fixed = {("M", None): 2 + 2 * run.cores, ("i", "horizon"): 1, ("i", "deadline"): due, ("X", "job,late"): late,
             ("X", "job"): len(run.records) - late, ("b", "wait"): waited, ("e", "wait"): waited}
    return count == collections.Counter({kind: number for kind, number in fixed.items() if number})


def in_lines(content, events):
    """Whether each event stands on a line of its own, between a first and a last line, and no control character anywhere."""
    lines = content.decode().split("\n")
    alone = [parsed(line.removesuffix(",").encode()) for line in lines[1:-2]]
    return lines[0] == '{"traceEvents": [' and lines[-1] == "" and alone == events and not CONTROL.search(content.decode())


def held(content, file, answer, names, what):
    """A document, held to the bytes of its file and to what the check answers."""
    run, document = Run(file, names), parsed(content)
    shaped = isinstance(document, dict) and list(document) == ["traceEvents", "otherData"]
    yield f"{what}: no such document: {document if isinstance(document, str) else str(document)[:300]}", shaped
    if not shaped:
        return
    events, other = document["traceEvents"], document["otherData"]
    wrong = differs(events, list(all_events(run, answer)))
    yield f"{what}: {wrong}", wrong is None
    wanted = {"octalmure": VERSION, "tick": "1 us", "cores": run.cores, "horizon": run.horizon, "answer": answer}
    yield f"{what}: otherData is {other}", exact(other) == exact(wanted) and list(other) == list(wanted)
    if wrong is None:
        yield f"{what}: the records cannot be had back", file.endswith(recorded(events))
        yield f"{what}: the events are not as many as they should be", counted(run, answer, events)
        yield f"{what}: not one event on each line", in_lines(content, events)


def kinds(run, answer):
    """What of TO_MEET this run has."""
    yield ("none late", "late before H", "late from H", f"rule {answer[1]}")[answer[0]]
    yield from ["no record"] * (not run.records)
    for k, record in enumerate(run.records):
        facts = known(run, answer, k)
        ready = record.start if facts["ready"] is None else facts["ready"]
        for kind, there in (("a wait", ready < record.start), ("a start before its job is ready", ready > record.start),
                            ("no such task", facts["deadline"] is None), ("a core 0", record.core == 0),
                            ("a core above N", record.core > run.cores), ("an end before its start", record.end < record.start),
                            ("a deadline above 2^51", (facts["deadline"] or 0) > 2**51),
                            ("the greatest instant", TOP in (record.start, record.end))):
            yield from [kind] * there


def answer_of(room, path):
    return [int(number) for number in text(room.run("check", path).stdout).split()]


def traced(room, path, met, names=None, given=()):
    """One file, of any kind, with the names that the options give."""
    answer = answer_of(room, path)
    done = room.run("trace", path, *given)
    what = f"trace {path.name} {given}"
    if answer[0] == 4:
        line = " ".join(map(str, answer)) + "\n"
        yield f"{what}: {seen(done)}", told(done, 3, line.encode(), "")
        return
    yield f"{what}: {seen(done)}", told(done, 1 if answer[0] == 3 else 0, None, "")
    yield from held(done.stdout, path.read_bytes(), answer, names, what)
    met.update(kinds(Run(path.read_bytes()), answer))


# ---- runs of any numbers ----

def wild(chance):
    """An allowed setting and allowed tasks; records of any four-byte numbers, of the jobs that there are, or of any."""
    number = lambda: chance.choice((0, 1, chance.randrange(9), chance.randrange(80), chance.randrange(10**6), chance.randint(0, TOP), TOP))
    cores, horizon = chance.randint(1, 16), chance.randint(1, 60)
    tasks = [(chance.choice((chance.randint(4, 30), 10**6)), 1, 9, chance.randrange(40), 0) for _ in range(chance.randint(1, 6))]
    if chance.randrange(2):
        jobs = [(i, j) for i, task in enumerate(tasks) for j in range(max(0, -(-(horizon - task[3]) // task[0])))]
    else:
        jobs = [(chance.choice((chance.randrange(8), number())), number()) for _ in range(chance.randrange(12))]
    return waits.run(cores, horizon, tasks, [(*job, *(number() for _ in range(3)), chance.choice((number(), chance.randint(1, cores))))
                                             for job in jobs])


# ---- the parts ----

def runs(room, place):
    """Every kind of run; all that there are to meet are met."""
    met = set()
    for path in (*sorted(room.runs.glob("*.run")), *sorted(place.glob("*.run"))):
        yield from traced(room, path, met)
    for make, count in ((lambda chance: Server(chance).run(), BY_SEED), (wild, WILD)):
        for number in range(count):
            path = place / "made.run"
            path.write_bytes(make(random.Random(f"{SEED} {number}")))
            yield from traced(room, path, met)
    yield from ((f"{what} was not met", what in met) for what in sorted(TO_MEET))


def names(room, place):
    """Every names file, friendly or hostile, on runs of each kind and by each way of giving it."""
    for name, content in HOSTILE.items():
        (place / f"hostile-{name}.names").write_bytes(content.encode())
    for path in (*(place / f"{name}.names" for name in waits.NAMES), *sorted(place.glob("hostile-*.names"))):
        for run in (room.runs / "c1.run", place / "rule-8.run"):
            yield from traced(room, run, set(), meant(path.read_bytes()), ("--names", path))
    for run in ("rule-1-other", "top", "sixteen", "greatest", "refusal-5", "made"):
        yield from traced(room, place / f"{run}.run", set(), meant(waits.NAMES["every"]), (f"--names={place / 'every.names'}",))
    file, given = (room.runs / "desk.run").read_bytes(), (room.runs / "desk.names").read_bytes()
    for words, stdin in ((["desk.run", "--names", "-"], given), (["-", "--names=desk.names"], file),
                         (["--names=desk.names", "--", "-"], file)):
        done = room.run("trace", *words, input=stdin)
        yield f"trace {words}: {seen(done)}", told(done, 0, None, "")
        yield from held(done.stdout, file, answer_of(room, "desk.run"), meant(given), f"trace {words}")


def refused(room, place):
    """Of a file that is refused there is a line, and OUT is as it was."""
    out = place / "out.json"
    for path in (room.runs / "c8.run", room.runs / "c10.run", *sorted(place.glob("refusal-*.run")), *sorted(place.glob("cut-*.run"))):
        line = room.run("check", path).stdout
        for old in (None, OLD):
            if old is not None:
                out.write_bytes(old)
            done = room.run("trace", path, "-o", out, "--names", place / "every.names")
            yield f"trace {path.name} -o: {seen(done)}", told(done, 3, line, "") and line[:1] == b"4" and contents(out) == old
            out.unlink(missing_ok=True)


def into(room, place):
    """OUT is the document that standard output would get, or as it was."""
    out = place / "out.json"
    for run, status in (("c1", 0), ("c5", 1), ("c9", 0), ("c11", 0)):
        whole = room.run("trace", f"{run}.run").stdout
        for old in (None, OLD):
            if old is not None:
                out.write_bytes(old)
            done = room.run("trace", f"{run}.run", "-o", out)
            yield f"trace {run}.run -o: {seen(done)}", told(done, status, b"", "") and whole and contents(out) == whole
            out.unlink(missing_ok=True)
        for words in (["-o", "-"], ["-o-"], ["-"]):
            done = room.run("trace", *words, *[f"{run}.run"] * (words != ["-"]), input=(room.runs / f"{run}.run").read_bytes())
            yield f"trace {words} of {run}.run: {seen(done)}", told(done, status, whole, "")
    out.write_bytes(OLD)
    for fault, what, why in (("write", out, "No space left on device"), ("rename", out, "Invalid cross-device link"),
                             ("memory", "memory", "Cannot allocate memory"), ("read", "c9.run", "Input/output error")):
        done = room.run("trace", "c9.run", "-o", out, fault=fault)
        yield f"trace -o, {fault} fails: {seen(done)}", told(done, 2, b"", f"octalmure: {what}: {why}\n") and contents(out) == OLD
    done = room.run("trace", "c9.run", fault="drops")
    yield f"trace in drops: {seen(done)}", told(done, 0, room.run("trace", "c9.run").stdout, "")


def trouble(room, place):
    """What cannot be read, and bad names: nothing is written, neither on standard output nor to OUT."""
    out = place / "out.json"
    out.write_bytes(OLD)
    bad = [((["c1.run", "c5.run", "c8.run"][i % 3], "--names", place / f"bad-{name}.names"), f"{place / f'bad-{name}.names'}: {why}")
           for i, (name, (_, why)) in enumerate(waits.BAD_NAMES.items())]
    for words, said in (*bad, (["nofile"], "nofile: No such file or directory"), (["."], ".: Is a directory"),
                        (["nofile", "--names", "nonames"], "nofile: No such file or directory"),
                        (["c1.run", "--names", "nonames"], "nonames: No such file or directory"),
                        (["-", "--names", "-"], "-: FILE and NAMES cannot both be standard input")):
        done = room.run("trace", *words, "-o", out)
        yield f"trace {words}: {seen(done)}", told(done, 2, b"", f"octalmure: {said}\n") and contents(out) == OLD


def verdicts(room):
    place = room.at / "traces"
    place.mkdir()
    waits.write(place)
    subprocess.run([sys.executable, "-B", ROOT / "tests" / "words" / "spoil.py", room.runs / "c1.run", place], check=True)
    for part in (runs, names, refused, into, trouble):
        yield from part(room, place)
