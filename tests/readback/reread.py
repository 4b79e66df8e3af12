"""'octalmure why' and 'octalmure explain', run on files and read back: as text with names and without, and as JSON."""
import collections
import concurrent.futures
import os
import re
import struct
import subprocess

from explained import FORMS, NO_REASONS, Reasons, five_of, hold_document, hold_explained, hold_why
from ready import ROOT
from shown import File, Wrong, hold

ACCEPTED, BROKEN, REFUSED = 0, 1, 3  # by exit status
ONCE_IN = 3  # of the files that are not accepted, and of the accepted ones with names
MOST_LATE = 200  # of more late records 'explain' says millions of bytes; their chains are read all the same
NAMES = {0: "Exposure total", 1: 'Zinsen, "täglich"', 3: "task 4, job 1", 4: "決済", 6: "7"}
VERSION = re.search(r'OCTALMURE_VERSION "(.*)"', (ROOT / "include" / "octalmure.h").read_text())[1]
TO_MEET = {*FORMS, NO_REASONS, "names", *(f"status {number}" for number in (ACCEPTED, BROKEN, REFUSED))}


def behind(room):
    """Runs of two-tick jobs, one released at each tick, so that each waits for the one before it: of one task by turns on two cores,
    through the preceding jobs; of five on one core, through the core."""
    for tasks, cores in ((1, 2), (5, 1)):
        numbers = [2, cores, 60, tasks, *(n for i in range(tasks) for n in (tasks, 2, 2, i, 0)), 60]
        for k in sorted(range(60), key=lambda k: (k % tasks, k)):
            numbers += [k % tasks, k // tasks, k, 2 * k, 2 * k + 2, 1 + k % cores]
        path = room / f"behind-{tasks}.run"
        path.write_bytes(struct.pack(f"<{len(numbers)}I", *numbers))
        yield path


class Trial:
    """A file, what 'explain' says of it, and the words that say it. Names are given for some accepted runs."""

    def __init__(self, words, path, names):
        self.words, self.path, self.file = words, path, File(path.read_bytes())
        self.more = ["--names", names] if names else []
        self.names = NAMES if names else {}
        late = sum(self.file.late(record) > 0 for record in self.file.records)
        text, self.status = self.run("explain", *self.more) if late <= MOST_LATE else (None, self.run("check")[1])
        self.lines = None if text is None else text.splitlines()
        self.five = five_of(self.file) if self.status == ACCEPTED else [int(number) for number in self.run("check")[0].split()]

    def run(self, word, *more):
        """What a word prints of the file, and its exit status."""
        ended = subprocess.run([*self.words, word, str(self.path), *map(str, more)], capture_output=True)
        hold(ended.returncode in (ACCEPTED, BROKEN, REFUSED) and not ended.stderr, f"status {ended.returncode}, {ended.stderr!r}")
        return ended.stdout.decode(), ended.returncode

    def explain(self):
        """The text and the JSON held to the file; gives which kinds of line there are."""
        said = [] if self.status == ACCEPTED else self.run("say")[0].splitlines()
        met = hold_explained(self.file, self.lines, self.status, said, self.names)
        text, status = self.run("explain", *self.more, "--json")
        hold(status == self.status, f"as JSON it ends with status {status}")
        hold_document(self.file, text, self.lines, self.status, self.five, VERSION, self.names)
        return met | ({"names"} if any(f'"{name}"' in line for line in self.lines for name in NAMES.values()) else set())

    def why(self, number):
        """The record with the longest chain, and one that there is not, or may not be: another for each file."""
        records = [(number % 3, len(self.file.records), len(self.file.records) + 1, 2**32 - 1)[number % 4]]
        if self.status == ACCEPTED and self.file.records:
            reasons = Reasons(self.file)
            records.append(max(range(len(self.file.records)), key=lambda k: len(reasons.chain(k))))
        for record in records:
            hold_why(self.file, record, *self.run("why", record), self.five)


def try_file(words, path, number, names):
    """A verdict, and what was met. Most files that are not accepted are left out: None. For the others names are no matter."""
    try:
        trial = Trial(words, path, names if number % ONCE_IN == 0 else None)
        if trial.status != ACCEPTED and number % ONCE_IN:
            return None
        if trial.status != ACCEPTED:
            trial = Trial(words, path, None)
        met = {f"status {trial.status}"} | (trial.explain() if trial.lines is not None else set())
        trial.why(number)
        return (path.name, True), met
    except Wrong as why:
        return (f"{path.name}: {why}", False), set()


def reasons_read_back(words, room, paths):
    """The verdicts on these files, and on runs with long chains; and whether everything was met that can be said."""
    names, paths = room / "names", [*behind(room), *paths]
    names.write_text("".join(f"{task},{name}\n" for task, name in NAMES.items()), encoding="utf-8")
    with concurrent.futures.ThreadPoolExecutor(max(2, os.cpu_count() or 2)) as pool:
        held = [each for each in pool.map(lambda at: try_file(words, at[1], at[0], names), enumerate(paths)) if each is not None]
    met = collections.Counter(what for _, each in held for what in each)
    print(f"reasons: {len(held)} files; " + ", ".join(f"{what}: {met[what]}" for what in sorted(TO_MEET)))
    yield from (verdict for verdict, _ in held)
    yield from ((f"'{what}' was not met", met[what] > 0) for what in sorted(TO_MEET))
