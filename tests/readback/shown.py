"""What 'octalmure show' printed, taken apart: the size, what is said, the tables, the picture. And a run file, read by itself."""
import re
import struct

CELL = re.compile(r"\S+(?: \S+)*")
MOST_BYTES, MOST_TASKS, MOST_RECORDS = 12948, 32, 512
TASK, RECORD = 5, 6


class Wrong(Exception):
    """What was printed is not what must be."""


def hold(right, why):
    if not right:
        raise Wrong(why)


class File:
    """What could be read of a file from its front on: what is missing is None, entries are the whole ones. The end is where the
    last section ends."""

    def __init__(self, data):
        self.size, data = len(data), data[: MOST_BYTES + 1]
        self.read = len(data)
        self.first = struct.unpack_from("<I", data)[0] if len(data) >= 4 else None
        self.setting = self.task_count = self.record_count = self.end = None
        self.tasks, self.records = [], []
        if len(data) < 12 or self.first != 2:
            return
        self.setting = struct.unpack_from("<2I", data, 4)
        self.task_count, self.tasks, at = self.section(data, 12, TASK, range(1, MOST_TASKS + 1))
        if at is not None:
            self.record_count, self.records, self.end = self.section(data, at, RECORD, range(MOST_RECORDS + 1))

    @staticmethod
    def section(data, at, numbers, allowed):
        """The count at a place, the whole entries behind it, and the place after all of them, None if it is not reached."""
        if len(data) < at + 4:
            return None, [], None
        (count,) = struct.unpack_from("<I", data, at)
        if count not in allowed:
            return count, [], None
        size, at = 4 * numbers, at + 4
        entries = [struct.unpack_from(f"<{numbers}I", data, at + size * k) for k in range(min(count, (len(data) - at) // size))]
        return count, entries, at + size * count if len(entries) == count else None

    def deadline(self, record):
        """(j + 1)P + O, or None for a task that there is not."""
        task, job = record[:2]
        return (job + 1) * self.tasks[task][0] + self.tasks[task][3] if task < len(self.tasks) else None

    def late(self, record):
        due = self.deadline(record)
        return max(0, record[4] - due) if due is not None else 0

    def before(self, number):
        """The number of the record of the preceding job of its task, None where there is none."""
        task, job = self.records[number][:2]
        return next((k for k, record in enumerate(self.records) if record[:2] == (task, job - 1)), None)

    def ready(self, number):
        before, release = self.before(number), self.records[number][2]
        return release if before is None else max(release, self.records[before][4])

    def busy(self, core, instant):
        return any(record[5] == core and record[3] <= instant < record[4] for record in self.records)

    def drawn(self, record):
        return 1 <= record[5] <= self.setting[0] and record[3] < record[4]


def cells(line):
    return [(each.end(), each.group()) for each in CELL.finditer(line)]


class Shown:
    """The parts of the text. A table is its title's number, and its rows with the heads first, each a list of cells; no row at all
    where there is none below the heads."""

    def __init__(self, text):
        hold(text.endswith("\n"), "the text does not end in a line feed")
        self.lines = text[:-1].split("\n")
        self.name = self.lines.pop(0)
        self.said = self.paragraph()
        self.setting = self.tasks = self.records = None
        while self.lines and re.match(r"(Setting|Tasks|Records): ", self.lines[0]):
            self.take(self.paragraph())
        self.picture = self.lines

    def paragraph(self):
        """The lines to the next blank one, which is taken too."""
        end = self.lines.index("") if "" in self.lines else len(self.lines)
        taken, self.lines = self.lines[:end], self.lines[end + 1 :]
        return taken

    def take(self, part):
        setting = re.fullmatch(r"Setting: N = (\d+), H = (\d+)", part[0])
        if setting:
            hold(len(part) == 1, "lines behind the setting")
            self.setting = (int(setting[1]), int(setting[2]))
            return
        title = re.fullmatch(r"(Tasks|Records): (\d+)(?:, of which (\d+) could be read)?", part[0])
        hold(title, f"no title of a table: {part[0]}")
        rows = [cells(line) for line in part[1:]]
        hold(all([end for end, _ in row] == [end for end, _ in rows[0]] for row in rows), "a column of a table is not aligned")
        hold(len(rows) != 1, "heads of a table without a row")
        count, told = int(title[2]), title[3] and int(title[3])
        wanted = len(rows) - 1 if 0 < len(rows) - 1 < count else None
        hold(told == wanted, f"{part[0]}, and there are {len(rows) - 1} rows")
        table = (count, [[cell for _, cell in row] for row in rows])
        setattr(self, title[1].lower(), table)


def hold_table(name, shown, count, heads, rows):
    wanted = None if count is None else (count, [heads, *rows] if rows else [])
    hold(shown == wanted, f"the {name} are not those of the file")


def hold_tables(file, shown, status):
    """The tables have exactly the numbers of the file, and what follows from them: deadlines where it is not refused, lateness where
    it is accepted."""
    hold(shown.setting == file.setting, f"the setting is {shown.setting}, and not {file.setting}")
    rows = [[str(n) for n in (k, *task)] for k, task in enumerate(file.tasks)]
    hold_table("tasks", shown.tasks, file.task_count, ["task", "P", "B", "W", "O", "J"], rows)
    heads, rows = ["record", "task", "job", "r", "s", "e", "core", "deadline", "lateness"], []
    for k, record in enumerate(file.records):
        due, late = file.deadline(record), file.late(record)
        rows.append([*(str(n) for n in (k, *record)), "no such task" if due is None else str(due),
                     f"late by {late}" if late else "in time"])
    told = {0: 9, 1: 8, 3: 7}[status]
    hold_table("records", shown.records, file.record_count, heads[:told], [row[:told] for row in rows])


def hold_said(file, shown, name, status):
    """The size, and a verdict that agrees with the exit status; who is late is counted as the table says it."""
    size = f"{file.size} bytes" if file.size <= MOST_BYTES else f"more than {MOST_BYTES} bytes"
    hold(shown.name == f"{name}: {size}", f"the first line is '{shown.name}'")
    begin = {0: "Accepted: ", 1: "Not permitted: rule ", 3: "Refused: "}[status]
    hold(shown.said and shown.said[0].startswith(begin), f"status {status}, and it says '{shown.said[:1]}'")
    hold(status == 3 or file.end == file.read, "a file that is not whole is not refused")
    if status == 0:
        late = sum(file.late(record) > 0 for record in file.records)
        counted = re.search(r" (\d+) of its (\d+) records? (?:is|are) late\.", shown.said[0])
        right = (int(counted[1]), int(counted[2])) == (late, len(file.records)) if counted else late == 0
        hold(right, f"{late} are late, and it says '{shown.said[0]}'")
