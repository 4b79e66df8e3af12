"""The picture of 'octalmure show' read back, by what its legend says: a line for each core, H, and the deadlines."""
import re

from shown import hold

BAR = re.compile(r"\[(?:\d+\.\d+)?=*\]|\{(?:\d+\.\d+)?=*\}|#|!")


class Scale:
    """From the ruler and the legend: which column an instant has. A tick has 'wide' columns, or a column 'ticks' ticks."""

    def __init__(self, numbers, ruler, legend):
        told = re.match(r"Each (?:tick is (\d+) columns|column is (\d+) ticks?)\. ", legend)
        hold(told, f"the legend begins with '{legend}'")
        self.wide, self.ticks = int(told[1] or 1), int(told[2] or 1)
        self.margin = len(ruler) - len(ruler.lstrip())
        self.columns = len(ruler) - self.margin
        hold(re.fullmatch(r" +\+[-+]*", ruler), f"the ruler is '{ruler}'")
        labels = [(each.start() - self.margin, int(each.group())) for each in re.finditer(r"\d+", numbers)]
        hold(labels and labels[0][0] == 0, "no number at the ruler's front")
        self.first = labels[0][1]
        for column, instant in labels:
            hold(self.column(instant) == column and ruler[self.margin + column] == "+", f"{instant} does not stand where it is")
        hold(not re.search(r"\d", numbers[: self.margin]), "a number before the ruler")

    def column(self, instant):
        return (instant - self.first) * self.wide // self.ticks

    def end(self, instant):
        """The first column that has nothing of what ends at this instant."""
        return -(-(instant - self.first) * self.wide // self.ticks)

    def span(self, record):
        return range(self.column(record[3]), self.end(record[4]))


def bar(record, width, late):
    """A record alone in its columns."""
    label = f"{record[0]}.{record[1]}"
    if width == 1:
        return "!" if late else "#"
    inside = label.ljust(width - 2, "=") if len(label) <= width - 2 else "=" * (width - 2)
    return f"{{{inside}}}" if late else f"[{inside}]"


def hold_bars(line, spans, scale, horizon, where):
    """The columns that the bars of the line cover are exactly those of the records, each alone in its own."""
    covered = {column for each in BAR.finditer(line) for column in range(each.start(), each.end())}
    hold(covered == {column for span, _ in spans for column in span}, f"{where}: other columns are covered")
    for span, drawn in spans:
        hold(line[span.start : span.stop] == drawn, f"{where}: '{line[span.start : span.stop]}', and not '{drawn}'")
    for column in set(range(scale.columns)) - covered:
        hold(line[column] == ("|" if column == horizon else "."), f"{where}: '{line[column]}' where nothing runs")


def hold_shared(line, spans, scale, horizon, where):
    """Where records share columns: how many there are in each, as far as the line says it. A name has a dot in it, too."""
    for column in range(scale.columns):
        there = sum(column in span for span, _ in spans)
        none = "|" if column == horizon else "."
        right = line[column] == none if there == 0 else line[column] == "*" if there > 1 else line[column] not in "*| "
        hold(right, f"{where}: '{line[column]}' in column {column}, which {there} have")


def hold_core(line, file, core, accepted, scale):
    own = [record for record in file.records if record[5] == core and file.drawn(record)]
    spans = [(scale.span(record), bar(record, len(scale.span(record)), accepted and file.late(record) > 0)) for record in own]
    where, horizon = f"core {core}", scale.column(file.setting[1])
    hold(line.startswith(where + " ") and len(line) == scale.margin + scale.columns, f"{where}: the line is '{line}'")
    columns = [column for span, _ in spans for column in span]
    alone = len(columns) == len(set(columns))
    (hold_bars if alone else hold_shared)(line[scale.margin :], spans, scale, horizon, where)
    return own


def hold_due(line, file, own, accepted, scale, where):
    """'^' or '!' exactly at the deadlines that the ruler reaches, '<' before it and '>' behind it if one is not among them, and
    names beside marks."""
    hold(re.match(r"  due *<?", line[: scale.margin]), f"{where}: no line of deadlines")
    text = line[scale.margin :].ljust(scale.columns + 1)
    due, late, before, beyond, open_ended = {}, set(), False, False, False
    for record in own:
        deadline = file.deadline(record)
        if deadline is None:
            continue
        column = scale.column(deadline)
        if column < 0:
            before = True
        elif column >= scale.columns:
            beyond = True
        elif column == scale.columns - 1 and scale.ticks > 1:
            open_ended = True  # the last column may end before its last tick
        else:
            due.setdefault(column, []).append(record)
            late |= {column} if accepted and file.late(record) else set()
    last = {scale.columns - 1} if open_ended else set()
    marks = {column for column, mark in enumerate(text) if mark in "^!"}
    hold(marks - last == set(due) - last, f"{where}: deadlines at {sorted(marks)}, and not at {sorted(due)}")
    hold({column for column in marks if text[column] == "!"} - last == late - last, f"{where}: other late ones are marked")
    hold((line[scale.margin - 1] == "<") == before, f"{where}: '{line[scale.margin - 1]}' before the first column")
    hold(open_ended or (text[scale.columns] == ">") == beyond, f"{where}: '{text[scale.columns]}' behind the last column")
    hold_names(text, due, scale, where)


def hold_names(text, due, scale, where):
    """A name stands beside the mark of the one record that is due there."""
    jobs = {column: [f"{record[0]}.{record[1]}" for record in records] for column, records in due.items()}
    for each in re.finditer(r"\d+\.\d+", text):
        beside = [jobs[column] for column in (each.start() - 1, each.end()) if column in jobs]
        hold([each.group()] in beside or scale.ticks > 1, f"{where}: {each.group()} is due elsewhere")
    hold(re.fullmatch(r"[\d. ^!]*[> ]", text[: scale.columns + 1]), f"{where}: something else among the deadlines: '{text}'")


def hold_picture(file, shown, accepted):
    """All of it. Gives the scale."""
    lines, cores = shown.picture, file.setting[0]
    legend = 3 + 2 * cores
    hold(len(lines) > legend, "the picture is cut short")
    scale = Scale(lines[0], lines[1], lines[legend])
    hold(lines[2].rstrip() == " " * (scale.margin + scale.column(file.setting[1])) + "H", "H stands elsewhere")
    for core in range(1, cores + 1):
        own = hold_core(lines[1 + 2 * core], file, core, accepted, scale)
        hold_due(lines[2 + 2 * core], file, own, accepted, scale, f"core {core}")
    undrawn = [int(number) for number in re.findall(r"^Record (\d+) is not drawn:", "\n".join(lines[legend:]), re.M)]
    hold(undrawn == [k for k, record in enumerate(file.records) if not file.drawn(record)], f"{undrawn} are said not to be drawn")
    return scale
