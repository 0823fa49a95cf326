"""What replications come to: the log in which each one stands as soon as it is made, and the tables that are made of it.

Each row of the log is an object of JSON on a line of its own, so that one that was cut off while it was written is seen as such.
"""
import csv
import io
import itertools
import json
import os
import re
import typing

import student

EXITED, STOPPED, GOOD = 10, 14, (0, 10)
MOST_NUMBERS = 1_000
VERDICT = re.compile(r"(completed|exit(?P<value> .*)?|deadlock|fault (?P<fault>.*)|out of steps|stopped) at time (?P<time>-?\d+\.\d+)")
NUMBER = re.compile(r"-?\d+(\.\d+)?")
PART = re.compile(r'"(?:[^"\\]|\\.)*"|[(\[{]|[)\]}]|,|[^"()\[\]{},]+')


class Row(typing.NamedTuple):
    """A replication that was made. Its value is the place, from 0, of the arguments with which it was made."""

    value: int
    number: int
    host: str
    seconds: float
    status: int
    line: str
    numbers: list[list[str]]
    is_cut: bool


def row_of(record):
    """A row of the log, read; none where it was cut off."""
    try:
        return Row(**json.loads(record))
    except (ValueError, TypeError):
        return None


class Log:
    """The rows that are there. A row that was cut off is dropped, and made again."""

    def __init__(self, file):
        self.file, self.rows = file, {}
        self.file.seek(0)
        whole = 0
        for record in self.file:
            row = row_of(record) if record.endswith(b"\n") else None
            if row is None:
                break
            whole += len(record)
            self.rows[row.value, row.number] = row
        self.file.truncate(whole)
        self.file.seek(whole)

    def has_verdict(self, value, number):
        row = self.rows.get((value, number))
        return row is not None and VERDICT.fullmatch(row.line) is not None

    def add(self, row):
        if self.has_verdict(row.value, row.number):
            return
        try:
            self.file.write(json.dumps(row._asdict()).encode() + b"\n")
            self.file.flush()
        except OSError as error:
            error.filename = self.file.name
            raise
        self.rows[row.value, row.number] = row


def records_of(lines):
    """The rows of the records that a stream has, each when it is whole. A line that is no record is passed over."""
    for line in lines:
        parts = line.decode("utf-8", "surrogateescape").removesuffix("\n").split("\x1f")
        if len(parts) < 8 or parts[0] != "run" or parts[-1] != "end" or not line.endswith(b"\n"):
            continue
        number, value, host, spent, status, verdict, *outs = parts[1:-1]
        numbers, taken = [], 0
        for out in outs:
            cells = [cell.strip() for cell in out.split(",")]
            taken += len(cells)
            if taken <= MOST_NUMBERS:
                numbers.append(cells)
        yield Row(int(value), int(number), host, int(spent) / 1e6, int(status), verdict, numbers, taken > MOST_NUMBERS)


def parts_of(value):
    """The parts of a tuple as texts, or the value itself."""
    if not value.startswith("("):
        return [value]
    parts, depth = [""], 0
    for piece in PART.findall(value[1:-1]):
        depth += (piece in "([{") - (piece in ")]}")
        if piece == "," and depth == 0:
            parts.append("")
        else:
            parts[-1] += piece
    return [part.strip() for part in parts]


class Ending(typing.NamedTuple):
    """How a replication ended: its verdict in short, its time, and what it exited with."""

    verdict: str
    time: str
    exit: list[str]


def ending_of(row):
    found = VERDICT.fullmatch(row.line)
    if not found:
        return Ending(row.line or f"status {row.status}", "", [])
    verdict = found[1].removesuffix(found["value"] or "")
    return Ending(verdict, found["time"], parts_of(found["value"][1:]) if found["value"] else [])


def names_of(word, parts):
    """The names of columns for each thing of a kind that has so many parts: the word alone where it is one."""
    return [word] if parts == 1 else [f"{word}.{part}" for part in range(1, parts + 1)]


class Table:
    """The rows of replications of the first so many numbers, as columns of texts."""

    def __init__(self, request, rows):
        self.request = request
        self.rows = sorted(row for row in rows if row.number <= request.count)
        self.endings = [ending_of(row) for row in self.rows]
        exits = max((len(ending.exit) for ending in self.endings), default=0)
        self.widths = [max(map(len, lines)) for lines in itertools.zip_longest(*(row.numbers for row in self.rows), fillvalue=[])]
        self.exits = names_of("exit", exits) if exits else []
        self.outs = [name for line, width in enumerate(self.widths, 1) for name in names_of(f"out{line}", width)]

    def head(self):
        return ["number", "seed", *self.request.columns, "status", "verdict", "time", *self.exits, *self.outs]

    def cells(self, row, ending):
        outs = []
        for width, line in itertools.zip_longest(self.widths, row.numbers, fillvalue=[]):
            outs += [*line, *[""] * (width - len(line))]
        exits = [*ending.exit, *[""] * (len(self.exits) - len(ending.exit))]
        arguments = self.request.values[row.value]
        return [row.number, seed_of(row.number), *arguments, row.status, ending.verdict, ending.time, *exits, *outs]

    def text(self):
        return csv_text([self.head(), *map(self.cells, self.rows, self.endings)])

    def of_value(self, value):
        return [(row, ending) for row, ending in zip(self.rows, self.endings) if row.value == value]


def seed_of(number):
    """The seed of a replication. Neighbouring seeds would give streams that aren't independent."""
    return number * 11400714819323198485 % 2**64


def csv_text(rows):
    made = io.StringIO()
    csv.writer(made, lineterminator="\n").writerows(rows)
    return made.getvalue()


def is_good(row, all_stopped):
    """Whether a replication ended as it should: stopped at its stopping time only where all others were, too."""
    return row.status in GOOD or row.status == STOPPED and all_stopped


class Summary:
    """For each value the replications that ended well, those that didn't, and what each column of numbers comes to."""

    def __init__(self, table):
        self.request = table.request
        self.lines, self.bad, self.counts = [], [], []
        at = table.head().index("time")
        for value, arguments in enumerate(table.request.values):
            made = table.of_value(value)
            all_stopped = all(row.status == STOPPED for row, _ in made)
            good = [table.cells(row, ending) for row, ending in made if is_good(row, all_stopped)]
            self.bad += [(row, ending) for row, ending in made if not is_good(row, all_stopped)]
            self.counts.append((arguments, self.counted(made)))
            for column, name in enumerate(table.head()[at:], at):
                numbers = [float(cells[column]) for cells in good if NUMBER.fullmatch(cells[column])]
                if numbers:
                    self.lines.append([*arguments, name, student.spread_of(numbers)])

    @staticmethod
    def counted(made):
        counts = {}
        for _, ending in made:
            counts[ending.verdict] = counts.get(ending.verdict, 0) + 1
        return counts

    def rows(self, digits):
        yield [*self.request.columns, "column", "count", "mean", "deviation", "least", "greatest", "half width"]
        for *names, spread in self.lines:
            yield [*names, spread.count, *["" if it is None else f"{it:.{digits}g}" for it in spread[1:]]]

    def text(self):
        return csv_text(self.rows(12))

    def shown(self):
        """The summary as lines for a reader, the names to the left and the numbers to the right."""
        rows = [[str(cell) or "-" for cell in row] for row in self.rows(6)]
        widths = [max(map(len, column)) for column in zip(*rows)]
        names = len(self.request.columns) + 1
        for row in rows:
            cells = [cell.ljust(width) if at < names else cell.rjust(width) for at, (cell, width) in enumerate(zip(row, widths))]
            yield "  ".join(cells).rstrip()


def write_whole(path, text):
    """Writes a file so that it is there wholly or not at all."""
    new = f"{path}.new"
    with open(new, "w", encoding="utf-8", errors="surrogateescape", newline="") as file:
        file.write(text)
    os.replace(new, path)
