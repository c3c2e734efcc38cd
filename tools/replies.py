"""A day file beside the replies to it, command by command, for the tools that draw them."""

import re
import sys


class Command:
    """A command's number, moment, verb and fields, its reply's rows, and the ids that are queued after it."""

    def __init__(self, number, line, rows, queue):
        self.number, self.line, self.rows, self.queue = number, line, rows, queue
        self.moment, self.verb, *self.fields = line.split(",") + [""] * 2

    def clock(self):
        return ":".join(re.findall("..", self.moment))


class Cycle(Command):
    """An accepted CYCLE: its numbers, the ids that it settled and those that wait on."""

    def __init__(self, *of):
        super().__init__(*of)
        _, _, self.mark, *numbers = self.rows[0].split(",")
        self.value, self.count, self.bound, self.branchings = map(int, numbers)
        self.posted = [row.split(",")[2] for row in self.rows if re.match(r"\d+,POST,", row)]


def read(day_path, replies_path):
    """All commands, and a map from the id of each accepted instruction to its fields."""
    with open(day_path, encoding="latin-1", newline="\n") as day, open(replies_path, encoding="latin-1", newline="\n") as replies:
        lines = [line.rstrip("\n").removesuffix("\r") for line in day]
        rows = {}
        number = 0
        for row in replies.read().splitlines():
            number = int(row.split(",")[0]) if re.match(r"\d+,", row) else number
            rows.setdefault(number, []).append(row)
    commands, instructions, queue = [], {}, []
    for number, line in enumerate((line for line in lines if line and not line.startswith("#")), 1):
        if number not in rows:
            sys.exit(f"{replies_path} has no reply to command {number}, {line}")
        first = rows[number][0].split(",")
        verb, *fields = (line.split(",") + [""] * 2)[1:]
        kind = Command
        if first[1] == "OK" and verb in ("DVP", "FOP", "PAY"):
            instructions[fields[0]] = [verb] + fields
            queue = queue + [fields[0]]
        elif first[1] == "OK" and verb in ("CANCEL", "SETTLE"):
            queue = [waiting for waiting in queue if waiting != fields[0]]
        elif first[1] == "CYCLE":
            kind = Cycle
            posted = {row.split(",")[2] for row in rows[number] if re.match(r"\d+,POST,", row)}
            queue = [waiting for waiting in queue if waiting not in posted]
        commands.append(kind(number, line, rows[number], queue))
    return commands, instructions


def money(centavos):
    """Centavos as units with two places."""
    return f"{centavos // 100:,}.{centavos % 100:02}"
