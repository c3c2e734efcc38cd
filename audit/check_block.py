#!/usr/bin/env python3
"""Judges a certificate block, slowly and plainly, by docs/FORMATS.md ('The certificate block') and docs/DEFINITIONS.md ('The
certificate') alone: audit/check_block.py [FILE]. Without a FILE it reads standard input. It prints the one line that `dali check`
prints, and ends with 0 where that is VALID, else with 1. It shares no code with the program: sums are added anew at each node,
and the best multiplier of a line is sought among the points where the Sum bends."""

import re
import sys
from collections import namedtuple

UNIT, SCALE = 10**15, 4096
# By the block's first row: an item's greatest value, its least and most effects, the greatest size of an amount, the greatest sum
# of all values, a part's greatest bound.
RANGES = {1: (UNIT, 1, 4, UNIT, 1024 * UNIT, 1024 * UNIT), 2: (128 * UNIT, 0, 32, 8 * UNIT, 16384 * UNIT, 16384 * UNIT)}
NAME = re.compile("[A-Z0-9]{1,12}")
NUMBER = re.compile("0|[1-9][0-9]{0,19}")

Part = namedtuple("Part", "bound members nodes")
# Fixes are (word, place, line); the end is BOUND, SHORT or BRANCH; `at` is the place of a branch or the line of a short end.
Node = namedtuple("Node", "fixes end at multipliers")


class Form(Exception):
    """The input is no block: the line from which it is none, counted from 1."""


class Rows:
    """The rows of the input, one after the other. What stands behind the last LF is no row."""
    def __init__(self, data):
        *self.rows, self.rest = data.decode("latin-1").split("\n")
        self.at = 0

    def want(self, good):
        """Refuses the row that was taken last, where it isn't good."""
        if not good:
            raise Form(self.at)

    def word(self):
        return self.rows[self.at].split(",")[0] if self.at < len(self.rows) else ""

    def take(self, *words):
        """The fields of the next row, whose word is one of these."""
        word = self.word()
        self.at += 1
        self.want(word in words)
        return self.rows[self.at - 1].split(",")[1:]

    def number(self, text, least, most):
        self.want(NUMBER.fullmatch(text) and least <= int(text) <= most)
        return int(text)

    def rising(self, fields, below):
        """Places or lines, each below a number, each above the one before."""
        numbers = [self.number(field, 0, below - 1) for field in fields]
        self.want(all(a < b for a, b in zip(numbers, numbers[1:])))
        return numbers

    def pairs(self, fields, below, most, signed):
        """`line:number` for each field, on rising lines, as a map from line to number; no number is 0."""
        halves = [field.partition(":") for field in fields]
        lines = self.rising([half[0] for half in halves], below)
        sizes = [self.number(text.removeprefix("-") if signed else text, 1, most) for _, _, text in halves]
        return {line: -size if text.startswith("-") else size for line, size, (_, _, text) in zip(lines, sizes, halves)}


class Block:
    """A problem (balances, values, effects), a budget and a choice (a set and parts)."""
    def __init__(self, data):
        rows = Rows(data)
        edition = rows.number(",".join(rows.take("BLOCK")), 1, 2)
        self.budget = rows.number(",".join(rows.take("BUDGET")), 0, 4096)
        self.read_problem(rows, *RANGES[edition][:5])
        self.set = set(rows.rising(rows.take("SET"), len(self.values)))
        self.parts = []
        while rows.word() == "PART":
            self.read_part(rows, RANGES[edition][5])
        rows.want(rows.take("LAST") == [])
        if rows.at < len(rows.rows) or rows.rest:
            raise Form(rows.at + 1)
        small = all(value <= UNIT and 1 <= len(effects) <= 4 and all(abs(amount) <= UNIT for amount in effects.values())
                    for value, effects in zip(self.values, self.effects))
        rows.want(edition == 1 or not small or any(part.bound > 1024 * UNIT for part in self.parts))

    def read_problem(self, rows, most_value, least_effects, most_effects, most_amount, most_sum):
        self.balances, self.values, self.effects = [], [], []
        last, ids = ("", ""), set()
        while rows.word() == "LINE":
            fields = rows.take("LINE")
            rows.want(len(fields) == 3 and all(map(NAME.fullmatch, fields[:2])) and len(self.balances) < 4096)
            rows.want(last < tuple(fields[:2]))
            last = tuple(fields[:2])
            self.balances.append(rows.number(fields[2], 0, 10**18))
        while rows.word() == "ITEM":
            fields = rows.take("ITEM")
            rows.want(2 + least_effects <= len(fields) <= 2 + most_effects and len(self.values) < 1024)
            rows.want(NAME.fullmatch(fields[0]) and fields[0] not in ids)
            ids.add(fields[0])
            self.values.append(rows.number(fields[1], 1, most_value))
            rows.want(sum(self.values) <= most_sum)
            self.effects.append(rows.pairs(fields[2:], len(self.balances), most_amount, True))

    def read_part(self, rows, most_bound):
        fields = rows.take("PART")
        rows.want(len(fields) >= 2)
        bound, members = rows.number(fields[0], 0, most_bound), rows.rising(fields[1:], len(self.values))
        rows.want(not self.parts or self.parts[-1].members[0] < members[0])
        nodes, depths = [], [0]  # the depths of the nodes that are still to come
        while depths:
            nodes.append(self.read_node(rows, depth := depths.pop()))
            depths += [depth + 1, depth + 1] if nodes[-1].end == "BRANCH" else []
        self.parts.append(Part(bound, members, nodes))

    def read_node(self, rows, depth):
        places, lines, fixes = len(self.values), len(self.balances), []
        while (word := rows.word()) in ("BARRED", "NEEDED", "SAFE"):
            fields = rows.take(word)
            rows.want(len(fields) == (1 if word == "SAFE" else 2) and len(fixes) < 1024)
            place = rows.number(fields[0], 0, places - 1)
            fixes.append((word, place, None if word == "SAFE" else rows.number(fields[1], 0, lines - 1)))
        fields = rows.take("BOUND", "SHORT", "BRANCH")
        rows.want(word == "BOUND" or len(fields) == 1 or word == "BRANCH" and fields)
        rows.want(word != "BRANCH" or depth < 1024)
        at = None if word == "BOUND" else rows.number(fields.pop(0), 0, (lines if word == "SHORT" else places) - 1)
        return Node(fixes, word, at, rows.pairs(fields, lines, 2**44, False))


class Partial:
    """Members chosen, left or undecided; for each line what it holds, and the credits and debits of undecided members on it."""
    def __init__(self, block, chosen, undecided):
        self.block, self.chosen, self.undecided = block, set(chosen), set(undecided)
        self.held = list(block.balances)
        self.credits, self.debits = [0] * len(self.held), [0] * len(self.held)
        for place in self.chosen | self.undecided:
            for line, amount in block.effects[place].items():
                (self.held if place in self.chosen else self.credits if amount > 0 else self.debits)[line] += amount

    def with_place(self, place, is_chosen):
        return Partial(self.block, self.chosen | ({place} if is_chosen else set()), self.undecided - {place})

    def short(self, line):
        return self.held[line] + self.credits[line] < 0

    def rule(self, word, place, line=None):
        """Whether a rule holds for an undecided member, with a line where it is barred or needed."""
        effects = self.block.effects[place]
        if word == "SAFE":
            return all(self.held[at] + self.debits[at] >= 0 for at, amount in effects.items() if amount < 0)
        amount = effects.get(line, 0)
        return self.held[line] + self.credits[line] + (min(amount, 0) if word == "BARRED" else -max(amount, 0)) < 0

    def after_fixes(self, fixes):
        """What the fixes lead to, or None where one doesn't hold at its point."""
        here = self
        for word, place, line in fixes:
            if place not in here.undecided or not here.rule(word, place, line):
                return None
            here = here.with_place(place, word != "BARRED")
        return here

    def any_rule(self):
        """Whether a rule holds for some undecided member with some line: one that it changes, or one that is short anyway."""
        return self.undecided and any(map(self.short, range(len(self.held)))) or any(
            self.rule("SAFE", place) or any(self.rule("BARRED", place, line) or self.rule("NEEDED", place, line)
                                            for line in self.block.effects[place]) for place in self.undecided)

    def reduced(self, place, lam):
        return SCALE * self.block.values[place] + sum(lam.get(line, 0) * d for line, d in self.block.effects[place].items())

    def total(self, lam):
        """The Sum of multipliers."""
        return (SCALE * sum(self.block.values[place] for place in self.chosen)
                + sum(multiplier * self.held[line] for line, multiplier in lam.items())
                + sum(max(0, self.reduced(place, lam)) for place in self.undecided))

    def settled(self, lam):
        now = self.total(lam)
        if now > self.total({}) or now < SCALE:
            return now <= self.total({})
        users = [[] for _ in self.held]
        for place in self.undecided:
            for line, amount in self.block.effects[place].items():
                users[line].append((self.reduced(place, lam) - lam.get(line, 0) * amount, amount))
        return not any(1024 * gain(lam.get(line, 0), self.held[line], users[line]) >= now for line in range(len(self.held)))


def gain(multiplier, held, users):
    """By how much the best multiplier of one line lowers the Sum. What the line changes of the Sum is convex and bends only where
    a user's reduced value is 0, so it is least at an end or beside a bend."""
    def part(x):
        return x * held + sum(max(0, rest + x * amount) for rest, amount in users)
    bends = [-rest // amount for rest, amount in users]
    points = sorted({0, 2**44} | {x for bend in bends for x in (bend, bend + 1) if 0 <= x <= 2**44})
    low, high = 0, len(points) - 1
    while low < high:
        middle = (low + high) // 2
        low, high = (low, middle) if part(points[middle]) <= part(points[middle + 1]) else (middle + 1, high)
    return part(multiplier) - part(points[low])


def walk(block, part):
    """Each node of a part's tree with the partial choice after its fixes, or with None where the tree goes wrong."""
    waiting = [Partial(block, [], part.members)]
    for node in part.nodes:
        here = waiting.pop().after_fixes(node.fixes)
        if here is None or node.end == "BRANCH" and node.at not in here.undecided:
            yield node, None
            return
        if node.end == "BRANCH":
            waiting += [here.with_place(node.at, False), here.with_place(node.at, True)]
        yield node, here


def proves(block, part):
    for node, here in walk(block, part):
        if here is None or node.end == "SHORT" and not here.short(node.at):
            return False
        if node.end == "BOUND" and here.total(node.multipliers) >= SCALE * (part.bound + 1):
            return False
    return True


def lean(block, part):
    worth = sum(block.values[place] for place in block.set.intersection(part.members))
    reached = part.bound == worth
    for node, here in walk(block, part):
        bound = here.total(node.multipliers) // SCALE
        if node.end == "BOUND":
            reached = reached or bound == part.bound
        if node.end == "SHORT" or node.end == "BOUND" and bound <= worth:
            continue
        if not here.undecided or here.any_rule() or not here.settled(node.multipliers):
            return False
        nearest = min(here.undecided, key=lambda place: (abs(here.reduced(place, node.multipliers)), place))
        if node.end == "BRANCH" and (bound < part.bound or node.at != nearest):
            return False
    return reached


def rest(block, booked, places):
    """The greatest list of these places that is met from what is booked and from its own credits."""
    while True:
        credits, tried = Partial(block, [], places).credits, places
        places = [place for place in tried if all(booked[line] + amount + credits[line] >= 0
                                                  for line, amount in block.effects[place].items() if amount < 0)]
        if places == tried:
            return places


def judge(block):
    """VALID with its numbers, or the first reason."""
    places, worth = range(len(block.values)), sum(block.values[place] for place in block.set)
    if sorted(place for part in block.parts for place in part.members) != list(places):
        return "INVALID,MEMBERS"
    lines = [{line for place in part.members for line in block.effects[place]} for part in block.parts]
    if sum(map(len, lines)) != len(set().union(*lines)):
        return "INVALID,SHARED"
    booked = Partial(block, block.set, []).held
    if min(booked, default=0) < 0:
        return "INVALID,INFEASIBLE"

    def fits(taken, given={}):
        """Whether the set stays feasible with these places' effects, and without one's."""
        change = {line: -amount for line, amount in given.items()}
        for line, amount in (effect for place in taken for effect in block.effects[place].items()):
            change[line] = change.get(line, 0) + amount
        return all(booked[line] + amount >= 0 for line, amount in change.items())

    outside = [[place for place in part.members if place not in block.set] for part in block.parts]
    rests = [rest(block, booked, places) for places in outside]
    if any(fits([place]) for places in outside for place in places) or any(left and fits(left) for left in rests):
        return "INVALID,ADDABLE"
    if any(block.values[j] > block.values[i] and fits([j], block.effects[i])
           for part, others in zip(block.parts, outside) for i in block.set.intersection(part.members) for j in others):
        return "INVALID,SWAPPABLE"
    for reason, holds in (("UNPROVED", proves), ("NOTLEAN", lean)):
        for number, part in enumerate(block.parts):
            if not holds(block, part):
                return f"INVALID,{reason},{number}"
    branchings, bound = sum(n.end == "BRANCH" for part in block.parts for n in part.nodes), sum(p.bound for p in block.parts)
    if branchings > block.budget:
        return "INVALID,OVERSPENT"
    if bound > worth and (branchings != block.budget or block.budget >= 2**len(places) - 1):
        return "INVALID,IDLE"
    return f"VALID,{'OPTIMAL' if worth == bound else 'UNFINISHED'},{worth},{len(block.set)},{bound},{branchings}"


def verdict(data):
    """The line that is printed for the bytes of an input."""
    try:
        return judge(Block(data))
    except Form as form:
        return f"INVALID,FORM,{form}"


if __name__ == "__main__":
    with open(sys.argv[1], "rb") if sys.argv[1:] else sys.stdin.buffer as stream:
        line = verdict(stream.read())
    print(line)
    sys.exit(0 if line.startswith("VALID") else 1)
