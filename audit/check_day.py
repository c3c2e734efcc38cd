#!/usr/bin/env python3
"""Judges what `dali day` printed for a day file, by docs/FORMATS.md and docs/DEFINITIONS.md alone: audit/check_day.py DAY REPLIES
[EDITION]. It books every command itself and compares each line of the replies. Of a cycle it takes the set and the trees from the
replies, since these are the program's to choose; that the block is of this state's problem and its choice allowed, it judges."""

import re
import sys

import check_block

NAME = "[A-Z0-9]{1,12}"
FIELDS = {"N": NAME, "M": "(?:[01][0-9]|2[0-3])(?:[0-5][0-9]){2}", "K": "DVP|FOP|PAY",
          "Q": 10**15, "P": 10**9, "B": 4096, "R": 16}
VERBS = {"PART": "N", "INST": "NP", "ISSUE": "NNQ", "DRAW": "NNQ", "DVP": "NNNNQQ", "FOP": "NNNNQ", "PAY": "NNNQ", "CANCEL": "N",
         "SETTLE": "N", "CUTOFF": "KM", "CYCLE": "B", "QUEUE": "", "CLOSE": "", "STAT": "N", "LEDGER": "N",
         "EARMARK": "NNQ", "RELEASE": "NNQ", "LINK": "NN", "RANK": "NR"}
LATER = {"EARMARK": 2, "RELEASE": 2, "LINK": 3, "RANK": 4}


class Wrong(Exception):
    """The replies aren't those of the day."""


def commands(data):
    """The commands of a day file."""
    *ended, last = data.decode("latin-1").split("\n")
    pieces = [piece.removesuffix("\r") for piece in ended] + [last]
    return [piece for piece in pieces if piece and not piece.startswith("#")]


def parse(line, edition):
    """The moment, the verb and its fields; None where the line is no command of the edition."""
    moment, *words = line.split(",")
    verb, fields = (words[0], words[1:]) if words else ("", [])
    if verb not in VERBS or LATER.get(verb, 1) > edition or len(fields) != len(VERBS[verb]):
        return None
    for kind, field in zip("M" + VERBS[verb], [moment] + fields):
        form = FIELDS[kind]
        if isinstance(form, str):
            good = re.fullmatch(form, field)
        else:
            good = re.fullmatch("0|[1-9][0-9]{0,15}", field) and (0 if kind == "B" else 1) <= int(field) <= form
        if not good:
            return None
    numbers = [int(f) if isinstance(FIELDS[kind], int) else f for kind, f in zip(VERBS[verb], fields)]
    return moment, verb, numbers


class Instruction:
    def __init__(self, kind, ident, giver, taker, code, quantity, cash, value):
        self.kind, self.id, self.giver, self.taker, self.value = kind, ident, giver, taker, value
        self.rank, self.group = 1, ident
        moves = [(code, quantity)] + ([("MXN", -cash)] if cash else [])
        self.effects = [pair for asset, moved in moves for pair in (((giver, asset), -moved), ((taker, asset), moved))]


def net(effects):
    """The sum of effects on each pair, in byte order, without those of 0."""
    sums = {}
    for pair, amount in effects:
        sums[pair] = sums.get(pair, 0) + amount
    return {pair: sums[pair] for pair in sorted(sums) if sums[pair]}


class Day:
    def __init__(self, edition):
        self.edition, self.number, self.greatest, self.closed = edition, 0, "", False
        self.accounts, self.prices, self.used = set(), {}, set()
        self.balances, self.earmarks, self.postings, self.queue = {}, {}, [], []
        self.cutoffs = dict.fromkeys(("DVP", "FOP", "PAY"), "235959")
        self.cycles = 0

    def balance(self, pair):
        return self.balances.get(pair, 0)

    def find(self, ident):
        return next((item for item in self.queue if item.id == ident), None)

    def members(self, group):
        return [item for item in self.queue if item.group == group]

    def book(self, effects):
        for pair, delta in net(effects).items():
            self.balances[pair] = self.balance(pair) + delta
            self.postings.append((self.number, pair, delta, self.balances[pair]))

    def refusal(self, moment, verb, f):
        """The first refusal after FORM, BACK and CLOSED that holds, or None."""
        known = self.accounts.__contains__

        def asset(name):
            return name == "MXN" or name in self.prices

        if verb == "PART":
            return "THERE" if known(f[0]) else "FULL" if len(self.accounts) == 1000 else None
        if verb == "INST":
            return "THERE" if asset(f[0]) else "FULL" if len(self.prices) == 1000 else None
        if verb in ("ISSUE", "DRAW", "EARMARK", "RELEASE"):
            if not known(f[0]) or not asset(f[1]):
                return "NAME"
            if verb == "ISSUE":
                total = sum(n for held in (self.balances, self.earmarks) for (_, name), n in held.items() if name == f[1])
                return "TOTAL" if total + f[2] > 10**18 else None
            held = self.earmarks.get((f[0], f[1]), 0) if verb == "RELEASE" else self.balance((f[0], f[1]))
            return "SHORT" if held < f[2] else None
        if verb in ("DVP", "FOP", "PAY"):
            code = f[3] if verb != "PAY" else None
            tests = [("THERE", f[0] in self.used),
                     ("NAME", not (known(f[1]) and known(f[2]) and (code is None or asset(code)))),
                     ("CASH", code == "MXN"), ("SELF", f[1] == f[2]),
                     ("VALUE", verb == "FOP" and f[4] * self.prices.get(code, 0) > 10**15),
                     ("LATE", moment > self.cutoffs[verb]), ("FULL", len(self.queue) == 1024)]
            return next((name for name, holds in tests if holds), None)
        if verb in ("CANCEL", "SETTLE", "RANK"):
            item = self.find(f[0])
            if item is None:
                return "GONE"
            if verb == "SETTLE":
                tests = [("LINKED", len(self.members(item.group)) > 1), ("LATE", moment > self.cutoffs[item.kind]),
                         ("SHORT", any(self.balance(pair) + d < 0 for pair, d in net(item.effects).items()))]
                return next((name for name, holds in tests if holds), None)
        if verb == "LINK":
            first, second = self.find(f[0]), self.find(f[1])
            if first is None or second is None:
                return "GONE"
            if first is second:
                return "SELF"
            if first.group == second.group:
                return "THERE"
            return "FULL" if len(self.members(first.group)) + len(self.members(second.group)) > 8 else None
        if verb in ("STAT", "LEDGER"):
            return None if known(f[0]) else "NAME"
        return None

    def reply(self, line, rows):
        """The lines that must be printed for a command; `rows` are those that were, from which a cycle's choice is taken."""
        self.number += 1
        command, k = parse(line, self.edition), self.number
        if command is None:
            return [f"{k},NO,FORM"]
        moment, verb, f = command
        if moment < self.greatest:
            return [f"{k},NO,BACK"]
        self.greatest = moment
        code = "CLOSED" if self.closed and verb not in ("QUEUE", "STAT", "LEDGER") else self.refusal(moment, verb, f)
        if code:
            return [f"{k},NO,{code}"]
        if verb == "QUEUE":
            return [f"{k},WAIT,{item.id},{item.kind},{item.value}" for item in self.queue] + [f"{k},END"]
        if verb == "STAT":
            held = sorted((asset, n) for (account, asset), n in self.balances.items() if account == f[0] and n)
            return ([f"{k},BAL,{asset},{n}" for asset, n in held]
                    + [f"{k},HELD,{item.id}" for item in self.queue if f[0] in (item.giver, item.taker)] + [f"{k},END"])
        if verb == "LEDGER":
            return [f"{k},ROW,{n},{command},{pair[1]},{delta},{after}" for n, (command, pair, delta, after)
                    in enumerate(self.postings, 1) if pair[0] == f[0]] + [f"{k},END"]
        if verb == "CYCLE":
            return self.cycle(moment, f[0], rows)
        self.accept(verb, f)
        return [f"{k},OK"]

    def accept(self, verb, f):
        if verb == "PART":
            self.accounts.add(f[0])
        elif verb == "INST":
            self.prices[f[0]] = f[1]
        elif verb in ("ISSUE", "DRAW", "EARMARK", "RELEASE"):
            pair = (f[0], f[1])
            if verb in ("EARMARK", "RELEASE"):
                self.earmarks[pair] = self.earmarks.get(pair, 0) + (f[2] if verb == "EARMARK" else -f[2])
            self.book([(pair, f[2] if verb in ("ISSUE", "RELEASE") else -f[2])])
        elif verb in ("DVP", "FOP", "PAY"):
            self.used.add(f[0])
            code, quantity, cash = {"DVP": f[3:6], "FOP": f[3:5] + [0], "PAY": ["MXN", f[3], 0]}[verb]
            value = {"DVP": cash, "FOP": quantity * self.prices.get(code, 0), "PAY": quantity}[verb]
            self.queue.append(Instruction(verb, f[0], f[1], f[2], code, quantity, cash, value))
        elif verb in ("CANCEL", "SETTLE"):
            item = self.find(f[0])
            self.queue.remove(item)
            if verb == "SETTLE":
                self.book(item.effects)
        elif verb == "CUTOFF":
            self.cutoffs[f[0]] = f[1]
        elif verb == "CLOSE":
            self.closed = True
        elif verb == "LINK":
            old, new = self.find(f[1]).group, self.find(f[0]).group
            for item in self.members(old):
                item.group = new
        elif verb == "RANK":
            self.find(f[0]).rank = f[1]

    def cycle(self, moment, budget, rows):
        """A cycle's reply, with the set and the trees of the rows that were printed."""
        self.cycles += 1
        groups = [self.members(group) for group in dict.fromkeys(item.group for item in self.queue)]
        groups = [group for group in groups if all(self.cutoffs[item.kind] >= moment for item in group)]
        nets = [net(pair for item in group for pair in item.effects) for group in groups]
        lines = sorted({pair for effects in nets for pair in effects})
        start = next((i for i, row in enumerate(rows) if row.startswith("BLOCK,")), None)
        if start is None or "LAST" not in rows[start:]:
            raise Wrong(f"command {self.number}: no block")
        block = rows[start:rows.index("LAST") + 1]
        problem = [f"LINE,{a},{b},{self.balance((a, b))}" for a, b in lines]
        for group, effects in zip(groups, nets):
            value = sum(item.value * item.rank for item in group)
            problem.append(",".join([f"ITEM,{group[0].id},{value}"] + [f"{lines.index(p)}:{d}" for p, d in effects.items()]))
        verdict = check_block.verdict("".join(row + "\n" for row in block).encode())
        if not verdict.startswith("VALID"):
            raise Wrong(f"command {self.number}: its block is {verdict}")
        _, mark, value, _, bound, branchings = verdict.split(",")
        places = next(row for row in block if row.split(",")[0] == "SET").split(",")[1:]
        chosen = [item for place in places for item in groups[int(place)]]
        posted = [item for item in self.queue if item in chosen]
        self.queue = [item for item in self.queue if item not in chosen]
        self.book(pair for item in posted for pair in item.effects)
        k = self.number
        return ([f"{k},CYCLE,{mark},{value},{len(posted)},{bound},{branchings}"] + [f"{k},POST,{item.id}" for item in posted]
                + [block[0], f"BUDGET,{budget}"] + problem + block[2 + len(problem):] + [f"{k},END"])


def judge(day, replies, edition=1):
    """A Day to its end; Wrong where the replies aren't those that it must have."""
    found, rows = Day(edition), replies.decode("latin-1").split("\n")
    if rows.pop() != "":
        raise Wrong("the last reply has no LF")
    at = 0
    for line in commands(day):
        end = next((i for i in range(at, len(rows)) if re.match(f"{found.number + 2},", rows[i])), len(rows))
        wanted = found.reply(line, rows[at:end])
        if rows[at:at + len(wanted)] != wanted:
            row, want = next((pair for pair in zip(rows[at:] + [""] * len(wanted), wanted) if pair[0] != pair[1]))
            raise Wrong(f"command {found.number}: printed {row!r}, not {want!r}")
        at += len(wanted)
    if at != len(rows):
        raise Wrong(f"{len(rows) - at} lines more than the day has")
    return found


if __name__ == "__main__":
    with open(sys.argv[1], "rb") as day, open(sys.argv[2], "rb") as replies:
        try:
            end = judge(day.read(), replies.read(), int((sys.argv[3:] or ["1"])[0]))
        except Wrong as wrong:
            print(f"WRONG: {wrong}")
            sys.exit(1)
    print(f"LEGAL: {end.number} commands, {end.cycles} cycles, {len(end.postings)} postings")
