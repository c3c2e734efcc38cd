#!/usr/bin/env python3
"""Judges the program from outside: audit/audit.py [DAYS [BROKEN]]. It runs DAYS random days (60) and some generated ones, judges
all that they print by audit/check_day.py, and every block both by the program's `check` and by audit/check_block.py. Then it breaks
BROKEN blocks (1,000) and judges these by both. Last it deals the random days out to inboxes, has `gate` take them by turns, and
judges what is printed as the day of their merge by audit/merge.py. It says where the two differ, and ends with 1 if they ever do."""

import random
import re
import subprocess
import sys
import tempfile
from collections import Counter
from pathlib import Path

import check_block
import check_day
import days
import merge

HERE = Path(__file__).resolve().parent


def each(files, *words):
    """What the program prints for each of the files, a map from name to bytes."""
    with tempfile.TemporaryDirectory() as folder:
        for name, data in files.items():
            Path(folder, name).write_bytes(data)
        said = subprocess.run([HERE.parent / "tools/each", folder, *words], stdout=subprocess.PIPE, check=True).stdout
    parts = re.split(rb"^== (\S+)\n", said, flags=re.M)[1:]
    return {name.decode(): text for name, text in zip(parts[::2], parts[1::2])}


def blocks_of(replies):
    return re.findall(rb"^BLOCK,.*?^LAST\n", replies, flags=re.M | re.S)


def second_edition(dice, block):
    """The block with items that no block of the first edition has: without effects, each a part of its own, all settled."""
    more, value = dice.choice([1, 2, 127, 128, 129]), dice.choice([1, 10**15, 10**15 + 1, 128 * 10**15])
    rows = block.decode().replace("BLOCK,1", "BLOCK,2", 1).splitlines(keepends=True)
    where = next(i for i, row in enumerate(rows) if row.startswith("SET"))
    first = sum(row.startswith("ITEM") for row in rows)
    places = range(first, first + more)
    rows[-1:] = [f"PART,{value},{place}\nBOUND\n" for place in places] + ["LAST\n"]
    rows[where] = ",".join([rows[where].strip()] + [str(place) for place in places]) + "\n"
    rows[where:where] = [f"ITEM,ZZ{place},{value}\n" for place in places]
    return "".join(rows).encode()


def numbers_broken(dice, text):
    """The text with one number of it changed."""
    at = dice.choice(list(re.finditer(r"\d+", text)))
    old = int(at.group())
    new = dice.choice([old + 1, max(old - 1, 0), 0, 2 * old, old // 2, dice.randrange(10), 10**15 + 1, 2**44, 2**44 + 1, 10**18 + 1])
    return text[:at.start()] + str(new) + text[at.end():]


def broken(dice, block):
    """A block with one thing changed, which mostly makes it wrong."""
    text = block.decode()
    rows = text.splitlines(keepends=True)
    at = dice.randrange(len(rows))
    parts = [i for i, row in enumerate(rows) if row.startswith("PART")]
    where = next(i for i, row in enumerate(rows) if row.startswith("SET"))
    way = dice.randrange(19)
    if way == 0:  # a byte is lost, or comes twice, or is another one
        i = dice.randrange(len(text))
        return (text[:i] + dice.choice(["", text[i] * 2, dice.choice("\r\n ,:-0179AZaz\0\xff")]) + text[i + 1:]).encode("latin-1")
    if way == 1:
        return text[:dice.randrange(len(text))].encode()
    if way == 2:
        return (text + dice.choice(["\n", "LAST\n", "x"])).encode()
    if way == 3:
        del rows[at]
    elif way == 4:
        rows.insert(dice.randrange(len(rows)), rows[at])
    elif way == 5:
        rows[at], rows[at - 1] = rows[at - 1], rows[at]
    elif way == 6:
        rows[0] = "BLOCK,2\n" if rows[0] == "BLOCK,1\n" else "BLOCK,1\n"
    elif way == 7:
        rows[1] = f"BUDGET,{dice.choice([0, 1, 2, 3, 4096])}\n"
    elif way in (8, 9):  # another set; by way 9 one that stays feasible, where a few tries find it
        items = range(sum(row.startswith("ITEM") for row in rows))
        chosen = set(map(int, rows[where].strip().split(",")[1:]))
        for _ in range(1 if way == 8 else 40):
            into = [place for place in items if place not in chosen]
            new = chosen - set(dice.sample(sorted(chosen), min(len(chosen), dice.randint(0, 1))))
            new |= set(dice.sample(into, min(len(into), dice.randint(0, 1))))
            rows[where] = ",".join(["SET"] + [str(place) for place in sorted(new)]) + "\n"
            if check_block.verdict("".join(rows).encode()).split(",")[1] == "SWAPPABLE":
                break
    elif way == 10 and parts:  # a member or a part lost
        at = dice.choice(parts)
        fields = rows[at].strip().split(",")
        if len(fields) > 3 and dice.random() < 0.5:
            del fields[dice.randrange(2, len(fields))]
            rows[at] = ",".join(fields) + "\n"
        else:
            del rows[at:min([i for i in parts if i > at], default=len(rows) - 1)]
    elif way == 11 and parts:  # a bound
        at = dice.choice(parts)
        rows[at] = re.sub(r"(?<=PART,)\d+", lambda n: str(max(int(n.group()) + dice.choice([-1, 1, -1000, 1000]), 0)), rows[at])
    elif way == 12 and parts:  # a part cut in two
        at = dice.choice(parts)
        _, bound, *members = rows[at].strip().split(",")
        cut = dice.randrange(len(members) + 1)
        rows[at] = ",".join(["PART", bound] + members[:cut]) + "\nBOUND\n" + ",".join(["PART", "0"] + members[cut:]) + "\n"
    elif way == 13:  # a node's multipliers
        nodes = [i for i, row in enumerate(rows) if re.match("BOUND|BRANCH", row)]
        if nodes:
            at = dice.choice(nodes)
            head = re.match("BOUND|BRANCH,[0-9]+", rows[at]).group()
            rows[at] = head + dice.choice(["", f",0:{dice.choice([1, 4096, 2**44])}"]) + "\n"
    elif way == 14 and parts:  # a fix that may not hold
        fix = dice.choice(["SAFE,{0}", "BARRED,{0},{1}", "NEEDED,{0},{1}"]).format(dice.randrange(4), dice.randrange(4))
        rows.insert(dice.choice(parts) + 1, fix + "\n")
    elif way == 15 and parts:  # a branch that isn't needed, or an end that is none
        at = dice.choice(parts) + 1
        rows[at:at] = dice.choice([[f"BRANCH,{dice.randrange(4)}\n", "BOUND\n"], ["SHORT,0\n"]])
    else:
        return numbers_broken(dice, text).encode()
    return "".join(rows).encode()


def compare(what, blocks):
    """How often the two judges differ, and a count of each answer."""
    said = each(blocks, "check")
    answers, differ = Counter(), 0
    for name, block in blocks.items():
        ours, theirs = check_block.verdict(block) + "\n", said.get(name, b"").decode("latin-1")
        answers[",".join(ours.strip().split(",")[:2])] += 1
        if ours != theirs:
            differ += 1
            kept = HERE.parent / "out" / name
            kept.parent.mkdir(exist_ok=True)
            kept.write_bytes(block)
            print(f"{what} {name}: check_block.py says {ours!r}, the program {theirs!r}; the block is kept as {kept}")
    print(f"{len(blocks)} {what}: {differ} judged differently; " + ", ".join(f"{a} {n}" for a, n in sorted(answers.items())))
    return differ


def gateway(dice, day):
    """The lines of a day in some inboxes, with turns that take them in about their order; now and then bytes that are no such input."""
    inboxes, turns = [b""] * dice.randint(1, 16), []
    for line in day.splitlines(keepends=True):
        turn = dice.randrange(len(inboxes))
        inboxes[turn] += dice.choice([b"", b"", b"# 080000,PART,NONE\n", b"\r\n"]) + line
        turns += [turn] * dice.choice([1, 1, 1, 1, 1, 1, 1, 2])
    text = b"GATE,%d\n" % len(inboxes)
    text += b"".join(b"INBOX,%d\n%s\n" % (len(inbox), inbox) for inbox in inboxes)
    text += b"TURNS,%d\n%s\n" % (len(turns), bytes(ord("A") + turn for turn in turns))
    if dice.random() < 0.2:
        at = dice.randrange(len(text))
        text = text[:at] + dice.choice([b"", b"0", b"\n"]) + text[at + 1:]
    return text


def judge_gates(files):
    """How often what `gate` prints isn't what the day of the merge must; nothing is printed where there is none."""
    dice = random.Random(len(files))
    inputs = {name: gateway(dice, day) for name, day in files.items()}
    said, wrong, none = each(inputs, "gate"), 0, 0
    for name, text in inputs.items():
        replies = said.get(name, b"")
        try:
            day = merge.merge(*merge.read(text))
        except ValueError:
            none += 1
            if replies:
                wrong += 1
                print(f"gate {name}: replies to what is no gateway input")
            continue
        try:
            check_day.judge(day, replies)
        except check_day.Wrong as error:
            wrong += 1
            print(f"gate {name}: {error}")
    print(f"{len(inputs)} days through a gateway, {none} of them none: {wrong} with a reply that isn't the definition's")
    return wrong


def main(random_days=60, breaks=1000):
    files = {f"generated{n:02}": days.generated(n).encode() for n in (1, 2, 3, 5, 8, 12, 20)}
    files.update({f"random{n:03}": days.random_day(n).encode() for n in range(int(random_days))})
    replies, wrong, blocks = each(files, "day"), 0, {}
    for name, day in files.items():
        try:
            check_day.judge(day, replies.get(name, b""))
        except check_day.Wrong as error:
            wrong += 1
            print(f"day {name}: {error}")
        blocks.update({f"{name}.{i}": block for i, block in enumerate(blocks_of(replies.get(name, b"")), 1)})
    print(f"{len(files)} days: {wrong} with a reply that isn't the definition's")
    wrong += compare("blocks", blocks)
    dice = random.Random(len(blocks))
    small = [block for block in blocks.values() if len(block) < 20000]
    seconds = {f"second{i:04}": second_edition(dice, dice.choice(small)) for i in range(int(breaks) // 20)}
    wrong += compare("blocks of the second edition", seconds)
    small += [block for block in seconds.values() if len(block) < 5000]
    wrong += compare("broken blocks", {f"broken{i:04}": broken(dice, dice.choice(small)) for i in range(int(breaks))})
    wrong += judge_gates({name: day for name, day in files.items() if name.startswith("random")})
    return 1 if wrong else 0


if __name__ == "__main__":
    sys.exit(main(*sys.argv[1:]))
