#!/usr/bin/env python3
"""Prints the day file that a gateway input's turns make of its inboxes: merge.py < INPUT

Written from docs/FORMATS.md alone. Ends with 1 where the input is none.
"""
import re
import sys


def number(text, low, high):
    if not re.fullmatch(rb"0|[1-9][0-9]*", text) or not low <= int(text) <= high:
        raise ValueError("number")
    return int(text)


def headed(text, word, low, high):
    """The number behind a word and before an LF, and what stands behind that."""
    row, lf, rest = text.partition(b"\n")
    if not lf or not row.startswith(word):
        raise ValueError(word.decode())
    return number(row[len(word):], low, high), rest


def read(text):
    """The inboxes and the turns of a gateway input."""
    count, rest = headed(text, b"GATE,", 1, 16)
    inboxes = []
    for _ in range(count):
        size, rest = headed(rest, b"INBOX,", 0, 67108864)
        inboxes.append(rest[:size])
        if len(rest) <= size or rest[size:size + 1] != b"\n":
            raise ValueError("inbox")
        rest = rest[size + 1:]
    size, rest = headed(rest, b"TURNS,", 0, 1048576)
    turns = [letter - ord("A") for letter in rest[:size]]
    if rest[size:] != b"\n" or not all(0 <= turn < count for turn in turns):
        raise ValueError("turns")
    return inboxes, turns


def commands(text):
    *ended, last = text.split(b"\n")
    pieces = [piece[:-1] if piece.endswith(b"\r") else piece for piece in ended] + [last]
    return [piece for piece in pieces if piece and not piece.startswith(b"#")]


def merge(inboxes, turns):
    queues = [iter(commands(inbox)) for inbox in inboxes]
    given = (next(queues[turn], None) for turn in turns)
    return b"".join(command + b"\r\n" for command in given if command is not None)


def main():
    try:
        inboxes, turns = read(sys.stdin.buffer.read())
    except ValueError as wrong:
        sys.exit(f"merge: no gateway input: {wrong}")
    sys.stdout.buffer.write(merge(inboxes, turns))


if __name__ == "__main__":
    main()
