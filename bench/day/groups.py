#!/usr/bin/env python3
"""Writes the records of a finished journal to another file as a day does, and does nothing else: groups.py JOURNAL FILE

Sixty-four records and the closed gate behind them are one write and a sync, and their gate one byte and a sync. Prints the
seconds that this took.
"""
import os
import sys
import time


def records(image):
    at = 16
    while image[at]:
        end = at + 5 + int.from_bytes(image[at + 1 : at + 5], "big")
        yield at, end
        at = end


def main():
    with open(sys.argv[1], "rb") as file:
        image = file.read()
    places = list(records(image))
    device = os.open(sys.argv[2], os.O_RDWR | os.O_CREAT)
    os.ftruncate(device, len(image))
    os.pwrite(device, image[:16] + b"\0", 0)
    os.fsync(device)
    start = time.monotonic()
    for first in range(0, len(places), 64):
        group = places[first : first + 64]
        gate, end = group[0][0], group[-1][1]
        os.pwrite(device, image[gate + 1 : end] + b"\0", gate + 1)
        os.fdatasync(device)
        os.pwrite(device, b"\1", gate)
        os.fdatasync(device)
    print(time.monotonic() - start)


main()
