#!/usr/bin/env python3
"""Turns a text table of tasks into a roster file.

usage: python3 roster.py < TABLE.txt > FILE.roster

One task per line, seven fields parted by blanks:

    number kind N A S D T

The kind is `strict` or `tolerable`; the other fields are whole numbers. What follows a # is a comment, and
empty lines are passed over. The tasks go into the file in the sequence of the lines. The order section is left empty.

The script asks only what it must to write bytes. Whether the bounds hold is for `plan` to say, so a table that
breaks them can be written and tried.
"""
import struct
import sys

EDITION = 1
KINDS = {"tolerable": 0, "strict": 1}


def task(line):
    """The 22 bytes of one task."""
    fields = line.split()
    if len(fields) != 7:
        raise ValueError("seven fields are wanted: number kind N A S D T")
    number, kind, *times = fields
    if kind not in KINDS:
        raise ValueError("the kind is strict or tolerable, not " + kind)
    if not all(field.isdecimal() for field in (number, *times)):
        raise ValueError("all fields but the kind are whole numbers")
    try:
        # one byte, one byte, five times four bytes with the lowest byte first
        return struct.pack("<BB5I", int(number), KINDS[kind], *map(int, times))
    except struct.error:
        raise ValueError("the number fits in one byte, each time in four") from None


def roster(text):
    """The bytes of the whole file."""
    tasks = []
    for at, line in enumerate(text.splitlines(), 1):
        line = line.partition("#")[0]
        if line.strip():
            try:
                tasks.append(task(line))
            except ValueError as error:
                raise SystemExit(f"line {at}: {error}")
    if len(tasks) > 255:
        raise SystemExit("a count of tasks fits in one byte")
    empty_order = bytes([0])
    return bytes([EDITION, len(tasks)]) + b"".join(tasks) + empty_order


if __name__ == "__main__":
    sys.stdout.buffer.write(roster(sys.stdin.read()))
