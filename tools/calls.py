#!/usr/bin/env python3
"""Writes what the program `longbed` must print for a script of calls, by the independent model of the rules.

  tools/calls.py SCRIPT      to the standard output; every line of the script must be readable

  bed pulse ramp             the drive (pulse or phase) and the profile (ramp, creep, or smooth LENGTH over a profile)
  at -500                    where the drive stands at first, 0 if not told
  tripped                    the drive is tripped at first
  setup 100                  from here on the calls
  block 0x0200 0 5 0 0 0 0 0 0 0
  event 5
  tick 12                    twelve ticks; one if not told
  reading 12                 a reading into a buffer of twelve words, which are 7 beforehand; ten if not told
"""
import sys

from axis import FLAGS, Axis, Drive
from model import profile_named


def word(text):
    """A 16-bit word: decimal, or a pattern after 0x in two's complement."""
    if text.lower().startswith("0x"):
        pattern = int(text, 16)
        return pattern - 0x10000 if pattern >= 0x8000 else pattern
    return int(text)


def played(lines):
    """The lines printed for a script, and the axis at its end."""
    kind, place, tripped, profile, axis, printed = None, 0, False, None, None, []
    for line in lines:
        words = line.split("#")[0].split()
        if not words:
            continue
        name, rest = words[0], words[1:]
        if name == "bed":
            kind, profile = rest[0], profile_named(rest[1:])
            continue
        if name == "at":
            place = int(rest[0])
            continue
        if name == "tripped":
            tripped = True
            continue
        if axis is None:
            axis = Axis(Drive(kind, place, tripped), profile)
        printed.append(call(axis, name, rest))
    if axis is None:
        axis = Axis(Drive(kind, place, tripped), profile)
    printed.append(f"= position {axis.counted}")
    printed.append(f"= place {axis.drive.place}")
    if axis.drive.kind == "phase":
        printed.append(f"= coils {axis.drive.coils()}")
    printed.append("= flags " + (" ".join(flag for flag in FLAGS if axis.flags[flag]) or "none"))
    return printed, axis


def call(axis, name, rest):
    """One call of the axis, as the line printed for it."""
    if name == "setup":
        return f"setup {rest[0]}: {axis.setup(int(rest[0]))}"
    if name == "block":
        return " ".join(["block"] + rest) + f": {axis.block([word(text) for text in rest])}"
    if name == "event":
        return f"event {rest[0]}: {axis.event(int(rest[0]))}"
    if name == "reading":
        count = int(rest[0]) if rest else 10
        answer, words = axis.reading([7] * count)
        return " ".join([f"reading {count}: {answer}"] + [str(word) for word in words])
    assert name == "tick"
    count = int(rest[0]) if rest else 1
    return " ".join([f"tick {count}:"] + [str(axis.tick()) for _ in range(count)])


if __name__ == "__main__":
    for line in played(open(sys.argv[1]).read().split("\n"))[0]:
        print(line)
