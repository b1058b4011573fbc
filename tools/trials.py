#!/usr/bin/env python3
"""Writes the plans of the program `trials` and what they must come to, by the independent model of the rules.

  tools/trials.py            writes crates/trials/stdin and crates/trials/stdout
"""
import pathlib
import random

from model import Ramp, Smoothed


def outcome(length, start, accel, decel, braked, rows):
    profile = Ramp(start, accel, decel, rows)
    if length:
        profile = Smoothed(profile, length)
    ticks = peak = check = 0
    while profile.gone != profile.asked:
        advance = profile.tick()
        ticks, peak, check = ticks + 1, max(peak, advance), (check * 31 + advance) % 2**64
        if ticks == braked:
            profile.brake()
    return f"{ticks} ticks, peak {peak}, gone {profile.gone}, check {check}"


def plans():
    draw = random.Random(20261117)
    for _ in range(150):
        start = draw.choice([1, 3, 50, 100, 999, 5000])
        rows = [(draw.choice([1, 1, 2, 7, 40]), start + draw.choice([0, 1, 99, 700, 3000, 20000])) for _ in range(draw.choice([1, 1, 2, 3, 5, 16]))]
        if start < 50:
            rows = [(min(steps, 2), speed) for steps, speed in rows]
        accel, decel = (draw.choice([1, 7, 100, 333, 5000]) for _ in range(2))
        yield draw.choice([0, 0, 1, 2, 4, 17, 64, 100]), start, accel, decel, draw.choice([0, 0, 1, 2, 9, 30, 111]), rows


def main():
    crate = pathlib.Path(__file__).resolve().parent.parent / "crates" / "trials"
    asked, expected = [], []
    for length, start, accel, decel, braked, rows in plans():
        numbers = [length, start, accel, decel, braked] + [n for row in rows for n in row]
        asked.append(" ".join(map(str, numbers)))
        expected.append(outcome(length, start, accel, decel, braked, rows))
    (crate / "stdin").write_text("\n".join(asked) + "\n")
    (crate / "stdout").write_text("\n".join(expected) + "\n")


main()
