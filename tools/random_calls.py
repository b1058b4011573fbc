#!/usr/bin/env python3
"""Writes a random script of calls that is likely to reach deep states.

  tools/random_calls.py SEED COUNT      to the standard output, COUNT calls

It watches the model of the axis while it draws: mostly it asks for what the state allows, with sensible words and a bit that rises, and
sometimes for anything at all.
"""
import random
import sys

from axis import COMMANDS, Axis, Drive
from calls import call
from model import profile_named

PROFILES = ["ramp", "ramp", "ramp", "creep", "smooth 4 ramp", "smooth 2 ramp", "smooth 17 ramp", "smooth 64 ramp", "smooth 0 ramp",
            "smooth 100 creep", "smooth 5 creep", "smooth 3 smooth 4 ramp", "smooth 8 smooth 3 creep"]
BITS = {name: 1 << number for number, name in COMMANDS.items()}
LIKELY = {
    "Idle": ["Relative"] * 6 + ["Absolute"] * 4 + ["Run"] * 6 + ["Program"] * 3 + ["Preset"] * 3 + ["Reset Errors"] * 2 + ["Immediate Stop"],
    "Running": ["Hold"] * 7 + ["Immediate Stop"],
    "Holding": ["Immediate Stop", "Hold", "Resume"],
    "Held": ["Resume"] * 8 + ["Absolute", "Relative", "Run", "Program", "Preset", "Reset Errors", "Immediate Stop"],
    "Programming": ["Segment"] * 12 + ["close"] * 4 + ["Immediate Stop"],
}


class Drawer:
    def __init__(self, seed, count):
        self.draw = random.Random(seed)
        self.count = count
        self.lines = []
        self.calls = 0
        draw = self.draw
        kind, profile = draw.choice(["pulse", "phase"]), draw.choice(PROFILES)
        place = draw.choice([0, 0, 0, 12, -500, 8_388_600, -8_388_607, draw.randint(-8_388_607, 8_388_607)])
        tripped = draw.random() < 0.08
        self.lines.append(f"bed {kind} {profile}")
        if place:
            self.lines.append(f"at {place}")
        if tripped:
            self.lines.append("tripped")
        self.axis = Axis(Drive(kind, place, tripped), profile_named(profile.split()))
        self.quick = draw.choice([0, 0, 1, 2])  # how large the numbers of this script are
        self.answers = []

    def make(self, line):
        if self.calls == self.count:
            return
        self.lines.append(line)
        self.calls += 1
        words = line.split()
        self.answers.append(call(self.axis, words[0], words[1:]))

    def start(self):
        most = 1000 * self.axis.drive.reach
        few = {0: [100, 100, 100, 37, 500, 999], 1: [1000, 1500, 5000, 20_000], 2: [1, 100, 3000, most, most - 1]}[self.quick]
        return min(self.draw.choice(few), most)

    def split(self, number):
        """A pair of words for a number, sometimes damaged."""
        draw, size = self.draw, abs(number)
        thousands, rest = min(size // 1000, 32_767), size % 1000
        if number < 0:
            thousands, rest = -thousands, -rest
        damage = draw.random()
        if damage < 0.01:
            rest = draw.choice([1000, -1000, 5000, -32_768])
        elif damage < 0.02:
            rest = -rest or draw.choice([-5, 5])
        elif damage < 0.025:
            thousands = draw.choice([32_767, -32_768])
        return [thousands, rest]

    def distance(self):
        draw = self.draw
        size = draw.choice([1, 1, 2, 3, 5, 9, 20] if self.quick == 0 else [1, 2, 30, 200, 900])
        if draw.random() < 0.05:
            size = draw.choice([0, 4000, 8_388_607, 8_388_608, 8_000_000, draw.randint(0, 9_000_000)])
        return draw.choice([1, 1, -1]) * size

    def position(self):
        draw, now = self.draw, self.axis.position
        if draw.random() < 0.75:
            return now + self.distance()
        return draw.choice([0, 0, 3, -3, 20, now, -now, 8_388_607, -8_388_607, 8_388_608, 8_388_603, -8_388_590])

    def speed(self):
        draw, start, most = self.draw, self.axis.start, 1000 * self.axis.drive.reach
        if draw.random() < 0.04:
            return draw.choice([0, start - 1, most + 1, -start, most, 200_000])
        return min(most, start + draw.choice([0, 1, 50, 200, 700, 2000, 9000, 60_000]))

    def rate(self):
        draw = self.draw
        if draw.random() < 0.03:
            return draw.choice([0, -1, 5001, 32_767, -32_768])
        return draw.choice([1, 7, 20, 100, 100, 333, 1000, 5000])

    def words(self, command, word0):
        """Ten words for a command: those that it uses sensible, the others mostly 0, sometimes anything."""
        draw = self.draw
        used = self.split(self.position() if command in ["Absolute", "Preset"] else self.distance())
        used = used + self.split(self.speed()) + [self.rate(), self.rate()]
        word1 = draw.choice([0, 0, 0, 1, 1, 2, 2, 3, 0x400, 0x401, draw.randint(-32_768, 32_767)])
        if command == "Reset Errors" and draw.random() < 0.7:
            word1 |= 0x400
        if command == "Run" and draw.random() < 0.4:
            word1 |= 1
        dwell = draw.choice([0, 0, 1, 2, 3, 7, 30])
        if draw.random() < 0.03:
            dwell = draw.choice([-1, 30_000, 30_001, -32_768])
        words = [word1] + used + [dwell, 0]
        if draw.random() < 0.05:
            words[-1] = draw.randint(-32_768, 32_767)
        if draw.random() < 0.02:
            words = words[:draw.randint(0, 8)] if draw.random() < 0.5 else words + [0] * draw.randint(1, 3)
        if draw.random() < 0.012:
            word0 |= 1 << draw.choice([5, 6, 7, 8, 14, 15])
        first = f"0x{word0 & 0xFFFF:04X}"
        return " ".join(["block", first] + [str(word) for word in words])

    def block(self):
        draw, axis = self.draw, self.axis
        command = draw.choice(LIKELY[axis.state])
        if draw.random() < 0.07:
            command = draw.choice(list(BITS))
        if axis.state == "Idle" and not axis.ready and command == "Run" and draw.random() < 0.9:
            command = "Program"
        if axis.state == "Idle" and axis.flags["Position_Invalid"] and command == "Absolute" and draw.random() < 0.7:
            command = "Preset"
        blocked = axis.flags["Input_Error"] or axis.drive.tripped
        if axis.state in ["Idle", "Held"] and blocked and draw.random() < 0.6:
            command = "Reset Errors"
        over = BITS["Program"] if axis.state == "Programming" else 0
        if command == "close":
            self.make(self.words("none", 0))
            return
        if over and draw.random() < 0.04:
            over = 0
        if draw.random() < 0.15:
            over |= axis.kept & draw.randint(0, 0xFFFF)
        wanted = BITS[command]
        if axis.kept & wanted and draw.random() < 0.97:
            self.make(self.words("none", over & ~wanted))
        if draw.random() < 0.015:
            over |= draw.choice(list(BITS.values()))
        self.make(self.words(command, wanted | over))

    def event(self):
        draw, axis = self.draw, self.axis
        on = [code for code, level in [(2, axis.limit[1]), (4, axis.limit[-1]), (6, axis.estop)] if level]
        if on and draw.random() < 0.7:
            code = draw.choice(on)
        else:
            code = draw.choice([1, 1, 2, 3, 3, 4, 5, 6, 7, 7, 0, 8, 100])
        self.make(f"event {code}")

    def ticks(self):
        draw = self.draw
        count = draw.choice([1, 1, 2, 3, 5, 8, 13, 20, 40])
        if draw.random() < 0.08:
            count = draw.choice([0, 150, 400])
        if len(self.axis.legs) > 1:
            count = min(count, draw.choice([1, 2, 5, 40]))
        self.make("tick" if count == 1 and draw.random() < 0.3 else f"tick {count}")

    def reading(self):
        draw = self.draw
        count = draw.choice([10, 10, 10, 10, 11, 12, 0, 1, 9, 9, draw.randint(0, 40)])
        self.make("reading" if count == 10 and draw.random() < 0.3 else f"reading {count}")

    def setup(self):
        draw = self.draw
        start = self.start()
        if draw.random() < 0.15:
            start = draw.choice([0, 1000 * self.axis.drive.reach + 1, 1_000_000, 1])
        self.make(f"setup {start}")

    def all(self):
        draw, axis = self.draw, self.axis
        while self.calls < self.count:
            if draw.random() < 0.25:
                self.reading()
                continue
            unset = axis.flags["Configuration_Error"]
            levels = axis.limit[1] or axis.limit[-1] or axis.estop
            chance = draw.random()
            if unset and chance < 0.6 or chance < 0.01:
                self.setup()
            elif chance < 0.04 or levels and chance < 0.30:
                self.event()
            elif axis.state in ["Running", "Holding"] and draw.random() < (0.6 if axis.paused else 0.85 if len(axis.legs) > 1 else 0.75):
                self.ticks()
            elif draw.random() < 0.05:
                self.ticks()
            else:
                self.block()
        return self.lines


if __name__ == "__main__":
    print("\n".join(Drawer(int(sys.argv[1]), int(sys.argv[2])).all()))
