"""The rules of plans and profiles, followed to the letter: the braking distance by its recursion, the advance by going down from the
bound until it fits, the mean by adding up all kept values. Slow and plain; nothing is taken from the Rattle code.

A profile is made with a plan (start, accel, decel, rows of steps and speed) or without one, and can begin new plans again and again.
"""
import copy
import sys

sys.setrecursionlimit(300_000)


def braking(start, decel, speed, known):
    if speed <= start:
        return 0
    if speed not in known:
        slower = max(0, speed - decel)
        known[speed] = slower + braking(start, decel, slower, known)
    return known[speed]


class Planned:
    """What the profiles that stand on no other one have in common. Without a plan everything is 0."""
    lag = 0

    def __init__(self, start=0, accel=0, decel=0, rows=()):
        self.begin(start, accel, decel, rows)

    def begin(self, start, accel, decel, rows):
        self.start, self.accel, self.decel, self.rows = start, accel, decel, list(rows)
        self.asked = 1000 * sum(steps for steps, _ in rows)
        self.gone, self.last, self.known = 0, 0, {}

    @property
    def top(self):
        return max([speed for _, speed in self.rows], default=0)

    @property
    def plan(self):
        """The latest plan, or None before the first."""
        return (self.start, self.accel, self.decel, tuple(self.rows)) if self.rows else None

    def left(self):
        trial, ticks = copy.copy(self), 0
        while trial.gone != trial.asked:
            trial.tick()
            ticks += 1
        return ticks


class Ramp(Planned):
    def row_speed(self):
        end = 0
        for steps, speed in self.rows:
            end += 1000 * steps
            if self.gone < end:
                return speed
        raise AssertionError("no row holds the next millistep")

    def tick(self):
        if self.gone == self.asked:
            return 0
        speed = min(max(self.row_speed(), self.last - self.decel), max(self.start, self.last + self.accel))
        while speed + braking(self.start, self.decel, speed, self.known) > self.asked - self.gone:
            speed -= 1
        self.gone += speed
        self.last = speed
        return speed

    def brake(self):
        self.asked = self.gone + braking(self.start, self.decel, self.last, self.known)


class Creep(Planned):
    def tick(self):
        advance = min(self.start, self.asked - self.gone)
        self.gone += advance
        return advance

    def brake(self):
        self.asked = self.gone


class Smoothed:
    def __init__(self, below, length):
        self.below, self.kept = below, [below.gone] * max(1, min(64, length))
        self.gone = below.gone

    def begin(self, start, accel, decel, rows):
        self.below.begin(start, accel, decel, rows)
        self.kept, self.gone = [0] * len(self.kept), 0

    @property
    def asked(self):
        return self.below.asked

    @property
    def plan(self):
        return self.below.plan

    @property
    def start(self):
        return self.below.start

    @property
    def decel(self):
        return self.below.decel

    @property
    def top(self):
        return self.below.top

    @property
    def lag(self):
        return self.below.lag + len(self.kept) - 1

    def left(self):
        if self.below.left() > 0:
            return self.below.left() + len(self.kept) - 1
        kept, ticks = list(self.kept), 0
        while any(value != kept[0] for value in kept):
            kept = [self.below.gone] + kept[:-1]
            ticks += 1
        return ticks

    def tick(self):
        self.below.tick()
        self.kept = [self.below.gone] + self.kept[:-1]
        before, self.gone = self.gone, sum(self.kept) // len(self.kept)
        return self.gone - before

    def brake(self):
        self.below.brake()


def profile_named(words):
    """A profile without a plan from its words, the outermost first: `ramp`, `creep`, `smooth 4 ramp`, `smooth 8 smooth 3 creep`."""
    if words[0] == "smooth":
        return Smoothed(profile_named(words[2:]), int(words[1]))
    return {"creep": Creep, "ramp": Ramp}[words[0]]()
