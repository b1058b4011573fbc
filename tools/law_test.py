#!/usr/bin/env python3
"""Holds the law of runs against the right axis, which it must not refuse, and against wrong ones, which it must.

  tools/law_test.py          one line
  tools/law_test.py -v       for each wrong axis the clauses that refused it and the moment of its script

A wrong axis is the model of the axis with one thing changed. All play the same random scripts; the first unlawful moment refuses an axis.
The exit status is 1 where the law refuses the right axis, lets a wrong one pass, or where no script showed what is wrong with one.
Some wrong axes break only what the contract of a single call says, of which the law says nothing; they are named apart, and only told.
"""
import os
import sys

if __debug__:  # the model's own assertions would stop the wrong axes before the law is asked
    os.execv(sys.executable, [sys.executable, "-O"] + sys.argv)

import law
import random_calls
from axis import MOVES, Axis, Drive, bit, divided_up, sign
from model import Creep, Ramp, Smoothed

SEEDS, COUNT, LONGEST = range(1, 91), 70, 260

# Scripts for what random ones seldom come to.
DIRECTED = """
bed phase creep
setup 40000
block 0x0002 0 0 100 40 0 100 100 0 0
tick 5

bed pulse creep
setup 1000
event 1
block 0x0002 0 0 -50 1 0 100 100 0 0
tick 3
event 1
tick 60
block 0 0 0 0 0 0 0 0 0 0
block 0x0002 0 0 -50 1 0 100 100 0 0
tick 3
event 3
event 4
tick 60

bed pulse ramp
setup 1000
rows 10 -5
block 0x2000 1 0 0 0 0 100 100 5 0
tick 400

bed pulse creep
setup 1000
rows 10 -5 4
block 0x2000 1 0 0 0 0 100 100 0 0
tick 10
block 0x0004 0 0 0 0 0 0 0 0 0
tick 100

bed pulse creep
setup 1000
rows 5 -5 5 -5 3 -3
block 0x2000 1 0 0 0 0 100 100 5 0
tick 12
block 0x0004 0 0 0 0 0 0 0 0 0
tick 100

bed pulse smooth 8 creep
setup 1000
rows 10 5 4
block 0x2000 0 0 0 0 0 100 100 0 0
tick 20
block 0x0004 0 0 0 0 0 0 0 0 0
tick 30

bed pulse smooth 8 creep
setup 1000
block 0x0002 0 0 10 1 0 100 100 0 0
tick 12
block 0x0004 0 0 0 0 0 0 0 0 0
tick 30

bed pulse ramp
setup 1000
block 0x0002 0 0 200 9 0 100 100 0 0
tick 30
block 0x0004 0 0 0 0 0 0 0 0 0
tick 100
block 0x0200 0 0 7 0 0 0 0 0 0
block 0x0008 0 0 0 5 0 100 100 0 0
tick 200

bed pulse ramp
setup 1000
block 0x0002 0 0 200 9 0 100 100 0 0
tick 30
block 0x0001 0 0 20 9 0 100 100 0 0
block 0 0 0 0 0 0 0 0 0 0
block 0x0002 0 0 20 9 0 100 100 0 0
tick 200

bed pulse creep
setup 1000
block 0x0002 0 0 -50 1 0 100 100 0 0
tick 3
event 1
tick 60

bed pulse creep
setup 1000
block 0x0800 0 0 0 0 0 0 0 0 0
block 0x1800 0 0 3 1 0 0 0 0 0
block 0x0800 0 0 0 0 0 0 0 0 0
block 0x1800 0 0 4 1 0 0 0 0 0
block 0x2800 0 0 0 0 0 100 100 0 0
tick 20

bed pulse creep
setup 1000
rows 3 4 5
rows 6 7
block 0x2000 0 0 0 0 0 100 100 0 0
tick 30
block 0 0 0 0 0 0 0 0 0 0
block 0x2000 1 0 0 0 0 100 100 2 0
tick 60

bed pulse creep
setup 1000
rows 5
block 0x2000 0 0 0 0 0 100 100 0 0
tick 20

bed pulse creep
setup 1000
rows 5 6
setup 1000
block 0x2000 0 0 0 0 0 100 100 0 0
tick 20

bed pulse creep
setup 1000
event 5
event 6
block 0x0002 0 0 50 1 0 100 100 0 0
tick 60

bed pulse ramp
setup 1000
block 0x0002 0 0 200 9 0 100 100 0 0
tick 30
block 0x0004 0 0 0 0 0 0 0 0 0
tick 100
setup 500
block 0x0008 0 0 0 5 0 100 100 0 0
tick 200
"""

# A dwell move in its first pause, and what comes then.
PAUSED = "bed pulse creep\nsetup 1000\nrows 10 -5 4\nblock 0x2000 1 0 0 0 0 100 100 5 0\ntick 12\n{}\ntick 100"
IN_A_PAUSE = ["event 1", "block 0x0010 0 0 0 0 0 0 0 0 0", "event 5", "event 7", "block 0x0004 0 0 0 0 0 0 0 0 0"]


class Quick(Ramp):
    """The same profile, told quicker: the braking distance by a sum, and the advance by halving."""

    def brakes(self, speed):
        falls = max(0, divided_up(speed - self.start, self.decel))
        return 0 if falls == 0 else (falls - 1) * speed - self.decel * falls * (falls - 1) // 2 + max(0, speed - falls * self.decel)

    def tick(self):
        if self.gone == self.asked:
            return 0
        fits, most = 0, min(max(self.row_speed(), self.last - self.decel), max(self.start, self.last + self.accel))
        while fits < most:
            speed = (fits + most + 1) // 2
            if speed + self.brakes(speed) <= self.asked - self.gone:
                fits = speed
            else:
                most = speed - 1
        self.gone += fits
        self.last = fits
        return fits

    def brake(self):
        self.asked = self.gone + self.brakes(self.last)


def over(ramp):
    """How a profile is made from its words where constant acceleration is this."""
    def named(words):
        return Smoothed(named(words[2:]), int(words[1])) if words[0] == "smooth" else {"creep": Creep, "ramp": ramp}[words[0]]()
    return named


quick_named = random_calls.profile_named = over(Quick)


class Taken(Axis):
    """The right axis, with its tick taken apart so that one thing at a time can be made wrong."""

    def tick_unchecked(self):
        if self.state == "Running" and self.paused:
            if self.waited < self.pause():
                self.waited += 1
                return 0
            self.paused = False
            self.leg = self.next_leg()
            self.begin_plan()
        if self.stopped():
            return 0
        before = self.profile.gone
        advance = self.advance()
        self.advances.append(advance)
        steps = self.legs[self.leg][0] * self.due(before)
        self.sent += abs(steps)
        answer = self.deliver(steps)
        if self.is_over():
            self.end()
        return answer

    def begin_plan(self):
        direction, rows = self.legs[self.leg]
        self.profile.begin(self.start, self.accel, self.decel, rows)
        self.sent, self.advances, self.left = 0, [], None

    def pause(self):
        return self.dwell

    def next_leg(self):
        return self.leg + 1

    def advance(self):
        return self.profile.tick()

    def due(self, before):
        return self.profile.gone // 1000 - self.sent

    def deliver(self, steps):
        if steps:
            self.drive.advance(steps)
        return steps

    def is_over(self):
        return self.profile.gone == self.profile.asked

    def end(self):
        if self.state == "Holding":
            self.end_holding()
        elif self.leg + 1 < len(self.legs):
            self.paused, self.waited = True, 0
        else:
            self.complete()

    def complete(self):
        self.flags["Move_Complete"] = True
        self.state = "Idle"


WRONG, BEYOND = [], []  # name, axis, drive, profile


def wrong(name, where=WRONG):
    def noted(kind):
        given = {"axis": Taken, "drive": Drive, "profile": quick_named}
        given["axis" if issubclass(kind, Axis) else "drive"] = kind
        where.append((name, given))
        return kind
    return noted


def beyond(name):
    return wrong(name, BEYOND)


# ---- Steps and the drive

@wrong("counts its steps and never calls its drive")
class NeverCalls(Taken):
    walked = 0

    @property
    def position(self):
        return self.drive.place + self.walked

    def status_words(self):
        place, self.drive.place = self.drive.place, self.position
        words = super().status_words()
        self.drive.place = place
        return words

    def deliver(self, steps):
        self.walked += steps
        return steps

    def carry_out(self, command, words):
        super().carry_out(command, words)
        if command == "Preset":
            self.walked = 0


@wrong("ticks answer 0 for good")
class NeverTicks(Taken):
    def tick_unchecked(self):
        return 0


@wrong("sends everything in the first tick")
class AllAtOnce(Taken):
    def advance(self):
        gone = self.profile.gone
        while self.profile.gone != self.profile.asked:
            self.profile.tick()
        return self.profile.gone - gone


@wrong("calls the drive twice")
class Twice(Taken):
    def deliver(self, steps):
        self.drive.advance(steps)
        return super().deliver(steps)


@wrong("answers 0 for the steps that it sent")
class Silent(Taken):
    def deliver(self, steps):
        super().deliver(steps)
        return 0


@wrong("answers a step more than it sent")
class Boasts(Taken):
    def deliver(self, steps):
        return super().deliver(steps) + sign(steps)


@wrong("keeps the steps of every fourth tick for the next")
class Late(Taken):
    def due(self, before):
        return 0 if len(self.advances) % 4 == 0 and not self.is_over() else super().due(before)


@wrong("drops the remainder of a begun step in each tick")
class NoRemainder(Taken):
    def due(self, before):
        return (self.profile.gone - before) // 1000


@wrong("sends no more than one step a tick, the others after the end")
class Drips(Taken):
    def due(self, before):
        return min(1, super().due(before))


@wrong("ticks its profile twice")
class Hurries(Taken):
    def advance(self):
        gone = self.profile.gone
        self.profile.tick()
        if self.profile.gone != self.profile.asked:
            self.profile.tick()
        return self.profile.gone - gone


@wrong("ticks its profile every second tick")
class Dawdles(Taken):
    odd = False

    def advance(self):
        self.odd = not self.odd
        return 0 if self.odd else super().advance()


@wrong("takes any speed over the phase drive")
class AnySpeed(Taken):
    def refusal(self, command, words):
        reach, self.drive.reach = self.drive.reach, 200
        answer = super().refusal(command, words)
        self.drive.reach = reach
        return answer

    def setup_unchecked(self, start):
        reach, self.drive.reach = self.drive.reach, 200
        answer = super().setup_unchecked(start)
        self.drive.reach = reach
        return answer


@wrong("a drive that forgets the steps of every seventh advance")
class Forgets(Drive):
    made = 0

    def advance(self, steps):
        place = self.place
        taken = super().advance(steps)
        self.made += 1
        if self.made % 7 == 0:
            self.place = place
        return taken


@wrong("a preset does not set the drive")
class PresetInside(Taken):
    shift = 0

    @property
    def position(self):
        return self.drive.place + self.shift

    def status_words(self):
        place, self.drive.place = self.drive.place, self.position
        words = super().status_words()
        self.drive.place = place
        return words

    def carry_out(self, command, words):
        place = self.drive.place
        super().carry_out(command, words)
        if command == "Preset":
            self.shift, self.drive.place = self.drive.place - place, place


@wrong("a preset is forgotten")
class PresetForgotten(Taken):
    def carry_out(self, command, words):
        place = self.drive.place
        super().carry_out(command, words)
        self.drive.place = place


# ---- The end of a move

@wrong("brakes early and reports Move_Complete")
class BrakesEarly(Taken):
    def advance(self):
        if self.state == "Running" and 2 * self.profile.gone > self.profile.asked:
            self.profile.brake()
        return super().advance()


@wrong("brakes early and is idle")
class BrakesSilently(BrakesEarly):
    def complete(self):
        self.state = "Idle"


@wrong("never sets Move_Complete")
class NeverComplete(Taken):
    def complete(self):
        self.state = "Idle"


@wrong("sets Move_Complete a step before the end")
class StepShort(Taken):
    def is_over(self):
        return super().is_over() or self.state == "Running" and abs(self.target - self.position) == 1 and len(self.legs) == 1


@wrong("sets Move_Complete a tick late")
class TickLate(Taken):
    late = False

    def complete(self):
        self.late = True

    def stopped(self):
        return self.late or super().stopped()

    def tick_unchecked(self):
        if self.late:
            self.late = False
            super().complete()
            return 0
        return super().tick_unchecked()


@wrong("a move leaves Move_Complete on")
class NeverClears(Taken):
    def carry_out(self, command, words):
        complete = self.flags["Move_Complete"]
        super().carry_out(command, words)
        if command in MOVES:
            self.flags["Move_Complete"] = complete


@wrong("Absolute goes by the offset")
class Offset(Taken):
    def legs_of(self, command, words):
        return super().legs_of("Relative" if command == "Absolute" else command, words)


@wrong("Relative goes to the target")
class Target(Taken):
    def legs_of(self, command, words):
        return super().legs_of("Absolute" if command == "Relative" else command, words)


# ---- Plans

@wrong("keeps the former starting speed at a set-up")
class OldStart(Taken):
    def setup_unchecked(self, start):
        former = self.start
        answer = super().setup_unchecked(start)
        if answer == 0 and former and former < start:
            self.start = former
        return answer


@wrong("acceleration and deceleration swapped")
class Swapped(Taken):
    def begin_plan(self):
        self.accel, self.decel = self.decel, self.accel
        super().begin_plan()
        self.accel, self.decel = self.decel, self.accel


@wrong("keeps the old row count at Program")
class OldRows(Taken):
    filled = 0

    def carry_out(self, command, words):
        table = self.table
        super().carry_out(command, words)
        if command == "Program":
            self.table, self.filled = table, 0
        elif command == "Segment":
            self.table = table[:self.filled] + self.table[-1:] + table[self.filled + 1:]
            self.filled += 1


@wrong("Segment puts its row first")
class RowFirst(Taken):
    def carry_out(self, command, words):
        super().carry_out(command, words)
        if command == "Segment":
            self.table = self.table[-1:] + self.table[:-1]


class Legs(Taken):
    def legs_of(self, command, words):
        legs = super().legs_of(command, words)
        if command != "Run":
            return legs
        return self.dwelling(legs) if bit(words[1], 0) else self.blended(legs)

    def dwelling(self, legs):
        return legs

    def blended(self, legs):
        return legs


@wrong("a blend with the signs of its rows")
class SignedBlend(Legs):
    def blended(self, legs):
        way = sum(distance for distance, _ in self.table)
        return legs if way == 0 else [(sign(way), [(abs(way), max(speed for _, speed in self.table))])]


@wrong("a blend in the direction of its first row")
class FirstSign(Legs):
    def blended(self, legs):
        return [(sign(self.table[0][0]), legs[0][1])]


@wrong("a blend always clockwise")
class Clockwise(Legs):
    def blended(self, legs):
        return [(1, legs[0][1])]


@wrong("a blend of the rows in reverse order")
class BackwardBlend(Legs):
    def blended(self, legs):
        return [(legs[0][0], legs[0][1][::-1])]


@wrong("a blend as one row of all its steps")
class OneRow(Legs):
    def blended(self, legs):
        return [(legs[0][0], [(sum(steps for steps, _ in legs[0][1]), max(speed for _, speed in legs[0][1]))])]


@wrong("a dwell move with its rows in reverse order")
class Backward(Legs):
    def dwelling(self, legs):
        return legs[::-1]


@wrong("a dwell move with its signs wrong")
class WrongSigns(Legs):
    def dwelling(self, legs):
        return [(-way, rows) for way, rows in legs]


@wrong("a dwell move with all its rows clockwise")
class NoSigns(Legs):
    def dwelling(self, legs):
        return [(1, rows) for _, rows in legs]


@wrong("a dwell move without its last row")
class LastRow(Legs):
    def dwelling(self, legs):
        return legs[:-1]


@wrong("a dwell move skips its second row")
class Skips(Taken):
    def next_leg(self):
        return 2 if self.leg == 0 and len(self.legs) > 2 else self.leg + 1


@wrong("a dwell move runs its first row again")
class Again(Taken):
    def next_leg(self):
        return 0 if self.leg == 0 and len(self.legs) > 2 and self.legs[0] != self.legs[1] else self.leg + 1


# ---- Pauses

@wrong("a pause a tick short")
class ShortPause(Taken):
    def pause(self):
        return max(0, self.dwell - 1)


@wrong("a pause a tick long")
class LongPause(Taken):
    def pause(self):
        return self.dwell + 1


@wrong("no pause at all")
class NoPause(Taken):
    def pause(self):
        return 0


@wrong("a pause after the last row too")
class LastPause(Taken):
    ending = False

    def complete(self):
        if len(self.legs) > 1 and self.dwell and not self.ending:
            self.ending, self.paused, self.waited = True, True, 0
        else:
            super().complete()

    def tick_unchecked(self):
        if self.ending:
            self.waited += 1
            if self.state != "Running":
                self.ending = False
            elif self.waited >= self.dwell:
                self.paused = self.ending = False
                super().complete()
            return 0
        return super().tick_unchecked()


@wrong("a pause of no ticks has none")
class JoinedRows(Taken):
    def end(self):
        super().end()
        if self.paused and self.dwell == 0:
            self.paused = False
            self.leg += 1
            self.begin_plan()


@wrong("a hold in a pause is forgotten when the next row begins")
class HoldsPause(Taken):
    def hold(self):
        if not self.paused:
            super().hold()


@wrong("a full stop leaves a pause going")
class StopsNoPause(Taken):
    def full_stop(self):
        paused = self.paused
        super().full_stop()
        if paused:
            self.state, self.paused = "Running", True


# ---- Holds

class HoldsLate(Taken):
    late = -1

    def ticks(self):
        return 0

    def hold(self):
        self.late = self.ticks()
        if self.paused or self.late == 0:
            self.late = -1
            super().hold()
        else:
            self.state = "Holding"

    def advance(self):
        if self.state == "Holding" and self.late == 0:
            self.profile.brake()
        self.late -= self.late >= 0
        return super().advance() if not self.is_over() else 0


@wrong("a hold that begins a tick late")
class HoldsATickLate(HoldsLate):
    def ticks(self):
        return 1


@wrong("a hold that needs a tick more than allowed")
class HoldsOneMore(HoldsLate):
    def ticks(self):
        return divided_up(self.profile.top - self.profile.start, self.profile.decel) + self.profile.lag + 1


@wrong("a hold is accepted and forgotten")
class HoldsNot(Taken):
    def hold(self):
        if self.paused:
            super().hold()


@wrong("a hold of a blend sets Move_Complete")
class HoldCompletes(Taken):
    def end_holding(self):
        assembled = self.assembled
        super().end_holding()
        if assembled and len(self.legs) == 1:
            self.flags["Move_Complete"] = True


@wrong("a hold of a single move sets Move_Complete where it stops")
class HoldEnds(Taken):
    def end_holding(self):
        super().end_holding()
        if self.state == "Held":
            self.complete()


@wrong("a resume goes by the whole move again")
class ResumesWhole(Taken):
    def legs_of(self, command, words):
        legs = super().legs_of(command, words)
        if command == "Resume":
            (way, [(_, speed)]), steps = legs[0], self.legs[0][1][0][0]
            return [(way, [(steps, speed)])]
        return legs


@wrong("a resume leaves the begun step out")
class ResumesShort(Taken):
    def legs_of(self, command, words):
        legs = super().legs_of(command, words)
        if command == "Resume" and self.profile.gone % 1000 and legs[0][1][0][0] > 1:
            way, [(steps, speed)] = legs[0]
            return [(way, [(steps - 1, speed)])]
        return legs


@wrong("a resume keeps the old rates")
class ResumesOld(Taken):
    def enter_move(self, command, words):
        old = [self.accel, self.decel] if command == "Resume" else words[6:8]
        super().enter_move(command, words[:6] + old + words[8:])


@wrong("a resume goes the other way")
class ResumesBack(Taken):
    def legs_of(self, command, words):
        legs = super().legs_of(command, words)
        return [(-legs[0][0], legs[0][1])] if command == "Resume" else legs


# ---- Full stops

@wrong("a full stop sends one more step in the next tick")
class OneMore(Taken):
    more = 0

    def full_stop(self):
        if not self.stopped():
            self.more = self.legs[self.leg][0]
        super().full_stop()

    def tick_unchecked(self):
        if self.more and not self.drive.tripped:
            steps, self.more = self.more, 0
            return self.deliver(steps)
        return super().tick_unchecked()

    def carry_out(self, command, words):
        super().carry_out(command, words)
        if command in MOVES:
            self.more = 0


@wrong("a full stop sends one more step in the call itself")
class OneMoreAtOnce(Taken):
    def full_stop(self):
        if not self.stopped():
            self.drive.advance(self.legs[self.leg][0])
        super().full_stop()


@wrong("an Immediate Stop brakes as a hold does")
class StopsSoftly(Taken):
    def full_stop(self):
        if self.state == "Running" and not self.paused:
            self.hold()
        else:
            super().full_stop()


class Event(Taken):
    def event_unchecked(self, code):
        before = self.state, self.paused, dict(self.flags)
        if 1 <= code <= 7 and self.ignores(code):
            limit, estop = dict(self.limit), self.estop
            answer = super().event_unchecked(code)
            self.state, self.paused, self.flags = before
            return answer
        return super().event_unchecked(code)

    def ignores(self, code):
        return False


@wrong("event 1 stops only moves clockwise")
class OnlyClockwise(Event):
    def ignores(self, code):
        return code == 1 and not self.stopped() and self.legs[self.leg][0] == -1


@wrong("a limit does not end holding")
class LimitNotHolding(Event):
    def ignores(self, code):
        return code in [1, 3] and self.state == "Holding"


@wrong("a limit does not stop in a pause")
class LimitNotPause(Event):
    def ignores(self, code):
        return code in [1, 3] and self.paused


@wrong("the E-stop does not stop")
class NoEStop(Event):
    def ignores(self, code):
        return code == 5


@wrong("a trip does not stop, and steps are counted that the drive refuses")
class TripGoesOn(Event):
    def ignores(self, code):
        return code == 7


@wrong("a limit that is on already stops again")
class StopsAgain(Taken):
    def event_unchecked(self, code):
        if code in [1, 3] and self.state in ["Running", "Holding"]:
            self.limit[1 if code == 1 else -1] = False
        return super().event_unchecked(code)


@wrong("a limit that goes off stops")
class StopsWhenOff(Taken):
    def event_unchecked(self, code):
        if code in [2, 4] and self.state in ["Running", "Holding"]:
            self.full_stop()
        return super().event_unchecked(code)


@wrong("an event without a meaning stops")
class StopsForAny(Taken):
    def event_unchecked(self, code):
        if not 1 <= code <= 7 and self.state == "Running":
            self.full_stop()
        return super().event_unchecked(code)


# ---- Blocks

@wrong("forgets the word of a refused block")
class Unkept(Taken):
    def block_unchecked(self, words):
        kept = self.kept
        answer = super().block_unchecked(words)
        if answer >= 3:
            self.kept = kept
        return answer


@wrong("keeps the word of a block that cannot be read")
class KeepsUnread(Taken):
    def block_unchecked(self, words):
        answer = super().block_unchecked(words)
        if answer == 2:
            self.kept = words[0]
        return answer


@wrong("carries out what it refuses for an Input_Error")
class RefusedAndDone(Taken):
    def block_unchecked(self, words):
        answer = super().block_unchecked(words)
        if answer == 7 and not self.drive.tripped:
            flags = dict(self.flags)
            self.flags["Input_Error"] = False
            estop, self.estop = self.estop, False
            if self.refusal(self.command, words) == 0:
                self.carry_out(self.command, words)
            self.flags["Input_Error"], self.estop = flags["Input_Error"], estop
        return answer


# ---- Readings

@wrong("a fixed reading")
class Fixed(Taken):
    def reading(self, buffer):
        return super().reading(buffer) if len(buffer) < 10 else (0, [0x4408, 0, 0, 0, 0, 0, 0, 0, 0, 0] + buffer[10:])


@wrong("fixed status words")
class FixedWords(Taken):
    def status_words(self):
        return [0x4408, 0, 0, 0, 0, 0, 0, 0, 0, 0]


@wrong("a reading writes into a short buffer")
class WritesShort(Taken):
    def reading(self, buffer):
        answer, words = super().reading(buffer)
        return answer, self.status_words()[:len(buffer)] if answer else words


@wrong("a reading clears the words past the tenth")
class WritesFar(Taken):
    def reading(self, buffer):
        answer, words = super().reading(buffer)
        return answer, words if answer else words[:10] + [0] * len(words[10:])


@wrong("a reading clears Move_Complete")
class ReadsComplete(Taken):
    def reading(self, buffer):
        answer, words = super().reading(buffer)
        self.flags["Move_Complete"] = False
        return answer, words


@wrong("a reading ticks the profile")
class ReadsTicking(Taken):
    def reading(self, buffer):
        if not self.stopped() and self.profile.asked - self.profile.gone > 1000 + self.profile.top:
            self.profile.tick()
        return super().reading(buffer)


@wrong("a position of another sign")
class WrongSign(Taken):
    def status_words(self):
        words = super().status_words()
        return words[:2] + [-words[2], -words[3]] + words[4:]


# ---- Profiles

class SlowBrake(Quick):
    """Forgets to brake."""

    def brake(self):
        pass


class Stuck(Quick):
    """Stops before its last step for good."""

    def tick(self):
        return 0 if self.asked - self.gone <= 1000 else super().tick()


class Short(Quick):
    """Asks for a step less than the plan has."""

    def begin(self, start, accel, decel, rows):
        super().begin(start, accel, decel, rows)
        if self.asked > 1000:
            self.asked -= 1000


WRONG.append(("a profile that forgets to brake", {"axis": Taken, "drive": Drive, "profile": over(SlowBrake)}))
WRONG.append(("a profile that stops before its last step", {"axis": Taken, "drive": Drive, "profile": over(Stuck)}))
WRONG.append(("a profile that asks for a step less", {"axis": Taken, "drive": Drive, "profile": over(Short)}))


# ---- Of which the law says little or nothing

@beyond("answers 4 to everything")
class AnswersFour(Taken):
    def setup(self, start):
        return 4

    def block(self, words):
        return 4

    def event(self, code):
        return 4


@wrong("accepts a move while one is under way")
class Overtakes(Taken):
    def is_allowed(self, command):
        return super().is_allowed(command) or self.state == "Running" and command in ["Absolute", "Relative"]


@wrong("a dwell move is complete as soon as it passes its target")
class Passes(Taken):
    def deliver(self, steps):
        answer = super().deliver(steps)
        if self.state == "Running" and len(self.legs) > 1 and self.position == self.target and not self.is_over():
            self.complete()
        return answer


@beyond("a hold of an assembled move at its target sets Move_Complete")
class HoldAtTarget(Taken):
    def end_holding(self):
        super().end_holding()
        if self.assembled and self.position == self.target:
            self.flags["Move_Complete"] = True


@beyond("a hold that ends at the target sets no Move_Complete")
class HoldNoComplete(Taken):
    def end_holding(self):
        super().end_holding()
        self.flags["Move_Complete"] = False


@wrong("a hold stops dead")
class StopsDead(Taken):
    def hold(self):
        if self.paused:
            super().hold()
        else:
            self.end_holding()


@beyond("Move_Complete goes off in the next tick")
class Forgetful(Taken):
    def tick_unchecked(self):
        self.flags["Move_Complete"] = False
        return super().tick_unchecked()


@beyond("Move_Complete comes on by Reset Errors at the place where the last move was sent")
class CompleteByReset(Taken):
    def carry_out(self, command, words):
        super().carry_out(command, words)
        if command == "Reset Errors" and self.state == "Idle" and self.legs and self.position == self.target:
            self.flags["Move_Complete"] = True


@beyond("moves against a limit")
class NoLimit(Taken):
    def refusal(self, command, words):
        answer = super().refusal(command, words)
        return 0 if answer == 10 else answer


@beyond("moves while the E-stop or Input_Error is on")
class NoInhibition(Taken):
    def refusal(self, command, words):
        answer = super().refusal(command, words)
        return answer if answer != 7 or self.drive.tripped else 0


@beyond("Absolute while the position is invalid")
class NoHome(Taken):
    def refusal(self, command, words):
        invalid, self.flags["Position_Invalid"] = self.flags["Position_Invalid"], False
        answer = super().refusal(command, words)
        self.flags["Position_Invalid"] = invalid
        return answer


@beyond("a preset keeps a held move")
class PresetHeld(Taken):
    def carry_out(self, command, words):
        state = self.state
        super().carry_out(command, words)
        if command == "Preset" and state == "Held":
            self.state = "Held"


@beyond("a set-up while held")
class SetUpHeld(Taken):
    def setup_unchecked(self, start):
        if self.state != "Held":
            return super().setup_unchecked(start)
        self.state = "Idle"
        answer = super().setup_unchecked(start)
        self.state = "Held"
        return answer


@beyond("a Run of a table of one row")
class SingleRow(Taken):
    def close(self):
        self.state, self.ready = "Idle", bool(self.table)


@beyond("a set-up keeps the table")
class SetUpKeeps(Taken):
    def setup_unchecked(self, start):
        table, ready = self.table, self.ready
        answer = super().setup_unchecked(start)
        self.table, self.ready = table, ready
        return answer


@beyond("event 7 stops and does not trip the drive")
class NoTrip(Taken):
    def event_unchecked(self, code):
        tripped = self.drive.tripped
        answer = super().event_unchecked(code)
        self.drive.tripped = tripped
        return answer


@beyond("a set-up clears the trip")
class SetUpClears(Taken):
    def setup_unchecked(self, start):
        answer = super().setup_unchecked(start)
        if answer == 0:
            self.drive.tripped = False
        return answer


@beyond("a reading clears Command_Error")
class ReadsErrors(Taken):
    def reading(self, buffer):
        self.flags["Command_Error"] = False
        return super().reading(buffer)


@wrong("a position told by words that are no pair")
class NoPair(Taken):
    def status_words(self):
        words = super().status_words()
        return words[:2] + [words[2] + 1, words[3] - 1000] + words[4:]


@beyond("a Run before the programming is closed")
class RunsOpen(Taken):
    def is_allowed(self, command):
        return super().is_allowed(command) or command == "Run" and self.state == "Programming" and len(self.table) > 1


@beyond("Stopped is always 1 in the status words")
class AlwaysStopped(Taken):
    def status_words(self):
        words = super().status_words()
        return [words[0] & ~0x63 | 8] + words[1:]


@beyond("no flag but Move_Complete is ever told")
class NoFlags(Taken):
    def status_words(self):
        words = super().status_words()
        return [words[0] & 0x4080, 0] + words[2:]


# ---- Playing

class Recorder(random_calls.Drawer):
    """Keeps the calls that it draws and their moments."""

    def __init__(self, seed, count):
        super().__init__(seed, count)
        self.made, self.moments = [], []
        self.bed = law.calls_of(self.lines)[0]
        self.first = law.first_account(law.drive_means(self.axis.drive), law.profile_means(self.axis.profile))

    def make(self, line):
        if self.calls == self.count:
            return
        self.lines.append(line)
        self.calls += 1
        made = law.calls_of(["bed none", line])[1]
        self.made += made
        self.moments += law.moments_of(self.axis, made)


class Written:
    """The same of a script that is written down."""

    def __init__(self, lines):
        self.bed, self.made = law.calls_of(lines)
        self.axis = axis_in(self.bed, Axis, Drive, quick_named)
        self.first = law.first_account(law.drive_means(self.axis.drive), law.profile_means(self.axis.profile))
        self.moments = list(law.moments_of(self.axis, self.made))


def rows_of(line):
    """The programming of some distances, or the line itself."""
    name, *rest = line.split()
    if name != "rows":
        return [line]
    blocks = [f"block 0x1800 0 0 {distance} 1 0 0 0 0 0" for distance in rest]
    opened = "block 0x0800 0 0 0 0 0 0 0 0 0"
    return [opened] + [line for block in blocks for line in [block, opened]] + ["block 0 0 0 0 0 0 0 0 0 0"]


def scripts():
    drawn = []
    for seed in SEEDS:
        drawer = Recorder(seed, COUNT)
        drawer.all()
        drawn.append(drawer)
    written = [Written([line for text in script.split("\n") for line in rows_of(text)]) for script in DIRECTED.strip().split("\n\n") + [PAUSED.format(what) for what in IN_A_PAUSE]]
    return drawn, written


def axis_in(bed, axis, drive, profile):
    kind, place, tripped, words = bed
    return axis(drive(kind, place, tripped), profile(words))


def trial(given, drawn):
    """In how many scripts the axis strayed from the right one, and where the law refused it: script, moment of the script, how many
    moments after it strayed, the clauses."""
    strayed = 0
    for script, right in enumerate(drawn, 1):
        made = axis_in(right.bed, **given)
        first = [None]

        def moments():
            for number, (m, other) in enumerate(zip(law.moments_of(made, right.made), right.moments), 1):
                if first[0] is None and m != other:
                    first[0] = number
                yield m

        found = law.LawfulRun(made.drive.reach, right.first, moments())
        strayed += first[0] is not None
        if found is not None:
            return strayed, (script, found[0], found[0] - (first[0] or found[0]), found[1])
    return strayed, None


def main():
    told = "-v" in sys.argv[1:]
    drawn, written = scripts()
    played = drawn + written
    refused = [script for script in played if law.LawfulRun(script.axis.drive.reach, script.first, script.moments) is not None]
    short = [script for script in drawn if len(script.moments) <= LONGEST] + written
    good = not refused and trial({"axis": Taken, "drive": Drive, "profile": quick_named}, short) == (0, None)
    passed = []
    for name, given in WRONG:
        strayed, found = trial(given, short)
        if found is None:
            passed.append(name)
            print(f"not refused, though it strayed in {strayed} scripts: {name}")
        elif told:
            print(f"{told_of(found)}: {name}")
    for name, given in BEYOND if told else []:
        strayed, found = trial(given, short)
        print(f"beyond the law, {'not refused' if found is None else told_of(found)}, strayed in {strayed} of {len(short)} scripts: {name}")
    print(f"{len(played)} scripts of the right axis, {sum(len(script.moments) for script in played)} moments, {len(refused)} refused; "
          f"{len(WRONG) - len(passed)} of {len(WRONG)} wrong axes refused")
    sys.exit(0 if good and not passed else 1)


def told_of(found):
    script, number, later, clauses = found
    return f"{', '.join(clauses)} at moment {number} of script {script} ({later} after it strayed)"


if __name__ == "__main__":
    main()
