#!/usr/bin/env python3
"""The law of runs, once more: a checker over recorded moments, written from the definitions in crates/law/specs and in their order, with
the same names, so that the two can be held side by side. Nothing is taken from the model of the axis but what was to be seen of it.

  tools/law.py FIRST LAST COUNT      the random scripts of the seeds from FIRST to LAST, COUNT calls each

It plays the scripts through the model of the axis, and tells how often each clause had something to say. The exit status is 1 where a
moment breaks the law, or where a clause never had anything to say.

What a profile means is told without the ticks left, which no code keeps and the law does not use.
"""
import collections
import dataclasses
import sys

import calls
from axis import Axis, Drive
from model import profile_named

record = dataclasses.dataclass(slots=True)

# ---- What the law takes from other specs

Cw, Ccw = 1, -1


def signed(way, steps):
    return way * steps


def toward(x, to):
    return Ccw if to < x else Cw


def distance(x, to):
    return abs(to - x)


def up_div(number, by):
    return -(-number // by)


def is_position(number):
    return abs(number) <= 8_388_607


@record
class DriveMeans:
    place: int
    tripped: bool


@record
class PlanMeans:
    start: int
    accel: int
    decel: int
    rows: list  # of Row


@record
class Row:
    steps: int
    speed: int


@record
class ProfileMeans:
    plan: object  # PlanMeans, or None
    asked: int
    gone: int
    lag: int


def landing(g, drive, steps):
    """Where an advance lands, or None where it is refused."""
    if drive.tripped or abs(steps) > g or not is_position(drive.place + steps):
        return None
    return drive.place + steps


def plan_steps(plan):
    return sum(row.steps for row in plan.rows)


def fastest(plan):
    return 0 if plan is None else max(row.speed for row in plan.rows) if plan.rows else 0


def plan_ticks(plan, lag):
    return up_div(1000 * plan_steps(plan), plan.start) + lag


def brake_ticks(profile):
    if profile.plan is None:
        return profile.lag
    return up_div(max(0, fastest(profile.plan) - profile.plan.start), profile.plan.decel) + profile.lag


def bit(number, bits):
    return bits >> number & 1 == 1


def joined(first, second):
    return 1000 * first + second


def decoded(first, second):
    """The number that two words say, if they are a pair."""
    return None if first * second < 0 or abs(second) >= 1000 else joined(first, second)


def pair_at(words, k):
    return words[k], words[k + 1]


@record
class Framed:
    """A block that can be read: ten words, and no bit without a meaning."""
    bits: int
    options: int
    place: tuple
    speed: tuple
    accel: int
    decel: int
    dwell: int


RESERVED = sum(1 << number for number in [5, 6, 7, 8, 14, 15])
COMMANDS = {1 << 0: "Absolute", 1 << 1: "Relative", 1 << 2: "Hold", 1 << 3: "Resume", 1 << 4: "Stop", 1 << 9: "Preset", 1 << 10: "Reset",
            1 << 11: "Program", 1 << 12: "Segment", 1 << 13: "Run"}


def block_of(words):
    """The block that some words are, or None."""
    if len(words) != 10 or words[0] & RESERVED:
        return None
    return Framed(words[0] & 0xFFFF, words[1] & 0xFFFF, (words[2], words[3]), (words[4], words[5]), words[6], words[7], words[8])


def commanded(rising):
    """The command of the one bit that rises, or None."""
    return COMMANDS.get(rising)


# Events by their codes: what, its direction, on or off.
EVENTS = {1: ("Limit", Cw, True), 2: ("Limit", Cw, False), 3: ("Limit", Ccw, True), 4: ("Limit", Ccw, False), 5: ("EStop", None, True),
          6: ("EStop", None, False), 7: ("Trip", None, True)}


def is_short(words):
    return len(words) < 10


# ---- Calls

@record
class SetUp:
    start: int


@record
class Block:
    words: list


@record
class Event:
    code: int


@record
class Tick:
    pass


@record
class Reading:
    words: list


@record
class Replied:
    number: int


@record
class Sent:
    steps: int


@record
class Read:
    number: int
    words: list


def accepted(answer):
    return not isinstance(answer, Sent) and answer.number == 0


def steps_in(answer):
    return answer.steps if isinstance(answer, Sent) else 0


# ---- Moments

@record
class Seen:
    words: list
    drive: DriveMeans
    profile: ProfileMeans


@record
class Moment:
    call: object
    answer: object
    seen: Seen


@record
class View:
    position: int
    complete: bool
    drive: DriveMeans
    profile: ProfileMeans


def view_of(seen):
    return View(joined(seen.words[2], seen.words[3]), bit(7, seen.words[0]), seen.drive, seen.profile)


# ---- Journeys

@record
class Leg:
    way: int
    plan: PlanMeans


@record
class Route:
    legs: list
    pause: int


def along(x, leg, gone):
    return x + signed(leg.way, gone // 1000)


def leg_end(x, leg):
    return x + signed(leg.way, plan_steps(leg.plan))


def move_ticks(lag, pause, legs):
    return sum(plan_ticks(leg.plan, lag) for leg in legs) + pause * max(0, len(legs) - 1)


@record
class none:
    pass


@record
class on:
    start: int
    leg: Leg
    later: list
    pause: int


@record
class pausing:
    waited: int
    at: int
    leg: Leg
    later: list
    pause: int


@record
class held:
    start: int
    leg: Leg


NONE = none()


def set_out(x, legs, pause):
    return on(x, legs[0], legs[1:], pause) if legs else NONE


def on_leg(over, x, leg, later, pause):
    if not over:
        return on(x, leg, later, pause)
    if not later:
        return NONE
    return pausing(0, leg_end(x, leg), later[0], later[1:], pause)


def ticked(over, journey):
    match journey:
        case on(x, leg, later, pause):
            return on_leg(over, x, leg, later, pause)
        case pausing(waited, x, leg, later, pause):
            if waited < pause:
                return pausing(waited + 1, x, leg, later, pause)
            return on_leg(over, x, leg, later, pause)
    return journey


def braked(journey):
    match journey:
        case on(x, leg, _, _):
            return held(x, leg)
        case pausing():
            return NONE
    return journey


def fresh(leg, before, after):
    return signed(leg.way, max(0, after // 1000 - before // 1000))


def due_in(journey, before, after):
    match journey:
        case on(_, leg, _, _) | held(_, leg):
            return fresh(leg, before, after)
        case pausing(waited, _, leg, _, pause):
            return 0 if waited < pause else fresh(leg, 0, after)
    return 0


# ---- Accounts

@record
class Timing:
    allowed: int
    passed: int


@record
class Rest:
    allowed: int
    sent: int


@record
class Levels:
    limits: dict  # by direction
    estop: bool


@record
class Segment:
    distance: int
    speed: int


@record
class Account:
    view: View
    counted: int
    kept: int
    levels: Levels
    start: int
    rows: list  # of Segment
    target: int
    journey: object
    underway: object  # Timing, or None
    resting: object  # Rest, or None


def first_account(drive, profile):
    return Account(View(drive.place, False, drive, profile), drive.place, 0, Levels({Cw: False, Ccw: False}, False), 1, [], drive.place, NONE,
                   None, None)


@record
class Ordered:
    command: str
    block: Framed


def ordered(kept, call, ok):
    if not (isinstance(call, Block) and ok):
        return None
    block = block_of(call.words)
    if block is None:
        return None
    command = commanded(block.bits & (block.bits ^ kept))
    return None if command is None else Ordered(command, block)


def kept_after(kept, call):
    if isinstance(call, Block):
        block = block_of(call.words)
        if block is not None:
            return block.bits
    return kept


def levels_after(levels, call):
    if isinstance(call, Event):
        match EVENTS.get(call.code):
            case ("Limit", way, is_on):
                return Levels({**levels.limits, way: is_on}, levels.estop)
            case ("EStop", _, is_on):
                return Levels(levels.limits, is_on)
    return levels


def start_after(start, call, ok):
    return abs(call.start) if isinstance(call, SetUp) and ok else start


def number_in(block):
    return joined(*block.place)


def speed_in(block):
    return abs(joined(*block.speed))


def segment_in(block):
    return Segment(number_in(block), speed_in(block))


def rows_after(rows, order):
    if order is not None and order.command == "Program":
        return []
    if order is not None and order.command == "Segment":
        return rows + [segment_in(order.block)]
    return rows


def sum_of(rows):
    return sum(segment.distance for segment in rows)


@record
class Moves:
    to: int
    route: Route


@record
class Holds:
    pass


@record
class Stops:
    pass


@record
class Presets:
    place: int


@record
class Ticks:
    pass


@record
class Nothing:
    pass


HOLDS, STOPS, TICKS, NOTHING = Holds(), Stops(), Ticks(), Nothing()


def plan_in(start, block, rows):
    return PlanMeans(start, abs(block.accel), abs(block.decel), rows)


def row_of(segment):
    return Row(abs(segment.distance), segment.speed)


def way_of(segment):
    return toward(0, segment.distance)


def single(a, block, to):
    x = a.view.position
    return Moves(to, Route([Leg(toward(x, to), plan_in(a.start, block, [Row(distance(x, to), speed_in(block))]))], 0))


def direction_of(block):
    return Ccw if bit(1, block.options) else Cw


def is_dwell_of(block):
    return bit(0, block.options)


def blend(a, block):
    rows = [row_of(segment) for segment in a.rows]
    way = direction_of(block)
    return Moves(a.view.position + signed(way, sum(row.steps for row in rows)), Route([Leg(way, plan_in(a.start, block, rows))], 0))


def row_leg(start, block, segment):
    return Leg(way_of(segment), plan_in(start, block, [row_of(segment)]))


def dwell(a, block):
    return Moves(a.view.position + sum_of(a.rows), Route([row_leg(a.start, block, segment) for segment in a.rows], abs(block.dwell)))


def command_effect(a, command, block):
    match command:
        case "Absolute":
            return single(a, block, number_in(block))
        case "Relative":
            return single(a, block, a.view.position + number_in(block))
        case "Hold":
            return HOLDS
        case "Resume":
            return single(a, block, a.target)
        case "Stop":
            return STOPS
        case "Preset":
            return Presets(number_in(block))
        case "Run":
            return dwell(a, block) if is_dwell_of(block) else blend(a, block)
    return NOTHING


def comes_on(a, event):
    match event:
        case ("Limit", way, True):
            return not a.levels.limits[way]
        case ("EStop", _, True):
            return not a.levels.estop
        case ("Trip", _, _):
            return not a.view.drive.tripped
    return False


def effect(a, call, ok):
    if isinstance(call, Block):
        order = ordered(a.kept, call, ok)
        return NOTHING if order is None else command_effect(a, order.command, order.block)
    if isinstance(call, Event):
        event = EVENTS.get(call.code)
        return STOPS if event is not None and comes_on(a, event) else NOTHING
    return TICKS if isinstance(call, Tick) else NOTHING


def effect_of(a, call, answer):
    return effect(a, call, accepted(answer))


def counted_by(counted, e, steps):
    match e:
        case Presets(place):
            return place
        case Ticks():
            return counted + steps
    return counted


def target_by(to, e):
    return e.to if isinstance(e, Moves) else to


def is_over(v):
    return v.profile.gone == v.profile.asked


def journey_by(x, journey, e, v):
    match e:
        case Moves(_, route):
            return set_out(x, route.legs, route.pause)
        case Holds():
            return braked(journey)
        case Stops() | Presets():
            return NONE
        case Ticks():
            return ticked(is_over(v), journey)
    return journey


def underway_by(underway, e, v):
    match e:
        case Moves(_, route):
            return Timing(move_ticks(v.profile.lag, route.pause, route.legs), 0)
        case Holds() | Stops():
            return None
    if v.complete or underway is None:
        return None
    return Timing(underway.allowed, underway.passed + 1) if isinstance(e, Ticks) else underway


def sending(resting, steps):
    return None if resting is None else Rest(resting.allowed, resting.sent + (steps != 0))


def resting_by(resting, e, steps, v):
    match e:
        case Moves():
            return None
        case Holds():
            return Rest(brake_ticks(v.profile), 0)
        case Stops():
            return Rest(0, 0)
        case Ticks():
            return sending(resting, steps)
    return resting


def account_after(a, call, answer, v):
    e = effect_of(a, call, answer)
    return Account(v, counted_by(a.counted, e, steps_in(answer)), kept_after(a.kept, call), levels_after(a.levels, call),
                   start_after(a.start, call, accepted(answer)), rows_after(a.rows, ordered(a.kept, call, accepted(answer))),
                   target_by(a.target, e), journey_by(a.view.position, a.journey, e, v), underway_by(a.underway, e, v),
                   resting_by(a.resting, e, steps_in(answer), v))


# ---- Law

def OnPlan(x, leg, v):
    return v.profile.plan == leg.plan and v.position == along(x, leg, v.profile.gone)


def Travels(journey, v):
    match journey:
        case on(x, leg, _, _) | held(x, leg):
            return OnPlan(x, leg, v)
        case pausing(_, x, _, _, _):
            return is_over(v) and v.position == x
    return True


def TravelsOn(journey, v):
    match journey:
        case on(x, leg, _, _) | held(x, leg):
            return OnPlan(x, leg, v)
        case pausing(waited, x, leg, _, pause):
            return is_over(v) and v.position == x if waited < pause else OnPlan(x, leg, v)
    return True


def Takes(g, drive, steps, to):
    return steps == 0 or landing(g, drive, steps) == to


def TickLaw(g, a, answer, v):
    due = due_in(a.journey, a.view.profile.gone, v.profile.gone)
    if answer != Sent(due):
        yield "call.sends"
    if not Takes(g, a.view.drive, due, v.drive.place):
        yield "call.taken"
    if not TravelsOn(a.journey, v):
        yield "call.travels"


def read_words(words, buffer):
    return buffer if is_short(buffer) else words + buffer[10:]


def ReadingLaw(a, buffer, answer, words, v):
    if answer != Read(12 if is_short(buffer) else 0, read_words(words, buffer)):
        yield "call.reads"
    if v != a.view:
        yield "call.keeps"


def CallLaw(g, a, call, answer, words, v):
    if isinstance(call, Tick):
        yield from TickLaw(g, a, answer, v)
    elif isinstance(call, Reading):
        yield from ReadingLaw(a, call.words, answer, words, v)


def Clears(e, v):
    return not isinstance(e, Moves) or not v.complete


def InTime(underway):
    return underway is None or underway.passed < underway.allowed


def Still(journey, v):
    match journey:
        case on() | pausing():
            return False
        case held():
            return is_over(v)
    return True


def Travelling(journey):
    return isinstance(journey, (on, pausing))


def Stands(a, e):
    match e:
        case Moves() | Presets():
            return a.underway is None and Still(a.journey, a.view)
        case Holds():
            return Travelling(a.journey)
    return True


def Arrives(a, journey, v):
    return a.view.complete or not v.complete or v.position == a.target and Still(journey, v)


def Settles(resting):
    return resting is None or resting.sent <= resting.allowed


def Law(g, a, call, answer, words, v, after):
    """The clauses that a moment breaks; `after` is the account after it."""
    if not (v.position == after.counted and v.drive.place == after.counted):
        yield "counts"
    if not abs(steps_in(answer)) <= up_div(fastest(v.profile.plan), 1000):
        yield "slow"
    if decoded(*pair_at(words, 2)) != v.position:
        yield "pair"
    yield from CallLaw(g, a, call, answer, words, v)
    if not Travels(after.journey, v):
        yield "travels"
    if not Clears(effect_of(a, call, answer), v):
        yield "clears"
    if not InTime(after.underway):
        yield "in_time"
    if not Arrives(a, after.journey, v):
        yield "arrives"
    if not Stands(a, effect_of(a, call, answer)):
        yield "stands"
    if not Settles(after.resting):
        yield "rests"


def LawfulRun(g, a, moments, watch=None):
    """The clauses that the first unlawful moment breaks and its number, or None. Whoever watches is told of each moment, of the account before
    it and of the one after it."""
    for number, m in enumerate(moments, 1):
        v = view_of(m.seen)
        after = account_after(a, m.call, m.answer, v)
        broken = list(Law(g, a, m.call, m.answer, m.seen.words, v, after))
        if broken:
            return number, broken, m, a
        if watch is not None:
            watch(m, a, after)
        a = after
    return None


# ---- Moments of the model

def drive_means(drive):
    return DriveMeans(drive.place, drive.tripped)


def profile_means(profile, known={}):
    plan = profile.plan
    if plan not in known:
        known.clear()
        known[plan] = None if plan is None else PlanMeans(*plan[:3], [Row(*row) for row in plan[3]])
    return ProfileMeans(known[plan], profile.asked, profile.gone, profile.lag)


def calls_of(lines):
    """The bed of a script (kind of drive, place, tripped, words of the profile) and its calls."""
    bed, place, tripped, made = None, 0, False, []
    for line in lines:
        name, *rest = line.split("#")[0].split() or [""]
        match name:
            case "bed":
                bed = rest
            case "at":
                place = int(rest[0])
            case "tripped":
                tripped = True
            case "setup":
                made.append(SetUp(int(rest[0])))
            case "block":
                made.append(Block([calls.word(text) for text in rest]))
            case "event":
                made.append(Event(int(rest[0])))
            case "reading":
                made.append(Reading([7] * (int(rest[0]) if rest else 10)))
            case "tick":
                made += [Tick()] * (int(rest[0]) if rest else 1)
    return (bed[0], place, tripped, bed[1:]), made


def answer_of(axis, call):
    match call:
        case SetUp(start):
            return Replied(axis.setup(start))
        case Block(words):
            return Replied(axis.block(words))
        case Event(code):
            return Replied(axis.event(code))
        case Reading(words):
            return Read(*axis.reading(words))
    return Sent(axis.tick())


def moments_of(axis, made):
    for call in made:
        answer = answer_of(axis, call)
        yield Moment(call, answer, Seen(axis.status_words(), drive_means(axis.drive), profile_means(axis.profile)))


def judged(bed, made, axis_of=Axis, drive_of=Drive, profile_of=profile_named, watch=None):
    """What LawfulRun says of the calls made of an axis at power-up."""
    kind, place, tripped, words = bed
    axis = axis_of(drive_of(kind, place, tripped), profile_of(words))
    first = first_account(drive_means(axis.drive), profile_means(axis.profile))
    return LawfulRun(axis.drive.reach, first, moments_of(axis, made), watch)


# ---- How often a clause has something to say

SITUATIONS = """counts: steps were answered
counts: a preset was accepted
slow: as many steps as may be
call.sends: on a leg, some
call.sends: on a leg, none
call.sends: in a pause
call.sends: a next leg begins, some
call.sends: a next leg begins, none
call.sends: after a hold, some
call.sends: after a hold, none
call.sends: no journey
call.taken: some, clockwise
call.taken: some, counterclockwise
call.taken: as many as the drive goes
call.travels: a leg of one tick
call.reads: a long buffer
call.reads: a short buffer
travels: on a leg
travels: on a leg of a dwell move
travels: on a blend
travels: in a pause
travels: in a pause of no ticks
travels: held
travels: a leg ends and a pause begins
clears: Move_Complete was on
clears: Move_Complete was off
in_time: a tick under way
in_time: the last tick allowed
in_time: a dwell move's last tick allowed
arrives: a single move
arrives: a resume
arrives: a resume of a resume
arrives: a blend
arrives: a dwell move
arrives: after a hold
rests: a tick that sends after a hold
rests: as many ticks as may after a hold
rests: a tick after a full stop
effect: Absolute
effect: Relative
effect: Resume
effect: a blend
effect: a dwell move
effect: a hold on a leg
effect: a hold in a pause
effect: a hold in a pause of no ticks
effect: a preset while held
effect: a full stop by command
effect: a full stop by a limit
effect: a full stop by the E-stop
effect: a full stop by a trip
effect: a full stop under way
effect: a full stop in a pause
effect: a full stop while holding
effect: a level that is on comes on again
effect: a level that is on comes on again under way
effect: a tripped drive trips
effect: an event without a meaning
account: a refused block's word is kept
account: a word that cannot be read is not kept
account: a bit rises again after a refusal
account: a set-up changes the starting speed
account: a new programming after rows
account: a row is added""".split("\n")


class Watch:
    """Counts the situations, over the moments of one script after the other."""

    def __init__(self):
        self.met = collections.Counter()
        self.beds = collections.Counter()
        self.moments = 0

    def begin(self, bed):
        self.beds[bed[0]] += 1
        self.beds[" ".join(bed[3])] += 1
        self.move, self.resumes, self.leg_ticks, self.refused = None, 0, 0, 0
        self.reach = Drive(bed[0]).reach

    def __call__(self, m, a, b):
        self.moments += 1
        say = self.say
        e = effect_of(a, m.call, m.answer)
        order = ordered(a.kept, m.call, accepted(m.answer))
        v, steps = b.view, steps_in(m.answer)
        say(steps != 0, "counts: steps were answered")
        say(isinstance(e, Presets), "counts: a preset was accepted")
        say(steps != 0 and abs(steps) == up_div(fastest(v.profile.plan), 1000), "slow: as many steps as may be")
        if isinstance(m.call, Tick):
            self.tick(a, b, steps)
        if isinstance(m.call, Reading):
            say(True, "call.reads: a short buffer" if is_short(m.call.words) else "call.reads: a long buffer")
        self.journey(a, b)
        if isinstance(e, Moves):
            say(True, f"clears: Move_Complete was {'on' if a.view.complete else 'off'}")
            kind = order.command
            if kind == "Run":
                kind = "a dwell move" if is_dwell_of(order.block) else "a blend"
            say(True, f"effect: {kind}")
            self.resumes = self.resumes + 1 if kind == "Resume" else 0
            self.move = kind
        if a.underway is not None and isinstance(e, Ticks):
            say(True, "in_time: a tick under way")
            last = a.underway.passed + 1 == a.underway.allowed
            say(last, "in_time: the last tick allowed")
            say(last and self.move == "a dwell move", "in_time: a dwell move's last tick allowed")
        if v.complete and not a.view.complete:
            if isinstance(a.journey, held):
                say(True, "arrives: after a hold")
            elif self.move == "Resume":
                say(True, "arrives: a resume")
                say(self.resumes > 1, "arrives: a resume of a resume")
            else:
                say(True, f"arrives: {self.move if self.move in ['a blend', 'a dwell move'] else 'a single move'}")
        if a.resting is not None and isinstance(e, Ticks):
            after_hold = isinstance(a.journey, held)
            say(after_hold and steps != 0, "rests: a tick that sends after a hold")
            say(after_hold and steps != 0 and b.resting.sent == b.resting.allowed, "rests: as many ticks as may after a hold")
            say(not after_hold and a.resting.allowed == 0, "rests: a tick after a full stop")
        self.effect(m, a, b, e)
        self.account(m, a, b, order)

    def say(self, met, what):
        if met:
            self.met[what] += 1

    def tick(self, a, b, steps):
        some = "some" if steps else "none"
        match a.journey:
            case on():
                what = f"on a leg, {some}"
            case pausing(waited, _, _, _, pause):
                what = "in a pause" if waited < pause else f"a next leg begins, {some}"
            case held():
                what = f"after a hold, {some}"
            case _:
                what = "no journey"
        self.say(True, f"call.sends: {what}")
        self.say(steps > 0, "call.taken: some, clockwise")
        self.say(steps < 0, "call.taken: some, counterclockwise")
        self.say(abs(steps) == self.reach, "call.taken: as many as the drive goes")
        first = isinstance(a.journey, on) and a.view.profile.gone == 0
        first = first or isinstance(a.journey, pausing) and a.journey.waited == a.journey.pause
        self.say(first and is_over(b.view), "call.travels: a leg of one tick")
        self.say(isinstance(b.journey, pausing) and b.journey.waited == 0 and b.journey is not a.journey, "travels: a leg ends and a pause begins")

    def journey(self, a, b):
        match b.journey:
            case on(_, leg, later, _):
                self.say(True, "travels: on a leg")
                self.say(bool(later), "travels: on a leg of a dwell move")
                self.say(len(leg.plan.rows) > 1, "travels: on a blend")
            case pausing():
                self.say(True, "travels: in a pause")
                self.say(b.journey.pause == 0, "travels: in a pause of no ticks")
            case held():
                self.say(True, "travels: held")

    def effect(self, m, a, b, e):
        say = self.say
        if isinstance(e, Holds):
            say(isinstance(a.journey, on), "effect: a hold on a leg")
            say(isinstance(a.journey, pausing), "effect: a hold in a pause")
            say(isinstance(a.journey, pausing) and a.journey.pause == 0, "effect: a hold in a pause of no ticks")
        say(isinstance(e, Presets) and isinstance(a.journey, held), "effect: a preset while held")
        event = EVENTS.get(m.call.code) if isinstance(m.call, Event) else None
        if isinstance(e, Stops):
            say(True, f"effect: a full stop by {'command' if event is None else dict(Limit='a limit', EStop='the E-stop', Trip='a trip')[event[0]]}")
            say(a.underway is not None and isinstance(a.journey, on), "effect: a full stop under way")
            say(isinstance(a.journey, pausing), "effect: a full stop in a pause")
            say(isinstance(a.journey, held) and not is_over(a.view), "effect: a full stop while holding")
        if event is not None and event[2] and not isinstance(e, Stops):
            if event[0] == "Trip":
                say(True, "effect: a tripped drive trips")
            else:
                say(True, "effect: a level that is on comes on again")
                say(a.underway is not None, "effect: a level that is on comes on again under way")
        say(isinstance(m.call, Event) and event is None, "effect: an event without a meaning")

    def account(self, m, a, b, order):
        say = self.say
        if isinstance(m.call, Block):
            readable = block_of(m.call.words) is not None
            say(not readable and m.call.words[:1] != [] and m.call.words[0] & 0xFFFF != a.kept, "account: a word that cannot be read is not kept")
            say(readable and not accepted(m.answer) and b.kept != a.kept, "account: a refused block's word is kept")
            if readable:
                say(order is not None and bool(self.refused & ~a.kept & b.kept), "account: a bit rises again after a refusal")
                self.refused = b.kept & ~a.kept if not accepted(m.answer) else self.refused & ~b.kept | self.refused & ~a.kept
        say(a.start != b.start, "account: a set-up changes the starting speed")
        say(order is not None and order.command == "Program" and bool(a.rows), "account: a new programming after rows")
        say(len(b.rows) > len(a.rows), "account: a row is added")


def main():
    import random_calls
    first, last, count = map(int, sys.argv[1:])
    watch, unlawful = Watch(), 0
    for seed in range(first, last + 1):
        bed, made = calls_of(random_calls.Drawer(seed, count).all())
        watch.begin(bed)
        found = judged(bed, made, watch=watch)
        if found is not None:
            number, broken, m, a = found
            unlawful += 1
            print(f"seed {seed}, moment {number} breaks {', '.join(broken)}: {m} after {a}")
    print(f"{last - first + 1} scripts, {watch.moments} moments, {unlawful} scripts that break the law")
    for bed, times in sorted(watch.beds.items()):
        print(f"  {bed}: {times} scripts")
    for what in SITUATIONS:
        print(f"  {what}: {watch.met[what]}")
    for what in set(watch.met) - set(SITUATIONS):
        print(f"  not listed: {what}")
    sys.exit(1 if unlawful or not all(watch.met[what] for what in SITUATIONS) else 0)


if __name__ == "__main__":
    main()
