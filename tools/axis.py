"""The rules of the axis, followed to the letter: its drive, set-up, blocks, events, ticks and readings. Slow and plain; nothing is taken from
the Rattle code. While it runs it asserts what the rules promise: see `Axis.check` and the words `promised` below.
"""

COILS = [1, 5, 4, 6, 2, 10, 8, 9]
REACH = {"pulse": 200, "phase": 20}

COMMANDS = {0: "Absolute", 1: "Relative", 2: "Hold", 3: "Resume", 4: "Immediate Stop", 9: "Preset", 10: "Reset Errors", 11: "Program",
            12: "Segment", 13: "Run"}
MOVES = ["Absolute", "Relative", "Resume", "Run"]
FLAGS = ["Configuration_Error", "Command_Error", "Input_Error", "Position_Invalid", "Move_Complete"]


def is_position(number):
    return -8_388_607 <= number <= 8_388_607


def sign(number):
    return (number > 0) - (number < 0)


def divided_up(number, by):
    return -(-number // by)


def bit(word, number):
    return (word >> number) & 1 == 1


def word_of(bits):
    """The word with those bits set that are true."""
    return sum(1 << number for number, on in bits.items() if on)


def pair(first, second):
    """The number that a pair of words holds, or None where it breaks the pair rule."""
    if sign(first) * sign(second) < 0 or abs(second) >= 1000:
        return None
    return 1000 * first + second


class Drive:
    def __init__(self, kind, place=0, tripped=False):
        self.kind, self.place, self.tripped = kind, place, tripped
        self.reach = REACH[kind]
        self.line = 1    # the pulse drive's direction line
        self.phase = 0   # the phase drive's phase

    def advance(self, steps):
        """True where the advance is made, False where it is refused."""
        if self.tripped or abs(steps) > self.reach or not is_position(self.place + steps):
            return False
        self.place += steps
        if steps != 0:
            self.line = sign(steps)
        self.phase = (self.phase + steps) % 8
        return True

    def set(self, place):
        if not is_position(place):
            return False
        self.place = place
        return True

    def coils(self):
        return COILS[self.phase]


class Axis:
    def __init__(self, drive, profile):
        self.drive, self.profile = drive, profile
        self.state = "Idle"  # Idle, Running, Holding, Held or Programming
        self.kept = 0
        self.limit = {1: False, -1: False}  # the levels of the CW and the CCW limit, by direction
        self.estop = False
        self.table, self.ready = [], False  # rows of distance and speed
        self.flags = {"Configuration_Error": True, "Command_Error": False, "Input_Error": False, "Position_Invalid": True,
                      "Move_Complete": False}
        self.start = 0  # S, before the first set-up not in use

        # The move under way or held.
        self.assembled = False      # a Run, not a single move
        self.target = 0
        self.legs, self.leg = [], 0  # one for each plan: its direction and its rows; and which one is the present
        self.accel = self.decel = self.dwell = 0
        self.paused, self.waited = False, 0
        self.sent = 0               # steps sent of the present plan
        self.advances = []          # of the present plan

        # Kept only to assert what is promised.
        self.counted = drive.place  # the last accepted preset plus all answered steps
        self.allowed = self.passed = 0  # ticks that the move may take, ticks that it took
        self.stopping = None        # after a Hold or a full stop: how many more ticks may send steps
        self.left = None            # ticks left of the plan, where it was short enough to be told at its begin
        self.leg_ends = []          # where the move should be at the end of each plan
        self.command = None         # what the last block asked for, for whoever watches

    # The position is the drive's place.
    @property
    def position(self):
        return self.drive.place

    def stopped(self):
        return not (self.state == "Holding" or self.state == "Running" and not self.paused)

    # ---- Set-up

    def setup(self, start):
        answer = self.setup_unchecked(start)
        self.check()
        return answer

    def setup_unchecked(self, start):
        if self.state != "Idle":
            return 4
        if not 1 <= start <= 1000 * self.drive.reach:
            self.flags["Configuration_Error"] = True
            self.empty_table()
            return 13
        self.start = start
        self.flags["Configuration_Error"] = False
        self.flags["Position_Invalid"] = True
        self.empty_table()
        return 0

    def empty_table(self):
        self.table, self.ready = [], False

    # ---- Blocks

    def block(self, words):
        answer = self.block_unchecked(words)
        self.check()
        return answer

    def block_unchecked(self, words):
        self.command = None
        if len(words) != 10:
            return 1
        if any(bit(words[0], number) for number in [5, 6, 7, 8, 14, 15]):
            return 2
        before, self.kept = self.kept, words[0]
        if self.state == "Programming" and bit(before, 11) and not bit(self.kept, 11):
            self.close()
        rising = [name for number, name in COMMANDS.items() if bit(self.kept, number) and not bit(before, number)]
        if not rising:
            return 0
        if len(rising) > 1:
            answer = 3
        else:
            self.command = rising[0]
            answer = self.refusal(self.command, words)
        if answer:
            self.flags["Command_Error"] = True
            if answer == 10:
                self.flags["Input_Error"] = True
            return answer
        self.carry_out(self.command, words)
        return 0

    def close(self):
        self.state = "Idle"
        if len(self.table) < 2:
            self.empty_table()
        else:
            self.ready = True

    def is_allowed(self, command):
        if command == "Immediate Stop":
            return True
        if command == "Reset Errors":
            return self.state in ["Idle", "Held"]
        if command == "Hold":
            return self.state == "Running"
        if command == "Resume":
            return self.state == "Held"
        if command == "Segment":
            return self.state == "Programming" and len(self.table) < 16
        if command == "Run" and not self.ready:
            return False
        return self.state in ["Idle", "Held"] and not self.flags["Configuration_Error"]

    def refusal(self, command, words):
        """Questions 4 to 10: the number of the first no, or 0."""
        if not self.is_allowed(command):
            return 4

        distance, speed = pair(words[2], words[3]), pair(words[4], words[5])
        uses_distance = command in ["Absolute", "Relative", "Preset", "Segment"]
        uses_speed = command in ["Absolute", "Relative", "Resume", "Segment"]
        if uses_distance and distance is None or uses_speed and speed is None:
            return 5

        accel, decel, dwell = words[6], words[7], words[8]
        dwelling = command == "Run" and bit(words[1], 0)
        if uses_distance and not is_position(distance):
            return 6
        if command == "Segment" and distance == 0:
            return 6
        if uses_speed and not self.start <= speed <= 1000 * self.drive.reach:
            return 6
        if command in MOVES and not (1 <= accel <= 5000 and 1 <= decel <= 5000):
            return 6
        if dwelling and not 0 <= dwell <= 30_000:
            return 6

        if command not in MOVES:
            return 0
        if self.flags["Input_Error"] or self.estop or self.drive.tripped:
            return 7
        if command == "Absolute" and self.flags["Position_Invalid"]:
            return 8
        legs = self.legs_of(command, words)
        place = self.position
        ends = []
        for direction, rows in legs:
            place += direction * sum(steps for steps, _ in rows)
            ends.append(place)
        if any(steps == 0 for _, rows in legs for steps, _ in rows) or not all(is_position(end) for end in ends):
            return 9
        if any(self.limit[direction] for direction, _ in legs):
            return 10
        return 0

    def legs_of(self, command, words):
        """The plans of a move in their order, each as its direction and its rows of steps and speed."""
        if command == "Run":
            if bit(words[1], 0):
                return [(sign(distance), [(abs(distance), speed)]) for distance, speed in self.table]
            direction = -1 if bit(words[1], 1) else 1
            return [(direction, [(abs(distance), speed) for distance, speed in self.table])]
        if command == "Absolute":
            way = pair(words[2], words[3]) - self.position
        elif command == "Relative":
            way = pair(words[2], words[3])
        else:
            way = self.target - self.position
        return [(sign(way), [(abs(way), pair(words[4], words[5]))])]

    def carry_out(self, command, words):
        if command in MOVES:
            self.enter_move(command, words)
        elif command == "Hold":
            self.hold()
        elif command == "Immediate Stop":
            self.full_stop()
        elif command == "Preset":
            self.state = "Idle"
            taken = self.drive.set(pair(words[2], words[3]))
            assert taken
            self.flags["Position_Invalid"] = False
            self.flags["Move_Complete"] = False
            self.counted = pair(words[2], words[3])
        elif command == "Reset Errors":
            self.flags["Command_Error"] = False
            self.flags["Input_Error"] = False
            self.flags["Move_Complete"] = False
            if bit(words[1], 10):
                self.drive.tripped = False
        elif command == "Program":
            self.empty_table()
            self.state = "Programming"
        elif command == "Segment":
            self.table = self.table + [(pair(words[2], words[3]), pair(words[4], words[5]))]

    def enter_move(self, command, words):
        legs = self.legs_of(command, words)
        if command == "Resume":
            # promised: the steps not yet sent, in the direction that the move had
            assert not self.assembled and legs[0][0] == self.legs[0][0]
            assert legs[0][1][0][0] == self.legs[0][1][0][0] - self.sent
        self.assembled = command == "Run"
        self.legs, self.leg = legs, 0
        self.accel, self.decel = words[6], words[7]
        self.dwell = words[8] if len(legs) > 1 else 0
        self.flags["Move_Complete"] = False
        self.state = "Running"
        self.paused = False

        place, self.leg_ends = self.position, []
        for direction, rows in legs:
            place += direction * sum(steps for steps, _ in rows)
            self.leg_ends.append(place)
        if command == "Resume":
            assert place == self.target
        self.target = place
        self.stopping = None
        self.passed = 0
        self.allowed = (len(legs) - 1) * self.dwell
        for _, rows in legs:
            self.allowed += divided_up(1000 * sum(steps for steps, _ in rows), self.start) + self.profile.lag
        self.begin_plan()

    def begin_plan(self):
        direction, rows = self.legs[self.leg]
        # promised: every plan keeps its bounds
        assert 1 <= len(rows) <= 16 and sum(steps for steps, _ in rows) <= 16_777_214
        assert all(steps >= 1 and 1 <= self.start <= speed <= 200_000 for steps, speed in rows)
        self.profile.begin(self.start, self.accel, self.decel, rows)
        self.sent = 0
        self.advances = []
        self.left = None
        if self.profile.asked <= 300 * self.start:
            self.left = self.profile.left()
            assert self.left <= divided_up(self.profile.asked, self.start) + self.profile.lag

    def hold(self):
        left = self.left
        gone, asked = self.profile.gone, self.profile.asked
        self.profile.brake()
        assert self.profile.gone == gone and gone <= self.profile.asked <= asked
        # promised: so many ticks may still send steps
        self.stopping = divided_up(self.profile.top - self.profile.start, self.profile.decel) + self.profile.lag
        if left is not None:
            self.left = self.profile.left()
            assert self.left <= left and self.left <= self.stopping
        self.state = "Holding"
        if self.profile.gone == self.profile.asked:
            self.end_holding()
            # promised: Hold sets no Move_Complete in the block itself
            assert not self.flags["Move_Complete"]

    def end_holding(self):
        self.paused = False
        if self.assembled:
            self.state = "Idle"
        elif self.position != self.target:
            self.state = "Held"
        else:
            self.flags["Move_Complete"] = True
            self.state = "Idle"

    def full_stop(self):
        if self.state == "Programming":
            self.empty_table()
        self.state = "Idle"
        self.paused = False
        self.flags["Position_Invalid"] = True
        self.stopping = 0

    # ---- Events

    def event(self, code):
        answer = self.event_unchecked(code)
        self.check()
        return answer

    def event_unchecked(self, code):
        if not 1 <= code <= 7:
            return 11
        if code in [1, 3]:
            direction = 1 if code == 1 else -1
            if not self.limit[direction]:
                self.limit[direction] = True
                if self.state in ["Running", "Holding"]:
                    self.full_stop()
                    self.flags["Input_Error"] = True
        elif code in [2, 4]:
            self.limit[1 if code == 2 else -1] = False
        elif code == 5:
            if not self.estop:
                self.estop = True
                self.full_stop()
                self.flags["Input_Error"] = True
        elif code == 6:
            self.estop = False
        elif not self.drive.tripped:
            self.drive.tripped = True
            self.full_stop()
        return 0

    # ---- Ticks

    def tick(self):
        steps = self.tick_unchecked()
        self.counted += steps
        if steps != 0 and self.stopping is not None:
            # promised: after a Hold only so many ticks send steps, after a full stop none
            assert self.stopping > 0, "steps sent after a stop"
            self.stopping -= 1
        self.check()
        return steps

    def tick_unchecked(self):
        if self.state == "Running":
            self.passed += 1
            # promised: no move takes more ticks than it is allowed
            assert self.passed <= self.allowed, "more ticks than allowed"
        if self.state == "Running" and self.paused:
            if self.waited < self.dwell:
                self.waited += 1
                return 0
            self.paused = False
            self.leg += 1
            self.begin_plan()
        if self.stopped():
            return 0

        left_over = self.profile.gone != self.profile.asked
        assert left_over, "in motion with nothing left"
        gone = self.profile.gone
        advance = self.profile.tick()
        assert 0 <= advance <= self.profile.top and self.profile.gone == gone + advance
        self.advances.append(advance)
        direction, _ = self.legs[self.leg]
        steps = direction * (self.profile.gone // 1000 - self.sent)
        if steps != 0:
            # promised: no advance is refused by the drive
            taken = self.drive.advance(steps)
            assert taken, "the drive refused an advance"
            self.sent += abs(steps)
        assert self.sent == self.profile.gone // 1000
        assert abs(steps) <= divided_up(self.profile.top, 1000)
        if self.left is not None:
            self.left -= 1
            assert (self.left == 0) == (self.profile.gone == self.profile.asked)

        if self.profile.gone == self.profile.asked:
            if self.state == "Holding":
                self.end_holding()
            else:
                # promised: each plan that nothing stops ends where it should
                assert self.position == self.leg_ends[self.leg]
                if self.leg + 1 < len(self.legs):
                    self.paused, self.waited = True, 0
                else:
                    self.flags["Move_Complete"] = True
                    self.state = "Idle"
            if self.flags["Move_Complete"]:
                # promised: a move that completes has reached its target
                assert self.position == self.target
        return steps

    # ---- Readings

    def reading(self, buffer):
        """The answer, and the words of the buffer afterwards."""
        if len(buffer) < 10:
            return 12, buffer
        return 0, self.status_words() + buffer[10:]

    def status_words(self):
        moving = not self.stopped()
        direction = self.legs[self.leg][0] if moving else 0
        before, last = ([0, 0] + self.advances)[-2:]
        waiting = self.state == "Programming" and len(self.table) < 16 and not bit(self.kept, 12)
        status = {
            14: True,
            13: self.flags["Configuration_Error"],
            12: self.flags["Command_Error"],
            11: self.flags["Input_Error"],
            10: self.flags["Position_Invalid"],
            9: waiting,
            8: self.state == "Programming",
            7: self.flags["Move_Complete"],
            6: moving and last < before,
            5: moving and last > before,
            3: self.stopped(),
            2: self.state == "Held",
            1: direction == -1,
            0: direction == 1,
        }
        inputs = {7: self.drive.tripped, 2: self.estop, 1: self.limit[-1], 0: self.limit[1]}
        size = abs(self.position)
        thousands, rest = sign(self.position) * (size // 1000), sign(self.position) * (size % 1000)
        # promised: the words say the position
        assert pair(thousands, rest) == self.position
        return [word_of(status), word_of(inputs), thousands, rest, 0, 0, 0, 0, 0, 0]

    # ---- What holds after every call

    def check(self):
        # promised: the position is the last accepted preset plus all answered steps
        assert self.counted == self.drive.place and is_position(self.drive.place)
        assert len(self.table) <= 16 and all(is_position(distance) and distance != 0 for distance, _ in self.table)
        assert all(self.start <= speed <= 1000 * self.drive.reach for _, speed in self.table)
        if self.state == "Programming":
            assert bit(self.kept, 11) and not self.ready
        else:
            assert self.ready == (len(self.table) >= 2) and (self.ready or not self.table)
        if self.state != "Idle":
            assert not self.flags["Configuration_Error"]
        if self.state in ["Running", "Holding"]:
            assert not self.flags["Move_Complete"] and not self.drive.tripped and not self.estop
            assert self.paused or self.profile.gone != self.profile.asked
        if self.state == "Running":
            # promised: a move that nothing stops ends in the ticks allowed
            assert self.passed < self.allowed
        if self.state in ["Holding", "Held"]:
            assert self.state == "Holding" or not self.assembled and self.position != self.target
            assert not self.drive.tripped and not self.estop
        if self.paused:
            assert self.state == "Running" and self.profile.gone == self.profile.asked
