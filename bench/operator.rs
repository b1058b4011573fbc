// Someone who makes random calls of a plain axis, and chooses them by its state, so that all of it is reached.
use crate::calls::{look, number, reading, Bed, List, OnAxis};
use crate::plain::axis::{Axis, State, Task, MAX_ROWS};
use crate::plain::drive::{Drive, FARTHEST};
use crate::plain::profile::Profile;
use crate::random::Random;
use crate::tally::{column, Tally};

const ABSOLUTE: u16 = 1 << 0;
const RELATIVE: u16 = 1 << 1;
const HOLD: u16 = 1 << 2;
const RESUME: u16 = 1 << 3;
const STOP: u16 = 1 << 4;
const PRESET: u16 = 1 << 9;
const RESET: u16 = 1 << 10;
const PROGRAM: u16 = 1 << 11;
const SEGMENT: u16 = 1 << 12;
const RUN: u16 = 1 << 13;
const COMMANDS: [u16; 10] = [
    ABSOLUTE, RELATIVE, HOLD, RESUME, STOP, PRESET, RESET, PROGRAM, SEGMENT, RUN,
];
const RESERVED: [u16; 6] = [1 << 5, 1 << 6, 1 << 7, 1 << 8, 1 << 14, 1 << 15];
// The numbers that a pair can say.
const MOST_PAIR: i32 = 32_767_999;
// Ticks after which a move is no longer waited for.
const PATIENCE: u16 = 500;

// A list of calls and what the plain axis answered.
pub struct Script {
    pub bed: Bed,
    pub list: List,
    pub answers: Vec<i32>,
}

#[derive(Clone, Copy)]
enum Act {
    SetUp,
    Command(u16),
    AnyCommand,
    Release,
    Close,
    CloseAndStop,
    Event,
    Ticks,
    Wait,
    Limits,
    Free,
}

struct Operator<'a, D, P> {
    axis: Axis<D, P>,
    random: &'a mut Random,
    tally: &'a mut Tally,
    list: List,
    answers: Vec<i32>,
}

impl<D: Drive, P: Profile> Operator<'_, D, P> {
    fn column(&self) -> usize {
        column(self.axis.state())
    }

    fn top(&self) -> i32 {
        1000 * D::REACH
    }

    // The calls, each noted with its answers.

    fn set_up(&mut self, speed: i32) {
        let column = self.column();
        let answer = number(self.axis.set_up(speed));
        self.tally.set_ups[answer as usize][column] += 1;
        self.list.set_up(speed);
        self.answers.push(answer);
    }

    fn block(&mut self, words: &[i16]) {
        let (before, kept, rows) = (self.axis.state(), self.axis.kept(), self.axis.table().len());
        let answer = number(self.axis.block(words));
        self.tally.blocks[answer as usize][column(before)] += 1;
        if answer == 0 {
            self.note_command(words[0] as u16 & !kept, before);
        }
        if before == State::Programming && kept & PROGRAM != 0 && self.axis.kept() & PROGRAM == 0 {
            self.note_closing(rows);
        }
        self.list.block(words);
        self.answers.push(answer);
    }

    fn note_command(&mut self, rising: u16, before: State) {
        if rising == 0 {
            return;
        }
        self.tally.accepted[rising.trailing_zeros() as usize] += 1;
        match rising {
            RUN if matches!(self.axis.task(), Task::Blend) => self.tally.blends += 1,
            RUN => self.tally.dwell_moves += 1,
            ABSOLUTE | RELATIVE | RESUME => self.tally.single_moves += 1,
            HOLD if self.axis.state() != State::Holding => {
                self.tally.holds_at_once += 1;
                let completed = self.axis.flags().move_complete;
                let after = self.axis.state();
                // In a pause or in the block itself: as a hold that is over.
                let from = match before {
                    State::Running => State::Holding,
                    other => other,
                };
                self.tally.passage(from, after, self.axis.task(), completed);
            }
            _ => {}
        }
    }

    fn note_closing(&mut self, rows: usize) {
        if rows >= 2 {
            self.tally.tables_ready += 1;
        } else {
            self.tally.tables_emptied += 1;
        }
        if rows == MAX_ROWS {
            self.tally.full_tables += 1;
        }
    }

    fn event(&mut self, code: i32) {
        let row = if (1..=7).contains(&code) { code } else { 8 };
        self.tally.events[row as usize][self.column()] += 1;
        let answer = number(self.axis.event(code));
        self.list.event(code);
        self.answers.push(answer);
    }

    fn tick(&mut self) {
        let before = self.axis.state();
        let steps = self.axis.tick();
        let row = if steps == 0 {
            &mut self.tally.quiet_ticks
        } else {
            &mut self.tally.sending_ticks
        };
        row[column(before)] += 1;
        self.tally.steps += steps.unsigned_abs() as u64;
        let after = self.axis.state();
        if before != after {
            let completed = self.axis.flags().move_complete;
            self.tally
                .passage(before, after, self.axis.task(), completed);
        }
        self.answers.push(steps);
    }

    fn ticks(&mut self, count: u16) {
        for _ in 0..count {
            self.tick();
        }
        self.list.ticks(count);
    }

    // Ticks until the state is another one, a pause that has begun included.
    fn wait(&mut self) {
        let column = self.column();
        let mut count = 0;
        while count < PATIENCE && self.column() == column {
            self.tick();
            count += 1;
        }
        self.list.ticks(count);
    }

    fn reading(&mut self, size: u8) {
        let column = self.column();
        let from = self.answers.len();
        self.answers.resize(from + 1 + size as usize, 0);
        reading(&self.axis, &mut self.answers[from..]);
        self.tally.readings[self.answers[from] as usize][column] += 1;
        self.list.reading(size);
    }

    fn look(&mut self) {
        self.tally.looks[self.column()] += 1;
        self.list.drive();
        self.answers.extend(look(self.axis.drive()));
    }

    // Random numbers, most of them in range.

    // A distance: few steps, so that many moves end.
    fn way(&mut self) -> i32 {
        let kind = self
            .random
            .weighted(&[(50, 0), (25, 1), (8, 2), (2, 3), (2, 4), (3, 5)]);
        let size = match kind {
            0 => self.random.between(1, 12),
            1 => self.random.sized(400),
            2 => self.random.sized(FARTHEST),
            3 => 0,
            4 => self.random.between(FARTHEST - 3, FARTHEST + 3),
            _ => self.random.sized(MOST_PAIR),
        };
        size * self.random.sign()
    }

    fn speed(&mut self) -> i32 {
        let start = self.axis.start() as i32;
        let top = self.top();
        match self
            .random
            .weighted(&[(85, 0), (5, 1), (5, 2), (1, 3), (1, 4), (1, 5)])
        {
            0 => (start + self.random.sized(top) - 1).min(top),
            1 => start,
            2 => top,
            3 => start - 1,
            4 => top + 1,
            _ => self.random.between(-MOST_PAIR, MOST_PAIR),
        }
    }

    fn start(&mut self) -> i32 {
        let top = self.top();
        match self
            .random
            .weighted(&[(60, 0), (25, 1), (5, 2), (3, 3), (3, 4), (2, 5)])
        {
            0 => self.random.between(50, 2000),
            1 => self.random.sized(top),
            2 => top,
            3 => 0,
            4 => top + 1,
            _ => self.random.next() as i32,
        }
    }

    fn rate(&mut self) -> i16 {
        match self
            .random
            .weighted(&[(48, 0), (48, 1), (1, 2), (1, 3), (1, 4)])
        {
            0 => self.random.sized(5000) as i16,
            1 => self.random.between(20, 500) as i16,
            2 => 5000,
            3 => self.random.pick(&[0, -1, 5001]),
            _ => self.random.next() as i16,
        }
    }

    fn dwell(&mut self) -> i16 {
        match self
            .random
            .weighted(&[(70, 0), (20, 1), (5, 2), (1, 3), (1, 4)])
        {
            0 => self.random.between(0, 6) as i16,
            1 => self.random.sized(300) as i16,
            2 => self.random.sized(30_000) as i16,
            3 => self.random.pick(&[-1, 30_000, 30_001]),
            _ => self.random.next() as i16,
        }
    }

    // Blocks.

    // The words of a command without its bits. What it does not use is often set to anything.
    fn words(&mut self, command: u16) -> [i16; 10] {
        let mut words = [0; 10];
        if self.random.chance(50) {
            words.fill_with(|| self.random.next() as i16);
        }
        match command {
            ABSOLUTE | PRESET => {
                let place = self.place();
                put_pair(&mut words, 2, place);
            }
            RELATIVE | SEGMENT => {
                let way = self.way();
                put_pair(&mut words, 2, way);
            }
            RUN => words[1] = words[1] & !3 | self.random.pick(&[0, 0, 1, 1, 1, 2, 2, 3]),
            RESET => words[1] = words[1] & !(1 << 10) | self.random.pick(&[0, 1 << 10, 1 << 10]),
            _ => {}
        }
        if command != PRESET {
            let speed = self.speed();
            put_pair(&mut words, 4, speed);
            words[6] = self.rate();
            words[7] = self.rate();
            words[8] = self.dwell();
        }
        words
    }

    // A place to go to or to be at: near the present one, near an end of the positions, or anywhere.
    fn place(&mut self) -> i32 {
        let way = self.way();
        match self.random.weighted(&[(70, 0), (12, 1), (18, 2)]) {
            0 => self.axis.drive().place() + way % 1_000_000,
            1 => self.random.sign() * (FARTHEST - self.random.between(0, 400)),
            _ => way,
        }
    }

    // What stays set in word 0 so that programming goes on.
    fn stays(&self) -> u16 {
        if self.axis.state() == State::Programming {
            PROGRAM
        } else {
            0
        }
    }

    // A bit that is still set has to fall before it can rise.
    fn release(&mut self) {
        let mut words = self.words(0);
        words[0] = self.stays() as i16;
        self.block(&words);
    }

    fn command(&mut self, command: u16) {
        if self.axis.kept() & command != 0 && !self.random.chance(4) {
            self.release();
        }
        let mut words = self.words(command);
        let mut bits = command | self.stays();
        if self.random.chance(10) {
            bits |= self.axis.kept();
        }
        if self.random.chance(2) {
            bits |= self.random.pick(&COMMANDS);
        }
        words[0] = bits as i16;
        self.send(words);
    }

    // A few blocks are spoilt: too short or too long, with a bit that has no meaning, with a word that may be anything, or one with the wrong sign.
    fn send(&mut self, mut words: [i16; 10]) {
        match self.random.below(150) {
            0 => {
                let count = self.random.pick(&[0, 1, 9, 11, 12, 30, 255]);
                let mut other = words.to_vec();
                other.resize(count, 0);
                self.block(&other);
                return;
            }
            1 => words[0] |= self.random.pick(&RESERVED) as i16,
            2 | 3 => words[self.random.between(1, 9) as usize] = self.random.next() as i16,
            4 => {
                let at = self.random.between(2, 5) as usize;
                words[at] = -words[at].saturating_add(1);
            }
            5 => words[self.random.pick(&[3, 5])] = 1000,
            _ => {}
        }
        self.block(&words);
    }

    fn close(&mut self, command: u16) {
        let mut words = self.words(command);
        words[0] = command as i16;
        self.block(&words);
    }

    // Acts.

    // Any event, but few that keep the axis from moving.
    fn any_event(&mut self) {
        let code = self.random.weighted(&[
            (4, 1),
            (8, 2),
            (4, 3),
            (8, 4),
            (3, 5),
            (8, 6),
            (3, 7),
            (2, 0),
            (2, 8),
            (1, -1),
            (1, i32::MIN),
        ]);
        self.event(code);
    }

    // Makes it likely that the axis may move again.
    fn free(&mut self) {
        for code in [2, 4, 6] {
            if self.random.chance(80) {
                self.event(code);
            }
        }
        let mut words = self.words(RESET);
        words[0] = 0;
        self.block(&words);
        self.command(RESET);
        if self.axis.flags().position_invalid && self.random.chance(70) {
            self.command(PRESET);
        }
    }

    // A limit that stays on while moves are tried.
    fn limits(&mut self) {
        let code = self.random.pick(&[1, 3]);
        self.event(code);
        for _ in 0..2 {
            let command = self.random.pick(&[ABSOLUTE, RELATIVE, RUN]);
            self.command(command);
        }
        self.ticks(1);
        if self.random.chance(85) {
            self.event(code + 1);
        }
    }

    fn few_ticks(&mut self) {
        let count = match self.random.below(4) {
            0 => 1,
            1 => self.random.between(2, 8),
            2 => self.random.between(1, 60),
            _ => self.random.between(0, 3),
        };
        self.ticks(count as u16);
    }

    fn is_inhibited(&self) -> bool {
        let levels = self.axis.levels();
        self.axis.flags().input_error || levels.e_stop || self.axis.drive().is_tripped()
    }

    fn choose(&mut self) -> Act {
        use Act::*;
        match self.axis.state() {
            State::Idle if self.axis.flags().configuration_error => self.random.weighted(&[
                (70, SetUp),
                (10, AnyCommand),
                (10, Event),
                (5, Ticks),
                (5, Release),
            ]),
            State::Idle if self.is_inhibited() => self.random.weighted(&[
                (60, Free),
                (20, AnyCommand),
                (10, Event),
                (5, SetUp),
                (5, Ticks),
            ]),
            State::Idle if self.axis.table().is_empty() => self.random.weighted(&[
                (5, SetUp),
                (6, Command(PRESET)),
                (16, Command(ABSOLUTE)),
                (20, Command(RELATIVE)),
                (18, Command(PROGRAM)),
                (8, AnyCommand),
                (2, Release),
                (3, Event),
                (4, Ticks),
                (2, Limits),
                (3, Free),
            ]),
            State::Idle => self.random.weighted(&[
                (1, SetUp),
                (6, Command(PRESET)),
                (8, Command(ABSOLUTE)),
                (10, Command(RELATIVE)),
                (3, Command(PROGRAM)),
                (45, Command(RUN)),
                (4, AnyCommand),
                (2, Release),
                (2, Event),
                (3, Ticks),
                (2, Limits),
                (3, Free),
            ]),
            State::Programming => self.random.weighted(&[
                (70, Command(SEGMENT)),
                (8, Close),
                (1, CloseAndStop),
                (2, AnyCommand),
                (3, Release),
                (2, Event),
                (2, Ticks),
                (1, SetUp),
            ]),
            State::Running | State::Pausing { .. } => self.random.weighted(&[
                (30, Ticks),
                (40, Wait),
                (9, Command(HOLD)),
                (1, Command(STOP)),
                (3, AnyCommand),
                (4, Release),
                (2, Event),
                (1, SetUp),
            ]),
            State::Holding => self.random.weighted(&[
                (40, Ticks),
                (40, Wait),
                (1, Command(STOP)),
                (5, AnyCommand),
                (4, Release),
                (2, Event),
                (1, SetUp),
            ]),
            State::Held => self.random.weighted(&[
                (50, Command(RESUME)),
                (5, Command(RESET)),
                (4, Command(ABSOLUTE)),
                (4, Command(RELATIVE)),
                (3, Command(PROGRAM)),
                (2, Command(RUN)),
                (2, Command(PRESET)),
                (5, AnyCommand),
                (4, Ticks),
                (3, Release),
                (4, Event),
                (2, Limits),
                (2, SetUp),
                (if self.is_inhibited() { 60 } else { 1 }, Free),
            ]),
        }
    }

    fn act(&mut self) {
        match self.choose() {
            Act::SetUp => {
                let speed = self.start();
                self.set_up(speed);
            }
            Act::Command(command) => self.command(command),
            Act::AnyCommand => {
                let command = self.random.pick(&COMMANDS);
                self.command(command);
            }
            Act::Release => self.release(),
            Act::Close => self.close(0),
            Act::CloseAndStop => {
                let command = self.random.pick(&COMMANDS);
                self.close(command);
            }
            Act::Event => self.any_event(),
            Act::Ticks => self.few_ticks(),
            Act::Wait => self.wait(),
            Act::Limits => self.limits(),
            Act::Free => self.free(),
        }
        self.observe();
    }

    // A reading after every third call or so, and sometimes one after each of some ticks.
    fn observe(&mut self) {
        match self.random.below(60) {
            0..16 => self.reading(10),
            16 => {
                let size = self.random.pick(&[0, 1, 9, 11, 12, 255]);
                self.reading(size);
            }
            17 | 18 => self.look(),
            19 => {
                for _ in 0..self.random.between(1, 6) {
                    self.ticks(1);
                    self.reading(10);
                }
            }
            _ => {}
        }
    }
}

// Writes a number as the pair of words that begins at a word; one that no pair says is written wrongly.
fn put_pair(words: &mut [i16; 10], at: usize, number: i32) {
    words[at] = (number / 1000) as i16;
    words[at + 1] = (number % 1000) as i16;
}

struct Acts<'a> {
    count: u32,
    random: &'a mut Random,
    tally: &'a mut Tally,
}

impl OnAxis for Acts<'_> {
    type Output = (List, Vec<i32>);

    fn run<D: Drive, P: Profile>(self, axis: Axis<D, P>) -> (List, Vec<i32>) {
        let mut operator = Operator {
            axis,
            random: self.random,
            tally: self.tally,
            list: List::default(),
            answers: Vec::new(),
        };
        operator.look();
        operator.reading(10);
        for _ in 0..self.count {
            operator.act();
        }
        operator.look();
        operator.reading(10);
        (operator.list, operator.answers)
    }
}

// The lengths of smoothings: 0 counts as 1, and more than 64 as 64.
fn length(random: &mut Random) -> u32 {
    random.pick(&[
        0,
        1,
        2,
        3,
        4,
        5,
        7,
        8,
        16,
        31,
        32,
        63,
        64,
        65,
        1000,
        u32::MAX,
    ])
}

// The list of a seed: its bed, its calls and what the plain axis answers.
pub fn script_of(seed: u64, acts: u32, tally: &mut Tally) -> Script {
    let mut random = Random::new(seed);
    let bed = Bed {
        drive: random.below(2) as u8,
        profile: random.below(6) as u8,
        outer: length(&mut random),
        inner: length(&mut random),
    };
    tally.lists += 1;
    let acts = Acts {
        count: acts,
        random: &mut random,
        tally,
    };
    let (list, answers) = crate::calls::on_bed(bed, acts);
    Script { bed, list, answers }
}
