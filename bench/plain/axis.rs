// The axis over any drive and any profile, with its five calls.
use super::block::{self, Command, Rates, Refusal, Words};
use super::drive::{is_position, Drive};
use super::profile::{Plan, Profile, Row};

pub const MAX_ROWS: usize = 16;
const MILLI: u64 = 1000;

#[derive(Clone, Copy, PartialEq, Eq)]
pub enum State {
    Idle,
    Programming,
    Running,
    // Between two rows of a dwell move: so many ticks are still to be waited.
    Pausing { left: u32 },
    Holding,
    Held,
}

#[derive(Default)]
pub struct Flags {
    pub configuration_error: bool,
    pub command_error: bool,
    pub input_error: bool,
    pub position_invalid: bool,
    pub move_complete: bool,
}

#[derive(Default)]
pub struct Levels {
    pub clockwise: bool,
    pub counterclockwise: bool,
    pub e_stop: bool,
}

// A row of the table.
#[derive(Clone, Copy)]
pub struct Segment {
    pub distance: i32,
    pub speed: u32,
}

impl Segment {
    fn row(self) -> Row {
        Row {
            steps: self.distance.unsigned_abs(),
            speed: self.speed,
        }
    }
}

// What the plan under way belongs to.
#[derive(Clone, Copy, PartialEq, Eq)]
pub enum Task {
    Single { target: i32 },
    Blend,
    Dwell { row: usize, dwell: u32 },
}

// The plan under way, or the last one.
struct Leg {
    task: Task,
    rates: Rates,
    // 1 clockwise, -1 counterclockwise.
    direction: i32,
    sent: u32,
    // The last advance of the plan and the one before it.
    last: u32,
    before: u32,
}

pub struct Axis<D, P> {
    drive: D,
    profile: P,
    state: State,
    kept: u16,
    start: u32,
    flags: Flags,
    levels: Levels,
    table: Vec<Segment>,
    leg: Leg,
}

impl<D: Drive, P: Profile> Axis<D, P> {
    pub fn new(drive: D, profile: P) -> Self {
        Axis {
            drive,
            profile,
            state: State::Idle,
            kept: 0,
            start: 0,
            flags: Flags {
                configuration_error: true,
                position_invalid: true,
                ..Flags::default()
            },
            levels: Levels::default(),
            table: Vec::with_capacity(MAX_ROWS),
            leg: Leg {
                task: Task::Blend,
                rates: Rates { accel: 1, decel: 1 },
                direction: 1,
                sent: 0,
                last: 0,
                before: 0,
            },
        }
    }

    fn top_speed() -> i32 {
        1000 * D::REACH
    }

    // Set-up.

    pub fn set_up(&mut self, start: i32) -> Result<(), Refusal> {
        if self.state != State::Idle {
            return Err(Refusal::State);
        }
        self.table.clear();
        if start < 1 || start > Self::top_speed() {
            self.flags.configuration_error = true;
            return Err(Refusal::StartingSpeed);
        }
        self.start = start as u32;
        self.flags.configuration_error = false;
        self.flags.position_invalid = true;
        Ok(())
    }

    // Blocks.

    pub fn block(&mut self, words: &[i16]) -> Result<(), Refusal> {
        let words: &Words = words.try_into().map_err(|_| Refusal::Count)?;
        let asked = words[0] as u16;
        if asked & block::RESERVED != 0 {
            return Err(Refusal::ReservedBits);
        }
        let rising = asked & !self.kept;
        let falling = self.kept & !asked;
        self.kept = asked;
        if self.state == State::Programming && falling & block::PROGRAM_BIT != 0 {
            self.close_programming();
        }
        if rising == 0 {
            return Ok(());
        }
        let answer = self.command(rising, words);
        if let Err(refusal) = answer {
            self.flags.command_error = true;
            if refusal == Refusal::Limit {
                self.flags.input_error = true;
            }
        }
        answer
    }

    fn close_programming(&mut self) {
        if self.table.len() < 2 {
            self.table.clear();
        }
        self.state = State::Idle;
    }

    fn command(&mut self, rising: u16, words: &Words) -> Result<(), Refusal> {
        if rising.count_ones() != 1 {
            return Err(Refusal::ManyCommands);
        }
        let command = Command::of(rising);
        if !self.allows(command) {
            return Err(Refusal::State);
        }
        match command {
            Command::Absolute => self.absolute(words),
            Command::Relative => self.relative(words),
            Command::Resume => self.resume(words),
            Command::Run if block::is_dwell(words) => self.run_dwell(words),
            Command::Run => self.run_blend(words),
            Command::Preset => self.preset(words),
            Command::Segment => self.segment(words),
            Command::Hold => {
                self.hold();
                Ok(())
            }
            Command::ImmediateStop => {
                self.full_stop();
                Ok(())
            }
            Command::ResetErrors => {
                self.reset_errors(block::clears_trip(words));
                Ok(())
            }
            Command::Program => {
                self.table.clear();
                self.state = State::Programming;
                Ok(())
            }
        }
    }

    fn allows(&self, command: Command) -> bool {
        let at_rest = matches!(self.state, State::Idle | State::Held);
        let is_set_up = !self.flags.configuration_error;
        match command {
            Command::ImmediateStop => true,
            Command::ResetErrors => at_rest,
            Command::Hold => matches!(self.state, State::Running | State::Pausing { .. }),
            Command::Resume => self.state == State::Held,
            Command::Segment => self.state == State::Programming && self.table.len() < MAX_ROWS,
            Command::Absolute | Command::Relative | Command::Preset | Command::Program => {
                at_rest && is_set_up
            }
            // At rest the table is empty or ready.
            Command::Run => at_rest && is_set_up && !self.table.is_empty(),
        }
    }

    fn absolute(&mut self, words: &Words) -> Result<(), Refusal> {
        let target = block::way_pair(words)?;
        let speed = block::speed_pair(words)?;
        self.check_position(target)?;
        let speed = self.check_speed(speed)?;
        let rates = block::rates(words)?;
        self.check_free()?;
        if self.flags.position_invalid {
            return Err(Refusal::PositionInvalid);
        }
        self.go_to(target, speed, rates)
    }

    fn relative(&mut self, words: &Words) -> Result<(), Refusal> {
        let offset = block::way_pair(words)?;
        let speed = block::speed_pair(words)?;
        self.check_position(offset)?;
        let speed = self.check_speed(speed)?;
        let rates = block::rates(words)?;
        self.check_free()?;
        self.go_to(self.drive.place() + offset, speed, rates)
    }

    fn resume(&mut self, words: &Words) -> Result<(), Refusal> {
        let speed = block::speed_pair(words)?;
        let speed = self.check_speed(speed)?;
        let rates = block::rates(words)?;
        self.check_free()?;
        let Task::Single { target } = self.leg.task else {
            unreachable!("only a single move is held")
        };
        self.go_to(target, speed, rates)
    }

    fn run_blend(&mut self, words: &Words) -> Result<(), Refusal> {
        let rates = block::rates(words)?;
        self.check_free()?;
        let direction = if block::is_counterclockwise(words) {
            -1
        } else {
            1
        };
        let rows: Vec<Row> = self.table.iter().map(|segment| segment.row()).collect();
        let steps: i64 = rows.iter().map(|row| row.steps as i64).sum();
        self.check_end(self.drive.place() as i64 + direction as i64 * steps)?;
        self.check_limit(direction)?;
        self.begin(Task::Blend, direction, rates, &rows);
        Ok(())
    }

    fn run_dwell(&mut self, words: &Words) -> Result<(), Refusal> {
        let rates = block::rates(words)?;
        let dwell = block::dwell(words)?;
        self.check_free()?;
        let mut end = self.drive.place() as i64;
        for segment in &self.table {
            end += segment.distance as i64;
            self.check_end(end)?;
        }
        for segment in &self.table {
            self.check_limit(segment.distance.signum())?;
        }
        self.begin_row(0, dwell, rates);
        Ok(())
    }

    fn preset(&mut self, words: &Words) -> Result<(), Refusal> {
        let place = block::way_pair(words)?;
        self.check_position(place)?;
        self.drive.set(place);
        self.flags.position_invalid = false;
        self.flags.move_complete = false;
        self.state = State::Idle;
        Ok(())
    }

    fn segment(&mut self, words: &Words) -> Result<(), Refusal> {
        let distance = block::way_pair(words)?;
        let speed = block::speed_pair(words)?;
        self.check_position(distance)?;
        if distance == 0 {
            return Err(Refusal::Range);
        }
        let speed = self.check_speed(speed)?;
        self.table.push(Segment { distance, speed });
        Ok(())
    }

    fn hold(&mut self) {
        self.profile.brake();
        self.state = State::Holding;
        if self.profile.is_done() {
            self.end_hold();
        }
    }

    fn reset_errors(&mut self, clears_trip: bool) {
        self.flags.command_error = false;
        self.flags.input_error = false;
        self.flags.move_complete = false;
        if clears_trip {
            self.drive.set_tripped(false);
        }
    }

    fn check_position(&self, number: i32) -> Result<(), Refusal> {
        if is_position(number as i64) {
            Ok(())
        } else {
            Err(Refusal::Range)
        }
    }

    fn check_speed(&self, speed: i32) -> Result<u32, Refusal> {
        block::within(speed, self.start as i32, Self::top_speed())
    }

    // No move where something keeps the axis from moving at all.
    fn check_free(&self) -> Result<(), Refusal> {
        if self.flags.input_error || self.levels.e_stop || self.drive.is_tripped() {
            Err(Refusal::Inhibited)
        } else {
            Ok(())
        }
    }

    fn check_end(&self, end: i64) -> Result<(), Refusal> {
        if is_position(end) {
            Ok(())
        } else {
            Err(Refusal::Way)
        }
    }

    fn check_limit(&self, direction: i32) -> Result<(), Refusal> {
        let is_on = if direction > 0 {
            self.levels.clockwise
        } else {
            self.levels.counterclockwise
        };
        if is_on {
            Err(Refusal::Limit)
        } else {
            Ok(())
        }
    }

    // A single move.
    fn go_to(&mut self, target: i32, speed: u32, rates: Rates) -> Result<(), Refusal> {
        let way = target - self.drive.place();
        if way == 0 {
            return Err(Refusal::Way);
        }
        self.check_end(target as i64)?;
        self.check_limit(way.signum())?;
        let row = Row {
            steps: way.unsigned_abs(),
            speed,
        };
        self.begin(Task::Single { target }, way.signum(), rates, &[row]);
        Ok(())
    }

    // One row of a dwell move.
    fn begin_row(&mut self, row: usize, dwell: u32, rates: Rates) {
        let segment = self.table[row];
        let task = Task::Dwell { row, dwell };
        self.begin(task, segment.distance.signum(), rates, &[segment.row()]);
    }

    fn begin(&mut self, task: Task, direction: i32, rates: Rates, rows: &[Row]) {
        self.profile.begin(Plan {
            start: self.start,
            accel: rates.accel,
            decel: rates.decel,
            rows,
        });
        self.leg = Leg {
            task,
            rates,
            direction,
            sent: 0,
            last: 0,
            before: 0,
        };
        self.flags.move_complete = false;
        self.state = State::Running;
    }

    fn full_stop(&mut self) {
        if self.state == State::Programming {
            self.table.clear();
        }
        self.state = State::Idle;
        self.flags.position_invalid = true;
    }

    // Events.

    pub fn event(&mut self, code: i32) -> Result<(), Refusal> {
        match code {
            1 if !self.levels.clockwise => {
                self.levels.clockwise = true;
                self.limit_came_on();
            }
            2 => self.levels.clockwise = false,
            3 if !self.levels.counterclockwise => {
                self.levels.counterclockwise = true;
                self.limit_came_on();
            }
            4 => self.levels.counterclockwise = false,
            5 if !self.levels.e_stop => {
                self.levels.e_stop = true;
                self.flags.input_error = true;
                self.full_stop();
            }
            6 => self.levels.e_stop = false,
            7 if !self.drive.is_tripped() => {
                self.drive.set_tripped(true);
                self.full_stop();
            }
            // What is so already changes nothing.
            1 | 3 | 5 | 7 => {}
            _ => return Err(Refusal::UnknownEvent),
        }
        Ok(())
    }

    // A limit stops whatever moves, in either direction, and a pause.
    fn limit_came_on(&mut self) {
        if matches!(
            self.state,
            State::Running | State::Pausing { .. } | State::Holding
        ) {
            self.flags.input_error = true;
            self.full_stop();
        }
    }

    // Ticks.

    pub fn tick(&mut self) -> i32 {
        match self.state {
            State::Running | State::Holding => self.step(),
            State::Pausing { left: 0 } => {
                self.begin_next_row();
                self.step()
            }
            State::Pausing { left } => {
                self.state = State::Pausing { left: left - 1 };
                0
            }
            State::Idle | State::Programming | State::Held => 0,
        }
    }

    fn begin_next_row(&mut self) {
        if let Task::Dwell { row, dwell } = self.leg.task {
            self.begin_row(row + 1, dwell, self.leg.rates);
        }
    }

    // One tick of the plan under way.
    fn step(&mut self) -> i32 {
        self.leg.before = self.leg.last;
        self.leg.last = self.profile.tick();
        let whole = (self.profile.gone() / MILLI) as u32;
        let steps = self.leg.direction * (whole - self.leg.sent) as i32;
        if steps != 0 && self.drive.advance(steps).is_err() {
            self.full_stop();
            return 0;
        }
        self.leg.sent = whole;
        if self.profile.is_done() {
            self.end_plan();
        }
        steps
    }

    fn end_plan(&mut self) {
        if self.state == State::Holding {
            self.end_hold();
            return;
        }
        match self.leg.task {
            Task::Dwell { row, dwell } if row + 1 < self.table.len() => {
                self.state = State::Pausing { left: dwell };
            }
            _ => self.complete(),
        }
    }

    fn end_hold(&mut self) {
        match self.leg.task {
            Task::Single { target } if target != self.drive.place() => self.state = State::Held,
            Task::Single { .. } => self.complete(),
            Task::Blend | Task::Dwell { .. } => self.state = State::Idle,
        }
    }

    fn complete(&mut self) {
        self.flags.move_complete = true;
        self.state = State::Idle;
    }

    // Readings.

    pub fn reading(&self, buffer: &mut [i16]) -> Result<(), Refusal> {
        let words = buffer.get_mut(..10).ok_or(Refusal::ShortBuffer)?;
        let place = self.drive.place();
        words.fill(0);
        words[0] = self.status();
        words[1] = self.inputs();
        words[2] = (place / 1000) as i16;
        words[3] = (place % 1000) as i16;
        Ok(())
    }

    fn is_moving(&self) -> bool {
        matches!(self.state, State::Running | State::Holding)
    }

    fn status(&self) -> i16 {
        let programming = self.state == State::Programming;
        let waiting =
            programming && self.table.len() < MAX_ROWS && self.kept & block::SEGMENT_BIT == 0;
        let moving = self.is_moving();
        let leg = &self.leg;
        bits(&[
            (14, true),
            (13, self.flags.configuration_error),
            (12, self.flags.command_error),
            (11, self.flags.input_error),
            (10, self.flags.position_invalid),
            (9, waiting),
            (8, programming),
            (7, self.flags.move_complete),
            (6, moving && leg.last < leg.before),
            (5, moving && leg.last > leg.before),
            (3, !moving),
            (2, self.state == State::Held),
            (1, moving && leg.direction < 0),
            (0, moving && leg.direction > 0),
        ])
    }

    fn inputs(&self) -> i16 {
        bits(&[
            (7, self.drive.is_tripped()),
            (2, self.levels.e_stop),
            (1, self.levels.counterclockwise),
            (0, self.levels.clockwise),
        ])
    }

    // What a caller may want to know of the axis.

    pub fn drive(&self) -> &D {
        &self.drive
    }

    pub fn state(&self) -> State {
        self.state
    }

    pub fn task(&self) -> Task {
        self.leg.task
    }

    pub fn kept(&self) -> u16 {
        self.kept
    }

    pub fn start(&self) -> u32 {
        self.start
    }

    pub fn flags(&self) -> &Flags {
        &self.flags
    }

    pub fn levels(&self) -> &Levels {
        &self.levels
    }

    pub fn table(&self) -> &[Segment] {
        &self.table
    }
}

// A word with these bits.
fn bits(bits: &[(u32, bool)]) -> i16 {
    bits.iter()
        .map(|&(bit, is_set)| (is_set as i16) << bit)
        .sum()
}
