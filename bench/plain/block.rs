// Blocks of ten words, and what they say.

// The bits of word 0 that must be clear.
pub const RESERVED: u16 = 0b1100_0001_1110_0000;
pub const PROGRAM_BIT: u16 = 1 << 11;
pub const SEGMENT_BIT: u16 = 1 << 12;

#[derive(Clone, Copy, PartialEq, Eq)]
pub enum Command {
    Absolute,
    Relative,
    Hold,
    Resume,
    ImmediateStop,
    Preset,
    ResetErrors,
    Program,
    Segment,
    Run,
}

impl Command {
    // The command of a word with just its bit set.
    pub fn of(bit: u16) -> Command {
        match bit.trailing_zeros() {
            0 => Command::Absolute,
            1 => Command::Relative,
            2 => Command::Hold,
            3 => Command::Resume,
            4 => Command::ImmediateStop,
            9 => Command::Preset,
            10 => Command::ResetErrors,
            11 => Command::Program,
            12 => Command::Segment,
            13 => Command::Run,
            other => unreachable!("bit {other} is reserved"),
        }
    }
}

// Why a call is refused, by its number.
#[derive(Clone, Copy, PartialEq, Eq, Debug)]
pub enum Refusal {
    Count = 1,
    ReservedBits = 2,
    ManyCommands = 3,
    State = 4,
    Pair = 5,
    Range = 6,
    Inhibited = 7,
    PositionInvalid = 8,
    Way = 9,
    Limit = 10,
    UnknownEvent = 11,
    ShortBuffer = 12,
    StartingSpeed = 13,
}

impl Refusal {
    pub fn number(self) -> i32 {
        self as i32
    }
}

pub type Words = [i16; 10];

// 1000 × first + second, where neither has the opposite sign of the other.
pub fn pair(first: i16, second: i16) -> Result<i32, Refusal> {
    let (first, second) = (first as i32, second as i32);
    if first.signum() * second.signum() < 0 || second.abs() >= 1000 {
        return Err(Refusal::Pair);
    }
    Ok(1000 * first + second)
}

// The first of words 2 and 3.
pub fn way_pair(words: &Words) -> Result<i32, Refusal> {
    pair(words[2], words[3])
}

pub fn speed_pair(words: &Words) -> Result<i32, Refusal> {
    pair(words[4], words[5])
}

// Acceleration and deceleration.
#[derive(Clone, Copy)]
pub struct Rates {
    pub accel: u32,
    pub decel: u32,
}

pub fn rates(words: &Words) -> Result<Rates, Refusal> {
    Ok(Rates {
        accel: within(words[6] as i32, 1, 5000)?,
        decel: within(words[7] as i32, 1, 5000)?,
    })
}

// How a Run is asked for by word 1: bit 0 is a dwell move, else bit 1 a blend counterclockwise.
pub fn is_dwell(words: &Words) -> bool {
    words[1] & 1 != 0
}

pub fn is_counterclockwise(words: &Words) -> bool {
    words[1] & 2 != 0
}

pub fn clears_trip(words: &Words) -> bool {
    words[1] & (1 << 10) != 0
}

pub fn dwell(words: &Words) -> Result<u32, Refusal> {
    within(words[8] as i32, 0, 30_000)
}

pub fn within(number: i32, least: i32, most: i32) -> Result<u32, Refusal> {
    if least <= number && number <= most {
        Ok(number as u32)
    } else {
        Err(Refusal::Range)
    }
}
