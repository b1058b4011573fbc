// Calls of an axis as bytes, as crates/coded/src/call.rt says, and the plain axis that makes them.
use std::fmt;

use crate::plain::axis::Axis;
use crate::plain::block::Refusal;
use crate::plain::drive::{Drive, Phase, Pulse};
use crate::plain::profile::{Creep, Profile, Ramp, Smoothing};

// A drive, 0 pulse or 1 phase, and a profile: 0 creep, 1 ramp, 2 and 3 the same smoothed over `outer`, 4 and 5 over `inner` and that over `outer`.
#[derive(Clone, Copy)]
pub struct Bed {
    pub drive: u8,
    pub profile: u8,
    pub outer: u32,
    pub inner: u32,
}

impl fmt::Display for Bed {
    // As the line of a call script.
    fn fmt(&self, f: &mut fmt::Formatter) -> fmt::Result {
        write!(f, "bed {}", ["pulse", "phase"][self.drive as usize])?;
        if self.profile >= 2 {
            write!(f, " smooth {}", self.outer)?;
        }
        if self.profile >= 4 {
            write!(f, " smooth {}", self.inner)?;
        }
        write!(f, " {}", ["creep", "ramp"][self.profile as usize % 2])
    }
}

// Something to be done with a plain axis, whatever its kinds.
pub trait OnAxis {
    type Output;

    fn run<D: Drive, P: Profile>(self, axis: Axis<D, P>) -> Self::Output;
}

// Does it with a new axis over the bed.
pub fn on_bed<T: OnAxis>(bed: Bed, task: T) -> T::Output {
    if bed.drive == 0 {
        on_drive(Pulse::new(), bed, task)
    } else {
        on_drive(Phase::new(), bed, task)
    }
}

fn on_drive<D: Drive, T: OnAxis>(drive: D, bed: Bed, task: T) -> T::Output {
    if bed.profile % 2 == 0 {
        on_base(drive, Creep::default(), bed, task)
    } else {
        on_base(drive, Ramp::default(), bed, task)
    }
}

fn on_base<D: Drive, P: Profile, T: OnAxis>(drive: D, base: P, bed: Bed, task: T) -> T::Output {
    match bed.profile / 2 {
        0 => task.run(Axis::new(drive, base)),
        1 => task.run(Axis::new(drive, Smoothing::new(base, bed.outer))),
        _ => {
            let below = Smoothing::new(base, bed.inner);
            task.run(Axis::new(drive, Smoothing::new(below, bed.outer)))
        }
    }
}

// A call as a value.
pub enum Call<'a> {
    SetUp(i32),
    // With two bytes for each word.
    Block(&'a [[u8; 2]]),
    Event(i32),
    Ticks(u16),
    Reading(u8),
    Drive,
}

impl<'a> Call<'a> {
    // The first call of a list that is not empty, and the rest of the list.
    pub fn split(bytes: &'a [u8]) -> (Call<'a>, &'a [u8]) {
        match *bytes {
            [0, a, b, c, d, ref rest @ ..] => (Call::SetUp(i32::from_le_bytes([a, b, c, d])), rest),
            [1, count, ref rest @ ..] => {
                let (words, rest) = rest.split_at(2 * count as usize);
                (Call::Block(words.as_chunks().0), rest)
            }
            [2, a, b, c, d, ref rest @ ..] => (Call::Event(i32::from_le_bytes([a, b, c, d])), rest),
            [3, a, b, ref rest @ ..] => (Call::Ticks(u16::from_le_bytes([a, b])), rest),
            [4, size, ref rest @ ..] => (Call::Reading(size), rest),
            [5, ref rest @ ..] => (Call::Drive, rest),
            _ => panic!("the lists made here are whole"),
        }
    }

    // How many words it answers.
    pub fn answers(&self) -> usize {
        match *self {
            Call::SetUp(_) | Call::Block(_) | Call::Event(_) => 1,
            Call::Ticks(count) => count as usize,
            Call::Reading(size) => 1 + size as usize,
            Call::Drive => 3,
        }
    }
}

impl fmt::Display for Call<'_> {
    // As the line of a call script; a look at the drive is none, and stands as a comment.
    fn fmt(&self, f: &mut fmt::Formatter) -> fmt::Result {
        match *self {
            Call::SetUp(speed) => write!(f, "setup {speed}"),
            Call::Block(words) => {
                write!(f, "block")?;
                words
                    .iter()
                    .try_for_each(|word| write!(f, " {}", i16::from_le_bytes(*word)))
            }
            Call::Event(code) => write!(f, "event {code}"),
            Call::Ticks(count) => write!(f, "tick {count}"),
            Call::Reading(size) => write!(f, "reading {size}"),
            Call::Drive => write!(f, "# drive"),
        }
    }
}

// A list of calls as bytes.
#[derive(Default)]
pub struct List {
    pub bytes: Vec<u8>,
}

impl List {
    pub fn set_up(&mut self, speed: i32) {
        self.bytes.push(0);
        self.bytes.extend(speed.to_le_bytes());
    }

    pub fn block(&mut self, words: &[i16]) {
        self.bytes.extend([1, words.len() as u8]);
        self.bytes
            .extend(words.iter().flat_map(|word| word.to_le_bytes()));
    }

    pub fn event(&mut self, code: i32) {
        self.bytes.push(2);
        self.bytes.extend(code.to_le_bytes());
    }

    pub fn ticks(&mut self, count: u16) {
        self.bytes.push(3);
        self.bytes.extend(count.to_le_bytes());
    }

    pub fn reading(&mut self, size: u8) {
        self.bytes.extend([4, size]);
    }

    pub fn drive(&mut self) {
        self.bytes.push(5);
    }
}

pub fn number(answer: Result<(), Refusal>) -> i32 {
    answer.map_or_else(Refusal::number, |()| 0)
}

// What the buffer of a reading holds before it.
const BEFORE: i16 = 7;

pub fn reading<D: Drive, P: Profile>(axis: &Axis<D, P>, out: &mut [i32]) {
    let mut buffer = [BEFORE; 255];
    let (answer, shown) = out.split_first_mut().expect("room for the answer");
    *answer = number(axis.reading(&mut buffer[..shown.len()]));
    for (shown, word) in shown.iter_mut().zip(buffer) {
        *shown = word as i32;
    }
}

pub fn look<D: Drive>(drive: &D) -> [i32; 3] {
    [drive.place(), drive.is_tripped() as i32, drive.shown()]
}
