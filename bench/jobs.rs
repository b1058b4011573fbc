// The lists of calls whose time is taken.
use crate::calls::{Bed, List};

const ABSOLUTE: u16 = 1 << 0;
const RELATIVE: u16 = 1 << 1;
const HOLD: u16 = 1 << 2;
const RESUME: u16 = 1 << 3;
const PRESET: u16 = 1 << 9;
const PROGRAM: u16 = 1 << 11;
const SEGMENT: u16 = 1 << 12;
const RUN: u16 = 1 << 13;
const DWELL_MOVE: u16 = 1;
const COUNTERCLOCKWISE: u16 = 2;

pub struct Job {
    pub name: &'static str,
    pub bed: Bed,
    pub list: List,
}

// What a block asks for, beside its command.
#[derive(Default)]
struct Ask {
    options: u16,
    way: i32,
    speed: i32,
    accel: i16,
    decel: i16,
    dwell: i16,
}

// A block whose command rises, and one after which it has fallen; what stays is set in both.
fn command(list: &mut List, bit: u16, stays: u16, ask: Ask) {
    let mut words = [
        (bit | stays) as i16,
        ask.options as i16,
        (ask.way / 1000) as i16,
        (ask.way % 1000) as i16,
        (ask.speed / 1000) as i16,
        (ask.speed % 1000) as i16,
        ask.accel,
        ask.decel,
        ask.dwell,
        0,
    ];
    list.block(&words);
    words[0] = stays as i16;
    list.block(&words);
}

fn ready(start: i32) -> List {
    let mut list = List::default();
    list.set_up(start);
    command(&mut list, PRESET, 0, Ask::default());
    list
}

fn many_ticks(list: &mut List, count: u32) {
    let most = u16::MAX as u32;
    for _ in 0..count / most {
        list.ticks(u16::MAX);
    }
    list.ticks((count % most) as u16);
}

// One move of 1.6 million ticks, nearly all of them at the row's speed.
fn long_move() -> List {
    let mut list = ready(1000);
    let ask = Ask {
        way: 8_000_000,
        speed: 5000,
        accel: 50,
        decel: 50,
        ..Ask::default()
    };
    command(&mut list, RELATIVE, 0, ask);
    many_ticks(&mut list, 1_600_000);
    list
}

// A move that speeds up in each tick of its first half and slows down in each of the other.
fn triangle() -> List {
    let mut list = ready(1);
    let ask = Ask {
        way: 4_200_000,
        speed: 200_000,
        accel: 1,
        decel: 1,
        ..Ask::default()
    };
    command(&mut list, RELATIVE, 0, ask);
    many_ticks(&mut list, 129_000);
    list
}

fn program(list: &mut List, rows: &[(i32, i32)]) {
    let mut words = [0; 10];
    words[0] = PROGRAM as i16;
    list.block(&words);
    for &(way, speed) in rows {
        let ask = Ask {
            way,
            speed,
            ..Ask::default()
        };
        command(list, SEGMENT, PROGRAM, ask);
    }
    list.block(&[0; 10]);
}

fn idle() -> List {
    let mut list = ready(100);
    many_ticks(&mut list, 1_600_000);
    list
}

// A dwell move of 16 rows of one step, whose 15 pauses have all ticks but a few.
fn pauses() -> List {
    let mut list = ready(1000);
    program(&mut list, &[(1, 1000); 16]);
    let ask = Ask {
        options: DWELL_MOVE,
        accel: 100,
        decel: 100,
        dwell: 30_000,
        ..Ask::default()
    };
    command(&mut list, RUN, 0, ask);
    many_ticks(&mut list, 15 * 30_000);
    list
}

// Ticks with a reading after every 25.
fn watched(list: &mut List, count: u32) {
    for _ in 0..count / 25 {
        list.ticks(25);
        list.reading(10);
    }
}

// A day's work: a new table, which is cut as a blend there and back and as a dwell move, and a move that is held and resumed, over and over.
fn work() -> List {
    let mut list = ready(100);
    let rows: Vec<(i32, i32)> = (0..16)
        .map(|i| (if i % 2 == 0 { 20 + i } else { -15 - i }, 300 + 60 * i))
        .collect();
    let rates = |options| Ask {
        options,
        accel: 20,
        decel: 30,
        dwell: 4,
        ..Ask::default()
    };
    for _ in 0..100 {
        program(&mut list, &rows);
        command(&mut list, RUN, 0, rates(0));
        watched(&mut list, 900);
        command(&mut list, RUN, 0, rates(COUNTERCLOCKWISE));
        watched(&mut list, 900);
        command(&mut list, RUN, 0, rates(DWELL_MOVE));
        watched(&mut list, 1500);
        let there = Ask {
            way: 400,
            speed: 2500,
            ..rates(0)
        };
        command(&mut list, ABSOLUTE, 0, there);
        watched(&mut list, 150);
        command(&mut list, HOLD, 0, Ask::default());
        watched(&mut list, 100);
        let on = Ask {
            speed: 2500,
            ..rates(0)
        };
        command(&mut list, RESUME, 0, on);
        watched(&mut list, 300);
        list.event(1);
        list.event(2);
        list.drive();
        command(&mut list, PRESET, 0, Ask::default());
    }
    list
}

// Over a pulse drive.
fn bed(profile: u8, outer: u32, inner: u32) -> Bed {
    Bed {
        drive: 0,
        profile,
        outer,
        inner,
    }
}

pub fn jobs() -> Vec<Job> {
    let ramp = bed(1, 0, 0);
    let smooth_4 = bed(3, 4, 0);
    let smooth_64 = bed(3, 64, 0);
    let phase = Bed { drive: 1, ..ramp };
    let cases: [(&'static str, Bed, fn() -> List); 15] = [
        ("long move", ramp, long_move),
        ("long move, smooth 4", smooth_4, long_move),
        ("long move, smooth 64", smooth_64, long_move),
        ("long move, smooth 64 smooth 4", bed(5, 64, 4), long_move),
        ("long move, phase", phase, long_move),
        ("long move, creep", bed(0, 0, 0), long_move),
        ("triangle", ramp, triangle),
        ("triangle, smooth 4", smooth_4, triangle),
        ("triangle, smooth 64", smooth_64, triangle),
        ("idle", ramp, idle),
        ("idle, smooth 64", smooth_64, idle),
        ("pauses", ramp, pauses),
        ("pauses, smooth 64", smooth_64, pauses),
        ("work", ramp, work),
        ("work, smooth 64", smooth_64, work),
    ];
    cases
        .into_iter()
        .map(|(name, bed, list)| Job {
            name,
            bed,
            list: list(),
        })
        .collect()
}
