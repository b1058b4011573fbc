// The motor's end of the axis.

// The greatest size of a position.
pub const FARTHEST: i32 = 8_388_607;

pub fn is_position(n: i64) -> bool {
    n.abs() <= FARTHEST as i64
}

// Why a drive takes nothing.
#[derive(Debug)]
pub enum DriveFault {
    Tripped,
    TooFar,
    NoPosition,
}

pub trait Drive {
    // The most steps that one advance takes.
    const REACH: i32;

    // A refusal changes nothing.
    fn advance(&mut self, steps: i32) -> Result<(), DriveFault>;

    // What a drive of its kind shows beside: its direction line or its coil byte.
    fn shown(&self) -> i32;

    fn seat(&self) -> &Seat;

    fn seat_mut(&mut self) -> &mut Seat;

    // Any position can be set, on a tripped drive too.
    fn set(&mut self, place: i32) {
        self.seat_mut().place = place;
    }

    fn set_tripped(&mut self, tripped: bool) {
        self.seat_mut().tripped = tripped;
    }

    fn place(&self) -> i32 {
        self.seat().place
    }

    fn is_tripped(&self) -> bool {
        self.seat().tripped
    }
}

// What every drive keeps.
#[derive(Default)]
pub struct Seat {
    place: i32,
    tripped: bool,
}

impl Seat {
    fn advance(&mut self, steps: i32, reach: i32) -> Result<(), DriveFault> {
        if self.tripped {
            return Err(DriveFault::Tripped);
        }
        if steps.abs() > reach {
            return Err(DriveFault::TooFar);
        }
        let place = self.place + steps;
        if !is_position(place as i64) {
            return Err(DriveFault::NoPosition);
        }
        self.place = place;
        Ok(())
    }
}

pub struct Pulse {
    seat: Seat,
    // 1 clockwise, -1 counterclockwise.
    line: i32,
}

impl Pulse {
    pub fn new() -> Pulse {
        Pulse {
            seat: Seat::default(),
            line: 1,
        }
    }
}

impl Drive for Pulse {
    const REACH: i32 = 200;

    fn advance(&mut self, steps: i32) -> Result<(), DriveFault> {
        self.seat.advance(steps, Self::REACH)?;
        if steps != 0 {
            self.line = steps.signum();
        }
        Ok(())
    }

    fn seat(&self) -> &Seat {
        &self.seat
    }

    fn seat_mut(&mut self) -> &mut Seat {
        &mut self.seat
    }

    fn shown(&self) -> i32 {
        self.line
    }
}

pub struct Phase {
    seat: Seat,
    // 0 to 7.
    phase: i32,
}

impl Phase {
    const COILS: [i32; 8] = [1, 5, 4, 6, 2, 10, 8, 9];

    pub fn new() -> Phase {
        Phase {
            seat: Seat::default(),
            phase: 0,
        }
    }
}

impl Drive for Phase {
    const REACH: i32 = 20;

    fn advance(&mut self, steps: i32) -> Result<(), DriveFault> {
        self.seat.advance(steps, Self::REACH)?;
        self.phase = (self.phase + steps).rem_euclid(8);
        Ok(())
    }

    fn seat(&self) -> &Seat {
        &self.seat
    }

    fn seat_mut(&mut self) -> &mut Seat {
        &mut self.seat
    }

    fn shown(&self) -> i32 {
        Self::COILS[self.phase as usize]
    }
}
