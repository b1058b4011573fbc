// How a plan becomes advances, one a tick. Lengths are in millisteps, speeds in millisteps a tick.

// Some steps at a speed.
#[derive(Clone, Copy)]
pub struct Row {
    pub steps: u32,
    pub speed: u32,
}

#[derive(Clone, Copy)]
pub struct Plan<'a> {
    pub start: u32,
    pub accel: u32,
    pub decel: u32,
    pub rows: &'a [Row],
}

impl Plan<'_> {
    fn asked(&self) -> u64 {
        self.rows.iter().map(|row| 1000 * row.steps as u64).sum()
    }
}

pub trait Profile {
    fn begin(&mut self, plan: Plan);

    // The advance of the next tick: 0 where the plan is done.
    fn tick(&mut self) -> u32;

    fn brake(&mut self);

    fn gone(&self) -> u64;

    fn asked(&self) -> u64;

    fn is_done(&self) -> bool {
        self.gone() == self.asked()
    }
}

// Always at the starting speed.
#[derive(Default)]
pub struct Creep {
    start: u32,
    gone: u64,
    asked: u64,
}

impl Profile for Creep {
    fn begin(&mut self, plan: Plan) {
        self.start = plan.start;
        self.gone = 0;
        self.asked = plan.asked();
    }

    fn tick(&mut self) -> u32 {
        let advance = (self.start as u64).min(self.asked - self.gone);
        self.gone += advance;
        advance as u32
    }

    fn brake(&mut self) {
        self.asked = self.gone;
    }

    fn gone(&self) -> u64 {
        self.gone
    }

    fn asked(&self) -> u64 {
        self.asked
    }
}

// A row by the millistep at which it ends.
struct Stretch {
    end: u64,
    speed: u32,
}

// Constant acceleration.
#[derive(Default)]
pub struct Ramp {
    start: u32,
    accel: u32,
    decel: u32,
    stretches: Vec<Stretch>,
    // The stretch that holds the next millistep.
    at: usize,
    last: u32,
    gone: u64,
    asked: u64,
}

impl Ramp {
    // The braking distance of a speed: the sum of the speeds that it falls through, by the deceleration each time, up to the first that is not
    // above the starting speed.
    pub fn braking(&self, speed: u32) -> u64 {
        if speed <= self.start {
            return 0;
        }
        // The last fall may end at 0, and then adds nothing.
        let falls = (speed - self.start)
            .div_ceil(self.decel)
            .min(speed / self.decel) as u64;
        falls * speed as u64 - self.decel as u64 * (falls * (falls + 1) / 2)
    }

    // Whether the rest of the way holds an advance and the braking from it.
    fn fits(&self, advance: u32) -> bool {
        advance as u64 + self.braking(advance) <= self.asked - self.gone
    }

    // The speed of the stretch that holds the next millistep.
    fn row_speed(&mut self) -> u32 {
        while self.stretches[self.at].end <= self.gone {
            self.at += 1;
        }
        self.stretches[self.at].speed
    }

    // The greatest advance that fits, up to one that does not.
    fn greatest_below(&self, mut too_far: u32) -> u32 {
        let mut fitting = 0;
        while too_far - fitting > 1 {
            let middle = fitting + (too_far - fitting) / 2;
            if self.fits(middle) {
                fitting = middle;
            } else {
                too_far = middle;
            }
        }
        fitting
    }
}

impl Profile for Ramp {
    fn begin(&mut self, plan: Plan) {
        self.start = plan.start;
        self.accel = plan.accel;
        self.decel = plan.decel;
        self.stretches.clear();
        let mut end = 0;
        for row in plan.rows {
            end += 1000 * row.steps as u64;
            self.stretches.push(Stretch {
                end,
                speed: row.speed,
            });
        }
        self.at = 0;
        self.last = 0;
        self.gone = 0;
        self.asked = end;
    }

    fn tick(&mut self) -> u32 {
        if self.is_done() {
            return 0;
        }
        let limit = self
            .row_speed()
            .max(self.last.saturating_sub(self.decel))
            .min(self.start.max(self.last + self.accel));
        let advance = if self.fits(limit) {
            limit
        } else {
            self.greatest_below(limit)
        };
        self.last = advance;
        self.gone += advance as u64;
        advance
    }

    fn brake(&mut self) {
        self.asked = self.gone + self.braking(self.last);
    }

    fn gone(&self) -> u64 {
        self.gone
    }

    fn asked(&self) -> u64 {
        self.asked
    }
}

// The mean of what the profile below had gone after each of its last ticks.
pub struct Smoothing<P> {
    below: P,
    kept: Vec<u64>,
    // Where the oldest of the kept values stands.
    oldest: usize,
    sum: u64,
    gone: u64,
}

impl<P: Profile> Smoothing<P> {
    // A length of 0 counts as 1, and more than 64 as 64.
    pub fn new(below: P, length: u32) -> Smoothing<P> {
        let length = length.clamp(1, 64) as usize;
        let gone = below.gone();
        Smoothing {
            below,
            kept: vec![gone; length],
            oldest: 0,
            sum: gone * length as u64,
            gone,
        }
    }
}

impl<P: Profile> Profile for Smoothing<P> {
    fn begin(&mut self, plan: Plan) {
        self.below.begin(plan);
        self.kept.fill(0);
        self.oldest = 0;
        self.sum = 0;
        self.gone = 0;
    }

    fn tick(&mut self) -> u32 {
        self.below.tick();
        let newest = self.below.gone();
        self.sum = self.sum - self.kept[self.oldest] + newest;
        self.kept[self.oldest] = newest;
        self.oldest += 1;
        if self.oldest == self.kept.len() {
            self.oldest = 0;
        }
        let gone = self.sum / self.kept.len() as u64;
        let advance = gone - self.gone;
        self.gone = gone;
        advance as u32
    }

    fn brake(&mut self) {
        self.below.brake();
    }

    fn gone(&self) -> u64 {
        self.gone
    }

    fn asked(&self) -> u64 {
        self.below.asked()
    }
}
