// Numbers that look random and are the same for the same seed.
pub struct Random(u64);

impl Random {
    pub fn new(seed: u64) -> Random {
        Random(seed)
    }

    // SplitMix64.
    pub fn next(&mut self) -> u64 {
        self.0 = self.0.wrapping_add(0x9e37_79b9_7f4a_7c15);
        let mut z = self.0;
        z = (z ^ (z >> 30)).wrapping_mul(0xbf58_476d_1ce4_e5b9);
        z = (z ^ (z >> 27)).wrapping_mul(0x94d0_49bb_1331_11eb);
        z ^ (z >> 31)
    }

    // 0 to n - 1.
    pub fn below(&mut self, n: u64) -> u64 {
        ((self.next() as u128 * n as u128) >> 64) as u64
    }

    // Both ends included.
    pub fn between(&mut self, least: i32, most: i32) -> i32 {
        (least as i64 + self.below((most as i64 - least as i64 + 1) as u64) as i64) as i32
    }

    pub fn chance(&mut self, percent: u64) -> bool {
        self.below(100) < percent
    }

    pub fn pick<T: Copy>(&mut self, from: &[T]) -> T {
        from[self.below(from.len() as u64) as usize]
    }

    // 1 to most, each size as likely as any other: 1 to 9 about as often as 10 to 99.
    pub fn sized(&mut self, most: i32) -> i32 {
        let bits = most.ilog2() as u64 + 1;
        let top = 1i64 << (self.below(bits) + 1);
        let number = (top >> 1) + self.below((top >> 1) as u64) as i64;
        number.min(most as i64) as i32
    }

    pub fn sign(&mut self) -> i32 {
        self.pick(&[-1, 1])
    }

    // One of these, each as often as its weight says.
    pub fn weighted<T: Copy>(&mut self, from: &[(u64, T)]) -> T {
        let mut left = self.below(from.iter().map(|(weight, _)| weight).sum());
        for &(weight, choice) in from {
            if left < weight {
                return choice;
            }
            left -= weight;
        }
        unreachable!("the weights are more than what is left")
    }
}
