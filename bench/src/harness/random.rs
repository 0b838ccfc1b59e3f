//! A small generator of random numbers, and of integers that like the ends of the range.

/// Splitmix: one state of 64 bits, any seed will do.
#[derive(Clone)]
pub struct Random {
    state: u64,
    /// Whether integers are made from −2 to 2 only, so that they often meet.
    pub tiny: bool,
}

impl Random {
    /// The generator of one of many cases of a seed.
    pub fn of_case(seed: u64, case: u64) -> Random {
        let state = seed ^ case.wrapping_mul(0xd6e8_feb8_6659_fd93);
        let mut random = Random { state, tiny: false };
        random.next();
        random
    }

    pub fn next(&mut self) -> u64 {
        self.state = self.state.wrapping_add(0x9e37_79b9_7f4a_7c15);
        let z = (self.state ^ (self.state >> 30)).wrapping_mul(0xbf58_476d_1ce4_e5b9);
        let z = (z ^ (z >> 27)).wrapping_mul(0x94d0_49bb_1331_11eb);
        z ^ (z >> 31)
    }

    /// A number from 0 to below the bound, which is not 0.
    pub fn below(&mut self, bound: usize) -> usize {
        ((u128::from(self.next()) * bound as u128) >> 64) as usize
    }

    pub fn chance(&mut self, percent: usize) -> bool {
        self.below(100) < percent
    }

    pub fn pick<T: Copy>(&mut self, choices: &[T]) -> T {
        choices[self.below(choices.len())]
    }

    pub fn byte(&mut self) -> u8 {
        self.next() as u8
    }

    /// An integer of lo to hi.
    pub fn between(&mut self, lo: i32, hi: i32) -> i32 {
        let count = (i64::from(hi) - i64::from(lo) + 1) as usize;
        (i64::from(lo) + self.below(count) as i64) as i32
    }

    /// Any integer, often near 0, near a power of two, near a root of the range, or near an end.
    pub fn integer(&mut self) -> i32 {
        if self.tiny {
            return self.between(-2, 2);
        }
        let near = self.between(-2, 2);
        match self.below(10) {
            0 => self.pick(&[i32::MIN, i32::MAX, -1, 0, 1]),
            1 => i32::MIN + self.between(0, 3),
            2 => i32::MAX - self.between(0, 3),
            3 => (1i32 << self.below(31)).wrapping_add(near),
            4 => (-1i32 << self.below(32)).wrapping_add(near),
            5 => self.pick(&[46_340, 46_341, -46_341, 65_535, 65_536, -65_536, 32_768]) + near,
            6 => self.next() as i32,
            _ => self.between(-12, 12),
        }
    }

    /// Two integers, the lower first: often both small, often one and the same.
    pub fn ends(&mut self) -> (i32, i32) {
        let (x, y) = match self.below(6) {
            _ if self.tiny => (self.integer(), self.integer()),
            0 | 1 => (self.integer(), self.integer()),
            2 | 3 => (self.between(-20, 20), self.between(-20, 20)),
            4 => {
                let n = self.integer();
                (n, n)
            }
            _ => (self.between(1, 40), self.between(1, 5000)),
        };
        (x.min(y), x.max(y))
    }
}
