//! Marsaglia's xorshift generator: the same seed gives the same inputs.

pub struct Random {
    state: u64,
}

impl Random {
    /// A generator that starts at a seed; 0, from which it would never move, counts as 1.
    pub const fn new(seed: u64) -> Random {
        Random {
            state: if seed == 0 { 1 } else { seed },
        }
    }

    pub fn draw(&mut self) -> u64 {
        self.state ^= self.state << 13;
        self.state ^= self.state >> 7;
        self.state ^= self.state << 17;
        self.state
    }

    /// A number from 0 up to, and not including, `end`.
    pub fn below(&mut self, end: usize) -> usize {
        (self.draw() % end as u64) as usize
    }

    /// True once in `turns` draws.
    pub fn once_in(&mut self, turns: usize) -> bool {
        self.below(turns) == 0
    }

    /// A seed for another generator, whose draws have nothing to do with the next ones of this: Steele, Lea and Flood's mixing of a draw.
    pub fn seed(&mut self) -> u64 {
        let mut seed = self.draw();
        seed = (seed ^ (seed >> 30)).wrapping_mul(0xbf58_476d_1ce4_e5b9);
        seed = (seed ^ (seed >> 27)).wrapping_mul(0x94d0_49bb_1331_11eb);
        seed ^ (seed >> 31)
    }

    /// One of the choices.
    pub fn pick<'a, T: ?Sized>(&mut self, choices: &[&'a T]) -> &'a T {
        choices[self.below(choices.len())]
    }
}
