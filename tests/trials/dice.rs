//! Numbers that come from a seed.

/// A linear congruential generator: the same seed gives the same numbers.
#[derive(Clone, Debug)]
pub struct Dice {
    pub state: u64,
}

impl Dice {
    /// A number below `sides`, or 0.
    pub fn throw(&mut self, sides: u32) -> u32 {
        self.next().checked_rem(sides).unwrap_or(0)
    }

    /// An index of a list of this length, or 0.
    pub fn index(&mut self, len: usize) -> usize {
        (self.next() as usize).checked_rem(len).unwrap_or(0)
    }

    /// One of these, or `otherwise` where there is none.
    pub fn pick<T: Copy>(&mut self, list: &[T], otherwise: T) -> T {
        list.get(self.index(list.len())).copied().unwrap_or(otherwise)
    }

    fn next(&mut self) -> u32 {
        self.state = self.state.wrapping_mul(6_364_136_223_846_793_005).wrapping_add(1_442_695_040_888_963_407);
        (self.state >> 33) as u32
    }
}
