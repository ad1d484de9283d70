//! A small source of numbers (splitmix64), so that a seed gives the same cases everywhere.

pub struct Random {
    state: u64,
}

impl Random {
    pub fn new(seed: u64, number: u64) -> Random {
        let mut random = Random { state: seed };
        let start = random.draw() ^ number;
        Random {
            state: Random { state: start }.draw(),
        }
    }

    pub fn draw(&mut self) -> u64 {
        self.state = self.state.wrapping_add(0x9E37_79B9_7F4A_7C15);
        let mut mixed = self.state;
        mixed = (mixed ^ mixed >> 30).wrapping_mul(0xBF58_476D_1CE4_E5B9);
        mixed = (mixed ^ mixed >> 27).wrapping_mul(0x94D0_49BB_1331_11EB);
        mixed ^ mixed >> 31
    }

    /// A number from 0 to one below the limit.
    pub fn below(&mut self, limit: usize) -> usize {
        assert!(limit > 0);
        (self.draw() % limit as u64) as usize
    }

    pub fn from_to(&mut self, low: usize, high: usize) -> usize {
        low + self.below(high - low + 1)
    }

    /// True in so many of so many cases.
    pub fn chance(&mut self, yes: usize, of: usize) -> bool {
        self.below(of) < yes
    }

    pub fn pick<'a, T>(&mut self, from: &'a [T]) -> &'a T {
        &from[self.below(from.len())]
    }

    pub fn shuffle<T>(&mut self, list: &mut [T]) {
        for last in (1..list.len()).rev() {
            list.swap(last, self.below(last + 1));
        }
    }

    /// A count: mostly small, at times anything, at times one of the edges.
    pub fn size(&mut self, low: usize, high: usize, edges: &[usize]) -> usize {
        let size = match self.below(10) {
            0..=6 => self.from_to(low, high.min(low + 4)),
            7 => self.from_to(low, high),
            8 => high,
            _ => *self.pick(edges),
        };
        size.clamp(low, high)
    }
}
