//! The numbers that the comparison draws: splitmix64, so that one seed repeats
//! a run on every machine.

/// A source of numbers.
pub struct Random {
    state: u64,
}

impl Random {
    /// The source of a seed.
    pub fn new(seed: u64) -> Random {
        Random { state: seed }
    }

    /// Any 64-bit number.
    pub fn number(&mut self) -> u64 {
        self.state = self.state.wrapping_add(0x9e37_79b9_7f4a_7c15);
        let z = self.state;
        let z = (z ^ z >> 30).wrapping_mul(0xbf58_476d_1ce4_e5b9);
        let z = (z ^ z >> 27).wrapping_mul(0x94d0_49bb_1331_11eb);
        z ^ z >> 31
    }

    /// A number below the bound.
    pub fn below(&mut self, bound: u64) -> u64 {
        self.number() % bound
    }

    /// An index below the bound.
    pub fn index(&mut self, bound: usize) -> usize {
        self.below(bound as u64) as usize
    }

    /// True once in so many times.
    pub fn once_in(&mut self, times: u64) -> bool {
        self.below(times) == 0
    }

    /// One of the values.
    pub fn pick<T: Copy>(&mut self, values: &[T]) -> T {
        values[self.index(values.len())]
    }

    /// A number below 2^n.
    pub fn element(&mut self, n: u32) -> u64 {
        self.below(1 << n)
    }

    /// An operand for degree n: mostly below 2^n, often at an edge, sometimes
    /// 2^n or more, which some calls refuse and others reduce.
    pub fn operand(&mut self, n: u32) -> u64 {
        let size = 1 << n;
        match self.below(16) {
            0 => 0,
            1 => 1,
            2 => size - 1,
            3 => size,
            4 => size + self.element(n),
            5 => self.number(),
            6 => 1 << self.below(u64::from(n)),
            _ => self.element(n),
        }
    }

    /// So many bytes.
    pub fn bytes(&mut self, length: usize) -> Vec<u8> {
        (0..length).map(|_| self.number() as u8).collect()
    }

    /// So many numbers below 2^n.
    pub fn elements(&mut self, n: u32, length: usize) -> Vec<u64> {
        (0..length).map(|_| self.element(n)).collect()
    }
}
