//! A small generator of numbers, the same for the same seed on every machine (splitmix64).

pub struct Random {
    state: u64,
}

impl Random {
    /// Starts from a seed.
    pub fn new(seed: u64) -> Random {
        Random { state: seed }
    }

    /// The next 64 bits.
    pub fn next(&mut self) -> u64 {
        self.state = self.state.wrapping_add(0x9E37_79B9_7F4A_7C15);
        let mut mixed = self.state;
        mixed = (mixed ^ (mixed >> 30)).wrapping_mul(0xBF58_476D_1CE4_E5B9);
        mixed = (mixed ^ (mixed >> 27)).wrapping_mul(0x94D0_49BB_1331_11EB);
        mixed ^ (mixed >> 31)
    }

    /// A number from 0 to one below the bound; 0 for the bound 0.
    pub fn below(&mut self, bound: usize) -> usize {
        let wide = u64::try_from(bound).unwrap_or(1).max(1);
        usize::try_from(self.next() % wide).unwrap_or(0)
    }

    /// True once in so many times.
    pub fn one_in(&mut self, times: usize) -> bool {
        self.below(times) == 0
    }

    /// One octet.
    pub fn octet(&mut self) -> u8 {
        self.next().to_le_bytes()[0]
    }

    /// Octets of any content.
    pub fn octets(&mut self, count: usize) -> Vec<u8> {
        (0..count).map(|_| self.octet()).collect()
    }

    /// One of the things given; the default of its type if there are none.
    pub fn of<T: Copy + Default>(&mut self, things: &[T]) -> T {
        let place = self.below(things.len());
        things.get(place).copied().unwrap_or_default()
    }

    /// A 32-bit number, often near one of the ends.
    pub fn count(&mut self) -> u32 {
        let [a, b, c, d, ..] = self.next().to_le_bytes();
        let any = u32::from_le_bytes([a, b, c, d]);
        match self.below(4) {
            0 => any % 16,
            1 => u32::MAX - any % 16,
            _ => any,
        }
    }
}
