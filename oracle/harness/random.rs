// Numbers from a seed: xorshift64, whose rule (shifts and xors) the README repeats.
pub struct Random {
    state: u64,
}

impl Random {
    /// The stream that a question names by its seed; a seed is not 0.
    pub fn from_seed(seed: u64) -> Random {
        assert!(seed != 0, "the seed of a stream is not 0");
        Random { state: seed }
    }

    /// A stream of its own for each place of each seed: near seeds must not give near streams.
    pub fn at(seed: u64, place: u64) -> Random {
        let mut mixed = seed.wrapping_mul(0x9E37_79B9_7F4A_7C15) ^ place.wrapping_mul(0xD1B5_4A32_D192_ED03);
        for _ in 0..3 {
            mixed = (mixed ^ (mixed >> 32)).wrapping_mul(0xD6E8_FEB8_6659_FD93);
        }
        Random { state: mixed | 1 << 40 }
    }

    pub fn next(&mut self) -> u64 {
        self.state ^= self.state << 13;
        self.state ^= self.state >> 7;
        self.state ^= self.state << 17;
        self.state
    }

    pub fn below(&mut self, limit: u64) -> u64 {
        (self.next() >> 11) % limit
    }

    pub fn between(&mut self, low: i64, high: i64) -> i64 {
        low + self.below((high - low + 1) as u64) as i64
    }

    pub fn one_in(&mut self, chances: u64) -> bool {
        self.below(chances) == 0
    }

    pub fn pick<T: Copy>(&mut self, from: &[T]) -> T {
        from[self.below(from.len() as u64) as usize]
    }

    pub fn square(&mut self) -> u8 {
        self.below(64) as u8
    }

    /// A bitboard of any density: empty, full, sparse, dense or a single square.
    pub fn bitboard(&mut self) -> u64 {
        match self.below(8) {
            0 => 0,
            1 => u64::MAX,
            2 => 1 << self.square(),
            3 => self.next() & self.next() & self.next(),
            4 => self.next() | self.next() | self.next(),
            _ => self.next(),
        }
    }
}
