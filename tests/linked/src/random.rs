//! Numbers drawn from a seed (splitmix64).

/// The seed where none is given.
pub const SEED: u64 = 2001;

pub struct Random(u64);

impl Random {
    /// The numbers of one round of one kind of inputs.
    pub fn of(seed: u64, kind: usize, round: usize) -> Random {
        let mut random = Random(seed);
        for number in [kind, round] {
            random.0 = random.word() ^ number as u64;
        }
        random
    }

    /// Any 64 bits.
    pub fn word(&mut self) -> u64 {
        self.0 = self.0.wrapping_add(0x9e37_79b9_7f4a_7c15);
        let mut z = self.0;
        z = (z ^ (z >> 30)).wrapping_mul(0xbf58_476d_1ce4_e5b9);
        z = (z ^ (z >> 27)).wrapping_mul(0x94d0_49bb_1331_11eb);
        z ^ (z >> 31)
    }

    /// A number from low to high, both included.
    pub fn between(&mut self, low: u64, high: u64) -> u64 {
        match (high - low).checked_add(1) {
            Some(many) => low + self.word() % many,
            None => self.word(),
        }
    }

    /// A number from 0 to high, as often short as long.
    pub fn any_length(&mut self, high: u64) -> u64 {
        let bits = self.place(65) as u32;
        let word = self.word();
        let short = word.checked_shr(64 - bits).unwrap_or(0);
        short.min(high)
    }

    /// A place in a list of so many.
    pub fn place(&mut self, count: usize) -> usize {
        (self.word() % count as u64) as usize
    }

    pub fn pick<T: Copy>(&mut self, list: &[T]) -> T {
        list[self.place(list.len())]
    }

    /// True once in so many times.
    pub fn once_in(&mut self, times: usize) -> bool {
        self.place(times) == 0
    }
}
