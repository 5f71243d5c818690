//! A generator of random numbers that gives the same ones everywhere (SplitMix64).

/// The generator's state.
pub struct Random(u64);

impl Random {
    /// A generator of its own for each case of a run.
    pub fn of_case(seed: u64, case: u64) -> Random {
        let mut random = Random(seed);
        Random(random.number() ^ case.wrapping_mul(0xd134_2543_de82_ef95))
    }

    /// The next 64 bits.
    pub fn number(&mut self) -> u64 {
        self.0 = self.0.wrapping_add(0x9e37_79b9_7f4a_7c15);
        let mut x = self.0;
        x = (x ^ (x >> 30)).wrapping_mul(0xbf58_476d_1ce4_e5b9);
        x = (x ^ (x >> 27)).wrapping_mul(0x94d0_49bb_1331_11eb);
        x ^ (x >> 31)
    }

    /// A number from `least` to `most`.
    pub fn between(&mut self, least: u64, most: u64) -> u64 {
        match (most - least).checked_add(1) {
            Some(count) => least + self.number() % count,
            None => self.number(),
        }
    }

    /// A number from `least` to `most`, small ones as likely as large ones: first its number of
    /// bits, then the number.
    pub fn by_size(&mut self, least: u64, most: u64) -> u64 {
        let bits = |x: u64| u64::from(64 - x.leading_zeros());
        let size = self.between(bits(least), bits(most));
        let largest = (1_u128 << size) - 1;
        let smallest = (1_u128 << size) / 2;
        self.between(
            (smallest as u64).max(least),
            largest.min(u128::from(most)) as u64,
        )
    }

    /// True in so many of a hundred cases.
    pub fn percent(&mut self, chance: u64) -> bool {
        self.between(0, 99) < chance
    }

    /// A place in a list that is not empty.
    pub fn place(&mut self, count: usize) -> usize {
        self.between(0, count as u64 - 1) as usize
    }

    /// One of a list.
    pub fn one_of<T: Clone>(&mut self, list: &[T]) -> T {
        list[self.place(list.len())].clone()
    }

    /// Random bytes.
    pub fn bytes(&mut self, length: usize) -> Vec<u8> {
        (0..length).map(|_| self.number() as u8).collect()
    }
}
