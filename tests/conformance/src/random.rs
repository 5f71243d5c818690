//! A generator of random numbers that gives the same ones everywhere (SplitMix64).

/// The place of a number among `count` places, each of which is taken once: neighbours come to
/// stand far from each other.
fn mixed(number: usize, count: usize) -> usize {
    const PRIME: usize = 15_485_863;
    assert!(count % PRIME != 0 && number < count);
    number * (PRIME % count) % count
}

/// How many cases families have together.
pub fn together<F>(families: impl IntoIterator<Item = (F, usize)>) -> usize {
    families.into_iter().map(|(_, count)| count).sum()
}

/// The family of a case, and its place in that family. The families are mixed, so that each of them
/// comes early in a run.
pub fn family_of<F>(
    families: impl IntoIterator<Item = (F, usize)> + Clone,
    number: usize,
) -> (F, usize) {
    let all = together(families.clone());
    let mut place = mixed(number, all);
    for (family, count) in families {
        if place < count {
            return (family, place);
        }
        place -= count;
    }
    panic!("a run has {all} cases");
}

/// The generator's state.
#[derive(Clone)]
pub struct Random(u64);

impl Random {
    /// A generator of its own for each case of a run.
    pub fn of_case(seed: u64, case: usize) -> Random {
        let mut random = Random(seed);
        Random(random.number() ^ (case as u64).wrapping_mul(0xd134_2543_de82_ef95))
    }

    /// The next 64 bits.
    pub fn number(&mut self) -> u64 {
        self.0 = self.0.wrapping_add(0x9e37_79b9_7f4a_7c15);
        let mut x = self.0;
        x = (x ^ (x >> 30)).wrapping_mul(0xbf58_476d_1ce4_e5b9);
        x = (x ^ (x >> 27)).wrapping_mul(0x94d0_49bb_1331_11eb);
        x ^ (x >> 31)
    }

    /// A number from `least` to `most`.
    pub fn between(&mut self, least: u64, most: u64) -> u64 {
        match (most - least).checked_add(1) {
            Some(count) => least + self.number() % count,
            None => self.number(),
        }
    }

    /// A number from `least` to `most`, small ones as likely as large ones: first its number of
    /// bits, then the number.
    pub fn by_size(&mut self, least: u64, most: u64) -> u64 {
        let bits = |x: u64| u64::from(64 - x.leading_zeros());
        let size = self.between(bits(least), bits(most));
        let largest = if size == 64 {
            u64::MAX
        } else {
            (1 << size) - 1
        };
        let smallest = if size == 0 { 0 } else { 1 << (size - 1) };
        self.between(smallest.max(least), largest.min(most))
    }

    /// True in so many of a hundred cases.
    pub fn percent(&mut self, chance: u64) -> bool {
        self.between(0, 99) < chance
    }

    /// One of a list.
    pub fn one_of<T: Copy>(&mut self, list: &[T]) -> T {
        list[self.between(0, list.len() as u64 - 1) as usize]
    }

    /// Random bytes.
    pub fn bytes(&mut self, length: usize) -> Vec<u8> {
        let mut bytes = Vec::with_capacity(length + 8);
        while bytes.len() < length {
            bytes.extend(self.number().to_le_bytes());
        }
        bytes.truncate(length);
        bytes
    }
}
