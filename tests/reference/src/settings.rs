//! The settings, and the numbers that each level takes from them.

/// "Settings: window w, fan-out p, levels L, nominal length M". As large as a caller may write
/// them; `questions` says which are allowed.
#[derive(Clone, Copy, Debug, PartialEq, Eq)]
pub struct Settings {
    /// w
    pub window: u64,
    /// p
    pub fan_out: u64,
    /// L
    pub levels: u64,
    /// M
    pub nominal: u64,
}

/// What one level's cutting goes by.
#[derive(Clone, Copy, Debug, PartialEq, Eq)]
pub struct Rule {
    /// w
    pub window: usize,
    /// h
    pub distance: usize,
    /// s
    pub modulus: u64,
}

impl Settings {
    /// "At level l (1 to L), h = M / p^l rounded down and s = w × p^(L−l+1)."
    ///
    /// For allowed settings only.
    pub fn rule(&self, level: u64) -> Rule {
        assert!((1..=self.levels).contains(&level));
        let distance = self.nominal / self.fan_out.pow(level as u32);
        let modulus = self.window * self.fan_out.pow((self.levels - level + 1) as u32);
        Rule {
            window: self.window as usize,
            distance: distance as usize,
            modulus,
        }
    }
}
