//! A small deterministic generator of numbers (splitmix64).

pub struct Generator(u64);

impl Generator {
    pub fn new(seed: u64) -> Self {
        Self(seed)
    }

    pub fn number(&mut self) -> u64 {
        self.0 = self.0.wrapping_add(0x9E37_79B9_7F4A_7C15);
        let mut mixed = self.0;
        mixed = (mixed ^ (mixed >> 30)).wrapping_mul(0xBF58_476D_1CE4_E5B9);
        mixed = (mixed ^ (mixed >> 27)).wrapping_mul(0x94D0_49BB_1331_11EB);
        mixed ^ (mixed >> 31)
    }

    pub fn below(&mut self, limit: u64) -> u64 {
        self.number() % limit
    }

    pub fn nonzero(&mut self) -> u64 {
        self.number().max(1)
    }

    pub fn octet_of(&mut self, choices: &[u8]) -> u8 {
        choices[self.below(choices.len() as u64) as usize]
    }

    /// One true in each group of this size, at a place that no branch predictor knows.
    pub fn one_in(&mut self, group: usize, places: usize) -> Vec<bool> {
        let mut chosen = vec![false; places];
        for places in chosen.chunks_mut(group) {
            let at = self.below(group as u64) as usize;
            if let Some(place) = places.get_mut(at) {
                *place = true;
            }
        }
        chosen
    }
}

/// Octets to fill a buffer with before a call writes to it; none is zero.
pub fn pattern(length: usize) -> Vec<u8> {
    (0..length).map(|at| (at % 251 + 1) as u8).collect()
}
