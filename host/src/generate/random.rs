//! A small pseudo-random generator (splitmix64): one seed, one sequence, on every machine.

pub struct Random {
    state: u64,
}

impl Random {
    pub fn new(seed: u64) -> Self {
        Random { state: seed }
    }

    pub fn number(&mut self) -> u64 {
        self.state = self.state.wrapping_add(0x9E37_79B9_7F4A_7C15);
        let mut mixed = self.state;
        mixed = (mixed ^ (mixed >> 30)).wrapping_mul(0xBF58_476D_1CE4_E5B9);
        mixed = (mixed ^ (mixed >> 27)).wrapping_mul(0x94D0_49BB_1331_11EB);
        mixed ^ (mixed >> 31)
    }

    /// A number below the bound; 0 for the bound 0. The slight unevenness does no harm here.
    pub fn below(&mut self, bound: usize) -> usize {
        self.number().checked_rem(bound as u64).unwrap_or(0) as usize
    }

    pub fn one_in(&mut self, chances: usize) -> bool {
        self.below(chances) == 0
    }

    pub fn byte(&mut self) -> u8 {
        self.number() as u8
    }

    /// One of the bytes; any byte at all where there is none to choose from.
    pub fn pick(&mut self, bytes: &[u8]) -> u8 {
        let index = self.below(bytes.len());
        match bytes.get(index) {
            Some(&byte) => byte,
            None => self.byte(),
        }
    }

    pub fn bytes(&mut self, length: usize) -> Vec<u8> {
        (0..length).map(|_| self.byte()).collect()
    }
}

#[cfg(test)]
mod tests {
    use super::*;

    #[test]
    fn follows_the_published_sequence() {
        let mut random = Random::new(1234567);
        let first: Vec<u64> = (0..5).map(|_| random.number()).collect();
        let published = [
            6457827717110365317,
            3203168211198807973,
            9817491932198370423,
            4593380528125082431,
            16408922859458223821,
        ];
        assert_eq!(first, published);
    }

    #[test]
    fn same_seed_same_bytes() {
        assert_eq!(Random::new(7).bytes(100), Random::new(7).bytes(100));
        assert_ne!(Random::new(7).bytes(100), Random::new(8).bytes(100));
    }

    #[test]
    fn below_keeps_its_bound_and_reaches_all() {
        let mut random = Random::new(1);
        let mut met = [false; 5];
        for _ in 0..1000 {
            met[random.below(5)] = true;
        }
        assert_eq!(met, [true; 5]);
        assert_eq!(random.below(0), 0);
        assert_eq!(random.below(1), 0);
    }

    #[test]
    fn pick_takes_only_what_is_offered() {
        let mut random = Random::new(1);
        assert!((0..1000).all(|_| b"xyz".contains(&random.pick(b"xyz"))));
        random.pick(b"");
    }
}
