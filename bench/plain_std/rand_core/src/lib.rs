//! Generators of words.

pub trait SeedableRng {
    fn from_seed(seed: [u8; 32]) -> Self;
}

pub mod utils {
    /// The one step of a generator.
    pub trait NextWord<W> {
        fn next_word(&mut self) -> W;
    }
}
