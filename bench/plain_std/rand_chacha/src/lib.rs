//! ChaCha8.

use rand_core::SeedableRng;
use rand_core::utils::NextWord;

/// A generator of the words of ChaCha with 8 rounds, block by block.
#[derive(Clone, Debug)]
pub struct ChaCha8Rng {
    key: [u32; 8],
    stream: u64,
    block: u64,
    words: [u32; 16],
    used: usize,
}

impl ChaCha8Rng {
    /// Starts the stream of this number.
    pub fn set_stream(&mut self, stream: u64) {
        self.stream = stream;
        self.block = 0;
        self.used = 16;
    }
}

impl SeedableRng for ChaCha8Rng {
    fn from_seed(seed: [u8; 32]) -> ChaCha8Rng {
        let word = |i: usize| u32::from_le_bytes([seed[4 * i], seed[4 * i + 1], seed[4 * i + 2], seed[4 * i + 3]]);
        ChaCha8Rng {
            key: std::array::from_fn(word),
            stream: 0,
            block: 0,
            words: [0; 16],
            used: 16,
        }
    }
}

impl NextWord<u32> for ChaCha8Rng {
    fn next_word(&mut self) -> u32 {
        if self.used == 16 {
            self.words = block_of(&self.key, self.block, self.stream);
            self.block = self.block.wrapping_add(1);
            self.used = 0;
        }
        self.used += 1;
        self.words[self.used - 1]
    }
}

fn block_of(key: &[u32; 8], block: u64, stream: u64) -> [u32; 16] {
    let mut start = [0u32; 16];
    start[..4].copy_from_slice(&[0x6170_7865, 0x3320_646e, 0x7962_2d32, 0x6b20_6574]);
    start[4..12].copy_from_slice(key);
    start[12..].copy_from_slice(&[block as u32, (block >> 32) as u32, stream as u32, (stream >> 32) as u32]);
    let mut words = start;
    for _ in 0..4 {
        for [a, b, c, d] in [[0, 4, 8, 12], [1, 5, 9, 13], [2, 6, 10, 14], [3, 7, 11, 15]] {
            quarter_round(&mut words, a, b, c, d);
        }
        for [a, b, c, d] in [[0, 5, 10, 15], [1, 6, 11, 12], [2, 7, 8, 13], [3, 4, 9, 14]] {
            quarter_round(&mut words, a, b, c, d);
        }
    }
    std::array::from_fn(|i| words[i].wrapping_add(start[i]))
}

fn quarter_round(words: &mut [u32; 16], a: usize, b: usize, c: usize, d: usize) {
    for (turn, other) in [(16, 12), (8, 7)] {
        words[a] = words[a].wrapping_add(words[b]);
        words[d] = (words[d] ^ words[a]).rotate_left(turn);
        words[c] = words[c].wrapping_add(words[d]);
        words[b] = (words[b] ^ words[c]).rotate_left(other);
    }
}
