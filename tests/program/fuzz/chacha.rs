//! The ChaCha8 stream (Bernstein, 2008) as 32-bit words.

/// The first words of a stream under the key of a seed, which is its 8 bytes, the lowest first, and 24 zero bytes.
pub fn words(seed: u64, stream: u64, count: usize) -> Vec<u32> {
    let mut words: Vec<u32> = (0..count.div_ceil(16) as u64).flat_map(|block| block_words(seed, stream, block)).collect();
    words.truncate(count);
    words
}

fn block_words(seed: u64, stream: u64, block: u64) -> [u32; 16] {
    let halves = |value: u64| (value as u32, (value >> 32) as u32);
    let (key_0, key_1) = halves(seed);
    let (block_0, block_1) = halves(block);
    let (stream_0, stream_1) = halves(stream);
    // "expand 32-byte k"
    let first = [
        0x6170_7865, 0x3320_646e, 0x7962_2d32, 0x6b20_6574, key_0, key_1, 0, 0, 0, 0, 0, 0, block_0, block_1, stream_0, stream_1,
    ];
    let mut state = first;
    for _ in 0..4 {
        [[0, 4, 8, 12], [1, 5, 9, 13], [2, 6, 10, 14], [3, 7, 11, 15]].iter().for_each(|column| quarter(&mut state, column));
        [[0, 5, 10, 15], [1, 6, 11, 12], [2, 7, 8, 13], [3, 4, 9, 14]].iter().for_each(|diagonal| quarter(&mut state, diagonal));
    }
    state.iter_mut().zip(first).for_each(|(word, added)| *word = word.wrapping_add(added));
    state
}

fn quarter(state: &mut [u32; 16], places: &[usize; 4]) {
    let [a, b, c, d] = *places;
    for (left, right, turned, by) in [(a, b, d, 16), (c, d, b, 12), (a, b, d, 8), (c, d, b, 7)] {
        state[left] = state[left].wrapping_add(state[right]);
        state[turned] = (state[turned] ^ state[left]).rotate_left(by);
    }
}

/// The phase that is picked for the net at a position.
pub fn pick(seed: u64, position: usize, phases: u64) -> usize {
    (u64::from(words(seed, position as u64, 1)[0]) % phases) as usize
}
