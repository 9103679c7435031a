//! Times how a worker may read shared words: with a jump for each word, with one for each block of eight, and beside a plain copy.
//!
//!     rustc -O bench/reading_loops.rs -o PROGRAM && PROGRAM [WORDS [PASSES]]
//!
//! These are the loops of `load_table`, written by hand with no index tested, as the programs have them that the gate builds. Each thread
//! reads all words (3,800,000, which are the edges of the greatest design) and compares them with what it found last, of which 2,000
//! are made to differ before each of 60 passes. A line of the table has the milliseconds of a pass, the mean of all passes and threads.
use std::env::args;
use std::sync::atomic::{AtomicU64, Ordering::Relaxed};
use std::thread::scope;
use std::time::Instant;

const BLOCK: usize = 8;
const CHANGED: usize = 2_000;

/// What stands for a value.
fn short(value: u64) -> u32 {
    value as u32 + 1
}

/// Reads all words, and looks at each before the next one is loaded.
#[inline(never)]
fn one_by_one(words: &[AtomicU64], last: &mut [u32]) {
    for (word, last) in words.iter().zip(last) {
        let value = word.load(Relaxed);
        if u64::from(*last) != value + 1 {
            *last = short(value);
        }
    }
}

/// Reads all words, and looks at eight at once.
#[inline(never)]
fn by_blocks(words: &[AtomicU64], last: &mut [u32]) {
    for (words, last) in words.chunks_exact(BLOCK).zip(last.chunks_exact_mut(BLOCK)) {
        let mut found = [0; BLOCK];
        for k in 0..BLOCK {
            found[k] = words[k].load(Relaxed);
        }
        let mut same = true;
        for k in 0..BLOCK {
            same &= u64::from(last[k]) == found[k] + 1;
        }
        if !same {
            for k in 0..BLOCK {
                last[k] = short(found[k]);
            }
        }
    }
}

/// Makes words differ from what was found last, at places that a linear congruence draws.
fn change(last: &mut [u32], drawn: &mut u64) {
    for _ in 0..CHANGED {
        *drawn = drawn.wrapping_mul(6_364_136_223_846_793_005).wrapping_add(1_442_695_040_888_963_407);
        let place = (*drawn >> 33) as usize % last.len();
        last[place] += 1;
    }
}

/// The milliseconds of a pass.
fn time(words: &[AtomicU64], threads: usize, passes: usize, read: fn(&[AtomicU64], &mut [u32])) -> f64 {
    let seconds: f64 = scope(|all| {
        let runs: Vec<_> = (0..threads)
            .map(|thread| {
                all.spawn(move || {
                    let mut last = vec![short(0); words.len()];
                    let mut drawn = thread as u64;
                    let mut seconds = 0.0;
                    for _ in 0..passes {
                        change(&mut last, &mut drawn);
                        let begin = Instant::now();
                        read(words, &mut last);
                        seconds += begin.elapsed().as_secs_f64();
                    }
                    seconds
                })
            })
            .collect();
        runs.into_iter().map(|run| run.join().unwrap()).sum()
    });
    1e3 * seconds / (threads * passes) as f64
}

/// The milliseconds of a plain copy.
fn time_copy(words: &[AtomicU64], threads: usize, passes: usize) -> f64 {
    let seconds: f64 = scope(|all| {
        let runs: Vec<_> = (0..threads)
            .map(|_| {
                all.spawn(|| {
                    let mut copy = vec![1; words.len()];
                    let begin = Instant::now();
                    for _ in 0..passes {
                        for (word, place) in words.iter().zip(&mut copy) {
                            *place = word.load(Relaxed);
                        }
                    }
                    begin.elapsed().as_secs_f64()
                })
            })
            .collect();
        runs.into_iter().map(|run| run.join().unwrap()).sum()
    });
    1e3 * seconds / (threads * passes) as f64
}

fn main() {
    let mut asked = args().skip(1).map(|word| word.parse().unwrap());
    let count: usize = asked.next().unwrap_or(3_800_000);
    let passes = asked.next().unwrap_or(60);
    let words: Vec<_> = (0..count).map(|_| AtomicU64::new(0)).collect();
    println!("| Threads | A jump for each word (ms) | One for each eight (ms) | A copy (ms) |\n|---|---|---|---|");
    for threads in [1, 2, 4] {
        let single = time(&words, threads, passes, one_by_one);
        let blocks = time(&words, threads, passes, by_blocks);
        let copy = time_copy(&words, threads, passes);
        println!("| {threads} | {single:.2} | {blocks:.2} | {copy:.2} |");
    }
}
