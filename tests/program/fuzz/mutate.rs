//! Small changes of a text, most of which spoil it.

use crate::random::Random;
use crate::scan::{number, tokens};

const TOKENS: [&str; 44] = [
    "0", "-1", "1", "2", "-0", "+0", "+1", "007", "16", "17", "1023", "1024", "262144", "262145", "8388608", "8388609", "4194304",
    "4194305", "16777216", "16777217", "1099511627776", "1099511627777", "-1099511627776", "-1099511627777", "4294967295",
    "4294967296", "32768", "32769", "9223372036854775807", "9223372036854775808", "340282366920938463463374607431768211456", "+", "-",
    "+-1", "1.0", "1e3", "none", "!", "(", ")", "1/0", "0/1", "#", "144115188075855873",
];

/// The greatest of the numbers that are in range somewhere.
const LIMITS: [i128; 16] = [
    0, 1, 16, 1023, 1 << 18, 1 << 22, 1 << 23, 1 << 24, 32_768, (1 << 32) - 1, 1 << 40, 1 << 42, 1 << 57, 1 << 58, (1 << 63) - 1, 1 << 70,
];

const BYTES: [u8; 18] = [b' ', b'\t', b'\r', b'\n', 0x0b, 0x00, 0xff, b'!', b'(', b')', b',', b'-', b'+', b'/', b'0', b'9', b'a', b'G'];

/// A part of the text, from one place to another.
fn part(random: &mut Random, length: usize) -> (usize, usize) {
    let from = random.below(length + 1);
    let to = (from + random.below(12)).min(length);
    (from, to)
}

fn replace(text: &[u8], from: usize, to: usize, bytes: &[u8]) -> Vec<u8> {
    [&text[..from], bytes, &text[to..]].concat()
}

/// The text with another token in place of one of its own.
fn exchange_token(random: &mut Random, text: &[u8]) -> Vec<u8> {
    let found = tokens(text);
    if found.is_empty() {
        return random.choose(&TOKENS).as_bytes().to_vec();
    }
    let (old, other) = (&found[random.below(found.len())], &found[random.below(found.len())]);
    let drawn = random.choose(&TOKENS);
    let new = match random.below(5) {
        0 => other.bytes,
        1 => b"",
        _ => drawn.as_bytes(),
    };
    replace(text, old.at, old.at + old.bytes.len(), new)
}

/// The text with another number in place of one of its own, often one at a limit or beside the old one.
fn exchange_number(random: &mut Random, text: &[u8]) -> Vec<u8> {
    let found: Vec<_> = tokens(text).into_iter().filter(|token| number(token.bytes).is_some()).collect();
    if found.is_empty() {
        return exchange_token(random, text);
    }
    let old = &found[random.below(found.len())];
    let value = number(old.bytes).expect("a number");
    let limit = random.choose(&LIMITS);
    let new = random.choose(&[limit, limit + 1, -limit, -limit - 1, value + 1, value - 1, -value, value * 2]);
    replace(text, old.at, old.at + old.bytes.len(), new.to_string().as_bytes())
}

fn change(random: &mut Random, text: &[u8]) -> Vec<u8> {
    let (from, to) = part(random, text.len());
    match random.below(14) {
        0 => replace(text, from, to, b""),
        1 => replace(text, to, to, &text[from..to]),
        2 => text[..from].to_vec(),
        3 => replace(text, from, from, &[random.choose(&BYTES)]),
        4 if from < text.len() => replace(text, from, from + 1, &[random.choose(&BYTES)]),
        5 if from < text.len() => replace(text, from, from + 1, &[text[from] ^ (1 << random.below(8))]),
        6 => [text, b" ", random.choose(&TOKENS).as_bytes()].concat(),
        7 | 8 => exchange_token(random, text),
        _ => exchange_number(random, text),
    }
}

/// One change, or a few.
pub fn mutated(random: &mut Random, text: &[u8]) -> Vec<u8> {
    let times = if random.one_in(4) { 1 + random.below(3) } else { 1 };
    (0..times).fold(text.to_vec(), |text, _| change(random, &text))
}
