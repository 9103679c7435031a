//! The words of the command line.

use crate::programs::Word;
use crate::scan::digits;

/// An option and its range.
pub type OptionForm = (&'static str, u64, u64);

const LARGEST: u64 = u64::MAX;

pub const MADE: [OptionForm; 4] =
    [("--cols", 2, 1024), ("--rows", 2, 1024), ("--layers", 2, 8), ("--nets", 0, 1_048_576)];

/// The names that a command takes, least and most, and its options.
pub fn form(command: &str) -> Option<(usize, usize, Vec<OptionForm>)> {
    let with_seed = |options: &[OptionForm]| [options, &[("--seed", 0, LARGEST)]].concat();
    let workers = ("--workers", 1, 8);
    Some(match command {
        "route" => {
            let others = [("--phases", 1, 16), ("--rounds", 0, 16), ("--budget", 1, 1 << 42)];
            (3, 3, with_seed(&[&[workers], &others[..]].concat()))
        }
        "measure" => (2, 2, vec![]),
        "judge" | "guide" => (3, 3, vec![]),
        "make" => (1, 1, with_seed(&MADE)),
        "trial" => (1, 1, MADE.to_vec()),
        "eco" => (4, 4, vec![]),
        "climb" => (4, 4, vec![("--turns", 1, 16)]),
        "reroute" => (2, 3, with_seed(&[workers, ("--rounds", 0, 400), ("--passes", 0, 16)])),
        "unavoidable" => (3, 4, vec![]),
        _ => return None,
    })
}

pub const COMMANDS: [&str; 8] = ["route", "measure", "judge", "make", "trial", "eco", "climb", "guide"];


fn is_name(word: &Word) -> bool {
    !word.is_empty() && word[0] != b'-'
}

fn all_differ(words: &[Word]) -> bool {
    (0..words.len()).all(|place| !words[..place].contains(&words[place]))
}

/// A number of 1 to 20 digits in a range.
fn value_in(word: &Word, least: u64, greatest: u64) -> Option<u64> {
    let value = digits(word).filter(|_| word.len() <= 20)?;
    (value >= i128::from(least) && value <= i128::from(greatest)).then_some(value as u64)
}

/// The command of `grouter`, `reroute` or `unavoidable` that words are; none where they are no command.
pub fn command_of<'a>(program: &'a str, words: &'a [Word]) -> Option<&'a str> {
    if words.iter().any(|word| std::str::from_utf8(word).is_err()) {
        return None;
    }
    let (command, words) = match program {
        "grouter" => (std::str::from_utf8(words.first()?).ok().filter(|word| COMMANDS.contains(word))?, &words[1..]),
        _ => (program, words),
    };
    let (least, most, options) = form(command)?;
    let count = words.iter().take(most).take_while(|word| is_name(word)).count();
    let (names, pairs) = words.split_at(count);
    if count < least || !all_differ(names) || pairs.len() % 2 == 1 {
        return None;
    }
    if command == "trial" {
        value_in(&names[0], 0, LARGEST)?;
    }
    let mut given = Vec::new();
    for pair in pairs.chunks(2) {
        let (_, least, greatest) = options.iter().find(|(word, ..)| word.as_bytes() == pair[0])?;
        value_in(&pair[1], *least, *greatest)?;
        given.push(pair[0].clone());
    }
    all_differ(&given).then_some(command)
}

/// What words of `congestion_map` ask for.
#[derive(Clone, Debug)]
pub struct AskedMap {
    pub names: Vec<Word>,
    pub is_picture: bool,
    pub layer: Option<usize>,
    pub layers: bool,
    pub cut: Option<Word>,
    pub greater: bool,
}

pub fn asked_map(words: &[Word]) -> Option<AskedMap> {
    if words.len() < 3 || words.iter().any(|word| std::str::from_utf8(word).is_err()) {
        return None;
    }
    let (names, options) = words.split_at(3);
    let is_picture = names[2].ends_with(b".svg");
    let is_known = is_picture || names[2].ends_with(b".csv");
    if !is_known || !names.iter().all(is_name) || !all_differ(names) {
        return None;
    }
    let mut asked = AskedMap { names: names.to_vec(), is_picture, layer: None, layers: false, cut: None, greater: false };
    let mut left = options.iter();
    while let Some(option) = left.next() {
        match option.as_slice() {
            b"--layer" if asked.layer.is_none() => asked.layer = Some(value_in(left.next()?, 1, 16)? as usize),
            b"--layers" if !is_picture && !asked.layers => asked.layers = true,
            b"--greater" if is_picture && !asked.greater => asked.greater = true,
            b"--cut" if is_picture && asked.cut.is_none() => {
                asked.cut = Some(left.next().filter(|name| is_name(name) && !names.contains(name))?.clone());
            }
            _ => return None,
        }
    }
    Some(asked)
}

/// What is said of words that are no command.
pub fn usage(program: &str) -> String {
    let form = match program {
        "grouter" => "grouter route|measure|judge|make|trial|eco|climb|guide",
        "reroute" => "reroute IN [ROUTES] NEW",
        "unavoidable" => "unavoidable IN ROUTES [CERT] NEW",
        _ => "congestion_map IN ROUTES MAP [--cut CERT] [--layer L] [--layers] [--greater]",
    };
    format!("refused 2\nusage: {form}\n")
}
