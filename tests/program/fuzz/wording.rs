//! Cases of the command line: whether words are a command.

use crate::programs::{same, word, Bench, Fault, Found, Word};
use crate::random::Random;
use crate::words::{asked_map, command_of, form, usage, COMMANDS};

const VALUES: [&str; 26] = [
    "0", "1", "2", "3", "4", "5", "8", "9", "16", "17", "400", "401", "1024", "1025", "1048576", "1048577", "4398046511104",
    "4398046511105", "18446744073709551615", "18446744073709551616", "00000000000000000004", "000000000000000000004", "+1", "-1", "", " 1",
];

const ODD: [&[u8]; 14] = [
    b"", b"-", b"--", b"-x", b"--help", b"--version", b"-h", b"--workers=2", b"--work", b"\xff", b"route", b"\xd9\xa3", b"--seed", b"--cut",
];

const OPTIONS: [&str; 17] = [
    "--workers", "--phases", "--rounds", "--seed", "--budget", "--cols", "--rows", "--layers", "--nets", "--turns", "--passes", "--layer",
    "--cut", "--greater", "--Seed", "-seed", "seed",
];

fn drawn_name(random: &mut Random, bench: &Bench) -> Word {
    let name = random.choose(&["a", "b", "c", "d", "e.svg", "f.csv", "g.SVG", ".svg"]);
    bench.path(name)
}

/// Words that are nearly those of a command.
fn drawn_words(random: &mut Random, bench: &Bench, program: &str, command: &str) -> Vec<Word> {
    let mut words: Vec<Word> = if program == "grouter" { vec![word(command)] } else { vec![] };
    let (least, most, options) = form(command).unwrap_or((3, 3, vec![]));
    let count = least + random.below(most - least + 1);
    let names = ["a", "b", "c", "d"];
    words.extend(names[..count].iter().map(|name| bench.path(name)));
    if command == "trial" {
        words[1] = word(random.choose(&VALUES));
    }
    if program == "congestion_map" {
        words[2] = bench.path(random.choose(&["e.svg", "e.svg", "f.csv", "f.csv", "g.SVG", "svg", ".csv"]));
        map_options(random, bench, &mut words);
    }
    for (name, least, greatest) in options {
        if random.one_in(3) {
            let drawn = word(random.choose(&VALUES));
            let value = random.choose(&[word(least), word(greatest), drawn]);
            words.extend([word(name), value]);
        }
    }
    words
}

fn map_options(random: &mut Random, bench: &Bench, words: &mut Vec<Word>) {
    for _ in 0..random.below(4) {
        match random.below(5) {
            0 => words.extend([word("--layer"), word(random.choose(&VALUES))]),
            1 => words.push(word("--greater")),
            2 => words.push(word("--layers")),
            3 => words.extend([word("--cut"), drawn_name(random, bench)]),
            _ => words.push(word(random.choose(&OPTIONS))),
        }
    }
}

fn spoil(random: &mut Random, bench: &Bench, words: &mut Vec<Word>) {
    let place = random.below(words.len() + 1);
    let (odd, option, name) = (random.choose(&ODD).to_vec(), word(random.choose(&OPTIONS)), drawn_name(random, bench));
    let value = word(random.choose(&VALUES));
    let new = random.choose(&[odd, option, name, value]);
    match random.below(4) {
        0 => words.insert(place, new),
        1 if place < words.len() => drop(words.remove(place)),
        2 if place < words.len() => words.push(words[place].clone()),
        _ if place < words.len() => words[place] = new,
        _ => words.push(new),
    }
}

/// Whether a run of the words would take long, since they ask for a large design.
fn asks_for_much(words: &[Word]) -> bool {
    let long = |word: &Word| std::str::from_utf8(word).ok().and_then(|value| value.parse::<u64>().ok()).is_some_and(|value| value > 40);
    let shape = [&b"--cols"[..], b"--rows", b"--nets"];
    words.windows(2).any(|pair| shape.contains(&pair[0].as_slice()) && long(&pair[1])) || words[0] == b"trial" && words.len() < 4
}

pub fn try_words(bench: &mut Bench, random: &mut Random) -> Found {
    let program = random.choose(&["grouter", "grouter", "grouter", "reroute", "unavoidable", "congestion_map"]);
    let command = if program == "grouter" { random.choose(&COMMANDS) } else { program };
    let mut words = drawn_words(random, bench, program, command);
    if random.one_in(3) {
        spoil(random, bench, &mut words);
    }
    let command = match program {
        "congestion_map" => asked_map(&words).map(|_| program),
        _ => command_of(program, &words),
    };
    match command {
        None => bench.expect(program, &words, 2, usage(program).as_bytes()),
        Some("make" | "trial") if asks_for_much(&words) => Err(Fault::Skipped),
        Some("make" | "trial") => {
            let ran = bench.run(program, &words)?;
            same("the status", ran.status, 0)
        }
        // no input is there
        Some(_) => bench.expect(program, &words, 6, b"refused 6\n"),
    }
}
