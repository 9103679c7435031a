//! Words, figures and times of the plain programs.

use std::fmt::Display;
use std::time::Instant;

/// Whether this option is among the words.
pub fn flag(words: &[String], name: &str) -> bool {
    words.iter().any(|word| word == name)
}

/// The number behind this option.
pub fn number(words: &[String], name: &str) -> Option<u64> {
    let place = words.iter().position(|word| word == name)?;
    words.get(place + 1)?.parse().ok()
}

/// Prints a figure.
pub fn say(name: &str, value: impl Display) {
    println!("{name} {value}");
}

/// Tells how long each stage took.
pub struct Clock {
    tells: bool,
    since: Instant,
}

impl Clock {
    pub fn started(tells: bool) -> Clock {
        Clock { tells, since: Instant::now() }
    }

    /// Ends a stage. What a build counts is told with it.
    pub fn tell(&mut self, stage: &str) {
        if self.tells {
            println!("seconds of {stage}: {:.3}", self.since.elapsed().as_secs_f64());
            plain_std::tally::tell();
        }
        self.since = Instant::now();
    }
}
